#!/usr/bin/env python3
"""Times joining beside copying: bench/joining.py [PROGRAM]

Joins two songs of 120 KB, as many as one song may have of most parts, and copies the first, in turns, and prints the
milliseconds of processor time of a run of each, and how often a copy goes into a join. Each subtune of the joined song
must print the trace that it printed in its own file. PROGRAM is the built program; without it `./goat` of this
repository is called once, so that it is built, and its binary is used.
"""
import os
import sys
import tempfile

from packing import processor_time
from runs import built_program
from songs import END, REST

TIMES = 50
SIZE = 120 * 1024
COPY = ["copy", "in", "out"]
JOIN = ["join", "in", "second", "out"]


def half_song(patterns, subtunes, step):
    """Half of what a song may have: patterns that differ by the step, with ignored rows, and ignored bytes behind."""
    order = bytes([patterns + 1, *range(patterns), 0xFF, 0])
    instruments = b"".join(bytes([0x09, 0xA0, 1, 1, 1, n, 1, 2, 9]) + bytes(16) for n in range(1, 32))
    programs = bytes([127]) + bytes([0x41] * 126 + [0xFF]) + bytes([step] * 126 + [0])
    speeds = bytes([127]) + bytes([0] * 127) + bytes([step] * 127)
    parts = [b"GTS5" + bytes(96), bytes([subtunes]) + 3 * subtunes * order, bytes([31]) + instruments]
    parts += [3 * programs + speeds, bytes([patterns])]
    for pattern in range(patterns):
        notes = (bytes([0x60 + (n * (pattern + step)) % 89, 1 + n % 31, 0, 0]) for n in range(128))
        parts.append(bytes([255]) + b"".join(notes) + END + 126 * REST)
    song = b"".join(parts)
    return song + bytes(SIZE - len(song))


def trace(program, name, subtune, folder):
    return processor_time(program, ["trace", name, str(subtune), "200", "none", "1"], folder, 0)[1]


def main():
    program = os.path.abspath(sys.argv[1]) if len(sys.argv) > 1 else built_program()
    with tempfile.TemporaryDirectory() as folder:
        for name, step in [("in", 1), ("second", 2)]:
            with open(os.path.join(folder, name), "wb") as file:
                file.write(half_song(104, 16, step))
        sums = [0.0, 0.0]
        for _ in range(TIMES):
            for place, words in enumerate([COPY, JOIN]):
                sums[place] += processor_time(program, words, folder, 0)[0]
        for subtune in range(1, 17):
            for name, number in [("in", subtune), ("second", 16 + subtune)]:
                if trace(program, "out", number, folder) != trace(program, name, subtune, folder):
                    sys.exit("subtune %d of the joined song isn't subtune %d of %s" % (number, subtune, name))
        copy, join = [1000 * it / TIMES for it in sums]
        print("two songs of %d bytes: joined in %.1f ms, %.2f copies of one; a copy %.1f ms; all 32 subtunes as they were"
              % (SIZE, join, join / copy, copy))


if __name__ == "__main__":
    main()
