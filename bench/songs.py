#!/usr/bin/env python3
"""Times goat on long songs: bench/songs.py [PROGRAM]

Packs and copies silent songs of about 16 KB, 64 KB and 256 KB (the most that a file may have), checks songs of about
these sizes that use all that they store, packs songs whose patterns differ, and prints for each the processor time of a
run and the bytes of the song that it takes a second. The time of a run on the smallest song, which is that of starting
the program, is taken off first.
"""
import os
import resource
import subprocess
import sys
import tempfile

from runs import built_program

RUNS = 50
LIMIT = 262144
ORDERLIST = bytes([2, 0, 0xFF, 0])
REST = bytes([0xBD, 0, 0, 0])
END = bytes([0xFF, 0, 0, 0])


def silent_song(patterns, size):
    """A silent song of so many patterns, with ignored rows in each and ignored bytes behind them all."""
    pattern = bytes([255]) + 128 * REST + END + 126 * REST
    parts = [b"GTS5" + bytes(96), bytes([1]) + 3 * ORDERLIST, bytes(5), bytes([patterns]) + patterns * pattern]
    song = b"".join(parts)
    return song + bytes(max(0, size - len(song)))


def table(rows, jump):
    """A table whose rows follow each other, the last one a jump to the first where the table has jumps."""
    lefts = bytes([0x41] * rows)
    return bytes([rows]) + (lefts[1:] + b"\xFF" if jump else lefts) + bytes([1] * rows)


def sounding_song(patterns, subtunes):
    """A song whose orderlists each name all patterns, with each command, instrument and row of a table in use."""
    order = bytes([patterns + 1, *range(patterns), 0xFF, 0])
    instruments = b"".join(bytes([0x09, 0xA0, n, n, n, n, 1, 2, 9]) + bytes(16) for n in range(1, 64))
    tables = 3 * table(255, True) + table(255, False)
    rows = b"".join(bytes([0x90, 1 + n % 63, n % 16, 1 + n]) for n in range(128))
    pattern = bytes([129]) + rows + END
    parts = [
        b"GTS5" + bytes(96),
        bytes([subtunes]) + 3 * subtunes * order,
        bytes([63]) + instruments,
        tables,
        bytes([patterns]) + patterns * pattern,
    ]
    return b"".join(parts)


def noted_song(patterns, subtunes):
    """A song whose patterns differ and may be packed: notes, and an instrument in each sixteenth row."""
    order = bytes([patterns + 1, *range(patterns), 0xFF, 0])
    instruments = b"".join(bytes([0x09, 0xA0, 4 * n - 3, 4 * n - 3, 0, n, 1, 2, 9]) + bytes(16) for n in range(1, 64))
    rows = [(0xFF, 0) if n % 4 == 3 else (0x41, n % 128) for n in range(255)]
    programs = bytes([255]) + bytes(left for left, _ in rows) + bytes(right for _, right in rows)
    tables = 2 * programs + bytes([0]) + table(255, False)
    parts = [b"GTS5" + bytes(96), bytes([subtunes]) + 3 * subtunes * order, bytes([63]) + instruments, tables]
    parts.append(bytes([patterns]))
    for pattern in range(patterns):
        notes = (bytes([0x60 + (n * (pattern + 1)) % 89, 1 + n % 63 if n % 16 == 0 else 0, 0, 0]) for n in range(128))
        parts.append(bytes([129]) + b"".join(notes) + END)
    return b"".join(parts)


def processor_time(program, words, folder, status):
    """Seconds of processor time of one run, the mean of many."""
    before = resource.getrusage(resource.RUSAGE_CHILDREN)
    for _ in range(RUNS):
        run = subprocess.run([program, *words], cwd=folder, stdout=subprocess.DEVNULL)
        if run.returncode != status:
            sys.exit("status %d of %s" % (run.returncode, " ".join(words)))
    after = resource.getrusage(resource.RUSAGE_CHILDREN)
    return (after.ru_utime + after.ru_stime - before.ru_utime - before.ru_stime) / RUNS


def main():
    program = os.path.abspath(sys.argv[1]) if len(sys.argv) > 1 else built_program()
    silent = [silent_song(*shape) for shape in [(1, 0), (15, 16384), (63, 65536), (208, LIMIT)]]
    sounding = [sounding_song(*shape) for shape in [(1, 1), (25, 8), (110, 16), (208, 32)]]
    noted = [noted_song(*shape) for shape in [(1, 1), (25, 8), (110, 16), (208, 32)]]
    pack = ["pack", "in", "out", "raw", "1000", "FC"]
    runs = [
        ("copy", ["copy", "in", "out"], silent, 0),
        ("pack", pack, silent, 0),
        ("check", ["check", "in"], sounding, 0),
        ("notes", pack, noted, 0),
    ]
    with tempfile.TemporaryDirectory() as folder:
        for name, words, songs, status in runs:
            start = None
            for song in songs:
                with open(os.path.join(folder, "in"), "wb") as file:
                    file.write(song)
                seconds = processor_time(program, words, folder, status)
                if start is None:
                    start = seconds
                    continue
                work = max(seconds - start, 1e-6)
                print(f"{name:5} {len(song):6} bytes  {1000 * seconds:6.2f} ms a run  {len(song) / work:13,.0f} bytes a second")


if __name__ == "__main__":
    main()
