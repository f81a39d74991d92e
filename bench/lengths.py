#!/usr/bin/env python3
"""Checks `goat measure`: bench/lengths.py PROGRAM [--calls N] [--options SKIP SPEED] [--file X.sid].. [SONG..]

Packs each song at $1000 and $FC, lets `goat measure` tell how long its subtunes are, with N plays of each (100000 unless
given), and plays them on the machine of this folder, which keeps a sum of every state: registers, flags, stack pointer and
memory. So it finds the first state that comes again, and after how many plays, by another way than the program, and counts
clock cycles by another table. What the program prints must be what this machine finds, to the byte; where a call doesn't
return, it must stop in the same one. The registers must be those of this machine in each frame of each subtune, twice
around, as `goat run` prints them, and `goat trace` for a song; so they come again as the line says.

SONG is a GoatTracker 2 song, and X.sid any PSID file, which needn't be packed by goat. Without either the songs of demo/
are taken that can be played. For each it prints what `measure` does, and the seconds of processor time that it takes; and at
the end how many times longer that is than `run` takes for the frames that are compared. A file whose subtunes all repeat is
to be measured in a second for each 13,000 plays till then, of all of them, and in one second if there are fewer. The status
is 1 where something differs, or takes longer. This machine plays some 3000 frames a second: N limits what it does.
"""
import argparse
import hashlib
import os
import resource
import struct
import subprocess
import sys
import tempfile
import time

from cycles import REGISTERS, demo_songs
from machine6502 import Machine, Stopped

MOST_FRAMES = 100_000
PLAYS_A_SECOND = 13_000


class File:
    """What is needed of a PSID file."""

    def __init__(self, data):
        load, init, self.play, self.songs = struct.unpack_from(">4H", data, 8)
        self.load = load or data[0x7C] | data[0x7D] << 8
        self.image = data[0x7C if load else 0x7E :]
        self.init = init or self.load


class Found:
    """What this machine finds of a subtune: the clock cycles of init and of each play, the registers after each call, when
    its state comes again, and the call that doesn't return; up to there."""

    def __init__(self, file, song, calls):
        self.cycles, self.registers, self.repeat, self.stopped = [], [], None, None
        machine = Machine()
        machine.memory[file.load : file.load + len(file.image)] = file.image
        seen = {}
        for call in range(calls + 1):
            try:
                took = machine.call(file.play, machine.a) if call else machine.call(file.init, song)
            except Stopped:
                self.stopped = call
                return
            self.cycles.append(took[0])
            self.registers.append(machine.memory[REGISTERS : REGISTERS + 25].hex())
            processor = bytes((machine.a, machine.x, machine.y, machine.p, machine.s))
            state = hashlib.blake2b(machine.memory + processor, digest_size=16).digest()
            if state in seen:
                self.repeat = seen[state], call - seen[state]
                return
            seen[state] = call

    def line(self, number, calls):
        """The line of the subtune; of one that stops none."""
        plays = self.cycles[1:]
        again = "repeats from %d after %d" % self.repeat if self.repeat else "not repeated in %d calls" % calls
        return "subtune %d: init %d, play at most %d in call %d, %s" % (
            number, self.cycles[0], max(plays), plays.index(max(plays)) + 1, again)

    def frames(self):
        """The registers after init and each play up to the end of the second time around, as far as a word can say."""
        if not self.repeat:
            return self.registers[: MOST_FRAMES + 1]
        again = self.registers[self.repeat[0] + 1 :]
        return (self.registers + again)[: MOST_FRAMES + 1]


def children_seconds():
    """The seconds of processor time of all commands that have ended."""
    used = resource.getrusage(resource.RUSAGE_CHILDREN)
    return used.ru_utime + used.ru_stime


def ran(words):
    """What a command prints, its status, and the seconds of processor time that it takes."""
    begun = children_seconds()
    done = subprocess.run(words, capture_output=True, text=True)
    return done.stdout.splitlines(), done.returncode, children_seconds() - begun


def packed(program, song, options, folder):
    """The name of the packed song."""
    name = os.path.join(folder, "packed.sid")
    words = [program, "pack", song, name, "psid", "1000", "FC", *options]
    said, status, _ = ran(words)
    if status != 0:
        sys.exit("%s: %s" % (" ".join(words), " ".join(said)))
    return name


def expected(songs, calls):
    """The lines of subtunes that `measure` should print, and its status."""
    lines = []
    for number, song in enumerate(songs, 1):
        if song.stopped is not None:
            return lines, 13
        lines.append(song.line(number, calls))
    return lines, 0


def differing_frame(words, number, frames):
    """The first frame whose registers aren't these where they are played with such words; and the seconds that it takes."""
    said, _, seconds = ran([*words[:3], str(number), str(len(frames) - 1), *words[3:]])
    told = [line.split()[1] for line in said]
    wrong = [frame for frame, (one, other) in enumerate(zip(told, frames)) if one != other]
    if len(told) != len(frames):
        wrong.append(min(len(told), len(frames)))
    return (wrong[0] if wrong else None), seconds


def compared(program, name, calls, song_name=None, options=()):
    """Whether all agrees of a PSID file, and of the song from which it was packed, if any; the seconds of `measure`, and of
    `run` for the frames."""
    with open(name, "rb") as file:
        file = File(file.read())
    begun = time.perf_counter()
    songs = [Found(file, song, calls) for song in range(min(file.songs, 256))]
    own = time.perf_counter() - begun
    said, status, seconds = ran([program, "measure", name, str(calls)])
    lines, wanted = expected(songs, calls)
    right = status == wanted and said[: len(lines)] == lines and len(said) == len(lines) + (wanted != 0)
    if wanted:
        stop = songs[len(lines)].stopped
        right = right and said[-1].startswith("machine stopped: ") and said[-1].endswith(" in call %d" % stop)
    print("%s: %s; measure %.2f s, this machine %.1f s" % (
        os.path.basename(song_name or name), "; ".join(said), seconds, own))
    if not right:
        print("  differs: status %d; %s" % (wanted, "; ".join(lines)))
    plays = sum(len(song.cycles) - 1 for song in songs)
    if all(song.repeat for song in songs) and seconds > max(1, plays / PLAYS_A_SECOND):
        right = False
        print("  takes longer than a second for %d plays" % PLAYS_A_SECOND)
    running = 0
    # a word names 255 subtunes
    for number, song in enumerate(songs[: min(len(lines), 255)], 1):
        frames = song.frames()
        wrong, spent = differing_frame([program, "run", name], number, frames)
        running += spent
        if song_name and wrong is None:
            wrong, _ = differing_frame([program, "trace", song_name, *options], number, frames)
        if wrong is not None:
            right = False
            print("  subtune %d has other registers in frame %d" % (number, wrong))
    return right, seconds, running


def main():
    parser = argparse.ArgumentParser(usage=__doc__.split("\n")[0].split(": ")[1])
    parser.add_argument("program")
    parser.add_argument("songs", nargs="*")
    parser.add_argument("--file", action="append", default=[], dest="files")
    parser.add_argument("--calls", type=int, default=100_000)
    parser.add_argument("--options", nargs=2, default=["none", "1"])
    words = parser.parse_intermixed_args()
    program = os.path.abspath(words.program)
    songs = words.songs or ([] if words.files else demo_songs(program))
    results = []
    with tempfile.TemporaryDirectory() as folder:
        for song in songs:
            name = packed(program, song, words.options, folder)
            results.append(compared(program, name, words.calls, song, words.options))
    for name in words.files:
        results.append(compared(program, name, words.calls))
    rights, measuring, running = zip(*results)
    print("%d of %d files agree; measure takes %.1f times as long as run for the frames that are compared"
          % (sum(rights), len(rights), sum(measuring) / max(sum(running), 0.001)))
    sys.exit(0 if all(rights) else 1)


if __name__ == "__main__":
    main()
