#!/usr/bin/env python3
"""Counts the cycles of a packed song's calls: bench/cycles.py [--program PROGRAM] [--calls N] [--options SKIP SPEED] [SONG..]

Packs each song at $1000 and $FC, and plays each of its subtunes on a machine of this folder's own, with one init and N
plays (3000 unless given). Prints how long the image is, and for each subtune the cycles of init, the greatest and the
mean number of a play, the first call that takes the greatest, and how much of a picture that is: a PAL picture has 312
raster lines of 63 cycles. Of several subtunes it prints the greatest and the mean of them all, too. A call's cycles are
those from its first instruction to its RTS, which it counts; the JSR before it takes 6 more.

Beside them it prints the cycles that `goat bound` tells of the song with the same options, and how many times the
greatest measured init and play they are. No measured call may take more. After each call the SID's registers must be
those of `goat trace`, and nothing may have been written but the image, the two bytes of page 0, the stack, the
registers, and with a SPEED above 1 the timer. Else the status is 1.

SONG is a GoatTracker 2 song; without one those of demo/ are taken that can be played. PROGRAM is the script goat above
this folder, which builds the program where it must, unless it is given.
"""
import argparse
import os
import subprocess
import sys
import tempfile

from machine6502 import Machine

TOP = os.path.dirname(os.path.dirname(os.path.abspath(__file__)))
ADDRESS = 0x1000
POINTER = 0xFC
REGISTERS = 0xD400
LINE, PICTURE = 63, 312 * 63


def may_be_written(at, length, speed):
    return (
        ADDRESS <= at < ADDRESS + length
        or at in (POINTER, POINTER + 1)
        or 0x100 <= at < 0x200
        or REGISTERS <= at < REGISTERS + 25
        or speed > 1 and at in (0xDC04, 0xDC05)
    )


def traced(program, song, subtune, calls, options):
    """The registers after each call, as `goat trace` prints them."""
    words = [program, "trace", song, str(subtune + 1), str(calls), *options]
    run = subprocess.run(words, capture_output=True, text=True)
    if run.returncode != 0:
        sys.exit("%s: %s" % (" ".join(words), run.stdout.strip()))
    return [line.split()[1] for line in run.stdout.splitlines()]


def packed(program, song, options):
    """The image, and how many subtunes it has."""
    with tempfile.TemporaryDirectory() as folder:
        name = os.path.join(folder, "packed.sid")
        words = [program, "pack", song, name, "psid", "%04X" % ADDRESS, "%02X" % POINTER, *options]
        run = subprocess.run(words, capture_output=True, text=True)
        if run.returncode != 0:
            sys.exit("%s: %s" % (" ".join(words), run.stdout.strip()))
        with open(name, "rb") as file:
            data = file.read()
    return data[0x7E:], int.from_bytes(data[0x0E:0x10], "big")


def told(program, song, options):
    """The cycles that a call of init and one of play take at most, as `goat bound` prints them."""
    with tempfile.TemporaryDirectory() as folder:
        words = [program, "bound", song, os.path.join(folder, "packed.bound"), *options]
        run = subprocess.run(words, capture_output=True, text=True)
    if run.returncode != 0:
        sys.exit("%s: %s" % (" ".join(words), run.stdout.strip()))
    _, init, _, play = run.stdout.split()
    return int(init), int(play)


def measured(image, subtune, wanted, speed):
    """The cycles of init, the list of those of the plays, and what is wrong, or none."""
    machine = Machine()
    machine.memory[ADDRESS : ADDRESS + len(image)] = image
    machine.written = set()
    cycles = []
    for call, registers in enumerate(wanted):
        cycles.append(machine.call(ADDRESS + 3 if call else ADDRESS, machine.a if call else subtune)[0])
        if machine.memory[REGISTERS : REGISTERS + 25].hex() != registers:
            return cycles[0], cycles[1:], "call %d leaves other registers than the trace" % call
    strange = [at for at in sorted(machine.written) if not may_be_written(at, len(image), speed)]
    return cycles[0], cycles[1:], "$%04X is written" % strange[0] if strange else None


def demo_songs(program):
    """The songs of demo/ that can be played: a song without a note is there to begin with."""
    demo = os.path.join(TOP, "demo")
    songs = [os.path.join(demo, name) for name in sorted(os.listdir(demo)) if name.endswith(".sng")]
    return [song for song in songs if subprocess.run([program, "trace", song, "1", "0"], capture_output=True).returncode == 0]


def main():
    parser = argparse.ArgumentParser(usage=__doc__.split("\n")[0].split(": ")[1])
    parser.add_argument("songs", nargs="*")
    parser.add_argument("--program", default=os.path.join(TOP, "goat"))
    parser.add_argument("--calls", type=int, default=3000)
    parser.add_argument("--options", nargs=2, default=["none", "1"])
    words = parser.parse_args()
    program = os.path.abspath(words.program)
    songs = words.songs or demo_songs(program)
    right = True
    for song in songs:
        image, subtunes = packed(program, song, words.options)
        print("%s: image of %d bytes" % (os.path.basename(song), len(image)))
        inits, greatest, means = [], [], []
        for subtune in range(subtunes):
            wanted = traced(program, song, subtune, words.calls, words.options)
            first, plays, wrong = measured(image, subtune, wanted, int(words.options[1]))
            most = max(plays, default=0)
            mean = sum(plays) / max(1, len(plays))
            print("  subtune %d: init %d cycles; play %d at most (call %d; %.1f raster lines, %.1f %% of a picture), %d in the mean"
                  % (subtune + 1, first, most, plays.index(most) + 1 if plays else 0, most / LINE, 100 * most / PICTURE, mean))
            inits.append(first)
            greatest.append(most)
            means.append(mean)
            if wrong:
                right = False
                print("  " + wrong)
        if subtunes > 1:
            print("  all subtunes: play %d at most, %d in the mean" % (max(greatest), sum(means) / subtunes))
        bounds = told(program, song, words.options)
        print("  bound: " + "; ".join(
            "%s %d, %.2f times the greatest measured" % (name, bound, bound / max(1, most))
            for name, bound, most in zip(("init", "play"), bounds, (max(inits), max(greatest)))))
        if max(inits) > bounds[0] or max(greatest) > bounds[1]:
            right = False
            print("  a call takes more than its bound")
    sys.exit(0 if right else 1)


if __name__ == "__main__":
    main()
