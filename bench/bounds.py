#!/usr/bin/env python3
"""Times bounds beside packing: bench/bounds.py [PROGRAM [SONG..]]

Packs each song, makes the numbers that bound its calls, and checks them, in turns, and prints the processor time of a
run of each in milliseconds, that of a run that only starts the program, and how many packings `bound` and `bound-check`
take, with that start and without it. Where one of them takes twice the time of `pack` or more, without the start, the
status is 1. The first song is made here, as in bench/packing.py. SONG is a GoatTracker 2 song. PROGRAM is the built
program; without it `./goat` of this repository is called once, so that it is built, and its binary is used.
"""
import os
import sys

from packing import PACK, timed_songs
from runs import built_program

BOUND = ["bound", "in", "numbers", "none", "1"]
CHECK = ["bound-check", "in", "numbers", "none", "1"]


def main():
    program = os.path.abspath(sys.argv[1]) if len(sys.argv) > 1 else built_program()
    quick = True
    for name, size, (start, pack, bound, check), said in timed_songs(program, sys.argv[2:], [PACK, BOUND, CHECK]):
        print("%-12s %6d bytes: start %.2f, pack %.2f, bound %.2f, bound-check %.2f ms; %s"
              % (name, size, start, pack, bound, check, said))
        for job, time in [("bound", bound), ("bound-check", check)]:
            alone = (time - start) / max(pack - start, 1e-6)
            print("  %s: %.2f packings, %.2f without the start" % (job, time / pack, alone))
            quick = quick and alone < 2
    sys.exit(0 if quick else 1)


if __name__ == "__main__":
    main()
