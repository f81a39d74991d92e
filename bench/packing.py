#!/usr/bin/env python3
"""Times packing beside copying: bench/packing.py [PROGRAM [SONG..]]

Packs and copies each song, in turns, and prints the processor time of a run of each in milliseconds, that of a run that
only starts the program, and how often a copy goes into a packing, with that start and without it. The first song is
made here: about 20 KB, with eight subtunes, and patterns that differ. SONG is a GoatTracker 2 song. PROGRAM is the built
program; without it `./goat` of this repository is called once, so that it is built, and its binary is used.
"""
import os
import resource
import shutil
import subprocess
import sys
import tempfile

from runs import built_program
from songs import noted_song

TIMES = 200
START = ["nothing"]
COPY = ["copy", "in", "out"]
PACK = ["pack", "in", "out", "psid", "1000", "FC"]


def processor_time(program, words, folder, status):
    """Seconds of processor time of one run, and what it printed."""
    before = resource.getrusage(resource.RUSAGE_CHILDREN)
    run = subprocess.run([program, *words], cwd=folder, capture_output=True, text=True)
    after = resource.getrusage(resource.RUSAGE_CHILDREN)
    if run.returncode != status:
        sys.exit("status %d of %s: %s" % (run.returncode, " ".join(words), run.stdout.strip()))
    return after.ru_utime + after.ru_stime - before.ru_utime - before.ru_stime, run.stdout.strip()


def mean_times(program, folder, jobs):
    """Milliseconds of a start and of each of these jobs, made in turns, and what the last one printed."""
    runs, said = [(START, 1), *((words, 0) for words in jobs)], ""
    sums = [0.0] * len(runs)
    for _ in range(TIMES):
        for place, (words, status) in enumerate(runs):
            seconds, said = processor_time(program, words, folder, status)
            sums[place] += seconds
    return [1000 * it / TIMES for it in sums], said


def timed_songs(program, names, jobs):
    """The name and the bytes of the song that is made here and then of these, with the times of the jobs on each."""
    with tempfile.TemporaryDirectory() as folder:
        song = os.path.join(folder, "in")
        for name in [None, *names]:
            if name:
                shutil.copyfile(name, song)
            else:
                with open(song, "wb") as file:
                    file.write(noted_song(31, 8))
            yield os.path.basename(name or "made here"), os.path.getsize(song), *mean_times(program, folder, jobs)


def main():
    program = os.path.abspath(sys.argv[1]) if len(sys.argv) > 1 else built_program()
    for name, size, (start, copy, pack), said in timed_songs(program, sys.argv[2:], [COPY, PACK]):
        print("%-12s %6d bytes: start %.2f, copy %.2f, pack %.2f ms; %.2f copies, %.2f without the start; %s"
              % (name, size, start, copy, pack, pack / copy, (pack - start) / max(copy - start, 1e-6), said))


if __name__ == "__main__":
    main()
