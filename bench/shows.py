#!/usr/bin/env python3
"""Times showing a song as a script, and telling what it costs: bench/shows.py [PROGRAM [SONG..]]

Shows each song, edits the empty song by that script, which must give the song that a copy gives, and tells its parts; and
prints the milliseconds of processor time of a run of each, less those of a run that only starts the program, and those of
a thousand lines of the script, which are to be alike for each song. The songs are made here, with patterns that differ:
of about 20, 60 and 120 KB, and one with as many subtunes, patterns, instruments and rows of tables as a song may have,
whose script may be too large, which is told. SONG is a GoatTracker 2 song. PROGRAM is the built program; without it
`./goat` of this repository is called once, so that it is built, and its binary is used.
"""
import os
import shutil
import subprocess
import sys
import tempfile

from packing import processor_time
from runs import TOP, built_program
from songs import noted_song

TIMES = 20
SHAPES = [(31, 8), (104, 16), (208, 16), (208, 32)]
SHOW = ["show", "in", "script"]
EDIT = ["edit", "empty", "script", "out"]
COPY = ["copy", "in", "copied"]
PARTS = ["parts", "in", "none", "1"]


def status_of(program, words, folder, allowed):
    """The status of one run, which is one of those that are allowed."""
    status = subprocess.run([program, *words], cwd=folder, stdout=subprocess.DEVNULL).returncode
    if status not in allowed:
        sys.exit("status %d of %s" % (status, " ".join(words)))
    return status


def mean_time(program, words, folder, status=0):
    """The mean milliseconds of processor time of some runs with this status, and what they printed."""
    runs = [processor_time(program, words, folder, status) for _ in range(TIMES)]
    return 1000 * sum(seconds for seconds, _ in runs) / TIMES, runs[-1][1]


def bytes_of(folder, name):
    with open(os.path.join(folder, name), "rb") as file:
        return file.read()


def shown(program, folder, start):
    """What is to be said of a song as a script."""
    status = status_of(program, SHOW, folder, [0, 7])
    show, said = mean_time(program, SHOW, folder, status)
    if status == 7:
        return "show %.2f ms: %s" % (show - start, said)
    edit, _ = mean_time(program, EDIT, folder)
    status_of(program, COPY, folder, [0])
    if bytes_of(folder, "out") != bytes_of(folder, "copied"):
        sys.exit("the script that was shown doesn't make the song")
    lines = bytes_of(folder, "script").count(b"\n")
    return "show %.2f ms, edit %.2f ms: %d lines, %.3f and %.3f ms a thousand" % (
        show - start, edit - start, lines, 1000 * (show - start) / lines, 1000 * (edit - start) / lines)


def main():
    program = os.path.abspath(sys.argv[1]) if len(sys.argv) > 1 else built_program()
    with tempfile.TemporaryDirectory() as folder:
        song = os.path.join(folder, "in")
        shutil.copyfile(os.path.join(TOP, "demo", "empty.sng"), os.path.join(folder, "empty"))
        start, _ = mean_time(program, ["nothing"], folder, 1)
        for made in [*SHAPES, *sys.argv[2:]]:
            if isinstance(made, str):
                shutil.copyfile(made, song)
            else:
                with open(song, "wb") as file:
                    file.write(noted_song(*made))
            name = os.path.basename(made) if isinstance(made, str) else "made here"
            print("%-12s %6d bytes: %s" % (name, os.path.getsize(song), shown(program, folder, start)))
            parts, said = mean_time(program, PARTS, folder, status_of(program, PARTS, folder, [0, 6, 7]))
            lines = said.splitlines()
            print("%-12s parts %.2f ms: %d lines, the last one: %s" % ("", parts - start, len(lines), lines[-1]))


if __name__ == "__main__":
    main()
