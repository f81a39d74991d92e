#!/usr/bin/env python3
"""Times scripts of edits: bench/edits.py [PROGRAM]

Runs scripts of about a million bytes on a song of 208 patterns of 128 rows, about 120 KB: rows that are set, rows that are
put in and taken out, edits that are undone and redone, orderlists, instruments, and patterns that are transposed; and one
of 20,000 bytes on table rows whose pointers move in every pattern. Prints for each the processor time and the commands done
a second; the time of an empty script is taken off first.
"""
import os
import resource
import subprocess
import sys
import tempfile

from runs import built_program
from songs import sounding_song

PATTERNS = 208


def repeated(lines, most):
    """The lines again and again, up to so many bytes, with pattern, row and place running through the song."""
    script, size, n = [], 0, 0
    while True:
        line = lines[n % len(lines)].format(p=n // len(lines) % PATTERNS, r=n // len(lines) % 128, i=1 + n % 63)
        size += len(line) + 1
        if size > most:
            return script
        script.append(line)
        n += 1


SCRIPTS = [
    ("rows set", 1000000, ["row {p:02X} {r:02X} 90 01 00 00"]),
    ("rows out and in", 1000000, ["row-delete {p:02X} {r:02X}", "row-insert {p:02X} {r:02X} 90 01 08 01"]),
    ("undo and redo", 1000000, ["row {p:02X} {r:02X} 90 01 00 00", "undo", "redo"]),
    ("orderlists", 1000000, ["order 01 02 {r:02X} 00", "order-restart 01 02 {r:02X}"]),
    ("instruments", 1000000, ["instrument {i:02X} 00 09"]),
    ("patterns transposed", 1000000, ["pattern-transpose {p:02X} 01", "pattern-transpose {p:02X} FF"]),
    ("table rows out and in", 20000, ["table-delete 00 40", "table-insert 00 40 41 00"]),
]


def processor_time(program, folder):
    """Seconds of processor time of one run."""
    before = resource.getrusage(resource.RUSAGE_CHILDREN)
    done = subprocess.run([program, "edit", "in", "script", "out"], cwd=folder, stdout=subprocess.PIPE, text=True)
    after = resource.getrusage(resource.RUSAGE_CHILDREN)
    return after.ru_utime + after.ru_stime - before.ru_utime - before.ru_stime, done.stdout.strip()


def main():
    program = os.path.abspath(sys.argv[1]) if len(sys.argv) > 1 else built_program()
    with tempfile.TemporaryDirectory() as folder:
        with open(os.path.join(folder, "in"), "wb") as file:
            file.write(sounding_song(PATTERNS, 16))
        start = None
        for name, most, lines in [("nothing", 0, None), *SCRIPTS]:
            script = repeated(lines, most) if lines else []
            with open(os.path.join(folder, "script"), "w") as file:
                file.write("".join(line + "\n" for line in script))
            seconds, said = processor_time(program, folder)
            if start is None:
                start = seconds
                continue
            spent = max(seconds - start, 1e-9)
            print(f"{name:24} {len(script):7} commands {spent:8.3f} s {len(script) / spent:12,.0f} a second   {said}")


if __name__ == "__main__":
    main()
