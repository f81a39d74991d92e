#!/usr/bin/env python3
"""Times `goat run` and `goat trace`: machine steps a second over an image that works long, lines a second over the
silent song, and frames a second over a song that works in each frame.

Usage: bench/runs.py [PROGRAM]

PROGRAM is the built program; without it `./goat` of this repository is called once, so that it is built, and its
binary is used. Output goes to the null device. Times are processor time, less that of a run of no frames.
"""

import os
import subprocess
import sys
import tempfile

TOP = os.path.dirname(os.path.dirname(os.path.abspath(__file__)))
ADDRESS = 0x1000
ROUNDS = 190

# Play: ROUNDS times 256 bytes are copied from $2000 to $0400, four instructions a byte.
WORK = bytes([
    0x60, 0xEA, 0xEA,                   # init: RTS
    0xA0, ROUNDS,                       # LDY #ROUNDS
    0xA2, 0x00,                         # LDX #0
    0xBD, 0x00, 0x20, 0x9D, 0x00, 0x04, # LDA $2000,X; STA $0400,X
    0xCA, 0xD0, 0xF7,                   # DEX; BNE
    0x88, 0xD0, 0xF2,                   # DEY; BNE
    0x60,                               # RTS
])
STEPS_OF_PLAY = 1 + ROUNDS * (1 + 256 * 4 + 2) + 1


def psid_file(image):
    """A PSID v2 file of one song, with init at the address and play three bytes behind it."""
    words = [2, 0x7C, 0, ADDRESS, ADDRESS + 3, 1, 1, 0, 0]
    header = b"PSID" + b"".join(word.to_bytes(2, "big") for word in words)
    header = header.ljust(0x76, b"\0") + bytes([0, 0x14, 0, 0, 0, 0])
    return header + ADDRESS.to_bytes(2, "little") + image


def full_song():
    """A song whose three voices play notes with a wave and a pulse program and a vibrato, over a filter program."""
    orders = bytes([3, 0, 1, 0xFF, 0, 3, 1, 2, 0xFF, 0, 3, 2, 0, 0xFF, 0])
    instrument = bytes([0x09, 0xA0, 1, 1, 1, 1, 1, 2, 9]) + bytes(16)
    tables = [
        bytes.fromhex("2100 4100 4104 4180 FF04"),
        bytes.fromhex("8800 2010 20F0 FF02"),
        bytes.fromhex("90F1 0040 3002 30FE FF03"),
        bytes.fromhex("0320"),
    ]
    song = b"GTS5" + bytes(96) + bytes([1]) + orders + bytes([1]) + instrument
    for rows in tables:
        song += bytes([len(rows) // 2]) + rows[0::2] + rows[1::2]
    song += bytes([3])
    for lowest in (0x78, 0x84, 0x90):
        rows = [bytes([lowest + row // 4, 1, 0, 0] if row % 4 == 0 else [0xBD, 0, 4, 1]) for row in range(32)]
        song += bytes([33]) + b"".join(rows) + bytes([0xFF, 0, 0, 0])
    return song


def run(program, command, path, frames):
    """Runs or traces the file for so many frames; answers processor seconds and the most kilobytes that were held."""
    arguments = [program, command, path, "1", str(frames)]
    with open(os.devnull, "wb") as null:
        process = subprocess.Popen(arguments, stdout=null)
        _, status, usage = os.wait4(process.pid, 0)
    process.returncode = os.waitstatus_to_exitcode(status)
    if process.returncode != 0:
        sys.exit(f"{' '.join(arguments)} ended with status {process.returncode}")
    return usage.ru_utime + usage.ru_stime, usage.ru_maxrss


def best(program, command, path, frames, times=3):
    """The shortest of some runs."""
    return min(run(program, command, path, frames) for _ in range(times))


def print_rate(program, command, path, what):
    """Prints how many frames a second a file is run or traced, and how much memory that takes."""
    start, own = best(program, command, path, 0)
    for frames in (25_000, 50_000, 100_000):
        seconds, held = best(program, command, path, frames)
        seconds -= start
        print(f"{command} of {what}: {frames / seconds:,.0f} frames a second "
              f"({frames} in {seconds:.2f} s, {held - own} KB above none)")


def built_program():
    """The program that `./goat` runs: the one that was built of these sources, or their release."""
    subprocess.run([os.path.join(TOP, "goat")], stdout=subprocess.DEVNULL, check=False)
    found = subprocess.run([os.path.join(TOP, "release", "program")], stdout=subprocess.PIPE, text=True)
    if found.returncode != 0:
        sys.exit("there is no program of these sources")
    return found.stdout.strip()


def main():
    program = os.path.abspath(sys.argv[1]) if len(sys.argv) > 1 else built_program()
    with tempfile.TemporaryDirectory() as folder:
        work = os.path.join(folder, "work.sid")
        with open(work, "wb") as file:
            file.write(psid_file(WORK))
        silent = os.path.join(folder, "silent.sid")
        song = os.path.join(TOP, "demo", "silence.sng")
        subprocess.run([program, "pack", song, silent, "psid", "1000", "FC"], stdout=subprocess.DEVNULL, check=True)
        full = os.path.join(folder, "full.sng")
        with open(full, "wb") as file:
            file.write(full_song())
        start, _ = best(program, "run", work, 0)
        frames = 500
        seconds = best(program, "run", work, frames)[0] - start
        print(f"steps: {STEPS_OF_PLAY * frames / seconds / 1e6:.1f} million a second ({frames} calls of {STEPS_OF_PLAY})")
        print_rate(program, "run", silent, "silence")
        print_rate(program, "trace", full, "a full song")


if __name__ == "__main__":
    main()
