#!/usr/bin/env python3
"""Writes the song of a number: bench/generated.py NUMBER FILE

`selftest` makes a song from a number, which stands in no file. This makes the same song by the rules of
docs/song-format.md, and writes it in the format GTS5, for the other scripts of this folder to pack and play.
"""
import sys

MULTIPLIER, INCREMENT, WORD = 6364136223846793005, 1442695040888963407, 1 << 64
WAVE = "2100 4100 4104 4107 FF02 81C0 1180 F529 FF00"
PULSE = "8800 2010 20F0 FF02"
FILTER = "90F1 0040 3002 30FE FF03"
SPEED = "0040 0320 8303"
END = bytes([0xFF, 0, 0, 0])


class Draws:
    """Numbers that are drawn one after the other."""

    def __init__(self, number):
        self.number = number

    def below(self, limit):
        self.number = (self.number * MULTIPLIER + INCREMENT) % WORD
        return (self.number >> 33) % limit


def instrument(draws, number):
    ad, sr, delay = draws.below(256), draws.below(256), draws.below(16)
    wave, filtered = (1 if number % 2 == 1 else 6), (1 if number == 1 else 0)
    return bytes([ad, sr, wave, 1, filtered, number - 1, delay, 2, 9]) + bytes(16)


def row(draws):
    kind = draws.below(4)
    if kind == 1:
        note = 0x78 + draws.below(48)
        return bytes([note, 1 + draws.below(4), 0, 0])
    if kind == 2:
        command = 1 + draws.below(4)
        return bytes([0xBD, 0, command, 1 + draws.below(3)])
    return bytes([0xBD if kind == 0 else 0xBE, 0, 0, 0])


def order(draws):
    entries = [0xF0 + draws.below(8)] + [draws.below(100) for _ in range(48)]
    return bytes([len(entries) + 1, *entries, 0xFF, draws.below(49)])


def table(text):
    rows = [bytes.fromhex(each) for each in text.split()]
    return bytes([len(rows)]) + bytes(each[0] for each in rows) + bytes(each[1] for each in rows)


def song(number):
    draws = Draws(number)
    instruments = b"".join(instrument(draws, n) for n in range(1, 5))
    patterns = b"".join(bytes([33]) + b"".join(row(draws) for _ in range(32)) + END for _ in range(100))
    subtunes = b"".join(order(draws) for _ in range(24))
    tables = table(WAVE) + table(PULSE) + table(FILTER) + table(SPEED)
    head = b"GTS5" + bytes(96)
    return b"".join([head, bytes([8]), subtunes, bytes([4]), instruments, tables, bytes([100]), patterns])


if __name__ == "__main__":
    if len(sys.argv) != 3:
        sys.exit(__doc__)
    with open(sys.argv[2], "wb") as file:
        file.write(song(int(sys.argv[1])))
