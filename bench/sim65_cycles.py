#!/usr/bin/env python3
"""Writes cases of clock cycles: bench/sim65_cycles.py > crates/block_cases/data/cycles

For each instruction in each of its modes, but BRK, which stops goat's machine, it asks a stock 6502 simulator how many
cycles it takes: where an index stays in its page and where it leaves it, and of a branch where it isn't taken, and where
it is, in the page of the next instruction, forwards into the next page and backwards into the one before. Each count is
what `sim65 -c` prints of a run with the instruction, less what it prints of the same run without it. The program
block_cases compares them with what the machine says of its next step.

It needs ca65, ld65 and sim65 (Debian's package cc65). The sim65 of cc65 2.19 (V2.18) takes $3E (ROL absolute,X) for two
bytes, so that opcode is left out.
"""
import os
import subprocess
import sys
import tempfile

from against_sim65 import instructions, ran

START, EXIT, AT, END = 0x0800, 0xFFF9, 0x1010, 0x10F0
LAYOUT = "MEMORY { M: start = $07F4, size = $E000; } SEGMENTS { CODE: load = M, type = rw; }\n"
# What stands in front of a program for sim65: its magic, version 2, a 6502, the C stack's place, where it is loaded, and
# where it begins.
HEADER = ' .byte "sim65", 2, 0, 0\n .word $0800, $0800\n .org $0800\n'
FLAG_BITS = {"n": 0x80, "v": 0x40, "d": 0x08, "i": 0x04, "z": 0x02, "c": 0x01}
# The flag by which each branch is taken, and whether it is set then.
TAKEN = {"bcc": "c-", "bcs": "c+", "bne": "z-", "beq": "z+", "bpl": "n-", "bmi": "n+", "bvc": "v-", "bvs": "v+"}
OPERANDS = {
    "implied": "", "accumulator": "a", "immediate": "#$12", "zero": "z:$80", "zero,x": "z:$80,x", "zero,y": "z:$80,y",
    "absolute": "a:$3000", "(absolute)": "($0082)", "(zero,x)": "($80,x)",
}
# An index of $10 leaves its page from $30F0 on; (zero),y has that place at $84, and the one that stays at $82.
INDEXED = {
    "absolute,x": [("stays", "a:$3000,x"), ("crosses", "a:$30f0,x"), ("is on the edge", "a:$30ef,x")],
    "absolute,y": [("stays", "a:$3000,y"), ("crosses", "a:$30f0,y"), ("is on the edge", "a:$30ef,y")],
    "(zero),y": [("stays", "($82),y"), ("crosses", "($84),y")],
}
POINTERS = {0x80: 0x00, 0x81: 0x31, 0x82: 0x00, 0x83: 0x30, 0x84: 0xF0, 0x85: 0x30, 0x90: 0x00, 0x91: 0x31}
INDEX, PUSHED = 0x10, {"rts": 2, "rti": 3}


def source(at, flags, pushed, instruction, land):
    """A program that sets memory and the registers and comes to an instruction, or to none, and from there to its end."""
    status = 0x30 + sum(FLAG_BITS[flag] for flag in flags)
    lines = [f" lda #${byte:02x}\n sta z:${place:02x}" for place, byte in POINTERS.items()]
    back = [">(land-1)", "<(land-1)"] if pushed == 2 else [">land", "<land", "$30"]
    lines += [" ldx #$f0\n txs"] + [f" lda #{byte}\n pha" for byte in back[:pushed]]
    lines += [" lda #<land\n sta z:$82\n lda #>land\n sta z:$83"] if land else []
    lines += [f" lda #${status:02x}\n pha\n lda #$5a\n ldx #${INDEX:02x}\n ldy #${INDEX:02x}\n plp\n jmp here"]
    behind = at + 3 if land is None or land > at else land
    parts = sorted([(at, f"here:{instruction}\n jmp ${EXIT:04x}")] + ([(land, f"land: jmp ${EXIT:04x}")] if land else []))
    text = HEADER + "\n".join(lines) + "\n" + ("" if land else f"land = ${behind:04x}\n")
    for place, part in parts:
        text += f" .res ${place:04x} - *, $02\n{part}\n" if place != START else part
    return text


def cycles(folder, text):
    """The cycles of a program, and its bytes."""
    for name, content in (("case.s", text), ("case.cfg", LAYOUT)):
        with open(os.path.join(folder, name), "w", encoding="ascii") as file:
            file.write(content)
    for words in (["ca65", "case.s"], ["ld65", "-C", "case.cfg", "-o", "case", "case.o"], ["sim65", "-c", "case"]):
        done = ran(folder, words)
        if words[0] != "sim65" and done.returncode:
            sys.exit(f"{words[0]} failed: {done.stderr.decode()}")
    with open(os.path.join(folder, "case"), "rb") as file:
        return int(done.stdout.split()[0]), file.read()


def states(name, mode):
    """The states of an instruction: what is said of it, where it stands, its flags, its operand and where it leads to."""
    if mode == "relative":
        flag, is_set = TAKEN[name]
        taken, passed = (flag if is_set == "+" else ""), ("" if is_set == "+" else flag)
        yield "isn't taken", AT, passed, "land", AT + 0x20
        yield "is taken", AT, taken, "land", AT + 0x20
        yield "is taken into the next page", END, taken, "land", END + 0x20
        yield "isn't taken into the next page", END, passed, "land", END + 0x20
        yield "is taken into the page before", AT + 0xF0, taken, "land", AT + 0xF0 - 0x20
        yield "leads to the last byte of its page", END - 0x11, taken, "land", 0x10FC
    elif name in ("jmp", "jsr"):
        yield "", AT, "", "($0082)" if mode == "(absolute)" else "land", AT + 0x20
    elif name in PUSHED:
        yield "", AT, "", "", AT + 0x20
    else:
        for what, operand in INDEXED.get(mode, [("", OPERANDS.get(mode, ""))]):
            yield what, AT, "", operand, None


def main():
    if len(sys.argv) != 1:
        sys.exit(__doc__)
    print("# The clock cycles of each instruction in each of its modes, from the stock simulator sim65: bench/sim65_cycles.py")
    with tempfile.TemporaryDirectory() as folder:
        for name, mode in instructions():
            for what, at, flags, operand, land in states(name, mode):
                pushed = PUSHED.get(name, 0)
                instruction = f" {name} {operand}".rstrip()
                with_it, image = cycles(folder, source(at, flags, pushed, instruction, land))
                without, _ = cycles(folder, source(at, flags, pushed, "", land))
                code = image[12 + at - START : 12 + at - START + 3]
                word = "i" + flags
                registers = f"5a {INDEX:02x} {INDEX:02x} {0xF0 - pushed:02x} {at:04x} {word}"
                print(f"\nmachine {name.upper()} {mode} {what}".rstrip())
                print(f"cpu {registers}")
                print(f"put {at:04x} {code.hex(' ')}")
                for place, byte in POINTERS.items():
                    if "(zero" in mode:
                        print(f"put {place:04x} {byte:02x}")
                print(f"takes {with_it - without:x}\nafter {registers}")


if __name__ == "__main__":
    main()
