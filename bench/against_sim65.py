#!/usr/bin/env python3
"""Compares goat's machine with a stock 6502 simulator: bench/against_sim65.py SEED [STATES] [PROGRAM]

Makes cases of one instruction each from the seed, at random registers, flags and memory, and runs them on both
machines: `goat run` plays them as a PSID file, one case a call, and sim65 makes the same calls of the same bytes at the
same address. After each call the 25 bytes at $D400 must be alike. They hold A, X, Y, the flags as PHP pushes them, the
stack pointer, the address that was come to, bytes of memory where the operand and what is pushed stand, and from time
to time sums over page 0, the stack and a page of operands. At last both run a multiplication, a division, a sort and a
CRC, which are compared with Python's own results too.

Every documented opcode is run in each of its modes, but for what one of the two machines does not do:
- BRK, and ADC and SBC with the decimal flag set, stop goat's machine;
- the sim65 of cc65 2.19 (V2.18) takes $3E (ROL absolute,X) for two bytes, so that opcode is left out;
- it does not wrap indexed addresses past $FFFF, so none goes there;
- in CMP (zero page),Y it reads the second byte of a pointer at $FF from $0100, so that pointer is never at $FF.

It needs ca65, ld65, cl65 and sim65 (Debian's package cc65), and a goat that knows `run`. STATES is 30000 and PROGRAM
is the script goat above this folder, which builds the program where it must, unless they are given. The status is 0
where all agree, and 1 where something differs or a tool fails.
"""
import binascii
import itertools
import os
import random
import subprocess
import sys
import tempfile
import time

FOLDER = os.path.dirname(os.path.abspath(__file__))
SOURCES = os.path.join(FOLDER, "sim65")
ORIGIN = 0x4000
WORK_PAGE = 0x3F00
SWEEP_EVERY = 40
ROUNDS = 3
TABLE_ROWS = 250
EDGES = [0x00, 0x01, 0x7F, 0x80, 0xFE, 0xFF]
DECIMAL = 0x08
CASE_FIELDS = ["A", "X", "Y", "flags", "stack pointer"] + 2 * ["place"] + 6 * ["memory"] + 12 * ["sums"]
PROGRAM_FIELDS = 2 * ["product"] + ["quotient", "remainder"] + 2 * ["CRC"] + 16 * ["sorted"] + 3 * ["the rest"]

# The instructions by their modes, from the MOS 6502 programming manual.
MODES = {
    "adc and cmp eor lda ora sbc": "immediate zero zero,x absolute absolute,x absolute,y (zero,x) (zero),y",
    "sta": "zero zero,x absolute absolute,x absolute,y (zero,x) (zero),y",
    "ldx": "immediate zero zero,y absolute absolute,y",
    "ldy": "immediate zero zero,x absolute absolute,x",
    "stx": "zero zero,y absolute",
    "sty": "zero zero,x absolute",
    "cpx cpy": "immediate zero absolute",
    "bit": "zero absolute",
    "asl lsr rol ror": "accumulator zero zero,x absolute absolute,x",
    "dec inc": "zero zero,x absolute absolute,x",
    "bcc bcs beq bmi bne bpl bvc bvs": "relative",
    "jmp": "absolute (absolute)",
    "jsr": "absolute",
    "clc cld cli clv dex dey inx iny nop pha php pla plp rti rts": "implied",
    "sec sed sei tax tay tsx txa txs tya": "implied",
}
# What sim65 gets wrong: this instruction's length, and the pointer of this one at the end of page 0.
LEFT_OUT = ("rol", "absolute,x")
STAYS_IN_PAGE = ("cmp", "(zero),y")
JUMPS = {"jmp", "jsr", "rts", "rti"}


def instructions():
    """Each name with each of its modes, but what is left out."""
    pairs = [(name, mode) for names, modes in MODES.items() for name in names.split() for mode in modes.split()]
    return [pair for pair in pairs if pair != LEFT_OUT]


def any_byte(rng):
    """A byte, often one at the edge of a range."""
    return rng.choice(EDGES) if rng.random() < 0.4 else rng.randrange(256)


def any_state(rng, name):
    """Registers and flags before an instruction."""
    state = {register: any_byte(rng) for register in "axys"}
    state["p"] = rng.randrange(256)
    if name in ("adc", "sbc"):
        state["p"] &= ~DECIMAL
    return state


def any_place(rng):
    """A place that an operand may have: in the work page, page 0 or the stack."""
    return rng.choice([WORK_PAGE, WORK_PAGE, WORK_PAGE, 0x0000, 0x0000, 0x0100]) + any_byte(rng)


def any_operand_byte(rng, state):
    """A byte to work on, often equal to a register."""
    return state[rng.choice("axy")] if rng.random() < 0.2 else any_byte(rng)


def below_the_end(place, step):
    """The place, in the work page where an index would go over the end of memory to it."""
    return place if place >= step else WORK_PAGE + place % 256


def direct(rng, mode, state):
    """An operand of the zero page and absolute modes: its text, its place, and the bytes to be put."""
    base, _, index = mode.partition(",")
    step = state[index] if index else 0
    place = any_byte(rng) if base == "zero" else below_the_end(any_place(rng), step)
    text = f"z:${(place - step) % 256:02x}" if base == "zero" else f"a:${(place - step) % 65536:04x}"
    return text + (f",{index}" if index else ""), place, {place: any_operand_byte(rng, state)}


def indirect(rng, name, mode, state):
    """An operand of the two indexed indirect modes, whose pointer is put after the operand's byte."""
    step = 0 if mode == "(zero,x)" else state["y"]
    place, pointer = below_the_end(any_place(rng), step), any_byte(rng)
    if (name, mode) == STAYS_IN_PAGE:
        pointer %= 0xFF
    target = place - step
    puts = {place: any_operand_byte(rng, state)}
    puts.update({pointer: target % 256, (pointer + 1) % 256: target // 256})
    if mode == "(zero,x)":
        return f"(${(pointer - state['x']) % 256:02x},x)", place, puts
    return f"(${pointer:02x}),y", place, puts


def landing(rng, name, number, state):
    """The bytes to be put so that a jump or a return comes to this case's landing, and the operand's text."""
    label = f"land{number}"
    stack = [0x0100 + (state["s"] + k) % 256 for k in (1, 2, 3)]
    if name == "rts":
        return {stack[0]: f"<({label}-1)", stack[1]: f">({label}-1)"}, ""
    if name == "rti":
        return {stack[0]: rng.randrange(256), stack[1]: f"<{label}", stack[2]: f">{label}"}, ""
    return {}, label


def jump_pointer(rng, number):
    """The pointer of an indirect jump, often the last byte of a page."""
    page = rng.choice([0x0000, WORK_PAGE])
    low = rng.choice([0xFF, rng.randrange(256)])
    high = page + (low + 1) % 256
    return {page + low: f"<land{number}", high: f">land{number}"}, f"(${page + low:04x})"


def operand(rng, name, mode, number, state):
    """An instruction's operand: its text, its place, and the bytes to be put before."""
    if mode == "immediate":
        return f"#${any_operand_byte(rng, state):02x}", WORK_PAGE, {}
    if mode == "accumulator":
        return "a", WORK_PAGE, {}
    if name in JUMPS or mode == "relative":
        puts, text = jump_pointer(rng, number) if mode == "(absolute)" else landing(rng, name, number, state)
        return text, WORK_PAGE, puts
    if mode == "implied":
        pulled = 0x0100 + (state["s"] + 1) % 256
        return "", pulled, {pulled: any_byte(rng)}
    return indirect(rng, name, mode, state) if mode.startswith("(") else direct(rng, mode, state)


def watched(rng, place, state):
    """Six places that are compared: the operand's low byte in each page, those of a push, and any other."""
    stack = [0x0100 + (state["s"] - k) % 256 for k in (0, 1)]
    return [page + place % 256 for page in (0x0000, 0x0100, WORK_PAGE)] + stack + [any_place(rng)]


def set_up(state, puts):
    """The lines that put bytes into memory and set the registers. The last ones take 13 bytes."""
    lines = [line for place, byte in puts.items() for line in (f" lda #{byte}", f" sta a:${place:04x}")]
    registers = [f" ldx #{state['s']}", " txs", f" lda #{state['p']}", " pha"]
    return lines, registers + [f" lda #{state['a']}", f" ldx #{state['x']}", f" ldy #{state['y']}", " plp"]


def middle_lines(rng, instruction, registers, jumps):
    """An instruction with its landings: behind it, and for a jump or a branch at a label before or behind."""
    here = ["begin{0}:", *registers, instruction, " jsr capture"]
    aside = ["land{0}: jsr capture", " jmp watch{0}"]
    if not jumps:
        return here
    if rng.random() < 0.5:
        return [" jmp begin{0}", *aside, f" .res {rng.choice([0, 107, rng.randrange(108)])}, $02", *here]
    return [*here, " jmp watch{0}", f" .res {rng.choice([0, 121, rng.randrange(122)])}, $02", *aside]


def case_lines(rng, number, name, mode):
    """The lines of a case."""
    state = any_state(rng, name)
    text, place, puts = operand(rng, name, mode, number, state)
    before, registers = set_up(state, puts)
    jumps = name in JUMPS or mode == "relative"
    lines = ["case{0}:", *before, *middle_lines(rng, f" {name} {text}", registers, jumps), "watch{0}:"]
    for k, seen in enumerate(watched(rng, place, state)):
        lines += [f" lda a:${seen:04x}", f" sta OUTPUT+{7 + k}"]
    return [line.format(number) for line in lines] + next_case(number)


def next_case(number):
    return [f" lda #<case{number + 1}", f" ldx #>case{number + 1}", " jmp leave"]


def list_of_cases(rng):
    """The assembler's text of some hundred cases, and their names by the number of their call."""
    names, lines = ["init"], []
    for name, mode in ROUNDS * instructions():
        if len(names) % SWEEP_EVERY == 0:
            lines += [f"case{len(names) - 1}:", " jsr sweep", *next_case(len(names) - 1)]
            names.append("sweep")
        lines += case_lines(rng, len(names) - 1, name, mode)
        names.append(f"{name} {mode}")
    lines += [f"case{len(names) - 1}:", " jsr sweep", " lda vector", " ldx vector+1", " jmp leave"]
    names.append("sweep")
    return "\n".join(lines + [f"PLAYS = {len(names) - 1}", ""]), names


def ran(folder, words):
    """What a program did in a folder. Where there is no such program the comparison ends."""
    try:
        return subprocess.run(words, cwd=folder, capture_output=True)
    except FileNotFoundError:
        sys.exit(f"{words[0]} is not there")


def tool(folder, *words):
    """What a stock tool prints. Where it fails the comparison ends."""
    done = ran(folder, words)
    if done.returncode != 0:
        sys.exit(f"{words[0]} failed: {done.stderr.decode()}")
    return done.stdout


def assembled(folder, source):
    """The bytes of an image, assembled and linked by the stock tools."""
    source, layout = os.path.join(SOURCES, source), os.path.join(SOURCES, "image.cfg")
    tool(folder, "ca65", "-I", SOURCES, "-I", folder, "--bin-include-dir", folder, "-o", "image.o", source)
    tool(folder, "ld65", "-C", layout, "-o", "image", "image.o")
    with open(os.path.join(folder, "image"), "rb") as file:
        return file.read()


def driver(folder):
    """The program for sim65 that calls an image which stands right behind it."""
    source, layout = os.path.join(SOURCES, "driver.s"), os.path.join(SOURCES, "driver.cfg")
    tool(folder, "ca65", "-t", "sim6502", "-o", "driver.o", source)
    tool(folder, "cl65", "-t", "sim6502", "-C", layout, "-o", "driver", "driver.o")
    with open(os.path.join(folder, "driver"), "rb") as file:
        return file.read()


def psid(image):
    """A PSID v2 file of an image with init at its origin and play three bytes on."""
    words = [2, 0x7C, 0, ORIGIN, ORIGIN + 3, 1, 1]
    header = b"PSID" + b"".join(word.to_bytes(2, "big") for word in words) + bytes(4 + 3 * 32)
    return header + (0x14).to_bytes(2, "big") + bytes(4) + ORIGIN.to_bytes(2, "little") + image


def stock_lines(folder, program, image):
    """What sim65 prints. Its warnings of jumps over a page's end are not asked for."""
    with open(os.path.join(folder, "program"), "wb") as file:
        file.write(program + image)
    return tool(folder, "sim65", "program").decode().splitlines()


def goat_lines(folder, goat, image, calls):
    """What goat prints, its refusal where it stops."""
    with open(os.path.join(folder, "image.sid"), "wb") as file:
        file.write(psid(image))
    done = ran(folder, [goat, "run", "image.sid", "1", str(calls - 1)])
    return (done.stdout + done.stderr).decode().splitlines()


def difference(name, fields, ours, theirs):
    """Says how two lines of the same call differ."""
    bytes_of = [[line[place : place + 2] for place in range(7, 57, 2)] for line in (ours, theirs)]
    unlike = sorted({field for field, one, other in zip(fields, *bytes_of) if one != other})
    return f"{name}: {', '.join(unlike)}\n  goat  {ours}\n  other {theirs}"


def differences(names, fields, ours, theirs):
    """The calls whose lines are not alike."""
    lines = itertools.zip_longest(names, ours, theirs, fillvalue="no line")
    return [difference(name, fields, one, other) for name, one, other in lines if one != other]


def compare_cases(folder, goat, program, rng):
    """Runs one list of cases on both machines: the number of states, and the differences."""
    with open(os.path.join(folder, "pages.bin"), "wb") as file:
        file.write(rng.randbytes(3 * 256))
    text, names = list_of_cases(rng)
    with open(os.path.join(folder, "list.s"), "w", encoding="ascii") as file:
        file.write(text)
    image = assembled(folder, "cases.s")
    ours, theirs = goat_lines(folder, goat, image, len(names)), stock_lines(folder, program, image)
    return len(names) - names.count("sweep") - 1, differences(names, CASE_FIELDS, ours, theirs)


def expected(number, row):
    """The line of a row of the table, by Python's own arithmetic."""
    quotient, remainder = divmod(row[0], row[1] or 1)
    ordered = bytes(sorted(row))
    check = binascii.crc_hqx(ordered, 0)
    parts = (row[0] * row[1]).to_bytes(2, "little") + bytes([quotient, remainder]) + check.to_bytes(2, "big") + ordered
    return f"{number:06} {(parts + bytes(3)).hex()}"


def compare_programs(folder, goat, program, rng):
    """Runs the multiplication, division, sort and CRC on both machines, and by Python."""
    table = rng.randbytes(16 * TABLE_ROWS)
    with open(os.path.join(folder, "table.bin"), "wb") as file:
        file.write(table)
    image = assembled(folder, "programs.s")
    rows = [table[k : k + 16] for k in range(0, len(table), 16)]
    wanted = ["000000 " + 50 * "0"] + [expected(number + 1, row) for number, row in enumerate(rows)]
    names = [f"programs, row {number}" for number in range(len(wanted))]
    ours, theirs = goat_lines(folder, goat, image, len(wanted)), stock_lines(folder, program, image)
    return differences(names, PROGRAM_FIELDS, ours, theirs) + differences(names, PROGRAM_FIELDS, ours, wanted)


def main():
    if len(sys.argv) not in (2, 3, 4):
        sys.exit(__doc__)
    rng, wanted = random.Random(int(sys.argv[1])), int(sys.argv[2]) if len(sys.argv) > 2 else 30000
    goat = os.path.abspath(sys.argv[3]) if len(sys.argv) > 3 else os.path.join(os.path.dirname(FOLDER), "goat")
    start, states, found = time.monotonic(), 0, []
    with tempfile.TemporaryDirectory() as folder:
        program = driver(folder)
        while states < wanted and not found:
            more, found = compare_cases(folder, goat, program, rng)
            states += more
        found += compare_programs(folder, goat, program, rng)
    seconds, pairs = time.monotonic() - start, instructions()
    modes = len({mode for _, mode in pairs})
    print(f"{len(pairs)} opcodes in {modes} modes, {states} states, {TABLE_ROWS} rows of programs, {seconds:.0f} s")
    print("all agree" if not found else "\n".join(found[:5] + [f"{len(found)} lines differ"]))
    sys.exit(1 if found else 0)


if __name__ == "__main__":
    main()
