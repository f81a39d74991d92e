"""A 6502 that counts cycles, for the scripts that measure packed songs.

It has the documented opcodes without decimal arithmetic. A cycle more is counted where a read with an index crosses a
page, for a branch that is taken, and for one that leads to another page than that of the next instruction. Memory is
65,536 plain bytes.
"""

READ, WRITE, MODIFY = range(3)

# For each mode its bytes, and the cycles of a read, of a write, and of a read that is written back.
MODES = {
    "imm": (2, (2, 0, 0)),
    "zp": (2, (3, 3, 5)),
    "zpx": (2, (4, 4, 6)),
    "zpy": (2, (4, 4, 0)),
    "abs": (3, (4, 4, 6)),
    "abx": (3, (4, 5, 7)),
    "aby": (3, (4, 5, 0)),
    "inx": (2, (6, 6, 0)),
    "iny": (2, (5, 6, 0)),
}

# A name, what it does to memory, and its opcodes in some modes.
TABLE = """
adc 0 imm 69 zp 65 zpx 75 abs 6D abx 7D aby 79 inx 61 iny 71
and 0 imm 29 zp 25 zpx 35 abs 2D abx 3D aby 39 inx 21 iny 31
cmp 0 imm C9 zp C5 zpx D5 abs CD abx DD aby D9 inx C1 iny D1
eor 0 imm 49 zp 45 zpx 55 abs 4D abx 5D aby 59 inx 41 iny 51
lda 0 imm A9 zp A5 zpx B5 abs AD abx BD aby B9 inx A1 iny B1
ora 0 imm 09 zp 05 zpx 15 abs 0D abx 1D aby 19 inx 01 iny 11
sbc 0 imm E9 zp E5 zpx F5 abs ED abx FD aby F9 inx E1 iny F1
ldx 0 imm A2 zp A6 zpy B6 abs AE aby BE
ldy 0 imm A0 zp A4 zpx B4 abs AC abx BC
cpx 0 imm E0 zp E4 abs EC
cpy 0 imm C0 zp C4 abs CC
bit 0 zp 24 abs 2C
sta 1 zp 85 zpx 95 abs 8D abx 9D aby 99 inx 81 iny 91
stx 1 zp 86 zpy 96 abs 8E
sty 1 zp 84 zpx 94 abs 8C
asl 2 zp 06 zpx 16 abs 0E abx 1E
lsr 2 zp 46 zpx 56 abs 4E abx 5E
rol 2 zp 26 zpx 36 abs 2E abx 3E
ror 2 zp 66 zpx 76 abs 6E abx 7E
dec 2 zp C6 zpx D6 abs CE abx DE
inc 2 zp E6 zpx F6 abs EE abx FE
"""
ACCUMULATOR = {0x0A: "asl", 0x4A: "lsr", 0x2A: "rol", 0x6A: "ror"}
BRANCHES = {0x10: (7, 0), 0x30: (7, 1), 0x50: (6, 0), 0x70: (6, 1), 0x90: (0, 0), 0xB0: (0, 1), 0xD0: (1, 0), 0xF0: (1, 1)}
FLAG_SETS = {0x18: (0, 0), 0x38: (0, 1), 0x58: (2, 0), 0x78: (2, 1), 0xB8: (6, 0), 0xD8: (3, 0), 0xF8: (3, 1)}
MOVES = {0xAA: "ax", 0xA8: "ay", 0xBA: "sx", 0x8A: "xa", 0x9A: "xs", 0x98: "ya"}
STEPS = {0xCA: ("x", -1), 0x88: ("y", -1), 0xE8: ("x", 1), 0xC8: ("y", 1)}
CARRY, ZERO, DECIMAL, OVERFLOW, NEGATIVE = 1, 2, 8, 64, 128


def decoded():
    """For each opcode of the table its name, what it does to memory, and its mode."""
    found = {}
    for line in TABLE.split("\n"):
        words = line.split()
        for mode, code in zip(words[2::2], words[3::2]):
            found[int(code, 16)] = (words[0], int(words[1]), mode)
    return found


OPCODES = decoded()


class Stopped(Exception):
    """An opcode that this machine doesn't have, or a call that doesn't return."""


class Machine:
    """Memory, the registers, and the cycles and steps since it was made."""

    def __init__(self):
        self.memory = bytearray(65536)
        self.a = self.x = self.y = self.p = 0
        self.s = 0xFF
        self.pc = self.cycles = self.steps = 0
        # Addresses of writes, where a set stands here.
        self.written = None

    def word(self, low, high):
        return self.memory[low] | self.memory[high] << 8

    def store(self, at, value):
        if self.written is not None:
            self.written.add(at)
        self.memory[at] = value

    def push(self, value):
        self.store(0x100 + self.s, value)
        self.s = self.s - 1 & 0xFF

    def pull(self):
        self.s = self.s + 1 & 0xFF
        return self.memory[0x100 + self.s]

    def tell(self, value):
        """Sets zero and minus by a byte."""
        self.p = self.p & ~(ZERO | NEGATIVE) | (value & NEGATIVE) | (0 if value else ZERO)
        return value

    def set_flag(self, flag, on):
        self.p = self.p | flag if on else self.p & ~flag

    def place(self, mode):
        """The address of the operand, and whether an index crosses a page; the program counter is at the operand."""
        at = self.memory[self.pc]
        if mode == "imm":
            return self.pc, False
        if mode == "zp":
            return at, False
        if mode in ("zpx", "zpy"):
            return at + (self.x if mode == "zpx" else self.y) & 0xFF, False
        if mode == "inx":
            at = at + self.x & 0xFF
            return self.word(at, at + 1 & 0xFF), False
        index = {"abs": 0, "abx": self.x, "aby": self.y, "iny": self.y}[mode]
        base = self.word(at, at + 1 & 0xFF) if mode == "iny" else self.word(self.pc, self.pc + 1 & 0xFFFF)
        return base + index & 0xFFFF, (base & 0xFF) + index > 0xFF

    def add(self, value):
        if self.p & DECIMAL:
            raise Stopped("decimal at $%04X" % self.pc)
        total = self.a + value + (self.p & CARRY)
        self.set_flag(OVERFLOW, ~(self.a ^ value) & (self.a ^ total) & 0x80)
        self.set_flag(CARRY, total > 0xFF)
        self.a = self.tell(total & 0xFF)

    def compare(self, register, value):
        self.set_flag(CARRY, register >= value)
        self.tell(register - value & 0xFF)

    def read_with(self, name, value):
        """What an instruction does that reads a byte."""
        if name[:2] == "ld":
            setattr(self, name[2], self.tell(value))
        elif name in ("cmp", "cpx", "cpy"):
            self.compare({"cmp": self.a, "cpx": self.x, "cpy": self.y}[name], value)
        elif name == "adc":
            self.add(value)
        elif name == "sbc":
            self.add(value ^ 0xFF)
        elif name == "bit":
            self.p = self.p & 0x3D | value & 0xC0 | (0 if self.a & value else ZERO)
        else:
            self.a = self.tell({"and": self.a & value, "ora": self.a | value, "eor": self.a ^ value}[name])

    def changed(self, name, value):
        """What a byte becomes by a shift, or by one more or less."""
        if name in ("inc", "dec"):
            return self.tell(value + (1 if name == "inc" else -1) & 0xFF)
        entering = self.p & CARRY if name[:2] == "ro" else 0
        left = name[2] == "l"
        self.set_flag(CARRY, value & (0x80 if left else 1))
        return self.tell(value << 1 & 0xFF | entering if left else value >> 1 | entering << 7)

    def step(self):
        """One instruction."""
        code = self.memory[self.pc]
        self.pc = self.pc + 1 & 0xFFFF
        self.steps += 1
        if code in OPCODES:
            name, use, mode = OPCODES[code]
            at, crossed = self.place(mode)
            length, cycles = MODES[mode]
            self.pc = self.pc + length - 1 & 0xFFFF
            self.cycles += cycles[use] + (1 if crossed and use == READ else 0)
            if use == READ:
                self.read_with(name, self.memory[at])
            elif use == WRITE:
                self.store(at, getattr(self, name[2]))
            else:
                self.store(at, self.changed(name, self.memory[at]))
        elif code in BRANCHES:
            self.branch(*BRANCHES[code])
        else:
            self.other(code)

    def branch(self, bit, wanted):
        distance = self.memory[self.pc]
        self.pc = self.pc + 1 & 0xFFFF
        self.cycles += 2
        if self.p >> bit & 1 == wanted:
            target = self.pc + distance - (256 if distance > 127 else 0) & 0xFFFF
            self.cycles += 1 if target >> 8 == self.pc >> 8 else 2
            self.pc = target

    def other(self, code):
        """The instructions that have one mode alone."""
        self.cycles += 2
        if code in ACCUMULATOR:
            self.a = self.changed(ACCUMULATOR[code], self.a)
        elif code in FLAG_SETS:
            bit, on = FLAG_SETS[code]
            self.set_flag(1 << bit, on)
        elif code in MOVES:
            source, target = MOVES[code]
            value = getattr(self, source)
            setattr(self, target, value)
            if target != "s":
                self.tell(value)
        elif code in STEPS:
            register, by = STEPS[code]
            setattr(self, register, self.tell(getattr(self, register) + by & 0xFF))
        elif code in (0x48, 0x08):
            self.cycles += 1
            self.push(self.a if code == 0x48 else self.p | 0x30)
        elif code == 0x68:
            self.cycles += 2
            self.a = self.tell(self.pull())
        elif code == 0x28:
            self.cycles += 2
            self.p = self.pull() & 0xCF
        elif code == 0x4C:
            self.cycles += 1
            self.pc = self.word(self.pc, self.pc + 1 & 0xFFFF)
        elif code == 0x6C:
            self.cycles += 3
            at = self.word(self.pc, self.pc + 1 & 0xFFFF)
            self.pc = self.word(at, at & 0xFF00 | at + 1 & 0xFF)
        elif code == 0x20:
            self.cycles += 4
            target = self.word(self.pc, self.pc + 1 & 0xFFFF)
            back = self.pc + 1 & 0xFFFF
            self.push(back >> 8)
            self.push(back & 0xFF)
            self.pc = target
        elif code in (0x60, 0x40):
            self.cycles += 4
            if code == 0x40:
                self.p = self.pull() & 0xCF
            low = self.pull()
            self.pc = (low | self.pull() << 8) + (1 if code == 0x60 else 0) & 0xFFFF
        elif code != 0xEA:
            raise Stopped("opcode $%02X at $%04X" % (code, self.pc - 1 & 0xFFFF))

    def call(self, address, a, most=200000):
        """Calls a subroutine; answers the cycles and the steps of its instructions, the last RTS among them."""
        before = self.cycles, self.steps
        self.push(0xFF)
        self.push(0xFF)
        self.pc, self.a, stack = address, a, self.s + 2 & 0xFF
        while self.pc != 0 or self.s != stack:
            if self.steps - before[1] == most:
                raise Stopped("no return from $%04X" % address)
            self.step()
        return self.cycles - before[0], self.steps - before[1]
