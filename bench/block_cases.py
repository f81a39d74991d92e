#!/usr/bin/env python3
"""Writes cases of random blocks: bench/block_cases.py SEED [BLOCKS] > crates/block_cases/data/random

Makes blocks of the language of scopes from the seed, BLOCKS of them (200 unless they are given), each at two origins,
with random bytes, registers, flags and pointers, and about half of the conditions. What stands behind a block is said
by a second reading of docs/scopes.md, in this file: what an instruction does on a desk (`Desk`), where lines go on
(`Meaning`), how many bytes they take, and which lines are a block (`Shape`). It knows the instructions by the MOS 6502
manual's names, and no code of theirs; the program block_cases runs the lines, and finds what differs.

A block is a list of nodes, each a tuple: its word and what it takes, as in docs/block-cases.md; what it opens stands in
it as a list. A case that is stuck, or reads or writes in the block's own lines, is left out. To standard error goes how
often each word stands in the cases, and how often each way on was taken.
"""
import collections
import random
import re
import sys

ORIGINS = [0x0800, 0x5A5A]
LABELS = 64
DEPTH = 4
MOST_STEPS = 2000
SID, TIMER = 0xD400, 0xDC04
MEMORY = bytes((place & 0xFF) * 7 & 0xFF ^ place >> 8 for place in range(0x10000))


# ---- The instructions: which operands each may have, by the manual's table of addressing modes.

PLAIN = "Clc Clv Dex Dey Inx Iny Nop Sec Tax Tay Txa Tya".split()
SHIFTS = "Asl Lsr Rol Ror".split()
SUMS = "Adc And Cmp Eor Lda Ora Sbc".split()
BY_KIND = {
    "Number": SUMS + "Cpx Cpy Ldx Ldy".split(),
    "Own": SUMS + SHIFTS + "Dec Inc Ldy Sta".split(),
    "Entry": SUMS + "Ldx Sta".split(),
    "Pointed": SUMS + ["Sta"],
    "Var": SUMS + SHIFTS + "Bit Cpx Cpy Dec Inc Ldx Ldy Sta Stx Sty".split(),
}
BY_KIND.update({"OwnRegister": BY_KIND["Own"], "Pointer": BY_KIND["Var"], "Register": BY_KIND["Var"],
                "Timer": BY_KIND["Var"]})
BYTES = {"Number": 2, "Pointer": 2, "Pointed": 2}
LEAVES, FLAGS = ("leave", "jump"), ("Zero", "Minus", "Carry")
OPENING = {"scope": (2,), "turns": (2,), "when": (2,), "choose": (2, 3)}


# ---- How blocks are written.

def number(value):
    return f"{value:02x}"


def words(node):
    return " ".join(number(item) if isinstance(item, int) else item for item in node if not isinstance(item, list))


def lines_of(nodes):
    """The lines of nodes, as they are written."""
    lines = []
    for node in nodes:
        lines.append(words(node))
        if node[0] in OPENING:
            lines += lines_of(node[2])
            lines += ["or"] + lines_of(node[3]) if node[0] == "choose" else []
            lines.append("end")
    return lines


# ---- How many bytes lines take, and which lines are a block.

class Shape:
    """The bytes of nodes where some conditions hold, or at most."""

    def __init__(self, holds=None):
        self.holds = holds

    def size(self, nodes):
        return sum(map(self.of, nodes))

    def of(self, node):
        word = node[0]
        if word in ("scope", "turns"):
            return self.size(node[2])
        if word == "when":
            return self.size(node[2]) if self.holds is None or node[1] in self.holds else 0
        if word == "choose":
            if self.holds is None:
                return max(self.size(node[2]), self.size(node[3]))
            return self.size(node[2] if node[1] in self.holds else node[3])
        if word == "leave":
            return 3 if len(node) == 2 else 2
        if word == "again":
            return 3 if len(node) == 1 else 2
        if word == "jump":
            return 5
        return 0 if word == "never" else 1 if len(node) == 1 else BYTES.get(node[1], 3)

    def reaches(self, nodes, ends, head):
        """Whether branches reach, by the bytes from these nodes' end to those of scopes, and from the loop's head."""
        left = self.size(nodes)
        for node in nodes:
            size = self.of(node)
            left -= size
            if not self.node_reaches(node, {name: far + left for name, far in ends.items()}, head):
                return False
            head = None if head is None else head + size
        return True

    def node_reaches(self, node, ends, head):
        word = node[0]
        if word == "scope":
            return self.reaches(node[2], {**ends, node[1]: 0}, head)
        if word == "turns":
            return self.reaches(node[2], ends, 0)
        if word in ("when", "choose"):
            return all(self.reaches(side, ends, head) for side in node[2:])
        if word in LEAVES:
            return node[1] in ends and (word == "jump" or len(node) == 2 or ends[node[1]] <= 127)
        return word != "again" or head is not None and (len(node) == 1 or head <= 126)


def is_block(nodes):
    return Shape().reaches(nodes, {}, None)


# ---- What an instruction does.

class Stuck(Exception):
    """The block doesn't come to its end; or it reads or writes its own lines, or takes too long."""


class Desk:
    """The memory, the registers and the flags."""

    def __init__(self, begin, size):
        self.origin, self.pointer = begin["origin"], begin["pointer"]
        self.base = self.origin + size
        self.memory = bytearray(MEMORY)
        self.memory[self.base:self.base + LABELS] = begin["bytes"]
        self.a, self.x, self.y = begin["a"], begin["x"], begin["y"]
        self.n, self.v, self.d, self.i, self.z, self.c = (letter in begin["flags"] for letter in "nvdizc")

    def flags(self):
        return "".join(letter for letter in "nvdizc" if getattr(self, letter)) or "-"

    def place(self, operand):
        kind, *rest = operand
        if kind == "Pointed":
            place = self.memory[self.pointer] + 256 * self.memory[self.pointer + 1] + self.y
        elif kind in ("Pointer", "Timer"):
            place = (self.pointer if kind == "Pointer" else TIMER) + (rest[0] == "High")
        else:
            place = (SID if kind in ("Register", "OwnRegister") else self.base) + rest[0]
            place += {"Own": self.x, "OwnRegister": self.x, "Entry": self.y}.get(kind, 0)
        if self.origin <= place % 0x10000 < self.base:
            raise Stuck
        return place % 0x10000

    def show(self, byte):
        self.z, self.n = byte == 0, byte >= 128
        return byte

    def add(self, byte):
        if self.d:
            raise Stuck
        total = self.a + byte + self.c
        self.v = (self.a ^ total) & (byte ^ total) & 128 != 0
        self.c = total > 255
        self.a = self.show(total & 255)

    def shift(self, name, byte):
        """A byte shifted by one, with 0 or the carry coming in."""
        into = self.c and name in ("Rol", "Ror")
        if name in ("Asl", "Rol"):
            self.c = byte >= 128
            return self.show(2 * byte + into & 255)
        self.c = byte & 1 == 1
        return self.show(byte // 2 + 128 * into)

    def compare(self, register, byte):
        self.c = register >= byte
        self.show(register - byte & 255)

    def alone(self, name):
        """An instruction without an operand."""
        if name in SHIFTS:
            self.a = self.shift(name, self.a)
        elif name in ("Inx", "Iny", "Dex", "Dey"):
            register = name[2].lower()
            setattr(self, register, self.show(getattr(self, register) + (1 if name[0] == "I" else 255) & 255))
        elif name[0] == "T":
            setattr(self, name[2], self.show(getattr(self, name[1])))
        elif name in ("Clc", "Sec"):
            self.c = name == "Sec"
        elif name == "Clv":
            self.v = False

    def with_operand(self, name, operand):
        if operand[0] == "Number":
            return self.on_byte(name, operand[1])
        place = self.place(operand)
        if name in ("Sta", "Stx", "Sty"):
            self.memory[place] = getattr(self, name[2])
        elif name in ("Inc", "Dec"):
            self.memory[place] = self.show(self.memory[place] + (1 if name == "Inc" else 255) & 255)
        elif name in SHIFTS:
            self.memory[place] = self.shift(name, self.memory[place])
        else:
            self.on_byte(name, self.memory[place])

    def on_byte(self, name, byte):
        if name in ("Lda", "Ldx", "Ldy"):
            setattr(self, name[2], self.show(byte))
        elif name in ("Cpx", "Cpy", "Cmp"):
            self.compare({"Cpx": self.x, "Cpy": self.y, "Cmp": self.a}[name], byte)
        elif name in ("Adc", "Sbc"):
            self.add(byte if name == "Adc" else 255 - byte)
        elif name == "Bit":
            self.z, self.n, self.v = self.a & byte == 0, byte & 128 != 0, byte & 64 != 0
        else:
            self.a = self.show({"And": self.a & byte, "Ora": self.a | byte, "Eor": self.a ^ byte}[name])


# ---- Where lines go on.

class Meaning:
    """A block as it is run: how many instructions so far, and how often each way on was taken."""

    def __init__(self, desk, holds):
        self.desk, self.holds = desk, holds
        self.runs, self.ways = 0, collections.Counter()

    def met(self, side, flag):
        return getattr(self.desk, {"Zero": "z", "Minus": "n", "Carry": "c"}[flag]) == (side == "on")

    def all(self, nodes):
        """What nodes come to: nothing where they come to their end, else a name that is left, or `again`."""
        for node in nodes:
            if self.runs > MOST_STEPS:
                raise Stuck
            outcome = self.one(node)
            if outcome is not None:
                return outcome
        return None

    def one(self, node):
        word, *rest = node
        if word == "scope":
            outcome = self.all(rest[1])
            return None if outcome == rest[0] else outcome
        if word == "turns":
            return self.turns(*rest)
        if word in LEAVES + ("again",):
            return self.goes(word, rest)
        if word in ("when", "choose"):
            self.ways[f"{word} {rest[0] in self.holds}"] += 1
            sides = rest[1:] + [[]]
            return self.all(sides[0] if rest[0] in self.holds else sides[1])
        if word == "never":
            raise Stuck
        self.runs += 1
        if rest:
            self.desk.with_operand(word, rest)
        else:
            self.desk.alone(word)
        return None

    def turns(self, count, body):
        for turn in range(count):
            outcome = self.all(body)
            if outcome != "again":
                self.ways["more turns" if turn else "one turn"] += 1
                return outcome
        raise Stuck

    def goes(self, word, rest):
        where = rest.pop(0) if word in LEAVES else word
        is_met = not rest or self.met(*rest)
        self.runs += 2 if word == "jump" and is_met else 1
        self.ways[f"{word}{' under a test' if rest else ''} {is_met}"] += 1
        return where if is_met else None


# ---- Random blocks.

Room = collections.namedtuple("Room", "depth names in_loop")


class Maker:
    """Makes blocks, with a loop's turns counted in a register more often than not."""

    def __init__(self, seed):
        self.random = random.Random(seed)

    def below(self, limit):
        return self.random.randrange(limit)

    def one_of(self, *items):
        return self.random.choice(items)

    def byte(self):
        return self.one_of(0, 1, 127, 128, 255) if self.below(8) == 0 else self.below(256)

    def condition(self):
        return self.one_of(0, 63, 64, 127, 128, 255) if self.below(3) == 0 else self.below(128)

    def operand(self):
        kind = self.one_of("Number", "Number", "Var", "Var", "Own", "Entry", "Pointed", "Pointer", "Register",
                           "OwnRegister", "Timer")
        if kind == "Pointed":
            return (kind,)
        if kind in ("Pointer", "Timer"):
            return kind, self.one_of("Low", "High")
        limit = {"Register": 25, "OwnRegister": 7}.get(kind, LABELS)
        return kind, self.byte() if kind == "Number" else self.below(limit)

    def instruction(self):
        if self.below(3) == 0:
            return (self.one_of(*PLAIN, *SHIFTS),)
        operand = self.operand()
        return (self.random.choice(BY_KIND[operand[0]]), *operand)

    def test(self):
        return self.one_of("on", "off"), self.one_of(*FLAGS)

    def goes(self, room):
        """A leave or a next turn, mostly under a test."""
        test = self.test() if self.below(8) else ()
        if room.in_loop and (not room.names or self.below(3) == 0):
            return ("again", *test)
        if not room.names:
            return self.instruction()
        return (self.one_of("leave", "leave", "jump") if test else "leave", self.random.choice(room.names), *test)

    def scope(self, room):
        name = self.one_of(0, 1, 2, 254)
        return "scope", name, self.block(room._replace(names=room.names + (name,)))

    def counted(self, room):
        """A loop whose turns a register counts down."""
        register, count = self.one_of("x", "y"), self.below(5) + 1
        body = self.block(room._replace(in_loop=True))
        body += [(f"De{register}",), self.one_of(("again", "off", "Zero"), ("again", "off", "Minus"))]
        return [(f"Ld{register}", "Number", count), ("turns", self.one_of(count + 1, 255), body)]

    def looped(self, room):
        """A loop that a test ends, or that is left."""
        if self.is_heads():
            return ("turns", self.below(20) + 1, self.block(room._replace(in_loop=True)) + [("again", *self.test())])
        inner = room._replace(names=room.names + (7,), in_loop=True)
        body = self.block(inner) + [("leave", 7, *self.test())] + self.block(inner._replace(depth=0)) + [("again",)]
        return "scope", 7, [("turns", self.below(20) + 1, body), ("never",)]

    def is_heads(self):
        return self.below(2) == 0

    def opened(self, room):
        kind = self.below(8)
        if kind < 4:
            return [self.scope(room)]
        if kind == 4:
            return self.counted(room)
        if kind == 5:
            return [self.looped(room)]
        if kind == 6:
            return [("when", self.condition(), self.block(room))]
        return [("choose", self.condition(), self.block(room), self.block(room))]

    def block(self, room):
        """Some nodes. Those behind a leave in any case are never come to."""
        nodes, inner = [], room._replace(depth=room.depth - 1)
        for _ in range(self.below(5) + 2 * (room.depth == DEPTH)):
            kind = self.below(8)
            if kind < 3 and room.depth > 0:
                nodes += self.opened(inner)
            elif kind in (3, 4):
                nodes.append(self.goes(room))
            else:
                nodes += [self.instruction() for _ in range(self.below(3) + 1)]
        return nodes

    def begin(self, origin, conditions):
        flags = "".join(letter for letter in "nvizc" if self.is_heads()) + ("d" if self.below(8) == 0 else "")
        others = {self.below(128) for _ in range(self.below(3))}
        return {"origin": origin, "pointer": self.below(255), "a": self.byte(), "x": self.byte(), "y": self.byte(),
                "flags": flags, "bytes": bytes(self.byte() for _ in range(LABELS)),
                "holds": {number for number in conditions if number < 128 and self.is_heads()} | others}


def conditions_in(nodes):
    found = set()
    for node in nodes:
        if node[0] in OPENING:
            found.update(*(conditions_in(side) for side in node[2:]))
        if node[0] in ("when", "choose"):
            found.add(node[1])
    return found


# ---- Cases.

def changes(desk, before):
    """The lines of the bytes that changed: those under a label, and the others."""
    pages = [page for page in range(0, 0x10000, 256) if desk.memory[page:page + 256] != before[page:page + 256]]
    places = [place for page in pages for place in range(page, page + 256) if desk.memory[place] != before[place]]
    lines, at = [], 0
    while at < len(places):
        end = at + 1
        while end < len(places) and places[end] == places[end - 1] + 1:
            end += 1
        first = places[at]
        bytes_there = desk.memory[first:first + end - at].hex()
        is_label = desk.base <= first < desk.base + LABELS
        where = f"label {number(first - desk.base)}" if is_label else f"at {first:04x}"
        lines.append(f"{where} {bytes_there}")
        at = end
    return lines


def broken(text, width=120):
    """A long line as lines of which the others begin with blanks."""
    lines, line = [], ""
    for word in text.split(" "):
        if len(line) + len(word) + 1 > width:
            lines.append(line)
            line = "   "
        line += " " * (line != "") + word
    return lines + [line]


def case(name, block, begin, size):
    """The lines of a case, and what was run."""
    desk = Desk(begin, size)
    before = bytes(desk.memory)
    meaning = Meaning(desk, begin["holds"])
    meaning.all(block)
    data = begin["bytes"].hex()
    lines = [f"case {name}", f"origin {begin['origin']:04x}", f"pointer {number(begin['pointer'])}"]
    lines += broken(" ".join(["holds", *map(number, sorted(begin["holds"]))]))
    lines += [f"begin {begin['a']:02x} {begin['x']:02x} {begin['y']:02x} {begin['flags'] or '-'}"]
    lines += broken(f"bytes 00 {data[:LABELS]} {data[LABELS:]}")
    lines += [f"after {desk.a:02x} {desk.x:02x} {desk.y:02x} {desk.flags()}"] + changes(desk, before)
    return lines + [f"size {size:x}", f"steps {meaning.runs:x}"], meaning


def case_at(maker, name, block, origin):
    """A case at an origin; none where each of some beginnings is stuck."""
    conditions = conditions_in(block)
    for _ in range(20):
        begin = maker.begin(origin, conditions)
        try:
            return case(f"{name} at {origin:04x}", block, begin, Shape(begin["holds"]).size(block))
        except Stuck:
            continue
    return None


def cases_of(seed):
    """The lines of the cases of one block, and the ways on that were taken; none where it isn't one or is stuck."""
    maker = Maker(seed)
    block = maker.block(Room(DEPTH, (), False))
    if not block or not is_block(block):
        return None
    made = [case_at(maker, seed, block, origin) for origin in ORIGINS]
    if None in made:
        return None
    lines = []
    for text, _ in made:
        if not lines:
            text[1:1] = broken("block " + ", ".join(lines_of(block)))
        lines += text + [""]
    return lines, sum((meaning.ways for _, meaning in made), collections.Counter())


def main():
    seed = int(sys.argv[1])
    count = int(sys.argv[2]) if len(sys.argv) > 2 else 200
    print(f"# Random blocks: written by bench/block_cases.py {seed} {count}.\n")
    told, ways, place, made = collections.Counter(), collections.Counter(), 0, 0
    while made < count:
        found = cases_of(f"{seed}-{place}")
        place += 1
        if found is None:
            continue
        made += 1
        ways += found[1]
        told.update(re.findall(r"[A-Z][A-Za-z]+|\b(?:scope|leave|jump|turns|again|when|choose|never)\b",
                               "\n".join(found[0])))
        print("\n".join(found[0]))
    for counts in (told, ways):
        print("; ".join(f"{word} {times}" for word, times in counts.most_common()), file=sys.stderr)


if __name__ == "__main__":
    main()
