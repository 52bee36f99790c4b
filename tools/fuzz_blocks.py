"""Compares the answers of the program `block_cases` with those of a decoder of its own.

Usage: python3 tools/fuzz_blocks.py PROGRAM [--blocks 6000] [--seed 1]

The script makes gate blocks, good ones and ones with one or more fields damaged, runs PROGRAM
once on all of them and compares every answer. Whether a block is good, and what it tells, is
decided here by a decoder that reads the bytes from front to back. It shares no code with the
maker of blocks, nor with the program.
"""

import argparse
import random
import re
import struct
import sys
from decimal import ROUND_HALF_UP, Decimal

from comparing import cut_for_show, report_disagreements, run_program, split_answers, verdict

MOST_NAMES = 64
MOST_NODES = 4096
MOST_DEPTH = 31
GREATEST_THOUSANDTHS = 99_999_999

WORD = re.compile(rb"[A-Za-z][A-Za-z0-9-]{0,15}")


# ---------------------------------------------------------------------------
# The decoder
# ---------------------------------------------------------------------------


class Bad(Exception):
    """The block is not good."""


class Reader:
    """Reads bytes from front to back."""

    def __init__(self, data):
        self.data = data
        self.at = 0

    def take(self, count):
        """Returns the next bytes, and refuses where there are too few."""
        end = self.at + count
        if end > len(self.data):
            raise Bad("it ends too soon")
        taken = self.data[self.at : end]
        self.at = end
        return taken

    def byte(self):
        """Returns the next byte."""
        return self.take(1)[0]

    def count(self):
        """Returns the next number of 16 bits."""
        return int.from_bytes(self.take(2), "little")

    def signed(self):
        """Returns the next signed number of 32 bits."""
        return int.from_bytes(self.take(4), "little", signed=True)


def hundredths(thousandths):
    """Returns the nearest hundredths, a half away from zero."""
    # ROUND_HALF_UP of the decimal module goes away from zero on both sides.
    return int((Decimal(thousandths) / 10).quantize(Decimal(1), rounding=ROUND_HALF_UP))


def read_names(reader):
    """Returns the names of the first section."""
    count = reader.count()
    if count > MOST_NAMES:
        raise Bad("it has too many names")
    names = []
    for _ in range(count):
        name = reader.take(reader.byte())
        if not WORD.fullmatch(name):
            raise Bad("a name is no word")
        names.append(name)
    return names


def read_node(reader, names, room):
    """Returns the line that tells a node, without its place, and the depth that may follow it."""
    number, depth, kind, thousandths = reader.byte(), reader.byte(), reader.byte(), reader.signed()
    if number >= len(names):
        raise Bad("a node has no name")
    if depth > room or depth > MOST_DEPTH:
        raise Bad("a node lies too deep")
    first = names.index(names[number])
    if kind == 0:
        if thousandths != 0:
            raise Bad("a branch has a value")
        return (depth, "-", first), depth + 1
    if kind != 1:
        raise Bad("a node is neither branch nor leaf")
    if abs(thousandths) > GREATEST_THOUSANDTHS:
        raise Bad("a value is out of range")
    return (depth, hundredths(thousandths), first), depth


def decode(data):
    """Returns what the program must print of a block, as a list of lines."""
    reader = Reader(data)
    try:
        names = read_names(reader)
        count = reader.count()
        if count > MOST_NODES:
            raise Bad("it has too many nodes")
        room = 0
        lines = [f"ok {count}"]
        for place in range(count):
            (depth, value, first), room = read_node(reader, names, room)
            lines.append(f"{depth} {place} {value} {first}")
        if reader.at != len(data):
            raise Bad("something follows")
    except Bad:
        return ["refused 5"]
    return lines + [f"0 0 - {MOST_NAMES}"]


# ---------------------------------------------------------------------------
# The maker
# ---------------------------------------------------------------------------

LETTERS = "ABCXYZabcxyz"
TAIL = LETTERS + "0189-"
BAD_NAMES = [b"", b"1a", b"-a", b"a_b", b"a b", b"a" * 17, b"a" * 255, b"a\0", b"\xe9", b"a.", b"@", b"[", b"`", b"{", b"/", b":"]
NEAR_VALUES = [0, 1, 4, 5, 6, 14, 15, 16, 995, 1000, 30005, GREATEST_THOUSANDTHS - 5, GREATEST_THOUSANDTHS - 4, GREATEST_THOUSANDTHS]
BAD_VALUES = [GREATEST_THOUSANDTHS + 1, 2**31 - 1, 2**30]


class Node:
    """A node to be written."""

    def __init__(self, number, depth, kind, value):
        self.number = number
        self.depth = depth
        self.kind = kind
        self.value = value

    def encode(self):
        """Returns its seven bytes."""
        return struct.pack("<BBBi", self.number, self.depth & 0xFF, self.kind, self.value)


class Draft:
    """A block to be written: each field can be damaged before it is encoded."""

    def __init__(self, names, nodes):
        self.names = [(len(name), name) for name in names]
        self.nodes = nodes
        self.name_count = len(names)
        self.node_count = len(nodes)
        self.tail = b""

    def encode(self):
        """Returns the bytes."""
        parts = [struct.pack("<H", self.name_count & 0xFFFF)]
        parts += [bytes([length & 0xFF]) + name for length, name in self.names]
        parts.append(struct.pack("<H", self.node_count & 0xFFFF))
        parts += [node.encode() for node in self.nodes]
        return b"".join(parts) + self.tail


class Maker:
    """Makes blocks from a seed."""

    def __init__(self, seed):
        self.random = random.Random(seed)

    def chance(self, share):
        """Returns true in this share of the calls."""
        return self.random.random() < share

    def word(self):
        """Returns a name, sometimes one as long as may be."""
        length = self.random.choice([1, 1, 2, 3, 4, 5, 15, 16])
        word = self.random.choice(LETTERS) + "".join(self.random.choice(TAIL) for _ in range(length - 1))
        return word.encode()

    def names(self, count):
        """Returns this many names; some repeat."""
        names = []
        for _ in range(count):
            names.append(self.random.choice(names) if names and self.chance(0.15) else self.word())
        return names

    def value(self):
        """Returns thousandths in range; halves and the ends come often."""
        size = self.random.choice(NEAR_VALUES) if self.chance(0.6) else self.random.randrange(GREATEST_THOUSANDTHS + 1)
        return -size if self.chance(0.5) else size

    def nodes(self, count, names, deepest):
        """Returns this many nodes in the shape of records."""
        nodes = []
        room = 0
        for _ in range(count):
            depth = min(room, deepest)
            if self.chance(0.5):
                depth = self.random.randrange(depth + 1)
            leaf = self.chance(0.5) if deepest < MOST_DEPTH else self.chance(0.03)
            nodes.append(Node(self.random.randrange(names), depth, 1, self.value()) if leaf else Node(self.random.randrange(names), depth, 0, 0))
            room = depth if leaf else depth + 1
        return nodes

    def draft(self):
        """Returns a good block of ordinary size."""
        names = self.random.choice([1, 1, 2, 3, 5, 8, MOST_NAMES])
        nodes = self.random.choice([0, 1, 2, 3, 5, 8, 13, 40])
        if self.chance(0.03):
            names, nodes = 0, 0
        return Draft(self.names(names), self.nodes(nodes, names, self.random.choice([0, 1, 2, 4, 8])))

    def deep_draft(self):
        """Returns a chain that goes as deep as may be, or one level deeper."""
        draft = Draft(self.names(3), self.nodes(self.random.choice([40, 60, 90]), 3, MOST_DEPTH))
        if self.chance(0.5):
            depth = self.random.choice([MOST_DEPTH, MOST_DEPTH + 1])
            draft.nodes = [Node(0, d, 0, 0) for d in range(depth)] + [Node(1, depth, *self.random.choice([(0, 0), (1, 5)]))]
            draft.node_count = len(draft.nodes)
        return draft

    def large_draft(self):
        """Returns a block with about as many names or nodes as there may be."""
        names = self.names(self.random.choice([1, MOST_NAMES - 1, MOST_NAMES, MOST_NAMES, MOST_NAMES + 1]))
        nodes = self.random.choice([0, 1, MOST_NODES - 1, MOST_NODES, MOST_NODES, MOST_NODES + 1])
        return Draft(names, self.nodes(nodes, min(len(names), 255), 6))

    def damage_counts(self, draft):
        """Changes the count of names or of nodes."""
        if self.chance(0.5):
            draft.name_count = self.random.choice([0, max(0, draft.name_count - 1), draft.name_count + 1, 65, 256, 65535])
        else:
            draft.node_count = self.random.choice([0, max(0, draft.node_count - 1), draft.node_count + 1, 256, 4097, 65535])

    def damage_name(self, draft):
        """Changes the length or the bytes of a name."""
        if not draft.names:
            return
        at = self.random.randrange(len(draft.names))
        length, name = draft.names[at]
        way = self.random.choice(["length", "bytes", "letter"])
        if way == "length":
            draft.names[at] = (self.random.choice([0, length - 1, length + 1, 16, 17, 255]), name)
        elif way == "bytes":
            bad = self.random.choice(BAD_NAMES)
            draft.names[at] = (len(bad), bad)
        elif name:
            place = self.random.randrange(len(name))
            draft.names[at] = (length, name[:place] + bytes([self.random.randrange(256)]) + name[place + 1 :])

    def damage_node(self, draft):
        """Changes a field of a node."""
        if not draft.nodes:
            return
        node = self.random.choice(draft.nodes)
        way = self.random.choice(["number", "depth", "kind", "value", "both"])
        if way == "number":
            node.number = self.random.choice([len(draft.names), max(0, len(draft.names) - 1), 64, 255])
        elif way == "depth":
            node.depth = self.random.choice([max(0, node.depth - 1), node.depth + 1, node.depth + 2, 31, 32, 33, 255])
        elif way == "kind":
            node.kind = self.random.choice([1 - (node.kind & 1), 2, 128, 255])
        elif way == "value":
            node.value = self.random.choice([1, -1] + [sign * bad for bad in BAD_VALUES for sign in (1, -1)] + [-(2**31)])
        else:
            node.kind = 1
            node.value = self.random.choice([GREATEST_THOUSANDTHS, -GREATEST_THOUSANDTHS, GREATEST_THOUSANDTHS + 1, -GREATEST_THOUSANDTHS - 1])

    def damage_end(self, draft):
        """Adds bytes behind the last node."""
        draft.tail = self.random.choice([b"\0", b"\xff", b"\0" * 7, draft.nodes[-1].encode() if draft.nodes else b"\0"])

    def damaged(self):
        """Returns a block of which one to three fields were changed."""
        draft = self.draft()
        ways = [self.damage_counts, self.damage_name, self.damage_node, self.damage_node, self.damage_end]
        for _ in range(self.random.choice([1, 1, 1, 2, 3])):
            self.random.choice(ways)(draft)
        return draft.encode()

    def cut(self):
        """Returns a good block without its last bytes, or with a byte taken out or changed anywhere."""
        data = bytearray(self.draft().encode())
        at = self.random.randrange(len(data))
        way = self.random.choice(["front", "without", "changed", "twice"])
        if way == "front":
            return bytes(data[:at])
        if way == "without":
            return bytes(data[:at] + data[at + 1 :])
        if way == "changed":
            data[at] = self.random.randrange(256)
            return bytes(data)
        return bytes(data[:at] + data[at : at + 1] + data[at:])

    def block(self, number):
        """Returns the block of a case; one in 100 is large."""
        if number % 100 == 0:
            return self.large_draft().encode()
        kind = self.random.random()
        if kind < 0.3:
            return self.draft().encode()
        if kind < 0.4:
            return self.deep_draft().encode()
        if kind < 0.8:
            return self.damaged()
        return self.cut()


# ---------------------------------------------------------------------------
# The comparison
# ---------------------------------------------------------------------------


def compare(program, count, seed):
    """Runs the comparison and returns the status to end with."""
    maker = Maker(seed)
    blocks = [b"", bytes(4)] + [maker.block(number) for number in range(count)]
    expected = [decode(block) for block in blocks]
    printed, status = run_program([program], b"".join(block.hex().encode() + b"\n" for block in blocks))
    names = [f"case {number}: {cut_for_show(block)}" for number, block in enumerate(blocks)]
    # A line tells the node past the last, too.
    wrong = report_disagreements(names, expected, split_answers(printed, further=1))
    accepted = [lines for lines in expected if lines[0] != "refused 5"]
    nodes = sum(len(lines) - 2 for lines in accepted)
    print(f"{len(blocks)} blocks: {len(accepted)} accepted with {nodes} nodes, {len(blocks) - len(accepted)} refused with 5")
    return verdict(wrong, status)


def main():
    """Reads the arguments and runs the comparison."""
    parser = argparse.ArgumentParser(description="Compares the program block_cases with a decoder of the script's own.")
    parser.add_argument("program", help="the program block_cases")
    parser.add_argument("--blocks", type=int, default=6000, help="how many blocks to make (default 6000)")
    parser.add_argument("--seed", type=int, default=1, help="the seed of the maker (default 1)")
    arguments = parser.parse_args()
    return compare(arguments.program, arguments.blocks, arguments.seed)


if __name__ == "__main__":
    sys.exit(main())
