"""Runs the program `outline` with arguments on texts and gate blocks, and compares what it prints.

Usage: python3 tools/compare_layers.py PROGRAM [--records 400] [--seed 1]

The outputs of the named examples are written by hand. Those of the made records come from the
tree itself: a node is hidden when it or a node above it has the name, and a cut shows a node and
the nodes that have it above them.
"""

import argparse
import random
import struct
import sys
from typing import NamedTuple, Optional

from comparing import agrees
from write_cases import two_decimals

LONGEST_TEXT = 16384


class Node(NamedTuple):
    """A node: its name, its depth, and its value in hundredths or none at a branch."""

    name: str
    depth: int
    value: Optional[int] = None


# ---------------------------------------------------------------------------
# The two ways to send a record
# ---------------------------------------------------------------------------


def as_text(nodes):
    """Returns the nodes as record text, and the place of each."""
    text = ""
    places = []
    open_names = []
    for node in nodes:
        while len(open_names) > node.depth:
            text += f"</{open_names.pop()}>"
        places.append(len(text))
        if node.value is None:
            text += f"<{node.name}>"
            open_names.append(node.name)
        else:
            text += f"<{node.name}>{two_decimals(node.value)}</{node.name}>"
    while open_names:
        text += f"</{open_names.pop()}>"
    return text.encode(), places


def as_block(nodes):
    """Returns the nodes as a gate block, and the place of each."""
    names = sorted({node.name for node in nodes})
    data = struct.pack("<H", len(names))
    for name in names:
        data += bytes([len(name)]) + name.encode()
    data += struct.pack("<H", len(nodes))
    for node in nodes:
        leaf = node.value is not None
        data += struct.pack("<BBBi", names.index(node.name), node.depth, leaf, 10 * node.value if leaf else 0)
    return data, list(range(len(nodes)))


# ---------------------------------------------------------------------------
# What must be printed
# ---------------------------------------------------------------------------


def lineages(nodes):
    """Returns for each node its own number and those of all nodes above it."""
    path = []
    answer = []
    for number, node in enumerate(nodes):
        path = path[: node.depth] + [number]
        answer.append(list(path))
    return answer


def listing(nodes, places, cut=None, hide=None, total=False):
    """Returns what the program must print."""
    rows = list(zip(nodes, places, lineages(nodes)))
    if cut is not None:
        lower = nodes[cut].depth if cut < len(nodes) else 0
        rows = [(node._replace(depth=node.depth - lower), place, line[lower:]) for node, place, line in rows if cut in line]
    if hide is not None:
        rows = [row for row in rows if all(nodes[above].name != hide for above in row[2])]
    text = ""
    for number, (node, place, _) in enumerate(rows):
        value = "-" if node.value is None else two_decimals(node.value)
        text += f"{number} {place} {node.depth} {node.name} {value}\n"
    text += f"{len(rows)} nodes\n"
    if total:
        text += f"total {two_decimals(sum(node.value or 0 for node, _, _ in rows))}\n"
    return text


# ---------------------------------------------------------------------------
# Named examples
# ---------------------------------------------------------------------------

TEXT = b"<a><b>-1.25</b><a><c>2</c></a><b><d>0.5</d></b></a>"
# The same nodes.
BLOCK = as_block([Node("a", 0), Node("b", 1, -125), Node("a", 1), Node("c", 2, 200), Node("b", 1), Node("d", 2, 50)])[0]
WHOLE = "0 0 0 a -\n1 3 1 b -1.25\n2 15 1 a -\n3 18 2 c 2.00\n4 30 1 b -\n5 33 2 d 0.50\n6 nodes\n"

EXAMPLES = [
    ("no argument", [], TEXT, WHOLE),
    ("the sum", ["total"], TEXT, WHOLE + "total 1.25\n"),
    ("hide the root, and the same name beneath it", ["hide", "a"], TEXT, "0 nodes\n"),
    ("hide a leaf", ["hide", "c"], TEXT, "0 0 0 a -\n1 3 1 b -1.25\n2 15 1 a -\n3 30 1 b -\n4 33 2 d 0.50\n5 nodes\n"),
    ("hide leaf and branch of one name", ["hide", "b", "total"], TEXT, "0 0 0 a -\n1 15 1 a -\n2 18 2 c 2.00\n3 nodes\ntotal 2.00\n"),
    ("hide a name that is not there", ["hide", "x"], TEXT, WHOLE),
    ("hide the empty name", ["hide", ""], TEXT, WHOLE),
    ("hide what is no word", ["hide", "<a>"], TEXT, WHOLE),
    ("cut at the root", ["cut", "0"], TEXT, WHOLE),
    ("cut at a leaf", ["cut", "1"], TEXT, "0 3 0 b -1.25\n1 nodes\n"),
    ("cut at a branch", ["cut", "2"], TEXT, "0 15 0 a -\n1 18 1 c 2.00\n2 nodes\n"),
    ("cut at the last node", ["cut", "5"], TEXT, "0 33 0 d 0.50\n1 nodes\n"),
    ("cut at the node past the last", ["cut", "6", "total"], TEXT, "0 nodes\ntotal 0.00\n"),
    ("cut far past the last node", ["cut", "18446744073709551615"], TEXT, "0 nodes\n"),
    ("hide over cut", ["hide", "b", "cut", "4"], TEXT, "0 nodes\n"),
    ("a block", ["block"], BLOCK, "0 0 0 a -\n1 1 1 b -1.25\n2 2 1 a -\n3 3 2 c 2.00\n4 4 1 b -\n5 5 2 d 0.50\n6 nodes\n"),
    ("hide over cut over a block", ["block", "cut", "4", "hide", "d", "total"], BLOCK, "0 4 0 b -\n1 nodes\ntotal 0.00\n"),
    ("a block of nothing", ["block"], b"\0\0\0\0", "0 nodes\n"),
    ("a byte after the block", ["block"], BLOCK + b"\0", "refused 5\n"),
    ("a block that is far too long", ["block"], BLOCK + b"\0" * 100_000, "refused 5\n"),
    ("a text as a block", ["block"], TEXT, "refused 5\n"),
    ("a block as a text", [], BLOCK, "refused 3 0\n"),
    ("a text at fault, cut", ["cut", "1"], b"<a><b></a>", "refused 3 6\n"),
    ("a text past a limit, hidden", ["hide", "a"], b"<a>" * 33, "refused 4 96\n"),
    ("a text that is too long, cut", ["cut", "0"], b" " * (LONGEST_TEXT + 1), "refused 8\n"),
    ("no such argument", ["blocks"], TEXT, "refused 8\n"),
    ("cut without a node", ["cut"], TEXT, "refused 8\n"),
    ("cut at no number", ["cut", "b"], TEXT, "refused 8\n"),
    ("hide without a name", ["hide"], TEXT, "refused 8\n"),
]


# ---------------------------------------------------------------------------
# Made records
# ---------------------------------------------------------------------------

NAMES = ["a", "b", "wheel", "wheelset", "wheel-2", "ABCDEFGHIJKLMNOP"]


def made_nodes(source):
    """Returns nodes in the shape of records."""
    nodes = []
    room = 0
    for _ in range(source.choice([0, 1, 2, 5, 9, 20, 60])):
        depth = source.randrange(room + 1) if source.random() < 0.5 else room
        leaf = source.random() < 0.4 or depth == 31
        value = source.choice([0, 1, -1, 99, -12345, 9_999_999, -9_999_999]) if leaf else None
        nodes.append(Node(source.choice(NAMES), depth, value))
        room = depth if leaf else depth + 1
    return nodes


def made_cases(count, seed):
    """Returns cases of the same kind as the examples."""
    source = random.Random(seed)
    cases = []
    for number in range(count):
        nodes = made_nodes(source)
        cut = source.randrange(len(nodes) + 2) if source.random() < 0.6 else None
        hide = source.choice(NAMES + ["whee", "x"]) if source.random() < 0.6 else None
        total = source.random() < 0.5
        options = [["cut", str(cut)]] * (cut is not None) + [["hide", hide]] * (hide is not None) + [["total"]] * total
        for way, first in ((as_text, []), (as_block, [["block"]])):
            data, places = way(nodes)
            given = options + first
            source.shuffle(given)
            arguments = [word for option in given for word in option]
            cases.append((f"record {number}", arguments, data, listing(nodes, places, cut, hide, total)))
    return cases


def longest_block_cases():
    """Returns the longest block that is taken, 29,764 bytes, and the same with a byte after it."""
    names = [f"{number:016}".translate(str.maketrans("0123456789", "abcdefghij")) for number in range(64)]
    nodes = [Node(names[number % 64], 0, number) for number in range(4096)]
    data, places = as_block(nodes)
    assert len(data) == 29_764
    return [("the longest block", ["block", "total"], data, listing(nodes, places, total=True)), ("one byte longer", ["block"], data + b"\0", "refused 5\n")]


def main():
    """Compares all outputs; ends with 1 where one differs."""
    parser = argparse.ArgumentParser(description="Compares outline under layers with the tree itself.")
    parser.add_argument("program")
    parser.add_argument("--records", type=int, default=400)
    parser.add_argument("--seed", type=int, default=1)
    arguments = parser.parse_args()
    examples = EXAMPLES + longest_block_cases()
    cases = examples + made_cases(arguments.records, arguments.seed)
    for name, words, data, expected in cases:
        if not agrees([arguments.program] + words, data, expected.encode()):
            print(f"  in: {name}")
            return 1
    print(f"outline: {len(examples)} examples and {len(cases) - len(examples)} made records under layers, every output agrees")
    return 0


if __name__ == "__main__":
    sys.exit(main())
