#!/usr/bin/env python3
"""Spells the repository's own definitions and lemmas in snake case: `text-node` becomes `text_node`.

usage: python3 tools/spell_names.py        at the top of the repository, once, after the toolchain's own script

Renamed are names that a file of specs/ or proofs/ declares and that have a dash between words, wherever they stand in a .antt or .rt
file, comments and quoted strings aside. The names of goals, which the toolchain makes, keep their dashes, and so does a name that
joins a word to an operator (`text-++`).
"""

import collections
import glob
import re
import sys

DECLARED = re.compile(r"^\s*(?:abbrev |unfoldable )?(?:pub )?(?:data |record )?([^\s:(){}.,;]+)(?:\s+[({].*)?\s*:(?!=)\s")
GOAL = re.compile(r":\s*goal\.")
TOKEN = re.compile(r"[^\s(){}.,;`\"|\[\]λ¬∥⌜⌝]+")
OPERATOR = re.compile(r"[∷+\[\]]")
# The places that keep their words: comments and quoted strings.
KEPT = {".antt": re.compile(r"(?<!\S)--(?!\S).*|\"(?:[^\"\\]|\\.)*\""), ".rt": re.compile(r"//.*|\"(?:[^\"\\]|\\.)*\"")}


def sources(*endings):
    for ending in endings:
        for path in sorted(glob.glob("crates/*/**/*" + ending, recursive=True)):
            if path.split("/")[2] != "out":
                yield path, ending


def declared():
    """The names that are declared, without those that only answer goals."""
    lines = collections.defaultdict(list)
    for path, _ in sources(".antt"):
        with open(path, encoding="utf-8") as f:
            for line in f:
                m = DECLARED.match(line)
                if m and not line.lstrip().startswith("--"):
                    lines[m.group(1)].append(line)
    return {name for name, where in lines.items() if not all(GOAL.search(line) for line in where)}


def spelled(name):
    return name if OPERATOR.search(name) else name.replace("-", "_")


def turned(text, ending, names):
    def outside(part):
        return TOKEN.sub(lambda m: names.get(m.group(0), m.group(0)), part)

    out, at = [], 0
    for kept in KEPT[ending].finditer(text):
        out += [outside(text[at:kept.start()]), kept.group(0)]
        at = kept.end()
    return "".join(out + [outside(text[at:])])


def main():
    own = declared()
    names = {name: spelled(name) for name in own if spelled(name) != name}
    together = collections.Counter(spelled(name) for name in own)
    fallen = sorted(name for name in names if together[spelled(name)] > 1)
    if fallen:
        print("these would fall together with another name: " + ", ".join(fallen), file=sys.stderr)
        return 1
    changed = 0
    for path, ending in sources(".antt", ".rt"):
        with open(path, encoding="utf-8") as f:
            text = f.read()
        new = turned(text, ending, names)
        if new != text:
            changed += 1
            with open(path, "w", encoding="utf-8") as f:
                f.write(new)
    print(f"{len(names)} names spelled anew in {changed} files")
    return 0


if __name__ == "__main__":
    sys.exit(main())
