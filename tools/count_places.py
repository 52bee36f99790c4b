"""Lists the places in src/ that the design pass looks at, so that two states can be counted alike.

Usage: python3 tools/count_places.py [COMMIT]

Without COMMIT the files of the working tree are read. Each list is of places to be read, not of faults: docs/DESIGN-PASS.md says which
of them count.
"""

import re
import subprocess
import sys
from collections import defaultdict
from pathlib import Path

ROOT = Path(__file__).resolve().parent.parent
# A parameter pair or a word of a clause counts from so many functions on.
OFTEN = 3

LINES = {
    "1 own enums": r"^(pub )?enum ",
    "1 flags in structs, and as parameters": r"^ +(pub )?\w+: bool,|^ *(pub(\(\w+\))? )?fn .*: bool[,)]",
    "1 functions that answer a small number or a pair": r"^ *(pub(\(\w+\))? )?fn .*-> (u8|u16|\()",
    "3 loops": r"^ *(for|while|loop)\b",
    "4 tests of a variant, and own names for what a trait has": r"matches!|\bfn (same|has_name|is_named|eq|cmp|clone|from|byte|number|digit|sign|value_of)\b",
    "4 refusals and values printed by hand": r"refused \{|\{sign\}|number\(\);$",
    "6 arrays, and counts beside them": r": \[\w+; |^ +(pub )?(count|len|names): (u8|u16|usize),",
}
FUNCTION = re.compile(r"^ *(?:pub(?:\(\w+\))? )?fn (\w+)(.*?)^ *\{", re.M | re.S)
PARAMETER = re.compile(r"\b(\w+): (&?(?:'\w+ )?(?:mut )?[\w\[\]<>:' ]+?)(?=[,)\n])")
CLAUSE_WORD = re.compile(r"(?:requires|ensures)\b[^\n]*")


def sources(commit):
    """Yields the name and the text of each file of src/."""
    if commit is None:
        for path in sorted(ROOT.glob("crates/*/src/**/*.rt")):
            yield str(path.relative_to(ROOT)), path.read_text()
        return
    listed = subprocess.run(["git", "ls-tree", "-r", "--name-only", commit, "crates"], cwd=ROOT, check=True, capture_output=True, text=True)
    for name in sorted(listed.stdout.split()):
        if re.match(r"crates/\w+/src/.*\.rt$", name):
            yield name, subprocess.run(["git", "show", f"{commit}:{name}"], cwd=ROOT, check=True, capture_output=True, text=True).stdout


def show(title, places):
    print(f"== {title}: {len(places)}")
    for place in places:
        print(f"   {place}")


def main():
    files = list(sources(sys.argv[1] if len(sys.argv) > 1 else None))
    for title, pattern in LINES.items():
        show(title, [f"{name}:{i}: {line.strip()}" for name, text in files for i, line in enumerate(text.splitlines(), 1) if re.search(pattern, line)])
    pairs = defaultdict(set)
    words = defaultdict(set)
    for name, text in files:
        crate = name.split("/")[1]
        for found in FUNCTION.finditer(text):
            where = f"{crate}::{found[1]}"
            parameters = sorted({f"{p}: {' '.join(t.split())}" for p, t in PARAMETER.findall(found[2].split("requires")[0].split("ensures")[0])})
            for i, one in enumerate(parameters):
                for other in parameters[i + 1 :]:
                    pairs[crate, one, other].add(where)
            for clause in CLAUSE_WORD.findall(found[2]):
                for word in set(re.findall(r"\b[A-Z]\w+\b", clause.split("{", 1)[-1])):
                    words[crate, word, clause.split()[0]].add(where)
    show("5 parameters that stand together", [f"{c}: {a}, {b}: {len(w)}" for (c, a, b), w in sorted(pairs.items()) if len(w) >= OFTEN])
    show("5 facts that are asked for", [f"{c}: {word}: {len(w)}" for (c, word, kind), w in sorted(words.items()) if kind == "requires" and len(w) >= OFTEN])


if __name__ == "__main__":
    main()
