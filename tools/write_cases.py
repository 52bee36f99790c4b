"""Writes what the programs `openings`, `outline` and `form_cases` are run on by the gate, and what they must print.

Usage: python3 tools/write_cases.py [--check]

The cases of `openings` are the named examples, which have bytes 0 between them and large texts
among them. Their answers are written by hand in tools/named_examples.py, and nothing is written
unless expat agrees with all of them. The case of `outline` is the record in crates/outline/stdin,
which is kept by hand; its answer is computed from expat. The cases of `form_cases`, and their
answers, are written by hand in tools/form_examples.py.
"""

import argparse
import sys
from pathlib import Path

from compare_with_expat import Opening, as_input, hundredths
from comparing import first_difference
from form_examples import FORM_EXAMPLES
from named_examples import EXAMPLES

CRATES = Path(__file__).resolve().parent.parent / "crates"


def check_examples():
    """Stops unless the oracle gives every answer that was written by hand."""
    for example in EXAMPLES:
        answered = Opening(example.text).lines(example.lent)
        assert answered == example.lines, f"{example.name}: {first_difference(example.lines, answered)}"


def openings_input():
    """Returns the cases of `openings`."""
    return b"".join(as_input(example.lent, example.text) for example in EXAMPLES)


def openings_output():
    """Returns what `openings` must print, from the answers written by hand."""
    return "".join(line + "\n" for example in EXAMPLES for line in example.lines).encode()


def form_input():
    """Returns the cases of `form_cases`."""
    return b"".join(example.case + b"\n" for example in FORM_EXAMPLES)


def form_output():
    """Returns what `form_cases` must print, from the answers written by hand."""
    return "".join(line + "\n" for example in FORM_EXAMPLES for line in example.lines).encode()


def two_decimals(value):
    """Returns a value in hundredths as a decimal with two digits after the point."""
    sign = "-" if value < 0 else ""
    return f"{sign}{abs(value) // 100}.{abs(value) % 100:02}"


def outline_output(text):
    """Returns what `outline` must print for a text."""
    opening = Opening(text)
    if opening.refusal is not None:
        return (opening.refusal + "\n").encode()
    lines = []
    for number, element in enumerate(opening.elements):
        value = two_decimals(hundredths(element.number())) if element.number() else "-"
        lines.append(f"{number} {element.start} {element.depth} {element.name} {value}\n")
    lines.append(f"{len(opening.elements)} nodes\n")
    return "".join(lines).encode()


def main():
    """Writes the files, or says which of them are not as they would be written."""
    parser = argparse.ArgumentParser(description="Writes the cases of openings, outline and form_cases.")
    parser.add_argument("--check", action="store_true", help="write nothing, and end with 1 if a file is not current")
    arguments = parser.parse_args()
    check_examples()
    files = {
        "openings/stdin": openings_input(),
        "openings/stdout": openings_output(),
        "form_cases/stdin": form_input(),
        "form_cases/stdout": form_output(),
        "outline/stdout": outline_output((CRATES / "outline/stdin").read_bytes()),
    }
    stale = 0
    for name, content in files.items():
        path = CRATES / name
        if not arguments.check:
            path.write_bytes(content)
        elif not path.exists() or path.read_bytes() != content:
            print(f"crates/{name} is not current")
            stale += 1
    print(f"{len(EXAMPLES) + len(FORM_EXAMPLES)} examples, {sum(len(content) for content in files.values())} bytes")
    return 1 if stale else 0


if __name__ == "__main__":
    sys.exit(main())
