"""Runs the program `outline` on many inputs and compares what it prints with answers computed from expat.

Usage: python3 tools/compare_outline.py PROGRAM

The inputs are the named examples, and inputs about as long as the program takes.
"""

import argparse
import sys

from comparing import agrees
from named_examples import EXAMPLES
from write_cases import outline_output

LONGEST_INPUT = 16384


def inputs():
    """Returns the inputs to run the program on."""
    blanks = [b" " * length for length in (LONGEST_INPUT - 1, LONGEST_INPUT, LONGEST_INPUT + 1, 3 * LONGEST_INPUT)]
    one_fault = [b" " * (LONGEST_INPUT - 1) + b"x", b" " * LONGEST_INPUT + b"x"]
    return [example.text for example in EXAMPLES] + blanks + one_fault


def expected(text):
    """Returns what the program must print."""
    if len(text) > LONGEST_INPUT:
        return b"refused 8\n"
    return outline_output(text)


def main():
    """Compares all outputs; ends with 1 where one differs."""
    parser = argparse.ArgumentParser(description="Compares outline with answers computed from expat.")
    parser.add_argument("program")
    arguments = parser.parse_args()
    texts = inputs()
    for text in texts:
        if not agrees([arguments.program], text, expected(text)):
            return 1
    print(f"outline: {len(texts)} inputs, every output agrees")
    return 0


if __name__ == "__main__":
    sys.exit(main())
