"""Measures how long opening a record of about 60 KB takes, beside expat.

Usage: python3 tools/speed/measure.py PROGRAM

PROGRAM reads one byte and then a record text: after `0` it opens the text once, after `1` it
opens it 2,001 times; it prints the node count. The time of the run with one opening is taken
from the time of the run with 2,001, so that starting and reading do not count.
"""

import argparse
import resource
import statistics
import subprocess
import sys
import tempfile
from pathlib import Path

HERE = Path(__file__).resolve().parent
WHEELSET = (
    b"<wheelset>"
    b"<wheel><sh>30</sh><sd>22.004</sd></wheel>"
    b"<wheel><sh>28.5</sh><sd>21.99</sd></wheel>"
    b"</wheelset>"
)
COPIES = 585
RECORD = WHEELSET * COPIES
# One node fewer than the most a record may have.
NODES = 7 * COPIES
OPENINGS = 2001
ROUNDS = 3


def compile_expat_program(folder):
    """Compiles the program that parses by expat and returns its path."""
    program = Path(folder) / "expat_speed"
    subprocess.run(["gcc", "-O3", "-o", program, HERE / "expat_speed.c", "-lexpat"], check=True)
    return program


def seconds_of_run(command, data):
    """Runs a command and returns the processor time it used, having looked at its node count.

    Processor time is used, not time on the clock, since other work may share the machine.
    """
    before = resource.getrusage(resource.RUSAGE_CHILDREN)
    done = subprocess.run(command, input=data, stdout=subprocess.PIPE, check=True)
    after = resource.getrusage(resource.RUSAGE_CHILDREN)
    if done.stdout.split()[:1] != [str(NODES).encode()]:
        sys.exit(f"{command[0]} printed {done.stdout[:80]!r}, not {NODES} nodes")
    return after.ru_utime + after.ru_stime - before.ru_utime - before.ru_stime


def microseconds_of_expat(program):
    """Returns the microseconds in which expat parses the record once."""
    many = seconds_of_run([program, str(OPENINGS)], RECORD)
    once = seconds_of_run([program, "1"], RECORD)
    return (many - once) / (OPENINGS - 1) * 1e6


def microseconds_of_program(program):
    """Returns the microseconds in which the program opens the record once."""
    many = seconds_of_run([program], b"1" + RECORD)
    once = seconds_of_run([program], b"0" + RECORD)
    return (many - once) / (OPENINGS - 1) * 1e6


def report(name, rounds):
    """Prints the median of the rounds, and the rounds; returns the median."""
    middle = statistics.median(rounds)
    shown = ", ".join(f"{microseconds:.1f}" for microseconds in rounds)
    # A byte in a microsecond is a megabyte (of 1,000,000 bytes) in a second.
    print(f"{name}: {middle:.1f} microseconds a record, {len(RECORD) / middle:.1f} MB/s (rounds: {shown})")
    return middle


def main():
    """Measures both programs in turn and prints what they took."""
    parser = argparse.ArgumentParser(description="Measures opening a record beside expat.")
    parser.add_argument("program", help="the program that opens the record once or 2,001 times")
    arguments = parser.parse_args()
    by_expat = []
    by_program = []
    with tempfile.TemporaryDirectory() as folder:
        expat_program = compile_expat_program(folder)
        for _ in range(ROUNDS):
            by_expat.append(microseconds_of_expat(expat_program))
            by_program.append(microseconds_of_program(arguments.program))
    print(f"{len(RECORD)} bytes, {NODES} nodes, median of {ROUNDS} rounds")
    expat_time = report("expat", by_expat)
    program_time = report("program", by_program)
    print(f"the program takes {program_time / expat_time:.2f} times as long as expat")
    return 0


if __name__ == "__main__":
    sys.exit(main())
