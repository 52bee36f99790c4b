"""What the comparisons of programs with other answers have in common."""

import re
import subprocess
import sys

# Seconds that a program may take for all cases of a run.
LONGEST_RUN = 300
SHOWN_DISAGREEMENTS = 5
SHOWN_BYTES = 600


def split_answers(output, further=0):
    """Parts what a program printed into one list of lines a case: `ok N` is followed by N lines and this many further ones."""
    lines = output.decode("ascii", "backslashreplace").splitlines()
    answers = []
    at = 0
    while at < len(lines):
        accepted = re.fullmatch(r"ok ([0-9]{1,4})", lines[at])
        following = int(accepted.group(1)) + further if accepted else 0
        answers.append(lines[at : at + 1 + following])
        at += 1 + following
    return answers


def cut_for_show(text):
    """Returns bytes as Python writes them, their middle left out where there are many."""
    if len(text) <= SHOWN_BYTES:
        return repr(text)
    half = SHOWN_BYTES // 2
    return f"{text[:half]!r} ... {text[-half:]!r} ({len(text)} bytes)"


def first_difference(expected, answered):
    """Returns the first two lines that differ, with their number."""
    for number, (right, wrong) in enumerate(zip(expected, answered)):
        if right != wrong:
            return f"line {number}: expected {right!r}, answered {wrong!r}"
    return f"expected {len(expected)} lines, answered {len(answered)}"


def run_program(command, data):
    """Runs a program on an input; returns what it printed and its status."""
    try:
        done = subprocess.run(command, input=data, capture_output=True, timeout=LONGEST_RUN, check=False)
    except subprocess.TimeoutExpired:
        sys.exit(f"{command[0]} did not end within {LONGEST_RUN} seconds")
    if done.returncode != 0:
        print(f"{command[0]} ended with status {done.returncode}: {cut_for_show(done.stderr)}")
    return done.stdout, done.returncode


def report_disagreements(names, expected, answers):
    """Prints the first few disagreements and returns how many there are; a case is shown by its name."""
    wrong = 0
    for name, right, answered in zip(names, expected, answers):
        if answered == right:
            continue
        wrong += 1
        if wrong <= SHOWN_DISAGREEMENTS:
            print(f"{name}\n  {first_difference(right, answered)}")
    if len(answers) != len(expected):
        print(f"{len(expected)} cases, but {len(answers)} answers")
        wrong += 1
    return wrong


def verdict(wrong, status):
    """Says how a comparison ended and returns the status to end with."""
    if wrong or status != 0:
        print(f"disagreements: {wrong}")
        return 1
    print("every answer agrees")
    return 0


def agrees(command, data, expected):
    """Runs a program on one input and tells whether it printed what was expected; shows what it did if not."""
    printed, status = run_program(command, data)
    if status == 0 and printed == expected:
        return True
    print(f"{' '.join(command)} of {cut_for_show(data)}:\n  status {status}, printed {cut_for_show(printed)}\n  expected {cut_for_show(expected)}")
    return False
