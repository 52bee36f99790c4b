"""Compares the answers of the program `form_cases` with those of a parser of its own, and the sets of contents with derivatives and python3's `re`.

Usage: python3 tools/compare_forms.py PROGRAM [--texts 4000] [--contents 1500] [--seed 1]

The script makes rule texts and start texts, good ones and damaged ones, and compares what is read
of each with what a parser reads here, which goes by bytes and knows no pieces. Then it makes
contents. Of each it compares the marked expression and the four sets: with the sets that are found
by derivatives of the expression, and by words, each of which must match the expression (by
derivatives, and as `re` takes it) exactly when the program's sets let it through.
"""

import argparse
import functools
import itertools
import random
import re
import sys
from decimal import ROUND_HALF_UP, Decimal

from comparing import SHOWN_DISAGREEMENTS, cut_for_show, report_disagreements, run_program, split_answers, verdict
from form_examples import FORM_EXAMPLES

LONGEST_TEXT = 512
DEEPEST = 16
MOST_OCCURRENCES = 256
# The most repeats inside one another for which `re` is asked, whose time grows exponentially with them.
MOST_NESTING = 2

LETTERS = b"ABCDEFGHIJKLMNOPQRSTUVWXYZabcdefghijklmnopqrstuvwxyz"
WORD = re.compile(rb"[A-Za-z][A-Za-z0-9-]*")
NUMBER = re.compile(rb"-?[0-9]{1,5}(?:\.[0-9]{1,3})?(?![0-9.-])")
BLANKS = re.compile(rb"[ \t\r\n]*")
REPEATS = {b"*": "star", b"+": "plus", b"?": "opt"}


# ---------------------------------------------------------------------------
# The parser
# ---------------------------------------------------------------------------

# An expression is a tuple: ("empty",), ("item", X), (NAME, A) or (NAME, A, B).
EMPTY = ("empty",)


class NotOfForm(Exception):
    """The text is not of the form."""


class Parser:
    """Reads a text from left to right."""

    def __init__(self, text):
        if len(text) > LONGEST_TEXT:
            raise NotOfForm
        self.text = text
        self.at = 0
        self.skip_blanks()

    def skip_blanks(self):
        """Goes on past blanks."""
        self.at = BLANKS.match(self.text, self.at).end()

    def next_is(self, *signs):
        """Tells whether one of these bytes stands next."""
        return self.text[self.at : self.at + 1] in signs

    def take(self, sign):
        """Goes past a sign and the blanks behind it, which must stand here."""
        if not self.next_is(sign):
            raise NotOfForm
        self.at += 1
        self.skip_blanks()

    def match(self, pattern):
        """Goes past what a pattern takes and returns it."""
        found = pattern.match(self.text, self.at)
        if not found:
            raise NotOfForm
        self.at = found.end()
        self.skip_blanks()
        return found.group()

    def word(self):
        """Returns the word that stands here."""
        word = self.match(WORD)
        if len(word) > 16:
            raise NotOfForm
        return word.decode()

    def number(self):
        """Returns the number that stands here, in hundredths."""
        exact = Decimal(self.match(NUMBER).decode()) * 100
        # ROUND_HALF_UP of the decimal module goes away from zero on both sides.
        return int(exact.quantize(Decimal(1), rounding=ROUND_HALF_UP))

    def joined(self, name, sign, part, depth):
        """Returns parts joined by a sign; the last two belong together."""
        parts = [part(depth)]
        while self.next_is(sign):
            self.take(sign)
            parts.append(part(depth))
        return functools.reduce(lambda later, first: (name, first, later), reversed(parts))

    def choice(self, depth):
        """Returns the choice that stands inside so many brackets."""
        return self.joined("alt", b"|", self.sequence, depth)

    def sequence(self, depth):
        """Returns the sequence that stands here."""
        return self.joined("seq", b",", self.item, depth)

    def item(self, depth):
        """Returns the item that stands here."""
        if self.next_is(b"("):
            if depth == DEEPEST:
                raise NotOfForm
            self.take(b"(")
            atom = self.choice(depth + 1)
            self.take(b")")
        else:
            atom = ("item", self.word())
        for sign, name in REPEATS.items():
            if self.next_is(sign):
                self.take(sign)
                return (name, atom)
        return atom

    def content(self, *ends):
        """Returns the content before one of these ends."""
        return EMPTY if self.next_is(*ends) else self.choice(0)

    def end(self):
        """Nothing may follow."""
        if self.at != len(self.text):
            raise NotOfForm

    def start(self):
        """Returns the content of a start text."""
        content = self.content(b"")
        self.end()
        return content

    def rule(self):
        """Returns the line that tells a rule text."""
        variable = self.word()
        self.take(b"=")
        name = self.word()
        if self.next_is(b"("):
            self.take(b"(")
            content = self.content(b")")
            self.take(b")")
            self.end()
            return f"branch {variable} {name} {shown(content)}"
        self.take(b"[")
        low = self.number()
        self.take(b",")
        high = self.number()
        self.take(b"]")
        self.end()
        return "low above high" if low > high else f"leaf {variable} {name} {low} {high}"


def shown(expression):
    """Returns an expression as the program prints it."""
    if expression[0] == "item":
        return str(expression[1])
    return f"{expression[0]}({', '.join(shown(part) for part in expression[1:])})"


# ---------------------------------------------------------------------------
# Contents: marking, derivatives, sets
# ---------------------------------------------------------------------------


class TooMany(Exception):
    """There are too many occurrences."""


def mark(expression, numbers):
    """Returns the expression with the next number in place of each item."""
    if expression[0] == "item":
        return ("item", next(numbers))
    return (expression[0],) + tuple(mark(part, numbers) for part in expression[1:])


def items(expression):
    """Returns the items of an expression from left to right."""
    if expression[0] == "item":
        return [expression[1]]
    return [item for part in expression[1:] for item in items(part)]


def marked_content(base, text):
    """Returns the marked content of a start text."""
    content = Parser(text).start()
    if base + len(items(content)) > MOST_OCCURRENCES:
        raise TooMany
    return mark(content, itertools.count(base))


def has_empty(expression):
    """Tells whether the empty word matches."""
    name, parts = expression[0], expression[1:]
    if name in ("empty", "star", "opt"):
        return True
    if name == "item":
        return False
    return (any if name == "alt" else all)(has_empty(part) for part in parts)


# A state is a set of expressions: what may follow a word is a word of one of them.
def after(expression, item):
    """Returns what may follow an item that stands first, as a set of expressions."""
    name, parts = expression[0], expression[1:]
    if name == "empty":
        return frozenset()
    if name == "item":
        return frozenset([EMPTY]) if parts[0] == item else frozenset()
    if name == "alt":
        return after(parts[0], item) | after(parts[1], item)
    if name == "opt":
        return after(parts[0], item)
    behind = parts[1] if name == "seq" else ("star", parts[0])
    found = frozenset(behind if rest == EMPTY else ("seq", rest, behind) for rest in after(parts[0], item))
    if name == "seq" and has_empty(parts[0]):
        found |= after(parts[1], item)
    return found


def step(state, item):
    """Returns the state after one more item."""
    return frozenset().union(*(after(expression, item) for expression in state))


def sets_lines(expression):
    """Returns what the program must print of a marked content: the sets as they are found by walking through all states."""
    numbers = items(expression)
    first = frozenset([expression])
    states, todo = {first}, [first]
    closes, follows = set(), set()
    while todo:
        state = todo.pop()
        for p in numbers:
            following = step(state, p)
            if any(has_empty(rest) for rest in following):
                closes.add(p)
            follows.update((p, q) for q in numbers if step(following, q))
            if following and following not in states:
                states.add(following)
                todo.append(following)
    lines = [f"ok {len(numbers)}", shown(expression) + (" nullable" if has_empty(expression) else " -")]
    for p in numbers:
        words = [str(p), "opens" if step(first, p) else "-", "closes" if p in closes else "-"]
        lines.append(" ".join(words + [str(q) for q in numbers if (p, q) in follows]))
    return lines


def as_pattern(expression):
    """Returns an expression as python3's `re` takes it, one character an occurrence."""
    name, parts = expression[0], expression[1:]
    if name == "empty":
        return ""
    if name == "item":
        return chr(0x1000 + parts[0])
    inner = [f"(?:{as_pattern(part)})" for part in parts]
    if name == "alt":
        return "|".join(inner)
    return "".join(inner) + {"seq": "", "star": "*", "plus": "+", "opt": "?"}[name]


def nesting(expression):
    """Returns how many repeats stand inside one another."""
    if expression[0] == "item":
        return 0
    inner = max((nesting(part) for part in expression[1:]), default=0)
    return inner + (expression[0] in ("star", "plus", "opt"))


def matcher(expression):
    """Returns the test whether a word matches: by derivatives, and by `re` too where it need not try too many ways."""
    pattern = re.compile(as_pattern(expression)) if nesting(expression) <= MOST_NESTING else None

    def matches(word):
        found = any(has_empty(rest) for rest in functools.reduce(step, word, frozenset([expression])))
        if pattern:
            assert found == (pattern.fullmatch("".join(chr(0x1000 + p) for p in word)) is not None), (expression, word)
        return found

    return matches, pattern is not None


class Sets:
    """The four sets of a content as the program printed them."""

    def __init__(self, lines):
        self.nullable = lines[1].endswith(" nullable")
        rows = [line.split() for line in lines[2:]]
        self.opens = {int(row[0]) for row in rows if row[1] == "opens"}
        self.closes = {int(row[0]) for row in rows if row[2] == "closes"}
        self.follows = {(int(row[0]), int(q)) for row in rows for q in row[3:]}

    def lets_through(self, word):
        """Tells whether the first occurrence opens, neighbours follow, and the last closes."""
        if not word:
            return self.nullable
        return word[0] in self.opens and word[-1] in self.closes and all(pair in self.follows for pair in zip(word, word[1:]))

    def walk(self, maker, length):
        """Returns a word along the sets, of so many occurrences or fewer."""
        word = []
        may_stand = self.opens
        while may_stand and len(word) < length:
            word.append(maker.choice(sorted(may_stand)))
            may_stand = {q for p, q in self.follows if p == word[-1]}
        return tuple(word)


# ---------------------------------------------------------------------------
# The maker
# ---------------------------------------------------------------------------

STRAY = [b"(", b")", b"[", b"]", b"=", b",", b"|", b"*", b"+", b"?", b" ", b"-", b".", b"7", b"x", b"A", b";", b"<", b"\0", b"\xff", b"\x0b"]


class Maker:
    """Makes texts from a seed."""

    def __init__(self, seed):
        self.random = random.Random(seed)
        self.choice = self.random.choice

    def chance(self, share):
        """Returns true in this share of the calls."""
        return self.random.random() < share

    def word(self):
        """Returns a word, sometimes one as long as may be or one byte longer."""
        length = self.choice([1, 1, 2, 3, 4, 5, 16]) if self.chance(0.99) else 17
        tail = [self.random.choice(LETTERS + b"0123456789-") for _ in range(length - 1)]
        return bytes([self.random.choice(LETTERS)] + tail)

    def number(self):
        """Returns a number; halves and the ends come often."""
        whole = self.choice(["0", "1", "26", "33", "00007", "99999", str(self.random.randrange(100000))])
        part = self.choice(["", "", ".5", ".05", ".005", ".004", ".995", ".999", f".{self.random.randrange(1000):03}"])
        return (self.choice(["", "-"]) + whole + part).encode()

    def odd_number(self):
        """Returns bytes that may be a number or none."""
        return bytes(self.random.choice(b"0159-.") for _ in range(self.random.randrange(1, 8)))

    def choice_parts(self, size, name=None):
        """Returns the pieces of a choice with so many items; name gives the variables."""
        cut = self.random.randrange(1, size) if size > 1 else 0
        if cut:
            sign = self.choice([b"|", b",", b","])
            parts = self.choice_parts(cut, name) + [sign] + self.choice_parts(size - cut, name)
        else:
            parts = [(name or self.word)()]
        if self.chance(0.3) or (cut and self.chance(0.3)):
            parts = [b"("] + parts + [b")"]
        if (len(parts) == 1 or parts[0] == b"(" and closes_at_end(parts)) and self.chance(0.4):
            parts = parts + [self.choice([b"*", b"+", b"?"])]
        return parts

    def content(self):
        """Returns the pieces of a content; some have about as many brackets inside one another as may be."""
        if self.chance(0.05):
            return []
        parts = self.choice_parts(self.choice([1, 1, 2, 3, 4, 6, 9]))
        if self.chance(0.1):
            levels = self.random.randrange(DEEPEST - 2, DEEPEST + 2)
            parts = [b"("] * levels + parts + [b")"] * levels
        return parts

    def leaf(self):
        """Returns the pieces of a leaf rule's ends, in order in most cases."""
        ends = [self.number(), self.number()]
        if self.chance(0.1):
            ends[self.random.randrange(2)] = self.odd_number()
        elif self.chance(0.7):
            ends.sort(key=float)
        return [b"[", ends[0], b",", ends[1], b"]"]

    def pieces(self, kind):
        """Returns the pieces of a good text."""
        if kind == "start":
            return self.content()
        body = self.leaf() if self.chance(0.4) else [b"("] + self.content() + [b")"]
        return [self.word(), b"=", self.word()] + body

    def blanks(self):
        """Returns some blanks, in most cases none."""
        return b"" if self.chance(0.7) else bytes(self.random.choice(b"  \t\r") for _ in range(self.choice([1, 1, 2, 4])))

    def spaced(self, pieces):
        """Returns the text of pieces, with blanks here and there; some are about as long as may be."""
        text = self.blanks() + b"".join(piece + self.blanks() for piece in pieces)
        if self.chance(0.03):
            text = text.ljust(LONGEST_TEXT + self.choice([-1, 0, 0, 1]))
        return text

    def damage_pieces(self, pieces):
        """Takes a piece out, doubles it, changes it, or swaps two."""
        if not pieces:
            return [self.choice(STRAY)]
        at, other = self.random.randrange(len(pieces)), self.random.randrange(len(pieces))
        way = self.choice(["out", "twice", "change", "swap", "add"])
        if way == "out":
            return pieces[:at] + pieces[at + 1 :]
        if way == "twice":
            return pieces[:at] + [pieces[at]] + pieces[at:]
        if way == "change":
            return pieces[:at] + [self.choice(STRAY)] + pieces[at + 1 :]
        if way == "add":
            return pieces[:at] + [self.choice(STRAY)] + pieces[at:]
        pieces = list(pieces)
        pieces[at], pieces[other] = pieces[other], pieces[at]
        return pieces

    def damage_bytes(self, text):
        """Takes a byte out, puts one in, or changes one."""
        at = self.random.randrange(len(text) + 1)
        byte = self.choice(STRAY) if self.chance(0.8) else bytes([self.random.randrange(256)])
        way = self.choice(["out", "in", "change"])
        return text[:at] + (b"" if way == "out" else byte) + text[at + (way != "in") :]

    def text(self, kind):
        """Returns a text of a kind, half of them damaged."""
        pieces = self.pieces(kind)
        way = self.random.random()
        if way < 0.25:
            pieces = self.damage_pieces(pieces)
        text = self.spaced(pieces)
        if 0.25 <= way < 0.5:
            text = self.damage_bytes(text)
        # A case is one line.
        return text.replace(b"\n", b"\r")

    def set_case(self):
        """Returns a base and a content for the sets; some have too many occurrences."""
        parts = [] if self.chance(0.02) else self.choice_parts(self.choice([1, 2, 3, 3, 4, 4, 5, 6, 7, 8]), lambda: self.choice([b"A", b"B", b"Wheel"]))
        base = self.choice([0, 0, 1, 5, 100, self.random.randrange(240, 259)])
        return base, b"".join(parts)

    def words(self, numbers, sets):
        """Returns words over the occurrences: all that are short, and longer ones, many of them along the sets."""
        words = {()}
        for length in (1, 2, 3):
            if len(numbers) ** length <= 64:
                words.update(itertools.product(numbers, repeat=length))
        for _ in range(16 if numbers else 0):
            word = sets.walk(self, self.random.randrange(1, 9))
            words.add(word)
            at = self.random.randrange(len(word) + 1)
            words.add(word[:at] + (self.choice(numbers),) + word[at + self.random.randrange(2) :])
        return sorted(words)


def closes_at_end(parts):
    """Tells whether the bracket that opens pieces is closed by the last of them."""
    depth = 0
    for at, part in enumerate(parts):
        depth += {b"(": 1, b")": -1}.get(part, 0)
        if depth == 0:
            return at == len(parts) - 1
    return False


# ---------------------------------------------------------------------------
# The comparison
# ---------------------------------------------------------------------------


def answer(case):
    """Returns what the program must print of a case, as a list of lines."""
    kind, _, text = case.partition(b" ")
    try:
        if kind == b"rule":
            return [Parser(text).rule()]
        if kind == b"start":
            return ["start " + shown(Parser(text).start())]
        base, _, text = text.partition(b" ")
        return sets_lines(marked_content(int(base), text))
    except NotOfForm:
        return ["not of the form"]
    except TooMany:
        return ["too many"]


def check_examples():
    """Compares the answers of this script with those written by hand; returns how many differ."""
    examples = [example for example in FORM_EXAMPLES if len(example.lines) < 100]
    return report_disagreements(
        [f"by this script: {cut_for_show(example.case)}" for example in examples],
        [example.lines for example in examples],
        [answer(example.case) for example in examples],
    )


def compare_cases(program, cases):
    """Runs the program on cases; returns its answers, how many are wrong, and its status."""
    expected = [answer(case) for case in cases]
    printed, status = run_program([program], b"".join(case + b"\n" for case in cases))
    # A line tells the marked content, too.
    answers = split_answers(printed, further=1)
    wrong = report_disagreements([f"case {number}: {cut_for_show(case)}" for number, case in enumerate(cases)], expected, answers)
    return answers, wrong, status


def compare_texts(program, maker, count):
    """Compares what is read of texts; returns how many are wrong, and the status."""
    kinds = ["rule", "start"] * (count // 2)
    cases = [kind.encode() + b" " + maker.text(kind) for kind in kinds]
    answers, wrong, status = compare_cases(program, cases)
    tally = {"branch": 0, "leaf": 0, "start": 0, "low": 0, "not": 0}
    for lines in answers:
        kind = lines[0].split()[0]
        tally[kind] = tally.get(kind, 0) + 1
    print(f"{len(cases)} texts: " + ", ".join(f"{number} {kind}" for kind, number in tally.items()))
    return wrong, status


def compare_words(maker, case, lines):
    """Compares the words of one content; returns how many there were, how many `re` was asked, how many match, and the first that differs."""
    base, _, text = case.partition(b" ")[2].partition(b" ")
    expression = marked_content(int(base), text)
    match, by_re = matcher(expression)
    sets = Sets(lines)
    words = maker.words(items(expression), sets)
    matching = 0
    asked = len(words) if by_re else 0
    for word in words:
        matches = match(word)
        matching += matches
        if matches != sets.lets_through(word):
            return len(words), asked, matching, word
    return len(words), asked, matching, None


def compare_sets(program, maker, count):
    """Compares the sets of contents; returns how many are wrong, and the status."""
    cases = [b"sets %d %s" % maker.set_case() for _ in range(count)]
    answers, wrong, status = compare_cases(program, cases)
    words = by_re = matching = contents = 0
    for case, lines in zip(cases, answers):
        if not lines[0].startswith("ok "):
            continue
        tried, asked, matched, differing = compare_words(maker, case, lines)
        contents, words, by_re, matching = contents + 1, words + tried, by_re + asked, matching + matched
        if differing is not None:
            wrong += 1
            if wrong <= SHOWN_DISAGREEMENTS:
                print(f"{cut_for_show(case)}: the sets and the expression differ on the word {differing}")
    print(f"{len(cases)} contents: {contents} marked, {words} words of them ({by_re} also by re), {matching} match")
    return wrong, status


def compare(program, texts, contents, seed):
    """Runs the comparisons and returns the status to end with."""
    print(f"seed {seed}")
    maker = Maker(seed)
    wrong = check_examples()
    wrong_texts, text_status = compare_texts(program, maker, texts)
    wrong_sets, sets_status = compare_sets(program, maker, contents)
    return verdict(wrong + wrong_texts + wrong_sets, text_status or sets_status)


def main():
    """Reads the arguments and runs the comparison."""
    parser = argparse.ArgumentParser(description="Compares the program form_cases with a parser of the script's own, and with `re`.")
    parser.add_argument("program", help="the program form_cases")
    parser.add_argument("--texts", type=int, default=4000, help="how many texts to make (default 4000)")
    parser.add_argument("--contents", type=int, default=1500, help="how many contents to make (default 1500)")
    parser.add_argument("--seed", type=int, default=1, help="the seed of the maker (default 1)")
    arguments = parser.parse_args()
    return compare(arguments.program, arguments.texts, arguments.contents, arguments.seed)


if __name__ == "__main__":
    sys.exit(main())
