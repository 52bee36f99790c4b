"""Compares the answers of the program `openings` with answers computed from expat.

Usage: python3 tools/compare_with_expat.py PROGRAM [--texts 3000] [--seed 1]
       python3 tools/compare_with_expat.py --self-test

The script generates texts, runs PROGRAM once on all of them and compares every answer.
What is well formed, which elements are open, and the entries come from expat, which reads
each text inside a root element. The script's own are the cut into items, the two limits, and
the rules by which record text is narrower than XML (marked "narrower than XML" below).
"""

import argparse
import random
import re
import sys
from decimal import ROUND_HALF_UP, Decimal
from xml.parsers import expat

from comparing import cut_for_show, first_difference, report_disagreements, run_program, split_answers, verdict

MOST_NODES = 4096
MOST_DEPTH = 31
LONGEST_LIST = 5000

BLANKS = b" \t\r\n"
WORD = re.compile(r"[A-Za-z][A-Za-z0-9-]{0,15}")
NUMBER = re.compile(r"-?[0-9]{1,5}(\.[0-9]{1,3})?")

# One blank byte is an item here. A run of blanks is several items, all of which fit,
# so no answer depends on that. The last choice takes a `<` with no `>` after it.
ITEM = re.compile(rb"[ \t\r\n]|<[^>]*>|[0-9.-]+|.", re.DOTALL)


# ---------------------------------------------------------------------------
# The oracle
# ---------------------------------------------------------------------------


def cut_into_items(text):
    """Returns the items of a text, in order; joined they are the text."""
    return ITEM.findall(text)


def hundredths(number):
    """Returns the value of a number in hundredths, a half away from zero."""
    # ROUND_HALF_UP of the decimal module goes away from zero on both sides.
    return int((Decimal(number) * 100).quantize(Decimal(1), rounding=ROUND_HALF_UP))


class Element:
    """An element that expat reported."""

    def __init__(self, name, start, depth):
        self.name = name
        self.start = start
        self.depth = depth
        self.end = None
        self.characters = ""
        self.has_elements = False

    def number(self):
        """Returns the text of the element without the blanks around it."""
        return self.characters.strip(BLANKS.decode())

    def line(self):
        """Returns the line that `openings` prints for this element."""
        number = self.number()
        kind = "leaf" if number else "branch"
        value = hundredths(number) if number else 0
        return f"{self.start} {self.end} {len(self.name)} {self.depth} {kind} {value}"


class ExpatReading:
    """A reading of one text by expat, inside a root and with every open element closed."""

    # `_` is a name in XML but no word, so no element of a record text has the root's name.
    ROOT_NAME = "_"
    ROOT_TAG = b"<_>"

    def __init__(self, text):
        self.document = self.ROOT_TAG + text
        self.elements = []
        self.open_elements = []
        self.left_open = 0
        self.well_formed = True
        self.parser = expat.ParserCreate("UTF-8")
        self.parser.StartElementHandler = self.start_element
        self.parser.EndElementHandler = self.end_element
        self.parser.CharacterDataHandler = self.character_data
        # Narrower than XML: no comment, processing instruction or CDATA section.
        self.parser.CommentHandler = self.not_in_record_text
        self.parser.ProcessingInstructionHandler = self.not_in_record_text
        self.parser.StartCdataSectionHandler = self.not_in_record_text
        self.parse()

    def parse(self):
        """Parses the text, and then the closing tags of what expat says is open."""
        try:
            self.parser.Parse(self.document, False)
            self.left_open = len(self.open_elements) - 1
            if self.left_open < 0:
                # The text itself closed the root, which is none of its elements.
                self.well_formed = False
            names = [element.name for element in reversed(self.open_elements)]
            closing_tags = "".join(f"</{name}>" for name in names)
            self.parser.Parse(closing_tags.encode(), True)
        except expat.ExpatError:
            self.well_formed = False

    def not_in_record_text(self, *_):
        """Takes an event that XML has and record text has not."""
        self.well_formed = False

    def start_element(self, name, attributes):
        """Takes an opening tag, or the first half of an empty tag."""
        start = self.parser.CurrentByteIndex - len(self.ROOT_TAG)
        element = Element(name, start, len(self.open_elements) - 1)
        if self.open_elements:
            self.open_elements[-1].has_elements = True
            self.elements.append(element)
            # Narrower than XML: a name is a word, and there are no attributes.
            if attributes or not WORD.fullmatch(name):
                self.well_formed = False
        self.open_elements.append(element)

    def end_element(self, name):
        """Takes a closing tag, or the second half of an empty tag."""
        element = self.open_elements.pop()
        # Narrower than XML: the characters of an element are blanks, or blanks and one number
        # without elements beside it; at the top they are blanks.
        number = element.number()
        if number and (not self.open_elements or element.has_elements or not NUMBER.fullmatch(number)):
            self.well_formed = False
        # Expat's place at the end of an empty tag is not the place of a tag, so it is not used.
        after_name = len(self.ROOT_TAG) + element.start + 1 + len(name)
        if self.document.startswith(b"/>", after_name):
            element.end = element.start + len(name) + 3
        else:
            element.end = self.parser.CurrentByteIndex - len(self.ROOT_TAG) + len(name) + 3

    def character_data(self, characters):
        """Takes what stands between tags."""
        self.open_elements[-1].characters += characters


def is_refused_before_expat(item):
    """Tells an item that XML may take and that the script must refuse by itself.

    Narrower than XML: no reference (expat would put `1` for `&#49;`), and no blank in a tag
    (expat does not tell `<a >` from `<a>`). Everything else is put to expat, also bytes
    outside ASCII, `<!`, `<?` and quotes in a tag.
    """
    is_tag = item.startswith(b"<") and item.endswith(b">")
    return item == b"&" or (is_tag and any(blank in item for blank in BLANKS))


def all_fit(items):
    """Tells whether the items begin the item list of some record text.

    They do exactly if closing what is open after them makes a record text, since an element
    may be closed wherever it may be continued.
    """
    if any(is_refused_before_expat(item) for item in items):
        return False
    return ExpatReading(b"".join(items)).well_formed


def count_fitting(items):
    """Returns how many items at the beginning fit, by halving.

    Halving is sound since items that fit still fit when the last of them are left out. It
    makes texts of thousands of nodes cheap; the self test compares it with trying every count.
    """
    if all_fit(items):
        return len(items)
    fitting = 0
    too_many = len(items)
    while too_many - fitting > 1:
        middle = (fitting + too_many) // 2
        if all_fit(items[:middle]):
            fitting = middle
        else:
            too_many = middle
    return fitting


def first_over_limit(fitting_items):
    """Returns the place of the first element that is one too many or too deep, or None."""
    place = 0
    depth = 0
    nodes = 0
    for item in fitting_items:
        if item.startswith(b"</"):
            depth -= 1
        elif item.startswith(b"<"):
            if nodes >= MOST_NODES or depth > MOST_DEPTH:
                return place
            nodes += 1
            if not item.endswith(b"/>"):
                depth += 1
        place += len(item)
    return None


class Opening:
    """What opening a text must answer, apart from the length of the list that is lent."""

    def __init__(self, text):
        items = cut_into_items(text)
        fitting = items[: count_fitting(items)]
        misfit = items[len(fitting) : len(fitting) + 1]
        self.elements = None
        self.refusal = None
        self.decided_by_expat = not any(is_refused_before_expat(item) for item in misfit)
        reading = ExpatReading(b"".join(fitting))
        self.well_formed = not misfit and reading.left_open == 0
        # Only items before the misfit are held against the limits: at one item 3 goes before 4.
        over_limit = first_over_limit(fitting)
        if over_limit is not None:
            self.refusal = f"refused 4 {over_limit}"
        elif not self.well_formed:
            self.refusal = f"refused 3 {len(b''.join(fitting))}"
        else:
            self.elements = reading.elements

    def lines(self, lent):
        """Returns the lines that `openings` prints where a list of this length is lent."""
        if self.refusal is not None:
            return [self.refusal]
        if len(self.elements) > lent:
            return ["refused 6"]
        return [f"ok {len(self.elements)}"] + [element.line() for element in self.elements]


# ---------------------------------------------------------------------------
# The generator
# ---------------------------------------------------------------------------

SHORT_WORDS = [b"a", b"b", b"A", b"sh", b"sd", b"a-", b"x1", b"wheel"]
LONG_WORDS = [b"wheelset", b"back-to-back", b"abcdefghijklmno", b"abcdefghijklmnop", b"A-1-b-2-C-3-d-4-"]

BAD_NUMBERS = [
    b"1.", b"--1", b"123456", b"-123456", b".5", b"-.5", b"-", b".", b"1.2345", b"0.0005", b"1-2", b"1..2",
    b"12.5.", b"1.-5", b"5-", b"+1", b"1e5",
]  # fmt: skip
BAD_TAGS = [
    b"<>", b"</>", b"<//>", b"<a//>", b"<a/b>", b"</a/>", b"<1/>", b"<-a>", b"<a_b/>", b"<a.b/>", b"<a:b/>",
    b"<abcdefghijklmnopq/>", b"<abcdefghijklmnopq>", b"<<a>", b"<a<b>", b"<!a>", b"<!--c-->", b"<?a?>",
    b"<![CDATA[1]]>", b"<\xc3\xa9/>", b"<a=\"1\"/>", b"<_>", b"</_>",
]  # fmt: skip
# These the script must refuse by itself (see is_refused_before_expat), so they are drawn seldom.
TAGS_WITH_BLANKS = [b"<a >", b"</a >", b"<a />", b"< a>", b"<a\n>", b'<a x="1"/>', b'<a x=">"/>']
REFERENCES = [b"&amp;", b"&#49;", b"&", b"&lt;"]
GOOD_ITEMS = [b"<a>", b"</a>", b"<a/>", b"<b>", b"</b>", b"<A/>", b"1", b"-2.5", b" ", b"\n"]
STRAY_BYTES = [b"<", b">", b"/", b"-", b".", b"1", b"0", b"a", b"b", b" ", b"=", b'"', b"!", b"]", b"_", b"\v", b"\f"]


class Maker:
    """Makes texts from a seed."""

    def __init__(self, seed):
        self.random = random.Random(seed)

    def chance(self, share):
        """Returns true in this share of the calls."""
        return self.random.random() < share

    def blanks(self):
        """Returns no blank, or a few."""
        return self.random.choice([b"", b"", b"", b"", b" ", b"\n", b"\t ", b"\r\n", b" \r"])

    def word(self):
        """Returns a name, seldom one near the longest."""
        return self.random.choice(LONG_WORDS if self.chance(0.1) else SHORT_WORDS)

    def number(self):
        """Returns a number; halves and their neighbours come often."""
        sign = self.random.choice(["", "", "-"])
        digits = self.random.randrange(1, 6)
        whole = "".join(self.random.choice("0123456789") for _ in range(digits))
        if self.chance(0.2):
            whole = self.random.choice(["0", "00000", "99999", "1"])
        if self.chance(0.35):
            return (sign + whole).encode()
        places = self.random.randrange(1, 4)
        fraction = "".join(self.random.choice("0123456789") for _ in range(places))
        if self.chance(0.4):
            fraction = self.random.choice(["004", "005", "006", "994", "995", "999", "015", "125", "5"])
        return f"{sign}{whole}.{fraction}".encode()

    def element(self, levels):
        """Returns an element with at most this many levels."""
        name = self.word()
        form = self.random.random()
        if form < 0.2:
            return b"<" + name + b"/>"
        if form < 0.55 or levels <= 1:
            inside = self.blanks() + self.number() + self.blanks()
        else:
            inside = self.content(levels - 1)
        return b"<" + name + b">" + inside + b"</" + name + b">"

    def content(self, levels):
        """Returns blanks and elements with at most this many levels, seldom no element."""
        parts = [self.blanks()]
        for _ in range(self.random.choice([0, 1, 1, 1, 2, 2, 2, 3, 3, 4])):
            parts.append(self.element(levels))
            parts.append(self.blanks())
        return b"".join(parts)

    def text(self):
        """Returns a record text."""
        return self.content(self.random.randrange(1, 5))

    def stray_byte(self):
        """Returns a byte to damage a text with: mostly one of the grammar, seldom any but 0."""
        if self.chance(0.85):
            return self.random.choice(STRAY_BYTES)
        if self.chance(0.1):
            return b"&"
        return bytes([self.random.randrange(1, 256)])

    def stray_item(self):
        """Returns an item to damage a text with; a few are several items in truth."""
        pools = [GOOD_ITEMS] * 8 + [BAD_NUMBERS] * 4 + [BAD_TAGS] * 5 + [TAGS_WITH_BLANKS, REFERENCES]
        return self.random.choice(self.random.choice(pools))

    def damaged(self, pieces, stray):
        """Returns the pieces joined, after one to three of them were changed."""
        pieces = list(pieces)
        for _ in range(self.random.choice([1, 1, 1, 2, 3])):
            at = self.random.randrange(len(pieces) + 1)
            way = self.random.choice(["insert", "delete", "replace"])
            if way == "insert":
                pieces.insert(at, stray())
            elif way == "delete":
                pieces[at : at + 1] = []
            else:
                pieces[at : at + 1] = [stray()]
        return b"".join(pieces)

    def damaged_bytes(self):
        """Returns a record text of which bytes were changed."""
        text = self.text()
        return self.damaged([text[i : i + 1] for i in range(len(text))], self.stray_byte)

    def damaged_items(self):
        """Returns a record text of which whole items were changed."""
        return self.damaged(cut_into_items(self.text()), self.stray_item)

    def deep_text(self):
        """Returns a chain of elements that ends about where the depth ends, sometimes faulty."""
        names = [self.random.choice(SHORT_WORDS) for _ in range(self.random.randrange(29, 34))]
        parts = []
        for name in names:
            parts.append(b"<" + name + b">" + self.blanks())
            if self.chance(0.05):
                parts.append(b"<b/>")
        # What stands innermost: things that fit, that are too deep, and that do not fit at all.
        parts.append(self.random.choice([b"", b"", b"5", b"5", b"<b/>", b"<b>5</b>", b"<b></b>", self.stray_item()]))
        if self.chance(0.1):
            # A tag that never ends must be refused with 3 even where an element would be too deep.
            return b"".join(parts) + self.random.choice([b"<", b"<b", b"<b/"])
        for name in reversed(names):
            parts.append(self.blanks() + b"</" + name + b">")
            if self.chance(0.05):
                parts.append(b"<b/>")
        if self.chance(0.15):
            return self.damaged(parts, self.stray_item)
        return b"".join(parts)

    def large_text(self):
        """Returns a text of about as many nodes as there may be, sometimes faulty at the last."""
        nodes = self.random.choice([MOST_NODES - 1, MOST_NODES, MOST_NODES, MOST_NODES + 1, MOST_NODES + 1])
        inside = self.chance(0.5)
        if inside:
            nodes -= 1
        elements = []
        for _ in range(nodes):
            elements.append(self.random.choice([b"<a/>", b"<b></b>", b"<sh>30</sh>", b" <sd>22.005</sd>\n"]))
        if self.chance(0.4):
            elements.append(self.random.choice([b"<1/>", b"<a", b"</b>", b"x", b"5", b"<a/>", b"<b>"]))
        text = b"".join(elements)
        return b"<all>" + text + b"</all>" if inside else text

    def any_text(self):
        """Returns a text of one of the kinds, but none of the large ones."""
        kind = self.random.random()
        if kind < 0.4:
            return self.text()
        if kind < 0.65:
            return self.damaged_bytes()
        if kind < 0.9:
            return self.damaged_items()
        return self.deep_text()

    def lent(self, opening):
        """Returns the length of the list to lend: about the nodes of the text, where it has them."""
        if opening.elements is None:
            return self.random.choice([0, 1, 10, 100, LONGEST_LIST])
        nodes = len(opening.elements)
        if nodes > 0 and self.chance(0.12):
            return nodes - 1
        if self.chance(0.03):
            return self.random.randrange(nodes + 1)
        return min(LONGEST_LIST, nodes + self.random.choice([0, 0, 1, 7, LONGEST_LIST]))


class Case:
    """A text, the length of the list to lend, and what must be answered."""

    def __init__(self, text, maker):
        opening = Opening(text)
        self.text = text
        self.lent = maker.lent(opening)
        self.expected = opening.lines(self.lent)
        self.well_formed = opening.well_formed
        self.decided_by_expat = opening.decided_by_expat


def make_cases(count, seed):
    """Returns this many cases, one in 250 with a large text."""
    maker = Maker(seed)
    cases = []
    for number in range(count):
        text = maker.large_text() if number % 250 == 0 else maker.any_text()
        cases.append(Case(text, maker))
    return cases


# ---------------------------------------------------------------------------
# The comparison
# ---------------------------------------------------------------------------


def as_input(lent, text):
    """Returns a case as `openings` reads it."""
    if b"\0" in text:
        raise ValueError("byte 0 parts the cases, so no text may have it")
    if lent > LONGEST_LIST:
        raise ValueError("the list is longer than openings can lend")
    return str(lent).encode() + b" " + text + b"\0"


def summary(cases):
    """Returns the line that says what the cases were."""
    firsts = [case.expected[0] for case in cases]
    accepted = sum(first.startswith("ok ") for first in firsts)
    refused = [f"{sum(first.startswith(f'refused {n}') for first in firsts)} refused with {n}" for n in (3, 4, 6)]
    well_formed = sum(case.well_formed for case in cases)
    by_script = sum(not case.decided_by_expat for case in cases)
    return (
        f"{len(cases)} texts, {well_formed} well formed: {accepted} accepted, {', '.join(refused)}"
        f" ({by_script} of them without asking expat)"
    )


def compare(program, count, seed):
    """Runs the comparison and returns the status to end with."""
    cases = make_cases(count, seed)
    printed, status = run_program([program], b"".join(as_input(case.lent, case.text) for case in cases))
    names = [f"case {number}, list of {case.lent}: {cut_for_show(case.text)}" for number, case in enumerate(cases)]
    wrong = report_disagreements(names, [case.expected for case in cases], split_answers(printed))
    print(summary(cases))
    return verdict(wrong, status)


# ---------------------------------------------------------------------------
# The self test
# ---------------------------------------------------------------------------


def count_fitting_one_by_one(items):
    """Returns what count_fitting returns, by trying every count."""
    fits = [all_fit(items[:count]) for count in range(len(items) + 1)]
    fitting = fits.index(False) - 1 if False in fits else len(items)
    if any(fits[fitting + 1 :]):
        raise AssertionError(f"fitting items after a misfit: {items!r}")
    return fitting


def self_test(seed):
    """Checks the oracle against the named examples; returns the status to end with."""
    from named_examples import EXAMPLES

    wrong = 0
    for example in EXAMPLES:
        answered = Opening(example.text).lines(example.lent)
        if answered != example.lines:
            wrong += 1
            print(f"{example.name}: {cut_for_show(example.text)}")
            print(f"  {first_difference(example.lines, answered)}")
    maker = Maker(seed)
    texts = [example.text for example in EXAMPLES if len(example.text) < 400]
    texts += [maker.any_text() for _ in range(300)]
    for text in texts:
        items = cut_into_items(text)
        if b"".join(items) != text or count_fitting(items) != count_fitting_one_by_one(items):
            wrong += 1
            print(f"the count of fitting items is wrong: {cut_for_show(text)}")
    print(f"{len(EXAMPLES)} named examples, {len(texts)} texts item by item, {wrong} wrong")
    return 1 if wrong else 0


def main():
    """Reads the arguments and runs the comparison or the self test."""
    parser = argparse.ArgumentParser(description="Compares the program openings with expat.")
    parser.add_argument("program", nargs="?", help="the program openings")
    parser.add_argument("--texts", type=int, default=3000, help="how many texts to generate (default 3000)")
    parser.add_argument("--seed", type=int, default=1, help="the seed of the generator (default 1)")
    parser.add_argument("--self-test", action="store_true", help="check the oracle alone, without a program")
    arguments = parser.parse_args()
    if arguments.self_test:
        return self_test(arguments.seed)
    if arguments.program is None:
        parser.error("name the program openings, or give --self-test")
    return compare(arguments.program, arguments.texts, arguments.seed)


if __name__ == "__main__":
    sys.exit(main())
