"""The named examples of form texts and of the sets of contents, with answers written by hand.

tools/write_cases.py makes crates/form_cases/stdin and crates/form_cases/stdout of them, and
tools/compare_forms.py first holds its own answers against them.
"""

LONGEST_TEXT = 512


class Example:
    """A line that the program form_cases reads, and the lines that it answers."""

    def __init__(self, case, lines):
        self.case = case
        self.lines = lines


def rule(text, line):
    """A rule text, and what it says."""
    return Example(b"rule " + text, [line])


def start(text, line):
    """A start text, and the content that it says."""
    return Example(b"start " + text, ["start " + line])


def no_rule(text):
    """A text that is not of the form of a rule text."""
    return rule(text, "not of the form")


def no_start(text):
    """A text that is not of the form of a start text."""
    return Example(b"start " + text, ["not of the form"])


def leaf(ends, low, high):
    """A leaf rule with these ends, in hundredths."""
    return rule(b"Sh = sh[" + ends + b"]", f"leaf Sh sh {low} {high}")


def no_leaf(ends):
    """Ends that are none."""
    return no_rule(b"Sh = sh[" + ends + b"]")


def crossed(ends):
    """A leaf rule whose low value is above its high value."""
    return rule(b"Sh = sh[" + ends + b"]", "low above high")


def sets(base, text, lines):
    """A content that is marked: its expression, and a line an occurrence."""
    return Example(b"sets %d %s" % (base, text), [f"ok {len(lines) - 1}"] + lines)


def no_sets(base, text, line):
    """A content that is not marked, and why."""
    return Example(b"sets %d %s" % (base, text), [line])


def deep(levels, inside=b"Sh"):
    """Brackets inside one another."""
    return b"(" * levels + inside + b")" * levels


def filled(text, length):
    """A text with blanks behind it, so long."""
    return text + b" " * (length - len(text))


def chain(first, count):
    """Occurrences one after the other, as they are printed."""
    last = first + count - 1
    return "".join(f"seq({p}, " for p in range(first, last)) + str(last) + ")" * (count - 1)


def chain_lines(first, count):
    """The lines of a chain of two occurrences or more."""
    middle = [f"{p} - - {p + 1}" for p in range(first + 1, first + count - 1)]
    return [chain(first, count) + " -", f"{first} opens - {first + 1}"] + middle + [f"{first + count - 1} - closes"]


WORKED = [
    rule(b"Set = wheelset(Wheel,Wheel)", "branch Set wheelset seq(Wheel, Wheel)"),
    rule(b"Wheel = wheel(Sh,(Sd|Low))", "branch Wheel wheel seq(Sh, alt(Sd, Low))"),
    rule(b"Sh = sh[26,36]", "leaf Sh sh 2600 3600"),
    rule(b"Sd = sd[22,33]", "leaf Sd sd 2200 3300"),
    rule(b"Low = sd[18,22]", "leaf Low sd 1800 2200"),
    start(b"Set*", "star(Set)"),
]

CONTENTS = [
    start(b"", "empty()"),
    start(b" \t\r ", "empty()"),
    start(b"empty", "empty"),
    start(b"seq,alt", "seq(seq, alt)"),
    start(b"A", "A"),
    start(b"A,B,C", "seq(A, seq(B, C))"),
    start(b"A|B|C", "alt(A, alt(B, C))"),
    start(b"(A,B),C", "seq(seq(A, B), C)"),
    start(b"(A|B)|C", "alt(alt(A, B), C)"),
    start(b"A|B,C", "alt(A, seq(B, C))"),
    start(b"A,B|C,D|E", "alt(seq(A, B), alt(seq(C, D), E))"),
    start(b"(A|B),C", "seq(alt(A, B), C)"),
    start(b"A,B*", "seq(A, star(B))"),
    start(b"(A,B)*", "star(seq(A, B))"),
    start(b"A+", "plus(A)"),
    start(b"A?", "opt(A)"),
    start(b"(A*)*", "star(star(A))"),
    start(b"((A?)+)*", "star(plus(opt(A)))"),
    start(b"((A))", "A"),
    no_start(b"A**"),
    no_start(b"A+?"),
    no_start(b"A?*"),
    no_start(b"A* +"),
    no_start(b"(A)??"),
    no_start(b"*"),
    no_start(b"*A"),
    no_start(b"A,*"),
    no_start(b"A,"),
    no_start(b",A"),
    no_start(b"A,,B"),
    no_start(b"A|"),
    no_start(b"|A"),
    no_start(b"A||B"),
    no_start(b"A,|B"),
    no_start(b"A B"),
    no_start(b"(A)(B)"),
    no_start(b"()"),
    no_start(b"( )"),
    no_start(b"A,()"),
    no_start(b"(A"),
    no_start(b"A)"),
    no_start(b"((A)"),
    no_start(b"[A]"),
    no_start(b"5"),
    no_start(b"A=B"),
    no_start(b"Set = wheelset(Wheel)"),
]

RULES = [
    rule(b"A = a()", "branch A a empty()"),
    rule(b"A = a( )", "branch A a empty()"),
    rule(b"A=a(A)", "branch A a A"),
    rule(b"a = a(B|C,D?)", "branch a a alt(B, seq(C, opt(D)))"),
    rule(b"A = a((B))", "branch A a B"),
    no_rule(b""),
    no_rule(b" "),
    no_rule(b"A"),
    no_rule(b"A,B"),
    no_rule(b"A = a"),
    no_rule(b"A = "),
    no_rule(b"A = (B)"),
    no_rule(b"= a(B)"),
    no_rule(b"A a(B)"),
    no_rule(b"A == a(B)"),
    no_rule(b"A = a(B"),
    no_rule(b"A = a B)"),
    no_rule(b"A = a(B))"),
    no_rule(b"A = a(B) C"),
    no_rule(b"A = a(B)*"),
    no_rule(b"A = a(B]"),
    no_rule(b"A = a(())"),
    no_rule(b"A = a(B,)"),
    no_rule(b"A = a(5)"),
    no_rule(b"A = a(1,2)"),
    no_rule(b"A = a(B) A = a(B)"),
    no_rule(b"A, B = a(C)"),
    no_rule(b"A = a b(C)"),
    no_rule(b"5 = a(B)"),
    no_rule(b"A = 5(B)"),
]

BLANKS = [
    rule(b"\t Set \r=\twheelset  ( Wheel\t,\rWheel ) ", "branch Set wheelset seq(Wheel, Wheel)"),
    rule(b" Sh\t=\rsh [ 26 , 36 ]\r", "leaf Sh sh 2600 3600"),
    start(b" ( A | B ) * , C ? ", "seq(star(alt(A, B)), opt(C))"),
    no_start(b"Wh eel"),
    no_rule(b"S et = wheelset(Wheel)"),
    no_rule(b"Set = wheel set(Wheel)"),
    no_leaf(b"2 6,36"),
    no_leaf(b"2. 5,36"),
    no_leaf(b"- 26,36"),
    no_start(b"A\x0bB"),
    no_start(b"A\x0c"),
    no_start(b"A\xa0"),
]

WORDS = [
    start(b"abcdefghijklmnop", "abcdefghijklmnop"),
    no_start(b"abcdefghijklmnopq"),
    rule(b"Abcdefghijklmno1 = abcdefghijklmn--(Z)", "branch Abcdefghijklmno1 abcdefghijklmn-- Z"),
    no_rule(b"Abcdefghijklmno12 = a(B)"),
    no_rule(b"A = abcdefghijklmn---(B)"),
    no_rule(b"A = a(abcdefghijklmnopq)"),
    start(b"a-1,A-", "seq(a-1, A-)"),
    no_start(b"1a"),
    no_start(b"-a"),
    no_start(b"a_b"),
    no_start(b"a.b"),
    no_start(b"\xc3\xa9"),
]

NUMBERS = [
    leaf(b"-5,5", -500, 500),
    leaf(b"0,0", 0, 0),
    leaf(b"-0,0", 0, 0),
    leaf(b"26,26", 2600, 2600),
    leaf(b"00026,0036.5", 2600, 3650),
    leaf(b"22.4,22.44", 2240, 2244),
    leaf(b"22.004,22.005", 2200, 2201),
    leaf(b"33.005,33.015", 3301, 3302),
    leaf(b"-0.005,0.005", -1, 1),
    leaf(b"-0.004,0.004", 0, 0),
    leaf(b"-0.015,-0.014", -2, -1),
    leaf(b"-99999.999,99999.999", -10000000, 10000000),
    # The values are compared when they are rounded.
    leaf(b"26.004,26", 2600, 2600),
    crossed(b"26.005,26"),
    crossed(b"36,26"),
    crossed(b"0.01,0"),
    crossed(b"-1,-2"),
    crossed(b"-0.004,-0.005"),
    crossed(b"5,-5"),
    no_rule(b"Sh = sh[36,26"),
    no_rule(b"Sh = sh[36,26] A"),
    no_rule(b"Sh = sh[36,26)"),
    no_rule(b"Sh = sh(26,36)"),
    no_leaf(b""),
    no_leaf(b","),
    no_leaf(b"26"),
    no_leaf(b"26,"),
    no_leaf(b",36"),
    no_leaf(b"26|36"),
    no_leaf(b"26 36"),
    no_leaf(b"26,36,46"),
    no_leaf(b"A,B"),
    no_leaf(b"(26),36"),
    no_leaf(b"26*,36"),
    no_leaf(b"26,123456"),
    no_leaf(b"26,36.0005"),
    no_leaf(b"26.,36"),
    no_leaf(b".5,36"),
    no_leaf(b"+26,36"),
    no_leaf(b"--26,36"),
    no_leaf(b"-,36"),
    no_leaf(b"26-,36"),
    no_leaf(b"1.2.3,36"),
    no_leaf(b"1e1,36"),
]

SIGNS = [no_start(b"A" + sign + b"B") for sign in (b";", b":", b"&", b"<", b">", b"/", b"{", b"}", b'"', b"'", b"!", b"_", b"\0", b"\xff")]
SIGNS += [no_rule(b"A = a{B}"), no_rule(b"A := a(B)"), no_rule(b"A = a<B>"), no_rule(b"A = a(B);")]

LIMITS = [
    start(deep(15), "Sh"),
    start(deep(16), "Sh"),
    no_start(deep(17)),
    start(deep(16) + b"," + deep(16), "seq(Sh, Sh)"),
    no_start(deep(16) + b"," + deep(17)),
    start(deep(16, b"A|B") + b"*", "star(alt(A, B))"),
    rule(b"A = a(" + deep(16) + b")", "branch A a Sh"),
    no_rule(b"A = a(" + deep(17) + b")"),
    start(filled(b"Set*", LONGEST_TEXT), "star(Set)"),
    no_start(filled(b"Set*", LONGEST_TEXT + 1)),
    start(b" " * LONGEST_TEXT, "empty()"),
    no_start(b" " * (LONGEST_TEXT + 1)),
    rule(filled(b"A = a(B)", LONGEST_TEXT), "branch A a B"),
    no_rule(filled(b"A = a(B)", LONGEST_TEXT + 1)),
    rule(filled(b"Sh = sh[26,36]", LONGEST_TEXT), "leaf Sh sh 2600 3600"),
    no_rule(filled(b"Sh = sh[36,26]", LONGEST_TEXT + 1)),
    start(b"A" + b",A" * 255, "seq(A, " * 255 + "A" + ")" * 255),
    no_start(b"A" + b",A" * 256),
]

SETS = [
    sets(0, b"Wheel,Wheel", ["seq(0, 1) -", "0 opens - 1", "1 - closes"]),
    sets(2, b"Sh,(Sd|Low)", ["seq(2, alt(3, 4)) -", "2 opens - 3 4", "3 - closes", "4 - closes"]),
    sets(5, b"Set*", ["star(5) nullable", "5 opens closes 5"]),
    sets(0, b"", ["empty() nullable"]),
    sets(0, b"A", ["0 -", "0 opens closes"]),
    sets(0, b"A?", ["opt(0) nullable", "0 opens closes"]),
    sets(0, b"A+", ["plus(0) -", "0 opens closes 0"]),
    sets(0, b"A|A", ["alt(0, 1) -", "0 opens closes", "1 opens closes"]),
    sets(0, b"A|B?", ["alt(0, opt(1)) nullable", "0 opens closes", "1 opens closes"]),
    sets(0, b"A,B?,C", ["seq(0, seq(opt(1), 2)) -", "0 opens - 1 2", "1 - - 2", "2 - closes"]),
    sets(0, b"A?,B?", ["seq(opt(0), opt(1)) nullable", "0 opens closes 1", "1 opens closes"]),
    sets(7, b"(A?,B?)+", ["plus(seq(opt(7), opt(8))) nullable", "7 opens closes 7 8", "8 opens closes 7 8"]),
    sets(0, b"(A,B)*,C", ["seq(star(seq(0, 1)), 2) -", "0 opens - 1", "1 - - 0 2", "2 opens closes"]),
    sets(0, b"(A|B)*", ["star(alt(0, 1)) nullable", "0 opens closes 0 1", "1 opens closes 0 1"]),
    sets(0, b"A" + b",A" * 255, chain_lines(0, 256)),
    no_sets(1, b"A" + b",A" * 255, "too many"),
    sets(255, b"A", ["255 -", "255 opens closes"]),
    no_sets(255, b"A,B", "too many"),
    no_sets(256, b"A", "too many"),
    sets(256, b"", ["empty() nullable"]),
    no_sets(257, b"", "too many"),
    no_sets(0, b"(A", "not of the form"),
]

FORM_EXAMPLES = WORKED + CONTENTS + RULES + BLANKS + WORDS + NUMBERS + SIGNS + LIMITS + SETS
