"""The named examples of opening a text, with answers written by hand.

tools/write_cases.py makes crates/openings/stdin and crates/openings/stdout of them, and the self
test of tools/compare_with_expat.py holds its oracle against them.
"""

# Every kind of blank, four bytes.
BLANKS = b" \t\r\n"

WHEELSET = (
    b"<wheelset>"
    b"<wheel><sh>30</sh><sd>22.004</sd></wheel>"
    b"<wheel><sh>28.5</sh><sd>21.99</sd></wheel>"
    b"</wheelset>"
)


class Example:
    """A text, the length of the list that is lent, and the lines of the answer."""

    def __init__(self, name, text, lines, lent=64):
        self.name = name
        self.text = text
        self.lines = lines
        self.lent = lent


def nothing(name, text, lent=64):
    """An example that is accepted and has no node."""
    return Example(name, text, ["ok 0"], lent)


def single(name, text, line):
    """An example that is accepted and has one node."""
    return Example(name, text, ["ok 1", line])


def value(number, hundredths):
    """An example of one leaf named `a` at the top that holds this number."""
    text = b"<a>" + number + b"</a>"
    return single(f"the number {number.decode()}", text, f"0 {len(text)} 1 0 leaf {hundredths}")


def misfit(name, text, place, lent=64):
    """An example that is refused with 3."""
    return Example(name, text, [f"refused 3 {place}"], lent)


def bad_number(number):
    """An example of one leaf that holds what is a run of number bytes but no number."""
    return misfit(f"no number: {number.decode()}", b"<a>" + number + b"</a>", 3)


def bad_tag(name, tag):
    """An example of a tag at the top that never fits."""
    return misfit(name, tag, 0)


def limit(name, text, place, lent=64):
    """An example that is refused with 4."""
    return Example(name, text, [f"refused 4 {place}"], lent)


def short(name, text, lent):
    """An example that is refused with 6."""
    return Example(name, text, ["refused 6"], lent)


def chain(levels, innermost=b""):
    """Elements named `a`, each inside the one before."""
    return b"<a>" * levels + innermost + b"</a>" * levels


def chain_lines(levels, bytes_inside=0):
    """The lines of the chain's own nodes: 3 bytes open each level, 4 bytes close it."""
    inside = 3 * levels + bytes_inside
    return [f"{3 * depth} {inside + 4 * (levels - depth)} 1 {depth} branch 0" for depth in range(levels)]


SMALL = [
    nothing("the empty text", b""),
    nothing("the empty text and a list of no entry", b"", lent=0),
    nothing("blanks only", BLANKS),
    Example(
        "a wheelset",
        WHEELSET,
        [
            "ok 7",
            "0 104 8 0 branch 0",
            "10 51 5 1 branch 0",
            "17 28 2 2 leaf 3000",
            "28 43 2 2 leaf 2200",
            "51 93 5 1 branch 0",
            "58 71 2 2 leaf 2850",
            "71 85 2 2 leaf 2199",
        ],
    ),
    Example(
        "blanks of every kind around everything",
        BLANKS.join([b"", b"<a>", b"<b>", b"-2.5", b"</b>", b"<c/>", b"</a>", b"<d>", b"</d>", b""]),
        ["ok 4", "4 46 1 0 branch 0", "11 30 1 1 leaf -250", "34 38 1 1 branch 0", "50 61 1 0 branch 0"],
    ),
    Example("two elements at the top", b"<a>1</a><b>2</b>", ["ok 2", "0 8 1 0 leaf 100", "8 16 1 0 leaf 200"]),
    Example(
        "an element named as the one around it",
        b"<a><a/><a>1</a></a>",
        ["ok 3", "0 19 1 0 branch 0", "3 7 1 1 branch 0", "7 15 1 1 leaf 100"],
    ),
    single("an empty tag", b"<a/>", "0 4 1 0 branch 0"),
    single("an element with nothing in it", b"<a></a>", "0 7 1 0 branch 0"),
    single("an element with a blank in it", b"<a> </a>", "0 8 1 0 branch 0"),
    Example("the longest list that is lent here", b"<a/>", ["ok 1", "0 4 1 0 branch 0"], lent=5000),
]

NESTING = [
    misfit("closed by another name", b"<sh>30</sd>", 6),
    misfit("open at the end", b"<sh>30", 6),
    misfit("open at the end, with nothing in it", b"<a>", 3),
    misfit("open at the end, after blanks", b"<a> ", 4),
    misfit("closed by another name, with nothing in it", b"<a></b>", 3),
    misfit("closed by the name in capitals", b"<a></A>", 3),
    misfit("closed by the beginning of the name", b"<ab></a>", 4),
    misfit("closed by the name and more", b"<a></ab>", 3),
    misfit("closed in the wrong order", b"<a><b></a></b>", 6),
    bad_tag("a closing tag alone", b"</a>"),
    misfit("a closing tag too many", b"<a/></a>", 4),
    misfit("a number at the top", b"7", 0),
    misfit("a number at the top, after an element", b" <a/> 7", 6),
    misfit("two numbers in an element", b"<a>1 2</a>", 5),
    misfit("a number and then an element", b"<a>1<b/></a>", 4),
    misfit("an element and then a number", b"<a><b/>1</a>", 7),
]

NAMES = [
    single("a name of 16 bytes", b"<abcdefghijklmnop/>", "0 19 16 0 branch 0"),
    bad_tag("a name of 17 bytes", b"<abcdefghijklmnopq/>"),
    bad_tag("an opening tag with a name of 17 bytes", b"<abcdefghijklmnopq></abcdefghijklmnopq>"),
    misfit("a closing tag with a name of 17 bytes", b"<abcdefghijklmnop></abcdefghijklmnopq>", 18),
    single("a name with a digit and a hyphen", b"<Z9->2</Z9->", "0 12 3 0 leaf 200"),
    bad_tag("a name that begins with a digit", b"<1a/>"),
    bad_tag("a name that begins with a hyphen", b"<-a/>"),
    bad_tag("a name with an underscore", b"<a_b/>"),
    bad_tag("a name with a point", b"<a.b/>"),
    bad_tag("a name with a colon", b"<a:b/>"),
    bad_tag("a closing tag with a name that is no word", b"</_>"),
    bad_tag("a name outside ASCII", b"<\xc3\xa9/>"),
]

NUMBERS = [
    value(b"-0.005", -1),
    value(b"-0.004", 0),
    value(b"33.005", 3301),
    value(b"33.004", 3300),
    value(b"0.005", 1),
    value(b"-0", 0),
    value(b"2.5", 250),
    value(b"00007.5", 750),
    value(b"-1.995", -200),
    value(b"12345", 1234500),
    value(b"99999.994", 9999999),
    value(b"99999.995", 10000000),
    value(b"-99999.999", -10000000),
    bad_number(b"1."),
    bad_number(b"--1"),
    bad_number(b"123456"),
    bad_number(b"000001"),
    bad_number(b"0.0005"),
    bad_number(b".5"),
    bad_number(b"-.5"),
    bad_number(b"-"),
    bad_number(b"."),
    bad_number(b"1-2"),
    bad_number(b"1.2.3"),
    misfit("a bad number, and open at the end", b"<a>1.", 3),
    misfit("a plus", b"<a>+1</a>", 3),
    misfit("a letter after a number", b"<a>1e5</a>", 4),
    misfit("a letter after a bad number", b"<a>1.e5</a>", 3),
]

TAGS = [
    bad_tag("a tag without an end", b"<a"),
    bad_tag("a `<` alone", b"<"),
    misfit("a closing tag without an end", b"<a>1</a", 4),
    bad_tag("a tag without a name", b"<>"),
    bad_tag("a closing tag without a name", b"</>"),
    bad_tag("an empty tag with two slashes", b"<a//>"),
    misfit("a closing tag with two slashes", b"<a></a/>", 3),
    bad_tag("a blank before the name", b"< a>"),
    bad_tag("a blank after the name", b"<a >"),
    bad_tag("a blank before the slash", b"<a />"),
    bad_tag("a blank after the slash", b"<a/ >"),
    bad_tag("a new line in a tag", b"<a\n/>"),
    misfit("a blank in a closing tag", b"<a></a >", 3),
    bad_tag("an attribute", b'<a x="1"/>'),
    bad_tag("an attribute with a `>` in it", b'<a x=">"/>'),
    bad_tag("a `<` in a tag", b"<a<b/>"),
    misfit("a `<` before a closing tag", b"<a><</a>", 3),
    bad_tag("a comment", b"<!--c-->"),
    bad_tag("a comment with a tag in it", b"<!--<a/>-->"),
    bad_tag("a declaration", b'<?xml version="1.0"?>'),
    bad_tag("an instruction", b"<?a?>"),
    misfit("a CDATA section", b"<a><![CDATA[1]]></a>", 3),
]

STRAY_BYTES = [
    misfit("a letter after an element", b"<a/>x", 4),
    misfit("a letter in an element", b"<a>x</a>", 3),
    misfit("a reference", b"&amp;", 0),
    misfit("a reference to a digit", b"<a>&#49;</a>", 3),
    misfit("a `>` alone", b">", 0),
    misfit("a `>` after an element", b"<a/>>", 4),
    misfit("a `>` in an element", b"<a>></a>", 3),
    misfit("a slash alone", b"/", 0),
    misfit("a vertical tab, which is no blank", b"<a>\x0b</a>", 3),
    misfit("a form feed, which is no blank", b"\x0c", 0),
    misfit("a letter outside ASCII", b"<a>\xc3\xa9</a>", 3),
    misfit("a byte order mark", b"\xef\xbb\xbf<a/>", 0),
    misfit("the byte 255", b"<a/>\xff", 4),
]

DEPTHS = [
    Example("depth 31", chain(32), ["ok 32"] + chain_lines(32)),
    Example(
        "a leaf at depth 31",
        chain(31, b"<b>5</b>"),
        ["ok 32"] + chain_lines(31, bytes_inside=8) + ["93 101 1 31 leaf 500"],
    ),
    limit("depth 32", chain(33), 96),
    limit("an empty tag at depth 32", chain(32, b"<b/>"), 96),
    limit("depth 32 before a fault", b"<a>" * 33 + b"</b>", 96),
    limit("depth 32 before an end with elements open", b"<a>" * 33, 96),
    limit("depth 32 and a list of no entry", chain(33), 96, lent=0),
    misfit("an element without an end at depth 32", b"<a>" * 32 + b"<b", 96),
    misfit("a name that is no word at depth 32", chain(32, b"<1/>"), 96),
    misfit("an element after a number at depth 32", chain(32, b"5<b/>"), 97),
    misfit("a fault before depth 32", b"<a>" * 31 + b"x" + b"<a>" * 2, 93),
    misfit("depth 31 open at the end", b"<a>" * 32, 96),
]

MANY = [
    Example(
        "4,096 nodes",
        b"<a/>" * 4096,
        ["ok 4096"] + [f"{4 * node} {4 * node + 4} 1 0 branch 0" for node in range(4096)],
        lent=4096,
    ),
    limit("4,097 nodes", b"<a/>" * 4097, 16384, lent=5000),
    limit("4,097 nodes and then a fault", b"<a/>" * 4097 + b"x", 16384, lent=5000),
    limit("4,097 nodes and a list of no entry", b"<a/>" * 4097, 16384, lent=0),
    limit("4,097 nodes, all the others inside the first", b"<a>" + b"<b/>" * 4096 + b"</a>", 16383, lent=5000),
    misfit("a malformed tag in place of node 4,097", b"<a/>" * 4096 + b"<1/>", 16384, lent=5000),
    misfit("a tag without an end in place of node 4,097", b"<a/>" * 4096 + b"<a", 16384, lent=5000),
    short("4,096 nodes and a list of 4,095", b"<a/>" * 4096, lent=4095),
]

LISTS = [
    short("a list one entry too short", b"<a/><b/>", lent=1),
    Example("a list as long as the nodes", b"<a/><b/>", ["ok 2", "0 4 1 0 branch 0", "4 8 1 0 branch 0"], lent=2),
    short("a wheelset and a list one entry too short", WHEELSET, lent=6),
    short("one node and a list of no entry", b"<a/>", lent=0),
    misfit("a fault and a list of no entry", b"<a/></a>", 4, lent=0),
    misfit("open at the end and a list of no entry", b"<a>", 3, lent=0),
]

EXAMPLES = SMALL + NESTING + NAMES + NUMBERS + TAGS + STRAY_BYTES + DEPTHS + MANY + LISTS
