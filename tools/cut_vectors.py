#!/usr/bin/env python3
"""Prints tests/vectors/cut.txt: scripts, how much is lent, and what cut must answer
and write.

    python3 tools/cut_vectors.py > tests/vectors/cut.txt

The tokens come from tools/reading.py, and the parts from document 02's rule [1] on
them (`answer`). What was worked out by hand is written out here: the parts of
scripts (`WORKED`), their starts and lengths (`NUMBERS`), refusals (`REFUSED`), and
a part that reads differently alone (`alone`). This program stops where it comes to
something else.
"""

import random
import sys
from itertools import groupby, product

sys.dont_write_bytecode = True
import reading  # noqa: E402
import vector_file  # noqa: E402
from vector_file import MANY, Searches  # noqa: E402

ABOUT = """\
Scripts, the bytes lent, cut's answers and the places of the parts. They are made from the tokens of a reading of
src/tokenizer.rs in Python (tools/reading.py) by document 02's rule [1], independently of the port and never from its output.
What the rule says of many a script by itself was laid beside it by hand. Printed by tools/cut_vectors.py.
"""

# Two lines that mean something else than in the other files.
vector_file.LINES.update(
    o=(
        "o D J N R",
        "dialect, joins and named by which a script is read, always 0, since the call takes none; how many bytes are lent",
    ),
    r=(
        "r S L N",
        "that call has written so many places, N, of 8 bytes each, the next ones from the first on: start and length as"
        " 32-bit words, little-endian. The first part starts at byte S, the others each where the one before ends; each is L"
        " bytes long",
    ),
)  # fmt: skip

SETTINGS = (reading.GENERIC, 0, 0)
PLACE = 8


def parts(script, records):
    """Start and length of each part: a cut after each Operator `;`, and a last part
    if bytes remain."""
    ends = []
    for kind, start, length, *_ in records:
        if kind == reading.OPERATOR and script[start : start + length] == b";":
            ends.append(start + length)
    if (ends[-1] if ends else 0) < len(script):
        ends.append(len(script))
    return [(start, end - start) for start, end in zip([0, *ends], ends)]


def answer(script, lent):
    """Number, detail and parts of the call cut."""
    number, detail, _, records = reading.answer(script, *SETTINGS, len(script))
    if number != 0:
        return number, detail, []
    places = parts(script, records)
    if lent // PLACE < len(places):
        return 7, len(places), []
    return 0, len(places), places


class Cut(Searches):
    def expect(self, statement, options):
        number, detail, places = answer(statement, options[-1])
        self.check("=", number, detail)
        for length, run in groupby(places, key=lambda part: part[1]):
            run = list(run)
            self.numbers("r", [run[0][0], length, len(run)])

    def script(self, text, lent=MANY, repeat=1):
        self.case(text, *SETTINGS, lent, repeat)


# --------------------------------------------------------------------------
# Worked out by hand: the parts of a script, which is these laid end to end

WORKED = (
    # no part, one, two
    (), (";",), (";", ";"), (" ",), ("a",), ("a;",), ("a;", "b"), ("a;", "b;"), (";", ";", ";", "a"),
    # white space is of the part behind a cut
    ("a;", " b"), (" ;", " "), ("SELECT 1;", "\nSELECT 2;", "\n"), ("a;", "\r\nb;", "\r\n"), (";", "\n;"), ("\r;", "\r"),
    ("\n",), ("a\n;", "\r\n;", "\t"), ("\u00a0;", "\u3000;", "\u2028"),
    # strings
    ("'a;b';", "c"), ('"a;b";', "c"), ("`a;b`;", "c"), ("N'a;b';", "c"), ("E'a;b';", "c"), ("x'a;b';", "c"), ("X'a;b';", "c"),
    ("n'a;b';", "c"), ("';'",), ("';';",), ("';;;';", ";"), ("a';'b;", "c"), ("';\n;';", "a"), ("\";';\";", "'"),
    # brackets quote nothing under Generic
    ("[;", "]"), ("[a;", "b];", "c"), ("@[;", "];", "a"),
    # escaped quotes
    ("'a\\';b';", "c"), ("'a'';b';", "c"), ('"a\\";b";', "c"), ('"a"";b";', "c"), ("`a``;b`;", "c"), ("E'a\\';b';", "c"),
    ("N'a'';b';", "c"), ("''';'",), ("'\\\\';", "a"), ("`a\\`;", "b`"), ("x'a\\';", "b'"), ("x'a'';b'",), ("X'\\';", "'"),
    # a quote that is not closed is an Operator
    ("'a;", "b"), ('"a;',), ("`;", "a"), ("N';", "a"), ("x';", "a"), ("'a\\';", "b"), ("'a'';", "b"), ("'';", "a"), ("''';", "a"),
    ("'a;", 'b"c'), ("\"a';b';", "c"), ("';", '"'),
    # line comments, up to a line's end
    ("--;\na;", "b"), ("--;\r\na;", "b"), ("#;\na;", "b"), ("#;\r\na;", "b"), ("--;",), ("#;",), ("a;", "--;"), ("a;", "#;\n;", "b"),
    ("-- it's;\na;", "b's"), ("#{;\n;", "}"), ("a--;\n;", "--"), ("---;\n;", "a"), ("-;", "-\n;"), ("'--';", "a"),
    # none where a CR without LF comes first
    ("--;", "\ra;", "b"), ("#;", "\r;"), ("#;", "\ra\n;", "b"), ("#;", "\r\r\n;"), ("--a;", "b\r--;\n;"),
    # block comments, up to the text's end where they are not closed
    ("/*;*/;",), ("/*;*/;", "a"), ("/*;",), ("/*;*/",), ("a;", "/*;"), ("a;", "/*;\n;"), ("/*;*/;", "*/"), ("/*/;*/;", "a"),
    ("/;", "*;", "*/"), ("*/;", "a"), ("'/*';", "a;", "'*/'"), ("/*';*/;", "'"), ("--/*\n;", "*/"), ("/*--*/;", "a"), ("/*/*;*/;", "*/"),
    # braced placeholders
    ("{;};",), ("{;};", "a"), ("{;}",), ("{;;};", ";"), ("{a;\nb};", "c"), ("{;", "a"), ("{};", "a"), ("{};", "}"), ("};", "{"),
    ("{{;}};", "a"), ("${;};", "a"), ("{'};", "'"), ("'{';", "}"), ("{--};", "a"), ("{/*};", "*/"), ("'{;';", "}"),
    # string placeholders
    ("@';';", "a"), (':";";', "a"), ("@`;`;", "a"), ("@N';';", "a"), ("@';", "a"), ("@'a\\';b';", "c"), ("@'a'';b';", "c"),
    ("@'a'';", "b"), (":`a``;b`;", "c"), ("@x'\\';';", "a"), ("@'';", "'"),
    # behind Operators, of one character and of more: `;` joins none
    ("=;", "a"), ("<;", "a"), ("==;", "a"), ("=;", "=;", "="), ("=====;", "a"), ("======;", "a"), ("a=:;", "b"), ("->>;", "a"),
    ("!;", "!"), ("|;", "|"), (":;", ":"), ("~;", "~"), ("*;", "*"), ("&;", "&"), ("@;", "@"), ("^;", "^"), ("%;", "%"), ("\\;", "\\"),
    (",;", ","), (".;", "."), ("+;", "+"), ("::;", ";"), ("a::;", "b"), ("[];", "[]"), ("(;", ");", "()"),
    # behind placeholders, numbers and words
    ("?;", "a"), ("?1;", "a"), ("$1;", "a"), ("$;", "a"), ("@a;", "b"), (":a.b;", "c"), ("$a;", "b"), ("1;", "2"), ("1.;", "2"),
    ("-1;", "-1"), ("1e;", "5"), ("a.;", "b"), ("a_;", "_"), ("CASE;", "END;", "end"), ("END;", "CASE"), ("ORDER;", "BY a;", "b"),
    ("GROUP BY;", "a"), ("NOW();", "a"), ("NOW(;", ")"), ("BETWEEN 1;", "AND 2"), ("DROP TABLE IF EXISTS;", "t"), ("$$;", "a;", "$$"),
    ("SELECT;", "EXCEPT;", "SET"), ("LEFT JOIN;", "JOIN"), ("N;", "'a'"), ("x;", "';'"),
    # bytes and characters beside it
    ("\x00;", "\x00"), ("\x7f;", "\x7f"), ("\u00e9;", "\u00e9"), ("\u677f;", "\u576f;", "\u677f"), ("\U0001f600;", "\U0001f600"),
    ("'\u00e9;\u00e9';", "\u00e9"), ("\u0301;", "a\u0301;"), ("\u00bd;", "\u0663"), ("\u07ff;", "\u0800;", "\uffff;", "\U0010ffff"),
    # signs that look like it
    ("a\u037eb;", "c"), ("\uff1b;", "\uff1b"), ("\u061b\u204f\ufe54",),
    # parts that read differently alone: `::`, `[]`, a comment, a string that ends earlier
    ("a;", "::b"), ("a;", "[]b"), ("::b;", "::b"), ("#a;", "\rb"), (";", "::::::x'\\';'"), ("::::::x'\\';", "'"), ("t.;", "from"),
    (";", "::--;"), ("::--;\n;",),
    # a planner's script
    (
        "SELECT zone, minutes FROM furnace WHERE zone = :zone;", " -- descaler; both heads\nSELECT 'head;' || n FROM descaler;",
        "\nSELECT * /* coiler; */ FROM coiler\nWHERE lot = '9;1' AND note <> {no;te};", "\n",
    ),
)  # fmt: skip

# Start and length of each part.
NUMBERS = (
    ("", []),
    (";", [(0, 1)]),
    (";;", [(0, 1), (1, 1)]),
    (" ", [(0, 1)]),
    ("a;b", [(0, 2), (2, 1)]),
    ("'a;b';c", [(0, 6), (6, 1)]),
    ("--;\na;b", [(0, 6), (6, 1)]),
    ("--;\ra;b", [(0, 3), (3, 3), (6, 1)]),
    ("/*;*/;", [(0, 6)]),
    ("{;};", [(0, 4)]),
    ("a;::b", [(0, 2), (2, 3)]),
    ('"a;', [(0, 3)]),
    ("=;<;", [(0, 2), (2, 2)]),
    ("\u00e9;\u00e9", [(0, 3), (3, 2)]),
    ("\U0001f600;;\r\n", [(0, 5), (5, 1), (6, 2)]),
    (";" * 65536, [(n, 1) for n in range(65536)]),
    ("\u00e9;" * 21845 + ";", [*((3 * n, 3) for n in range(21845)), (65535, 1)]),
    ("a" * 65535 + ";", [(0, 65536)]),
    (";" + "a" * 65535, [(0, 1), (1, 65535)]),
    ("'" + ";" * 65534 + "'", [(0, 65536)]),
)

# Script, bytes lent, number, detail
REFUSED = (
    # 1, which comes before 2 and 7
    (b";" * 65537, MANY, 1, 65537),
    (b"a" * 65537, MANY, 1, 65537),
    (b";" * 70000, MANY, 1, 70000),
    (b"\xff" + b";" * 65536, MANY, 1, 65537),
    (b";" * 65536 + b"\xff", 0, 1, 65537),
    (b";" * 65537, 0, 1, 65537),
    # 2, which comes before 7: at the first byte, at the last, in a string
    (b"\xff", MANY, 2, 0),
    (b"\xff;a", MANY, 2, 0),
    (b"\x80;", MANY, 2, 0),
    (b"\xc3;\xa9", MANY, 2, 0),
    (b"a;\xff", MANY, 2, 2),
    (b";\xc3", MANY, 2, 1),
    (b"a;\xe2\x82", MANY, 2, 2),
    (b"a;\xf0\x9f\x98;", MANY, 2, 2),
    (b";\xed\xa0\x80;", MANY, 2, 1),
    (b"';\xf5';", MANY, 2, 2),
    (b"a;--\xc0\xbb", MANY, 2, 4),
    (b"\xc3\xa9;\xe9", MANY, 2, 3),
    (b"\xff" + b";" * 65535, MANY, 2, 0),
    (b";" * 65535 + b"\xff", MANY, 2, 65535),
    (b";" * 65534 + b"\xc3", MANY, 2, 65534),
    (b"a;\xff", 0, 2, 2),
    (b"a;\xff;", 8, 2, 2),
    # 7
    (b";", 0, 7, 1),
    (b";", 7, 7, 1),
    (b" ", 0, 7, 1),
    (b";;", 8, 7, 2),
    (b";;", 15, 7, 2),
    (b"a;b", 15, 7, 2),
    (b"';';b", 8, 7, 2),
    (b";" * 65536, 0, 7, 65536),
    (b";" * 65536, 8 * 65536 - 1, 7, 65536),
    (b"a" * 65536, 7, 7, 1),
)


def must_be(script, got, expected):
    if got != expected:
        sys.exit(f"{script[:60]!r}: document 02's rule on the tokens gives {got!r}, not {expected!r}")


def worked(lines):
    lines.group("parts worked out by hand")
    for expected in WORKED:
        script = "".join(expected).encode("utf-8")
        number, detail, places = answer(script, MANY)
        texts = tuple(script[start : start + length].decode("utf-8") for start, length in places)
        must_be(script, (number, detail, texts), (0, len(expected), expected))
        lines.script(script)
    lines.group("starts and lengths worked out by hand")
    for text, expected in NUMBERS:
        script = text.encode("utf-8")
        lent = PLACE * len(expected)
        must_be(script, answer(script, lent), (0, len(expected), expected))
        lines.script(script, lent)
    lines.group("refusals worked out by hand")
    for script, lent, *expected in REFUSED:
        must_be(script, answer(script, lent), (*expected, []))
        lines.script(script, lent)


def alone():
    """Document 02's `::` at a part's front, in the script and alone"""
    script = b"a;::b"
    whole = [(record[0], *record[1:3]) for record in reading.tokenize(script, *SETTINGS)]
    part = [(record[0], *record[1:3]) for record in reading.tokenize(script[2:], *SETTINGS)]
    must_be(script, whole, [(reading.WORD, 0, 1), (reading.OPERATOR, 1, 1), (reading.OPERATOR, 2, 2), (reading.WORD, 4, 1)])
    must_be(script[2:], part, [(reading.TYPE_SPECIFIER, 0, 2), (reading.WORD, 2, 1)])


# --------------------------------------------------------------------------
# The room lent, texts at the limits, short texts, texts at random


def room(lines):
    lines.group("the room: nothing lent, odd bytes, one place short, exactly full, one more, a place for each byte")
    for expected in WORKED:
        script = "".join(expected).encode("utf-8")
        exact, most = PLACE * len(expected), PLACE * len(script)
        for lent in (0, 7, exact - 8, exact - 1, exact, exact + 3, exact + 8, most - 1, most, most + 5):
            if lent >= 0:
                lines.script(script, lent)


def limits(lines):
    lines.group("the longest scripts, and one byte more")
    for byte in (b" ", b"\n", b"a", b";", b"'", b"#"):
        for repeat in (65535, 65536, 65537):
            for lent in (0, 8, PLACE * 65535, PLACE * 65536):
                lines.script(byte, lent, repeat)
    for text in (b"';", b"--;\n", b"/*;*/;"):
        lines.script(text, PLACE * 65536, 65536 // len(text))


SIGNS = (";", "'", "\\", "-", "#", "{", "}", "\n", "\r")


def short(lines):
    lines.group("all texts of up to three of the signs, and of four and five behind which a cut is sought")
    for length in range(4):
        for signs in product(SIGNS, repeat=length):
            lines.script("".join(signs))
    for signs in product(";'\\\r", repeat=4):
        lines.script("".join(signs))
    for signs in product(";'{}", repeat=4):
        lines.script("".join(signs) + ";a")


PIECES = (
    ";", ";", ";", ";", ";", "'", "'", '"', "`", "\\", "--", "#", "/*", "*/", "{", "}", "\n", "\r\n", "\r", " ", "a", "1", "?", "@",
    ":", "::", "$1", "x'", "N'", "[", "]", "=", "-", "/", "*", "\u00e9", "SELECT", "from", ".", "(", ")", "END", "CASE",
)  # fmt: skip


def at_random(lines):
    lines.group("at random")
    chance = random.Random(1702)
    for _ in range(1500):
        signs = chance.sample(PIECES, chance.randint(2, 8)) + [";"] * 3
        script = "".join(chance.choice(signs) for _ in range(chance.randint(3, 16)))
        lines.script(script, MANY if chance.random() < 0.7 else chance.randrange(80))


def ill_formed(lines):
    lines.group("ill-formed sequences: at the first byte, behind a cut, at the last byte")
    for sequence in (
        b"\x80", b"\xbf", b"\xc0\x80", b"\xc1\xbb", b"\xc2", b"\xdf", b"\xe0\x80\x80", b"\xe0\xa0", b"\xed\xa0\x80", b"\xef\xbf", b"\xf0\x80\x80\xbb",
        b"\xf0\x90\x80", b"\xf4\x90\x80\x80", b"\xf5", b"\xff",
    ):  # fmt: skip
        for before, behind in ((b"", b""), (b"", b";a"), (b"a;", b""), (b"a;", b";"), (b"'", b";'"), (b"\xc3\xa9;", b"")):
            lines.script(before + sequence + behind)


def main():
    lines = Cut(ABOUT, "sfo=r")
    alone()
    for group in (worked, room, limits, ill_formed, short, at_random):
        group(lines)
    lines.print()


if __name__ == "__main__":
    main()
