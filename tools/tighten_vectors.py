#!/usr/bin/env python3
"""Prints tests/vectors/tighten.txt: searches, settings, and what tighten must
answer and write.

    python3 tools/tighten_vectors.py > tests/vectors/tighten.txt

The tokens come from tools/reading.py, and the tight text from document 01's
sentence on them and document 02's rule [5] for gaps (`tight`). The searches are
those of tools/tokenize_vectors.py and the ones below. What the documents say of a
search by itself is written out here, and this program stops where it comes to
another text (`worked`).
"""

import sys

sys.dont_write_bytecode = True
import reading  # noqa: E402
import tokenize_vectors  # noqa: E402
from vector_file import MANY, Searches  # noqa: E402

ABOUT = """\
Searches, settings, tighten's answers and the tight texts. They are made from the tokens of a reading of src/tokenizer.rs in
Python (tools/reading.py) by document 01's sentence on tight text and document 02's rule [5] for gaps, independently of the
port and never from its output. The searches are those of tokenize.txt, and more with gaps of every sort. What the documents
say of a search by itself was laid beside it by hand. Printed by tools/tighten_vectors.py.
"""


def returns(statement, start, end):
    """The first CR or LF in the gap is a CR without LF directly behind it."""
    for i in range(start, end):
        if statement[i : i + 1] in (b"\r", b"\n"):
            return statement[i : i + 1] == b"\r" and statement[i + 1 : i + 2] != b"\n"
    return False


def tight(statement, records):
    """Each token's value in order. Gaps before the first token go. A gap becomes
    one LF after a line comment; else one CR where it returns, also at the end;
    else one space. At the end the other gaps go."""
    text = b""
    before = None
    for place, (kind, start, length, *_) in enumerate(records):
        end = start + length
        if kind != reading.WHITESPACE:
            text += statement[start:end]
            before = kind
        elif before is None:
            pass
        elif before != reading.LINE_COMMENT and returns(statement, start, end):
            text += b"\r"
        elif place + 1 < len(records):
            text += b"\n" if before == reading.LINE_COMMENT else b" "
    return text


def answer(statement, dialect, joins, named, lent):
    """Number, detail and text of the call tighten."""
    number, detail, _, records = reading.answer(statement, dialect, joins, named, len(statement))
    if number != 0:
        return number, detail, b""
    text = tight(statement, records)
    if lent < len(text):
        return 6, len(text), b""
    return 0, len(text), text


class Tightened(Searches):
    def expect(self, statement, options):
        number, detail, text = answer(statement, *options)
        self.check("=", number, detail)
        self.text(text)


# --------------------------------------------------------------------------
# Texts worked out by hand from the documents: search, dialect, named, tight text

WORKED = (
    ("a  --x\r\n\n b ", 0, 0, "a --x\nb"),
    ("", 0, 0, ""),
    (" ", 0, 0, ""),
    (" \t\r\n\u00a0\u3000\u0085 \n", 0, 0, ""),
    # a gap after a line comment: each line end, and more behind it
    ("--x\nb", 0, 0, "--x\nb"),
    ("--x\r\nb", 0, 0, "--x\nb"),
    ("--x\n\n \tb", 0, 0, "--x\nb"),
    ("--x\r\n\r\nb", 0, 0, "--x\nb"),
    ("#x\r\n b", 0, 0, "#x\nb"),
    ("a #x\n#y\n#z", 0, 0, "a #x\n#y\n#z"),
    # white space that belongs to the comment stays
    ("--x  \nb", 0, 0, "--x  \nb"),
    ("a--\u00a0x\t\r\n b", 0, 0, "a--\u00a0x\t\nb"),
    # the comment is the last token
    ("a  --x", 0, 0, "a --x"),
    ("a  --x\n", 0, 0, "a --x"),
    ("a  --x\r\n \r\n", 0, 0, "a --x"),
    # block comments: their white space stays, and a gap after one is a space
    ("a/* b\r\n  c */\n\nd", 0, 0, "a/* b\r\n  c */ d"),
    ("/*a*/\n/*b  ", 0, 0, "/*a*/ /*b  "),
    # outer gaps
    ("  a", 0, 0, "a"),
    ("a  ", 0, 0, "a"),
    ("\n\ta\u2003b\r\n", 0, 0, "a b"),
    ("\u3000--x\n", 0, 0, "--x"),
    # each gap is one space, whatever it is made of
    ("a\nb\tc\r\nd\x0be\x0cf", 0, 0, "a b c d e f"),
    ("a\u0085b\u00a0c\u1680d\u2028e\u202ff\u205fg\u3000h", 0, 0, "a b c d e f g h"),
    # no gap, none comes
    ("a=b", 0, 0, "a=b"),
    ("'a\\'", 0, 0, "'a\\'"),
    ("$1a", 0, 0, "$1a"),
    ("t.from", 0, 0, "t.from"),
    ("a--x", 0, 0, "a--x"),
    ("'a  b'", 0, 0, "'a  b'"),
    ("[a  b]  c", 2, 0, "[a  b] c"),
    # a phrase is one token with the white space between its words
    ("x  ORDER \n BY  y", 0, 0, "x ORDER \n BY y"),
    # a gap whose first CR or LF is a CR without LF becomes one CR
    ("a\rb", 0, 0, "a\rb"),
    ("a\r\rb", 0, 0, "a\rb"),
    ("a \r b", 0, 0, "a\rb"),
    ("a\r\n\rb", 0, 0, "a b"),
    ("a \r\nb", 0, 0, "a b"),
    ("a\n\rb", 0, 0, "a b"),
    ("a\r\r\nb", 0, 0, "a\rb"),
    ("a\r\nb\rc", 0, 0, "a b\rc"),
    # no other White_Space is CR or LF
    ("a\x0b\rb", 0, 0, "a\rb"),
    ("a\x0c\u0085\u2028\u2029\rb", 0, 0, "a\rb"),
    ("a\u0085\u2028\nb", 0, 0, "a b"),
    ("a\r\u2028\nb", 0, 0, "a\rb"),
    # also at the end, but not before the first token
    ("a\r", 0, 0, "a\r"),
    ("a \r", 0, 0, "a\r"),
    ("a\r\n\r", 0, 0, "a"),
    ("a\n\r", 0, 0, "a"),
    ("\ra", 0, 0, "a"),
    ("\ra\r", 0, 0, "a\r"),
    ("\r", 0, 0, ""),
    ("\r\r", 0, 0, ""),
    # where such a CR comes first, `#` and `--` are no comments
    ("#a\rb", 0, 0, "#a\rb"),
    ("#a\rb\r\n", 0, 0, "#a\rb"),
    ("--a\r b", 0, 0, "--a\rb"),
    ("--a\r\nb\rc", 0, 0, "--a\nb\rc"),
    # after a line comment it makes no difference
    ("--a\n\rb", 0, 0, "--a\nb"),
    ("--a\r\n\rb", 0, 0, "--a\nb"),
    ("--a\n\r", 0, 0, "--a"),
    ("/*a*/\rb", 0, 0, "/*a*/\rb"),
)


def worked(lines):
    lines.group("document 01's text, and texts worked out by hand from its sentence and document 02's rule [5]")
    for text, dialect, named, expected in WORKED:
        number, detail, got = answer(text.encode("utf-8"), dialect, 0, named, MANY)
        if (number, got) != (0, expected.encode("utf-8")) or detail != len(got):
            sys.exit(f"{text!r}: the tokens give {got!r}, not {expected!r}")
        lines.case(text, dialect, 0, named)


# --------------------------------------------------------------------------
# Gaps of every sort, the room lent, refusals

BLANKS = (
    "\t", "\n", "\x0b", "\x0c", "\r", " ", "\r\n", "\n\n", "\r\n\r\n", " \n", "\n ", "\r\r", "\n\r", " \r", "\r ", "\r\n\r", "\r\r\n", "\u2028\r", "\u0085", "\u00a0", "\u1680", "\u2000", "\u2001", "\u2002", "\u2003", "\u2004", "\u2005", "\u2006", "\u2007",
    "\u2008", "\u2009", "\u200a", "\u2028", "\u2029", "\u202f", "\u205f", "\u3000", "\u2003\n", "\n\u2003", "  \r\n\t\u3000",
)  # fmt: skip


def gaps(lines):
    lines.group("each sort of white space: alone, outside, between, after a comment of each sort")
    for blank in BLANKS:
        for text in (
            "{0}", "{0}a", "a{0}", "{0}a{0}", "a{0}b", "a{0}={0}b", "--c{0}", "--c{0}b", "#c{0}b", "#c{0}--d{0}b", "/*c*/{0}b", "/*{0}*/b", "--c\n{0}b", "--c\r\n{0}b", "--c{0}\nb", "'{0}'{0}c", "({0})",
            "ORDER{0}BY{0}x", "a{0}::{0}b", "?{0}1", "@a{0}@'b{0}c'", "\u00e9{0}\u00e9",
        ):  # fmt: skip
            lines.every_dialect(text.format(blank))


def room(lines):
    lines.group("the room: nothing lent, one short, exactly full, one more")
    for text, dialect, named, expected in WORKED:
        needed = len(expected.encode("utf-8"))
        for lent in sorted({0, 1, needed // 2, needed - 1, needed, needed + 1, len(text.encode("utf-8"))} - {-1}):
            lines.case(text, dialect, 0, named, lent)


def limits(lines):
    lines.group("the longest statements, one byte more, and the room for them")
    for byte in (b" ", b"\n", b"\r", b"a", b";", b"-", b"#", b"'", b"\x00"):
        lines.case(byte, repeat=65536)
        lines.case(byte, repeat=65536, lent=65536)
        lines.case(byte, repeat=65536, lent=65535)
        lines.case(byte, repeat=65536, lent=0)
        lines.case(byte, repeat=65535, lent=65535)
        lines.case(byte, repeat=65537)
        lines.case(byte, repeat=65537, lent=0)
    lines.group("several refusals at once: 3, then 1, then 2, then 6")
    lines.case(b"a", 3, 0, 0, 0, repeat=65537)
    lines.case(b"\xff", 0, 2, 0, 0, repeat=65537)
    lines.case(b"\xff", 0, 0, 2, 0)
    lines.case(b"\xff", 0, 0, 0, 0, repeat=65537)
    lines.case(b"\xff", 0, 0, 0, 0, repeat=65536)
    lines.case(b"a\xff", 0, 0, 0, 0)
    lines.case(b"  a\xe2\x82", 0, 0, 0, 1)
    lines.case(b"a b", 3, 0, 0, 1)
    lines.case(b"a b", 0, 0, 0, 1)


def main():
    lines = Tightened(ABOUT, "sfo=tg")
    for group in (worked, gaps, room, limits, *tokenize_vectors.GROUPS_OF_CASES):
        group(lines)
    lines.print()


if __name__ == "__main__":
    main()
