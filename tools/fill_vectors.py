#!/usr/bin/env python3
"""Prints tests/vectors/fill.txt: value sheets, searches, settings, and what fill
and the lookup must answer and write.

    python3 tools/fill_vectors.py > tests/vectors/fill.txt

The tokens come from tools/reading.py. `get` below is `Params::get` of
src/params.rs line by line, with document 01's word on `$0`; the sheet is read
by document 01's sentences on it; `first_nought` by document 02's request [4]. No
answer comes from the port. What the documents say of a sheet and a search by
itself is written out here, and this program stops where it comes to another
text or another refusal (`WORKED`, `NOUGHTS`).
"""

import sys

sys.dont_write_bytecode = True
import reading  # noqa: E402
from vector_file import MANY, VectorFile, as_bytes  # noqa: E402

LARGEST = 2**64 - 1

ABOUT = """\
Value sheets, searches, settings, and the answers of fill and of the lookup. They are made from the tokens of a reading of
src/tokenizer.rs in Python (tools/reading.py), by a reading of src/params.rs and of document 01's sentences on sheet, filled
text and lookup, and of document 02's request [4] (tools/fill_vectors.py), independently of the port and never from its output.
What the documents say of a sheet and a search by itself was laid beside it by hand. Printed by tools/fill_vectors.py.
"""

# A part is where it lies, where it starts there, and its bytes.
IN_STATEMENT, IN_SHEET = 0, 1
EMPTY_START = (IN_STATEMENT, 0, b"")


# --------------------------------------------------------------------------
# The sheet


def le16(n):
    return n.to_bytes(2, "little")


def named(*entries):
    """A named sheet of (name, value) pairs."""
    bodies = [(name.encode("utf-8"), value.encode("utf-8")) for name, value in entries]
    contents = b"".join(le16(len(name)) + le16(len(value)) for name, value in bodies)
    return b"\x01" + le16(len(bodies)) + contents + b"".join(name + value for name, value in bodies)


def indexed(*values):
    bodies = [value.encode("utf-8") for value in values]
    return b"\x02" + le16(len(bodies)) + b"".join(le16(len(body)) for body in bodies) + b"".join(bodies)


NONE = b"\x00\x00\x00"


def read_sheet(sheet):
    """Kind and entries, a name and the value's part each, or None where the sheet is malformed."""
    if len(sheet) < 3 or len(sheet) > 65536:
        return None
    kind = sheet[0]
    count = int.from_bytes(sheet[1:3], "little")
    if kind > 2 or (kind == 0 and count != 0):
        return None
    each = 2 if kind == 1 else 1
    at = 3 + 2 * each * count
    if at > len(sheet):
        return None
    bodies = []
    for n in range(each * count):
        length = int.from_bytes(sheet[3 + 2 * n : 5 + 2 * n], "little")
        if at + length > len(sheet):
            return None
        bodies.append((IN_SHEET, at, sheet[at : at + length]))
        at += length
    if at != len(sheet) or any(reading.first_ill_formed(body) is not None for *_, body in bodies):
        return None
    if kind == 1:
        return kind, [(name, value) for (*_, name), value in zip(bodies[0::2], bodies[1::2])]
    return kind, [(b"", body) for body in bodies]


# --------------------------------------------------------------------------
# src/params.rs


def key_named(key):
    """key.named(): the text with escapes undone; an index has the empty one"""
    return key.key.encode("utf-8") if isinstance(key, reading.Named) else b""


def key_indexed(key):
    """key.indexed(); a one-indexed zero counts as past the end (document 01)"""
    if isinstance(key, reading.ZeroIndexed):
        return key.index
    if isinstance(key, reading.OneIndexed):
        return key.index - 1 if key.index > 0 else LARGEST + 1
    return None


def get(kind, entries, index, token, own):
    """Params::get: the value's part, or the token's own, and the counter afterwards"""
    named_placeholder_token = token.key is not None and key_named(token.key) != b""
    if kind == 1:
        if token.key is not None:
            for name, value in entries:
                if name == key_named(token.key):
                    return value, index
        return own, index
    if kind == 2 and not named_placeholder_token:
        key = key_indexed(token.key) if token.key is not None else None
        if key is not None:
            return (entries[key][1] if key < len(entries) else own), index
        taken = entries[index][1] if index < len(entries) else own
        return taken, min(index + 1, LARGEST)
    return own, index


def stands_for(kind, entries, index, token, own):
    if token.kind != reading.PLACEHOLDER:
        return own, index
    return get(kind, entries, index, token, own)


# --------------------------------------------------------------------------
# Documents 01 and 02: the answers


def own_parts(tokens):
    """Each token with the part of the statement that it is"""
    listed = []
    start = 0
    for token in tokens:
        value = token.value.encode("utf-8")
        listed.append((token, (IN_STATEMENT, start, value)))
        start += len(value)
    return listed


def accepted(statement, dialect, joins, named_, sheet):
    """Number and detail of a refusal, or the tokens with their parts, and the sheet."""
    number, detail, _, _ = reading.answer(statement, dialect, joins, named_, len(statement))
    if number != 0:
        return (number, detail), None, None
    read = read_sheet(sheet)
    if read is None:
        return (5, 0), None, None
    tokens = reading.tokenize_text(statement.decode("utf-8"), named_ == 1, dialect, joins == 1)
    return None, own_parts(tokens), read


def first_nought(tokens):
    """Document 02 [4]: where the first placeholder starts whose key is one-indexed zero"""
    for token, (_, start, _) in tokens:
        if token.kind == reading.PLACEHOLDER and isinstance(token.key, reading.OneIndexed) and token.key.index == 0:
            return start
    return None


def fill(statement, dialect, joins, named_, sheet, lent):
    refusal, tokens, read = accepted(statement, dialect, joins, named_, sheet)
    if refusal is not None:
        return *refusal, b""
    nought = first_nought(tokens) if read[0] == 2 else None
    if nought is not None:
        return 8, nought, b""
    text = b""
    index = 0
    for token, own in tokens:
        (*_, part), index = stands_for(*read, index, token, own)
        text += part
    if lent < len(text):
        return 6, len(text), b""
    return 0, len(text), text


def lookup(statement, dialect, joins, named_, sheet, place, counter):
    """Number, detail, counter afterwards, part"""
    refusal, tokens, read = accepted(statement, dialect, joins, named_, sheet)
    if refusal is not None:
        return *refusal, counter, EMPTY_START
    if place >= len(tokens):
        return 0, 0, counter, EMPTY_START
    part, after = stands_for(*read, counter, *tokens[place])
    return 0, len(part[2]), after, part


# --------------------------------------------------------------------------
# The file


class Filled(VectorFile):
    def inputs(self, sheet, text, *options):
        statement = as_bytes(text)
        self.options(*options)
        self.sheet(sheet)
        self.statement(statement)
        return statement

    def fill(self, sheet, text, dialect=0, joins=0, named_=0, lent=MANY):
        statement = self.inputs(sheet, text, dialect, joins, named_, lent)
        number, detail, filled = fill(statement, dialect, joins, named_, sheet, lent)
        self.check("=", number, detail)
        self.text(filled)

    def lookup(self, sheet, text, places, counters, dialect=0, joins=0, named_=0):
        statement = self.inputs(sheet, text, dialect, joins, named_, MANY)
        for place in places:
            for counter in counters:
                *answer, (source, start, part) = lookup(statement, dialect, joins, named_, sheet, place, counter)
                self.check("l", place, counter, *answer, source, start)
                self.text(part)


# --------------------------------------------------------------------------
# Document 01's sheet and searches: sheet, search, filled text

EXAMPLE = bytes.fromhex("020200010001003738")

WORKED = (
    (EXAMPLE, "? $2 ?", "7 8 8"),
    (EXAMPLE, "?2", "?2"),
    # a named sheet's empty name also meets `?1` and `$0`
    (named(("", "x")), "?1 $0 ? $1", "x x ? x"),
    # the key of `@''` is empty, so an indexed sheet gives it the next value
    (EXAMPLE, "@'' ?", "7 8"),
    # `?1` is not counted
    (EXAMPLE, "?1 ? ?", "8 7 8"),
)


def worked(lines):
    lines.group("document 01's sheet and searches, and texts worked out by hand from its sentences")
    for sheet, text, expected in WORKED:
        number, detail, got = fill(text.encode("utf-8"), 0, 0, 0, sheet, MANY)
        if (number, got) != (0, expected.encode("utf-8")) or detail != len(got):
            sys.exit(f"{text!r}: the tokens give {got!r}, not {expected!r}")
        lines.fill(sheet, text)


# --------------------------------------------------------------------------
# A one-indexed zero: search, whether named placeholders are tried first, and the first place nought, with an indexed sheet

NOUGHTS = (
    ("$0", 0, 0),
    ("$00", 0, 0),
    ("$000000000000000000000000000000000000", 0, 0),
    ("? $0", 0, 2),
    ("$0 ?", 0, 0),
    ("$1 $0 $2 $00 $0", 0, 3),
    ("a=$0", 0, 2),
    ("a$0", 0, 1),
    ("$0$0", 0, 0),
    ("$0a", 0, 0),
    ("$0.5", 0, 0),
    ("?$0", 0, 1),
    ("é = $0", 0, 5),
    ("板坯 $00 ?", 0, 7),
    ("'$0' $0", 0, 5),
    ("'$0' \"$0\" `$0` ? $0", 0, 17),
    ("-- $0\n$0", 0, 6),
    ("/* $0 */ $00", 0, 9),
    ("[$0]", 0, 1),
    # in a string, a comment, a name, or a longer number it is none
    ("'$0' ?", 0, None),
    ("-- $0", 0, None),
    ("/* $0 $0 */ ?", 0, None),
    ("{$0} ?", 0, None),
    ("$$0", 0, None),
    ("@'$0' ?", 0, None),
    ("$01 $001 $1", 0, None),
    ("?0 ?00 ?", 0, None),
    (":0 @0 {0}", 0, None),
    ("$ 0", 0, None),
    ("$10 $100", 0, None),
    ("$18446744073709551616", 0, None),
    ("$", 0, None),
    ("0$", 0, None),
    # with named placeholders first `$0` is a name
    ("$0", 1, None),
    ("$00 ? $0", 1, None),
    (":0 @0 ?0", 1, None),
)

NOUGHT_SHEETS = (EXAMPLE, indexed(), indexed(""), indexed("a value of some length"), NONE, named(), named(("", "x")), named(("0", "y"), ("a", "1")))
MALFORMED = (b"", b"\x02\x01\x00", EXAMPLE + b"x", b"\x03\x00\x00")


def noughts(lines):
    lines.group("a one-indexed zero: the first, the last and several; where the bytes of one are none; each kind of sheet")
    for text, named_, expected in NOUGHTS:
        statement = text.encode("utf-8")
        got = fill(statement, 0, 0, named_, EXAMPLE, MANY)
        if (got[0], got[1]) != (8, expected) if expected is not None else got[0] != 0:
            sys.exit(f"{text!r}: the tokens give {got}, not {expected}")
        for sheet in NOUGHT_SHEETS:
            lines.fill(sheet, text, 0, 0, named_)
        lines.fill(EXAMPLE, text, 1, 1, named_)
        lines.fill(EXAMPLE, text, 2, 0, named_)
    lines.group("a one-indexed zero: an output too small comes behind it, a malformed sheet and all else before it")
    for text in ("$0", "? $1 $00 ?", "'$0' ?", "$0 ?"):
        for sheet in NOUGHT_SHEETS:
            for lent in (0, 1, len(text) - 1, len(text)):
                lines.fill(sheet, text, lent=lent)
        for sheet in MALFORMED:
            for lent in (0, MANY):
                lines.fill(sheet, text, lent=lent)
        for settings in ((3, 0, 0), (0, 2, 0), (0, 0, 2)):
            lines.fill(EXAMPLE, text, *settings)
        lines.fill(EXAMPLE, text.encode("utf-8") + b"\xff")
    lines.group("a one-indexed zero in long searches: at the start, at the end, and nowhere")
    lines.fill(EXAMPLE, b"$0" + b"a" * 65534)
    lines.fill(EXAMPLE, b"a" * 65534 + b"$0")
    lines.fill(EXAMPLE, b"a" * 65534 + b"$0", lent=0)
    lines.fill(EXAMPLE, b"a" * 65535 + b"$")
    lines.fill(EXAMPLE, b"a" * 65535 + b"$0")
    lines.fill(EXAMPLE, b"$0" * 300)
    lines.fill(NONE, b"$0" * 300)
    # where a byte and the one behind it stand on both sides of a border of a power of two
    for at in (15, 16, 31, 32, 63, 64, 127, 128, 4095, 4096):
        lines.fill(EXAMPLE, b" " * at + b"$0 ?")
    lines.group("a one-indexed zero: the lookup keeps its text and the counter")
    for sheet in NOUGHT_SHEETS:
        lines.lookup(sheet, "$0 ? $00", range(6), (0, 1, LARGEST))


# --------------------------------------------------------------------------
# Faults of a sheet

ILL_FORMED = (b"\x80", b"\xc2", b"\xc0\x80", b"\xed\xa0\x80", b"\xf4\x90\x80\x80", b"\xff", b"a\xe2\x82", b"\xf0\x9f\x98")


def faults(lines):
    lines.group("every fault of a sheet, beside its nearest sheet without one")
    good = (
        NONE, indexed(), indexed(""), indexed("7", "8"), named(), named(("", "")), named(("a", "1")),
        named(("a", "1"), ("b", "22")), indexed("é€😀"), named(("é", "😀")), indexed(*["x"] * 300),
    )  # fmt: skip
    for sheet in good:
        lines.fill(sheet, "?")
    bad = [b"", b"\x00", b"\x02\x00", b"\x00\x01\x00", b"\x00\x00\x01", b"\x00\x01\x00\x00\x00", b"\x03\x00\x00", b"\xff\x00\x00"]
    for sheet in good:
        bad += [sheet + b"x", sheet[:-1], sheet + b"\x00"]
        bad += [bytes([kind]) + sheet[1:] for kind in range(4) if read_sheet(bytes([kind]) + sheet[1:]) is None]
        bad += [sheet[:1] + le16(n) + sheet[3:] for n in (1, 2, 3, 255, 256, 65535) if read_sheet(sheet[:1] + le16(n) + sheet[3:]) is None]
    for body in ILL_FORMED:
        n = le16(len(body))
        bad += [
            b"\x02\x01\x00" + n + body,
            b"\x01\x01\x00" + n + b"\x00\x00" + body,
            b"\x01\x01\x00\x00\x00" + n + body,
            b"\x02\x02\x00\x01\x00" + n + b"a" + body,
        ]
    # a character cut in two by its bodies' border
    bad += [b"\x02\x02\x00\x01\x00\x01\x00\xc3\xa9", b"\x01\x01\x00\x01\x00\x01\x00\xc3\xa9"]
    for sheet in bad:
        if read_sheet(sheet) is not None:
            sys.exit(f"no fault: {sheet.hex()}")
        lines.fill(sheet, "?")
    lines.group("the longest sheet, and one byte more")
    for length in (65531, 65532):
        lines.fill(b"\x02\x01\x00" + le16(min(length, 65535)) + b"x" * length, "?")
    lines.fill(b"\x02\x01\x00\xfb\xff" + b"x" * 65531, "a", lent=1)


# --------------------------------------------------------------------------
# Keys against sheets

KEYS = (
    "?", "?0", "?1", "?2", "?18446744073709551615", "?18446744073709551616", "$0", "$00", "$1", "$2", "$3", "$18446744073709551615",
    "$18446744073709551616", ":a", "@a", "$a", ":b", ":é", "{a}", "{b c}", "@'a'", "@'b c'", "@''", '@""', "@``", "@'a\\'b'", '@"a\\"b"', "@`a\\`b`", "@'a\\b'",
    ":1", "@1", "@'\\''", "@'\\\\'", "a", "'?'", "--?", "@N'ab'",
)  # fmt: skip

SHEETS = (
    NONE,
    indexed(),
    indexed("7"),
    indexed("7", "8"),
    indexed("", "x", "yz"),
    indexed("?", ":a", "$1"),
    named(),
    named(("a", "1")),
    named(("a", "1"), ("a", "2")),
    named(("", "empty"), ("a", "1")),
    named(("a'b", "q"), ('a"b', "d"), ("a`b", "t"), ("a\\'b", "raw"), ("a\\b", "back")),
    named(("b c", "two"), ("é", "e"), ("1", "one"), ("'", "quote"), ("\\", "slash"), ("a", "")),
    named(("N", "n"), ("'ab", "p"), ("ab", "s"), ("2", "two"), ("b", "?")),
)


def keys(lines):
    lines.group("every kind of key against every kind of sheet: fill, in each dialect and with named placeholders")
    for sheet in SHEETS:
        for key in KEYS:
            for dialect in (0, 1, 2):
                for named_ in (0, 1):
                    if dialect == 0 or fill(key.encode(), dialect, 0, named_, sheet, MANY) != fill(key.encode(), 0, 0, named_, sheet, MANY):
                        lines.fill(sheet, f"{key} ? {key} ?", dialect, 0, named_)
    lines.group("every kind of key against every kind of sheet: the lookup, the counter at its ends too")
    for sheet in SHEETS:
        for key in KEYS:
            for named_ in (0, 1):
                lines.lookup(sheet, key, (0,), (0, 1, 2, LARGEST - 1, LARGEST), 0, 0, named_)


def places(lines):
    lines.group("the lookup: each place of a list and past it, and refusals")
    text = "SELECT a, ?, $2 FROM t WHERE x = :a AND y = ?1"
    for sheet in (NONE, EXAMPLE, named(("a", "1"), ("", "0"))):
        lines.lookup(sheet, text, (*range(30), 65536, LARGEST), (0, 1, 7))
        lines.lookup(sheet, "", (0, 1), (0, 5))
        lines.lookup(sheet, b"a \xff", (0,), (3,))
        lines.lookup(sheet, b"?" * 65537, (0,), (3,))
        lines.lookup(sheet, "?", (0,), (3,), 3)
        lines.lookup(sheet, "?", (0,), (3,), 0, 2)
        lines.lookup(sheet, "?", (0,), (3,), 0, 0, 2)
    lines.lookup(b"\x02\x01\x00", "?", (0, 1), (0, 3, LARGEST))


def refusals(lines):
    lines.group("which refusal comes first; the room lent")
    bad = b"\x02\x01\x00"
    for statement in (b"?", b"? \xff", b"?" * 65537, b"\xff" * 65537):
        for sheet in (EXAMPLE, bad):
            for dialect, joins, named_ in ((0, 0, 0), (3, 0, 0), (0, 2, 0), (0, 0, 2), (2**64 - 1, 1, 1), (2, 1, 1)):
                for lent in (0, MANY):
                    lines.fill(sheet, statement, dialect, joins, named_, lent)
    for lent in range(8):
        lines.fill(EXAMPLE, "? $2 ?", lent=lent)
        lines.fill(indexed("é€", ""), "??", lent=lent)
    lines.fill(EXAMPLE, "", lent=0)
    lines.fill(EXAMPLE, b"a" * 65536, lent=65536)
    lines.fill(EXAMPLE, b"a" * 65536, lent=65535)


# --------------------------------------------------------------------------
# As much room as a filled text can take: sheets, and searches that take the longest value, another one, or none

LONGEST = (
    (NONE, ("", "a", "? :a")),
    (indexed(), ("?", "$1 ?")),
    (indexed(""), ("?", "a ? b", "?0?0")),
    (indexed("7"), ("?", "? ?", "$1$1")),
    (indexed("", "x", "yz"), ("$3", "$3$3$3", "? ? ?", "$1$1$1")),
    (indexed("a value of some length", "7"), ("?", "$1 $1", "$2 $2", "no value")),
    (indexed("é€😀"), ("?", "? $1 ?0", "é")),
    (named(("a", "1"), ("a long name", "22")), (":a", "{a long name}", "{a}{a}", ":b ?")),
    (named(("", "empty"), ("a", "")), ("?1?1?1", ":a :a", "$0")),
    (indexed("x" * 1000), ("?", "?0?0", "?" * 5)),
)


def most(text, sheet):
    """The statement's length times that of the longest value, which is 1 where none is longer"""
    _, entries = read_sheet(sheet)
    return len(as_bytes(text)) * max([1, *(len(value) for _, (*_, value) in entries)])


def longest(lines):
    lines.group("as much room as a filled text can take, and somewhat less and more")
    for sheet, texts in LONGEST:
        for text in texts:
            room = most(text, sheet)
            if fill(as_bytes(text), 0, 0, 0, sheet, room)[0] != 0:
                sys.exit(f"{text!r}: longer than {room} bytes")
            for lent in (room - 2, room - 1, room, room + 1):
                lines.fill(sheet, text, lent=max(lent, 0))


def main():
    lines = Filled(ABOUT, "vwsfo=ltg")
    for group in (worked, noughts, faults, keys, places, refusals, longest):
        group(lines)
    lines.print()


if __name__ == "__main__":
    main()
