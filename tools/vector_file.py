"""Writes the files of tests/vectors: inputs, calls on them, and what each call
must answer and write. A file begins with what its lines mean (`LINES`);
tests/vector_file.rs reads them.
"""

import sys
import textwrap

# Lent where nothing else is said: more than a call needs.
MANY = 70000

# From so many on, equal bytes stand as a repetition, and records of one sort too.
LONG_TEXT = 200
LONG_RUN = 16

# Mark: the line's form, and what it means. Inputs, checks, what a check's call has written.
LINES = {
    "s": (
        "s TEXT",
        "the statement: the rest of the line, with \\n \\r \\t \\\\ and \\xHH (one byte) as escapes; every other byte"
        " stands for itself",
    ),
    "f": ("f N B", "the statement: N times the byte B (decimal)"),
    "v": ("v HEX", "the value sheet, two digits for each byte (none: the empty sheet)"),
    "w": ("w N B HEX", "the same, with N times the byte B (decimal) behind it"),
    "o": (
        "o D J N R",
        "dialect, joins, named, and how much is lent: records where records are written, else bytes",
    ),
    "=": ("= N D", "a check: number and detail of the call on the inputs that stand"),
    "l": (
        "l P C N D A S B",
        "a check: the lookup at place P with counter C gives number N, detail D, counter A afterwards, and a part of"
        " the statement (S 0) or of the sheet (S 1) that starts at byte B",
    ),
    "e": ("e N", "the same: in the tokens handed out N quotes are escaped; none where no such line stands"),
    "r": ("r K S L A K A B N", "that call has written this record, the next one from the first on"),
    "n": (
        "n N",
        "the same: N more like the last record, each starting where the one before it ends, and at the level past it",
    ),
    "t": ("t TEXT", "that call has written this text, or handed it back"),
    "g": ("g N B", "the same: N times the byte B"),
}


def heading(about, marks):
    """A file's first lines: what it is about, and the lines that it has"""
    lines = textwrap.wrap(about, 118) + [""]
    for mark in marks:
        form, meaning = LINES[mark]
        lines += textwrap.wrap(f"{form:16} {meaning}", 118, subsequent_indent=" " * 17)
    lines += textwrap.wrap(
        "An input stands until the next of its kind. A call has written nothing but what the lines behind its check say.", 118
    )
    return [("# " + line).rstrip() for line in lines]


def as_bytes(text):
    return text if isinstance(text, bytes) else text.encode("utf-8")


def stands_for_itself(piece):
    """Letters and a few signs; none that one does not see or that joins onto others"""
    return " " <= piece <= "~" or piece in "€😀✓数字" or ("\u00c0" <= piece <= "\u052f" and piece.isalnum())


def pieces(text):
    """The characters of a text, or its bytes where it is no well-formed UTF-8"""
    try:
        return [(piece, piece.encode("utf-8")) for piece in text.decode("utf-8")]
    except UnicodeDecodeError:
        return [(chr(byte) if byte < 0x80 else "", bytes([byte])) for byte in text]


def escaped(text):
    """The TEXT of a line, which has no last space"""
    plain = {"\\": "\\\\", "\n": "\\n", "\r": "\\r", "\t": "\\t"}
    written = []
    for piece, raw in pieces(text):
        if piece and stands_for_itself(piece) or piece in plain:
            written.append(plain.get(piece, piece))
        else:
            written.append("".join(f"\\x{byte:02x}" for byte in raw))
    if written and written[-1] == " ":
        written[-1] = "\\x20"
    return "".join(written)


def text_line(plain, repeated, text):
    """The line for a text. No line ends in a blank, so the empty one is a repetition."""
    if not text or (len(text) >= LONG_TEXT and not text.strip(text[:1])):
        return f"{repeated} {len(text)} {text[0] if text else 32}"
    return f"{plain} {escaped(text)}"


def sheet_line(sheet):
    head = sheet.rstrip(sheet[-1:]) if len(sheet) >= LONG_TEXT else sheet
    if head == sheet:
        return f"v {sheet.hex()}".rstrip()
    return f"w {len(sheet) - len(head)} {sheet[-1]} {head.hex()}"


def level_past(record):
    """The level behind a record's token: 9 is OpenParen, 10 CloseParen"""
    kind, level = record[0], record[-1]
    return level + 1 if kind == 9 else max(level - 1, 0) if kind == 10 else level


def goes_on(before, record):
    """Is a record like the one before it, but for its start and its level?"""
    kind, start, length, *others, level = record
    expected = (before[0], before[1] + before[2], before[2], list(before[3:-1]), level_past(before))
    return (kind, start, length, others, level) == expected


def runs(records):
    """The records parted where one is not like the one before it"""
    found = []
    for record in records:
        if found and goes_on(found[-1][-1], record):
            found[-1].append(record)
        else:
            found.append([record])
    return found


class VectorFile:
    def __init__(self, about, marks):
        self.lines = heading(about, marks) + [""]
        self.standing = {}
        self.options(0, 0, 0, MANY)

    def group(self, title):
        self.lines += ["", "# " + title]

    def numbers(self, mark, numbers):
        self.lines.append(" ".join([mark, *map(str, numbers)]))

    def options(self, *options):
        if self.standing.get("o") != options:
            self.numbers("o", options)
            self.standing["o"] = options

    def sheet(self, sheet):
        if self.standing.get("v") != sheet:
            self.lines.append(sheet_line(sheet))
            self.standing["v"] = sheet

    def statement(self, statement):
        self.lines.append(text_line("s", "f", statement))

    def check(self, mark, *numbers):
        self.numbers(mark, numbers)

    def escaped(self, count):
        if count:
            self.numbers("e", [count])

    def text(self, text):
        if text:
            self.lines.append(text_line("t", "g", text))

    def records(self, records):
        for run in runs(records):
            listed = run if len(run) < LONG_RUN else run[:1]
            for record in listed:
                self.numbers("r", record)
            if len(run) > len(listed):
                self.numbers("n", [len(run) - len(listed)])

    def print(self):
        sys.stdout.buffer.write(("\n".join(self.lines) + "\n").encode("utf-8"))


class Searches(VectorFile):
    """Searches with settings, each once; `expect` says what a call on one must
    answer and write."""

    def __init__(self, about, marks):
        super().__init__(about, marks)
        self.seen = set()

    def expect(self, statement, options):
        raise NotImplementedError

    def case(self, text, dialect=0, joins=0, named=0, lent=MANY, repeat=1):
        statement = as_bytes(text) * repeat
        options = (dialect, joins, named, lent)
        if (statement, options) in self.seen:
            return
        self.seen.add((statement, options))
        self.options(*options)
        self.statement(statement)
        self.expect(statement, options)

    def every_setting(self, text):
        for dialect in (0, 1, 2):
            for named in (0, 1):
                self.case(text, dialect, 0, named)

    def every_dialect(self, text):
        for dialect in (0, 1, 2):
            self.case(text, dialect)
