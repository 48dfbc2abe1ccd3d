#!/usr/bin/env python3
"""Prints tests/vectors/tokenize.txt: searches, settings, and what tokenise must
answer to them.

    python3 tools/tokenize_vectors.py > tests/vectors/tokenize.txt

The answers come from tools/reading.py. The cases below are chosen by hand, but
for two groups of random texts with a fixed seed. Beside that, this file says
what document 01 says about a case by itself, and which kind a phrase of each
recogniser has, and stops where the reading disagrees (`worked`, `phrases`).
"""

import random
import sys

sys.dont_write_bytecode = True
import reading  # noqa: E402
from reading import (  # noqa: E402
    BLOCK_COMMENT,
    CLOSE_PAREN,
    LINE_COMMENT,
    NUMBER,
    OPEN_PAREN,
    OPERATOR,
    PLACEHOLDER,
    RESERVED,
    SQLSERVER,
    STRING,
    TYPE_SPECIFIER,
    WHITESPACE,
    WORD,
    spelled,
)
from reading import RESERVED_NEWLINE as NEWLINE  # noqa: E402
from reading import RESERVED_NEWLINE_AFTER as NEWLINE_AFTER  # noqa: E402
from reading import RESERVED_TOP_LEVEL as TOP_LEVEL  # noqa: E402
from reading import RESERVED_TOP_LEVEL_NO_INDENT as NO_INDENT  # noqa: E402
from levels import with_levels  # noqa: E402
from vector_file import MANY, Searches  # noqa: E402

DIALECTS = (0, 1, 2)

ABOUT = """\
Searches, settings and tokenise's answers. They come from a reading of src/tokenizer.rs in Python (tools/reading.py), made
independently of the port and never from its output. The worked searches of document 01 were laid beside it by hand. Printed
by tools/tokenize_vectors.py.
"""


class Tokenized(Searches):
    def expect(self, statement, options):
        number, detail, escaped, records = reading.answer(statement, *options)
        self.check("=", number, detail)
        self.escaped(escaped)
        self.records(with_levels(records))


# --------------------------------------------------------------------------
# Document 01's worked searches, with what it says of each. Whitespace tokens
# are left out, as there. Kinds by name, then values where the paper names them.

# text, dialect, named, expected: a list of (kind, value)
WORKED = (
    # P
    ("", 0, 0, []),
    ("======", 0, 0, [(OPERATOR, "====="), (OPERATOR, "=")]),
    ("'a", 0, 0, [(OPERATOR, "'"), (WORD, "a")]),
    ("/*a", 0, 0, [(BLOCK_COMMENT, "/*a")]),
    ("t.from", 0, 0, [(WORD, "t"), (OPERATOR, "."), (WORD, "from")]),
    ("t.end", 0, 0, [(WORD, "t"), (OPERATOR, "."), (CLOSE_PAREN, "end")]),
    ("(::", 0, 0, [(OPEN_PAREN, "("), (OPERATOR, "::")]),
    ("::", 0, 0, [(TYPE_SPECIFIER, "::")]),
    ("a=?", 0, 0, [(WORD, "a"), (OPERATOR, "=?")]),
    ("$1a", 0, 0, [(PLACEHOLDER, "$1"), (WORD, "a")]),
    ("$1a", 0, 1, [(PLACEHOLDER, "$1a")]),
    ("?18446744073709551616", 0, 0, [(PLACEHOLDER, "?18446744073709551616")]),
    ("?18446744073709551615", 0, 0, [(PLACEHOLDER, "?18446744073709551615")]),
    (
        "BETWEEN 1 AND 2",
        0,
        0,
        [(RESERVED, "BETWEEN"), (NUMBER, "1"), (RESERVED, "AND"), (NUMBER, "2")],
    ),
    (
        "between 1 AND 2",
        0,
        0,
        [(RESERVED, "between"), (NUMBER, "1"), (NEWLINE, "AND"), (NUMBER, "2")],
    ),
    ("=[]", 2, 0, [(OPERATOR, "="), (STRING, "[]")]),
    # not marked
    ("UPDATE t SET", 0, 0, [(TOP_LEVEL, "UPDATE"), (WORD, "t"), (NEWLINE_AFTER, "SET")]),
    ("update t SET", 0, 0, [(TOP_LEVEL, "update"), (WORD, "t"), (TOP_LEVEL, "SET")]),
    (
        "CREATE TEMP TABLE",
        0,
        0,
        [(RESERVED, "CREATE"), (WORD, "TEMP"), (RESERVED, "TABLE")],
    ),
    ("#a\rb", 0, 0, [(OPERATOR, "#"), (WORD, "a"), (WORD, "b")]),
    ("{}", 0, 0, [(OPERATOR, "{"), (OPERATOR, "}")]),
    # the program listing
    (
        "a=:b ORDER BY $2",
        0,
        0,
        [(WORD, "a"), (OPERATOR, "=:"), (WORD, "b"), (TOP_LEVEL, "ORDER BY"), (PLACEHOLDER, "$2")],
    ),
    # where a plausible reading goes wrong
    ("'a\\'", 0, 0, [(OPERATOR, "'"), (WORD, "a"), (OPERATOR, "\\"), (OPERATOR, "'")]),
    ("' a \\ '", 0, 0, [(STRING, "' a \\ '")]),
    ("using", 0, 0, [(TOP_LEVEL, "using")]),
    ("USING", 0, 0, [(RESERVED, "USING")]),
    (
        "DROP TABLE IF EXISTSX",
        0,
        0,
        [(NEWLINE, "DROP"), (RESERVED, "TABLE"), (RESERVED, "IF"), (WORD, "EXISTSX")],
    ),
    # the identifier form is tried first: not the key `'ab` that document 01 names
    ("@N'ab'", 0, 0, [(PLACEHOLDER, "@N"), (STRING, "'ab'")]),
    ("? ?1 ?", 0, 0, [(PLACEHOLDER, "?"), (PLACEHOLDER, "?1"), (PLACEHOLDER, "?")]),
    # tight and filled text
    ("a  --x\r\n\n b ", 0, 0, [(WORD, "a"), (LINE_COMMENT, "--x"), (WORD, "b")]),
    ("a --x\nb", 0, 0, [(WORD, "a"), (LINE_COMMENT, "--x"), (WORD, "b")]),
    (" \t\n", 0, 0, []),
    ("? $2 ?", 0, 0, [(PLACEHOLDER, "?"), (PLACEHOLDER, "$2"), (PLACEHOLDER, "?")]),
    ("?2", 0, 0, [(PLACEHOLDER, "?2")]),
    ("7 8 8", 0, 0, [(NUMBER, "7"), (NUMBER, "8"), (NUMBER, "8")]),
    ("$0", 0, 0, [(PLACEHOLDER, "$0")]),
    ("$00", 0, 0, [(PLACEHOLDER, "$00")]),
    ("?1", 0, 0, [(PLACEHOLDER, "?1")]),
    ("@''", 0, 0, [(PLACEHOLDER, "@''")]),
    # texts that document 02 names
    ("@N'a'", 0, 0, [(PLACEHOLDER, "@N"), (STRING, "'a'")]),
    ("''", 0, 0, [(STRING, "''")]),
    ("'''", 0, 0, [(OPERATOR, "'"), (STRING, "''")]),
)

# The key words that document 01 gives for a worked search's first token.
WORKED_KEYS = (
    ("$1a", 0, 0, (4, 0, 1)),
    ("$1a", 0, 1, (1, 1, 2)),
    ("?18446744073709551616", 0, 0, (0, 0, 0)),
    ("?18446744073709551615", 0, 0, (3, 2**32 - 1, 2**32 - 1)),
    ("$0", 0, 0, (4, 0, 0)),
    ("$00", 0, 0, (4, 0, 0)),
    ("@''", 0, 0, (1, 2, 0)),
    ("?2", 0, 0, (3, 0, 2)),
    ("?", 0, 0, (0, 0, 0)),
)

# The listing of document 01, as printed there, with document 02's eighth field.
LISTING = """\
15 0 1 1 0 0 0 0
8 1 2 2 0 0 0 0
15 3 1 1 0 0 0 0
1 4 1 1 0 0 0 0
4 5 8 8 0 0 0 0
1 13 1 1 0 0 0 0
14 14 2 2 4 0 2 0
"""


def read(text, dialect=0, joins=0, named=0):
    """Kind and value of each token, whitespace left out"""
    statement = text.encode("utf-8")
    listed = []
    for kind, start, length, *_ in reading.tokenize(statement, dialect, joins, named):
        if kind != WHITESPACE:
            listed.append((kind, statement[start : start + length].decode("utf-8")))
    return listed


def worked(vectors):
    vectors.group("document 01: worked searches, the listing, where a reading goes wrong")
    for text, dialect, named, expected in WORKED:
        got = read(text, dialect, 0, named)
        if got != expected:
            sys.exit(f"worked search {text!r}: the reading has {got}, not {expected}")
        vectors.case(text, dialect, 0, named)
        vectors.case(text, dialect, 1, named)
    for text, dialect, named, expected in WORKED_KEYS:
        got = reading.tokenize(text.encode("utf-8"), dialect, 0, named)[0][4:]
        if got != expected:
            sys.exit(f"key of {text!r}: the reading has {got}, not {expected}")
    listing = with_levels(reading.tokenize(b"a=:b ORDER BY $2", 0, 0, 0))
    if "".join("%d %d %d %d %d %d %d %d\n" % record for record in listing) != LISTING:
        sys.exit("the listing of document 01 is not met")
    for text, *_ in WORKED:
        vectors.every_setting(text)

    vectors.group("the same traps, a little turned")
    for text in (
        "'a\\ '", "'a\\' ?", "x='\\' AND y=? AND z='b'", "USING t", "MERGE INTO t USING s",
        "MERGE  INTO t USING s", "MERGE INTO t using s", "DELETE FROM t USING s",
        "'a\\'  '", "\"a\\\"", "`a\\`", "a=:b", "a= :b", "a =?", "a = ?", "a=? b", "a=-1",
        "a=--b", "a=/*b*/c", "t . from", "t.\nfrom", "t./*c*/from", "t.from.select",
        "t..from", ".from", "from.from", "1.from", "1. from", "$.from", "@a.from",
        "[a]\"b\"", "[a\\]", "CREATE TABLE t", "Select Distinct a", "SELECT distinct a",
        "select DISTINCT a", "SELECTED", "SELECT*", "SELECT(1)", "SELECT'a'", "SELECT/**/DISTINCT",
        "create table t", "Create Or Replace View v", "a;b;c", ";", ";;",
    ):
        vectors.every_dialect(text)


# --------------------------------------------------------------------------
# The phrases of 000, each recogniser's by themselves.


def top_level_phrases():
    """By their first letter; those with IF EXISTS behind the others"""
    arms = [spelled(arm) for arm in reading.TOP_LEVEL.values()]
    return [phrase for arm in arms for phrase in sorted(arm, key=lambda text: text.endswith(" IF EXISTS"))]


# Not phrases, though they look like joins.
NEAR_JOINS = [
    "INNER", "LEFT", "RIGHT", "FULL", "CROSS", "OUTER", "OUTER JOIN", "ANTI JOIN",
    "INNER OUTER JOIN", "FULL ANY JOIN", "FULL SEMI JOIN", "INNER SEMI JOIN", "INNER ANTI JOIN",
    "CROSS OUTER JOIN", "RIGHT ASOF JOIN", "LEFT PASTE JOIN", "GLOBAL JOIN", "GLOBAL CROSS JOIN",
    "GLOBAL LEFT OUTER JOIN", "GLOBAL ANY JOIN", "NATURAL JOIN", "STRAIGHT_JOIN", "LEFT  OUTER",
    "SEMI", "ASOF", "PASTE", "GLOBAL", "JOINS", "JOIN_", "JOIN1", "JOIN.", "JOIN JOIN",
]  # fmt: skip

# Phrases of a later group that an earlier recogniser takes, with the kind they
# have then; and USING, which no earlier token makes top level.
TAKEN_EARLIER = {
    "ON CONFLICT": TOP_LEVEL,
    "INSERT": TOP_LEVEL,
    "MODIFY": TOP_LEVEL,
    "ALTER": NEWLINE,
    "DROP": NEWLINE,
    "ELSE": NEWLINE,
    "WHEN": NEWLINE,
    "CASE": OPEN_PAREN,
    "END": CLOSE_PAREN,
    "USING": RESERVED,
}

GROUPS = (
    ("top level", TOP_LEVEL, top_level_phrases()),
    ("newline after", NEWLINE_AFTER, spelled(reading.ON_CONFLICT)),
    ("newline", NEWLINE, spelled(reading.NEWLINE)),
    ("joins", NEWLINE, spelled(reading.JOINS)),
    ("top level, no indent", NO_INDENT, spelled(reading.NO_INDENT)),
    ("plain, two words", RESERVED, spelled(reading.PLAIN_TWO)),
    # some stand there twice
    ("plain, one word", RESERVED, list(dict.fromkeys(spelled(reading.PLAIN_ONE)))),
)


def mixed(phrase):
    """Every second letter small"""
    return "".join(
        letter.lower() if at % 2 else letter for at, letter in enumerate(phrase)
    )


def spread(phrase, gaps):
    """The words with the gaps between them, in turn"""
    words = phrase.split(" ")
    text = words[0]
    for at, word in enumerate(words[1:]):
        text += gaps[at % len(gaps)] + word
    return text


WIDE_ASCII = ("  \t", "\n\x0b ", "\x0c\r\n")
WIDE_OTHER = ("\u00a0\u2003", "\u3000", "\u0085 ")
WIDE_TURNED = ("\u0085\u3000", "\u2003\n", " \u00a0")


def phrases(vectors):
    word_characters = ("x", "_", "7", "\u00e9", "\u0301", "\u203f")
    marks = ("(", ",", ";", ".", "'", "-", "\u2014", "=", ")", "*", '"', "@", "\x1c")
    turn = 0
    for title, kind, group in GROUPS:
        vectors.group(
            f"reserved, {title}: capitals, mixed case, after a dot, before a word character,"
            " before a mark"
        )
        joins = (0, 1) if title == "joins" else (0,)
        for phrase in group:
            expected = [(TAKEN_EARLIER.get(phrase, kind), phrase)]
            if read(phrase) != expected:
                sys.exit(f"phrase {phrase!r}: the reading has {read(phrase)}")
            turn += 1
            for join in joins:
                vectors.case(phrase, joins=join)
                vectors.case(mixed(phrase), joins=join)
            vectors.case(phrase.lower())
            vectors.case("t." + phrase)
            vectors.case(phrase + word_characters[turn % len(word_characters)])
            vectors.case(phrase + marks[turn % len(marks)] + "x")
            if title != "plain, one word":
                for follower in word_characters:
                    vectors.case(phrase + follower)
                for follower in marks[:4]:
                    vectors.case(phrase + follower + "x")
                vectors.case("_" + phrase)
                vectors.case("x " + phrase + " y")
                vectors.case("t. " + phrase)
        vectors.group(f"reserved, {title}: the words parted otherwise, cut short or glued")
        for phrase in group:
            words = phrase.split(" ")
            if len(words) == 1:
                vectors.case(phrase[:-1])
                continue
            for gaps in (WIDE_ASCII, WIDE_OTHER, WIDE_TURNED):
                vectors.case(spread(phrase, gaps))
            vectors.case(spread(mixed(phrase), WIDE_OTHER) + "\u3000x")
            vectors.case(spread(phrase, ("/**/",)))
            vectors.case(spread(phrase, (" /**/ ",)))
            vectors.case(spread(phrase, (".",)))
            vectors.case(spread(phrase, ("",)))
            vectors.case(spread(phrase, ("\u200b",)))
            for count in range(1, len(words)):
                vectors.case(" ".join(words[:count]))
                vectors.case(" ".join(words[:count]) + " " + words[count][:-1])
                vectors.case(" ".join(words[:count]) + " " + words[count] + "x")
                vectors.case(" ".join(words[:count]) + " (" + words[count])
    vectors.group("near joins, which are none or only in part, under both join settings")
    for phrase in NEAR_JOINS:
        for join in (0, 1):
            vectors.case(phrase, joins=join)
            vectors.case(phrase + " t", joins=join)
            vectors.case(phrase.lower() + " t", joins=join)
    vectors.group("phrases one after the other, and parts of phrases that meet others")
    for text in (
        "ORDER BY GROUP BY", "ORDER GROUP BY", "CREATE CREATE TABLE", "CREATE OR REPLACE TABLE",
        "CREATE OR REPLACE UNIQUE INDEX", "CREATE OR VIEW", "CREATE UNIQUE TABLE",
        "CREATE UNIQUE VIEW", "CREATE UNLOGGED TEMP TABLE", "CREATE GLOBAL UNLOGGED TABLE",
        "CREATE TEMPORARY TABLE", "CREATE LOCAL TEMP", "CREATE LOCAL INDEX", "CREATE TABLES",
        "CREATE TABLE_", "CREATE VIEWS", "CREATE INDEXES", "CREATEX TABLE", "CREATE RULES",
        "CREATE OR REPLACE FUNCTIONS", "CREATE OR REPLACE FUNCTION f", "CREATE DATABASE d",
        "ALTER TABLES", "ALTER DATABASE d", "ALTER COLUMN c", "DROP COLUMN c", "DROP DATABASE d",
        "DROP TABLES", "DROP INDEXES", "DELETE FROM FROM", "DELETE t FROM", "INSERT INTOX",
        "INSERT OVERWRITE", "INSERT INSERT INTO", "SELECT SELECT DISTINCT", "SELECT DISTINCTROW",
        "SELECT ALLX", "SELECT ALL_", "SELECT DISTINCT ALL", "SET SET SCHEMA", "SET CURRENT",
        "SET CURRENT SCHEMAS", "SET SCHEMAX", "SET CURRENT x", "FOR NO KEY", "FOR NO UPDATE",
        "FOR KEY UPDATE", "FOR NO KEY SHARE", "FOR UPDATES", "FOR x", "FETCH NEXT", "FETCH FIRSTX",
        "GO GO", "GOTO", "GROUP", "GROUP x", "GROUPBY", "ORDER", "BY", "MERGE", "MERGE t INTO",
        "ON", "ON x", "ON CONFLICT DO UPDATE SET", "ON CONFLICT DO NOTHING", "DO UPDATE",
        "DO UPDATE x", "DO UPDATE SETS", "DO", "DO UPDATE SET SET", "PARTITION", "PARTITION x",
        "PARTITIONED", "PARTITIONED x", "PARTITION BYX", "CHARACTER", "CHARACTER SETS",
        "DISTINCT x", "DISTINCT FROMX", "IS DISTINCT FROM", "ON DELETE SET", "ON UPDATE CASCADE",
        "ON DELETED", "INTERSECT ALLX", "INTERSECT x", "UNION ALLX", "UNION DISTINCT",
        "UNION UNION ALL", "WITHIN", "WITH RECURSIVE", "CROSS APPLYX", "CROSS x", "OUTER x",
        "OUTER APPLY", "CROSS CROSS JOIN", "NOW", "NOW(", "NOW ()", "NOW( )", "NOW()x", "NOW()(",
        "now()", "Now()", "NOW()NOW()", "NOW().a", "t.NOW()", "$$", "$$a", "$$$", "$$$a", "$$1",
        "$$.", "$$ a $$", "$$_", "$ $", "$", "$$\u0301", "$$\u00e9", "t.$$", "t.$a",
        "BEGINX", "MINUS1", "A", "AS", "ASC", "ASCX", "DAY_", "DAY_HOURS", "DAY-HOUR", "RAID",
        "RAID0", "RAID00", "SQL_", "SQL_CACHES", "YEAR", "YEAR_MONTH", "J", "X", "Z", "XOR", "XORX",
        "KEY_", "QUICKLY", "VALUESX", "VALUES(", "VALUES (1)", "WHERE(", "HAVING,", "LIMIT 1",
        "\u017fELECT", "SELECT\u017f", "\u212aEY", "L\u0131KE", "SELE\u0108T", "\uff33\uff25\uff34",
        "FROM\u00b7x", "FROM\u20ac", "FROM\u2019", "FROM\u00e9", "FROM\U0001f600", "\u00e9FROM",
        "_FROM", "1FROM", "FROM1", "FROM_", "FROM\x00", "FROM\x7f", "FROM\ufeff", "FROM\u200b",
        "FROM\u200d", "FROM\u00ad", "ORDER\x1cBY", "ORDER\x1fBY", "ORDER\x00BY", "ORDER\u200bBY",
        "ORDER\u180eBY", "ORDER\ufeffBY", "ORDER BY\x1c", "ORDER\x1c BY",
    ):
        vectors.case(text)


# --------------------------------------------------------------------------
# Memory: EXCEPT, SET, USING, AND


def memory(vectors):
    before = (
        "", "SELECT a", "select a", "Select a", "SELECT DISTINCT a", "SELECT distinct a",
        "SELECT  ALL a", "select distinct a", "UPDATE t", "update t", "Update t", "FOR UPDATE",
        "UPDATE t SET a", "UPDATE t set a", "update t SET a", "MERGE INTO t", "MERGE  INTO t",
        "MERGE\tINTO t", "MERGE\u00a0INTO t", "merge into t", "Merge Into t", "DELETE FROM t",
        "DELETE  FROM t", "delete from t", "DELETE t FROM u", "FROM t", "SELECT a FROM t",
        "FROM t SELECT a", "INSERT INTO t", "BETWEEN 1", "between 1", "Between 1", "BETWEEN",
        "BETWEEN 1 IN", "BETWEEN 1 AND 2", "BETWEEN 1 and 2", "BETWEEN 1 And 2",
        "BETWEEN (SELECT 1)", "BETWEEN /*c*/ 'x' + :y --z\n", "BETWEEN t.IN", "t.BETWEEN 1",
        "BETWEEN USING", "BETWEEN using", "SELECT a EXCEPT", "SELECT a except", "BETWEEN SELECT EXCEPT",
        "MERGE INTO t USING s", "MERGE INTO t using s", "DELETE FROM t USING u",
        "SELECT 'a' /*b*/ -- c\n ( :d , 1 ) CASE END x::y OR NULL UNION ALL", "t.SELECT a",
        "UPDATE a.SELECT", "UPDATE t WHERE x", "CREATE TABLE t SELECT", "SELECT CREATE TABLE t",
        "SELECT a WITH", "UPDATE t BEGIN", "BETWEEN BEGIN", "BETWEEN OR", "BETWEEN JOIN x",
    )  # fmt: skip
    asking = ("EXCEPT", "except", "Except", "SET", "set", "USING", "using", "Using", "AND", "and", "And")
    vectors.group("EXCEPT, SET, USING and AND, whatever stands before")
    for text in before:
        for word in asking:
            vectors.case((text + " " + word).lstrip(" "))
        vectors.case((text + " EXCEPT SET USING AND EXCEPT SET USING AND").lstrip(" "))
        vectors.case((text + " using EXCEPT SET USING").lstrip(" "))

    vectors.group("a join given out as top level is not remembered")
    for join_phrase in ("JOIN u", "join u", "LEFT  OUTER\nJOIN u", "CROSS APPLY u"):
        for text in ("", "SELECT a ", "UPDATE t ", "MERGE INTO t ", "DELETE FROM t ", "FROM t ", "BETWEEN 1 "):
            for joins in (0, 1):
                for word in ("EXCEPT", "SET", "USING", "AND"):
                    vectors.case(text + join_phrase + " " + word, joins=joins)
                vectors.case(text + join_phrase + " USING (id) SET EXCEPT", joins=joins)
    vectors.group("joins as top level: type specifiers and dots after them")
    for text in ("JOIN::", "JOIN []", "JOIN.", "t.JOIN", "t.LEFT JOIN", "JOIN.JOIN", "LEFT.JOIN", "LEFT JOIN.x"):
        for joins in (0, 1):
            vectors.case(text, joins=joins)


# --------------------------------------------------------------------------
# IF EXISTS, CASE and END


def if_exists_and_case(vectors):
    vectors.group("DROP ... IF EXISTS in its forms")
    for thing in ("TABLE", "VIEW", "INDEX", "COLUMN", "table", "TABLEX"):
        for tail in (
            " IF EXISTSX", " IF EXISTS", " IF", "  IF  EXISTS x", " IF EXISTS x", " IF EXISTS;",
            " IF EXISTS_", " IF EXISTS1", " IF EXISTS(", " IF EXISTS.x", " IF NOT EXISTS", " IF EXIST",
            " IFX EXISTS", " if exists x", " IF exists", " If\u00a0Exists", "\nIF\u3000EXISTS\u2003x",
            " IF,EXISTS", ", IF EXISTS", " IF /**/EXISTS", "", ";", ".x", " x IF EXISTS", " IF EXISTS\u00e9",
            " IF EXISTS\u0301", " IF EXISTS\u2014", " IF EXISTS IF EXISTS",
        ):  # fmt: skip
            vectors.case("DROP " + thing + tail)
    for text in (
        "ALTER TABLE IF EXISTS t", "CREATE TABLE IF EXISTS t", "CREATE TABLE IF NOT EXISTS t", "drop table if existsx",
        "DROP  TABLE\tIF\nEXISTS", "DROP\u00a0TABLE", "DROPTABLE IF EXISTS", "t.DROP TABLE IF EXISTS x",
        "DROP", "DROP IF EXISTS x", "DROP IF", "IF EXISTS", "DROP TABLE DROP TABLE",
    ):  # fmt: skip
        vectors.case(text)
    vectors.group("CASE, END, END CASE")
    for text in (
        "CASE", "case", "CaSe", "CASEx", "CASE_", "CASE1", "CASE(", "CASE'a'", "CASE.", "t.CASE", "t.case x", ".CASE",
        "END", "end", "eNd", "ENDx", "END_", "END1", "END,", "END)", "END.", "t.END", "t.end.x", ".END",
        "END CASE", "end case", "End Case", "END  CASE", "END\n\tCASE", "END\u00a0CASE", "END\u3000\u2003CASE", "END\u0085CASE",
        "END\x0bCASE", "END\x1cCASE", "END\u200bCASE", "ENDCASE", "END CASEx", "END CASE_", "END CASE1", "END CASE(", "END CASE;",
        "END CASE CASE", "END END CASE", "END CAS", "END C", "END /**/CASE", "END.CASE", "t.END CASE", "t.END CASEx", "END\u00e9",
        "END\u0301", "CASE\u0301", "CASE\u00e9", "CASE\u203f", "CASE\u2014", "END CASE\u00e9", "END CASE\u0301", "END CASE\u2014",
        "CA\u017fE", "\u0415ND", "CASE WHEN a THEN 'b' ELSE c END", "case when a then b else c end case", "CASE::", "END::", "END CASE::",
        "CASE[]", "END[]", "END CASE[]", "E", "EN", "END IF", "END LOOP CASE", "CASE END", "CASE CASE END END", "xCASE", "xEND",
        "1CASE", "1END", "'a'CASE", "'a'END", "CASE'a", "E'a'END", "END'a'", "CASEEND", "$CASE", "@END", "END CASE'a'",
    ):  # fmt: skip
        vectors.every_dialect(text)


# --------------------------------------------------------------------------
# Strings


def strings(vectors):
    vectors.group("every string opener, each escape, closed and unclosed, in three dialects")
    openers = ("`", "[", '"', "'", "N'", "E'", "x'", "X'", "n'", "e'")
    for opener in openers:
        quote = {"[": "]"}.get(opener, opener[-1])
        bodies = (
            "", "a", "a\\", "\\", "\\\\", "\\a", quote + quote, "a" + quote + quote + "b", "\\" + quote,
            "a\\" + quote + "b", "\\\\" + quote, quote + "\\" + quote, "\\" + quote + quote, "\\" + quote + "\\" + quote,
            quote + quote + quote + quote, "\u00e9\n\u00a0", "a--b\n/*",
        )  # fmt: skip
        for body in bodies:
            for text in (
                opener + body + quote,
                opener + body,
                opener + body + quote + "z",
                opener + body + " " + quote + " " + quote,
            ):
                vectors.every_dialect(text)
    vectors.group("strings: other texts")
    for text in (
        "'a'b'c'", "'a''b''", "'a''''b'", "'''", "''''", "'''''", "'\\''", "'\\'''", "'\\'''\\''", "'a\\\\'", "'\"'", "\"'\"", "`'`",
        "\"a\"\"b\"", "\"a\\\"\"b\"", "`a``b`", "`a\\``b`", "``", "```", "````", "[a]]b]", "[a]]b", "[]]", "[]]]", "[[]", "[[]]",
        "[a][b]", "[]", "[ ]", "a[]", "a[1]", "a[]]", "([])", "[a\\]]b]", "]", "]]", "a]", "[a] [b]]", "N", "N'", "N''", "N'a'b", "NN'a'",
        "aN'b'", "N 'a'", "N\"a\"", "E", "E'", "E''", "E'\\''", "EE'a'", "E\"a\"", "x", "x'", "x''", "x'4f'", "X'4F'z", "x'a''b'", "x'a\\'b'",
        "xx'a'", "x\"a\"", "x 'a'", "N'a''b'", "N'a\\'b'", "E'a''b'", "n'a\\'b'", "e'a'", "_'a'", "1'a'", "'a'1", "'a'::text", "'a'[]", "N'a'::x",
        "'\u00e9\u0301'", "'\U0001f600'", "\"\u3000\"", "'a\nb'", "'a\rb'", "'\x00'", "'a' 'b'", "'a'\n'b'", "'--'", "'/*'*/", "'a'--'", "SELECT'a'",
        "LIKE'%'", "IN('a')", "'a','b'", "'a'.'b'", "\"a\".\"b\".from", "[a].[from]", "`a`.`from`.from", "'unclosed \"closed\"", "\"unclosed 'closed'",
        "`unclosed 'a' \"b\"", "N'unclosed 'a'x", "x'unclosed", "'\\", "'\\\\", "\\'", "\\'a'", "\\", "'a\\' b \\'", "'a\\' b '", "\"a\\\" b \"",
    ):  # fmt: skip
        vectors.every_dialect(text)


# --------------------------------------------------------------------------
# Placeholders


def placeholders(vectors):
    vectors.group("every placeholder form, three dialects, both orders")
    for text in (
        "?", "? ", "?a", "? a", "?12", "?12a", "?0", "?00", "?007", "?1.5", "?1?2", "??", "??1", "?-1", "?_", "?\u0663", "(?)", "(?,?)", "?,?", "? ?",
        "=?", "= ?", "?=", "?::int", "?[]", "?1::int", "?.a", "?.from", "?\u0301",
        "$", "$1", "$12", "$1a", "$1 a", "$1.5", "$1_", "$1$2", "$1.a", "$1$", "$0", "$00", "$x", "$x1", "$x.y", "$x$y", "$x$", "$.", "$_", "$$x",
        "$x::int", "$1::int", "$1[]", "$\u00e9", "$\u0663", "$1\u0663", "$\u0301", "$x\u0301", "$(1)", "$ 1", "$-1", "$'a'", "$\"a\"", "$N'a'",
        "@", "@a", "@a b", "@a.b", "@a_b", "@a$b", "@a-b", "@1", "@1a", "@_", "@.", "@..", "@$", "@@a", "@@", "@:a", ":@a", "@\u00e9", "@\u0663", "@\u0301",
        "@a\u0301b", "@a\u203fb", "@ a", "@(a)", "@a::int", "@a[]", "@a.from", "@a. from", "a@b", "a @b", "@a@b", "@a,@b", "@a=@b", "@a:b", "@from", "@SELECT",
        "@CASE", "@END",
        ":", ":a", ":a.b", ":a_b", ":a$", ":1", ":1a", ":_", ":.", ":$", "::a", ":::a", "a::b", "a:b", "a :b", ":a:b", ":a::b", ":\u00e9", ":a\u0301", ": a",
        ":=", ":a=:b", "a=:b", ":(a)", ":a[]", ":from", "t.:a",
        "{a b}", "{}", "{a", "{a}", "{ }", "{a}}", "{{a}", "{{a}}", "{}}", "{}a}", "{a{b}", "{a\nb}", "{'a'}", "{\u00e9}", "{a}::int", "{a}[]", "{ a }b",
        "${a}", "@{a}", ":{a}", "{:a}", "{?}", "}", "{", "{}{a}", "{a}{b}", "t.{a}", "{a}.from", "{--}", "{/*}*/", "{\x00}",
        "@'a'", "@\"a\"", "@`a`", "@[a]", ":'a'", ":\"a\"", ":`a`", ":[a]", "@''", "@\"\"", "@``", "@[]", ":''", ":\"\"", ":``", ":[]", "@'a b'", "@[a b]",
        "@'a", "@\"a", "@`a", "@[a", "@'", "@\"", "@`", "@[", ":'", ":N", ":N'", ":N'a", ":N'a'", ":N'a\\'b'", ":N''", "@N'ab'", "@N'", "@N", "@E'a'", "@x'a'",
        "@n'a'", ":X'a'", "@ 'a'", "@'a'b", "@'a''b'", "@\"a\"\"b\"", "@`a``b`", "@[a]]b]", "@[a]]", "@[a]]]", "@'a\\'b'", "@\"a\\\"b\"", "@`a\\`b`",
        "@`a\\``b`", "@[a\\]b]", "@[a\\]]b]", "@'a\\'", "@\"a\\\"", "@`a\\`", "@[a\\]", "@`\\`", "@[\\]", "@'\\'", "@\"\\\"", "@'\\\\'", "@'\\\\''", "@'\\''",
        "@\"\\\"\"", "@`\\```", "@[\\]]]", "@'a\\'b\\'c'", "@'a\\\"b'", "@\"a\\'b\"", "@`a\\'b`", "@'a\\`b'", "@[a\\'b]", "@'a\\]b'", "@`a\\``", "@[a\\]]",
        "@`\\``", "@[\\]]", "@'\u00e9\\'\u20ac'", "@\"\U0001f600\"", "@[\u00e9\\]]\u00e9]", "@'a\nb'", "@'a'::int", "@'a'[]", "@'a'.from", "@'a'@'b'", "@'a':'b'",
        "@@'a'", ":@'a'", "::'a'", "a::'b'", "a@'b'", "=@'a'", "= @'a'", "(@'a')", "\u00e9 @'\u00e9'", "@'a' \\'", "@'a\\' b'", "@'\\' '", "@`a`` b`",
    ):  # fmt: skip
        vectors.every_setting(text)
    vectors.group("keys as numbers")
    for sign in "?$":
        for digits in (
            "0", "1", "9", "10", "000", "4294967295", "4294967296", "4294967297", "8589934592", "9223372036854775807", "9223372036854775808",
            "18446744073709551614", "18446744073709551615", "18446744073709551616", "18446744073709551617", "18446744073709551620",
            "18446744073709551625", "18446744073709551705", "18446744073709552615", "19446744073709551615", "28446744073709551615",
            "99999999999999999999", "99999999999999999999999999999999999999999", "184467440737095516150", "36893488147419103232",
            "00018446744073709551615", "00018446744073709551616", "0" * 40, "0" * 40 + "7", "1" + "0" * 19, "1" + "0" * 20, "340282366920938463463374607431768211456",
            "340282366920938463463374607431768211457",
        ):  # fmt: skip
            for named in (0, 1):
                vectors.case(sign + digits, named=named)
                vectors.case("a " + sign + digits + "x", named=named)


# --------------------------------------------------------------------------
# Numbers, comments, operators


def numbers(vectors):
    vectors.group("numbers")
    for text in (
        "1", "0", "00", "12", "1.5", "1.", "1..", "1..2", "1.2.3", "1.e5", "1.e", "1e5", "1e", "1e+", "1e-", "1e+5", "1e-5", "1e+-5", "1E5", "1.5E5",
        "1.5e5", "1.5e", "1.5e-3x", "1.5e-3", "1e5.5", "1e5e5", "1e5e", "1ee5", "1e 5", "1 e5", "1x", "1_000", "1a1", ".5", ".5e1", "a.5", "a1.5", "-1", "--1",
        "---1", "-a", "- 1", "-1.5", "-1.", "-1e5", "-1.e-5", "-.5", "-", "--", "-1-1", "1-1", "1--1", "1- -1", "1 -1", "a-1", "a -1", "(-1)", "+1", "1+1",
        "=-1", "= -1", "<-1", "*-1", "-1::int", "1::int", "1[]", "1.::int", "1.[]", "1.from", "1.a", "1.5from", "1from", "1'a'", "0x1F", "0b1", "1e5from",
        "\u0661", "1\u0661", "\u06611", "1.\u0661", "1e\u0661", "\u00b2", "1\u00b2", "\u00bd", "\u2167", "1\u0301", "-\u0661", "1\u00e9", "123456789012345678901234567890",
        "1.\n5", "1\n.5", "1.5.from", "1 .from", "1,2", "1;", "9" * 300, "1." + "0" * 200 + "1e+" + "9" * 100, "-" + "7" * 100, "--1\r", "--1\rx", "-1\r", "---1\r",
        "-1e\r5", "1e5\u0301", "1.e5x", "1.e+x", "1.e+5x",
    ):  # fmt: skip
        vectors.case(text)


def comments(vectors):
    vectors.group("line comments with each line end")
    for opener in ("#", "--"):
        for body in ("", "a", "a b", " ", "'", "/*", "#", "--", "\u00e9\u2028x", "\u0085", "\x0b\x0c", "a\\"):
            for end in ("\n", "\r\n", "\r", "\r\r\n", "\n\r", "", "\rb", "\r\n\nb", "\nb", "\n\n b", "\r \nb", "\r\n\rb"):
                vectors.case(opener + body + end)
                if body in ("a", "'"):
                    vectors.case("x " + opener + body + end + " y")
    for text in (
        "#", "##", "###", "######", "#\r#\n", "a#b", "a #b", "a# b\nc", "=#a\n", "#a\n#b\r\n--c\n--d", "--a\n--b\rc", "--a\rb\n", "--\r", "--\r\n", "-- a", "a--b", "a --b\n",
        "a-- b\nc", "1--b", "'a'--b\nc", "=--b\nc", "= --b\nc", "-\n-a", "- -a", "---a\n", "--a--b\nc", "--a/*b\nc*/", "--a'b\n'c'", "#{a}\n{b}", "#a\u2028b\nc", "#a\u2029b",
        "#a\u0085b\nc", "--a\x0bb\nc", "--\u00e9\r\nx", "SELECT --a\nDISTINCT b", "SELECT--a\nDISTINCT", "ORDER --\nBY", "t.--a\nfrom", "--a\n::", "x --a\n::",
        "--\r--\n", "--a\r\n--b\r--c\n", "#\r\n#", "#\r#\r#", "-", "-\r", "--\r\r\n", "#a\r\r\n", "#a\n\rb", "#a\r\n\rb",
    ):  # fmt: skip
        vectors.case(text)
    vectors.group("block comments")
    for text in (
        "/**/", "/*/", "/*/*/", "/***/", "/****/", "/*", "/*a", "/*a*", "/*a*/", "/*a*/b", "/*a*/*/", "/*a**/b", "/* a\nb */c", "/*\r*/", "/*--*/a", "--/*\n*/", "/*'*/'a'",
        "/*a/*b*/c*/", "/ *a*/", "/", "//", "/a", "*/", "a/*b*/c", "a*/*b*/c", "=/*b*/c", "= /*b*/c", "/*b*/=", "/*\u00e9*/\u00e9", "/*\u00e9", "/*\U0001f600*/x", "/*\u00e9*",
        "SELECT/*a*/DISTINCT", "/*a*/::", "a/*b*/::", "/**/[]", "/**//**/", "/*a*//*b", "/*/**/", "/*//*/x", "/**/*/", "t./**/from", "/*a*/.from", "#/*\n*/", "/*#*/#",
        "/*\x00*/", "/*?*/?", "'/*'a'*/'", "/**", "/**a", "/*a*\n/b",
    ):  # fmt: skip
        vectors.every_dialect(text)


def operators(vectors):
    allowed = "!<>=|:-~*&@^?#/%"
    vectors.group("operators: runs of one character, of 1 to 6 and of 11")
    for sign in allowed:
        for count in (1, 2, 3, 4, 5, 6, 7, 10, 11):
            vectors.case(sign * count)
            vectors.case("a " + sign * count + " b")
            vectors.case("(" + sign * count + "b")
    vectors.group("operators: every pair, alone before a word, and with a lone CR behind")
    for one in allowed:
        for two in allowed:
            vectors.case(one + two + "b")
            vectors.case("(" + one + two + "\r")
    vectors.group("operators: other characters, alone and in runs")
    for sign in "+,;.\\{}[]()$\"'`_\x00\x01\x1b\x7f\u00a7\u00ab\u00b7\u2014\u2018\u20ac\u2026\ufffd\ufeff\u200b\U0001f600\U0001f1e9\U0010ffff":
        for text in (sign, sign * 2, sign + "a", "a" + sign, "=" + sign, sign + "=", "(" + sign + sign + "b"):
            vectors.every_dialect(text)
    for text in (
        "a<=b", "a<>b", "a!=b", "a||b", "a->b", "a->>b", "a#>b", "a #> b", "a #>> b", "a @> b", "a <@ b", "a ?| b", "a ?& b", "a && b", "a !~* b", "a ~~ b", "a <-> b",
        "a |/ b", "a ||/ b", "a << b", "a >> b", "a := b", "a => b", "a ** b", "a % b", "a ^ b", "!a", "!!a", "~a", "a<-1", "a<--1", "a< -1", "a=?", "a=?1", "a>=?", "a>:b",
        "a=@b", "a=$1", "a%?", "*?", "a*?", "a.*", "COUNT(*)", "*,*", "<=>", "<=>?1", "=====?", "====?1", "======?1", "=====1", "====-1", "=====-1", "====--1", "=====--1",
        "====/*a", "=====/*a", "=====#a", "====#a", "(=====::", "a=====::", "=====[]", "@@@@@@a", "::::::", "a::::::", "(::::::", "(:::", "(:::::a", "(::::::a", "?????1",
        "??????1", "?????", "-----", "(-----\r", "(------\r", "(------1\r", "(-----1\r", "!@", "!?", "!:a", "!@a", "!#a", "!-1", "!--a", "|?|", "a+b", "a+-1", "a+?", "+?", "+:a",
        "+--a", "+#a", "=\u00e9=", "=\u2014=", "\u2014=", "=.=", "=,=", "=$=", "=_=", "= =",
    ):  # fmt: skip
        vectors.every_dialect(text)


# --------------------------------------------------------------------------
# Type specifiers


def type_specifiers(vectors):
    vectors.group("type specifiers after each kind of token, three dialects")
    before = (
        "", "::", "[]", "'s'", '"s"', "`s`", "NULL", "USING", "BETWEEN 1 AND", "FROM", "using", "WITH", "$$", "OR", "AND", "DO UPDATE SET", "UPDATE t SET", ",", ".", "+", "==", "(", "CASE",
        ")", "END", "END CASE", "--c\n", "#c\n", "/*c*/", "1", "-1.5", "?", "?1", "$1", ":a", "@'a'", "{a}", "w", "\u00e9", "_", "JOIN", "LEFT JOIN", "[s]", "[", "]", "x'00'", "N'a'",
        "SELECT a EXCEPT", "EXCEPT",
    )  # fmt: skip
    for text in before:
        for specifier in ("::", "[]", " ::", "\n\u3000[]", "::[]", "[]::", ":::", "[ ]", "::'a'", "[1]", "[]]"):
            vectors.every_dialect(text + specifier)
    vectors.group("type specifiers after a join, under both join settings")
    for text in ("JOIN", "a JOIN", "LEFT OUTER JOIN", "join"):
        for specifier in ("::", " ::", "[]", " []"):
            for dialect in DIALECTS:
                for joins in (0, 1):
                    vectors.case(text + specifier, dialect, joins)


# --------------------------------------------------------------------------
# Characters

WHITE_SPACES = (
    [chr(code) for code in range(0x09, 0x0E)]
    + [" ", "\u0085", "\u00a0", "\u1680"]
    + [chr(code) for code in range(0x2000, 0x200B)]
    + ["\u2028", "\u2029", "\u202f", "\u205f", "\u3000"]
)


def characters(vectors):
    if "".join(WHITE_SPACES) != "".join(
        chr(code) for code in range(0x110000) if reading.WHITE_SPACE[code]
    ):
        sys.exit("White_Space is not the list that this file has")
    vectors.group("each White_Space character as a gap, outside and inside phrases")
    for space in WHITE_SPACES:
        for text in (
            space, space + "a", "a" + space, "a" + space + "b", "a" + space + space + " b", "ORDER" + space + "BY", "ORDER BY" + space, "END" + space + "CASE",
            "t." + space + "from", "#a" + space + "b", "'a" + space + "'", ":a" + space + "b", "=" + space + "=", "1" + space + "2",
        ):  # fmt: skip
            vectors.case(text)
    vectors.group("characters near White_Space that are none")
    for code in (
        0x00, 0x08, 0x0E, 0x1C, 0x1D, 0x1E, 0x1F, 0x7F, 0x84, 0x86, 0x9F, 0xA1, 0xAD, 0x180E, 0x167F, 0x1681, 0x1FFF, 0x200B, 0x200C, 0x200D, 0x200E, 0x2027, 0x202A, 0x202E, 0x2030,
        0x205E, 0x2060, 0x2FFF, 0x3001, 0xFEFF, 0x2420, 0x2800,
    ):  # fmt: skip
        sign = chr(code)
        for text in (sign, "a" + sign + "b", "ORDER" + sign + "BY", "END" + sign + "CASE", "FROM" + sign, sign + "FROM", "t." + sign + "from"):
            vectors.case(text)
    vectors.group("words, digits, marks, connectors and other characters beyond ASCII")
    signs = (
        "\u00e9", "\u00df", "\u0130", "\u0131", "\u017f", "\u212a", "\u03a9", "\u0414", "\u05d0", "\u0627", "\u0905", "\u0e01", "\u3042", "\u6570", "\uac00", "\U00010400", "\U00020000",
        "\u00aa", "\u00ba", "\u00b5", "\u01c5", "\u02b0", "\u02c6", "\u02c2", "\u2160", "\u2188", "\u3007", "\u24b6", "\U0001f130",
        "\u0660", "\u0966", "\uff11", "\u00b2", "\u00bd", "\u2070", "\u2460", "\u3220", "\U0001d7ce", "\U00010107",
        "\u0301", "\u0300", "\u036f", "\u0345", "\u0903", "\u093f", "\u20dd", "\u20e3", "\ufe0f", "\ufe00", "\u180b", "\u200d", "\u3099", "\U0001d165", "\U000e0100", "\U000e01ef", "\U000e01f0",
        "\u203f", "\u2040", "\u2054", "\ufe33", "\ufe34", "\ufe4d", "\ufe4f", "\uff3f", "\u2041", "\u2053", "\ufe32", "\ufe35", "\u30fb", "\uff65", "\u00b7",
        "\u1cf2", "\u1cf3", "\u1cf4", "\u1cf7", "\u1dc4", "\u1df6", "\u1df9", "\u0897", "\u08d3", "\u0afa", "\u0d3b", "\u1abf", "\u1ac1", "\u20f0", "\ua8c5", "\ua8ff",
        "\u00a9", "\u00ae", "\u20ac", "\u2013", "\u2014", "\u2018", "\u2019", "\u201c", "\u2026", "\u2713", "\u3001", "\uff08", "\uff0c", "\uff1f", "\uff03", "\ufffd", "\ufffe", "\uffff",
        "\U0001f600", "\U0001f1e6", "\U0001f3fb", "\U0001f468\u200d\U0001f469", "\ue000", "\uf8ff", "\U000f0000", "\U0010ffff", "\U0010fffd", "\ud7ff", "\u0378", "\u0080",
    )  # fmt: skip
    for sign in signs:
        for text in (
            sign, "a" + sign + "b", sign + sign, "=" + sign, "FROM" + sign, "CASE" + sign, "1" + sign, ":" + sign, ":a" + sign + "b", "?" + sign,
            "t." + sign, sign + "::", "@'" + sign + "'", "$$" + sign,
        ):  # fmt: skip
            vectors.case(text)
    vectors.group("ASCII, each character in five places")
    for code in range(0x80):
        sign = chr(code)
        for text in (sign, "a" + sign + "b", "FROM" + sign, ":a" + sign, "(" + sign + sign):
            vectors.case(text)


# --------------------------------------------------------------------------
# Escaped quotes

# How many quotes are escaped in a text: worked out by hand from document 02's
# request [2] and what document 01 says of each opener. Dialect, text, count.
ESCAPED = (
    (0, "'a''b'", 1), (0, "'a\\'b'", 1), (0, "''''", 1), (0, '"\\""', 1), (0, "x'\\'", 0), (0, "`a``b`", 1),
    (2, "[a]]b]", 1), (0, "[a]]b]", 0), (1, "[a]]b]", 0), (0, "@'a\\'b'", 1), (0, "@'a''", 0), (0, "@`a``b`", 1),
    (2, "@[a]]b]", 1), (0, "@[a]]b]", 0), (0, "@N'a'", 0), (0, "@N'a\\'b'", 1), (0, "N'a''b'", 1),
    (0, "E'a\\'b'", 1), (0, "X'a''b'", 0), (0, "'a''''b'", 2), (0, "'\\''''", 2), (0, "''", 0), (0, "'''", 0), (0, "'''''", 1),
    (0, "'a\\\\'", 0), (0, "'a\\\\''", 1), (0, '@"a\\"b"', 1), (0, '@"a""b"', 0), (0, ":'\\''", 1), (0, ":`````", 1),
    (0, "'a' 'b''c' \"d\\\"\" @'\\''", 3), (0, "'a''b", 0), (0, "'a\\'b", 0), (0, "@'a\\'b", 0), (0, "`a``b", 0), (2, "[a]]b", 0),
    (0, "{'a''b'}", 0), (0, "--'a''b'", 0), (0, "/*'a''b'*/", 0), (0, "'板''板'", 1),
)  # fmt: skip


def escaped_quotes(vectors):
    vectors.group("escaped quotes, counted by hand; those of document 02 among them")
    for dialect, text, expected in ESCAPED:
        _, _, got, _ = reading.answer(text.encode("utf-8"), dialect, 0, 0, MANY)
        if got != expected:
            sys.exit(f"escaped quotes of {text!r}: the reading has {got}, not {expected}")
        vectors.every_setting(text)
    vectors.group("each opener: a pair at the start, at the end, twice in a row, apart, and in an attempt that becomes no token")
    for opener, quote in (
        ("'", "'"), ('"', '"'), ("`", "`"), ("[", "]"), ("N'", "'"), ("E'", "'"), ("x'", "'"), ("X'", "'"),
        ("@'", "'"), (':"', '"'), ("@`", "`"), ("@[", "]"), ("@N'", "'"), (":N'", "'"),
    ):  # fmt: skip
        for pair in (quote + quote, "\\" + quote):
            for inside in (
                "", pair, pair + "a", "a" + pair, pair + pair, pair + "a" + pair, pair * 3, "\\" + pair, pair + "\\", "a" + quote, "é" + pair,
            ):  # fmt: skip
                vectors.every_dialect(opener + inside + quote)
                vectors.every_dialect(opener + inside)
                vectors.case("a=" + opener + inside + quote + " AND " + opener + pair + quote, SQLSERVER)
    vectors.group("many escaped quotes")
    vectors.case("'" + "''" * 32767 + "'")
    vectors.case('@"' + '\\"' * 32766 + '"a')
    vectors.case("''''" * 16384)
    vectors.case("'" + "''" * 32767 + "'", lent=0)


# --------------------------------------------------------------------------
# Levels

# The level of each token, gaps among them, worked out by hand from document
# 02's request [3]. Dialect, text, levels.
LEVELS = (
    (0, "a(b)c", [0, 0, 1, 1, 0]),
    (0, "((a))", [0, 1, 2, 2, 1]),
    (0, ")a(b", [0, 0, 0, 1]),
    (0, "(a))b(", [0, 1, 1, 0, 0, 0]),
    (0, "(CASE (a) END)) b", [0, 1, 2, 2, 3, 3, 2, 2, 1, 0, 0, 0]),
    (0, "case when a then b end c", [0, 1, 1, 1, 1, 1, 1, 1, 1, 1, 1, 0, 0]),
    (0, "END CASE x", [0, 0, 0]),
    (0, "[a]", [0, 0, 0]),
    (1, "[a]", [0, 1, 1]),
    (2, "[a]", [0]),
    (1, "([)]", [0, 1, 2, 1]),
    (0, "t.end(a", [0, 0, 0, 0, 1]),
    (0, "--(\n(", [0, 0, 0]),
    (0, "'(' (", [0, 0, 0]),
    (0, "", []),
)


def levels_of(vectors):
    vectors.group("levels, worked out by hand: parens, CASE and END, brackets in the dialects, a CloseParen too many")
    for dialect, text, expected in LEVELS:
        records = reading.tokenize(text.encode("utf-8"), dialect, 0, 0)
        got = [record[-1] for record in with_levels(records)]
        if got != expected:
            sys.exit(f"levels of {text!r}: {got}, not {expected}")
        vectors.every_dialect(text)
    vectors.group("levels, as deep as can be, and closed again")
    vectors.case(b"(", repeat=65536)
    vectors.case(b")", repeat=65536)
    vectors.case("(" * 300 + ")" * 302 + "(a")
    vectors.case("()" * 200)
    vectors.case("CASE " * 40 + "END " * 41 + "x")
    vectors.case("[" * 20 + "]" * 21 + "(", 1)


# --------------------------------------------------------------------------
# Refusals


def refusals(vectors):
    vectors.group("settings out of range: 3, before everything else")
    large = (2, 3, 255, 256, 257, 2**31, 2**32, 2**32 + 1, 2**33, 2**63, 2**64 - 1, 2**64 - 2)
    for value in large:
        if value != 2:
            vectors.case("a", dialect=value)
        vectors.case("a", joins=value)
        vectors.case("a", named=value)
    vectors.case("a", 3, 2, 2)
    vectors.case("", 3)
    vectors.case("", 0, 2)
    vectors.case("", 0, 0, 2)
    vectors.case("a", 2, 1, 1)
    vectors.case("a", 2, 1, 2)
    vectors.case("a", 3, 1, 1)
    vectors.group("several refusals at once: 3, then 1, then 2, then 4")
    vectors.case(b"a", 3, 0, 0, 0, repeat=65537)
    vectors.case(b"\xff", 3, 0, 0, 0)
    vectors.case(b"\xff", 0, 2, 0, 0)
    vectors.case(b"\xff", 0, 0, 2**64 - 1, 0, repeat=65537)
    vectors.case(b"\xff", 0, 0, 0, 0, repeat=65537)
    vectors.case(b"\xff", 0, 0, 0, MANY, repeat=65537)
    vectors.case(b"\xff", 0, 0, 0, MANY, repeat=65536)
    vectors.case(b"\x80", 0, 0, 0, 0, repeat=65536)
    vectors.case(b"a\xff", 0, 0, 0, 0)
    vectors.case(b"a b\xff", 0, 0, 0, 1)
    vectors.case(b"a b", 3, 0, 0, 1)
    vectors.case(b";", 0, 0, 0, 0, repeat=65537)

    vectors.group("ill-formed UTF-8 of each sort, and well-formed beside it")
    ill = (
        b"\x80", b"\xbf", b"\xc0", b"\xc1", b"\xc0\x80", b"\xc1\xbf", b"\xc2", b"\xc2\x41", b"\xc2\xc2", b"\xc2\x7f", b"\xc2\xc0", b"\xdf", b"\xdf\x7f", b"\xe0", b"\xe0\x80", b"\xe0\x80\x80",
        b"\xe0\x9f\xbf", b"\xe0\xa0", b"\xe0\xa0\x41", b"\xe0\xa0\xc0", b"\xe1", b"\xe1\x80", b"\xe1\x80\x7f", b"\xe1\x7f\x80", b"\xe1\xc0\x80", b"\xe2\x82", b"\xec\xbf\xc0", b"\xed\xa0\x80", b"\xed\xbf\xbf",
        b"\xed\xa0", b"\xed\x9f", b"\xed\xa0\xbd\xed\xb8\x80", b"\xee\x80", b"\xef\xbf", b"\xef\xbf\xc0", b"\xf0", b"\xf0\x80\x80\x80", b"\xf0\x8f\xbf\xbf", b"\xf0\x90", b"\xf0\x90\x80", b"\xf0\x90\x80\x41",
        b"\xf0\x90\x41\x80", b"\xf0\x9f\x98", b"\xf1\x80\x80", b"\xf1\x80\x80\xc0", b"\xf3\xbf\xbf", b"\xf4\x90\x80\x80", b"\xf4\x8f\xbf", b"\xf4\x8f\xbf\xc0", b"\xf4\x8f\xc0\x80", b"\xf5\x80\x80\x80", b"\xf7\xbf\xbf\xbf",
        b"\xf8\x88\x80\x80\x80", b"\xfc\x84\x80\x80\x80\x80", b"\xfe", b"\xff", b"\xfe\xff", b"\xff\xfe", b"\xc3\xa9\xa9", b"\xe2\x82\xac\x80", b"\xf0\x9f\x98\x80\x80",
    )  # fmt: skip
    for sequence in ill:
        vectors.case(sequence)
        vectors.case(b"ab" + sequence)
        vectors.case(b"SELECT '\xc3\xa9\xe2\x82\xac\xf0\x9f\x98\x80" + sequence + b"' FROM t")
        vectors.case(b"a" + sequence + b"\xff")
    well = (
        b"\x00", b"\x7f", b"\xc2\x80", b"\xdf\xbf", b"\xe0\xa0\x80", b"\xe1\x80\x80", b"\xec\xbf\xbf", b"\xed\x80\x80", b"\xed\x9f\xbf", b"\xee\x80\x80", b"\xef\xbf\xbf", b"\xf0\x90\x80\x80", b"\xf1\x80\x80\x80",
        b"\xf3\xbf\xbf\xbf", b"\xf4\x80\x80\x80", b"\xf4\x8f\xbf\xbf", b"\xef\xbb\xbf",
    )  # fmt: skip
    for sequence in well:
        vectors.case(sequence)
        vectors.case(b"ab" + sequence)
        vectors.case(sequence + b"\x80")

    vectors.group("the table: nothing lent, too short, one short, exactly full, one more")
    for text in ("", " ", "a", "a b", "a=:b ORDER BY $2", "SELECT a, b FROM t WHERE c = ? AND d = @'e\\'f'", "======", "'a", "\u00e9\u00e9 \u20ac"):
        needed = len(reading.tokenize(text.encode("utf-8"), 0, 0, 0))
        for lent in sorted({0, 1, needed // 2, needed - 1, needed, needed + 1} - {-1}):
            vectors.case(text, lent=lent)

    vectors.group("the longest statements, and one byte more")
    vectors.case(b" ", repeat=65536)
    vectors.case(b" ", repeat=65537)
    vectors.case(b" ", repeat=65536, lent=1)
    vectors.case(b" ", repeat=65536, lent=0)
    vectors.case(b"a", repeat=65536)
    vectors.case(b"a", repeat=65537)
    vectors.case(b"a", repeat=65536, lent=0)
    vectors.case(b"a", repeat=65535)
    vectors.case(b";", repeat=65536, lent=65536)
    vectors.case(b";", repeat=65536, lent=65535)
    vectors.case(b";", repeat=65536, lent=0)
    vectors.case(b";", repeat=65535, lent=65535)
    vectors.case(b"=", repeat=65536)
    vectors.case(b"-", repeat=65536)
    vectors.case(b"#", repeat=65536)
    vectors.case(b"1", repeat=65536)
    vectors.case(b"'", repeat=65536)
    vectors.case(b"'", repeat=65535)
    vectors.case(b"\n", repeat=65536)
    vectors.case(b"\r", repeat=65536)
    vectors.case(b"\x00", repeat=300)
    vectors.case(b"$", repeat=1000)
    vectors.case(b"?", repeat=65536)
    vectors.case(b"?", repeat=65537)
    vectors.case(b"(", repeat=65536)
    vectors.case(b"a", repeat=100000)
    vectors.case(b"a", repeat=131072)


# --------------------------------------------------------------------------
# Exhaustive short texts, whole searches, random texts


def short_texts(vectors):
    vectors.group("all texts of up to three of the characters a, space, ', \\, = and ?")
    letters = "a '\\=?"
    texts = [""]
    for _ in range(3):
        texts = [text + letter for text in texts for letter in letters]
        for text in texts:
            vectors.case(text)
    vectors.group("all pairs of the characters that begin or end something, three dialects")
    signs = "'\"`[]\\N(){}@:$?1e.-#/*=a \r\n"
    for one in signs:
        for two in signs:
            vectors.every_dialect(one + two)
    vectors.group("all triples of some of them, SQLServer, named placeholders first")
    signs = "'[]\\@:$1a."
    for one in signs:
        for two in signs:
            for three in signs:
                vectors.case(one + two + three, SQLSERVER, 0, 1)


def whole_searches(vectors):
    vectors.group("whole searches, every dialect and order; those with a join, both join settings")
    for text in (
        "SELECT id, gap_start, gap_len FROM furnace_gaps WHERE zone = ? AND gap_len >= ? ORDER BY gap_start LIMIT 10;",
        "select distinct g.stand, g.from, g.end from gaps g left outer join slabs s using (slab_id) where s.len between $1 AND $2 and g.zone = 'N\\'7'",
        "SELECT * FROM coiler c INNER JOIN descaler d ON c.id=d.id LEFT  ANTI\n JOIN x USING (id) WHERE c.[zone label] = @zone AND d.\"from\" <> :'it\\'s'\r\n-- the rest\r\nGROUP BY 1",
        "UPDATE gaps SET len = len - {minutes used}, note = E'a\\'b' WHERE id = $3 RETURNING *",
        "MERGE INTO gaps t USING new_gaps s ON t.id = s.id WHEN MATCHED THEN UPDATE SET t.len = s.len",
        "INSERT INTO gaps (a, b) VALUES (?1, ?2), (-1.5e-3, x'00ff') ON CONFLICT (a) DO UPDATE SET b = 1 -- end",
        "CREATE OR REPLACE FUNCTION f() RETURNS int[] AS $$ BEGIN RETURN ARRAY[1,2]::int[]; END $$ LANGUAGE sql",
        "WITH a AS (SELECT CASE WHEN x IS NULL THEN 0 ELSE y END AS z FROM t) SELECT z FROM a UNION ALL SELECT 1 EXCEPT SELECT 2",
        "DROP TABLE IF EXISTS a; DROP VIEW  IF\tEXISTS b; DROP TABLE IF EXISTSX; ALTER TABLE t ADD c int, DROP d",
        "DECLARE @n int = 5; SELECT [a b], [c]]d] FROM [t] CROSS APPLY f(@n) OUTER APPLY g(@@x) FOR UPDATE",
        "/* gaps\n of the week */ SELECT `a``b`, \"c\"\"d\" FROM t # old mark\nWHERE a::text[] @> '{1,2}' AND b ?| c\n",
        "SELECT \u00e9tage, \u6570\u5b57 FROM \u00fcbersicht WHERE n\u00e4he = \u20ac AND x\u0301 = \U0001f600 AND \u0663 > \u00bd",
        "zone = 'finishing\\' AND gap > ? AND stand = 'x' AND minutes < ?",
    ):
        for dialect in DIALECTS:
            for named in (0, 1):
                for joins in (0, 1) if "join" in text.lower() else (0,):
                    vectors.case(text, dialect, joins, named)


def unclosed(vectors):
    """A look for a closing sign that fails tells of later ones: openers of all sorts before and behind what closes them"""
    vectors.group("openers over and over, with a closing sign nowhere, behind them, and in their midst")
    openers = ("'", "'\\", "\"", "\"\\", "[", "@[", ":[", "{", "#", "--", "`", "@'\\", "N'\\")
    for opener in openers:
        for closer in ("", "'", "\"", "]", "]]", "}", "\r", "\n", "\r\n", "`", "\\'", "''"):
            for text in (opener * 5 + closer, opener * 3 + closer + opener * 3, closer + opener * 4, opener + "a" + closer + opener):
                vectors.case(text, 0)
                vectors.case(text, 2)
    vectors.group("random texts of openers and closers")
    chance = random.Random(20261116)
    parts = openers + ("'", "\"", "]", "}", "\r", "\n", "\\", "a", " ", "*/", "/*", "''", "\"\"", "]]")
    for _ in range(900):
        text = "".join(chance.choice(parts) for _ in range(chance.randint(4, 24)))
        vectors.case(text, chance.randint(0, 2), 0, chance.randint(0, 1))


def random_texts(vectors):
    chance = random.Random(20261115)
    vectors.group("random texts of pieces, random settings")
    pieces = (
        "SELECT", "select", "DISTINCT", "FROM", "from", "UPDATE", "SET", "USING", "MERGE", "INTO", "DELETE", "EXCEPT", "BETWEEN", "AND", "and", "OR", "LEFT", "OUTER", "JOIN", "CASE", "END", "DROP", "TABLE",
        "IF", "EXISTS", "CREATE", "REPLACE", "VIEW", "ON", "CONFLICT", "DO", "NOTHING", "ORDER", "BY", "UNION", "ALL", "NULL", "NOW()", "a", "t1", "_x", "\u00e9", "\u6570", "\u0301", "1", "1.5", "1e5", "-1", "2.",
        "'a'", "'", "\"b\"", "\"", "`", "[", "]", "[c]", "[]", "::", "\\", "\\'", "N'", "E'", "x'", "?", "?1", "$1", "$x", "$$", "@a", ":b", "@'k'", "@\"k\\\"", "{k}", "{", "}", "(", ")", ",", ";", ".", "=", "<>", "--", "--c\n",
        "#", "#c\r\n", "/*", "*/", "/*c*/", "+", "-", "*", "@", ":", "\n", "\r", "\r\n", "\t", "  ", "\u00a0", "\u2003", "\u20ac", "\U0001f600", "\u200b",
    )  # fmt: skip
    for _ in range(700):
        text = ""
        for _ in range(chance.randint(1, 14)):
            text += chance.choice(pieces)
            text += chance.choice(("", " ", " ", " "))
        vectors.case(text, chance.randint(0, 2), chance.randint(0, 1), chance.randint(0, 1))
    vectors.group("random texts of single characters, random settings")
    signs = "aAeENx1.-'\"`[]\\@:$?{}()=#/* \n\r\u00e9\u0301\u00a0_;"
    for _ in range(700):
        text = "".join(chance.choice(signs) for _ in range(chance.randint(3, 18)))
        vectors.case(text, chance.randint(0, 2), chance.randint(0, 1), chance.randint(0, 1))
    vectors.group("random bytes")
    for _ in range(200):
        count = chance.randint(1, 8)
        statement = bytes(chance.choice((0x27, 0x61, 0x80, 0xBF, 0xC2, 0xA0, 0xE2, 0x82, 0xAC, 0xED, 0xF0, 0x9F, 0x98, 0xF4, 0x8F)) for _ in range(count))
        vectors.case(statement)


GROUPS_OF_CASES = (
    worked,
    refusals,
    phrases,
    memory,
    if_exists_and_case,
    strings,
    escaped_quotes,
    levels_of,
    placeholders,
    numbers,
    comments,
    operators,
    type_specifiers,
    characters,
    short_texts,
    whole_searches,
    unclosed,
    random_texts,
)


def main():
    vectors = Tokenized(ABOUT, "sfo=ern")
    for group in GROUPS_OF_CASES:
        group(vectors)
    vectors.print()


if __name__ == "__main__":
    main()
