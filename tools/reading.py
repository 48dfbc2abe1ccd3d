#!/usr/bin/env python3
"""A reading of src/tokenizer.rs (document 000) in Python, function by function.

It stands beside the port as a second reading: it was written from the Rust and
from document 01 alone, without sight of the port, and tools/*_vectors.py make
the expected answers in tests/vectors/ with it. It is meant to be laid beside
000 line by line, so it has the Rust's names and order and takes no short cuts;
it is slow on purpose where the Rust is (get_uc_words, finalize).

    python3 tools/reading.py [dialect [joins [named]]] < statement

prints what document 01's program `listing` prints, under these settings.
"""

import sys
from functools import lru_cache
from itertools import islice, product
from pathlib import Path

# --------------------------------------------------------------------------
# Character classes: the ranges that rustc 1.95 and unicode_categories 0.1.1
# gave (crates/sweep/stdout), not Python's unicodedata, whose version differs.


def read_classes():
    """The file has a class name on a line, then its ranges, `first last` in
    hexadecimal, one a line. Each class becomes one byte for each code point."""
    path = Path(__file__).resolve().parent.parent / "crates" / "sweep" / "stdout"
    classes = {}
    ranges = None
    for line in path.read_text(encoding="ascii").splitlines():
        words = line.split()
        if len(words) == 1:
            ranges = classes[words[0]] = bytearray(0x110000)
        elif len(words) == 2:
            first, last = int(words[0], 16), int(words[1], 16)
            ranges[first : last + 1] = b"\x01" * (last + 1 - first)
    return classes


CLASSES = read_classes()
WHITE_SPACE = CLASSES["is_whitespace"]
ALPHANUMERIC = CLASSES["is_alphanumeric"]
MARK = CLASSES["is_mark"]
CONNECTOR = CLASSES["is_punctuation_connector"]


def is_whitespace(item):
    """char::is_whitespace"""
    return WHITE_SPACE[ord(item)] == 1


def is_alphanumeric(item):
    """char::is_alphanumeric"""
    return ALPHANUMERIC[ord(item)] == 1


def is_mark(item):
    """UnicodeCategories::is_mark"""
    return MARK[ord(item)] == 1


def is_punctuation_connector(item):
    """UnicodeCategories::is_punctuation_connector"""
    return CONNECTOR[ord(item)] == 1


# --------------------------------------------------------------------------
# What 000 uses of std: str methods that Python has otherwise.

ASCII_CAPITALS = {lower: lower - 32 for lower in range(ord("a"), ord("z") + 1)}


def to_ascii_uppercase(text):
    """str::to_ascii_uppercase: a to z only (Python's upper() does more)."""
    return text.translate(ASCII_CAPITALS)


def split_whitespace(text):
    """str::split_whitespace, lazily: the words between White_Space runs
    (Python's split() also parts at U+001C to U+001F)."""
    start = None
    for at, item in enumerate(text):
        if is_whitespace(item):
            if start is not None:
                yield text[start:at]
                start = None
        elif start is None:
            start = at
    if start is not None:
        yield text[start:]


# --------------------------------------------------------------------------
# What 000 uses of winnow. A parser is given an Input and hands back the text it
# consumed (so `.take()` is everywhere); it hands back None where it fails. One
# that is made of literals also knows the texts that it may take (`spelled`).


class Input:
    """`&mut &str`: the text and the place where the rest begins."""

    def __init__(self, text):
        self.text = text
        self.at = 0

    def rest(self):
        return self.text[self.at :]

    def next_slice(self, length):
        taken = self.text[self.at : self.at + length]
        self.at += length
        return taken


def spelled(parser):
    """Every text that a parser made of literals takes, or the arms of a match;
    what is optional is left out first"""
    if isinstance(parser, dict):
        return [text for arm in parser.values() for text in spelled(arm)]
    return parser.texts() if hasattr(parser, "texts") else []


def any_(input):
    """any: one character"""
    if input.at < len(input.text):
        return input.next_slice(1)
    return None


def eof(input):
    return "" if input.at == len(input.text) else None


def rest(input):
    return input.next_slice(len(input.text) - input.at)


def literal(text):
    """a "literal" used as a parser"""

    def parse(input):
        if input.text.startswith(text, input.at):
            return input.next_slice(len(text))
        return None

    parse.texts = lambda: [text]
    return parse


def caseless(text):
    """Caseless("TEXT"): without ASCII case"""

    def parse(input):
        here = input.text[input.at : input.at + len(text)]
        if to_ascii_uppercase(here) == to_ascii_uppercase(text):
            return input.next_slice(len(text))
        return None

    return parse


def one_of(test):
    """one_of: one character that passes"""

    def parse(input):
        if input.at < len(input.text) and test(input.text[input.at]):
            return input.next_slice(1)
        return None

    return parse


def take_while(least, most, test):
    """take_while(least..=most, test): the longest run, no longer than `most`
    (None: no bound); fails where it is shorter than `least`"""

    def parse(input):
        end = input.at
        while (
            end < len(input.text)
            and (most is None or end - input.at < most)
            and test(input.text[end])
        ):
            end += 1
        if end - input.at < least:
            return None
        return input.next_slice(end - input.at)

    return parse


def take_exactly(count):
    """take(count)"""

    def parse(input):
        if len(input.text) - input.at < count:
            return None
        return input.next_slice(count)

    return parse


def take_until(least, text):
    """take_until(least.., text): up to the first occurrence, which must not lie
    before `least`; no later occurrence is tried"""

    def parse(input):
        found = input.text.find(text, input.at)
        if found < 0 or found - input.at < least:
            return None
        return input.next_slice(found - input.at)

    return parse


def is_ascii_digit(item):
    return "0" <= item <= "9"


digit0 = take_while(0, None, is_ascii_digit)
digit1 = take_while(1, None, is_ascii_digit)


def till_line_ending(input):
    """up to the first CR or LF, or the end; fails where that is a CR which no
    LF follows"""
    taken = take_while(0, None, lambda item: item not in "\r\n")(input)
    here = input.rest()[:2]
    if here.startswith("\r") and here != "\r\n":
        return None
    return taken


def alt(*parsers):
    """alt: the first that succeeds; the input is reset after each failure"""

    def parse(input):
        start = input.at
        for parser in parsers:
            result = parser(input)
            if result is not None:
                return result
            input.at = start
        return None

    parse.texts = lambda: [text for parser in parsers for text in spelled(parser)]
    return parse


def opt(parser):
    """opt: never fails; where the parser succeeds it is not asked again"""

    def parse(input):
        start = input.at
        result = parser(input)
        if result is None:
            input.at = start
            return ""
        return result

    parse.texts = lambda: ["", *spelled(parser)]
    return parse


def peek(parser):
    """peek: consumes nothing"""

    def parse(input):
        start = input.at
        result = parser(input)
        input.at = start
        return None if result is None else result

    return parse


def seq(*parsers):
    """a tuple of parsers, `.take()`n: all of them, one after the other"""

    def parse(input):
        start = input.at
        for parser in parsers:
            if parser(input) is None:
                return None
        return input.text[start : input.at]

    parse.texts = lambda: ["".join(texts) for texts in product(*map(spelled, parsers))]
    return parse


def terminated(parser, after):
    """terminated: both must succeed, the first one's text is handed back"""

    def parse(input):
        result = parser(input)
        if result is None or after(input) is None:
            return None
        return result

    parse.texts = lambda: spelled(parser)
    return parse


def fail(input):
    return None


# --------------------------------------------------------------------------
# Token, TokenKind, PlaceholderKind, Dialect

(
    TYPE_SPECIFIER,
    WHITESPACE,
    STRING,
    RESERVED,
    RESERVED_TOP_LEVEL,
    RESERVED_TOP_LEVEL_NO_INDENT,
    RESERVED_NEWLINE,
    RESERVED_NEWLINE_AFTER,
    OPERATOR,
    OPEN_PAREN,
    CLOSE_PAREN,
    LINE_COMMENT,
    BLOCK_COMMENT,
    NUMBER,
    PLACEHOLDER,
    WORD,
    JOIN,
) = range(17)

GENERIC, POSTGRESQL, SQLSERVER = range(3)


class Token:
    """`escaped` is how many quotes take_till_escaping passed as escaped on its way
    to the token's closing quote (document 02, request [2])."""

    def __init__(self, kind, value, key=None, alias=None, escaped=0):
        self.kind = kind
        self.value = value
        self.key = key
        self.alias = value if alias is None else alias
        self.escaped = escaped


class Named:
    """PlaceholderKind::Named. `offset` is where the key's text begins in the
    token's value, `text` that part of it, `key` the Rust's key: the text with
    its escapes undone."""

    def __init__(self, offset, text, key):
        self.offset = offset
        self.text = text
        self.key = key


class ZeroIndexed:
    def __init__(self, index):
        self.index = index


class OneIndexed:
    def __init__(self, index):
        self.index = index


# --------------------------------------------------------------------------
# 000, in its order (end_of_word and is_word_character stand before their use)


def is_word_character(item):
    return is_alphanumeric(item) or is_mark(item) or is_punctuation_connector(item)


end_of_word = peek(alt(eof, one_of(lambda val: not is_word_character(val))))


@lru_cache(maxsize=16)  # a text is often asked for again at once, with other room lent
def tokenize_text(text, named_placeholders, dialect, joins_as_top_level):
    """000's tokenize: the tokens of a text"""
    input = Input(text)
    tokens = []

    last_non_whitespace_token = None
    last_reserved_token = None
    last_reserved_top_level_token = None

    result = get_whitespace_token(input)
    if result is not None:
        tokens.append(result)

    # Keep processing the string until it is empty
    while True:
        result = get_next_token(
            input,
            last_non_whitespace_token,
            last_reserved_token,
            last_reserved_top_level_token,
            named_placeholders,
            dialect,
        )
        if result is None:
            break

        if result.kind == RESERVED:
            last_reserved_token = result
        elif result.kind == RESERVED_TOP_LEVEL:
            last_reserved_top_level_token = result
        elif result.kind == JOIN:
            # A clone in the Rust; nothing else holds this token yet.
            if joins_as_top_level:
                result.kind = RESERVED_TOP_LEVEL
            else:
                result.kind = RESERVED_NEWLINE

        if result.kind != WHITESPACE:
            last_non_whitespace_token = result

        tokens.append(result)

        result = get_whitespace_token(input)
        if result is not None:
            tokens.append(result)

    return tokens


def get_next_token(
    input,
    previous_token,
    last_reserved_token,
    last_reserved_top_level_token,
    named_placeholders,
    dialect,
):
    return alt(
        alt(
            get_comment_token,
            lambda input: get_type_specifier_token(input, previous_token),
            lambda input: get_string_token(input, dialect),
            lambda input: get_open_paren_token(input, dialect),
            lambda input: get_close_paren_token(input, dialect),
            get_number_token,
        ),
        alt(
            lambda input: get_reserved_word_token(
                input,
                previous_token,
                last_reserved_token,
                last_reserved_top_level_token,
            ),
            get_operator_token,
            lambda input: get_placeholder_token(input, named_placeholders, dialect),
            get_word_token,
            get_any_other_char,
        ),
    )(input)


def get_type_specifier_token(input, previous_token):
    if previous_token is not None and previous_token.kind not in (
        CLOSE_PAREN,
        PLACEHOLDER,
        RESERVED,
        STRING,
        NUMBER,
        TYPE_SPECIFIER,
        WORD,
    ):
        return None
    token = alt(literal("::"), literal("[]"))(input)
    if token is None:
        return None
    return Token(TYPE_SPECIFIER, token)


def get_whitespace_token(input):
    token = take_while(1, None, is_whitespace)(input)
    if token is None:
        return None
    return Token(WHITESPACE, token)


def get_comment_token(input):
    start = input.at
    first = any_(input)
    if first == "#":
        kind, arm = LINE_COMMENT, till_line_ending
    elif first == "-":
        kind, arm = LINE_COMMENT, seq(literal("-"), till_line_ending)
    elif first == "/":
        kind, arm = BLOCK_COMMENT, seq(
            literal("*"),
            alt(take_until(0, "*/"), rest),
            opt(take_exactly(2)),
        )
    else:
        return None
    if arm(input) is None:
        return None
    return Token(kind, input.text[start : input.at])


def take_till_escaping(desired, escapes):
    """The text before the first `desired` that no escape stands before; all the
    rest where there is none. An escape and the `desired` after it are passed
    together; `pairs` says how often in the last parse."""

    def parse(input):
        parse.pairs = 0
        chars = input.rest()
        pos = 0
        while True:
            if pos == len(chars):
                return rest(input)
            item = chars[pos]
            following = chars[pos + 1] if pos + 1 < len(chars) else None
            # escape?
            if item in escapes and following == desired:
                # consume this and next char
                parse.pairs += 1
                pos += 2
                continue
            if item == desired:
                return input.next_slice(pos)
            pos += 1

    return parse


def get_string_token(input, dialect):
    start = input.at
    first = any_(input)
    before = ()
    if first == "`":
        till = take_till_escaping("`", ("`",))
    elif first == "[" and dialect == SQLSERVER:
        till = take_till_escaping("]", ("]",))
    elif first == '"':
        till = take_till_escaping('"', ('"', "\\"))
    elif first == "'":
        till = take_till_escaping("'", ("'", "\\"))
    elif first == "N":
        before, till = (literal("'"),), take_till_escaping("'", ("'", "\\"))
    elif first == "E":
        before, till = (literal("'"),), take_till_escaping("'", ("'", "\\"))
    elif first == "x":
        before, till = (literal("'"),), take_till_escaping("'", ())
    elif first == "X":
        before, till = (literal("'"),), take_till_escaping("'", ())
    else:
        return None
    if seq(*before, till, any_)(input) is None:
        return None
    return Token(STRING, input.text[start : input.at], escaped=till.pairs)


def get_placeholder_string_token(input, dialect):
    """Like above but it doesn't replace double quotes"""
    start = input.at
    first = any_(input)
    before = ()
    if first == "`":
        till = take_till_escaping("`", ("`",))
    elif first == "[" and dialect == SQLSERVER:
        till = take_till_escaping("]", ("]",))
    elif first == '"':
        till = take_till_escaping('"', ("\\",))
    elif first == "'":
        till = take_till_escaping("'", ("\\",))
    elif first == "N":
        before, till = (literal("'"),), take_till_escaping("'", ("\\",))
    else:
        return None
    if seq(*before, till, any_)(input) is None:
        return None
    return Token(STRING, input.text[start : input.at], escaped=till.pairs)


def get_open_paren_token(input, dialect):
    case = terminated(caseless("CASE"), end_of_word)
    if dialect == POSTGRESQL:
        open_paren = (literal("("), literal("["), case)
    else:
        open_paren = (literal("("), literal("("), case)
    token = alt(*open_paren)(input)
    if token is None:
        return None
    return Token(OPEN_PAREN, token)


def get_close_paren_token(input, dialect):
    end_case = seq(
        caseless("END"),
        take_while(1, None, is_whitespace),
        caseless("CASE"),
        end_of_word,
    )
    end = terminated(caseless("END"), end_of_word)
    if dialect == POSTGRESQL:
        close_paren = (literal(")"), literal("]"), end_case, end)
    else:
        close_paren = (literal(")"), literal(")"), end_case, end)
    token = alt(*close_paren)(input)
    if token is None:
        return None
    return Token(CLOSE_PAREN, token)


def get_placeholder_token(input, named_placeholders, dialect):
    # The precedence changes based on 'named_placeholders' but not the
    # exhaustiveness.
    if named_placeholders:
        return alt(
            get_ident_named_placeholder_token,
            lambda input: get_string_named_placeholder_token(input, dialect),
            get_indexed_placeholder_token,
            get_braced_named_placeholder_token,
        )(input)
    return alt(
        get_indexed_placeholder_token,
        get_ident_named_placeholder_token,
        lambda input: get_string_named_placeholder_token(input, dialect),
        get_braced_named_placeholder_token,
    )(input)


def get_indexed_placeholder_token(input):
    token = alt(
        seq(one_of(lambda item: item in "?$"), digit1),
        literal("?"),
    )(input)
    if token is None:
        return None
    key = None
    if len(token) > 1:
        # parse::<usize>() with 64 bits: digits alone stand here, so it fails
        # only where the number is too large. (2^64 has 20 digits; Python's int()
        # refuses very long texts.)
        digits = token[1:].lstrip("0") or "0"
        index = int(digits) if len(digits) <= 20 else 2**64
        if index < 2**64:
            if token.startswith("$"):
                key = OneIndexed(index)
            else:
                key = ZeroIndexed(index)
    return Token(PLACEHOLDER, token, key)


def get_ident_named_placeholder_token(input):
    token = seq(
        one_of(lambda item: item in "@:$"),
        take_while(
            1,
            None,
            lambda item: is_alphanumeric(item)
            or item == "."
            or item == "_"
            or item == "$",
        ),
    )(input)
    if token is None:
        return None
    index = token[1:]
    return Token(PLACEHOLDER, token, Named(1, index, index))


def get_braced_named_placeholder_token(input):
    start = input.at
    # delimited('{', take_until(1.., '}'), '}').with_taken()
    if literal("{")(input) is None:
        return None
    index = take_until(1, "}")(input)
    if index is None:
        return None
    if literal("}")(input) is None:
        return None
    token = input.text[start : input.at]
    return Token(PLACEHOLDER, token, Named(1, index, index))


def get_string_named_placeholder_token(input, dialect):
    mark = one_of(lambda item: item in "@:")(input)
    string = None if mark is None else get_placeholder_string_token(input, dialect)
    if string is None:
        return None
    token = mark + string.value
    text = token[2 : len(token) - 1]
    index = get_escaped_placeholder_key(text, token[len(token) - 1 :])
    return Token(PLACEHOLDER, token, Named(2, text, index), escaped=string.escaped)


def get_escaped_placeholder_key(key, quote_char):
    return key.replace("\\" + quote_char, quote_char)


def get_number_token(input):
    token = seq(
        opt(literal("-")),
        alt(scientific_notation, decimal_number, digit1),
    )(input)
    if token is None:
        return None
    return Token(NUMBER, token)


def decimal_number(input):
    return seq(digit1, literal("."), digit0)(input)


def scientific_notation(input):
    return seq(
        alt(decimal_number, digit1),
        literal("e"),
        opt(one_of(lambda item: item in "-+")),
        digit1,
    )(input)


def get_reserved_word_token(
    input, previous_token, last_reserved_token, last_reserved_top_level_token
):
    # A reserved word cannot be preceded by a "."
    # this makes it so in "my_table.from", "from" is not considered a reserved word
    if previous_token is not None:
        if previous_token.value == ".":
            return None

    first = input.text[input.at : input.at + 1] or "\0"
    if not ("a" <= first <= "z" or "A" <= first <= "Z" or first == "$"):
        return None

    return alt(
        get_top_level_reserved_token(last_reserved_top_level_token),
        get_newline_after_reserved_token(),
        get_newline_reserved_token(last_reserved_token),
        get_join_token(),
        get_top_level_reserved_token_no_indent,
        get_plain_reserved_token,
    )(input)


def get_uc_words(text, words):
    return to_ascii_uppercase(" ".join(islice(split_whitespace(text), words)))


def finalize(input, token):
    final_word = token
    for word in split_whitespace(token):
        final_word = word
    found = to_ascii_uppercase(input.rest()).find(final_word)
    input_end_pos = (0 if found < 0 else found) + len(final_word)
    return input.next_slice(input_end_pos)


def words_end(phrase):
    """terminated("PHRASE", end_of_word), which 000 writes many times over"""
    return terminated(literal(phrase), end_of_word)


creatable = alt(
    literal("AGGREGATE"),
    literal("FUNCTION"),
    literal("LANGUAGE"),
    literal("PROCEDURE"),
    literal("RULE"),
    literal("TRIGGER"),
    literal("VIEW"),
)
alterable_or_droppable = alt(creatable, literal("TABLE"), literal("INDEX"))

# The arms of get_top_level_reserved_token, by the first letter
TOP_LEVEL = {
    "A": alt(
        words_end("AFTER"),
        terminated(seq(literal("ALTER "), alterable_or_droppable), end_of_word),
    ),
    "C": terminated(
        seq(
            literal("CREATE "),
            alt(
                seq(opt(literal("OR REPLACE ")), creatable),
                seq(opt(literal("UNIQUE ")), literal("INDEX")),
                seq(
                    opt(
                        alt(
                            literal("UNLOGGED "),
                            seq(
                                alt(literal("GLOBAL "), literal("LOCAL ")),
                                opt(alt(literal("TEMPORARY "), literal("TEMP "))),
                            ),
                        )
                    ),
                    literal("TABLE"),
                ),
            ),
        ),
        end_of_word,
    ),
    "D": alt(
        words_end("DELETE FROM"),
        terminated(
            seq(
                literal("DROP "),
                alterable_or_droppable,
                opt(literal(" IF EXISTS")),
            ),
            end_of_word,
        ),
    ),
    "E": words_end("EXCEPT"),
    "F": alt(
        words_end("FETCH FIRST"),
        words_end("FROM"),
        terminated(
            seq(
                literal("FOR "),
                alt(
                    literal("UPDATE"),
                    literal("NO KEY UPDATE"),
                    literal("SHARE"),
                    literal("KEY SHARE"),
                ),
            ),
            end_of_word,
        ),
    ),
    "G": alt(words_end("GROUP BY"), words_end("GO")),
    "H": words_end("HAVING"),
    "I": alt(words_end("INSERT INTO"), words_end("INSERT")),
    "L": words_end("LIMIT"),
    "M": alt(words_end("MODIFY"), words_end("MERGE INTO")),
    "O": alt(words_end("ORDER BY"), words_end("ON CONFLICT")),
    "P": words_end("PARTITION BY"),
    "R": words_end("RETURNING"),
    "S": alt(
        words_end("SELECT DISTINCT"),
        words_end("SELECT ALL"),
        words_end("SELECT"),
        words_end("SET CURRENT SCHEMA"),
        words_end("SET SCHEMA"),
        words_end("SET"),
    ),
    "U": alt(words_end("UPDATE"), words_end("USING")),
    "V": words_end("VALUES"),
    "W": alt(words_end("WHERE"), words_end("WINDOW")),
}


def get_top_level_reserved_token(last_reserved_top_level_token):
    def parse(input):
        uc_input = Input(get_uc_words(input.rest(), 4))

        # First peek at the first character to determine which group to check
        first_char = peek(any_)(input)
        if first_char is None:
            return None
        first_char = to_ascii_uppercase(first_char)

        # If the first character doesn't match any of our keywords, fail early
        group = TOP_LEVEL.get(first_char, fail)

        token = group(uc_input)
        if token is None:
            return None

        token = finalize(input, token)

        alias = None
        if last_reserved_top_level_token is not None:
            alias = last_reserved_top_level_token.alias
        if token == "EXCEPT" and alias == "SELECT":
            # If the query state doesn't allow EXCEPT, treat it as a reserved word
            kind = RESERVED
        elif token == "SET" and alias == "UPDATE":
            kind = RESERVED_NEWLINE_AFTER
        elif token == "USING" and alias != "MERGE INTO" and alias != "DELETE FROM":
            kind = RESERVED
        else:
            kind = RESERVED_TOP_LEVEL

        if token.startswith("CREATE"):
            alias = "CREATE"
        elif token.startswith("SELECT"):
            alias = "SELECT"
        else:
            alias = token

        return Token(kind, token, None, alias)

    return parse


# Standard SQL joins
standard_joins = alt(
    words_end("JOIN"),
    words_end("INNER JOIN"),
    words_end("LEFT JOIN"),
    words_end("RIGHT JOIN"),
    words_end("FULL JOIN"),
    words_end("CROSS JOIN"),
    words_end("LEFT OUTER JOIN"),
    words_end("RIGHT OUTER JOIN"),
    words_end("FULL OUTER JOIN"),
)
# Warehouse-specific ANY/SEMI/ANTI joins
specific_joins = alt(
    words_end("INNER ANY JOIN"),
    words_end("LEFT ANY JOIN"),
    words_end("RIGHT ANY JOIN"),
    words_end("ANY JOIN"),
    words_end("SEMI JOIN"),
    words_end("LEFT SEMI JOIN"),
    words_end("RIGHT SEMI JOIN"),
    words_end("LEFT ANTI JOIN"),
    words_end("RIGHT ANTI JOIN"),
)
# Special joins and GLOBAL variants
special_joins = alt(
    words_end("ASOF JOIN"),
    words_end("LEFT ASOF JOIN"),
    words_end("PASTE JOIN"),
    words_end("GLOBAL INNER JOIN"),
    words_end("GLOBAL LEFT JOIN"),
    words_end("GLOBAL RIGHT JOIN"),
    words_end("GLOBAL FULL JOIN"),
)
JOINS = alt(standard_joins, specific_joins, special_joins)


def get_join_token():
    def parse(input):
        uc_input = Input(get_uc_words(input.rest(), 3))
        token = JOINS(uc_input)
        if token is None:
            return None
        final_word = token.split(" ")[-1]
        input_end_pos = to_ascii_uppercase(input.rest()).index(final_word) + len(final_word)
        return Token(JOIN, input.next_slice(input_end_pos))

    return parse


ON_CONFLICT = words_end("DO UPDATE SET")


def get_newline_after_reserved_token():
    def parse(input):
        uc_input = Input(get_uc_words(input.rest(), 3))
        token = ON_CONFLICT(uc_input)
        if token is None:
            return None
        return Token(RESERVED_NEWLINE_AFTER, finalize(input, token))

    return parse


# Legacy and logical operators
operators = alt(
    words_end("CROSS APPLY"),
    words_end("OUTER APPLY"),
    words_end("AND"),
    words_end("OR"),
    words_end("XOR"),
    words_end("WHEN"),
    words_end("ELSE"),
)
alter_table_actions = alt(
    words_end("ADD"),
    words_end("DROP"),
    words_end("ALTER"),
    words_end("VALIDATE"),
    words_end("ENABLE"),
    words_end("DISABLE"),
)
NEWLINE = alt(operators, alter_table_actions)


def get_newline_reserved_token(last_reserved_token):
    def parse(input):
        uc_input = Input(get_uc_words(input.rest(), 3))
        token = NEWLINE(uc_input)
        if token is None:
            return None
        token = finalize(input, token)
        if (
            token == "AND"
            and last_reserved_token is not None
            and last_reserved_token.value == "BETWEEN"
        ):
            # If the "AND" is part of a "BETWEEN" clause, we want to handle it as
            # one clause by not adding a new line.
            kind = RESERVED
        else:
            kind = RESERVED_NEWLINE
        return Token(kind, token)

    return parse


NO_INDENT = alt(
    words_end("BEGIN"),
    words_end("DECLARE"),
    words_end("INTERSECT ALL"),
    words_end("INTERSECT"),
    words_end("MINUS"),
    words_end("UNION ALL"),
    words_end("UNION"),
    words_end("WITH"),
    words_end("$$"),
)


def get_top_level_reserved_token_no_indent(input):
    uc_input = Input(get_uc_words(input.rest(), 2))
    token = NO_INDENT(uc_input)
    if token is None:
        return None
    return Token(RESERVED_TOP_LEVEL_NO_INDENT, finalize(input, token))


def get_plain_reserved_token(input):
    return alt(get_plain_reserved_two_token, get_plain_reserved_one_token)(input)


# 000's lists of get_plain_reserved_one_token, in its order, duplicates and all.
PLAIN_WORDS = {
    "A": """
        ACCESSIBLE ACTION AGAINST AGGREGATE ALGORITHM ALL ALTER ANALYSE ANALYZE
        AS ASC AUTOCOMMIT AUTO_INCREMENT
    """,
    "B": "BACKUP BETWEEN BINLOG BOTH",
    "C": """
        CASCADE CASE CHANGE CHANGED CHARSET CHECK CHECKSUM COLLATE COLLATION
        COLUMN COLUMNS COMMENT COMMIT COMMITTED COMPRESSED CONCURRENT CONSTRAINT
        CONTAINS CONVERT CREATE CROSS CURRENT_TIMESTAMP
    """,
    "D": """
        DATABASE DATABASES DAY DAY_HOUR DAY_MINUTE DAY_SECOND DEFAULT DEFINER
        DELAYED DELETE DESC DESCRIBE DETERMINISTIC DISTINCT DISTINCTROW DIV DO
        DROP DUMPFILE DUPLICATE DYNAMIC
    """,
    "E": """
        ELSE ENCLOSED END ENGINE ENGINES ENGINE_TYPE ESCAPE ESCAPED EVENTS EXEC
        EXECUTE EXISTS EXPLAIN EXTENDED
    """,
    "F": """
        FAST FETCH FIELDS FILE FIRST FIXED FLUSH FOR FORCE FOREIGN FULL FULLTEXT
        FUNCTION
    """,
    "G": "GLOBAL GRANT GRANTS GROUP_CONCAT",
    "H": "HEAP HIGH_PRIORITY HOSTS HOUR HOUR_MINUTE HOUR_SECOND",
    "I": """
        IDENTIFIED IF IFNULL IGNORE IN INDEX INDEXES INFILE INSERT INSERT_ID
        INSERT_METHOD INTERVAL INTO INVOKER IS ISOLATION
    """,
    "K": "KEY KEYS KILL",
    "L": """
        LAST_INSERT_ID LEADING LEVEL LIKE LINEAR LINES LOAD LOCAL LOCK LOCKS
        LOGS LOW_PRIORITY
    """,
    "M": """
        MARIA MASTER MASTER_CONNECT_RETRY MASTER_HOST MASTER_LOG_FILE MATCH
        MAX_CONNECTIONS_PER_HOUR MAX_QUERIES_PER_HOUR MAX_ROWS
        MAX_UPDATES_PER_HOUR MAX_USER_CONNECTIONS MEDIUM MERGE MINUTE
        MINUTE_SECOND MIN_ROWS MODE MODIFY MONTH MRG_MYISAM MYISAM
    """,
    "N": "NAMES NATURAL NOT NOW() NULL",
    "O": "OFFSET ON ONLY OPEN OPTIMIZE OPTION OPTIONALLY OUTFILE",
    "P": """
        PACK_KEYS PAGE PARTIAL PARTITION PARTITIONS PASSWORD PRIMARY PRIVILEGES
        PROCEDURE PROCESS PROCESSLIST PURGE
    """,
    "Q": "QUICK",
    "R": """
        RAID0 RAID_CHUNKS RAID_CHUNKSIZE RAID_TYPE RANGE READ READ_ONLY
        READ_WRITE REFERENCES REGEXP RELOAD RENAME REPAIR REPEATABLE REPLACE
        REPLICATION RESET RESTORE RESTRICT RETURN RETURNS REVOKE RLIKE ROLLBACK
        ROW ROWS ROW_FORMAT
    """,
    "S": """
        SECOND SECURITY SEPARATOR SERIALIZABLE SESSION SHARE SHOW SHUTDOWN SLAVE
        SONAME SOUNDS SQL SQL_AUTO_IS_NULL SQL_BIG_RESULT SQL_BIG_SELECTS
        SQL_BIG_TABLES SQL_BUFFER_RESULT SQL_CACHE SQL_CALC_FOUND_ROWS
        SQL_LOG_BIN SQL_LOG_OFF SQL_LOG_UPDATE SQL_LOW_PRIORITY_UPDATES
        SQL_MAX_JOIN_SIZE SQL_NO_CACHE SQL_QUOTE_SHOW_CREATE SQL_BIG_RESULT
        SQL_BIG_SELECTS SQL_BIG_TABLES SQL_BUFFER_RESULT SQL_CACHE
        SQL_CALC_FOUND_ROWS SQL_LOG_BIN SQL_LOG_OFF SQL_LOG_UPDATE
        SQL_LOW_PRIORITY_UPDATES SQL_MAX_JOIN_SIZE SQL_NO_CACHE
        SQL_QUOTE_SHOW_CREATE SQL_SAFE_UPDATES SQL_SELECT_LIMIT
        SQL_SLAVE_SKIP_COUNTER SQL_SMALL_RESULT SQL_WARNINGS START STARTING
        STATUS STOP STORAGE STRAIGHT_JOIN STRING STRIPED SUPER
    """,
    "T": """
        TABLE TABLES TEMPORARY TERMINATED THEN TO TRAILING TRANSACTIONAL TRUE
        TRUNCATE TYPE TYPES TBLPROPERTIES
    """,
    "U": "UNCOMMITTED UNIQUE UNLOCK UNSIGNED USAGE USE",
    "V": "VARIABLES VIEW",
    "W": "WHEN WORK WRITE",
    "Y": "YEAR_MONTH",
}
PLAIN_ONE = {letter: alt(*map(words_end, words.split())) for letter, words in PLAIN_WORDS.items()}


def get_plain_reserved_one_token(input):
    uc_input = Input(get_uc_words(input.rest(), 1))

    first_char = peek(any_)(input)
    if first_char is None:
        return None
    first_char = to_ascii_uppercase(first_char)

    # If the first character doesn't match any of our keywords, fail early
    token = PLAIN_ONE.get(first_char, fail)(uc_input)
    if token is None:
        return None
    # No finalize here: the phrase is one word, at the front of the rest.
    return Token(RESERVED, input.next_slice(len(token)))


PLAIN_TWO = alt(
    words_end("CHARACTER SET"),
    words_end("DO NOTHING"),
    words_end("ON CONFLICT"),
    words_end("ON CONSTRAINT"),
    words_end("ON DELETE"),
    words_end("ON UPDATE"),
    words_end("DISTINCT FROM"),
    words_end("PARTITIONED BY"),
)


def get_plain_reserved_two_token(input):
    uc_input = Input(get_uc_words(input.rest(), 2))
    token = PLAIN_TWO(uc_input)
    if token is None:
        return None
    return Token(RESERVED, finalize(input, token))


def get_word_token(input):
    token = take_while(1, None, is_word_character)(input)
    if token is None:
        return None
    return Token(WORD, token)


def get_operator_token(input):
    allowed_operators = "!<>=|:-~*&@^?#/%"
    token = take_while(2, 5, lambda item: item in allowed_operators)(input)
    if token is None:
        return None
    return Token(OPERATOR, token)


def get_any_other_char(input):
    token = one_of(lambda token: token != "\n" and token != "\r")(input)
    if token is None:
        return None
    return Token(OPERATOR, token)


# --------------------------------------------------------------------------
# Document 01: the records, and what the server is told


def byte_length(text):
    return len(text.encode("utf-8"))


def records(tokens):
    """The first seven words of each token's record: kind, start, length, alias length, key
    kind, key a, key b; places and lengths in bytes."""
    listed = []
    start = 0
    for token in tokens:
        key = token.key
        if key is None:
            key_words = (0, 0, 0)
        elif isinstance(key, Named):
            # Kind 2 exactly where there are escapes to undo: where the key's
            # text holds a backslash directly before the closing quote
            # character. replace() then changes it, and only then.
            key_kind = 1 if key.key == key.text else 2
            key_start = start + byte_length(token.value[: key.offset])
            key_words = (key_kind, key_start, byte_length(key.text))
        else:
            key_kind = 3 if isinstance(key, ZeroIndexed) else 4
            key_words = (key_kind, key.index >> 32, key.index & 0xFFFFFFFF)
        length = byte_length(token.value)
        listed.append((token.kind, start, length, byte_length(token.alias)) + key_words)
        start += length
    return listed


def tokens_of(statement, dialect, joins, named):
    """The tokens of a statement (bytes, UTF-8) under accepted settings."""
    return tokenize_text(statement.decode("utf-8"), named == 1, dialect, joins == 1)


def tokenize(statement, dialect, joins, named):
    """Their records."""
    return records(tokens_of(statement, dialect, joins, named))


def first_ill_formed(statement):
    """The start of the first ill-formed sequence, or None: Unicode's table of
    well-formed UTF-8 byte sequences (3-7), row by row."""
    # first byte from, to; then from, to of each byte that must follow
    table = (
        (0x00, 0x7F, ()),
        (0xC2, 0xDF, ((0x80, 0xBF),)),
        (0xE0, 0xE0, ((0xA0, 0xBF), (0x80, 0xBF))),
        (0xE1, 0xEC, ((0x80, 0xBF), (0x80, 0xBF))),
        (0xED, 0xED, ((0x80, 0x9F), (0x80, 0xBF))),
        (0xEE, 0xEF, ((0x80, 0xBF), (0x80, 0xBF))),
        (0xF0, 0xF0, ((0x90, 0xBF), (0x80, 0xBF), (0x80, 0xBF))),
        (0xF1, 0xF3, ((0x80, 0xBF), (0x80, 0xBF), (0x80, 0xBF))),
        (0xF4, 0xF4, ((0x80, 0x8F), (0x80, 0xBF), (0x80, 0xBF))),
    )
    at = 0
    while at < len(statement):
        for first, last, following in table:
            if first <= statement[at] <= last:
                break
        else:
            return at
        for offset, (low, high) in enumerate(following, 1):
            if at + offset >= len(statement):
                return at
            if not low <= statement[at + offset] <= high:
                return at
        at += 1 + len(following)
    return None


def answer(statement, dialect, joins, named, records_lent):
    """Number, detail, escaped quotes and records of the call tokenise."""
    if dialect not in (0, 1, 2) or joins not in (0, 1) or named not in (0, 1):
        return 3, 0, 0, []
    if len(statement) > 65536:
        return 1, len(statement), 0, []
    ill_formed = first_ill_formed(statement)
    if ill_formed is not None:
        return 2, ill_formed, 0, []
    tokens = tokens_of(statement, dialect, joins, named)
    if records_lent < len(tokens):
        return 4, len(tokens), 0, []
    return 0, len(tokens), sum(token.escaped for token in tokens), records(tokens)


def main(arguments):
    settings = [int(argument) for argument in arguments]
    settings += [0] * (3 - len(settings))
    statement = sys.stdin.buffer.read()
    number, detail, _, listed = answer(statement, *settings, 65536)
    if number != 0:
        print(f"refused {number}")
        return
    print(f"tokens {detail}")
    for record in listed:
        print(*record)


if __name__ == "__main__":
    main(sys.argv[1:])
