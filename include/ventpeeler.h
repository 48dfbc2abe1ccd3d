/*
 * Ventpeeler: reads a planner's search, written as SQL, into tokens; makes its tight text; puts values in for its
 * placeholders. C99 and C++. Link target/staticlib/libventpeeler.a (Linux on x86-64-v2, that is, with SSE4.2 and POPCNT); it
 * needs no library but C's.
 *
 *     ventpeeler_tokenize   the tokens, as records of VENTPEELER_RECORD_BYTES
 *     ventpeeler_tighten    the tight text, a key for the search
 *     ventpeeler_fill       the search with the values of a sheet put in
 *
 * EVERY CALL
 *
 * Every call ends, whatever the bytes and numbers given, and gives one answer: a number and a detail
 * (ventpeeler_number, ventpeeler_detail). tokenize's tells the escaped quotes too (ventpeeler_escaped).
 *
 *     No.                         Condition                                      Detail
 *     0 VENTPEELER_DONE           accepted                                       tokens, or bytes of text, written
 *     1 VENTPEELER_OVERLONG       the statement has more than 65,536 bytes       its length (2^56 - 1 if it is above that)
 *     2 VENTPEELER_NOT_UTF8       the statement is ill-formed UTF-8              where the first ill-formed sequence starts
 *     3 VENTPEELER_SETTING        dialect not 0 to 2, or joins or named not      0
 *                                 0 or 1
 *     4 VENTPEELER_TABLE_FULL     tokenize: fewer whole records lent than        records needed
 *                                 tokens
 *     5 VENTPEELER_SHEET          fill: the value sheet is malformed             0
 *     6 VENTPEELER_OUTPUT_FULL    tighten, fill: the output is shorter than      bytes needed
 *                                 the text
 *     8 VENTPEELER_PLACE_NOUGHT   fill, with indexed values: a placeholder       where the first such token starts
 *                                 for place 0, as `$0`
 *
 * A number stands exactly under its condition; where several hold, the first of 3, 1, 2, 5, 8, 4, 6 is given. 7 is no answer of
 * these calls. All 64 bits of a setting are judged: a dialect of 2^32 + 1 is refused.
 *
 * A refusal (all but 0) writes nothing. On success the first bytes lent are written and what lies past them is kept: past the
 * last record, or past the text, and also the odd bytes of a table that is no multiple of VENTPEELER_RECORD_BYTES. What a
 * buffer lent for writing held before makes no difference. No text is ended by a zero byte, and a zero byte is a character
 * like others.
 *
 * To learn a size first, lend no bytes: the answer is then 4 or 6 with the size, or 0 where nothing is to be written, or another
 * refusal. Sizes that always suffice: VENTPEELER_RECORD_BYTES * statement_len for the records, statement_len for the tight
 * text, statement_len * V for the filled text, V being the length of the longest value, and 1 where none is longer. A filled
 * text can be longer than the statement and all values together, since a value may be put in many times.
 *
 * POINTERS
 *
 * A pointer must lead to as many bytes as its length says; with length 0 it may be null. No alignment is needed. A buffer
 * lent for writing must not overlap any other buffer of the same call. The statement and the sheet are only read, and may be
 * shared between calls and threads. Nothing is remembered from call to call and nothing is allocated, so that any number of
 * threads may call at once, each with its own buffers for writing. One call takes less than VENTPEELER_STACK_BYTES of stack,
 * whatever the statement (1.6 KiB were measured); it does not recurse.
 *
 * TIME
 *
 * A call's time grows with the length of the statement, whatever the text says: the worst text that was found takes three times
 * as long as an ordinary search of its length. Where the room lent always suffices, by the sizes above, the statement is read
 * once; with less room it is read once before, to learn the size, and the call takes twice as long. So it does in fill with
 * indexed values, whatever the room, where a `$` stands directly before a `0` in the statement, be it in a string: it may be a
 * place nought. fill takes one step in the sheet for each value that is next in turn (`?`). A value by its name or by its place
 * (`$9000`) is looked for from the sheet's first entry on: many placeholders whose names or places stand far down a long sheet,
 * or whose names stand nowhere in it, take time that grows with the product of both lengths.
 *
 * SETTINGS
 *
 *     dialect   0 Generic, 1 PostgreSql ([ and ] are parens), 2 SQLServer ([a] is a string)
 *     joins     1: joins, as LEFT JOIN, are of kind ReservedTopLevel; 0: of kind ReservedNewline
 *     named     the order in which placeholders are tried. 1: `$1a` is the name 1a; 0: `$1`, then the word a. Usually 1 with
 *               named values and 0 with others
 *
 * The default call is 0, 0, 0. All calls for one search are to be made with the same settings.
 *
 * VERSIONS
 *
 * VENTPEELER_VERSION grows with every change that a caller must know of.
 *
 *     1   had no VENTPEELER_VERSION
 *     2   tokenize's answer under 0 holds the escaped quotes above the detail. Whoever took answer & (2^56 - 1) for the count
 *         of tokens must take ventpeeler_detail(answer), which are the low 32 bits then. All else is as it was
 *     3   a record has an eighth word, the level, and so VENTPEELER_RECORD_BYTES grew. Tables that were large enough for all
 *         tokens may be too small now; records kept from before don't fit ventpeeler_token_at
 *     4   tighten keeps a gap that returns as a CR. Tight texts of searches with a CR without LF are others than before, and are
 *         keys as good as all others now; keys kept of such searches are to be made anew. All other tight texts are as they were
 *     5   fill with indexed values answers 8 where `$0` (`$00` ..) stands, which it kept in the text before. Whoever takes each number
 *         above 6 for a fault of his own must know 8; the planner is to be told, since he mostly means `$1`. All else is as it was
 */
#ifndef VENTPEELER_H
#define VENTPEELER_H

#include <stddef.h>
#include <stdint.h>

#ifdef __cplusplus
extern "C" {
#endif

#define VENTPEELER_VERSION 5

#define VENTPEELER_STATEMENT_MOST 65536 /* bytes of a statement */
#define VENTPEELER_SHEET_LEAST 3        /* bytes of a sheet */
#define VENTPEELER_SHEET_MOST 65536
#define VENTPEELER_RECORD_BYTES 32      /* of a token */
#define VENTPEELER_STACK_BYTES 16384

enum ventpeeler_answer {
    VENTPEELER_DONE = 0,
    VENTPEELER_OVERLONG = 1,
    VENTPEELER_NOT_UTF8 = 2,
    VENTPEELER_SETTING = 3,
    VENTPEELER_TABLE_FULL = 4,
    VENTPEELER_SHEET = 5,
    VENTPEELER_OUTPUT_FULL = 6,
    VENTPEELER_PLACE_NOUGHT = 8
};

enum ventpeeler_dialect { VENTPEELER_GENERIC = 0, VENTPEELER_POSTGRESQL = 1, VENTPEELER_SQLSERVER = 2 };

/*
 * TOKENS
 *
 * The tokens' values, laid end to end, are the statement; each is at least one byte and ends between two characters. A gap
 * (a run of Unicode White_Space) is a token too.
 */
enum ventpeeler_kind {
    VENTPEELER_TYPE_SPECIFIER = 0,               /* :: or [] */
    VENTPEELER_WHITESPACE = 1,                   /* a gap */
    VENTPEELER_STRING = 2,                       /* 'a' "a" `a` N'a' E'a' x'a' X'a', and [a] in SQLServer; only if closed */
    VENTPEELER_RESERVED = 3,                     /* a reserved word or phrase of no other kind */
    VENTPEELER_RESERVED_TOP_LEVEL = 4,           /* as SELECT, ORDER BY */
    VENTPEELER_RESERVED_TOP_LEVEL_NO_INDENT = 5, /* as UNION ALL */
    VENTPEELER_RESERVED_NEWLINE = 6,             /* as OR, WHEN */
    VENTPEELER_RESERVED_NEWLINE_AFTER = 7,       /* as SET after UPDATE */
    VENTPEELER_OPERATOR = 8,                     /* up to five operator characters, or any other character */
    VENTPEELER_OPEN_PAREN = 9,                   /* ( or CASE, and [ in PostgreSql */
    VENTPEELER_CLOSE_PAREN = 10,                 /* ) or END, and ] in PostgreSql */
    VENTPEELER_LINE_COMMENT = 11,                /* from # or -- up to LF or CR LF; none where a CR without LF comes first */
    VENTPEELER_BLOCK_COMMENT = 12,               /* from the opening mark through the closing one, or to the end */
    VENTPEELER_NUMBER = 13,
    VENTPEELER_PLACEHOLDER = 14, /* ? ?1 $1 :a @a $a {a} @'a' and the like */
    VENTPEELER_WORD = 15
};

/*
 * A placeholder's key; other tokens have none.
 *
 *     0  none: `?`, or a number that does not fit 64 bits. a and b are 0
 *     1  named: the name's text is the b bytes from a on in the statement
 *     2  named, with escapes to undo: the same, and wherever a backslash stands in that text directly before a byte like the
 *        closing quote (the byte behind the text, at a + b), the backslash is left out. From the left, no byte twice. Only
 *        the string forms @'a' :"a" and the like have it, and exactly where there is something to leave out
 *     3  zero-indexed (`?1`)  a is the high and b the low half of the 64-bit number as typed
 *     4  one-indexed (`$1`)   the same
 */
enum ventpeeler_key {
    VENTPEELER_KEY_NONE = 0,
    VENTPEELER_KEY_NAMED = 1,
    VENTPEELER_KEY_ESCAPED = 2,
    VENTPEELER_KEY_ZERO_INDEXED = 3,
    VENTPEELER_KEY_ONE_INDEXED = 4
};

/*
 * A record: in the table its eight words stand in this order, 32 bits each, little-endian.
 *
 * The level of a token is how many OpenParens are open before it: it starts at 0, an OpenParen raises it by 1 for what follows, a
 * CloseParen lowers it by 1 for what follows, unless it is 0. So a paren and the one that closes it differ by 1, and a gap has
 * a level too. CASE and END count, and [ and ] in PostgreSql.
 */
struct ventpeeler_token {
    uint32_t kind;         /* enum ventpeeler_kind */
    uint32_t start;        /* of the value, in bytes from the statement's start */
    uint32_t length;       /* of the value, in bytes */
    uint32_t alias_length; /* the value's first part that stands for the whole phrase: 6 for phrases typed with CREATE or
                              SELECT in capitals, as SELECT DISTINCT; else the length */
    uint32_t key;          /* enum ventpeeler_key */
    uint32_t a;
    uint32_t b;
    uint32_t level;
};

/*
 * Writes a record for each token. A table holds records_len / VENTPEELER_RECORD_BYTES records. The answer tells besides how
 * many quotes are escaped in the tokens written, at most 32,768 (ventpeeler_escaped): in Strings a doubled quote, as 'a''b'
 * and [a]]b], and in single and double quotes also one behind a backslash, as 'a\'b'; in placeholders of the form @'a' one
 * behind a backslash, and in backticks and brackets a doubled one. x'' and X'' know no escapes. What became no token counts
 * nothing.
 */
uint64_t ventpeeler_tokenize(const uint8_t *statement, size_t statement_len, uint64_t dialect, uint64_t joins, uint64_t named,
                             uint8_t *records, size_t records_len);

/*
 * THE TIGHT TEXT
 *
 * Each token's value in order. A gap becomes one LF after a line comment; else one CR where it returns, that is, where its
 * first CR or LF is a CR without LF directly behind it; else one space. A gap before the first token goes, and so does one
 * after the last, unless it became a CR. No other byte changes. `a  --x` CR LF LF ` b ` becomes `a --x` LF `b`; ` a` CR CR
 * `b` CR becomes `a` CR `b` CR; blank text becomes empty.
 *
 * It is a key for the search, and can be trusted for every accepted search: under the same settings two tight texts are
 * equal exactly when the searches have the same tokens, gaps aside, and their gaps agree in place, however wide, and in
 * whether they return. A gap before the first token does not count; one after the last counts where it returns. The tight
 * text may be kept in the search's place: it reads as the same tokens, and tightening it again gives it back.
 */
uint64_t ventpeeler_tighten(const uint8_t *statement, size_t statement_len, uint64_t dialect, uint64_t joins, uint64_t named,
                            uint8_t *output, size_t output_len);

/*
 * THE VALUE SHEET
 *
 * 3 to 65,536 bytes:
 *
 *     kind      1 byte     enum ventpeeler_values: 0 no values, 1 named, 2 indexed
 *     count     2 bytes    entries, little-endian; 0 where the kind is 0
 *     lengths   for each entry: of its name (named only), of its value; 2 bytes each, little-endian
 *     bodies    for each entry, in the same order: its name (named only), its value
 *
 * The bodies fill the sheet exactly, and each by itself is UTF-8. Names and values may be empty, and a name may stand more
 * than once: its first entry counts. Anything else is malformed. The indexed values `7` and `8`, in hexadecimal:
 *
 *     02  02 00  01 00  01 00  37  38
 *
 * THE FILLED TEXT
 *
 * All token values in order, gaps as they are, each Placeholder replaced by a value or kept:
 *
 *     no values   every placeholder is kept
 *     named       a placeholder with a key takes the value of the first entry whose name is the key's text, escapes undone;
 *                 an indexed key (`?1`, `$1`) counts as the empty name. Without such an entry, or without a key, it is kept
 *     indexed     a placeholder with a name is kept, unless the name is empty. `?n` takes value n, counted from 0, and `$n`
 *                 value n, counted from 1; with no such value it is kept. All others (`?`, a number beyond 64 bits, the empty
 *                 name of @'') take the next value in turn, or are kept past the last; only these move the turn on
 *
 * With indexed values, be there none, `$0` (`$00` ..) is a mistake, since these places count from 1: the call is refused by 8. With
 * other sheets it is not: named values take it for the empty name, as all indexed keys. With named placeholders (named 1) `$0` is
 * the name 0 and no place.
 *
 * Under the sheet above `? $2 ?` becomes `7 8 8`, and `?2` is kept. A value is put in as it is: nothing is quoted or escaped,
 * and a placeholder within a value is not filled. Inside strings and comments there are no placeholders.
 */
enum ventpeeler_values { VENTPEELER_VALUES_NONE = 0, VENTPEELER_VALUES_NAMED = 1, VENTPEELER_VALUES_INDEXED = 2 };

uint64_t ventpeeler_fill(const uint8_t *statement, size_t statement_len, uint64_t dialect, uint64_t joins, uint64_t named,
                         const uint8_t *sheet, size_t sheet_len, uint8_t *output, size_t output_len);

/* The answer is the number times 2^56, plus the escaped quotes times 2^32 where tokenize has written tokens, plus the detail. */
static inline unsigned ventpeeler_number(uint64_t answer) {
    return (unsigned)(answer >> 56);
}

/* Under 0 it has 32 bits; under a refusal 56, which an overlong statement's length may need. */
static inline uint64_t ventpeeler_detail(uint64_t answer) {
    return answer & (((uint64_t)1 << (ventpeeler_number(answer) == VENTPEELER_DONE ? 32 : 56)) - 1);
}

/* Of an answer of tokenize: how many quotes are escaped in the tokens written; 0 under a refusal. */
static inline uint64_t ventpeeler_escaped(uint64_t answer) {
    return ventpeeler_number(answer) == VENTPEELER_DONE ? answer >> 32 : 0;
}

static inline uint32_t ventpeeler_word(const uint8_t *bytes) {
    return (uint32_t)bytes[0] | (uint32_t)bytes[1] << 8 | (uint32_t)bytes[2] << 16 | (uint32_t)bytes[3] << 24;
}

/* The record at an index from 0, which must be below the count that was answered. */
static inline struct ventpeeler_token ventpeeler_token_at(const uint8_t *records, size_t index) {
    const uint8_t *record = records + index * VENTPEELER_RECORD_BYTES;
    struct ventpeeler_token token;
    token.kind = ventpeeler_word(record);
    token.start = ventpeeler_word(record + 4 * 1);
    token.length = ventpeeler_word(record + 4 * 2);
    token.alias_length = ventpeeler_word(record + 4 * 3);
    token.key = ventpeeler_word(record + 4 * 4);
    token.a = ventpeeler_word(record + 4 * 5);
    token.b = ventpeeler_word(record + 4 * 6);
    token.level = ventpeeler_word(record + 4 * 7);
    return token;
}

/* The number of an indexed key, as typed. */
static inline uint64_t ventpeeler_key_number(struct ventpeeler_token token) {
    return (uint64_t)token.a << 32 | token.b;
}

/* Writes a named key's text, escapes undone, and returns its length; `text` must have room for token.b bytes. */
static inline size_t ventpeeler_key_text(const uint8_t *statement, struct ventpeeler_token token, uint8_t *text) {
    const uint8_t *key = statement + token.a;
    size_t length = 0;
    size_t i = 0;
    if (token.key != VENTPEELER_KEY_NAMED && token.key != VENTPEELER_KEY_ESCAPED) {
        return 0;
    }
    while (i < token.b) {
        if (token.key == VENTPEELER_KEY_ESCAPED && key[i] == '\\' && i + 1 < token.b && key[i + 1] == key[token.b]) {
            i++;
        }
        text[length++] = key[i++];
    }
    return length;
}

#ifdef __cplusplus
}
#endif

#endif
