/* ventpeeler_fill through the header. All expected answers and texts are worked out by hand from documents 01 and 02. */
#include "lent.h"

/* Bytes that may hold a zero. */
struct bytes {
    const char *at;
    size_t length;
};

#define BYTES(literal)                                                                                                       \
    { literal, sizeof(literal) - 1 }

struct search {
    const char *text;
    struct settings settings;
    struct bytes sheet;
    const char *filled;
};

#define NO_VALUES BYTES("\0\0\0")
/* indexed: 7, 8 */
#define SEVEN_EIGHT                                                                                                          \
    BYTES("\2\2\0\1\0\1\0"                                                                                                   \
          "78")
/* named: a is 7, the empty name is E, a again is 9, a'b is Q */
#define NAMED                                                                                                                \
    BYTES("\1\4\0\1\0\1\0\0\0\1\0\1\0\1\0\3\0\1\0"                                                                           \
          "a7"                                                                                                               \
          "E"                                                                                                                \
          "a9"                                                                                                               \
          "a'bQ")

static const struct search searches[] = {
    {"", {0, 0, 0}, NO_VALUES, ""},
    {"", {0, 0, 0}, SEVEN_EIGHT, ""},
    {"? :a $1 ?1 @'' {a}", {0, 0, 0}, NO_VALUES, "? :a $1 ?1 @'' {a}"},
    {" a \r\n\t b ", {0, 0, 0}, SEVEN_EIGHT, " a \r\n\t b "}, /* gaps stay as they are */
    {"? $2 ?", {0, 0, 0}, SEVEN_EIGHT, "7 8 8"},
    {"?2", {0, 0, 0}, SEVEN_EIGHT, "?2"},
    {"?0 ?1", {0, 0, 0}, SEVEN_EIGHT, "7 8"},
    {"?1 ? ?0 ?", {0, 0, 0}, SEVEN_EIGHT, "8 7 7 8"}, /* ?1 and ?0 are not counted */
    {"? ? ? ?", {0, 0, 0}, SEVEN_EIGHT, "7 8 ? ?"},
    {"$3 $1 $2", {0, 0, 0}, SEVEN_EIGHT, "$3 7 8"},
    {"$0 ? $00 ?", {0, 0, 1}, SEVEN_EIGHT, "$0 7 $00 8"}, /* with named placeholders it is a name */
    {"'$0' ? -- $0", {0, 0, 0}, SEVEN_EIGHT, "'$0' 7 -- $0"},
    {"$01 ?0 :0 @0 ?", {0, 0, 0}, SEVEN_EIGHT, "7 7 :0 @0 7"},
    {"$0 ? $00", {0, 0, 0}, NO_VALUES, "$0 ? $00"},
    {":a ? {b} ?", {0, 0, 0}, SEVEN_EIGHT, ":a 7 {b} 8"}, /* names leave it too */
    {"@'' ?", {0, 0, 0}, SEVEN_EIGHT, "7 8"},             /* the empty name takes the next value */
    {"?18446744073709551616 ?", {0, 0, 0}, SEVEN_EIGHT, "7 8"},
    {"?18446744073709551615 $18446744073709551615 ?",
     {0, 0, 0},
     SEVEN_EIGHT,
     "?18446744073709551615 $18446744073709551615 7"},
    {"?4294967296 $4294967297", {0, 0, 0}, SEVEN_EIGHT, "?4294967296 $4294967297"}, /* 64 bits count, not 32 */
    {"'?' /* ? */ \"?\" ? -- ?", {0, 0, 0}, SEVEN_EIGHT, "'?' /* ? */ \"?\" 7 -- ?"},
    {"'a\\' ? '?", {0, 0, 0}, SEVEN_EIGHT, "'a\\' ? '7"}, /* the backslash keeps the string open up to the third quote */
    {"a=? b= ?", {0, 0, 0}, SEVEN_EIGHT, "a=? b= 7"},     /* =? is an operator */
    {"$1a", {0, 0, 0}, SEVEN_EIGHT, "7a"},
    {"$1a", {0, 0, 1}, SEVEN_EIGHT, "$1a"},
    {"[?] ?", {0, 0, 0}, SEVEN_EIGHT, "[7] 8"},
    {"[?] ?", {2, 0, 0}, SEVEN_EIGHT, "[?] 7"},
    {"? ?", {0, 0, 0}, BYTES("\2\1\0\1\0?"), "? ?"},                             /* a value is not read again */
    {"a?b$2", {0, 0, 0}, BYTES("\2\2\0\0\0\3\0\xe2\x82\xac"), "ab\xe2\x82\xac"}, /* an empty value */
    {"? $1 ?0", {0, 0, 0}, BYTES("\2\0\0"), "? $1 ?0"},                          /* no entries */
    {":a {a} @'a' @a $a", {0, 0, 0}, NAMED, "7 7 7 7 7"},                        /* the first entry of the name */
    {":b ? :a", {0, 0, 0}, NAMED, ":b ? 7"},
    {"?1 $0 @'' $7", {0, 0, 0}, NAMED, "E E E E"},                        /* an indexed key counts as the empty name */
    {"?18446744073709551616", {0, 0, 0}, NAMED, "?18446744073709551616"}, /* no key at all */
    {"@'a\\'b' @\"a'b\" @\"a\\'b\"", {0, 0, 0}, NAMED, "Q Q @\"a\\'b\""}, /* names are compared with escapes undone */
    {":A :a", {0, 0, 0}, NAMED, ":A 7"},
    {"?1 $0 @''", {0, 0, 0}, BYTES("\1\1\0\1\0\1\0a7"), "?1 $0 @''"},
    {":a", {0, 0, 0}, BYTES("\1\0\0"), ":a"},
};

/* Sheets that are malformed, for one reason each. */
static const struct bytes malformed[] = {
    {NULL, 0},
    BYTES("\0"),
    BYTES("\2\0"),
    BYTES("\3\0\0"),
    BYTES("\377\0\0"),
    BYTES("\0\1\0"),   /* kind 0 with an entry */
    BYTES("\0\0\0\0"), /* a byte behind */
    BYTES("\2\0\0a"),
    BYTES("\2\1\0"),           /* no lengths */
    BYTES("\2\1\0\0"),         /* half a length */
    BYTES("\2\1\0\1\0"),       /* no body */
    BYTES("\2\1\0\1\0ab"),     /* too many bytes */
    BYTES("\2\2\0\1\0\2\0ab"), /* the last body is cut off */
    BYTES("\2\1\0\377\377a"),
    BYTES("\2\377\377\0\0"),
    BYTES("\1\1\0\1\0a"), /* a named entry without its value's length */
    BYTES("\1\1\0\1\0\1\0a"),
    BYTES("\1\1\0\1\0\0\0ab"),
    BYTES("\2\1\0\1\0\xff"), /* no UTF-8 */
    BYTES("\1\1\0\1\0\1\0\xff"
          "a"),
    BYTES("\1\1\0\1\0\1\0"
          "a\xff"),
    BYTES("\1\1\0\1\0\1\0\xc3\xa9"), /* a character over two bodies */
    BYTES("\2\2\0\1\0\1\0\xc3\xa9"),
};

static uint64_t fill(struct lent statement, struct settings settings, struct lent sheet, struct lent output) {
    return ventpeeler_fill(statement.bytes, statement.length, settings.dialect, settings.joins, settings.named, sheet.bytes,
                           sheet.length, output.bytes, output.length);
}

/* One call with so many bytes lent, in every way: the answer, and every byte around it. */
static void fill_into(struct bytes text, struct settings settings, struct bytes sheet, size_t room, struct expected expected,
                      const char *filled) {
    for (int placing = 0; placing < PLACINGS; placing++) {
        struct lent statement = lend_text(text.at, text.length, (enum placing)placing);
        struct lent values = lend_text(sheet.at, sheet.length, (enum placing)((placing + (int)sheet.length) % PLACINGS));
        struct lent output = lend(room, (enum placing)((placing + (int)text.length) % PLACINGS));
        check_answer(fill(statement, settings, values, output), expected.number, expected.detail, text.at);
        check(holds_only(output, filled, strlen(filled)), text.at, "the output is not as it should be");
        check(holds_only(statement, text.at, text.length), text.at, "the statement was written to");
        check(holds_only(values, sheet.at, sheet.length), text.at, "the sheet was written to");
        give_back(output);
        give_back(values);
        give_back(statement);
    }
}

static struct bytes text_of(const char *text) {
    struct bytes bytes = {text, strlen(text)};
    return bytes;
}

/* Room to spare, exactly full, one byte short, nothing lent. */
static void fill_search(const struct search *search) {
    struct bytes text = text_of(search->text);
    size_t full = strlen(search->filled);
    struct expected done = {VENTPEELER_DONE, full}, short_of = {VENTPEELER_OUTPUT_FULL, full};
    fill_into(text, search->settings, search->sheet, full + 100, done, search->filled);
    fill_into(text, search->settings, search->sheet, full, done, search->filled);
    if (full > 0) {
        fill_into(text, search->settings, search->sheet, full - 1, short_of, "");
        fill_into(text, search->settings, search->sheet, 0, short_of, "");
    }
}

static void fill_null(void) {
    const uint8_t none[] = {0, 0, 0};
    uint8_t byte = GUARD;
    check_answer(ventpeeler_fill(NULL, 0, 0, 0, 0, none, 3, NULL, 0), VENTPEELER_DONE, 0, "nothing to fill");
    check_answer(ventpeeler_fill(NULL, 0, 0, 0, 0, NULL, 0, &byte, 1), VENTPEELER_SHEET, 0, "no sheet");
    check_answer(ventpeeler_fill(NULL, 0, 0, 0, 3, NULL, 0, &byte, 1), VENTPEELER_SETTING, 0, "no sheet, a bad setting");
    check_answer(ventpeeler_fill((const uint8_t *)"a", 1, 0, 0, 0, none, 3, NULL, 0), VENTPEELER_OUTPUT_FULL, 1, "no output");
    check(byte == GUARD, "no sheet", "a byte was written");
}

static void refuse_sheets(void) {
    struct settings settings = {0, 0, 0};
    struct expected refused = {VENTPEELER_SHEET, 0};
    for (size_t i = 0; i < sizeof malformed / sizeof malformed[0]; i++) {
        fill_into(text_of("? a"), settings, malformed[i], 100, refused, "");
        fill_into(text_of("? a"), settings, malformed[i], 0, refused, "");
        fill_into(text_of(""), settings, malformed[i], 0, refused, "");
    }
}

/* Each refusal where all later ones hold too. */
static void refuse_in_order(void) {
    static char overlong[VENTPEELER_STATEMENT_MOST + 2];
    struct bytes bad_sheet = BYTES("\3"), good_sheet = NO_VALUES, long_text = {overlong, VENTPEELER_STATEMENT_MOST + 1};
    struct expected setting = {VENTPEELER_SETTING, 0}, length = {VENTPEELER_OVERLONG, 65537}, sheet = {VENTPEELER_SHEET, 0},
                    full = {VENTPEELER_OUTPUT_FULL, 1};
    struct settings good = {0, 0, 0};
    memset(overlong, 0xff, VENTPEELER_STATEMENT_MOST + 1);
    for (size_t i = 0; i < NO_SETTINGS; i++) {
        struct settings bad[] = {{no_setting[i], 0, 0}, {0, no_setting[i], 0}, {1, 1, no_setting[i]}};
        for (int k = 0; k < 3; k++) {
            fill_into(long_text, bad[k], bad_sheet, 0, setting, "");
            fill_into(text_of("a"), bad[k], good_sheet, 1, setting, "");
        }
    }
    fill_into(long_text, good, bad_sheet, 0, length, "");
    for (size_t i = 0; i < ILL_FORMED; i++) {
        struct expected ill = {VENTPEELER_NOT_UTF8, ill_formed[i].at};
        fill_into(text_of(ill_formed[i].text), good, bad_sheet, 0, ill, "");
    }
    fill_into(text_of("a"), good, bad_sheet, 0, sheet, "");
    fill_into(text_of("a"), good, good_sheet, 0, full, "");
}

/* The first one's start is told, whatever the room: 8 comes before 6. */
static void refuse_places_nought(void) {
    static const struct {
        const char *text;
        uint64_t at;
    } noughts[] = {
        {"$0", 0}, {"$00", 0}, {"? $1 $000", 5}, {"$0 $00 $0", 0}, {"'$0' ? a=$0", 9}, {"-- $0\n$0", 6}, {"\xc3\xa9$0", 2}, {"a$0b", 1},
    };
    struct settings settings = {0, 0, 0}, names = {0, 0, 1};
    struct bytes sheet = SEVEN_EIGHT, no_entries = BYTES("\2\0\0"), bad_sheet = BYTES("\2\0\0a");
    for (size_t i = 0; i < sizeof noughts / sizeof noughts[0]; i++) {
        struct bytes text = text_of(noughts[i].text);
        struct expected nought = {VENTPEELER_PLACE_NOUGHT, noughts[i].at}, malformed_sheet = {VENTPEELER_SHEET, 0};
        size_t rooms[] = {0, 1, text.length, 100, 65536};
        for (size_t k = 0; k < sizeof rooms / sizeof rooms[0]; k++) {
            fill_into(text, settings, sheet, rooms[k], nought, "");
            fill_into(text, settings, no_entries, rooms[k], nought, "");
            fill_into(text, settings, bad_sheet, rooms[k], malformed_sheet, "");
        }
    }
    struct expected kept = {VENTPEELER_DONE, 2};
    fill_into(text_of("$0"), names, sheet, 2, kept, "$0");
}

static void accept_settings(void) {
    struct bytes sheet = SEVEN_EIGHT;
    struct expected done = {VENTPEELER_DONE, 3};
    for (unsigned i = 0; i < 12; i++) {
        struct settings settings = {i / 4, i / 2 % 2, i % 2};
        fill_into(text_of("? ?"), settings, sheet, 3, done, "7 8");
    }
}

/* One value of so many bytes `v`. */
static struct bytes wide_sheet(char *sheet, size_t value) {
    struct bytes bytes = {sheet, 5 + value};
    memset(sheet, 'v', bytes.length);
    memcpy(sheet, "\2\1\0", 3);
    sheet[3] = (char)(value & 255);
    sheet[4] = (char)(value >> 8);
    return bytes;
}

/* A sheet of 65,536 bytes is accepted, and one more is not. The longest text has more than 2^31 bytes. */
static void fill_longest(void) {
    static char sheet[VENTPEELER_SHEET_MOST + 1], text[VENTPEELER_STATEMENT_MOST + 1];
    struct settings settings = {0, 0, 0};
    struct expected one = {VENTPEELER_OUTPUT_FULL, 65531}, refused = {VENTPEELER_SHEET, 0};
    fill_into(text_of("?"), settings, wide_sheet(sheet, 65532), 65532, refused, "");
    struct bytes most = wide_sheet(sheet, 65531);
    fill_into(text_of("?"), settings, most, 65530, one, "");
    struct expected done = {VENTPEELER_DONE, 2};
    fill_into(text_of("$2"), settings, most, 2, done, "$2");
    for (size_t i = 0; i < VENTPEELER_STATEMENT_MOST; i++) {
        text[i] = i % 2 == 0 ? '?' : '0';
    }
    struct expected many = {VENTPEELER_OUTPUT_FULL, (uint64_t)32768 * 65531};
    struct bytes all = {text, VENTPEELER_STATEMENT_MOST};
    fill_into(all, settings, most, 65536, many, "");
}

/* Two sheets that differ only in a value that no placeholder takes. */
static void fill_beside(void) {
    struct bytes first = BYTES("\2\3\0\1\0\1\0\1\0"
                               "7x8"),
                 second = BYTES("\2\3\0\1\0\3\0\1\0"
                                "7yyy8");
    struct settings settings = {0, 0, 0};
    struct expected done = {VENTPEELER_DONE, 3};
    fill_into(text_of("? $3"), settings, first, 9, done, "7 8");
    fill_into(text_of("? $3"), settings, second, 9, done, "7 8");
}

int main(void) {
    for (size_t i = 0; i < sizeof searches / sizeof searches[0]; i++) {
        fill_search(&searches[i]);
    }
    fill_null();
    accept_settings();
    refuse_sheets();
    refuse_in_order();
    refuse_places_nought();
    fill_longest();
    fill_beside();
    return tell();
}
