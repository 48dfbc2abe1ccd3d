/* ventpeeler_tokenize through the header. All expected values are worked out by hand from documents 01 and 02. */
#include "lent.h"

#define RECORD VENTPEELER_RECORD_BYTES

/* Eight words; a level of 0 is left out. */
#define WORDS (RECORD / 4)

typedef uint32_t record[WORDS];

/* A search, settings, and its tokens. */
struct search {
    const char *text;
    struct settings settings;
    size_t count;
    record tokens[8];
};

static const struct search searches[] = {
    {"", {0, 0, 0}, 0, {{0}}},
    {"a=:b ORDER BY $2",
     {0, 0, 0},
     7,
     {{15, 0, 1, 1, 0, 0, 0},
      {8, 1, 2, 2, 0, 0, 0},
      {15, 3, 1, 1, 0, 0, 0},
      {1, 4, 1, 1, 0, 0, 0},
      {4, 5, 8, 8, 0, 0, 0},
      {1, 13, 1, 1, 0, 0, 0},
      {14, 14, 2, 2, 4, 0, 2}}},
    {"======", {0, 0, 0}, 2, {{8, 0, 5, 5, 0, 0, 0}, {8, 5, 1, 1, 0, 0, 0}}},
    {"'a", {0, 0, 0}, 2, {{8, 0, 1, 1, 0, 0, 0}, {15, 1, 1, 1, 0, 0, 0}}},
    {"/*a", {0, 0, 0}, 1, {{12, 0, 3, 3, 0, 0, 0}}},
    {"t.from", {0, 0, 0}, 3, {{15, 0, 1, 1, 0, 0, 0}, {8, 1, 1, 1, 0, 0, 0}, {15, 2, 4, 4, 0, 0, 0}}},
    {"t.end", {0, 0, 0}, 3, {{15, 0, 1, 1, 0, 0, 0}, {8, 1, 1, 1, 0, 0, 0}, {10, 2, 3, 3, 0, 0, 0}}},
    {"(::", {0, 0, 0}, 2, {{9, 0, 1, 1, 0, 0, 0}, {8, 1, 2, 2, 0, 0, 0, 1}}},
    {"::", {0, 0, 0}, 1, {{0, 0, 2, 2, 0, 0, 0}}},
    {"a=?", {0, 0, 0}, 2, {{15, 0, 1, 1, 0, 0, 0}, {8, 1, 2, 2, 0, 0, 0}}},
    {"$1a", {0, 0, 0}, 2, {{14, 0, 2, 2, 4, 0, 1}, {15, 2, 1, 1, 0, 0, 0}}},
    {"$1a", {0, 0, 1}, 1, {{14, 0, 3, 3, 1, 1, 2}}},
    {"?18446744073709551616", {0, 0, 0}, 1, {{14, 0, 21, 21, 0, 0, 0}}},
    {"?18446744073709551615", {0, 0, 0}, 1, {{14, 0, 21, 21, 3, UINT32_MAX, UINT32_MAX}}},
    {"$4294967298", {0, 0, 0}, 1, {{14, 0, 11, 11, 4, 1, 2}}},
    {"BETWEEN 1 AND 2",
     {0, 0, 0},
     7,
     {{3, 0, 7, 7, 0, 0, 0},
      {1, 7, 1, 1, 0, 0, 0},
      {13, 8, 1, 1, 0, 0, 0},
      {1, 9, 1, 1, 0, 0, 0},
      {3, 10, 3, 3, 0, 0, 0},
      {1, 13, 1, 1, 0, 0, 0},
      {13, 14, 1, 1, 0, 0, 0}}},
    {"between 1 AND 2",
     {0, 0, 0},
     7,
     {{3, 0, 7, 7, 0, 0, 0},
      {1, 7, 1, 1, 0, 0, 0},
      {13, 8, 1, 1, 0, 0, 0},
      {1, 9, 1, 1, 0, 0, 0},
      {6, 10, 3, 3, 0, 0, 0},
      {1, 13, 1, 1, 0, 0, 0},
      {13, 14, 1, 1, 0, 0, 0}}},
    {"=[]", {2, 0, 0}, 2, {{8, 0, 1, 1, 0, 0, 0}, {2, 1, 2, 2, 0, 0, 0}}},
    {"{}", {0, 0, 0}, 2, {{8, 0, 1, 1, 0, 0, 0}, {8, 1, 1, 1, 0, 0, 0}}},
    {"#a\rb", {0, 0, 0}, 4, {{8, 0, 1, 1, 0, 0, 0}, {15, 1, 1, 1, 0, 0, 0}, {1, 2, 1, 1, 0, 0, 0}, {15, 3, 1, 1, 0, 0, 0}}},
    {"UPDATE t SET",
     {0, 0, 0},
     5,
     {{4, 0, 6, 6, 0, 0, 0}, {1, 6, 1, 1, 0, 0, 0}, {15, 7, 1, 1, 0, 0, 0}, {1, 8, 1, 1, 0, 0, 0}, {7, 9, 3, 3, 0, 0, 0}}},
    {"update t SET",
     {0, 0, 0},
     5,
     {{4, 0, 6, 6, 0, 0, 0}, {1, 6, 1, 1, 0, 0, 0}, {15, 7, 1, 1, 0, 0, 0}, {1, 8, 1, 1, 0, 0, 0}, {4, 9, 3, 3, 0, 0, 0}}},
    /* the brackets in the three dialects */
    {"[a]", {0, 0, 0}, 3, {{8, 0, 1, 1, 0, 0, 0}, {15, 1, 1, 1, 0, 0, 0}, {8, 2, 1, 1, 0, 0, 0}}},
    {"[a]", {1, 0, 0}, 3, {{9, 0, 1, 1, 0, 0, 0}, {15, 1, 1, 1, 0, 0, 0, 1}, {10, 2, 1, 1, 0, 0, 0, 1}}},
    {"[a]", {2, 0, 0}, 1, {{2, 0, 3, 3, 0, 0, 0}}},
    /* a join under both settings */
    {"JOIN", {0, 0, 0}, 1, {{6, 0, 4, 4, 0, 0, 0}}},
    {"JOIN", {0, 1, 0}, 1, {{4, 0, 4, 4, 0, 0, 0}}},
    /* an alias that is shorter than its value */
    {"SELECT  DISTINCT", {0, 0, 0}, 1, {{4, 0, 16, 6, 0, 0, 0}}},
    {"select distinct", {0, 0, 0}, 1, {{4, 0, 15, 15, 0, 0, 0}}},
    /* levels: a paren in another, CASE and END, a CloseParen too many */
    {"((a))b",
     {0, 0, 0},
     6,
     {{9, 0, 1, 1, 0, 0, 0, 0},
      {9, 1, 1, 1, 0, 0, 0, 1},
      {15, 2, 1, 1, 0, 0, 0, 2},
      {10, 3, 1, 1, 0, 0, 0, 2},
      {10, 4, 1, 1, 0, 0, 0, 1},
      {15, 5, 1, 1, 0, 0, 0, 0}}},
    {"CASE a END)(",
     {0, 0, 0},
     7,
     {{9, 0, 4, 4, 0, 0, 0, 0},
      {1, 4, 1, 1, 0, 0, 0, 1},
      {15, 5, 1, 1, 0, 0, 0, 1},
      {1, 6, 1, 1, 0, 0, 0, 1},
      {10, 7, 3, 3, 0, 0, 0, 1},
      {10, 10, 1, 1, 0, 0, 0, 0},
      {9, 11, 1, 1, 0, 0, 0, 0}}},
    /* keys by name, without and with escapes, as text in the statement */
    {" {a b}", {0, 0, 0}, 2, {{1, 0, 1, 1, 0, 0, 0}, {14, 1, 5, 5, 1, 2, 3}}},
    {"@''", {0, 0, 0}, 1, {{14, 0, 3, 3, 1, 2, 0}}},
    {"=:'ab'", {0, 0, 0}, 2, {{8, 0, 2, 2, 0, 0, 0}, {2, 2, 4, 4, 0, 0, 0}}},
    {" @'a\\'b'", {0, 0, 0}, 2, {{1, 0, 1, 1, 0, 0, 0}, {14, 1, 7, 7, 2, 3, 4}}},
    {"@\"a\\'b\"", {0, 0, 0}, 1, {{14, 0, 7, 7, 1, 2, 4}}},
    {"@[a\\]", {2, 0, 0}, 1, {{14, 0, 5, 5, 1, 2, 2}}},
    {"@[a\\]]]", {2, 0, 0}, 1, {{14, 0, 7, 7, 2, 2, 4}}},
    /* characters of two, three and four bytes */
    {"\xc3\xa9\xe2\x82\xac\xf0\x9f\x98\x80",
     {0, 0, 0},
     3,
     {{15, 0, 2, 2, 0, 0, 0}, {8, 2, 3, 3, 0, 0, 0}, {8, 5, 4, 4, 0, 0, 0}}},
};

static uint64_t tokenize(struct lent statement, struct settings settings, struct lent records) {
    return ventpeeler_tokenize(statement.bytes, statement.length, settings.dialect, settings.joins, settings.named,
                               records.bytes, records.length);
}

static void put_words(uint8_t *bytes, const record *tokens, size_t count) {
    for (size_t i = 0; i < count * WORDS; i++) {
        for (int k = 0; k < 4; k++) {
            *bytes++ = (uint8_t)(tokens[i / WORDS][i % WORDS] >> 8 * k);
        }
    }
}

/* One call with a table of so many bytes, lent in every way: the answer, and every byte around it. */
static void read_into(const char *text, size_t length, struct settings settings, size_t table, struct expected expected,
                      const record *tokens, size_t count) {
    uint8_t words[8 * RECORD];
    put_words(words, tokens, count);
    for (int placing = 0; placing < PLACINGS; placing++) {
        struct lent statement = lend_text(text, length, (enum placing)placing);
        struct lent records = lend(table, (enum placing)((placing + (int)length) % PLACINGS));
        check_answer(tokenize(statement, settings, records), expected.number, expected.detail, text);
        check(holds_only(records, words, count * RECORD), text, "the table is not as it should be");
        check(holds_only(statement, text, length), text, "the statement was written to");
        give_back(records);
        give_back(statement);
    }
}

/* Room to spare, exactly full, with odd bytes behind, one record short, nothing lent. */
static void read_search(const struct search *search) {
    size_t length = strlen(search->text), full = search->count * RECORD;
    struct expected done = {VENTPEELER_DONE, search->count};
    struct expected short_of = {VENTPEELER_TABLE_FULL, search->count};
    read_into(search->text, length, search->settings, full + 3 * RECORD, done, search->tokens, search->count);
    read_into(search->text, length, search->settings, full, done, search->tokens, search->count);
    read_into(search->text, length, search->settings, full + RECORD - 1, done, search->tokens, search->count);
    if (search->count > 0) {
        read_into(search->text, length, search->settings, full - 1, short_of, NULL, 0);
        read_into(search->text, length, search->settings, full - RECORD, short_of, NULL, 0);
        read_into(search->text, length, search->settings, 0, short_of, NULL, 0);
    }
}

/* A search, its dialect, its tokens, and how many quotes are escaped in them. */
static const struct {
    const char *text;
    uint64_t dialect, tokens, escaped;
} escaped_quotes[] = {
    {"'a'", 0, 1, 0},
    {"'a''b'", 0, 1, 1},
    {"'a\\'b'", 0, 1, 1},
    {"''''", 0, 1, 1},
    {"\"\\\"\"", 0, 1, 1},
    {"x'\\'", 0, 1, 0},
    {"`a``b`", 0, 1, 1},
    {"[a]]b]", 2, 1, 1},
    {"[a]]b]", 0, 6, 0},
    {"@'a\\'b'", 0, 1, 1},
    {"@'a''", 0, 2, 0}, /* the placeholder @'a' and a quote */
    {"@`a``b`", 0, 1, 1},
    {"@[a]]b]", 2, 1, 1},
    {"@N'a'", 0, 2, 0},
    {"'a''b", 0, 4, 0}, /* the first quote closes nothing: ' a '' b */
    {"'a''b' \"c\\\"\" @'\\'' :'d\\'", 0, 11, 3}, /* the last five are no string */
};

/* The whole answer, with a table that has room and with none. */
static void count_escaped(void) {
    for (size_t i = 0; i < sizeof escaped_quotes / sizeof escaped_quotes[0]; i++) {
        const char *text = escaped_quotes[i].text;
        uint8_t records[16 * RECORD];
        uint64_t escaped = escaped_quotes[i].escaped, tokens = escaped_quotes[i].tokens;
        uint64_t answer = ventpeeler_tokenize((const uint8_t *)text, strlen(text), escaped_quotes[i].dialect, 0, 0, records,
                                              sizeof records);
        check(answer == (escaped << 32) + tokens, text, "has another answer, or other escaped quotes");
        check(ventpeeler_escaped(answer) == escaped, text, "tells other escaped quotes");
        answer = ventpeeler_tokenize((const uint8_t *)text, strlen(text), escaped_quotes[i].dialect, 0, 0, records, 0);
        check(answer == ((uint64_t)VENTPEELER_TABLE_FULL << 56) + tokens, text, "is refused with another answer");
        check(ventpeeler_escaped(answer) == 0, text, "tells escaped quotes under a refusal");
    }
}

/* 65,536 quotes are one string; with a gap after each four, 13,107 strings of one escaped quote each, and a quote. */
static void count_most_escaped(void) {
    static uint8_t text[VENTPEELER_STATEMENT_MOST], records[26215 * RECORD];
    memset(text, '\'', sizeof text);
    uint64_t answer = ventpeeler_tokenize(text, sizeof text, 0, 0, 0, records, sizeof records);
    check(answer == ((uint64_t)32767 << 32) + 1, "65,536 quotes", "have another answer");
    for (size_t i = 4; i < sizeof text; i += 5) {
        text[i] = ' ';
    }
    answer = ventpeeler_tokenize(text, sizeof text, 0, 0, 0, records, sizeof records);
    check(answer == ((uint64_t)13107 << 32) + 26215, "quotes in fours", "have another answer");
}

static void read_null(void) {
    uint8_t byte = GUARD;
    check_answer(ventpeeler_tokenize(NULL, 0, 0, 0, 0, NULL, 0), VENTPEELER_DONE, 0, "nothing at all");
    check_answer(ventpeeler_tokenize(NULL, 0, 2, 1, 1, &byte, 1), VENTPEELER_DONE, 0, "no statement");
    check_answer(ventpeeler_tokenize((const uint8_t *)"a b", 3, 0, 0, 0, NULL, 0), VENTPEELER_TABLE_FULL, 3, "no table");
    check_answer(ventpeeler_tokenize(NULL, 0, 3, 0, 0, NULL, 0), VENTPEELER_SETTING, 0, "no statement, a bad setting");
    check(byte == GUARD, "no statement", "a byte was written");
}

/* A bad setting comes before all else, and has the detail 0. */
static void refuse_settings(const char *text, size_t length, size_t table) {
    struct expected refused = {VENTPEELER_SETTING, 0};
    for (size_t i = 0; i < NO_SETTINGS; i++) {
        struct settings bad[] = {{no_setting[i], 0, 0}, {0, no_setting[i], 0}, {1, 1, no_setting[i]}};
        for (int k = 0; k < 3; k++) {
            read_into(text, length, bad[k], table, refused, NULL, 0);
        }
    }
    struct settings two[] = {{0, 2, 0}, {2, 0, 2}, {3, 2, 2}};
    for (int k = 0; k < 3; k++) {
        read_into(text, length, two[k], table, refused, NULL, 0);
    }
}

/* `a b` has the same three tokens under every accepted setting. */
static void accept_settings(void) {
    static const record tokens[] = {{15, 0, 1, 1, 0, 0, 0}, {1, 1, 1, 1, 0, 0, 0}, {15, 2, 1, 1, 0, 0, 0}};
    struct expected done = {VENTPEELER_DONE, 3};
    for (unsigned i = 0; i < 12; i++) {
        struct settings settings = {i / 4, i / 2 % 2, i % 2};
        read_into("a b", 3, settings, 3 * RECORD, done, tokens, 3);
    }
}

static void refuse_ill_formed(void) {
    struct settings settings = {0, 0, 0};
    for (size_t i = 0; i < ILL_FORMED; i++) {
        struct expected refused = {VENTPEELER_NOT_UTF8, ill_formed[i].at};
        read_into(ill_formed[i].text, strlen(ill_formed[i].text), settings, 8 * RECORD, refused, NULL, 0);
        read_into(ill_formed[i].text, strlen(ill_formed[i].text), settings, 0, refused, NULL, 0);
    }
}

/* 65,536 bytes are the most. Beyond them the bytes themselves don't matter. */
static void read_longest(void) {
    static uint8_t text[VENTPEELER_STATEMENT_MOST + 1];
    static const record blank[] = {{1, 0, 65536, 65536, 0, 0, 0}};
    struct settings settings = {0, 0, 0};
    struct expected done = {VENTPEELER_DONE, 1}, overlong = {VENTPEELER_OVERLONG, 65537};
    struct expected short_of = {VENTPEELER_TABLE_FULL, 65536};
    memset(text, ' ', sizeof text);
    read_into((const char *)text, 65536, settings, RECORD, done, blank, 1);
    read_into((const char *)text, 65537, settings, RECORD, overlong, NULL, 0);
    text[0] = 0xff;
    read_into((const char *)text, 65537, settings, 0, overlong, NULL, 0);
    refuse_settings((const char *)text, 65537, 0);
    memset(text, '(', sizeof text);
    read_into((const char *)text, 65536, settings, 65536 * RECORD - 1, short_of, NULL, 0);
}

/* As many tokens as bytes, in a table that is exactly full. */
static void read_most_tokens(void) {
    struct settings settings = {0, 0, 0};
    for (int placing = 0; placing < PLACINGS; placing++) {
        struct lent statement = lend(VENTPEELER_STATEMENT_MOST, (enum placing)placing);
        memset(statement.bytes, '(', statement.length);
        struct lent records = lend(statement.length * RECORD, (enum placing)placing);
        check_answer(tokenize(statement, settings, records), VENTPEELER_DONE, 65536, "65,536 times (");
        int all = all_guard(records.whole, records.bytes) &&
                  all_guard(records.bytes + records.length, records.whole + records.whole_length);
        for (uint32_t i = 0; i < 65536; i++) {
            struct ventpeeler_token token = ventpeeler_token_at(records.bytes, i);
            all = all && token.kind == VENTPEELER_OPEN_PAREN && token.start == i && token.length == 1 &&
                  token.alias_length == 1 && token.key == 0 && token.a == 0 && token.b == 0 && token.level == i;
        }
        check(all, "65,536 times (", "a record is wrong, or a byte beside the table was written");
        give_back(records);
        give_back(statement);
    }
}

/* Lengths that no text has. Nothing of it is read; the detail is cut at 2^56 - 1. */
static void refuse_lengths(void) {
    const uint64_t most = ((uint64_t)1 << 56) - 1;
    const uint64_t lengths[] = {most - 1, most, most + 1, (uint64_t)1 << 62, UINT64_MAX};
    uint8_t text = 'a', byte = GUARD;
    for (int i = 0; i < 5; i++) {
        uint64_t detail = lengths[i] < most ? lengths[i] : most;
        check_answer(ventpeeler_tokenize(&text, (size_t)lengths[i], 0, 0, 0, &byte, 1), VENTPEELER_OVERLONG, detail,
                     "a length");
    }
    check(byte == GUARD, "a length", "a byte was written");
}

int main(void) {
    for (size_t i = 0; i < sizeof searches / sizeof searches[0]; i++) {
        read_search(&searches[i]);
    }
    count_escaped();
    count_most_escaped();
    read_null();
    accept_settings();
    refuse_settings("a b", 3, 3 * RECORD);
    refuse_settings("\xff", 1, 0);
    refuse_ill_formed();
    read_longest();
    read_most_tokens();
    refuse_lengths();
    return tell();
}
