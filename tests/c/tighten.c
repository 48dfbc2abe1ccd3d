/* ventpeeler_tighten through the header. All expected texts are worked out by hand from document 01's sentence on them and
 * document 02's rule [5] for gaps. */
#include "lent.h"

struct search {
    const char *text;
    struct settings settings;
    const char *tight;
};

static const struct search searches[] = {
    {"", {0, 0, 0}, ""},
    {"a  --x\r\n\n b ", {0, 0, 0}, "a --x\nb"},
    {" ", {0, 0, 0}, ""},
    {" \t\v\f\r\n\xc2\x85\xc2\xa0\xe1\x9a\x80\xe2\x80\xa8\xe3\x80\x80", {0, 0, 0}, ""},
    {"a\xc2\xa0\xe3\x80\x80"
     "b",
     {0, 0, 0},
     "a b"},
    {"a\xe2\x80\x8b"
     "b",
     {0, 0, 0},
     "a\xe2\x80\x8b"
     "b"},                                              /* U+200B is no White_Space */
    {"a,b", {0, 0, 0}, "a,b"},                          /* a gap is never added */
    {"a  ,\n b", {0, 0, 0}, "a , b"},                   /* nor taken away between tokens */
    {"'a  b'  \"c  d\"", {0, 0, 0}, "'a  b' \"c  d\""}, /* strings keep theirs */
    {"'a\\'  b", {0, 0, 0}, "'a\\' b"},                 /* no string, since the backslash escapes its quote */
    {"/* a  b */  c", {0, 0, 0}, "/* a  b */ c"},
    {"/* a  ", {0, 0, 0}, "/* a  "}, /* the comment runs to the end */
    {"#x\n\n", {0, 0, 0}, "#x"},
    {"#x  \n  y", {0, 0, 0}, "#x  \ny"},
    {"ORDER \n BY  a", {0, 0, 0}, "ORDER \n BY a"}, /* the phrase is one token */
    {"[  a  ]", {0, 0, 0}, "[ a ]"},
    {"[  a  ]", {2, 0, 0}, "[  a  ]"},
    {"[  a  ]", {1, 0, 0}, "[ a ]"},
    {"JOIN  a", {0, 1, 0}, "JOIN a"},
    {"$1a  b", {0, 0, 1}, "$1a b"},
    {"a\rb", {0, 0, 0}, "a\rb"}, /* the first CR or LF is a CR without LF */
    {"a \r\n b", {0, 0, 0}, "a b"},
    {"a\n\rb", {0, 0, 0}, "a b"},
    {"a \r ", {0, 0, 0}, "a\r"}, /* also at the end */
    {"\ra", {0, 0, 0}, "a"},     /* but not before the first token */
    {"\r", {0, 0, 0}, ""},
    {"#a\rb\r\n", {0, 0, 0}, "#a\rb"}, /* no line comment before such a CR */
    {"--a\n\rb", {0, 0, 0}, "--a\nb"}, /* and behind one it makes no difference */
};

static uint64_t tighten(struct lent statement, struct settings settings, struct lent output) {
    return ventpeeler_tighten(statement.bytes, statement.length, settings.dialect, settings.joins, settings.named,
                              output.bytes, output.length);
}

/* One call with so many bytes lent, in every way: the answer, and every byte around it. */
static void write_into(const char *text, size_t length, struct settings settings, size_t room, struct expected expected,
                       const char *tight) {
    for (int placing = 0; placing < PLACINGS; placing++) {
        struct lent statement = lend_text(text, length, (enum placing)placing);
        struct lent output = lend(room, (enum placing)((placing + (int)length) % PLACINGS));
        check_answer(tighten(statement, settings, output), expected.number, expected.detail, text);
        check(holds_only(output, tight, strlen(tight)), text, "the output is not as it should be");
        check(holds_only(statement, text, length), text, "the statement was written to");
        give_back(output);
        give_back(statement);
    }
}

/* Room to spare, exactly full, one byte short, nothing lent. */
static void tighten_search(const struct search *search) {
    size_t length = strlen(search->text), full = strlen(search->tight);
    struct expected done = {VENTPEELER_DONE, full}, short_of = {VENTPEELER_OUTPUT_FULL, full};
    write_into(search->text, length, search->settings, full + 100, done, search->tight);
    write_into(search->text, length, search->settings, full, done, search->tight);
    if (full > 0) {
        write_into(search->text, length, search->settings, full - 1, short_of, "");
        write_into(search->text, length, search->settings, 0, short_of, "");
    }
}

static void tighten_null(void) {
    uint8_t byte = GUARD;
    check_answer(ventpeeler_tighten(NULL, 0, 0, 0, 0, NULL, 0), VENTPEELER_DONE, 0, "nothing at all");
    check_answer(ventpeeler_tighten(NULL, 0, 2, 1, 1, &byte, 1), VENTPEELER_DONE, 0, "no statement");
    check_answer(ventpeeler_tighten((const uint8_t *)" \n ", 3, 0, 0, 0, NULL, 0), VENTPEELER_DONE, 0, "blank, no output");
    check_answer(ventpeeler_tighten((const uint8_t *)"a  b", 4, 0, 0, 0, NULL, 0), VENTPEELER_OUTPUT_FULL, 3, "no output");
    check_answer(ventpeeler_tighten(NULL, 0, 0, 2, 0, NULL, 0), VENTPEELER_SETTING, 0, "no statement, a bad setting");
    check(byte == GUARD, "no statement", "a byte was written");
}

static void refuse_settings(const char *text, size_t length, size_t room) {
    struct expected refused = {VENTPEELER_SETTING, 0};
    for (size_t i = 0; i < NO_SETTINGS; i++) {
        struct settings bad[] = {{no_setting[i], 0, 0}, {0, no_setting[i], 0}, {1, 1, no_setting[i]}};
        for (int k = 0; k < 3; k++) {
            write_into(text, length, bad[k], room, refused, "");
        }
    }
    struct settings two[] = {{0, 2, 0}, {2, 0, 2}, {3, 2, 2}};
    for (int k = 0; k < 3; k++) {
        write_into(text, length, two[k], room, refused, "");
    }
}

static void accept_settings(void) {
    struct expected done = {VENTPEELER_DONE, 3};
    for (unsigned i = 0; i < 12; i++) {
        struct settings settings = {i / 4, i / 2 % 2, i % 2};
        write_into(" a \n b", 6, settings, 3, done, "a b");
    }
}

static void refuse_ill_formed(void) {
    struct settings settings = {0, 0, 0};
    for (size_t i = 0; i < ILL_FORMED; i++) {
        struct expected refused = {VENTPEELER_NOT_UTF8, ill_formed[i].at};
        write_into(ill_formed[i].text, strlen(ill_formed[i].text), settings, 100, refused, "");
        write_into(ill_formed[i].text, strlen(ill_formed[i].text), settings, 0, refused, "");
    }
}

static void tighten_longest(void) {
    static uint8_t text[VENTPEELER_STATEMENT_MOST + 1];
    static char tight[VENTPEELER_STATEMENT_MOST + 1];
    struct settings settings = {0, 0, 0};
    struct expected overlong = {VENTPEELER_OVERLONG, 65537}, blank = {VENTPEELER_DONE, 0}, done = {VENTPEELER_DONE, 65536},
                    short_of = {VENTPEELER_OUTPUT_FULL, 65536};
    memset(text, ' ', sizeof text);
    write_into((const char *)text, 65536, settings, 0, blank, "");
    write_into((const char *)text, 65537, settings, 65537, overlong, "");
    memset(text, '(', sizeof text);
    memset(tight, '(', sizeof tight - 1);
    write_into((const char *)text, 65536, settings, 65536, done, tight);
    write_into((const char *)text, 65536, settings, 65535, short_of, "");
    text[0] = 0xff;
    write_into((const char *)text, 65537, settings, 0, overlong, "");
    refuse_settings((const char *)text, 65537, 0);
}

/* Lengths that no text has. Nothing of it is read; the detail is cut at 2^56 - 1. */
static void refuse_lengths(void) {
    const uint64_t most = ((uint64_t)1 << 56) - 1;
    uint8_t text = 'a', byte = GUARD;
    check_answer(ventpeeler_tighten(&text, (size_t)most - 1, 0, 0, 0, &byte, 1), VENTPEELER_OVERLONG, most - 1, "a length");
    check_answer(ventpeeler_tighten(&text, (size_t)most + 1, 0, 0, 0, &byte, 1), VENTPEELER_OVERLONG, most, "a length");
    check_answer(ventpeeler_tighten(&text, SIZE_MAX, 0, 0, 0, &byte, 1), VENTPEELER_OVERLONG, most, "a length");
    check(byte == GUARD, "a length", "a byte was written");
}

int main(void) {
    for (size_t i = 0; i < sizeof searches / sizeof searches[0]; i++) {
        tighten_search(&searches[i]);
    }
    tighten_null();
    accept_settings();
    refuse_settings("a  b", 4, 4);
    refuse_settings("\xff", 1, 0);
    refuse_ill_formed();
    tighten_longest();
    refuse_lengths();
    return tell();
}
