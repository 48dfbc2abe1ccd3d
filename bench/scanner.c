/*
 * A plain scanner to hold beside ours: it writes a record of eight words for each token, and counts them first only where
 * there may be too few records. It knows gaps, comments, strings, numbers, words (the commonest reserved ones by a search
 * in a sorted list), placeholders and operators, all by bytes: no UTF-8, no phrases, no earlier tokens, one dialect.
 */
#include "ventpeeler.h"

#include <string.h>

#define RECORD VENTPEELER_RECORD_BYTES

enum { OTHER, BLANK, LETTER, DIGIT, MARK };

static uint8_t classes[256];

static int class_of(uint8_t byte) {
    return classes[byte];
}

static void put_classes(const char *bytes, uint8_t class) {
    for (; *bytes != '\0'; bytes++) {
        classes[(uint8_t)*bytes] = class;
    }
}

/* Bytes from 128 up count as letters. */
static void make_classes(void) {
    put_classes(" \t\n\v\f\r", BLANK);
    put_classes("abcdefghijklmnopqrstuvwxyzABCDEFGHIJKLMNOPQRSTUVWXYZ_", LETTER);
    put_classes("0123456789", DIGIT);
    put_classes("!<>=|:-~*&@^?#/%", MARK);
    memset(classes + 128, LETTER, 128);
}

static size_t line_comment(const uint8_t *text, const uint8_t *end) {
    const uint8_t *stop = memchr(text, '\n', (size_t)(end - text));
    return (size_t)((stop == NULL ? end : stop) - text);
}

static size_t block_comment(const uint8_t *text, const uint8_t *end) {
    for (const uint8_t *at = text + 2; at + 1 < end; at++) {
        if (at[0] == '*' && at[1] == '/') {
            return (size_t)(at + 2 - text);
        }
    }
    return (size_t)(end - text);
}

/* Through the closing quote; one byte where there is none. */
static size_t string(const uint8_t *text, const uint8_t *end) {
    for (const uint8_t *at = text + 1; at < end; at++) {
        if ((*at == '\\' || *at == *text) && at + 1 < end && at[1] == *text) {
            at++;
        } else if (*at == *text) {
            return (size_t)(at + 1 - text);
        }
    }
    return 1;
}

static size_t run(const uint8_t *text, const uint8_t *end, int first, int second) {
    const uint8_t *at = text;
    while (at < end && (class_of(*at) == first || class_of(*at) == second)) {
        at++;
    }
    return (size_t)(at - text);
}

static const char *const reserved[] = {
    "ALL",    "AND",  "AS",    "ASC",    "BETWEEN", "BY",     "CASE",   "CREATE", "DELETE", "DESC",   "DISTINCT",
    "DROP",   "ELSE", "END",   "EXISTS", "FROM",    "GROUP",  "HAVING", "IN",     "INNER",  "INSERT", "INTO",
    "IS",     "JOIN", "LEFT",  "LIKE",   "LIMIT",   "NOT",    "NULL",   "ON",     "OR",     "ORDER",  "OUTER",
    "SELECT", "SET",  "TABLE", "THEN",   "UNION",   "UPDATE", "USING",  "VALUES", "WHEN",   "WHERE",  "WITH"};

static int compare(const uint8_t *word, size_t length, const char *other) {
    for (size_t i = 0; i < length; i++) {
        uint8_t byte = word[i] >= 'a' && word[i] <= 'z' ? word[i] - 32 : word[i];
        if (byte != (uint8_t)other[i]) {
            return byte < (uint8_t)other[i] ? -1 : 1;
        }
    }
    return other[length] == '\0' ? 0 : -1;
}

static uint32_t word_kind(const uint8_t *word, size_t length) {
    size_t low = 0, high = sizeof reserved / sizeof reserved[0];
    while (low < high) {
        size_t middle = (low + high) / 2;
        int order = compare(word, length, reserved[middle]);
        if (order == 0) {
            return 3;
        }
        if (order < 0) {
            high = middle;
        } else {
            low = middle + 1;
        }
    }
    return 15;
}

static size_t mark(const uint8_t *text, const uint8_t *end, uint32_t *kind) {
    size_t length = 1;
    if (*text == '#' || (*text == '-' && text + 1 < end && text[1] == '-')) {
        *kind = 11;
        return line_comment(text, end);
    }
    if (*text == '/' && text + 1 < end && text[1] == '*') {
        *kind = 12;
        return block_comment(text, end);
    }
    if ((*text == '?' || *text == ':' || *text == '@') && (text + 1 == end || class_of(text[1]) != MARK)) {
        *kind = 14;
        return 1 + run(text + 1, end, LETTER, DIGIT);
    }
    *kind = 8;
    while (length < 5 && text + length < end && class_of(text[length]) == MARK) {
        length++;
    }
    return length;
}

/* The length of the token at the start, and its kind. */
static size_t token(const uint8_t *text, const uint8_t *end, uint32_t *kind) {
    size_t length;
    switch (class_of(*text)) {
    case BLANK:
        *kind = 1;
        return run(text, end, BLANK, BLANK);
    case LETTER:
        length = run(text, end, LETTER, DIGIT);
        *kind = word_kind(text, length);
        return length;
    case DIGIT:
        *kind = 13;
        return run(text, end, DIGIT, DIGIT);
    case MARK:
        return mark(text, end, kind);
    default:
        *kind = *text == '(' ? 9 : *text == ')' ? 10 : 8;
        if (*text == '\'' || *text == '"' || *text == '`') {
            length = string(text, end);
            *kind = length > 1 ? 2 : 8;
            return length;
        }
        return 1;
    }
}

static uint32_t level_past(uint32_t level, uint32_t kind) {
    return kind == 9 ? level + 1 : kind == 10 && level > 0 ? level - 1 : level;
}

/* The number of tokens; their records are written where the table holds them all. */
static size_t count_tokens(const uint8_t *text, const uint8_t *end) {
    size_t count = 0;
    uint32_t kind;
    for (const uint8_t *at = text; at < end; count++) {
        at += token(at, end, &kind);
    }
    return count;
}

size_t plain_scan(const uint8_t *text, size_t length, uint8_t *records, size_t room) {
    const uint8_t *end = text + length;
    size_t count = 0;
    uint32_t kind, level = 0;
    if (classes[' '] != BLANK) {
        make_classes();
    }
    if (room / RECORD < length && count_tokens(text, end) > room / RECORD) {
        return count_tokens(text, end);
    }
    for (const uint8_t *at = text; at < end; records += RECORD, count++) {
        size_t taken = token(at, end, &kind);
        uint32_t words[] = {kind, (uint32_t)(at - text), (uint32_t)taken, (uint32_t)taken, 0, 0, 0, level};
        memcpy(records, words, RECORD);
        level = level_past(level, kind);
        at += taken;
    }
    return count;
}
