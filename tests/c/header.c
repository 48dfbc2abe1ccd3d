/* The header's own functions, in C99 and in C++. Expected values are worked out by hand from documents 01 and 02. */
#include "checks.h"

static void take_answers_apart(void) {
    const uint64_t most = ((uint64_t)1 << 56) - 1;
    check(ventpeeler_number(0) == VENTPEELER_DONE && ventpeeler_detail(0) == 0, "answer 0", "taken apart wrongly");
    check(ventpeeler_number(7) == VENTPEELER_DONE && ventpeeler_detail(7) == 7, "answer 7", "taken apart wrongly");
    uint64_t answer = ((uint64_t)6 << 56) + most;
    check(ventpeeler_number(answer) == VENTPEELER_OUTPUT_FULL && ventpeeler_detail(answer) == most, "the largest detail",
          "taken apart wrongly");
    answer = (uint64_t)3 << 56;
    check(ventpeeler_number(answer) == VENTPEELER_SETTING && ventpeeler_detail(answer) == 0, "no detail",
          "taken apart wrongly");
}

/* Escaped quotes stand above the detail under 0, and nowhere else. */
static void take_escaped_quotes_apart(void) {
    const uint64_t half = (uint64_t)1 << 32;
    check(ventpeeler_escaped(7) == 0, "no escaped quotes", "taken apart wrongly");
    uint64_t answer = 5 * half + 7;
    check(ventpeeler_number(answer) == VENTPEELER_DONE && ventpeeler_detail(answer) == 7 && ventpeeler_escaped(answer) == 5,
          "five escaped quotes", "taken apart wrongly");
    answer = 32768 * half + 65536;
    check(ventpeeler_number(answer) == VENTPEELER_DONE && ventpeeler_detail(answer) == 65536 &&
              ventpeeler_escaped(answer) == 32768,
          "the most escaped quotes", "taken apart wrongly");
    answer = ((uint64_t)1 << 56) + 5 * half + 7;
    check(ventpeeler_number(answer) == VENTPEELER_OVERLONG && ventpeeler_detail(answer) == 5 * half + 7 &&
              ventpeeler_escaped(answer) == 0,
          "a long length", "taken apart wrongly");
    check(VENTPEELER_VERSION == 5, "the version", "is another");
}

/* Words of a record at an odd address, with every byte of a word set. */
static void read_records(void) {
    uint8_t bytes[1 + 2 * VENTPEELER_RECORD_BYTES];
    for (size_t i = 0; i < sizeof bytes; i++) {
        bytes[i] = (uint8_t)(i + 100);
    }
    struct ventpeeler_token first = ventpeeler_token_at(bytes + 1, 0), second = ventpeeler_token_at(bytes + 1, 1);
    check(first.kind == 0x68676665 && first.start == 0x6c6b6a69 && first.length == 0x706f6e6d &&
              first.alias_length == 0x74737271 && first.key == 0x78777675 && first.a == 0x7c7b7a79 && first.b == 0x807f7e7d &&
              first.level == 0x84838281,
          "first record", "read wrongly");
    check(second.kind == 0x88878685 && second.b == 0xa09f9e9d && second.level == 0xa4a3a2a1, "second record", "read wrongly");
    check(ventpeeler_key_number(first) == 0x7c7b7a79807f7e7d, "key number", "put together wrongly");
}

/* The key of the search's only token. */
static void check_key(const char *search, uint64_t dialect, uint32_t kind, const char *text) {
    uint8_t records[VENTPEELER_RECORD_BYTES], key[64];
    uint64_t answer =
        ventpeeler_tokenize((const uint8_t *)search, strlen(search), dialect, 0, 0, records, VENTPEELER_RECORD_BYTES);
    check_answer(answer, VENTPEELER_DONE, 1, search);
    struct ventpeeler_token token = ventpeeler_token_at(records, 0);
    memset(key, GUARD, sizeof key);
    size_t length = ventpeeler_key_text((const uint8_t *)search, token, key);
    check(token.kind == VENTPEELER_PLACEHOLDER && token.key == kind, search, "is a key of another kind");
    check(length == strlen(text) && memcmp(key, text, length) == 0, search, "has another key");
    check(all_guard(key + (token.b < length ? length : token.b), key + sizeof key), search, "its key was written too long");
}

static void read_keys(void) {
    check_key("?", 0, VENTPEELER_KEY_NONE, "");
    check_key("?1", 0, VENTPEELER_KEY_ZERO_INDEXED, "");
    check_key("$1", 0, VENTPEELER_KEY_ONE_INDEXED, "");
    check_key(":furnace", 0, VENTPEELER_KEY_NAMED, "furnace");
    check_key("{roughing stand}", 0, VENTPEELER_KEY_NAMED, "roughing stand");
    check_key("{a\\}", 0, VENTPEELER_KEY_NAMED, "a\\");
    check_key("@''", 0, VENTPEELER_KEY_NAMED, "");
    check_key("@'a'", 0, VENTPEELER_KEY_NAMED, "a");
    check_key("@'a\\'b'", 0, VENTPEELER_KEY_ESCAPED, "a'b");
    check_key("@'\\''", 0, VENTPEELER_KEY_ESCAPED, "'");
    check_key("@'\\'\\''", 0, VENTPEELER_KEY_ESCAPED, "''");
    check_key("@'\\\\'b'", 0, VENTPEELER_KEY_ESCAPED, "\\'b"); /* only the backslash directly before the quote goes */
    check_key("@\"a\\'b\"", 0, VENTPEELER_KEY_NAMED, "a\\'b");
    check_key("@\"a\\\"b\"", 0, VENTPEELER_KEY_ESCAPED, "a\"b");
    check_key("@`a``b`", 0, VENTPEELER_KEY_NAMED, "a``b"); /* doubled quotes stay doubled */
    check_key("@`a\\``b`", 0, VENTPEELER_KEY_ESCAPED, "a``b");
    check_key("@[a\\]", 2, VENTPEELER_KEY_NAMED, "a\\");
    check_key("@[a\\]]b]", 2, VENTPEELER_KEY_ESCAPED, "a]]b");
}

int main(void) {
    take_answers_apart();
    take_escaped_quotes_apart();
    read_records();
    read_keys();
    return tell();
}
