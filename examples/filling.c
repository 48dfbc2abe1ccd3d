/* The example's values: from the command line into a sheet, and from the sheet into the search. */
#include "search.h"

#include <stdio.h>
#include <stdlib.h>
#include <string.h>

/* A name's and a value's length take two bytes in a sheet. */
#define BODY_MOST 65535

/* One entry: a name (empty where values are indexed) and a value. */
struct entry {
    const char *name, *value;
    size_t name_length, value_length;
};

static void bad_value(const char *value, const char *why) {
    fprintf(stderr, "search: the value %.40s: %s\n", value, why);
    exit(2);
}

static struct entry entry_of(const char *given, int named) {
    struct entry entry = {given, given, 0, 0};
    if (named) {
        const char *equals = strchr(given, '=');
        if (equals == NULL) {
            bad_value(given, "with -n it is to be name=value");
        }
        entry.name_length = (size_t)(equals - given);
        entry.value = equals + 1;
    }
    entry.value_length = strlen(entry.value);
    if (entry.name_length > BODY_MOST || entry.value_length > BODY_MOST) {
        bad_value(given, "it is too long");
    }
    return entry;
}

static uint8_t *put_number(uint8_t *at, size_t number) {
    *at++ = (uint8_t)(number & 255);
    *at++ = (uint8_t)(number >> 8);
    return at;
}

static uint8_t *put_bytes(uint8_t *at, const char *bytes, size_t length) {
    memcpy(at, bytes, length);
    return at + length;
}

static size_t sheet_length(char **values, size_t count, int named) {
    size_t length = VENTPEELER_SHEET_LEAST;
    for (size_t i = 0; i < count; i++) {
        struct entry entry = entry_of(values[i], named);
        length += (named ? 4 : 2) + entry.name_length + entry.value_length;
    }
    if (length > VENTPEELER_SHEET_MOST) {
        bad_value(values[0], "it and the others are too long for one sheet");
    }
    return length;
}

/* Kind and count, then all lengths, then all bodies. */
static struct text sheet_of(char **values, size_t count, int named) {
    struct text sheet;
    sheet.length = sheet_length(values, count, named);
    sheet.bytes = room_for(sheet.length);
    uint8_t *at = sheet.bytes;
    *at++ = count == 0 ? VENTPEELER_VALUES_NONE : named ? VENTPEELER_VALUES_NAMED : VENTPEELER_VALUES_INDEXED;
    at = put_number(at, count);
    for (size_t i = 0; i < count; i++) {
        struct entry entry = entry_of(values[i], named);
        at = named ? put_number(at, entry.name_length) : at;
        at = put_number(at, entry.value_length);
    }
    for (size_t i = 0; i < count; i++) {
        struct entry entry = entry_of(values[i], named);
        at = put_bytes(at, entry.name, entry.name_length);
        at = put_bytes(at, entry.value, entry.value_length);
    }
    return sheet;
}

static uint64_t fill(struct text search, struct settings settings, struct text sheet, struct text output) {
    return ventpeeler_fill(search.bytes, search.length, settings.dialect, settings.joins, settings.named, sheet.bytes,
                           sheet.length, output.bytes, output.length);
}

/* Asks for the text's length first, then lends exactly as much. */
struct text filled(struct text search, struct settings settings, char **values, int count) {
    struct text sheet = sheet_of(values, (size_t)count, settings.named != 0);
    struct text run = {NULL, 0};
    uint64_t answer = fill(search, settings, sheet, run);
    if (ventpeeler_number(answer) == VENTPEELER_OUTPUT_FULL) {
        run.length = (size_t)ventpeeler_detail(answer);
        run.bytes = room_for(run.length);
        answer = fill(search, settings, sheet, run);
    }
    if (ventpeeler_number(answer) != VENTPEELER_DONE) {
        refused("fill", answer);
    }
    free(sheet.bytes);
    return run;
}
