/*
 * What a scheduling server does with a planner's search: makes its key, reads its tokens and placeholders, puts the
 * planner's values in and prints the text to run.
 *
 *     search [-d generic|postgresql|sqlserver] [-j] FILE [VALUE ..]        values in turn, or by place as $2
 *     search [-d ..] [-j] -n FILE [NAME=VALUE ..]                          values by name
 *
 * FILE may be `-`, standard input; -j gives joins out as top level.
 */
#include "search.h"

#include <stdio.h>
#include <stdlib.h>
#include <string.h>

static void stop(const char *why) {
    fprintf(stderr, "search: %s\n", why);
    exit(2);
}

void *room_for(size_t bytes) {
    void *room = malloc(bytes == 0 ? 1 : bytes);
    if (room == NULL) {
        stop("out of memory");
    }
    return room;
}

void refused(const char *call, uint64_t answer) {
    unsigned long long detail = ventpeeler_detail(answer);
    fprintf(stderr, "search: %s: ", call);
    switch (ventpeeler_number(answer)) {
    case VENTPEELER_OVERLONG:
        fprintf(stderr, "the search has %llu bytes; at most %d can be read\n", detail, VENTPEELER_STATEMENT_MOST);
        break;
    case VENTPEELER_NOT_UTF8:
        fprintf(stderr, "the search is not UTF-8: see byte %llu, counted from 0\n", detail);
        break;
    case VENTPEELER_SETTING:
        fprintf(stderr, "there is no such dialect, or a flag is neither 0 nor 1\n");
        break;
    case VENTPEELER_TABLE_FULL:
        fprintf(stderr, "the table is too small: the search has %llu tokens\n", detail);
        break;
    case VENTPEELER_SHEET:
        fprintf(stderr,
                "the values are malformed: a name or a value is not UTF-8, or the sheet is not laid out by its rules\n");
        break;
    case VENTPEELER_OUTPUT_FULL:
        fprintf(stderr, "the output is too small: the text has %llu bytes\n", detail);
        break;
    case VENTPEELER_PLACE_NOUGHT:
        fprintf(stderr, "place 0 at byte %llu: places count from 1\n", detail);
        break;
    default:
        fprintf(stderr, "an answer that the header does not name\n");
    }
    exit(1);
}

static struct text read_all(FILE *file) {
    size_t room = 4096;
    struct text text = {room_for(room), 0};
    size_t got;
    while ((got = fread(text.bytes + text.length, 1, room - text.length, file)) > 0) {
        text.length += got;
        if (text.length == room) {
            uint8_t *wider = realloc(text.bytes, room *= 2);
            if (wider == NULL) {
                stop("out of memory");
            }
            text.bytes = wider;
        }
    }
    return text;
}

static struct text read_search(const char *path) {
    FILE *file = strcmp(path, "-") == 0 ? stdin : fopen(path, "rb");
    if (file == NULL) {
        perror(path);
        exit(2);
    }
    struct text text = read_all(file);
    if (ferror(file)) {
        perror(path);
        exit(2);
    }
    fclose(file);
    return text;
}

/* The tight text is never longer than the search. */
static struct text key_of(struct text search, struct settings settings) {
    struct text key = {room_for(search.length), 0};
    uint64_t answer = ventpeeler_tighten(search.bytes, search.length, settings.dialect, settings.joins, settings.named,
                                         key.bytes, search.length);
    if (ventpeeler_number(answer) != VENTPEELER_DONE) {
        refused("tighten", answer);
    }
    key.length = (size_t)ventpeeler_detail(answer);
    return key;
}

/* Asks for the number of tokens first, then lends a table for exactly these; the last answer tells the escaped quotes. */
static uint8_t *records_of(struct text search, struct settings settings, size_t *count, size_t *escaped) {
    uint64_t answer =
        ventpeeler_tokenize(search.bytes, search.length, settings.dialect, settings.joins, settings.named, NULL, 0);
    if (ventpeeler_number(answer) != VENTPEELER_TABLE_FULL && ventpeeler_number(answer) != VENTPEELER_DONE) {
        refused("tokenize", answer);
    }
    *count = (size_t)ventpeeler_detail(answer);
    size_t bytes = *count * VENTPEELER_RECORD_BYTES;
    uint8_t *records = room_for(bytes);
    answer =
        ventpeeler_tokenize(search.bytes, search.length, settings.dialect, settings.joins, settings.named, records, bytes);
    if (ventpeeler_number(answer) != VENTPEELER_DONE) {
        refused("tokenize", answer);
    }
    *escaped = (size_t)ventpeeler_escaped(answer);
    return records;
}

static void print_bytes(const uint8_t *bytes, size_t length) {
    fwrite(bytes, 1, length, stdout);
}

static void print_key(struct text search, struct ventpeeler_token token) {
    uint8_t *name;
    switch (token.key) {
    case VENTPEELER_KEY_NAMED:
    case VENTPEELER_KEY_ESCAPED:
        name = room_for(token.b);
        printf("  by the name ");
        print_bytes(name, ventpeeler_key_text(search.bytes, token, name));
        free(name);
        break;
    case VENTPEELER_KEY_ZERO_INDEXED:
        printf("  by place %llu, from 0", (unsigned long long)ventpeeler_key_number(token));
        break;
    case VENTPEELER_KEY_ONE_INDEXED:
        printf("  by place %llu, from 1", (unsigned long long)ventpeeler_key_number(token));
        break;
    default:
        printf("  in turn");
    }
}

/* The values that a search asks for: as many as it takes in turn, and up to its highest place. */
struct asked {
    uint64_t in_turn, highest;
};

static void ask(struct asked *asked, struct ventpeeler_token token) {
    uint64_t place = ventpeeler_key_number(token) + (token.key == VENTPEELER_KEY_ZERO_INDEXED);
    if (token.key == VENTPEELER_KEY_NONE) {
        asked->in_turn++;
    } else if ((token.key == VENTPEELER_KEY_ZERO_INDEXED || token.key == VENTPEELER_KEY_ONE_INDEXED) &&
               place > asked->highest) {
        asked->highest = place;
    }
}

/* Prints each placeholder, and how its value is found. */
static struct asked print_placeholders(struct text search, const uint8_t *records, size_t count) {
    struct asked asked = {0, 0};
    for (size_t i = 0; i < count; i++) {
        struct ventpeeler_token token = ventpeeler_token_at(records, i);
        if (token.kind == VENTPEELER_PLACEHOLDER) {
            printf("  at byte %lu: ", (unsigned long)token.start);
            print_bytes(search.bytes + token.start, token.length);
            print_key(search, token);
            printf("\n");
            ask(&asked, token);
        }
    }
    return asked;
}

/* A string that a planner left open swallows a placeholder; each later value then goes one place too early. */
static void compare_values(struct asked asked, int given) {
    uint64_t most = asked.in_turn > asked.highest ? asked.in_turn : asked.highest;
    if (most != (uint64_t)given) {
        fprintf(stderr, "search: note: %d values are given and %llu are asked for\n", given, (unsigned long long)most);
    }
}

static uint64_t dialect_named(const char *name) {
    static const char *const names[] = {"generic", "postgresql", "sqlserver"};
    for (uint64_t dialect = 0; dialect < 3; dialect++) {
        if (strcmp(name, names[dialect]) == 0) {
            return dialect;
        }
    }
    stop("the dialects are generic, postgresql and sqlserver");
    return 0;
}

/* Reads the options and returns the place of the first other argument. */
static int read_options(int argc, char **argv, struct settings *settings) {
    int at = 1;
    for (; at < argc && argv[at][0] == '-' && argv[at][1] != '\0'; at++) {
        if (strcmp(argv[at], "-j") == 0) {
            settings->joins = 1;
        } else if (strcmp(argv[at], "-n") == 0) {
            settings->named = 1;
        } else if (strcmp(argv[at], "-d") == 0 && at + 1 < argc) {
            settings->dialect = dialect_named(argv[++at]);
        } else {
            stop("usage: search [-d generic|postgresql|sqlserver] [-j] [-n] FILE [VALUE ..]");
        }
    }
    if (at == argc) {
        stop("a file with a search, or - for standard input, is needed");
    }
    return at;
}

int main(int argc, char **argv) {
    struct settings settings = {VENTPEELER_GENERIC, 0, 0};
    int at = read_options(argc, argv, &settings);
    struct text search = read_search(argv[at++]);

    struct text key = key_of(search, settings);
    printf("key\n");
    print_bytes(key.bytes, key.length);

    size_t count, escaped;
    uint8_t *records = records_of(search, settings, &count, &escaped);
    printf("\n\n%lu tokens; placeholders\n", (unsigned long)count);
    struct asked asked = print_placeholders(search, records, count);
    if (escaped > 0) {
        printf("\n%lu escaped quotes\n", (unsigned long)escaped);
    }
    if (!settings.named) {
        compare_values(asked, argc - at);
    }

    struct text run = filled(search, settings, argv + at, argc - at);
    printf("\nto run\n");
    print_bytes(run.bytes, run.length);

    free(run.bytes);
    free(records);
    free(key.bytes);
    free(search.bytes);
    return 0;
}
