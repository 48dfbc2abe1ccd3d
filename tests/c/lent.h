/*
 * Buffers whose surroundings are watched, and what the tests of the calls refuse alike.
 *
 * A buffer is lent in four ways: by itself on the heap, where valgrind watches it; ending at a page that can't be touched;
 * starting behind such a page; and at an odd address. In all but the first, bytes of GUARD stand on its open sides.
 */
#ifndef LENT_H
#define LENT_H

#define _GNU_SOURCE
#include "checks.h"

#include <stdlib.h>
#include <sys/mman.h>

#define PAGE ((size_t)4096)

enum placing { ON_HEAP, AT_PAGE_END, AT_PAGE_START, AT_ODD_ADDRESS, PLACINGS };

struct lent {
    uint8_t *bytes; /* what is handed to a call */
    size_t length;
    uint8_t *whole; /* the pages that can be touched, or the heap's block */
    size_t whole_length;
    enum placing placing;
};

/* Pages between two that can't be touched. */
static uint8_t *fenced(size_t length) {
    uint8_t *pages = mmap(NULL, length + 2 * PAGE, PROT_NONE, MAP_PRIVATE | MAP_ANONYMOUS, -1, 0);
    if (pages == MAP_FAILED || mprotect(pages + PAGE, length, PROT_READ | PROT_WRITE) != 0) {
        perror("mmap");
        exit(2);
    }
    return pages + PAGE;
}

static struct lent lend(size_t length, enum placing placing) {
    struct lent lent = {NULL, length, NULL, 0, placing};
    if (placing == ON_HEAP) {
        lent.whole_length = length;
        lent.whole = malloc(length == 0 ? 1 : length);
        lent.bytes = lent.whole;
    } else {
        lent.whole_length = (length + 2 * PAGE) / PAGE * PAGE;
        lent.whole = fenced(lent.whole_length);
        size_t at_end = lent.whole_length - length;
        lent.bytes = lent.whole + (placing == AT_PAGE_END ? at_end : placing == AT_PAGE_START ? 0 : 65);
    }
    if (lent.whole == NULL) {
        exit(2);
    }
    memset(lent.whole, GUARD, lent.whole_length);
    return lent;
}

static struct lent lend_text(const void *text, size_t length, enum placing placing) {
    struct lent lent = lend(length, placing);
    if (length > 0) {
        memcpy(lent.bytes, text, length);
    }
    return lent;
}

static void give_back(struct lent lent) {
    if (lent.placing == ON_HEAP) {
        free(lent.whole);
    } else {
        munmap(lent.whole - PAGE, lent.whole_length + 2 * PAGE);
    }
}

/* The buffer starts with the bytes expected, and every other byte around them is as it was. */
static int holds_only(struct lent lent, const void *expected, size_t length) {
    return (length == 0 || memcmp(lent.bytes, expected, length) == 0) && all_guard(lent.whole, lent.bytes) &&
           all_guard(lent.bytes + length, lent.whole + lent.whole_length);
}

/* Number and detail as one, to stand in a list of cases. */
struct expected {
    unsigned number;
    uint64_t detail;
};

struct settings {
    uint64_t dialect, joins, named;
};

/* Values that are no setting: a flag refuses 2 as well. Those above 2^32 have a good low half. */
static const uint64_t no_setting[] = {3,
                                      256,
                                      65536,
                                      (uint64_t)1 << 31,
                                      (uint64_t)1 << 32,
                                      ((uint64_t)1 << 32) + 1,
                                      (uint64_t)1 << 56,
                                      (uint64_t)1 << 63,
                                      ((uint64_t)1 << 63) + 1,
                                      UINT64_MAX - 1,
                                      UINT64_MAX};
#define NO_SETTINGS (sizeof no_setting / sizeof no_setting[0])

/* Ill-formed texts, and where the first ill-formed sequence starts, by table 3-7 of the Unicode Standard. */
static const struct {
    const char *text;
    size_t at;
} ill_formed[] = {
    {"\xff", 0},
    {"a\xff", 1},
    {"\x80", 0},
    {"ab\xe2\x82", 2},           /* cut off at the end */
    {"\xe2\x82\xac\xe2\x82", 3}, /* behind a good character */
    {"\xc0\x80", 0},             /* U+0000 in two bytes */
    {"\xe0\x9f\xbf", 0},         /* U+07FF in three */
    {"\xed\xa0\x80", 0},         /* a surrogate */
    {"\xf0\x8f\xbf\xbf", 0},     /* U+FFFF in four */
    {"\xf4\x90\x80\x80", 0},     /* above U+10FFFF */
    {"'\xc3'", 1},               /* within a string */
    {"-- \xc3\n", 3},            /* within a comment */
};
#define ILL_FORMED (sizeof ill_formed / sizeof ill_formed[0])

#endif
