/* What the tests in C share: a count of checks. C99 and C++. */
#ifndef CHECKS_H
#define CHECKS_H

#include "ventpeeler.h"

#include <stdio.h>
#include <string.h>

/* The byte that stands where nothing may be written. */
#define GUARD 0xA5

static unsigned long passed, failed;

static void check(int holds, const char *name, const char *what) {
    if (holds) {
        passed++;
    } else {
        failed++;
        printf("%s: %s\n", name, what);
    }
}

static int tell(void) {
    printf("%lu passed, %lu failed\n", passed, failed);
    return failed != 0;
}

static void check_answer(uint64_t answer, unsigned number, uint64_t detail, const char *name) {
    char what[128];
    snprintf(what, sizeof what, "answered %u %llu, not %u %llu", ventpeeler_number(answer),
             (unsigned long long)ventpeeler_detail(answer), number, (unsigned long long)detail);
    check(ventpeeler_number(answer) == number && ventpeeler_detail(answer) == detail, name, what);
}

static int all_guard(const uint8_t *from, const uint8_t *to) {
    for (; from < to; from++) {
        if (*from != GUARD) {
            return 0;
        }
    }
    return 1;
}

#endif
