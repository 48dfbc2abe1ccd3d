/* Runs a call on a stack of its own, painted before, and tells how deep the paint was touched. */
#ifndef PAINTED_H
#define PAINTED_H

#include "ventpeeler.h"

struct call {
    const uint8_t *statement;
    size_t statement_len;
    uint64_t dialect, joins, named;
    const uint8_t *sheet;
    size_t sheet_len;
    uint8_t *lent;
    size_t lent_len;
    uint64_t answer;
};

void on_painted_stack(void (*run)(struct call *), struct call *call);

#endif
