/* What the parts of the example share. */
#ifndef SEARCH_H
#define SEARCH_H

#include "ventpeeler.h"

struct settings {
    uint64_t dialect, joins, named;
};

/* Bytes on the heap. */
struct text {
    uint8_t *bytes;
    size_t length;
};

void *room_for(size_t bytes);

/* Says in words why a call was refused, and ends the program. */
void refused(const char *call, uint64_t answer);

/* The search with the values put in: `name=value` each where the settings say named, else taken in turn and by place. */
struct text filled(struct text search, struct settings settings, char **values, int count);

#endif
