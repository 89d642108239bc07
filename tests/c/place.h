/* What a test lends, at the edge of pages that can't be touched. */
#ifndef PLACE_H
#define PLACE_H

#include <stdbool.h>
#include <stddef.h>

enum {
    PAGE = 4096
};

/* Pages between two that can't be touched. What is lent lies at their start or their end, the rest holds canaries. */
typedef struct {
    unsigned char *start;
    size_t room;
    unsigned char *lent;
    size_t size;
} place;

place new_place(size_t pages);

/* Where a copy of these bytes lies now. */
void *lend(place *p, const void *from, size_t size, bool at_end);

/* Copies what was lent to `to`, and checks that no byte beside it is written. */
void take_back(const place *p, void *to);

#endif
