/* The bounds of document 01, and what it asks before a step is taken. */
#ifndef PLAIN_START_H
#define PLAIN_START_H

#include "plain.h"

#include <stdbool.h>

enum {
    MOST_WORDS = 16777216,
    MOST_DESCRIPTORS = 4096,
    MOST_POINTER_WORDS = 64
};

static bool in_range(kuzhlemor_pointer p)
{
    return p.ring <= 7 && p.segment <= 4095;
}

/* 1 to 4: the number of the first no, or 0. */
static uint32_t refusal(const kuzhlemor_registers *r, size_t words)
{
    if (words > MOST_WORDS)
        return 1;
    if (!in_range(r->ipr) || r->dbr.address > 16777215)
        return 2;
    for (int k = 0; k < 8; k++)
        if (!in_range(r->prs[k]))
            return 2;
    if (r->fault_switch > 1 || r->save_segment > 4095 || r->handler_segment > 4095)
        return 2;
    for (int k = 0; k < 8; k++)
        if (r->prs[k].ring < r->ipr.ring)
            return 3;
    if (r->dbr.length > MOST_DESCRIPTORS || r->dbr.address + r->dbr.length > words)
        return 4;
    return 0;
}

#endif
