/* Equality of replies, checks, needs and registers, field by field: padding doesn't count. */
#ifndef SAME_H
#define SAME_H

#include "kuzhlemor.h"

#include <stdbool.h>

static inline bool same_pointer(kuzhlemor_pointer x, kuzhlemor_pointer y)
{
    return x.ring == y.ring && x.segment == y.segment && x.word == y.word;
}

static inline bool same_reply(kuzhlemor_reply x, kuzhlemor_reply y)
{
    return x.kind == y.kind && x.number == y.number && x.count == y.count && same_pointer(x.pointer, y.pointer) &&
           x.pointer_words == y.pointer_words;
}

static inline bool same_check(kuzhlemor_check x, kuzhlemor_check y)
{
    return x.kind == y.kind && x.number == y.number && x.ring == y.ring && same_pointer(x.pointer, y.pointer);
}

static inline bool same_needs(kuzhlemor_image_needs x, kuzhlemor_image_needs y)
{
    return x.number == y.number && x.memory == y.memory && x.records == y.records && x.budget == y.budget &&
           x.lines == y.lines && x.pointers == y.pointers;
}

static inline bool same_registers(const kuzhlemor_registers *x, const kuzhlemor_registers *y)
{
    if (x->a != y->a || x->dbr.address != y->dbr.address || x->dbr.length != y->dbr.length ||
        !same_pointer(x->ipr, y->ipr) || x->fault_switch != y->fault_switch || x->save_segment != y->save_segment ||
        x->handler_segment != y->handler_segment)
        return false;
    for (int k = 0; k < 8; k++)
        if (!same_pointer(x->prs[k], y->prs[k]))
            return false;
    return true;
}

#endif
