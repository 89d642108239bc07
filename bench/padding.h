/* The bytes of a register record that belong to no field, for C programs that lend records. */
#ifndef PADDING_H
#define PADDING_H

#include "kuzhlemor.h"

enum {
    PADDING = 15
};

/* Puts these bytes there. The compiler may drop padding wherever a record is assigned: this comes just before the call. */
static inline void put_padding(kuzhlemor_registers *registers, const uint8_t bytes[PADDING])
{
    /* After DBR's length, after IPR's ring, after the ring of PR0 to PR7, and behind the handler segment. */
    static const uint8_t offsets[PADDING] = {14, 15, 17, 23, 29, 35, 41, 47, 53, 59, 65, 76, 77, 78, 79};
    unsigned char *record = (unsigned char *)registers;

    for (int k = 0; k < PADDING; k++)
        record[offsets[k]] = bytes[k];
}

#endif
