/* Descriptors of the oldest benches made into today's and back, as 02 says it: every word is asked before one is written. */
#include "plain.h"

#include <stdbool.h>

/* ADDRESS and LENGTH, alike in both. */
static const uint64_t kept = 0x000000ffffffffff;

/* An old word: R, W and E in bits 40 to 42, user in 43. */
static const uint64_t old_flags = 0x0000070000000000;
static const uint64_t old_user = 0x0000080000000000;
static const uint64_t old_rest = 0xfffff00000000000;

/* Today's: R1, R2 and R3 from 40, R, W and E in 49 to 51, V in 52, GATE from 53. */
static const uint64_t new_rings = 0x0001ff0000000000;
static const uint64_t new_flags = 0x000e000000000000;
static const uint64_t new_v = 0x0010000000000000;
static const uint64_t new_gate = 0xffe0000000000000;
static const uint64_t rings_4_4_4 = 0x0001240000000000;

enum {
    FLAGS_MOVE = 49 - 40
};

/* What a word becomes. */
static uint64_t renewed(uint64_t old)
{
    return (old & kept) | (old & old_flags) << FLAGS_MOVE | ((old & old_user) != 0 ? rings_4_4_4 : 0) | new_v;
}

static uint64_t made_old(uint64_t word)
{
    return (word & kept) | (word & new_flags) >> FLAGS_MOVE | ((word & new_rings) != 0 ? old_user : 0);
}

/* 57. */
static bool has_old_form(uint64_t word)
{
    uint64_t rings = word & new_rings;

    return (word & (new_v | new_gate)) == new_v && (rings == rings_4_4_4 || rings == 0);
}

kuzhlemor_old_answer plain_from_old(uint64_t *words, size_t count)
{
    for (size_t k = 0; k < count; k++)
        if ((words[k] & old_rest) != 0)
            return (kuzhlemor_old_answer){56, k};
    for (size_t k = 0; k < count; k++)
        words[k] = renewed(words[k]);
    return (kuzhlemor_old_answer){0, 0};
}

kuzhlemor_old_answer plain_to_old(uint64_t *words, size_t count)
{
    for (size_t k = 0; k < count; k++)
        if (!has_old_form(words[k]))
            return (kuzhlemor_old_answer){57, k};
    for (size_t k = 0; k < count; k++)
        words[k] = made_old(words[k]);
    return (kuzhlemor_old_answer){0, 0};
}
