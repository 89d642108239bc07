/* The records of an image, written and read, for C programs that make images or take them. */
#ifndef IMAGES_H
#define IMAGES_H

#include "kuzhlemor.h"

/* Bytes of an ST with its mark, of a stored image's, and how many more the first has. */
enum {
    ST_SIZE = 66,
    STORED_ST_SIZE = 61,
    ST_GAIN = ST_SIZE - STORED_ST_SIZE
};

/* The most bytes that an image of `words` words takes. */
#define IMAGE_ROOM(words) (6 + ST_SIZE + 14 * (size_t)(words) + 6)

/* A number, high byte first. */
static inline uint8_t *put_number(uint8_t *to, uint64_t number, unsigned bytes)
{
    for (unsigned k = 0; k < bytes; k++)
        to[k] = (uint8_t)(number >> 8 * (bytes - 1 - k));
    return to + bytes;
}

static inline uint8_t *put_mark(uint8_t *to, const char *mark)
{
    to[0] = (uint8_t)mark[0];
    to[1] = (uint8_t)mark[1];
    return to + 2;
}

static inline uint8_t *put_me(uint8_t *to, uint32_t words)
{
    return put_number(put_mark(to, "ME"), words, 4);
}

static inline uint8_t *put_image_pointer(uint8_t *to, kuzhlemor_pointer p)
{
    return put_number(put_number(put_number(to, p.ring, 1), p.segment, 2), p.word, 2);
}

/* As the old rules have it: without the switch and the two segments. */
static inline uint8_t *put_stored_st(uint8_t *to, const kuzhlemor_registers *r)
{
    to = put_number(put_mark(to, "ST"), r->a, 8);
    to = put_number(put_number(to, r->dbr.address, 4), r->dbr.length, 2);
    to = put_image_pointer(to, r->ipr);
    for (int k = 0; k < 8; k++)
        to = put_image_pointer(to, r->prs[k]);
    return to;
}

static inline uint8_t *put_st(uint8_t *to, const kuzhlemor_registers *r)
{
    to = put_number(put_stored_st(to, r), r->fault_switch, 1);
    return put_number(put_number(to, r->save_segment, 2), r->handler_segment, 2);
}

static inline uint8_t *put_wd(uint8_t *to, uint32_t address, uint64_t word)
{
    return put_number(put_number(put_mark(to, "WD"), address, 4), word, 8);
}

static inline uint8_t *put_rn(uint8_t *to, uint32_t budget)
{
    return put_number(put_mark(to, "RN"), budget, 4);
}

/* A number, high byte first, and what a stored ST and today's have of such numbers after their mark. */
static inline uint64_t number_at(const uint8_t *bytes, size_t count)
{
    uint64_t number = 0;

    for (size_t k = 0; k < count; k++)
        number = number << 8 | bytes[k];
    return number;
}

static inline kuzhlemor_pointer pointer_at(const uint8_t *bytes)
{
    return (kuzhlemor_pointer){bytes[0], (uint16_t)number_at(bytes + 1, 2), (uint16_t)number_at(bytes + 3, 2)};
}

static inline kuzhlemor_registers stored_registers_at(const uint8_t *bytes)
{
    kuzhlemor_registers r = {.a = number_at(bytes, 8), .ipr = pointer_at(bytes + 14)};

    r.dbr = (kuzhlemor_dbr){(uint32_t)number_at(bytes + 8, 4), (uint16_t)number_at(bytes + 12, 2)};
    for (size_t k = 0; k < 8; k++)
        r.prs[k] = pointer_at(bytes + 19 + 5 * k);
    return r;
}

static inline kuzhlemor_registers registers_at(const uint8_t *bytes)
{
    kuzhlemor_registers r = stored_registers_at(bytes);

    r.fault_switch = bytes[59];
    r.save_segment = (uint16_t)number_at(bytes + 60, 2);
    r.handler_segment = (uint16_t)number_at(bytes + 62, 2);
    return r;
}

/* A machine's image: its words that aren't zero, its registers and a budget. Answers the image's length. */
static inline size_t put_image(uint8_t *image, const kuzhlemor_registers *r, const uint64_t *memory, uint32_t words,
                               uint32_t budget)
{
    uint8_t *to = put_st(put_me(image, words), r);

    for (uint32_t k = 0; k < words; k++)
        if (memory[k] != 0)
            to = put_wd(to, k, memory[k]);
    return (size_t)(put_rn(to, budget) - image);
}

#endif
