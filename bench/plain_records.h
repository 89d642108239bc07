/* An image's records read by the plain processor, with a memory or without one. A file that includes it does only one of these,
 * so that the compiler leaves out the other. */
#ifndef PLAIN_RECORDS_H
#define PLAIN_RECORDS_H

#include "images.h"
#include "plain_start.h"

enum {
    MOST_IMAGE_WORDS = 8192
};

/* By the old rules ST has no switch and segments, and an address may have several WDs, of which the last holds. */
typedef enum {
    TODAYS_RULES, OLD_RULES
} rules;

/* What an image records, but for its words, and how many WDs these come in. */
typedef struct {
    kuzhlemor_registers registers;
    size_t words;
    uint64_t wds;
    uint32_t budget;
} image_start;

static inline bool has_mark(const uint8_t *record, const char *mark)
{
    return record[0] == mark[0] && record[1] == mark[1];
}

static inline size_t st_size(rules by)
{
    return by == TODAYS_RULES ? ST_SIZE : STORED_ST_SIZE;
}

/* 41 to 44 and 51 of each record, in order; the number of the first no, or 0. The words go to `memory`, unless it is null. */
static int load(const uint8_t *image, size_t length, rules by, image_start *start, uint64_t *memory)
{
    uint64_t written[MOST_IMAGE_WORDS / 64] = {0};
    bool has_registers = false;
    bool has_memory = false;

    while (length > 0) {
        const uint8_t *numbers = image + 2;
        bool me = length >= 2 && has_mark(image, "ME");
        bool st = length >= 2 && has_mark(image, "ST");
        bool wd = length >= 2 && has_mark(image, "WD");
        bool rn = length >= 2 && has_mark(image, "RN");
        size_t size = st ? st_size(by) : wd ? 14 : 6;

        if (!(me || st || wd || rn) || length < size)
            return 41;
        if (me ? has_memory : !has_memory || (st && has_registers) || (rn && (!has_registers || length > size)))
            return 42;
        if (me) {
            if (number_at(numbers, 4) > MOST_IMAGE_WORDS)
                return 43;
            start->words = number_at(numbers, 4);
            has_memory = true;
        } else if (st) {
            start->registers = by == TODAYS_RULES ? registers_at(numbers) : stored_registers_at(numbers);
            has_registers = true;
        } else if (wd) {
            uint64_t address = number_at(numbers, 4);
            uint64_t bit = (uint64_t)1 << address % 64;

            if (address >= start->words)
                return 44;
            if (by == TODAYS_RULES && (written[address / 64] & bit) != 0)
                return 51;
            written[address / 64] |= bit;
            if (memory != NULL)
                memory[address] = number_at(numbers + 4, 8);
            start->wds++;
        } else {
            start->budget = (uint32_t)number_at(numbers, 4);
            return 0;
        }
        image += size;
        length -= size;
    }
    return 42;
}

/* The same, then 1 to 4. */
static int load_and_ask(const uint8_t *image, size_t length, rules by, image_start *start, uint64_t *memory)
{
    int number = load(image, length, by, start, memory);

    return number != 0 ? number : (int)refusal(&start->registers, start->words);
}

#endif
