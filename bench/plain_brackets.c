/* Brackets set by a table, as 02 says it: one segment after the other, each against every row. */
#include "plain.h"
#include "words.h"

#include <stdbool.h>

enum {
    MOST_WORDS = 16777216,
    MOST_DESCRIPTORS = 4096,
    MOST_ROWS = 32
};

/* R1 to R3 and the flags R, W and E: bits 40 to 51. */
static const uint64_t fields = (uint64_t)0xfff << 40;

static bool is_in(unsigned segment, const kuzhlemor_row *row)
{
    return row->first <= segment && segment <= row->last;
}

/* How many rows a segment is in. */
static size_t rows_with(unsigned segment, const kuzhlemor_row *rows, size_t row_count)
{
    size_t count = 0;

    for (size_t k = 0; k < row_count; k++)
        if (is_in(segment, &rows[k]))
            count++;
    return count;
}

/* 53. */
static bool rows_pass(const kuzhlemor_row *rows, size_t row_count, uint16_t dbr_length)
{
    if (row_count > MOST_ROWS)
        return false;
    for (size_t k = 0; k < row_count; k++) {
        const kuzhlemor_row *row = &rows[k];

        if (row->first > row->last || row->last >= dbr_length)
            return false;
        if (row->r1 > row->r2 || row->r2 > row->r3 || row->r3 > 7)
            return false;
    }
    return true;
}

/* The number of the first no, or 0. The address may be any number, so the sum is made in 64 bits. */
static uint32_t refusal(size_t words, uint32_t dbr_address, uint16_t dbr_length, const kuzhlemor_row *rows, size_t row_count)
{
    if (words > MOST_WORDS)
        return 1;
    if (dbr_length > MOST_DESCRIPTORS || (uint64_t)dbr_address + dbr_length > words)
        return 4;
    if (!rows_pass(rows, row_count, dbr_length))
        return 53;
    for (unsigned segment = 0; segment < dbr_length; segment++) {
        size_t count = rows_with(segment, rows, row_count);

        if (count == 0)
            return 54;
        if (count > 1)
            return 55;
    }
    return 0;
}

static uint64_t with_brackets(uint64_t descriptor, const kuzhlemor_row *row)
{
    unsigned flags = (row->read != 0 ? R : 0) | (row->write != 0 ? W : 0) | (row->execute != 0 ? E : 0);

    return (descriptor & ~fields) | descriptor_word(0, 0, row->r1, row->r2, row->r3, flags, 0);
}

uint32_t plain_set_brackets(uint64_t *memory, size_t words, uint32_t dbr_address, uint16_t dbr_length,
                            const kuzhlemor_row *rows, size_t row_count)
{
    uint32_t number = refusal(words, dbr_address, dbr_length, rows, row_count);

    if (number != 0)
        return number;
    for (unsigned segment = 0; segment < dbr_length; segment++)
        for (size_t k = 0; k < row_count; k++)
            if (is_in(segment, &rows[k]))
                memory[dbr_address + segment] = with_brackets(memory[dbr_address + segment], &rows[k]);
    return 0;
}
