/* The plain processor with sixteen descriptor records that the caller lends (02, L7), written from documents 01 and 02. */
#include "plain_close.h"

#include <stdbool.h>

enum {
    RECORDS = 16,
    LATEST = RECORDS - 1
};

/* The records of the call that is going on. */
static kuzhlemor_close_record *held;

/* The record with that count is used: it has the highest one then, and those above its old one are lowered. */
static void use(uint8_t count)
{
    for (int k = 0; k < RECORDS; k++) {
        if (held[k].count == count)
            held[k].count = LATEST;
        else if (held[k].count > count)
            held[k].count--;
    }
}

/* The first valid record of the segment, or else the word itself, which takes the place of the record used longest ago. */
static uint64_t look_up(const uint64_t *place, uint16_t segment)
{
    for (int k = 0; k < RECORDS; k++)
        if (held[k].valid == 1 && held[k].segment == segment) {
            use(held[k].count);
            return held[k].descriptor;
        }
    for (int k = 0; k < RECORDS; k++)
        if (held[k].count == 0) {
            held[k].descriptor = *place;
            held[k].segment = segment;
            held[k].valid = 1;
        }
    use(0);
    return *place;
}

static void clear(void)
{
    for (int k = 0; k < RECORDS; k++)
        held[k].valid = 0;
}

/* Words were written: was one of them a descriptor's? */
static void words_written(const kuzhlemor_registers *r, uint32_t first, uint32_t count)
{
    if (first < r->dbr.address + r->dbr.length && r->dbr.address < first + count)
        clear();
}

#define DESCRIPTOR_WORD(place, segment) look_up(place, segment)
#define WORDS_WRITTEN(r, first, count) words_written(r, first, count)
#define DBR_TAKEN_UP() clear()
#include "plain_step.h"

/* Counts other than 0 to 15, each once, are made these in order, and no record is valid then. */
static void put_in_order(void)
{
    bool seen[256] = {false};
    bool each = true;

    for (int k = 0; k < RECORDS; k++)
        seen[held[k].count] = true;
    for (int k = 0; k < RECORDS; k++)
        each = each && seen[k];
    if (each)
        return;
    clear();
    for (int k = 0; k < RECORDS; k++)
        held[k].count = (uint8_t)k;
}

/* 63, then 1 to 4: the number of the first no, or 0 and the records are in order. */
static uint32_t begin(const kuzhlemor_registers *registers, size_t words, kuzhlemor_close_record *records, size_t record_count)
{
    uint32_t number = record_count == RECORDS ? refusal(registers, words) : 63;

    if (number == 0) {
        held = records;
        put_in_order();
    }
    return number;
}

kuzhlemor_reply plain_run_close(kuzhlemor_registers *registers, uint64_t *memory, size_t words, kuzhlemor_close_record *records,
                                size_t record_count, uint32_t budget)
{
    uint32_t number = begin(registers, words, records, record_count);
    uint64_t total = 0;

    if (number != 0)
        return (kuzhlemor_reply){.kind = KUZHLEMOR_REFUSED, .number = number};
    for (uint32_t count = 0; count < budget; count++) {
        kuzhlemor_pointer at;
        uint32_t pointer_words;
        int end = step(registers, memory, words, &at, &pointer_words);

        if (end != COMPLETED && end != HALTED && !deliver(registers, memory, words, end, at))
            return (kuzhlemor_reply){KUZHLEMOR_FAULT, (uint32_t)end, count, at, total};
        total += pointer_words;
        if (end == HALTED)
            return (kuzhlemor_reply){.kind = KUZHLEMOR_HALTED, .count = count + 1, .pointer_words = total};
    }
    return (kuzhlemor_reply){.kind = KUZHLEMOR_SPENT, .count = budget, .pointer_words = total};
}

kuzhlemor_reply plain_step_close(kuzhlemor_registers *registers, uint64_t *memory, size_t words,
                                 kuzhlemor_close_record *records, size_t record_count)
{
    uint32_t number = begin(registers, words, records, record_count);
    kuzhlemor_pointer at;
    uint32_t pointer_words;
    int end;

    if (number != 0)
        return (kuzhlemor_reply){.kind = KUZHLEMOR_REFUSED, .number = number};
    end = step(registers, memory, words, &at, &pointer_words);
    if (end == HALTED)
        return (kuzhlemor_reply){.kind = KUZHLEMOR_HALTED, .count = 1, .pointer_words = pointer_words};
    if (end == COMPLETED || deliver(registers, memory, words, end, at))
        return (kuzhlemor_reply){.kind = KUZHLEMOR_SPENT, .count = 1, .pointer_words = pointer_words};
    return (kuzhlemor_reply){KUZHLEMOR_FAULT, (uint32_t)end, 0, at, pointer_words};
}
