/* Images and listings of the plain processor. */
#include "plain_records.h"
#include "plain_step.h"

#include <string.h>

/* What an image records. */
typedef struct {
    image_start start;
    uint64_t memory[MOST_IMAGE_WORDS];
} image_machine;

/* A number in decimal, and the byte that ends it. */
static uint8_t *put(uint8_t *to, uint64_t number, uint8_t end)
{
    uint8_t digits[20];
    int count = 0;

    do {
        digits[count++] = (uint8_t)('0' + number % 10);
        number /= 10;
    } while (number != 0);
    while (count > 0)
        *to++ = digits[--count];
    *to++ = end;
    return to;
}

static uint8_t *put_word(uint8_t *to, const char *word)
{
    while (*word != 0)
        *to++ = (uint8_t)*word++;
    return to;
}

/* The end of a line: a pointer, and a number of pointer words. */
static uint8_t *put_pointer(uint8_t *to, kuzhlemor_pointer p, uint64_t pointer_words)
{
    to = put(to, p.ring, ' ');
    to = put(to, p.segment, ' ');
    to = put(to, p.word, ' ');
    return put(to, pointer_words, '\n');
}

size_t plain_list(kuzhlemor_registers *registers, uint64_t *memory, size_t words, uint32_t budget, uint8_t *text)
{
    uint8_t *to = text;
    uint64_t total = 0;

    if (refusal(registers, words) != 0)
        return 0;
    for (uint32_t count = 0; count < budget; count++) {
        kuzhlemor_pointer at;
        uint32_t pointer_words;
        int end = step(registers, memory, words, &at, &pointer_words);

        if (end != COMPLETED && end != HALTED && !deliver(registers, memory, words, end, at)) {
            to = put(put(put_word(to, "fault "), (uint32_t)end, ' '), count, ' ');
            return (size_t)(put_pointer(to, at, total) - text);
        }
        total += pointer_words;
        to = put_pointer(put(to, count + 1, ' '), registers->ipr, pointer_words);
        if (end == HALTED)
            return (size_t)(put(put(put_word(to, "halted "), count + 1, ' '), total, '\n') - text);
    }
    return (size_t)(put(put(put_word(to, "spent "), budget, ' '), total, '\n') - text);
}

int64_t plain_bench(const uint8_t *image, size_t image_length, uint8_t *text, size_t text_length)
{
    image_machine m = {0};
    int number = load_and_ask(image, image_length, TODAYS_RULES, &m.start, m.memory);

    if (number == 0 && text_length < 64 * ((uint64_t)m.start.budget + 1))
        number = 45;
    if (number != 0)
        return -number;
    return (int64_t)plain_list(&m.start.registers, m.memory, m.start.words, m.start.budget, text);
}

/* The size of a record of an accepted stored image. */
static size_t record_size(const uint8_t *record)
{
    return has_mark(record, "ST") ? STORED_ST_SIZE : has_mark(record, "WD") ? 14 : 6;
}

/* Drops all WDs of an accepted stored image but the last of each address. Answers what is left, and in `st` where ST ends. */
static size_t drop_earlier(uint8_t *image, size_t length, size_t *st)
{
    size_t last[MOST_IMAGE_WORDS];
    size_t kept = 0;
    size_t size;

    for (size_t at = 0; at < length; at += record_size(image + at))
        if (has_mark(image + at, "WD"))
            last[number_at(image + at + 2, 4)] = at;
    for (size_t at = 0; at < length; at += size) {
        size = record_size(image + at);
        if (has_mark(image + at, "WD") && last[number_at(image + at + 2, 4)] != at)
            continue;
        memmove(image + kept, image + at, size);
        kept += size;
        if (size == STORED_ST_SIZE)
            *st = kept;
    }
    return kept;
}

int64_t plain_convert(uint8_t *image, size_t length)
{
    image_machine m = {0};
    size_t stored = length < ST_GAIN ? 0 : length - ST_GAIN;
    size_t st = 0;
    size_t kept;
    int number = load_and_ask(image, stored, OLD_RULES, &m.start, m.memory);

    if (number != 0)
        return -number;
    kept = drop_earlier(image, stored, &st);
    memmove(image + st + ST_GAIN, image + st, kept - st);
    memset(image + st, 0, ST_GAIN);
    return (int64_t)(kept + ST_GAIN);
}
