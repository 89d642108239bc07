/* A fuzzer's input compared: the plain C processor, built for coverage, and the library must give the same answer, registers
 * and memory, byte for byte. An input's first byte says whether the rest is an image, which is run and asked for its needs, as it
 * is and converted, or a register record and a memory, which are run, and asked whether a call may go to some pointers. Of either
 * sort, the rest is also taken for such a memory, and its end for a table that sets brackets in it; and for words of descriptors,
 * old ones and today's, which are converted either way. */
#include "images.h"
#include "kuzhlemor.h"
#include "padding.h"
#include "plain.h"
#include "same.h"
#include "words.h"

#include <stdio.h>
#include <stdlib.h>
#include <string.h>

enum {
    WORDS = 256,
    BUDGET = 200,
    TEXT = 64 * (BUDGET + 1) + 32,
    RECORD = ST_SIZE - 2,
    ROWS = 40,
    ROW_BYTES = 4
};

static void require(int same, const char *what)
{
    if (!same) {
        fprintf(stderr, "fuzz: different: %s\n", what);
        abort();
    }
}

/* The needs of an image, for which a run with this much room for its text had this answer: the same number, or no refusal but 45,
 * where the text may have more lines than there is room for. */
static void compare_needs(const uint8_t *image, size_t length, size_t room, int64_t answer)
{
    kuzhlemor_image_needs x = plain_needs(image, length);
    kuzhlemor_image_needs y = kuzhlemor_needs(image, length);
    int64_t number = answer < 0 ? -answer : 0;

    require(same_needs(x, y), "an image's needs");
    if (number == 45)
        require(y.number == 0 && y.lines > room / 64, "the needs of an image with too long a text");
    else
        require(y.number == (uint64_t)number, "the number of an image's needs and of the bench's answer");
}

/* A text buffer a little short, just right or longer, so that 45 is reached from both sides. */
static void compare_images(const uint8_t *image, size_t length, uint8_t how)
{
    static uint8_t x[TEXT];
    static uint8_t y[TEXT];
    size_t room = how & 1 ? 64 * (size_t)(how >> 1) : TEXT - (size_t)(how >> 1) % 64;
    int64_t plain;
    int64_t library;

    memset(x, 0xa5, sizeof x);
    memset(y, 0xa5, sizeof y);
    plain = plain_bench(image, length, x, room);
    library = kuzhlemor_bench(image, length, y, room);
    require(plain == library, "the bench's answer");
    require(memcmp(x, y, sizeof x) == 0, "a byte of the buffer");
    compare_needs(image, length, room, library);
}

/* An image converted in place, with room behind it and a byte that must stay; what it becomes is run. */
static void compare_conversions(const uint8_t *image, size_t length, uint8_t how)
{
    size_t lent = length + ST_GAIN;
    uint8_t *x = malloc(lent + 1);
    uint8_t *y = malloc(lent + 1);
    int64_t plain;

    require(x != NULL && y != NULL, "no memory");
    memset(x, 0xa5, lent + 1);
    memcpy(x, image, length);
    memcpy(y, x, lent + 1);
    plain = plain_convert(x, lent);
    require(plain == kuzhlemor_convert(y, lent), "the converter's answer");
    require(memcmp(x, y, lent + 1) == 0, "a byte of the converted image");
    if (plain > 0)
        compare_images(x, (size_t)plain, how);
    free(x);
    free(y);
}

/* CALL's check of the pointer that three of the input's bytes make, and of each PR. */
static void compare_checks(const kuzhlemor_registers *r, const kuzhlemor_registers *s, const uint64_t *memory, size_t words,
                           const uint8_t *bytes)
{
    for (int k = 0; k <= 8; k++) {
        kuzhlemor_pointer p = k < 8 ? r->prs[k] : (kuzhlemor_pointer){bytes[0] >> 4, bytes[1], bytes[2]};
        kuzhlemor_check x = plain_may_call(r, memory, words, p.ring, p.segment, p.word);
        kuzhlemor_check y = kuzhlemor_may_call(s, memory, words, p.ring, p.segment, p.word);

        require(same_check(x, y), "a check's answer");
    }
}

/* The words that the bytes hold; answers how many. */
static size_t words_at(const uint8_t *bytes, size_t length, uint64_t memory[WORDS])
{
    size_t words = length / 8;

    if (words > WORDS)
        words = WORDS;
    for (size_t k = 0; k < words; k++)
        memory[k] = number_at(bytes + 8 * k, 8);
    return words;
}

/* A row from four bytes: a length and what is wrong with it, rings, flags, and what is wrong with the rings. It begins where the
 * one before it ended, and its rings don't fall, so that many tables are whole but for little. */
static kuzhlemor_row row_at(const uint8_t *bytes, unsigned first, unsigned segments)
{
    unsigned last = first + bytes[0] % 16;
    kuzhlemor_row row = {.first = (uint16_t)first};

    row.last = (uint16_t)(last < segments && bytes[0] < 0xe0 ? last : segments - 1);
    switch (bytes[0] >> 4) {
    case 1:
        row.first--;
        break;
    case 2:
        row.first++;
        break;
    case 3:
        row.last = (uint16_t)segments;
        break;
    case 4:
        row.first = bytes[1];
        row.last = bytes[2];
        break;
    default:
        break;
    }
    row.r3 = bytes[3] == 3 ? bytes[1] : bytes[1] & 7;
    row.r2 = bytes[3] == 2 ? bytes[1] : row.r3 * (bytes[1] >> 3 & 3) / 3;
    row.r1 = bytes[3] == 1 ? bytes[1] : row.r2 * (bytes[1] >> 6) / 3;
    row.read = bytes[2] & 0x03;
    row.write = bytes[2] & 0x1c;
    row.execute = bytes[2] & 0xe0;
    return row;
}

/* Rows until all segments have one, from the input's end backwards, each put at some place among those before it. */
static size_t table_at(const uint8_t *bytes, size_t length, unsigned segments, kuzhlemor_row rows[ROWS])
{
    unsigned next = 0;
    size_t count = 0;

    while (count < ROWS && next < segments && ROW_BYTES * (count + 1) <= length) {
        const uint8_t *from = bytes + length - ROW_BYTES * (count + 1);
        size_t place = from[3] % (count + 1);
        kuzhlemor_row row = row_at(from, next, segments);

        rows[count++] = rows[place];
        rows[place] = row;
        next = row.last + 1u;
    }
    return count;
}

/* The machine's DBR, or one that is a little off. */
static kuzhlemor_dbr dbr_near(kuzhlemor_dbr dbr, uint8_t how)
{
    switch (how % 16) {
    case 1:
        dbr.address++;
        break;
    case 2:
        dbr.address--;
        break;
    case 3:
        dbr.length++;
        break;
    case 4:
        dbr.length--;
        break;
    case 5:
        dbr.address = UINT32_MAX - dbr.length + 1;
        break;
    default:
        break;
    }
    return dbr;
}

/* A table for the record's DBR, with one near it. */
static void compare_tables(const uint8_t *bytes, size_t length)
{
    static uint64_t x[WORDS];
    static uint64_t y[WORDS];
    kuzhlemor_row rows[ROWS] = {{0}};
    kuzhlemor_row lent[ROWS];
    kuzhlemor_dbr recorded;
    kuzhlemor_dbr dbr;
    size_t words;
    size_t count;

    if (length < RECORD)
        return;
    words = words_at(bytes + RECORD, length - RECORD, x);
    memcpy(y, x, sizeof y);
    recorded = registers_at(bytes).dbr;
    dbr = dbr_near(recorded, bytes[length - 1]);
    count = table_at(bytes, length, recorded.length, rows);
    memcpy(lent, rows, sizeof lent);
    require(plain_set_brackets(x, words, dbr.address, dbr.length, rows, count) ==
                kuzhlemor_set_brackets(y, words, dbr.address, dbr.length, lent, count),
            "a table's answer");
    require(memcmp(x, y, sizeof x) == 0, "a word after a table");
    require(memcmp(rows, lent, sizeof rows) == 0, "a row");
}

/* Converts them one way; `words` become what is left. */
static void compare_either_way(uint64_t words[WORDS], size_t count, int back)
{
    static uint64_t lent[WORDS];
    kuzhlemor_old_answer plain;
    kuzhlemor_old_answer library;

    memcpy(lent, words, sizeof lent);
    plain = back ? plain_to_old(words, count) : plain_from_old(words, count);
    library = back ? kuzhlemor_to_old(lent, count) : kuzhlemor_from_old(lent, count);
    require(plain.number == library.number && plain.index == library.index, "a conversion's answer");
    require(memcmp(words, lent, sizeof lent) == 0, "a word after a conversion");
}

/* The words as they are, either way; without the bits that 56 is about, but for one word; and what they are now, with a word
 * changed, back. */
static void compare_descriptors(const uint8_t *bytes, size_t length, uint8_t how)
{
    static uint64_t words[WORDS];
    size_t count = words_at(bytes, length, words);

    compare_either_way(words, count, 1);
    compare_either_way(words, count, 0);
    for (size_t k = 0; k < count; k++)
        if (k != how)
            words[k] &= 0x00000fffffffffff;
    compare_either_way(words, count, 0);
    if (count > 0)
        words[how % count] ^= number_at(bytes + length - 8, 8);
    compare_either_way(words, count, 1);
}

/* The record of an ST, then the words of memory; checks, a run, and a step after it. The library's record has the input's last bytes
 * as padding, whatever else they are. */
static void compare_machines(const uint8_t *bytes, size_t length, uint8_t how)
{
    static uint64_t x[WORDS];
    static uint64_t y[WORDS];
    kuzhlemor_registers r;
    kuzhlemor_registers s;
    size_t words;
    uint32_t budget = how >> 1;

    if (length < RECORD)
        return;
    r = registers_at(bytes);
    words = words_at(bytes + RECORD, length - RECORD, x);
    memcpy(y, x, sizeof y);
    s = r;
    put_padding(&s, bytes + length - PADDING);
    compare_checks(&r, &s, y, words, bytes + length - 3);
    require(same_reply(plain_run(&r, x, words, budget), kuzhlemor_run(&s, y, words, budget)), "a run's reply");
    require(same_registers(&r, &s), "the registers after a run");
    require(memcmp(x, y, 8 * words) == 0, "a word after a run");
    put_padding(&s, bytes + length - PADDING);
    require(same_reply(plain_step(&r, x, words), kuzhlemor_step(&s, y, words)), "a step's reply");
    require(same_registers(&r, &s), "the registers after a step");
    require(memcmp(x, y, 8 * words) == 0, "a word after a step");
}

int LLVMFuzzerTestOneInput(const uint8_t *data, size_t size)
{
    if (size < 2)
        return 0;
    if (data[0] & 1) {
        compare_images(data + 2, size - 2, data[1]);
        compare_conversions(data + 2, size - 2, data[1]);
    } else {
        compare_machines(data + 2, size - 2, data[1]);
    }
    compare_tables(data + 2, size - 2);
    compare_descriptors(data + 2, size - 2, data[1]);
    return 0;
}
