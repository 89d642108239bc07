/* kuzhlemor_set_brackets as a host calls it: answers and words worked out by hand (each number by each of its causes at the
 * boundary, every field and flag, every bit of a descriptor), every table of up to three rows over up to three segments, a run
 * by what a table has set, and random tables, most of them whole but for one damage, against plain C. Memory and rows lie at the
 * edge of pages that can't be touched, and the rows stay. */
#include "machine.h"
#include "place.h"

#include <inttypes.h>
#include <stdio.h>
#include <stdlib.h>
#include <string.h>

enum {
    TABLES = 300000,
    MOST_WORDS = 16777216,
    MOST_SEGMENTS = 4096,
    MOST_ROWS = 32,
    ROWS_ROOM = 40,
    DESK = 64,
    LARGE = MOST_SEGMENTS + 64
};

/* What a row sets: R1, R2, R3, R, W and E. */
static const uint64_t fields = 0x000fff0000000000;

typedef struct {
    kuzhlemor_row rows[ROWS_ROOM];
    size_t count;
} table;

typedef uint32_t set_brackets(uint64_t *memory, size_t words, uint32_t dbr_address, uint16_t dbr_length,
                              const kuzhlemor_row *rows, size_t row_count);

/* Calls one of the two with copies that lie at the edge of their places, memory and rows at different ones; `memory` becomes
 * what it leaves. */
static uint32_t call(set_brackets *set, uint64_t *memory, size_t words, kuzhlemor_dbr dbr, const table *t, bool at_end)
{
    static place small;
    static place large;
    static place rows_place;
    const size_t rows_size = t->count * sizeof t->rows[0];
    place *memory_place = words * sizeof memory[0] <= PAGE ? &small : &large;
    kuzhlemor_row left[ROWS_ROOM];
    uint64_t *lent;
    const kuzhlemor_row *rows;
    uint32_t number;

    if (small.start == NULL) {
        small = new_place(1);
        large = new_place(LARGE * sizeof memory[0] / PAGE + 1);
        rows_place = new_place(1);
    }
    lent = lend(memory_place, memory, words * sizeof memory[0], at_end);
    rows = lend(&rows_place, t->rows, rows_size, !at_end);
    number = set(lent, words, dbr.address, dbr.length, rows, t->count);
    take_back(memory_place, memory);
    take_back(&rows_place, left);
    check(memcmp(left, t->rows, rows_size) == 0, "a row is changed");
    return number;
}

static void check_words(const char *who, const char *name, const uint64_t *got, const uint64_t *wanted, size_t words)
{
    for (size_t k = 0; k < words; k++)
        if (got[k] != wanted[k])
            check(false, "%s: %s: word %zu of %zu is %016" PRIx64 ", not %016" PRIx64, who, name, k, words, got[k], wanted[k]);
}

/* The answer of the library and of plain C, and every word that they leave, at either edge. */
static void expect(const char *name, const uint64_t *before, size_t words, kuzhlemor_dbr dbr, const table *t, uint32_t number,
                   const uint64_t *after)
{
    static uint64_t memory[LARGE];

    for (int k = 0; k < 4; k++) {
        bool library = k < 2;
        const char *who = library ? "kuzhlemor_set_brackets" : "plain_set_brackets";
        uint32_t got;

        memcpy(memory, before, words * sizeof memory[0]);
        got = call(library ? kuzhlemor_set_brackets : plain_set_brackets, memory, words, dbr, t, k % 2 == 0);
        check(got == number, "%s: %s: %" PRIu32 ", not %" PRIu32, who, name, got, number);
        check_words(who, name, memory, after, words);
    }
}

/* The desk: 64 words, all different; the fields of a row are the three digits after 555. */
static const uint64_t *desk(void)
{
    static uint64_t memory[DESK];

    for (unsigned k = 0; k < DESK; k++)
        memory[k] = 0x5555555555555500 + k;
    return memory;
}

static void refuses(const char *name, kuzhlemor_dbr dbr, const table *t, uint32_t number)
{
    expect(name, desk(), DESK, dbr, t, number, desk());
}

/* Accepted, and the descriptor words become these. */
static void sets(const char *name, kuzhlemor_dbr dbr, const table *t, const uint64_t *descriptors)
{
    uint64_t after[DESK];

    memcpy(after, desk(), sizeof after);
    memcpy(after + dbr.address, descriptors, dbr.length * sizeof after[0]);
    expect(name, desk(), DESK, dbr, t, 0, after);
}

/* Six segments, with descriptors in words 4 to 9. */
static const kuzhlemor_dbr six = {4, 6};

/* Segments 4 and 5: 1 2 3, R. Segment 0: 0 0 0. Segments 1 to 3: 2 4 7, R W E. */
static const table three_rows = {
    {{4, 5, 1, 2, 3, 1, 0, 0}, {0, 0, 0, 0, 0, 0, 0, 0}, {1, 3, 2, 4, 7, 1, 1, 1}},
    3,
};

/* The same with this row at the place of one of them. */
static table with_row(size_t place, kuzhlemor_row row)
{
    table t = three_rows;

    t.rows[place] = row;
    return t;
}

static void swap_rows(table *t, size_t j, size_t k)
{
    kuzhlemor_row row = t->rows[j];

    t->rows[j] = t->rows[k];
    t->rows[k] = row;
}

/* 1 2 3 and R are 1 + 8 * 2 + 64 * 3 + 512 = 2d1; 2 4 7 and R W E are fe2. */
static void three_ranges(void)
{
    static const uint64_t low[] = {0x5550005555555500, 0x555fe25555555501, 0x555fe25555555502,
                                   0x555fe25555555503, 0x5552d15555555504, 0x5552d15555555505};
    static const uint64_t middle[] = {0x5550005555555504, 0x555fe25555555505, 0x555fe25555555506,
                                      0x555fe25555555507, 0x5552d15555555508, 0x5552d15555555509};
    static const uint64_t high[] = {0x555000555555553a, 0x555fe2555555553b, 0x555fe2555555553c,
                                    0x555fe2555555553d, 0x5552d1555555553e, 0x5552d1555555553f};
    static const size_t swaps[][2] = {{0, 1}, {1, 2}, {0, 1}, {1, 2}, {0, 1}};
    table t = three_rows;

    sets("memory's first words", (kuzhlemor_dbr){0, 6}, &t, low);
    sets("words on both sides", six, &t, middle);
    sets("memory's last words", (kuzhlemor_dbr){58, 6}, &t, high);
    for (int k = 0; k < 5; k++) {
        swap_rows(&t, swaps[k][0], swaps[k][1]);
        sets("in another order", six, &t, middle);
    }
}

/* A table with a row for each of the segments; row k has rings k modulo 8 and no flags. */
static table a_row_each(size_t count)
{
    table t = {.count = count};

    for (size_t k = 0; k < count; k++) {
        uint8_t ring = (uint8_t)(k % 8);

        t.rows[k] = (kuzhlemor_row){(uint16_t)k, (uint16_t)k, ring, ring, ring, 0, 0, 0};
    }
    return t;
}

static void no_rows(void)
{
    static uint64_t one[] = {0x5555555555555555};
    const table none = {.count = 0};
    const table row = {{{0, 0, 0, 0, 0, 0, 0, 0}}, 1};

    expect("no words, no segments, no rows", one, 0, (kuzhlemor_dbr){0, 0}, &none, 0, one);
    expect("4: no words, one segment", one, 0, (kuzhlemor_dbr){0, 1}, &none, 4, one);
    expect("4: no words, another address", one, 0, (kuzhlemor_dbr){1, 0}, &none, 4, one);
    expect("53: no words, a row", one, 0, (kuzhlemor_dbr){0, 0}, &row, 53, one);
    expect("54: one word, one segment, no rows", one, 1, (kuzhlemor_dbr){0, 1}, &none, 54, one);
    refuses("no segments, no rows", (kuzhlemor_dbr){7, 0}, &none, 0);
    refuses("no segments, no rows, memory's end", (kuzhlemor_dbr){DESK, 0}, &none, 0);
    refuses("53: no segments, a row", (kuzhlemor_dbr){7, 0}, &row, 53);
    refuses("53: no segments, the last row there can be", (kuzhlemor_dbr){7, 0}, &(table){{{65535, 65535, 0, 0, 0, 0, 0, 0}}, 1},
            53);
}

static void each_4(void)
{
    const table none = {.count = 0};
    const table broken = with_row(1, (kuzhlemor_row){9, 6, 9, 8, 8, 0, 0, 0});

    refuses("4: one word past memory", (kuzhlemor_dbr){59, 6}, &three_rows, 4);
    refuses("4: no segments one word past memory's end", (kuzhlemor_dbr){DESK + 1, 0}, &none, 4);
    refuses("4: 2 isn't asked", (kuzhlemor_dbr){16777216, 6}, &three_rows, 4);
    refuses("4: the sum is 2^32", (kuzhlemor_dbr){UINT32_MAX - 5, 6}, &three_rows, 4);
    refuses("4: the sum is above 2^32", (kuzhlemor_dbr){UINT32_MAX, 6}, &three_rows, 4);
    refuses("4: the highest address", (kuzhlemor_dbr){UINT32_MAX, 0}, &none, 4);
    refuses("4: the longest there can be", (kuzhlemor_dbr){0, 65535}, &three_rows, 4);
    refuses("4: as long as memory and one", (kuzhlemor_dbr){0, DESK + 1}, &three_rows, 4);
    refuses("4 before 53", (kuzhlemor_dbr){59, 6}, &broken, 4);
    refuses("4 before 54", (kuzhlemor_dbr){59, 6}, &none, 4);
}

/* One bad row in an otherwise whole table, at each place in it. */
static void refuses_53(const char *name, kuzhlemor_row row)
{
    for (size_t place = 0; place < 3; place++) {
        table t = with_row(2, row);

        swap_rows(&t, 2, place);
        refuses(name, six, &t, 53);
    }
}

static void each_53(void)
{
    table t;

    refuses_53("53: first above last", (kuzhlemor_row){3, 2, 2, 4, 7, 1, 1, 1});
    refuses_53("53: the highest first", (kuzhlemor_row){65535, 3, 2, 4, 7, 1, 1, 1});
    refuses_53("53: last is LENGTH", (kuzhlemor_row){1, 6, 2, 4, 7, 1, 1, 1});
    refuses_53("53: only LENGTH", (kuzhlemor_row){6, 6, 2, 4, 7, 1, 1, 1});
    refuses_53("53: the highest last", (kuzhlemor_row){1, 65535, 2, 4, 7, 1, 1, 1});
    refuses_53("53: last is 1 and 256", (kuzhlemor_row){1, 257, 2, 4, 7, 1, 1, 1});
    refuses_53("53: R1 above R2", (kuzhlemor_row){1, 3, 5, 4, 7, 1, 1, 1});
    refuses_53("53: R2 above R3", (kuzhlemor_row){1, 3, 2, 4, 3, 1, 1, 1});
    refuses_53("53: R1 above R3", (kuzhlemor_row){1, 3, 7, 7, 6, 1, 1, 1});
    refuses_53("53: R3 is 8", (kuzhlemor_row){1, 3, 2, 4, 8, 1, 1, 1});
    refuses_53("53: R2 and R3 are 8", (kuzhlemor_row){1, 3, 2, 8, 8, 1, 1, 1});
    refuses_53("53: all are 8", (kuzhlemor_row){1, 3, 8, 8, 8, 1, 1, 1});
    refuses_53("53: R3 is 255", (kuzhlemor_row){1, 3, 2, 4, 255, 1, 1, 1});
    refuses_53("53: R1 is 255", (kuzhlemor_row){1, 3, 255, 4, 7, 1, 1, 1});
    refuses_53("53 before 54: rings", (kuzhlemor_row){2, 2, 2, 4, 8, 1, 1, 1});
    refuses_53("53 before 55: LENGTH", (kuzhlemor_row){0, 6, 2, 4, 7, 1, 1, 1});
    t = with_row(0, (kuzhlemor_row){4, 6, 1, 2, 3, 1, 0, 0});
    refuses("53: the highest row to LENGTH", six, &t, 53);
    t = with_row(0, (kuzhlemor_row){4, 4, 1, 2, 3, 1, 0, 0});
    refuses("54: the highest row to LENGTH - 2", six, &t, 54);
}

/* A row for each of so many segments, from word 4. */
static void sets_a_row_each(size_t count)
{
    const table t = a_row_each(count);
    uint64_t wanted[MOST_ROWS];

    for (size_t k = 0; k < count; k++)
        wanted[k] = (desk()[4 + k] & ~fields) | k % 8 * 0x490000000000;
    sets("a row for each segment", (kuzhlemor_dbr){4, (uint16_t)count}, &t, wanted);
}

static void number_of_rows(void)
{
    table t = a_row_each(33);

    sets_a_row_each(1);
    sets_a_row_each(31);
    sets_a_row_each(32);
    refuses("53: 33 rows", (kuzhlemor_dbr){4, 33}, &t, 53);
    refuses("53: 33 rows before 55", (kuzhlemor_dbr){4, 1}, &t, 53);
    t.rows[32].last = 33;
    refuses("53: 33 rows before 54", (kuzhlemor_dbr){4, 40}, &t, 53);
    t.count = ROWS_ROOM;
    refuses("53: 40 rows", (kuzhlemor_dbr){4, 40}, &t, 53);
    t = a_row_each(32);
    refuses("54: 32 rows, 33 segments", (kuzhlemor_dbr){4, 33}, &t, 54);
    refuses("53: 32 rows, 31 segments", (kuzhlemor_dbr){4, 31}, &t, 53);
    t.rows[31].r3 = 8;
    refuses("53: the last of 32 rows", (kuzhlemor_dbr){4, 32}, &t, 53);
    t = a_row_each(32);
    t.rows[31].first = 30;
    refuses("55: the last of 32 rows", (kuzhlemor_dbr){4, 32}, &t, 55);
}

/* Rows that set nothing, by first and last. Handed over from the first to the last, and the other way round. */
static void ranges(const char *name, uint32_t number, size_t count, const uint16_t (*pairs)[2])
{
    for (int k = 0; k < 2; k++) {
        table t = {.count = count};

        for (size_t row = 0; row < count; row++) {
            const uint16_t *pair = pairs[k == 0 ? row : count - 1 - row];

            t.rows[row] = (kuzhlemor_row){.first = pair[0], .last = pair[1]};
        }
        refuses(name, six, &t, number);
    }
}

static void each_54_and_55(void)
{
    ranges("54: the first", 54, 1, (const uint16_t[][2]){{1, 5}});
    ranges("54: one between", 54, 2, (const uint16_t[][2]){{0, 1}, {3, 5}});
    ranges("54: the last", 54, 2, (const uint16_t[][2]){{0, 3}, {4, 4}});
    ranges("54: all but the last", 54, 1, (const uint16_t[][2]){{5, 5}});
    ranges("55: the first", 55, 2, (const uint16_t[][2]){{0, 5}, {0, 0}});
    ranges("55: one between", 55, 2, (const uint16_t[][2]){{0, 3}, {3, 5}});
    ranges("55: the last", 55, 2, (const uint16_t[][2]){{0, 5}, {5, 5}});
    ranges("55: one row within another", 55, 2, (const uint16_t[][2]){{0, 5}, {2, 3}});
    ranges("55: the same row twice", 55, 2, (const uint16_t[][2]){{0, 5}, {0, 5}});
    ranges("55: in three rows", 55, 3, (const uint16_t[][2]){{0, 5}, {4, 4}, {4, 4}});
    ranges("55: in three rows, and the next in two", 55, 3, (const uint16_t[][2]){{0, 3}, {3, 4}, {3, 5}});
    ranges("54 below 55", 54, 3, (const uint16_t[][2]){{0, 0}, {2, 4}, {4, 5}});
    ranges("54 just below 55", 54, 3, (const uint16_t[][2]){{0, 2}, {4, 5}, {4, 4}});
    ranges("54 of the first, 55 of all others", 54, 2, (const uint16_t[][2]){{1, 5}, {1, 5}});
    ranges("55 below 54", 55, 3, (const uint16_t[][2]){{0, 2}, {2, 3}, {5, 5}});
    ranges("55 just below 54", 55, 3, (const uint16_t[][2]){{0, 3}, {3, 3}, {5, 5}});
    ranges("55 of the first, 54 of all others", 55, 2, (const uint16_t[][2]){{0, 0}, {0, 0}});
    ranges("54 on both sides of 55", 54, 4, (const uint16_t[][2]){{0, 0}, {2, 3}, {3, 3}, {5, 5}});
    ranges("55 on both sides of 54", 55, 4, (const uint16_t[][2]){{0, 1}, {1, 1}, {3, 5}, {4, 5}});
}

/* A row for the middle one of three equal words, which is the only descriptor. */
static void sets_word(const char *name, uint64_t word, kuzhlemor_row row, uint32_t number, uint64_t wanted)
{
    const uint64_t before[] = {word, word, word};
    const uint64_t after[] = {word, wanted, word};
    table t = {{row}, 1};

    expect(name, before, 3, (kuzhlemor_dbr){1, 1}, &t, number, after);
}

/* V, GATE, ADDRESS and LENGTH stay, on or off; the fields don't depend on what was there. */
static void every_bit(void)
{
    const kuzhlemor_row off = {0, 0, 0, 0, 0, 0, 0, 0};
    const kuzhlemor_row on = {0, 0, 7, 7, 7, 1, 1, 1};

    sets_word("no bit, off", 0, off, 0, 0);
    sets_word("no bit, on", 0, on, 0, 0x000fff0000000000);
    sets_word("all bits, off", UINT64_MAX, off, 0, 0xfff000ffffffffff);
    sets_word("all bits, on", UINT64_MAX, on, 0, UINT64_MAX);
    sets_word("ADDRESS and LENGTH", 0x000000ffffffffff, on, 0, 0x000fffffffffffff);
    sets_word("V", 0x0010000000000000, off, 0, 0x0010000000000000);
    sets_word("GATE", 0xffe0000000000000, off, 0, 0xffe0000000000000);
    for (unsigned k = 0; k < 64; k++) {
        uint64_t bit = (uint64_t)1 << k;
        bool stays = k < 40 || k > 51;

        sets_word("one bit on, off", bit, off, 0, stays ? bit : 0);
        sets_word("one bit on, on", bit, on, 0, stays ? 0x000fff0000000000 | bit : 0x000fff0000000000);
        sets_word("one bit off, off", ~bit, off, 0, stays ? 0xfff000ffffffffff ^ bit : 0xfff000ffffffffff);
        sets_word("one bit off, on", ~bit, on, 0, stays ? ~bit : UINT64_MAX);
    }
}

/* R is bit 49, W 50, E 51: off at 0 and on at any other value. */
static void every_flag(void)
{
    static const uint8_t values[] = {0, 1, 2, 128, 255};

    for (int k = 0; k < 125; k++) {
        kuzhlemor_row row = {.read = values[k % 5], .write = values[k / 5 % 5], .execute = values[k / 25]};
        uint64_t wanted = 0;

        if (k % 5 != 0)
            wanted |= 0x0002000000000000;
        if (k / 5 % 5 != 0)
            wanted |= 0x0004000000000000;
        if (k / 25 != 0)
            wanted |= 0x0008000000000000;
        sets_word("flags", 0, row, 0, wanted);
        sets_word("flags over all bits", UINT64_MAX, row, 0, 0xfff000ffffffffff | wanted);
    }
}

/* R1 is bits 40 to 42, R2 43 to 45, R3 46 to 48. All rings up to 8, and some that look like lower ones in three bits. */
static void every_ring(void)
{
    static const uint8_t rings[] = {0, 1, 2, 3, 4, 5, 6, 7, 8, 9, 15, 16, 128, 255};
    const unsigned count = sizeof rings;

    for (unsigned k = 0; k < count * count * count; k++) {
        kuzhlemor_row row = {.r1 = rings[k % count], .r2 = rings[k / count % count], .r3 = rings[k / count / count]};
        bool passes = row.r1 <= row.r2 && row.r2 <= row.r3 && row.r3 <= 7;
        uint64_t wanted = row.r1 * 0x10000000000 + row.r2 * 0x80000000000 + row.r3 * 0x400000000000;

        sets_word("rings", 0, row, passes ? 0 : 53, passes ? wanted : 0);
    }
}

/* What a table of small rows gives: how many rows each segment is in, and of which rings it would be. */
static uint32_t small_answer(const table *t, unsigned segments, unsigned rings[3])
{
    unsigned counts[3] = {0};

    for (size_t k = 0; k < t->count; k++) {
        if (t->rows[k].first > t->rows[k].last || t->rows[k].last >= segments)
            return 53;
        for (unsigned s = t->rows[k].first; s <= t->rows[k].last; s++) {
            counts[s]++;
            rings[s] = t->rows[k].r1;
        }
    }
    for (unsigned s = 0; s < segments; s++)
        if (counts[s] != 1)
            return counts[s] == 0 ? 54 : 55;
    return 0;
}

/* Every table of up to three rows whose segments are 0 to 3, over up to three descriptors. Row k has rings k + 1. */
static void every_small_table(void)
{
    for (unsigned k = 0; k < 4 * 4 * 4096; k++) {
        unsigned segments = k & 3;
        table t = {.count = k >> 2 & 3};
        unsigned rings[3] = {0};
        uint64_t after[DESK];
        uint32_t number;

        /* Each table once, not with every pair for a row that it doesn't have. */
        if (k >> 4 >> 4 * t.count != 0)
            continue;
        for (unsigned row = 0; row < t.count; row++) {
            unsigned pair = k >> 4 >> 4 * row & 15;
            uint8_t ring = (uint8_t)(row + 1);

            t.rows[row] = (kuzhlemor_row){(uint16_t)(pair & 3), (uint16_t)(pair >> 2), ring, ring, ring, 0, 0, 0};
        }
        number = small_answer(&t, segments, rings);
        memcpy(after, desk(), sizeof after);
        for (unsigned s = 0; s < segments && number == 0; s++)
            after[9 + s] = (after[9 + s] & ~fields) | rings[s] * 0x490000000000;
        expect("small table", desk(), DESK, (kuzhlemor_dbr){9, (uint16_t)segments}, &t, number, after);
    }
}

/* 32 rows of 128 segments each; row k has rings k modulo 8 and E. */
static table longest_table(void)
{
    table t = a_row_each(MOST_ROWS);

    for (size_t k = 0; k < MOST_ROWS; k++) {
        t.rows[k].first = (uint16_t)(128 * k);
        t.rows[k].last = (uint16_t)(128 * k + 127);
        t.rows[k].execute = 1;
    }
    return t;
}

/* What that table sets in descriptors that are zero. */
static uint64_t longest_wanted(size_t segment)
{
    return segment / 128 % 8 * 0x490000000000 + 0x0008000000000000;
}

/* 4,096 descriptors between other words; 4,097, which lie within memory as well. */
static void longest_descriptor_segment(void)
{
    static const uint64_t before[LARGE];
    static uint64_t after[LARGE];
    const kuzhlemor_dbr dbr = {32, MOST_SEGMENTS};
    const table one = {{{0, 4095, 0, 0, 0, 0, 0, 0}}, 1};
    table t = longest_table();

    for (size_t k = 0; k < MOST_SEGMENTS; k++)
        after[32 + k] = longest_wanted(k);
    expect("4,096 segments, 32 rows", before, LARGE, dbr, &t, 0, after);
    expect("4,096 segments, one row", before, LARGE, dbr, &one, 0, before);
    expect("4: 4,097 segments", before, LARGE, (kuzhlemor_dbr){32, 4097}, &one, 4, before);
    t.rows[31].last = 4096;
    expect("53: segment 4,096", before, LARGE, dbr, &t, 53, before);
    t.rows[31].last = 4094;
    expect("54: segment 4,095", before, LARGE, dbr, &t, 54, before);
    t.rows[31].last = 4095;
    t.rows[0].last = 128;
    expect("55: segment 128", before, LARGE, dbr, &t, 55, before);
    t.rows[0].last = 4095;
    expect("55: all but the first row's", before, LARGE, dbr, &t, 55, before);
}

/* Checks the answer, and that all words are zero, or else, of the highest 4,096 of the most words there may be, as the longest
 * table sets them. */
static void expect_largest(const char *name, set_brackets *set, uint64_t *memory, size_t words, kuzhlemor_dbr dbr, const table *t,
                           uint32_t number, bool written)
{
    uint32_t got = set(memory, words, dbr.address, dbr.length, t->rows, t->count);

    check(got == number, "%s: %" PRIu32 ", not %" PRIu32, name, got, number);
    for (size_t k = 0; k <= MOST_WORDS; k++) {
        bool within = written && k >= MOST_WORDS - MOST_SEGMENTS && k < MOST_WORDS;

        if (memory[k] != (within ? longest_wanted(k - (MOST_WORDS - MOST_SEGMENTS)) : 0))
            check(false, "%s: word %zu", name, k);
    }
}

/* 16,777,216 words, and one more. */
static void largest_memory(set_brackets *set)
{
    uint64_t *memory = calloc(MOST_WORDS + 1, sizeof memory[0]);
    const kuzhlemor_dbr highest = {MOST_WORDS - MOST_SEGMENTS, MOST_SEGMENTS};
    const table none = {.count = 0};
    const table t = longest_table();
    const table broken = a_row_each(33);

    check(memory != NULL, "no memory for the largest memory");
    expect_largest("1: one word too many", set, memory, MOST_WORDS + 1, highest, &t, 1, false);
    expect_largest("1 before 4 and 53", set, memory, MOST_WORDS + 1, (kuzhlemor_dbr){0, 4097}, &broken, 1, false);
    expect_largest("1 where no segment is", set, memory, MOST_WORDS + 1, (kuzhlemor_dbr){0, 0}, &none, 1, false);
    expect_largest("4: one word past the largest memory", set, memory, MOST_WORDS,
                   (kuzhlemor_dbr){MOST_WORDS - MOST_SEGMENTS + 1, MOST_SEGMENTS}, &t, 4, false);
    expect_largest("4: 4,097 segments in the largest memory", set, memory, MOST_WORDS, (kuzhlemor_dbr){0, 4097}, &t, 4, false);
    expect_largest("2 isn't asked", set, memory, MOST_WORDS, (kuzhlemor_dbr){MOST_WORDS, 0}, &none, 0, false);
    expect_largest("4: no segments past the largest memory", set, memory, MOST_WORDS, (kuzhlemor_dbr){MOST_WORDS + 1, 0}, &none,
                   4, false);
    expect_largest("the largest memory", set, memory, MOST_WORDS, highest, &t, 0, true);
    free(memory);
}

/* Case 12 stops at 23, in ring 1 with a pointer of ring 4. Where a table gives segment 3 to ring 4, the store completes, and
 * the next word is no instruction. A refused table leaves it as it was. */
static void a_run_after(void)
{
    const table t = {
        {{3, 3, 4, 4, 4, 1, 1, 0}, {4, 4, 4, 4, 4, 1, 0, 1}, {5, 5, 1, 1, 5, 1, 0, 1}, {0, 2, 0, 0, 0, 0, 0, 0}},
        4,
    };
    machine m = case_12();
    const kuzhlemor_dbr dbr = m.registers.dbr;
    kuzhlemor_reply reply;

    check(kuzhlemor_set_brackets(m.memory, m.words, dbr.address, dbr.length, t.rows, 3) == 54, "case 12, a table without 0 to 2");
    reply = kuzhlemor_run(&m.registers, m.memory, m.words, 9);
    check(same_reply(reply, fault(23, 2, pointer_to(4, 3, 0), 0)) && m.memory[32] == 0, "case 12 after a refused table");
    m = case_12();
    check(kuzhlemor_set_brackets(m.memory, m.words, dbr.address, dbr.length, t.rows, 4) == 0, "case 12, a table");
    check(m.memory[3] == descriptor_word(32, 4, 4, 4, 4, R | W | V, 0) && m.memory[4] == case_12().memory[4] &&
              m.memory[5] == case_12().memory[5],
          "case 12, descriptors by a table");
    reply = kuzhlemor_run(&m.registers, m.memory, m.words, 9);
    check(same_reply(reply, fault(32, 3, pointer_to(1, 5, 1), 0)) && m.memory[32] == 7, "case 12 after a table");
}

/* What is done to a random table, and the number that it is to give some time. */
typedef enum {
    WHOLE, WITHOUT_A_ROW, ROW_TWICE, ROW_MORE, SHORTER, LONGER, LAST_IS_LENGTH, LAST_ABOVE_LENGTH, FIRST_ABOVE_LAST, RINGS_FALL,
    RING_8, RING_ABOVE_8, TOO_MANY_ROWS, LESS_LENGTH, MORE_LENGTH, LENGTH_ABOVE_4096, ONE_PAST_MEMORY, HIGH_ADDRESS, ANY_BYTES,
    DAMAGES
} damage;

static const uint32_t usual[DAMAGES] = {
    [WITHOUT_A_ROW] = 54,
    [ROW_TWICE] = 55,
    [ROW_MORE] = 55,
    [SHORTER] = 54,
    [LONGER] = 55,
    [LAST_IS_LENGTH] = 53,
    [LAST_ABOVE_LENGTH] = 53,
    [FIRST_ABOVE_LAST] = 53,
    [RINGS_FALL] = 53,
    [RING_8] = 53,
    [RING_ABOVE_8] = 53,
    [TOO_MANY_ROWS] = 53,
    [LESS_LENGTH] = 53,
    [MORE_LENGTH] = 54,
    [LENGTH_ABOVE_4096] = 4,
    [ONE_PAST_MEMORY] = 4,
    [HIGH_ADDRESS] = 4,
    [ANY_BYTES] = 53,
};

/* What is lent. */
static uint64_t random_memory[LARGE];
static size_t random_words;
static kuzhlemor_dbr random_dbr;
static table random_table;

/* Random numbers are never drawn in an order that C leaves open. */
static kuzhlemor_row random_row(unsigned first, unsigned last)
{
    kuzhlemor_row row = {.first = (uint16_t)first, .last = (uint16_t)last};

    row.r3 = (uint8_t)(one_in(4) ? 7 : random_below(8));
    row.r2 = (uint8_t)random_below(row.r3 + 1u);
    row.r1 = (uint8_t)random_below(row.r2 + 1u);
    row.read = (uint8_t)random_below(one_in(4) ? 256 : 2);
    row.write = (uint8_t)random_below(one_in(4) ? 256 : 2);
    row.execute = (uint8_t)random_below(one_in(4) ? 256 : 2);
    return row;
}

static void add_row(kuzhlemor_row row)
{
    table *t = &random_table;

    if (t->count < ROWS_ROOM)
        t->rows[t->count++] = row;
}

static void shuffle(void)
{
    for (size_t k = random_table.count; k > 1; k--)
        swap_rows(&random_table, k - 1, random_below((uint32_t)k));
}

/* Up to 32 rows that have each of the segments once, in order. */
static void make_rows(unsigned segments)
{
    unsigned most = segments < MOST_ROWS ? segments : MOST_ROWS;
    unsigned rows = most == 0 ? 0 : one_in(6) ? most : 1 + random_below(most);
    unsigned first = 0;

    random_table.count = 0;
    for (unsigned left = rows; left > 0; left--) {
        unsigned room = segments - first - (left - 1);
        unsigned share = (segments - first) / left;
        unsigned length = left == 1 ? room : 1 + random_below(2 * share < room ? 2 * share : room);

        add_row(random_row(first, first + length - 1));
        first += length;
    }
}

static void make_memory(unsigned segments)
{
    random_dbr = (kuzhlemor_dbr){.length = (uint16_t)segments};
    random_dbr.address = one_in(4) ? 0 : random_below(24);
    random_words = random_dbr.address + segments + (one_in(3) ? 0 : random_below(24));
    for (size_t k = 0; k < random_words; k++)
        random_memory[k] = random_word();
}

/* R1 above R2, or R2 above R3. */
static void let_rings_fall(kuzhlemor_row *row)
{
    uint8_t high = (uint8_t)(1 + random_below(7));
    uint8_t low = (uint8_t)random_below(high);
    bool first = one_in(2);

    row->r1 = first ? high : low;
    row->r2 = first ? low : high;
    row->r3 = first ? 7 : low;
}

/* Rings in order, with the highest or more of them at a number that is none. */
static void raise_rings(kuzhlemor_row *row, uint8_t ring)
{
    row->r3 = ring;
    if (one_in(2))
        row->r2 = ring;
    if (row->r2 == ring && one_in(2))
        row->r1 = ring;
}

/* Does it to one row; there is one. */
static void damage_row(damage what, kuzhlemor_row *row)
{
    unsigned length = random_dbr.length;
    unsigned a;
    unsigned b;

    switch (what) {
    case WITHOUT_A_ROW:
        *row = random_table.rows[--random_table.count];
        break;
    case ROW_TWICE:
        add_row(*row);
        break;
    case ROW_MORE:
        a = random_below(length);
        b = random_below(length);
        add_row(random_row(a < b ? a : b, a < b ? b : a));
        break;
    case SHORTER:
        if (one_in(2))
            row->first++;
        else
            row->last--;
        break;
    case LONGER:
        if (one_in(2))
            row->first--;
        else
            row->last++;
        break;
    case LAST_IS_LENGTH:
        row->last = (uint16_t)length;
        break;
    case LAST_ABOVE_LENGTH:
        row->last = (uint16_t)(length + random_below(65536 - length));
        break;
    case FIRST_ABOVE_LAST:
        row->first = (uint16_t)(row->last + 1 + (one_in(2) ? 0 : random_below(9)));
        break;
    case RINGS_FALL:
        let_rings_fall(row);
        break;
    case RING_8:
        raise_rings(row, 8);
        break;
    case RING_ABOVE_8:
        raise_rings(row, (uint8_t)(9 + random_below(247)));
        break;
    default:
        for (size_t k = 0; k < sizeof *row; k++)
            ((uint8_t *)row)[k] = (uint8_t)random_below(256);
        break;
    }
}

/* Does it to the table or its DBR. Without rows, one is added: no row is right where no segment is. */
static void do_damage(damage what)
{
    table *t = &random_table;

    switch (what) {
    case WHOLE:
        break;
    case TOO_MANY_ROWS:
        /* Rows of one segment each, so that 33 may be a whole table but for their number. */
        make_memory(33 + random_below(8));
        t->count = 0;
        for (unsigned k = 0; k < random_dbr.length; k++)
            add_row(random_row(k, k));
        break;
    case LESS_LENGTH:
        random_dbr.length -= random_dbr.length > 0;
        break;
    case MORE_LENGTH:
        random_dbr.length++;
        break;
    case LENGTH_ABOVE_4096:
        random_dbr.length = (uint16_t)(4097 + (one_in(2) ? 0 : random_below(61439)));
        break;
    case ONE_PAST_MEMORY:
        random_dbr.address = (uint32_t)(random_words - random_dbr.length + 1);
        break;
    case HIGH_ADDRESS:
        random_dbr.address = UINT32_MAX - random_below(random_dbr.length + 1u);
        break;
    default:
        if (t->count == 0)
            add_row(random_row(0, 0));
        else
            damage_row(what, &t->rows[random_below((uint32_t)t->count)]);
        break;
    }
}

/* How a segment is at fault, 54 or 55, or 0. */
static uint32_t at_fault(unsigned segment)
{
    unsigned rows = 0;

    for (size_t k = 0; k < random_table.count; k++)
        rows += random_table.rows[k].first <= segment && segment <= random_table.rows[k].last;
    return rows == 1 ? 0 : rows == 0 ? 54 : 55;
}

/* Whether some segment is at fault in this way. */
static bool some_at_fault(uint32_t number)
{
    for (unsigned segment = 0; segment < random_dbr.length; segment++)
        if (at_fault(segment) == number)
            return true;
    return false;
}

/* Whatever plain C says: a refused table writes nothing, an accepted one the fields of descriptors. */
static void check_what_stays(const char *name, const uint64_t *left, uint32_t number)
{
    for (size_t k = 0; k < random_words; k++) {
        bool descriptor = k >= random_dbr.address && k - random_dbr.address < random_dbr.length;
        uint64_t changed = left[k] ^ random_memory[k];

        if ((changed & (number == 0 && descriptor ? ~fields : UINT64_MAX)) != 0)
            check(false, "%s: word %zu must stay", name, k);
    }
}

/* What has been seen: the answers to tables of one damage, and some others. */
typedef struct {
    unsigned long answers[DAMAGES][56];
    unsigned long gap_below_double;
    unsigned long double_below_gap;
    unsigned long full_tables;
    unsigned long without_segments;
    unsigned long up_to_the_end;
    unsigned long long_tables;
} sight;

static void count_table(sight *s, damage what, bool single, uint32_t number)
{
    if (single)
        s->answers[what][number]++;
    s->gap_below_double += number == 54 && some_at_fault(55);
    s->double_below_gap += number == 55 && some_at_fault(54);
    if (number != 0)
        return;
    s->full_tables += random_table.count == MOST_ROWS;
    s->without_segments += random_dbr.length == 0;
    s->up_to_the_end += random_dbr.length > 0 && random_dbr.address + random_dbr.length == random_words;
    s->long_tables += random_dbr.length > 1000;
}

static void check_sight(const sight *s)
{
    for (int k = 0; k < DAMAGES; k++)
        check(s->answers[k][usual[k]] > 0, "no table with damage %d gave %" PRIu32, k, usual[k]);
    check(s->gap_below_double > 0, "no segment in no row below one in several");
    check(s->double_below_gap > 0, "no segment in several rows below one in no row");
    check(s->full_tables > 0, "no table of 32 rows was accepted");
    check(s->without_segments > 0, "no table for no segments was accepted");
    check(s->up_to_the_end > 0, "no table for memory's last words was accepted");
    check(s->long_tables > 0, "no table for more than 1,000 segments was accepted");
}

/* The library leaves what plain C leaves. */
static uint32_t compare(const char *name, bool at_end)
{
    static uint64_t left[LARGE];
    static uint64_t wanted_left[LARGE];
    const size_t size = random_words * sizeof left[0];
    uint32_t number;
    uint32_t wanted;

    memcpy(left, random_memory, size);
    memcpy(wanted_left, random_memory, size);
    wanted = call(plain_set_brackets, wanted_left, random_words, random_dbr, &random_table, at_end);
    number = call(kuzhlemor_set_brackets, left, random_words, random_dbr, &random_table, at_end);
    check(number == wanted, "%s: %" PRIu32 ", plain C: %" PRIu32, name, number, wanted);
    check_words("kuzhlemor_set_brackets", name, left, wanted_left, random_words);
    check_what_stays(name, left, number);
    return number;
}

static void random_tables(void)
{
    static sight seen;

    for (int k = 0; k < TABLES; k++) {
        unsigned segments = one_in(800) ? random_below(MOST_SEGMENTS + 1) : random_below(one_in(2) ? 8 : 48);
        damage what = one_in(4) ? WHOLE : (damage)random_below(DAMAGES);
        bool second = one_in(6);
        char name[64];

        make_memory(segments);
        make_rows(segments);
        do_damage(what);
        if (second)
            do_damage((damage)random_below(DAMAGES));
        shuffle();
        snprintf(name, sizeof name, "random table %d, damage %d", k, (int)what);
        count_table(&seen, what, !second, compare(name, k % 2 == 0));
    }
    check_sight(&seen);
}

int main(void)
{
    three_ranges();
    no_rows();
    each_4();
    each_53();
    number_of_rows();
    each_54_and_55();
    every_bit();
    every_flag();
    every_ring();
    every_small_table();
    longest_descriptor_segment();
    largest_memory(kuzhlemor_set_brackets);
    largest_memory(plain_set_brackets);
    a_run_after();
    random_tables();
    printf("tests/c/brackets: %lu checks passed\n", checks);
    return 0;
}
