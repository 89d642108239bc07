/* kuzhlemor_bench as the firmware calls it: texts worked out by hand, with their pointer words and delivered faults, 45 at its
 * bound, what stays of the buffer, ST's last fields, 51 of every address, and random, cut and damaged images against plain C,
 * byte for byte. */
#include "images.h"
#include "machine.h"

#include <stdio.h>
#include <stdlib.h>
#include <string.h>

enum {
    IMAGES = 20000,
    MOST_BUDGET = 60,
    MOST_WORDS = 8192,
    LONG = 1500,
    ROOM = 64 * (MOST_BUDGET + 1),
    FILLER = 0xa5
};

static uint8_t image[IMAGE_ROOM(MOST_WORDS) + 64];

static size_t image_of(const machine *m, uint32_t budget)
{
    return put_image(image, &m->registers, m->memory, (uint32_t)m->words, budget);
}

/* The answer, and every byte of a buffer of `room` bytes; those after the text stay. */
static void expect(const char *name, size_t length, size_t room, int64_t answer, const char *text)
{
    uint8_t *buffer = malloc(room + 1);
    int64_t got;
    size_t size = strlen(text);

    memset(buffer, FILLER, room + 1);
    got = kuzhlemor_bench(image, length, buffer, room);
    check(got == answer, "%s: answered %lld, not %lld", name, (long long)got, (long long)answer);
    check(memcmp(buffer, text, size) == 0, "%s: another text", name);
    for (size_t k = size; k <= room; k++)
        check(buffer[k] == FILLER, "%s: byte %zu of the buffer was changed", name, k);
    free(buffer);
}

static void case_12_whole(void)
{
    static const char text[] = "1 4 4 1 0\n2 1 5 0 0\nfault 23 2 4 3 0 0\n";
    machine m = case_12();
    size_t length = image_of(&m, 9);

    expect("case 12", length, 640, 39, text);
    expect("case 12, a longer buffer", length, 1000, 39, text);
    expect("case 12, a buffer one byte short", length, 639, -45, "");
    expect("case 12, no buffer", length, 0, -45, "");
    expect("case 12, budget 0", image_of(&m, 0), 64, 10, "spent 0 0\n");
    expect("case 12, budget 2", image_of(&m, 2), 192, 30, "1 4 4 1 0\n2 1 5 0 0\nspent 2 0\n");
    expect("case 12, the largest budget", image_of(&m, UINT32_MAX), 1000, -45, "");
}

/* A program in ring 0, segment 3, whose first two steps read 64 and 3 pointer words; its third instruction is given. Pointer
 * words 0 to 63 are by turns in segments 1 and 2 and lead to word 64; word 70 points to itself, and the third from word 80 is
 * in no segment. */
static size_t chains(uint64_t third, uint32_t budget)
{
    machine m = empty_machine(128);
    uint64_t *words = &m.memory[16];

    m.registers.dbr = (kuzhlemor_dbr){0, 4};
    m.registers.ipr = pointer_to(0, 3, 0);
    m.registers.prs[4] = pointer_to(0, 1, 0);
    m.memory[1] = descriptor_word(16, 112, 0, 0, 0, R | W | V, 0);
    m.memory[2] = m.memory[1];
    m.memory[3] = descriptor_word(4, 8, 0, 0, 0, R | E | V, 0);
    m.memory[4] = by_pr(LDA, 4, 0) | I_ON;
    m.memory[5] = by_pr(STA, 4, 61) | I_ON;
    m.memory[6] = third;
    m.memory[7] = near(HLT, 0);
    for (unsigned k = 0; k < 64; k++)
        words[k] = pointer_word(pointer_to(0, 1 + (k + 1) % 2, k + 1)) | (k < 63 ? POINTER_I_ON : 0);
    words[70] = pointer_word(pointer_to(0, 2, 70)) | POINTER_I_ON;
    words[80] = pointer_word(pointer_to(0, 2, 81)) | POINTER_I_ON;
    words[81] = pointer_word(pointer_to(0, 9, 9)) | POINTER_I_ON;
    return image_of(&m, budget);
}

/* Each line has its step's pointer words, the last line their sum: a faulting step's aren't in it. */
static void pointer_words(void)
{
    const uint64_t not_taken = by_pr(TMI, 4, 63) | I_ON;
    const uint64_t endless = by_pr(LDA, 4, 70) | I_ON;
    const uint64_t broken = by_pr(LDA, 4, 80) | I_ON;
    const uint64_t after = by_pr(TRA, 4, 60) | I_ON;

    expect("chains, budget 0", chains(not_taken, 0), 64, 10, "spent 0 0\n");
    expect("chains, budget 1", chains(not_taken, 1), 128, 22, "1 0 3 1 64\nspent 1 64\n");
    expect("chains, budget 2", chains(not_taken, 2), 192, 32, "1 0 3 1 64\n2 0 3 2 3\nspent 2 67\n");
    expect("chains, HLT", chains(not_taken, 9), 640, 53, "1 0 3 1 64\n2 0 3 2 3\n3 0 3 3 1\n4 0 3 4 0\nhalted 4 68\n");
    expect("chains, 31", chains(endless, 9), 640, 42, "1 0 3 1 64\n2 0 3 2 3\nfault 31 2 0 2 70 67\n");
    expect("chains, 11 at the third", chains(broken, 9), 640, 41, "1 0 3 1 64\n2 0 3 2 3\nfault 11 2 0 9 9 67\n");
    expect("chains, 25 after four", chains(after, 9), 640, 42, "1 0 3 1 64\n2 0 3 2 3\nfault 25 2 0 1 64 67\n");
    expect("chains, 32", chains(I_ON, 9), 640, 41, "1 0 3 1 64\n2 0 3 2 3\nfault 32 2 0 3 2 67\n");
}

/* More steps than a listing is made of at a time: 64, 3 and no pointer words in turn. */
static void long_listing(void)
{
    static const char *const ends[] = {"1 64", "2 3", "0 0"};
    static char text[64 * (LONG + 1)];
    size_t size = 0;

    for (unsigned k = 0; k < LONG; k++)
        size += (size_t)sprintf(text + size, "%u 0 3 %s\n", k + 1, ends[k % 3]);
    size += (size_t)sprintf(text + size, "spent %u %u\n", (unsigned)LONG, LONG / 3 * 67);
    expect("a long listing", chains(near(TRA, -2), LONG), 64 * (LONG + 1), (int64_t)size, text);
}

/* Ring 4's program reads two pointer words and a third in no segment; the handler in segment 1 goes back by opcode 42, through
 * one of its own, to an instruction in no table. Segment 2 is the save segment, segment 3 the program and its pointer words. */
static size_t delivered(uint16_t save_length, uint16_t fault_switch, uint32_t budget)
{
    machine m = empty_machine(64);

    m.registers.dbr = (kuzhlemor_dbr){0, 4};
    m.registers.ipr = pointer_to(4, 3, 0);
    for (int k = 0; k < 8; k++)
        m.registers.prs[k].ring = 4;
    m.registers.fault_switch = fault_switch;
    m.registers.save_segment = 2;
    m.registers.handler_segment = 1;
    m.memory[1] = descriptor_word(8, 4, 0, 0, 0, R | E | V, 0);
    m.memory[2] = descriptor_word(16, save_length, 0, 0, 0, R | W | V, 0);
    m.memory[3] = descriptor_word(32, 16, 4, 4, 4, R | E | V, 0);
    m.memory[8] = near(AOS, 2) | I_ON;
    m.memory[9] = near(RCU, 2) | I_ON;
    m.memory[10] = pointer_word(pointer_to(0, 2, 4));
    m.memory[11] = pointer_word(pointer_to(0, 2, 0));
    m.memory[32] = near(LDA, 8) | I_ON;
    m.memory[32 + 8] = pointer_word(pointer_to(4, 3, 9)) | POINTER_I_ON;
    m.memory[32 + 9] = pointer_word(pointer_to(4, 9, 7)) | POINTER_I_ON;
    return image_of(&m, budget);
}

/* A delivered fault has a step's line, with its pointer words, which are in the total. */
static void delivered_faults(void)
{
    static const char text[] = "1 0 1 0 2\n2 0 1 1 1\n3 4 3 1 1\n4 0 1 0 0\n5 0 1 1 1\n6 4 3 2 1\nspent 6 6\n";

    expect("delivered, budget 1", delivered(13, 1, 1), 128, 20, "1 0 1 0 2\nspent 1 2\n");
    expect("delivered twice", delivered(13, 1, 6), 448, 70, text);
    expect("delivered, the switch off", delivered(13, 0, 6), 448, 19, "fault 11 0 4 9 7 0\n");
    expect("delivered, twelve words", delivered(12, 1, 6), 448, 19, "fault 11 0 4 9 7 0\n");
}

/* 2 of ST's last five bytes, and an ST without them. */
static void last_fields(void)
{
    const size_t at = 6 + STORED_ST_SIZE;
    size_t length = delivered(13, 1, 6);

    for (unsigned value = 2; value < 256; value++) {
        image[at] = (uint8_t)value;
        expect("a switch above 1", length, 448, -2, "");
    }
    for (size_t field = at + 1; field <= at + 3; field += 2) {
        length = delivered(13, 0, 0);
        put_number(image + field, 4095, 2);
        expect("segment 4,095", length, 64, 10, "spent 0 0\n");
        put_number(image + field, 4096, 2);
        expect("segment 4,096", length, 64, -2, "");
        put_number(image + field, 65535, 2);
        expect("segment 65,535", length, 64, -2, "");
    }
    length = delivered(13, 0, 0);
    memmove(image + at, image + at + 5, length - at - 5);
    expect("a stored image", length - 5, 64, -41, "");
}

static void refusals(void)
{
    machine m = case_12();
    size_t length = image_of(&m, 9);
    uint8_t *end;

    expect("an empty image", 0, 640, -42, "");
    expect("no RN", length - 6, 640, -42, "");
    expect("RN cut off", length - 1, 640, -41, "");
    expect("a byte after RN", length + 1, 640, -42, "");
    put_me(image, 8193);
    expect("8,193 words", length, 640, -43, "");
    image[0] = 'm';
    expect("no such mark", length, 640, -41, "");
    end = put_me(image, 16);
    end = put_wd(end, 16, 1);
    expect("a WD past the memory", (size_t)(end - image), 640, -44, "");
    m.registers.prs[1].ring = 3;
    expect("1 to 4 come before 45", image_of(&m, 9), 0, -3, "");
    m.registers.prs[1].ring = 8;
    expect("2 before 3", image_of(&m, 9), 640, -2, "");
}

/* ME of 16 words, this ST if there is one, and WDs of these addresses with 1, 2, 3 and so on as words. */
static uint8_t *put_wds(const kuzhlemor_registers *st, const uint32_t *addresses, size_t count)
{
    uint8_t *end = put_me(image, 16);

    if (st != NULL)
        end = put_st(end, st);
    for (size_t k = 0; k < count; k++)
        end = put_wd(end, addresses[k], k + 1);
    return end;
}

static size_t up_to(const uint8_t *end)
{
    return (size_t)(end - image);
}

/* 51: an earlier WD has the address. */
static void words_written_twice(void)
{
    static const uint32_t twice[] = {3, 3};
    static const uint32_t apart[] = {3, 0, 15, 4, 3};
    static const uint32_t third[] = {5, 9, 9, 5};
    static const uint32_t past[] = {3, 16, 16};
    static const uint32_t once[] = {15, 3, 0, 4};
    kuzhlemor_registers good = {0};
    kuzhlemor_registers low_pr = {.ipr = {.ring = 1}};
    kuzhlemor_registers high_ring = {.prs = {{.ring = 8}}};
    kuzhlemor_registers long_dbr = {.dbr = {0, 17}};
    uint8_t *end;

    expect("each address once", up_to(put_rn(put_wds(&good, once, 4), 0)), 64, 10, "spent 0 0\n");
    expect("two WDs in a row", up_to(put_rn(put_wds(&good, twice, 2), 0)), 64, -51, "");
    expect("two WDs apart", up_to(put_rn(put_wds(&good, apart, 5), 0)), 64, -51, "");
    expect("two WDs and no more", up_to(put_wds(NULL, twice, 2)), 64, -51, "");
    expect("two addresses twice", up_to(put_wds(NULL, third, 4)), 64, -51, "");
    expect("and the first of them alone", up_to(put_wds(NULL, third, 3)), 64, -51, "");
    end = put_wd(put_st(put_me(image, 16), &good), 7, 1);
    end = put_rn(put_wd(end, 7, 1), 0);
    expect("equal words", up_to(end), 64, -51, "");
    end = put_wd(put_wd(put_me(image, 16), 7, 0), 7, 0);
    expect("words of zero", up_to(end), 64, -51, "");
    end = put_wd(put_st(put_wd(put_me(image, 16), 7, 1), &good), 7, 2);
    expect("ST between two WDs", up_to(put_rn(end, 0)), 64, -51, "");

    expect("44 of an address that comes again", up_to(put_wds(NULL, past, 3)), 64, -44, "");
    expect("51, then 44", up_to(put_wd(put_wds(NULL, twice, 2), 16, 0)), 64, -51, "");
    expect("44, then 51", up_to(put_wd(put_wds(NULL, past, 2), 3, 0)), 64, -44, "");
    expect("51, then no such mark", up_to(put_mark(put_wds(NULL, twice, 2), "wd")), 64, -51, "");
    expect("51, then a part of a record", up_to(put_mark(put_wds(NULL, twice, 2), "WD")), 64, -51, "");
    expect("the second WD cut off", up_to(put_wds(NULL, twice, 2)) - 1, 64, -41, "");
    expect("51, then a second ME", up_to(put_me(put_wds(NULL, twice, 2), 16)), 64, -51, "");
    expect("51, then 42 for no ST", up_to(put_rn(put_wds(NULL, twice, 2), 0)), 64, -51, "");
    expect("two WDs before ME", up_to(put_me(put_wd(put_wd(image, 3, 1), 3, 1), 16)), 64, -42, "");
    expect("a second WD after RN", up_to(put_wd(put_rn(put_wds(&good, twice, 1), 0), 3, 1)), 64, -42, "");
    expect("51 before 2", up_to(put_rn(put_wds(&high_ring, twice, 2), 0)), 64, -51, "");
    expect("51 before 3", up_to(put_rn(put_wds(&low_pr, twice, 2), 0)), 64, -51, "");
    expect("51 before 4", up_to(put_rn(put_wds(&long_dbr, twice, 2), 0)), 64, -51, "");
    expect("51 before 45", up_to(put_rn(put_wds(&good, twice, 2), 0)), 0, -51, "");
}

/* No two addresses are taken for one, and none is overlooked. */
static void every_address(void)
{
    static const kuzhlemor_registers zero;
    uint8_t *end = put_st(put_me(image, MOST_WORDS), &zero);

    for (uint32_t k = 0; k < MOST_WORDS; k++)
        end = put_wd(end, k, k);
    expect("all addresses", up_to(put_rn(end, 0)), 64, 10, "spent 0 0\n");
    for (uint32_t k = 0; k < MOST_WORDS; k++) {
        end = put_wd(put_wd(put_me(image, MOST_WORDS), k, 1), k, 2);
        expect("an address twice", up_to(end), 0, -51, "");
    }
}

static void compare(size_t length, size_t room)
{
    static uint8_t x[ROOM + 1];
    static uint8_t y[ROOM + 1];
    int64_t plain;
    int64_t library;

    memset(x, FILLER, sizeof x);
    memset(y, FILLER, sizeof y);
    plain = plain_bench(image, length, x, room);
    library = kuzhlemor_bench(image, length, y, room);
    check(plain == library, "plain C answers %lld, the library %lld", (long long)plain, (long long)library);
    check(memcmp(x, y, sizeof x) == 0, "a byte of the buffer differs");
}

/* Puts one more WD before RN, for the address of a WD that is there or for any of a few. */
static void write_again(size_t rn, uint32_t budget)
{
    const size_t first = 6 + ST_SIZE;
    uint32_t address = random_below(CAPACITY);

    if (rn > first && random_below(2) == 0)
        address = (uint32_t)number_at(image + first + 14 * (size_t)random_below((uint32_t)(rn - first) / 14) + 2, 4);
    put_rn(put_wd(image + rn, address, 0), budget);
}

static void random_images(void)
{
    for (int k = 0; k < IMAGES; k++) {
        machine m = random_machine();
        uint32_t budget = random_below(MOST_BUDGET + 1);
        size_t length = image_of(&m, budget);
        uint32_t at;
        uint8_t bit;

        compare(length, 64 * (size_t)(budget + 1) - random_below(2));
        compare(random_below((uint32_t)length + 1), ROOM);
        at = random_below((uint32_t)length);
        bit = (uint8_t)(1 << random_below(8));
        image[at] ^= bit;
        compare(length, ROOM);
        image[at] ^= bit;
        write_again(length - 6, budget);
        compare(length + 14, ROOM);
    }
}

/* Every truncation of an image, and every byte of it changed. */
static void damaged_images(void)
{
    machine m = case_12();
    size_t length = image_of(&m, 9);

    for (size_t k = 0; k <= length; k++)
        compare(k, ROOM);
    for (size_t k = 0; k < length; k++)
        for (unsigned bit = 0; bit < 8; bit++) {
            image[k] ^= (uint8_t)(1 << bit);
            compare(length, ROOM);
            image[k] ^= (uint8_t)(1 << bit);
        }
}

int main(void)
{
    case_12_whole();
    pointer_words();
    long_listing();
    delivered_faults();
    last_fields();
    refusals();
    words_written_twice();
    every_address();
    damaged_images();
    random_images();
    printf("tests/c/bench: %lu checks passed\n", checks);
    return 0;
}
