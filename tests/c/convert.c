/* kuzhlemor_convert as a host calls it: images worked out by hand, what stays of the lent bytes, of their room and of those
 * around them, machines whose doubled image must run as they do, and random and damaged images against plain C, byte for
 * byte. */
#include "images.h"
#include "machine.h"

#include <stdio.h>
#include <stdlib.h>
#include <string.h>

enum {
    MACHINES = 5000,
    IMAGES = 100000,
    BUDGET = 40,
    MOST_WORDS = 8192,
    MOST_WDS = 3 * MOST_WORDS,
    AROUND = 16,
    FILLER = 0xa5
};

/* An image while it is made: `end` is where the next record goes. */
typedef struct {
    uint8_t bytes[IMAGE_ROOM(MOST_WDS)];
    uint8_t *end;
} image;

/* `old` has the ST of a stored image, `new` today's. */
static image old;
static image new;

/* What is lent behind the image. */
static uint8_t room[ST_GAIN] = {1, 2, 3, 4, 5};

static size_t length_of(const image *i)
{
    return (size_t)(i->end - i->bytes);
}

/* ME of this many words; ST; ST with zeros; a WD; RN. */
static void me(image *i, uint32_t words)
{
    i->end = put_me(i->bytes, words);
}

static void st_of(image *i, const kuzhlemor_registers *registers)
{
    i->end = i == &old ? put_stored_st(i->end, registers) : put_st(i->end, registers);
}

static void st(image *i)
{
    static const kuzhlemor_registers zero;

    st_of(i, &zero);
}

static void wd(image *i, uint32_t address, uint64_t word)
{
    i->end = put_wd(i->end, address, word);
}

static void rn(image *i, uint32_t budget)
{
    i->end = put_rn(i->end, budget);
}

static void check_fillers(const char *name, const uint8_t *from, const uint8_t *end)
{
    for (; from < end; from++)
        check(*from == FILLER, "%s: a byte beside what was lent was changed", name);
}

/* Converts a copy of these bytes, with the room behind them, that lies between fillers, at any alignment; they must stay. In
 * `left` is what it leaves of image and room. */
static int64_t convert(const char *name, const uint8_t *bytes, size_t length, uint8_t *left)
{
    size_t before = AROUND + random_below(8);
    size_t lent = length + ST_GAIN;
    uint8_t *block = malloc(before + lent + AROUND);
    int64_t answer;

    memset(block, FILLER, before + lent + AROUND);
    memcpy(block + before, bytes, length);
    memcpy(block + before + length, room, ST_GAIN);
    answer = kuzhlemor_convert(block + before, lent);
    memcpy(left, block + before, lent);
    check_fillers(name, block, block + before);
    check_fillers(name, block + before + lent, block + before + lent + AROUND);
    free(block);
    return answer;
}

/* What is left from this byte on, room and all, is as it was lent. */
static void check_rest(const char *name, const uint8_t *left, size_t from)
{
    size_t length = length_of(&old);

    for (size_t k = from; k < length + ST_GAIN; k++)
        check(left[k] == (k < length ? old.bytes[k] : room[k - length]), "%s: byte %zu was changed", name, k);
}

/* `old` becomes `new`, and what is lent behind that stays as it was. */
static void expect_new(const char *name)
{
    static uint8_t left[sizeof old.bytes + ST_GAIN];
    size_t wanted = length_of(&new);
    int64_t answer = convert(name, old.bytes, length_of(&old), left);

    check(answer == (int64_t)wanted, "%s: answered %lld, not %zu", name, (long long)answer, wanted);
    check(memcmp(left, new.bytes, wanted) == 0, "%s: another image", name);
    check_rest(name, left, wanted);
}

/* `old` is refused, and stays as it was. */
static void expect_refused(const char *name, int64_t number)
{
    static uint8_t left[sizeof old.bytes + ST_GAIN];
    int64_t answer = convert(name, old.bytes, length_of(&old), left);

    check(answer == -number, "%s: answered %lld, not %lld", name, (long long)answer, (long long)-number);
    check_rest(name, left, 0);
}

static void put_each_once(image *i)
{
    me(i, 16);
    wd(i, 15, 1);
    st(i);
    wd(i, 0, 0);
    wd(i, 7, 1);
    rn(i, UINT32_MAX);
}

/* Nothing is dropped: the room is used up. */
static void kept_whole(void)
{
    me(&old, 0);
    st(&old);
    rn(&old, 0);
    me(&new, 0);
    st(&new);
    rn(&new, 0);
    expect_new("no WD");

    put_each_once(&old);
    put_each_once(&new);
    expect_new("each address once");
}

/* All of ST's fields, byte by byte. */
static void st_kept(void)
{
    static const char bytes[] = "ME\0\0\0\001"
                                "ST\x11\x12\x13\x14\x15\x16\x17\x18"
                                "\0\0\0\0\0\001"
                                "\002\x0a\x0b\x0c\x0d"
                                "\003\001\002\x30\x31\003\001\003\x32\x33\004\001\004\x34\x35\005\001\005\x36\x37"
                                "\006\001\006\x38\x39\007\001\007\x3a\x3b\002\001\x08\x3c\x3d\002\001\x09\x3e\x3f";
    const size_t size = sizeof bytes - 1;

    check(size == 6 + STORED_ST_SIZE, "a stored ST has 59 bytes after its mark");
    memcpy(old.bytes, bytes, size);
    old.end = old.bytes + size;
    rn(&old, 7);
    memcpy(new.bytes, bytes, size);
    memset(new.bytes + size, 0, 5);
    new.end = new.bytes + size + 5;
    rn(&new, 7);
    expect_new("ST with all its fields");
}

static void first_dropped(void)
{
    me(&old, 16);
    st(&old);
    wd(&old, 3, 1);
    wd(&old, 3, 2);
    rn(&old, 5);

    me(&new, 16);
    st(&new);
    wd(&new, 3, 2);
    rn(&new, 5);
    expect_new("two WDs in a row");
}

static void equal_words(void)
{
    me(&old, 16);
    st(&old);
    wd(&old, 3, 9);
    wd(&old, 4, 8);
    wd(&old, 3, 9);
    rn(&old, 5);

    me(&new, 16);
    st(&new);
    wd(&new, 4, 8);
    wd(&new, 3, 9);
    rn(&new, 5);
    expect_new("equal words");
}

static void middle_dropped(void)
{
    me(&old, 16);
    st(&old);
    wd(&old, 1, 1);
    wd(&old, 2, 2);
    wd(&old, 0, 3);
    wd(&old, 2, 4);
    wd(&old, 5, 5);
    rn(&old, 5);

    me(&new, 16);
    st(&new);
    wd(&new, 1, 1);
    wd(&new, 0, 3);
    wd(&new, 2, 4);
    wd(&new, 5, 5);
    rn(&new, 5);
    expect_new("one in the middle");
}

static void three_of_one(void)
{
    me(&old, 16);
    wd(&old, 9, 1);
    wd(&old, 8, 2);
    wd(&old, 9, 3);
    st(&old);
    wd(&old, 7, 4);
    wd(&old, 9, 0);
    rn(&old, 5);

    me(&new, 16);
    wd(&new, 8, 2);
    st(&new);
    wd(&new, 7, 4);
    wd(&new, 9, 0);
    rn(&new, 5);
    expect_new("three of one address, and ST between them");
}

/* Neither the order of addresses nor that of their first WDs. */
static void by_last(void)
{
    me(&old, 16);
    wd(&old, 0, 1);
    wd(&old, 1, 2);
    wd(&old, 2, 3);
    wd(&old, 3, 4);
    wd(&old, 2, 5);
    wd(&old, 0, 6);
    wd(&old, 3, 7);
    wd(&old, 0, 8);
    st(&old);
    rn(&old, 5);

    me(&new, 16);
    wd(&new, 1, 2);
    wd(&new, 2, 5);
    wd(&new, 3, 7);
    wd(&new, 0, 8);
    st(&new);
    rn(&new, 5);
    expect_new("in the order of the last of each");
}

/* ST goes where the WDs before it leave it. */
static void st_last(void)
{
    me(&old, 16);
    wd(&old, 6, 1);
    wd(&old, 6, 2);
    wd(&old, 6, 3);
    wd(&old, 6, 4);
    wd(&old, 6, 5);
    wd(&old, 6, 6);
    st(&old);
    rn(&old, 5);

    me(&new, 16);
    wd(&new, 6, 6);
    st(&new);
    rn(&new, 5);
    expect_new("ST after six WDs of one address");
}

/* Bytes that look like records within words and ST are no records. */
static void look_alikes(void)
{
    const uint64_t like = 0x5744000000035744;

    me(&old, 16);
    st_of(&old, &(kuzhlemor_registers){.a = like});
    wd(&old, 4, like);
    wd(&old, 3, 0x524e000000005744);
    wd(&old, 4, like + 1);
    rn(&old, 0x57440000);

    me(&new, 16);
    st_of(&new, &(kuzhlemor_registers){.a = like});
    wd(&new, 3, 0x524e000000005744);
    wd(&new, 4, like + 1);
    rn(&new, 0x57440000);
    expect_new("words that look like records");
}

/* All addresses three times: up, by sevens, and down. */
static void every_address(void)
{
    me(&old, MOST_WORDS);
    for (uint32_t k = 0; k < MOST_WORDS; k++)
        wd(&old, k, 1);
    st(&old);
    for (uint32_t k = 0; k < MOST_WORDS; k++)
        wd(&old, 7 * k % MOST_WORDS, k);
    for (uint32_t k = MOST_WORDS; k-- > 0;)
        wd(&old, k, k + 2);
    rn(&old, 0);

    me(&new, MOST_WORDS);
    st(&new);
    for (uint32_t k = MOST_WORDS; k-- > 0;)
        wd(&new, k, k + 2);
    rn(&new, 0);
    expect_new("all addresses three times");
}

/* Two WDs of one address before what is refused, so that something could be changed. */
static void start_old(uint32_t words)
{
    me(&old, words);
    wd(&old, 3, 1);
    wd(&old, 3, 2);
}

static void refused_with(const char *name, kuzhlemor_registers registers, int64_t number)
{
    start_old(16);
    st_of(&old, &registers);
    rn(&old, 5);
    expect_refused(name, number);
}

static void refusals(void)
{
    kuzhlemor_registers several = {.dbr = {0, 17}, .ipr = {.ring = 1}};

    old.end = old.bytes;
    expect_refused("an empty image", 42);
    start_old(16);
    expect_refused("neither ST nor RN", 42);
    st(&old);
    expect_refused("no RN", 42);
    rn(&old, 5);
    old.end--;
    expect_refused("RN cut off", 41);
    old.end++;
    *old.end++ = 'W';
    expect_refused("a byte after RN", 42);
    start_old(16);
    rn(&old, 5);
    expect_refused("no ST", 42);
    start_old(16);
    st(&old);
    st(&old);
    rn(&old, 5);
    expect_refused("two STs", 42);
    start_old(16);
    old.end = put_me(old.end, 16);
    expect_refused("two MEs", 42);
    old.end = old.bytes;
    wd(&old, 3, 1);
    expect_refused("a WD first", 42);
    start_old(16);
    old.end = put_mark(old.end, "wd");
    expect_refused("no such mark", 41);
    start_old(8193);
    expect_refused("8,193 words", 43);
    start_old(16);
    wd(&old, 16, 1);
    wd(&old, 16, 1);
    st(&old);
    rn(&old, 5);
    expect_refused("a WD past the memory", 44);
    start_old(3);
    expect_refused("two of them past the memory", 44);
    refused_with("a ring of 8", (kuzhlemor_registers){.prs = {[7] = {.ring = 8}}}, 2);
    refused_with("a PR below IPR", (kuzhlemor_registers){.ipr = {.ring = 1}}, 3);
    refused_with("DBR past the memory", (kuzhlemor_registers){.dbr = {0, 17}}, 4);
    refused_with("3 before 4", several, 3);
    several.prs[0].segment = 4096;
    refused_with("2 before 3", several, 2);
}

/* The room is no part of the image, even where it would make one whole. */
static void room_not_read(void)
{
    static const uint8_t end_of_rn[ST_GAIN] = {'N', 0, 0, 0, 5};
    static const uint8_t plain_room[ST_GAIN] = {1, 2, 3, 4, 5};

    memcpy(room, end_of_rn, ST_GAIN);
    start_old(16);
    st(&old);
    *old.end++ = 'R';
    expect_refused("an RN that ends in the room", 41);
    old.end--;
    expect_refused("no RN, whatever is in the room", 42);
    memcpy(room, plain_room, ST_GAIN);
}

/* Buffers that have no image before the room, or no whole room. */
static void short_buffers(void)
{
    for (size_t length = 0; length <= ST_GAIN; length++) {
        uint8_t bytes[ST_GAIN + 1];

        memset(bytes, FILLER, sizeof bytes);
        memcpy(bytes, "MEMEM", length);
        check(kuzhlemor_convert(bytes, length) == -42, "a buffer of %zu bytes", length);
        check(memcmp(bytes, "MEMEM", length) == 0, "a buffer of %zu bytes was changed", length);
        check_fillers("a short buffer", bytes + length, bytes + sizeof bytes);
    }
}

/* Today's images aren't stored ones, with the switch on or off. */
static void todays_images(void)
{
    machine m = case_12();

    for (uint16_t fault_switch = 0; fault_switch <= 1; fault_switch++) {
        m.registers.fault_switch = fault_switch;
        m.registers.save_segment = 0x5744;
        old.end = old.bytes + put_image(old.bytes, &m.registers, m.memory, (uint32_t)m.words, 9);
        expect_refused("an image of today's", 41);
    }
    me(&old, 16);
    old.end = put_st(old.end, &(kuzhlemor_registers){0});
    rn(&old, 5);
    expect_refused("an image of today's without WDs", 41);
    /* What a conversion has written isn't converted again. */
    put_each_once(&new);
    memcpy(old.bytes, new.bytes, length_of(&new));
    old.end = old.bytes + length_of(&new);
    expect_refused("a converted image", 41);
}

/* A machine's image in which other words come before its own ones for some addresses. */
static void put_doubled(const machine *m, uint32_t budget)
{
    me(&old, (uint32_t)m->words);
    st_of(&old, &m->registers);
    for (uint32_t k = 0; k < m->words; k++) {
        uint32_t later = k + random_below((uint32_t)m->words - k);

        if (random_below(2) == 0)
            wd(&old, later, random_below(1000));
        wd(&old, k, m->memory[k]);
    }
    rn(&old, budget);
}

/* The new image loads as the old one did, with the switch off: its listing is that of an image with each of the machine's words
 * once. */
static void doubled_machines(void)
{
    static uint8_t left[sizeof old.bytes + ST_GAIN];
    static uint8_t plain_image[IMAGE_ROOM(CAPACITY)];
    static uint8_t x[64 * (BUDGET + 1)];
    static uint8_t y[64 * (BUDGET + 1)];
    unsigned long runs = 0;

    for (int k = 0; k < MACHINES; k++) {
        machine m = random_machine();
        size_t length;
        int64_t wanted;
        int64_t converted;
        int64_t got;

        memset(x, FILLER, sizeof x);
        memset(y, FILLER, sizeof y);
        m.registers.fault_switch = m.registers.save_segment = m.registers.handler_segment = 0;
        length = put_image(plain_image, &m.registers, m.memory, (uint32_t)m.words, BUDGET);
        put_doubled(&m, BUDGET);
        wanted = plain_bench(plain_image, length, x, sizeof x);
        converted = convert("a doubled machine", old.bytes, length_of(&old), left);
        got = converted < 0 ? converted : kuzhlemor_bench(left, (size_t)converted, y, sizeof y);
        check(got == wanted, "doubled machine %d: answered %lld, not %lld", k, (long long)got, (long long)wanted);
        check(memcmp(x, y, sizeof x) == 0, "doubled machine %d: another listing", k);
        runs += got > 0;
    }
    check(runs > MACHINES / 2, "only %lu of the doubled machines ran", runs);
}

/* What the random images came to: by the number that refused them, and accepted ones that kept all or lost some. */
typedef struct {
    unsigned long refused[64];
    unsigned long kept_all;
    unsigned long lost_some;
} ends;

static void compare(const uint8_t *bytes, size_t length, ends *seen)
{
    static uint8_t x[sizeof old.bytes + ST_GAIN];
    static uint8_t y[sizeof old.bytes + ST_GAIN];
    int64_t plain;
    int64_t library;

    memcpy(x, bytes, length);
    memcpy(x + length, room, ST_GAIN);
    plain = plain_convert(x, length + ST_GAIN);
    library = convert("a random image", bytes, length, y);
    check(plain == library, "plain C answers %lld, the library %lld", (long long)plain, (long long)library);
    check(memcmp(x, y, length + ST_GAIN) == 0, "a byte of the image or the room differs");
    if (plain < 0)
        seen->refused[-plain]++;
    else if ((size_t)plain == length + ST_GAIN)
        seen->kept_all++;
    else
        seen->lost_some++;
}

/* Few words and many WDs, ST anywhere among them; now and then an address, a ring or a size that won't do. */
static void put_random(void)
{
    static const kuzhlemor_registers bad[] = {
        {.ipr = {.segment = 4096}},
        {.ipr = {.ring = 3}},
        {.dbr = {MOST_WORDS, 1}},
    };
    uint32_t words = 1 + random_below(8);
    uint32_t wds = random_below(16);
    uint32_t st_at = random_below(wds + 1);
    bool past = random_below(30) == 0;

    me(&old, random_below(50) == 0 ? MOST_WORDS + 1 : words);
    for (uint32_t k = 0; k <= wds; k++) {
        uint32_t address = random_below(words + past);

        if (k == st_at && random_below(10) == 0)
            st_of(&old, &bad[random_below(3)]);
        else if (k == st_at)
            st(&old);
        if (k < wds)
            wd(&old, address, random_below(4));
    }
    rn(&old, random_below(100));
}

static void random_images(void)
{
    static const int numbers[] = {41, 42, 43, 44, 2, 3, 4};
    static ends seen;

    for (int k = 0; k < IMAGES; k++) {
        uint32_t length;

        for (int byte = 0; byte < ST_GAIN; byte++)
            room[byte] = (uint8_t)random_below(256);
        put_random();
        length = (uint32_t)length_of(&old);
        compare(old.bytes, length, &seen);
        compare(old.bytes, random_below(length + 1), &seen);
        old.bytes[random_below(length)] ^= (uint8_t)(1 << random_below(8));
        compare(old.bytes, length, &seen);
    }
    for (size_t k = 0; k < sizeof numbers / sizeof numbers[0]; k++)
        check(seen.refused[numbers[k]] > 0, "no random image was refused by %d", numbers[k]);
    check(seen.refused[51] == 0 && seen.refused[45] == 0, "51 or 45 was asked");
    check(seen.kept_all > IMAGES / 100 && seen.lost_some > IMAGES / 2, "of the random images %lu kept all, %lu lost some",
          seen.kept_all, seen.lost_some);
}

int main(void)
{
    kept_whole();
    st_kept();
    first_dropped();
    equal_words();
    middle_dropped();
    three_of_one();
    by_last();
    st_last();
    look_alikes();
    every_address();
    refusals();
    room_not_read();
    short_buffers();
    todays_images();
    doubled_machines();
    random_images();
    printf("tests/c/convert: %lu checks passed\n", checks);
    return 0;
}
