/* kuzhlemor_needs as a host calls it: figures worked out by hand, and runs that reach them; each cause of a refusal; every size
 * of memory, with DBR's end there and one past it; every address twice, every mark, every beginning of an image; and random and
 * damaged images against plain C. Of each image kuzhlemor_bench gives the same number, and its text keeps within the figures. The
 * image lies at the edge of pages that can't be touched, and stays; one of the largest is asked on a stack of two pages. */
#include "images.h"
#include "machine.h"
#include "place.h"

#include <inttypes.h>
#include <stdio.h>
#include <string.h>
#include <ucontext.h>

enum {
    IMAGES = 300000,
    MOST_WORDS = 8192,
    MOST_BUDGET = 60,
    ROOM = 64 * (MOST_BUDGET + 1),
    STACK_PAGES = 2
};

/* The image while it is made: `end` is where the next record goes. */
static uint8_t image[IMAGE_ROOM(MOST_WORDS) + 2 * ST_SIZE];
static uint8_t *end;

static size_t image_length(void)
{
    return (size_t)(end - image);
}

/* ME, with which an image begins; ST; ST with zeros; a WD; RN. */
static void me(uint32_t words)
{
    end = put_me(image, words);
}

static void st_of(kuzhlemor_registers registers)
{
    end = put_st(end, &registers);
}

static void st(void)
{
    st_of((kuzhlemor_registers){0});
}

static void wd(uint32_t address, uint64_t word)
{
    end = put_wd(end, address, word);
}

static void rn(uint32_t budget)
{
    end = put_rn(end, budget);
}

typedef kuzhlemor_image_needs question(const uint8_t *bytes, size_t length);

/* Asks of a copy that lies at the edge of the smallest place for it. */
static kuzhlemor_image_needs ask(question *needs, bool at_end)
{
    static const size_t pages[] = {1, sizeof image / PAGE + 1};
    static uint8_t left[sizeof image];
    static place places[2];
    const size_t length = image_length();
    place *p = &places[length > PAGE];
    kuzhlemor_image_needs answer;

    if (p->start == NULL)
        *p = new_place(pages[length > PAGE]);
    answer = needs(lend(p, image, length, at_end), length);
    take_back(p, left);
    check(memcmp(left, image, length) == 0, "the image was changed");
    return answer;
}

/* The number and the five figures of a message. */
#define SIX "%" PRIu64 ": %" PRIu64 " %" PRIu64 " %" PRIu64 " %" PRIu64 " %" PRIu64

static void check_needs(const char *who, const char *name, kuzhlemor_image_needs got, kuzhlemor_image_needs wanted)
{
    check(same_needs(got, wanted), "%s: %s: " SIX ", not " SIX, who, name, got.number, got.memory, got.records, got.budget,
          got.lines, got.pointers, wanted.number, wanted.memory, wanted.records, wanted.budget, wanted.lines, wanted.pointers);
}

/* The lines of a text, and the number with which it ends: the last line's total. */
typedef struct {
    uint64_t lines;
    uint64_t total;
} extent;

static extent extent_of(const uint8_t *text, size_t length)
{
    extent e = {0, 0};

    for (size_t k = 0; k < length; k++) {
        bool digit = text[k] >= '0' && text[k] <= '9';

        e.lines += text[k] == '\n';
        if (k + 1 < length)
            e.total = digit ? 10 * e.total + text[k] - '0' : 0;
    }
    return e;
}

/* The bench's call has the same number, or runs the image within the figures. Where the buffer is too short for their lines, it
 * has nothing but that against the image. */
static extent check_bench(const char *name, kuzhlemor_image_needs needs)
{
    static uint8_t text[ROOM];
    const bool fits = needs.lines <= MOST_BUDGET + 1;
    const int64_t answer = kuzhlemor_bench(image, image_length(), text, ROOM);
    const int64_t refusal = needs.number != 0 ? -(int64_t)needs.number : -45;
    extent e = {0, 0};

    if (needs.number != 0 || !fits) {
        check(answer == refusal, "%s: the bench's call answers %" PRId64 ", not %" PRId64, name, answer, refusal);
        return e;
    }
    check(answer > 0, "%s: the bench's call answers %" PRId64, name, answer);
    e = extent_of(text, (size_t)answer);
    check(e.lines <= needs.lines, "%s: %" PRIu64 " lines, and not at most %" PRIu64, name, e.lines, needs.lines);
    check(e.total <= needs.pointers, "%s: %" PRIu64 " pointer words, and not at most %" PRIu64, name, e.total, needs.pointers);
    return e;
}

/* The answer of the library and of plain C, at either edge; and what the bench's call has of lines and pointer words. */
static extent expect(const char *name, kuzhlemor_image_needs wanted)
{
    for (int k = 0; k < 4; k++) {
        kuzhlemor_image_needs got = ask(k < 2 ? kuzhlemor_needs : plain_needs, k % 2 == 0);

        check_needs(k < 2 ? "the library" : "plain C", name, got, wanted);
    }
    return check_bench(name, wanted);
}

static extent figures(const char *name, uint64_t memory, uint64_t records, uint64_t budget, uint64_t lines, uint64_t pointers)
{
    return expect(name, (kuzhlemor_image_needs){0, memory, records, budget, lines, pointers});
}

static void refuses(const char *name, uint64_t number)
{
    expect(name, (kuzhlemor_image_needs){.number = number});
}

static void by_hand(void)
{
    static const uint8_t constant[] = {'M', 'E', 0, 0, 0, 0, 'S', 'T', [6 + ST_SIZE] = 'R', 'N', 0, 0, 0, 0};
    machine m = case_12();

    me(0);
    st();
    rn(0);
    figures("the smallest image", 0, 0, 0, 1, 0);
    check_needs("the library", "an image that can't be written", kuzhlemor_needs(constant, sizeof constant),
                (kuzhlemor_image_needs){0, 0, 0, 0, 1, 0});

    end = image + put_image(image, &m.registers, m.memory, 64, 9);
    figures("case 12", 64, 6, 9, 10, 576);

    me(8192);
    wd(8191, UINT64_MAX);
    st();
    rn(1);
    figures("one WD", 8192, 1, 1, 2, 64);

    me(16);
    wd(3, 0);
    wd(15, 0);
    st();
    wd(0, 0);
    rn(7);
    figures("words of zero", 16, 3, 7, 8, 448);

    /* Bytes that look like records within words, ST and numbers are no records. */
    me(0x574);
    st_of((kuzhlemor_registers){.a = 0x5744000000035744});
    wd(4, 0x5744000000045744);
    wd(3, 0x524e000000005744);
    wd(0x524, 0x4d45000000015354);
    rn(0x524e0000);
    figures("words that look like records", 1396, 3, 1380843520, 1380843521, 88373985280);

    me(8192);
    st();
    for (uint32_t k = 0; k < MOST_WORDS; k++)
        wd(k, 0);
    rn(UINT32_MAX);
    figures("the most of all", 8192, 8192, 4294967295, 4294967296, 274877906880);
}

static void budgets(void)
{
    static const struct {
        uint32_t budget;
        uint64_t lines;
        uint64_t pointers;
    } rows[] = {
        {0, 1, 0},
        {1, 2, 64},
        {2, 3, 128},
        {59, 60, 3776},
        {60, 61, 3840},
        {61, 62, 3904},
        {100, 101, 6400},
        {255, 256, 16320},
        {256, 257, 16384},
        {65535, 65536, 4194240},
        {65536, 65537, 4194304},
        {16777215, 16777216, 1073741760},
        {16777216, 16777217, 1073741824},
        {16909060, 16909061, 1082179840},
        {67108863, 67108864, 4294967232},
        {67108864, 67108865, 4294967296},
        {2147483647, 2147483648, 137438953408},
        {2147483648, 2147483649, 137438953472},
        {4278190080, 4278190081, 273804165120},
        {4294967294, 4294967295, 274877906816},
        {4294967295, 4294967296, 274877906880},
    };

    for (size_t k = 0; k < sizeof rows / sizeof rows[0]; k++) {
        me(16);
        st();
        wd(2, 5);
        rn(rows[k].budget);
        figures("a budget", 16, 1, rows[k].budget, rows[k].lines, rows[k].pointers);
    }
    for (unsigned k = 0; k < 32; k++) {
        me(16);
        st();
        rn((uint32_t)1 << k);
        figures("one bit of a budget", 16, 0, (uint64_t)1 << k, ((uint64_t)1 << k) + 1, (uint64_t)1 << (k + 6));
    }
}

/* Every number of WDs up to a few hundred, and the most. */
static void counts(void)
{
    for (uint32_t count = 0; count <= MOST_WORDS; count += count < 300 ? 1 : 1973) {
        me(MOST_WORDS);
        for (uint32_t k = 0; k < count; k++)
            wd(k * 4099 % MOST_WORDS, k);
        st();
        rn(3);
        figures("a number of WDs", 8192, count, 3, 4, 192);
    }
}

/* Seven WDs from each address on, by each stride, and ST at each place among them. */
static void orders(void)
{
    for (uint32_t first = 0; first < 7; first++)
        for (uint32_t stride = 1; stride < 7; stride++)
            for (uint32_t st_at = 0; st_at <= 7; st_at++) {
                me(7);
                for (uint32_t k = 0; k <= 7; k++) {
                    if (k == st_at)
                        st();
                    if (k < 7)
                        wd((first + k * stride) % 7, k % 2);
                }
                rn(2);
                figures("WDs and ST in any order", 7, 7, 2, 3, 128);
            }
}

/* An instruction in ring 0 at word 0 of a segment, behind which is a chain of 64 pointer words that leads back to it. */
static extent with_chain(uint64_t instruction, uint32_t budget)
{
    machine m = empty_machine(128);

    m.registers.dbr = (kuzhlemor_dbr){0, 2};
    m.registers.ipr = pointer_to(0, 1, 0);
    m.memory[1] = descriptor_word(8, 100, 0, 0, 0, R | E | V, 0);
    m.memory[8] = instruction;
    for (unsigned k = 1; k <= 64; k++)
        m.memory[8 + k] = pointer_word(pointer_to(0, 1, k < 64 ? k + 1 : 0)) | (k < 64 ? POINTER_I_ON : 0);
    end = image + put_image(image, &m.registers, m.memory, 128, budget);
    return figures("a chain", 128, 66, budget, budget + 1, 64 * budget);
}

/* A run has as many lines and pointer words as is said, or fewer where it ends before the budget does. */
static void reached(void)
{
    extent e;

    for (uint32_t budget = 0; budget <= MOST_BUDGET; budget++) {
        e = with_chain(near(TRA, 1) | I_ON, budget);
        check(e.lines == budget + 1 && e.total == 64 * budget, "budget %" PRIu32 ": %" PRIu64 " lines, %" PRIu64 " pointer words",
              budget, e.lines, e.total);
    }
    e = with_chain(near(TRA, 2) | I_ON, 9);
    check(e.lines == 10 && e.total == 567, "63 pointer words");
    e = with_chain(near(HLT, 0), 9);
    check(e.lines == 2 && e.total == 0, "HLT");
    e = with_chain(near(STA, 1) | I_ON, 9);
    check(e.lines == 1 && e.total == 0, "23 after 64 pointer words");
}

/* ME of so many words, ST with this DBR, and RN. */
static void put_dbr(uint32_t words, uint32_t address, unsigned length)
{
    me(words);
    st_of((kuzhlemor_registers){.dbr = {address, (uint16_t)length}});
    rn(2);
}

/* DBR's end at ME's number and one past it, by its address and by its length; a WD for the last word, and for the next. */
static void every_size(void)
{
    for (uint32_t words = 0; words <= MOST_WORDS; words++) {
        const unsigned length = words < 4096 ? words : 4096;
        const uint32_t address = words - length;

        put_dbr(words, address, length);
        figures("DBR up to the end", words, 0, 2, 3, 128);
        put_dbr(words, words, 0);
        figures("DBR at the end", words, 0, 2, 3, 128);
        put_dbr(words, address + 1, length);
        refuses("DBR's address one more", 4);
        put_dbr(words, address, length + 1);
        refuses("DBR's length one more", 4);
        put_dbr(words, words + 1, 0);
        refuses("DBR past the end", 4);
        me(words);
        st();
        if (words > 0)
            wd(words - 1, 1);
        rn(2);
        figures("a WD for the last word", words, words > 0, 2, 3, 128);
        me(words);
        wd(words, 1);
        refuses("a WD for the next", 44);
    }
}

/* No two addresses are taken for one, and none is overlooked. */
static void every_address(void)
{
    me(MOST_WORDS);
    for (uint32_t k = MOST_WORDS; k-- > 0;)
        wd(k, k);
    st();
    rn(0);
    figures("all addresses", 8192, 8192, 0, 1, 0);
    end -= 6;
    wd(5000, 5000);
    rn(0);
    refuses("all addresses, and one again", 51);
    for (uint32_t k = 0; k < MOST_WORDS; k++) {
        me(MOST_WORDS);
        wd(k, 0);
        wd(k, k % 2);
        refuses("an address twice", 51);
        for (uint32_t bit = 1; bit < MOST_WORDS; bit *= 2) {
            me(MOST_WORDS);
            wd(k, 1);
            st();
            wd(k ^ bit, 1);
            rn(0);
            check_needs("the library", "two addresses", ask(kuzhlemor_needs, true), (kuzhlemor_image_needs){0, 8192, 2, 0, 1, 0});
        }
    }
}

/* 41: a mark of any two bytes, before as many bytes as a record may have. */
static void every_mark(void)
{
    for (unsigned k = 0; k < 65536; k++) {
        const uint8_t mark[2] = {(uint8_t)(k >> 8), (uint8_t)k};
        const bool later = memcmp(mark, "ST", 2) == 0 || memcmp(mark, "WD", 2) == 0 || memcmp(mark, "RN", 2) == 0;

        memset(image, 0, ST_SIZE);
        memcpy(image, mark, 2);
        end = image + ST_SIZE;
        refuses("any mark first", later ? 42 : 41);
    }
}

/* All records, cut off at each byte, and with bytes after them. */
static void every_beginning(void)
{
    static const size_t ends[] = {0, 6, 20, 86, 100};
    static const char *const marks[] = {"ME", "ST", "WD", "RN", "xx"};
    size_t whole;

    me(16);
    wd(3, 1);
    st();
    wd(4, 1);
    rn(5);
    whole = image_length();
    figures("all records", 16, 2, 5, 6, 320);
    for (size_t k = 0; k < whole; k++) {
        bool at_end = false;

        for (size_t i = 0; i < sizeof ends / sizeof ends[0]; i++)
            at_end = at_end || k == ends[i];
        end = image + k;
        refuses("a beginning", at_end ? 42 : 41);
    }
    for (int mark = 0; mark < 5; mark++)
        for (size_t k = 1; k <= 70; k++) {
            memset(image + whole, 0, 70);
            put_mark(image + whole, marks[mark]);
            end = image + whole + k;
            refuses("bytes after RN", 42);
        }
    /* Before any ME: a part of a record, the whole of it, and bytes behind that. */
    for (int mark = 1; mark < 5; mark++) {
        const size_t size = mark == 1 ? 66 : mark == 2 ? 14 : 6;

        memset(image, 0, ST_SIZE + 4);
        put_mark(image, marks[mark]);
        for (size_t k = 1; k <= ST_SIZE + 4; k++) {
            end = image + k;
            refuses("another first", mark == 4 || k < size ? 41 : 42);
        }
    }
}

/* The records that these letters stand for: M and L are MEs of 16 words and of 8,193, S is ST, s a stored one, W and V are WDs of
 * addresses 3 and 4, P and F of 16 and 2^32 - 1, R is RN, - a WD cut off, and any other letter a mark of its own. */
static void put_sequence(const char *letters, const kuzhlemor_registers *start)
{
    for (end = image; *letters != 0; letters++)
        switch (*letters) {
        case 'M':
        case 'L':
            end = put_me(end, *letters == 'M' ? 16 : 8193);
            break;
        case 'S':
            end = put_st(end, start);
            break;
        case 's':
            end = put_stored_st(end, start);
            break;
        case 'W':
        case 'V':
            wd(*letters == 'W' ? 3 : 4, 1);
            break;
        case 'P':
        case 'F':
            wd(*letters == 'P' ? 16 : UINT32_MAX, 1);
            break;
        case 'R':
            rn(5);
            break;
        case '-':
            wd(5, 1);
            end -= 8;
            break;
        default:
            end = put_number(put_mark(end, "wd"), 0, 4);
            break;
        }
}

/* Which record may come where; whatever ST says, the first that fails decides. */
static void sequences(void)
{
    static const kuzhlemor_registers starts[] = {{0}, {.save_segment = 4096}, {.ipr = {.ring = 1}}, {.dbr = {16, 1}}};
    static const struct {
        uint64_t number;
        const char *letters[40];
    } rows[] = {
        {41, {"?", "-", "M?", "M-", "MS?R", "MSW-", "MsR", "MWsR"}},
        {42, {"", "M", "MS", "MW", "MSW", "R", "SR", "MR", "MWR", "MRS", "MWRS", "MRSR", "SMR", "WMSR", "WWMSR", "PMSR", "RMSR",
              "MMSR", "MSMR", "MSWMR", "MLSR", "MSLR", "MSSR", "MSWSR", "MSRM", "MSRL", "MSRS", "MSRW", "MSRP", "MSRR", "MSR?",
              "MSR-", "MSWRW"}},
        {43, {"L", "LSR", "LMSR", "LL", "LPR", "LWWSR", "L?"}},
        {44, {"MP", "MPP", "MF", "MPSR", "MSPR", "MSFR", "MWPWSR", "MPR", "MPM"}},
        {51, {"MWW", "MWWSR", "MSWWR", "MWSWR", "MWVWSR", "MWVVWR", "MWWP", "MWWM", "MWWR"}},
    };
    static const char failing[] = "?MLSPFW";
    static const uint64_t numbers[] = {41, 42, 42, 42, 44, 44, 51};

    for (int start = 0; start < 4; start++) {
        for (size_t row = 0; row < sizeof rows / sizeof rows[0]; row++)
            for (const char *const *letters = rows[row].letters; *letters != NULL; letters++) {
                put_sequence(*letters, &starts[start]);
                refuses(*letters, rows[row].number);
            }
        for (int first = 0; failing[first] != 0; first++)
            for (const char *second = "?-MLSPFWRV"; *second != 0; second++) {
                const char letters[] = {'M', 'S', 'W', failing[first], *second, *second == '-' ? 0 : 'R', 0};

                put_sequence(letters, &starts[start]);
                refuses(letters, numbers[first]);
            }
    }
    put_sequence("MSR", &starts[0]);
    figures("MSR", 16, 0, 5, 6, 320);
    put_sequence("MWVSR", &starts[0]);
    figures("MWVSR", 16, 2, 5, 6, 320);
    put_sequence("MVSWR", &starts[0]);
    figures("MVSWR", 16, 2, 5, 6, 320);
}

/* 43 and 44 of numbers whose lower bytes would do. */
static void large_numbers(void)
{
    static const uint32_t sizes[] = {8193, 8194, 16384, 32768, 65536, 65552, 16777216, 16777232, 2147483648, 4294967295};
    static const uint32_t addresses[] = {16, 17, 8191, 8192, 65535, 65536, 65539, 16777219, 2147483651, 4294967295};

    for (size_t k = 0; k < sizeof sizes / sizeof sizes[0]; k++) {
        me(sizes[k]);
        refuses("too many words", 43);
        st();
        wd(3, 1);
        rn(5);
        refuses("too many words, all records", 43);
    }
    for (size_t k = 0; k < sizeof addresses / sizeof addresses[0]; k++) {
        me(16);
        wd(addresses[k], 1);
        refuses("a WD past the memory", 44);
        wd(addresses[k], 1);
        st();
        rn(5);
        refuses("two WDs past the memory", 44);
    }
}

/* ME of 16 words, a WD, this ST and RN: accepted, or refused by a number. */
static void start_of(const char *name, kuzhlemor_registers registers, uint64_t number)
{
    me(16);
    wd(3, 1);
    st_of(registers);
    rn(5);
    if (number == 0)
        figures(name, 16, 1, 5, 6, 320);
    else
        refuses(name, number);
}

static kuzhlemor_pointer *pointer_of(kuzhlemor_registers *r, int k)
{
    return k < 8 ? &r->prs[k] : &r->ipr;
}

/* 2 of every field. */
static void question_2(void)
{
    static const uint16_t segments[] = {4096, 4097, 8192, 32768, 65535};
    kuzhlemor_registers most = {.a = UINT64_MAX, .dbr = {8, 8}, .fault_switch = 1, .save_segment = 4095, .handler_segment = 4095};
    kuzhlemor_registers r;

    for (int k = 0; k <= 8; k++)
        *pointer_of(&most, k) = pointer_to(7, 4095, 65535);
    start_of("all at their most", most, 0);
    for (int k = 0; k <= 8; k++) {
        for (unsigned ring = 8; ring < 256; ring++) {
            r = most;
            pointer_of(&r, k)->ring = (uint8_t)ring;
            start_of("a ring above 7", r, 2);
        }
        for (size_t i = 0; i < sizeof segments / sizeof segments[0]; i++) {
            r = most;
            pointer_of(&r, k)->segment = segments[i];
            start_of("a segment above 4,095", r, 2);
        }
    }
    for (size_t i = 0; i < sizeof segments / sizeof segments[0]; i++) {
        r = most;
        r.save_segment = segments[i];
        start_of("a save segment above 4,095", r, 2);
        r = most;
        r.handler_segment = segments[i];
        start_of("a handler segment above 4,095", r, 2);
    }
    for (uint16_t value = 2; value < 256; value++) {
        r = most;
        r.fault_switch = value;
        start_of("a switch above 1", r, 2);
    }
    for (unsigned bit = 24; bit < 32; bit++) {
        r = most;
        r.dbr.address |= (uint32_t)1 << bit;
        start_of("DBR's address from 2^24 on", r, 2);
    }
}

/* 3 of every PR, and 4 by DBR's fields. */
static void questions_3_and_4(void)
{
    static const kuzhlemor_dbr past[] = {
        {0, 17}, {1, 16}, {16, 1}, {17, 0}, {0, 4096}, {0, 4097}, {0, 65535}, {8191, 1}, {8192, 0}, {65536, 4}, {16777215, 0},
        {16777215, 65535},
    };
    kuzhlemor_registers r = {0};

    for (unsigned ring = 1; ring <= 7; ring++) {
        for (int k = 0; k <= 8; k++)
            pointer_of(&r, k)->ring = (uint8_t)ring;
        start_of("all in one ring", r, 0);
        for (int k = 0; k < 8; k++)
            for (unsigned lower = 0; lower < ring; lower++) {
                r.prs[k].ring = (uint8_t)lower;
                start_of("a PR below IPR", r, 3);
                r.prs[k].ring = (uint8_t)ring;
            }
    }
    for (size_t k = 0; k < sizeof past / sizeof past[0]; k++)
        start_of("DBR past the memory", (kuzhlemor_registers){.dbr = past[k]}, 4);
    put_dbr(MOST_WORDS, 0, 4097);
    refuses("4,097 descriptors, within memory", 4);
    for (int k = 0; k < 8; k++) {
        r = (kuzhlemor_registers){.dbr = {.length = (k & 1) != 0 ? 17 : 16}, .ipr = {.ring = (k & 2) != 0}};
        r.save_segment = (k & 4) != 0 ? 4096 : 4095;
        start_of("2, 3 and 4", r, (k & 4) != 0 ? 2 : (k & 2) != 0 ? 3 : (k & 1) != 0 ? 4 : 0);
    }
}

/* The call on a stack of its own, which the address sanitizer doesn't understand. */
#ifndef __SANITIZE_ADDRESS__
static ucontext_t caller;
static kuzhlemor_image_needs answer_there;

static void ask_there(void)
{
    answer_there = kuzhlemor_needs(image, image_length());
}

/* No memory is built: a stack of two pages will do, below which none can be touched. */
static void small_stack(void)
{
    place stack = new_place(STACK_PAGES);
    ucontext_t there;

    for (int k = 0; k < 2; k++) {
        me(MOST_WORDS);
        for (uint32_t i = 0; i < MOST_WORDS; i++)
            wd(i * 4099 % MOST_WORDS, i);
        st_of((kuzhlemor_registers){.dbr = {4096, (uint16_t)(4096 + k)}});
        rn(5);
        check(getcontext(&there) == 0, "no context");
        there.uc_stack.ss_sp = stack.start;
        there.uc_stack.ss_size = stack.room;
        there.uc_link = &caller;
        makecontext(&there, ask_there, 0);
        check(swapcontext(&caller, &there) == 0, "no stack of its own");
        check_needs("the library", "on a small stack", answer_there,
                    k == 0 ? (kuzhlemor_image_needs){0, 8192, 8192, 5, 6, 320} : (kuzhlemor_image_needs){.number = 4});
    }
}
#endif

/* Random images are lists of records, which are damaged as a list, then as bytes. WDs come in any order, ST among them. */
enum {
    IS_ME, IS_ST, IS_WD, IS_RN
};

typedef struct {
    int mark;
    uint32_t number;
    uint64_t word;
} record;

typedef enum {
    NONE, DOUBLED, DROPPED, EXCHANGED, SAME_ADDRESS, NEAR_ADDRESS, ANY_ADDRESS, SIZE, ANY_SIZE, DBR_AT_END, BAD_FIELD, LOW_PR,
    CUT_OFF, MORE_BYTES, ONE_BIT, ONE_BYTE, OTHER_MARK, STORED_ST,
    DAMAGES
} damage;

static record records[MOST_WORDS + 8];
static size_t record_count;
static kuzhlemor_registers registers;

static void add(int mark, uint32_t number, uint64_t word)
{
    records[record_count++] = (record){mark, number, word};
}

static size_t any_record(void)
{
    return random_below((uint32_t)record_count);
}

static void exchange(size_t i, size_t k)
{
    record r = records[i];

    records[i] = records[k];
    records[k] = r;
}

/* ME, then ST and the WDs in some order, then RN. */
static void finish_list(uint32_t budget)
{
    add(IS_ST, 0, 0);
    for (size_t k = record_count - 1; k > 1; k--)
        exchange(k, 1 + random_below((uint32_t)k));
    add(IS_RN, budget, 0);
}

/* Of any length. Random numbers are never drawn in an order that C leaves open. */
static uint32_t random_number(void)
{
    uint32_t bits = random_below(32);

    return (uint32_t)random_word() >> bits;
}

static uint32_t random_budget(void)
{
    return one_in(8) ? random_number() : random_below(20);
}

/* The words of a machine that aren't zero, and some that are. */
static void list_machine(void)
{
    machine m = random_machine();

    registers = m.registers;
    add(IS_ME, (uint32_t)m.words, 0);
    for (uint32_t k = 0; k < m.words; k++)
        if (m.memory[k] != 0 || one_in(2))
            add(IS_WD, k, m.memory[k]);
    finish_list(random_budget());
}

/* Some addresses of a memory, each once, from some address on or up to the last; and a start that is accepted. */
static void list_words(void)
{
    uint32_t words = one_in(8) ? MOST_WORDS : one_in(4) ? random_below(MOST_WORDS) : random_below(40);
    uint32_t wds = one_in(400) ? words : random_below((words < 12 ? words : 12) + 1);
    uint32_t first = one_in(2) ? words - wds : random_below(words + 1);
    unsigned length = random_below((words < 4096 ? words : 4096) + 1);
    unsigned ring = random_below(8);

    registers = (kuzhlemor_registers){.a = random_word(), .ipr = pointer_to(ring, 0, 0)};
    registers.dbr = (kuzhlemor_dbr){one_in(3) ? words - length : random_below(words - length + 1), (uint16_t)length};
    for (int k = 0; k < 8; k++)
        registers.prs[k].ring = (uint8_t)(ring + random_below(8 - ring));
    registers.fault_switch = (uint16_t)random_below(2);
    registers.save_segment = (uint16_t)random_below(4096);
    registers.handler_segment = (uint16_t)random_below(4096);
    add(IS_ME, words, 0);
    for (uint32_t k = 0; k < wds; k++)
        add(IS_WD, (first + k) % words, one_in(3) ? 0 : random_word());
    finish_list(random_budget());
}

/* A WD of the list, or some other record where it has none. */
static record *any_wd(void)
{
    for (int tries = 0; tries < 20; tries++) {
        record *r = &records[any_record()];

        if (r->mark == IS_WD)
            return r;
    }
    return &records[any_record()];
}

/* One field out of its range, as put_st can write it. */
static void spoil_field(void)
{
    kuzhlemor_pointer *p = pointer_of(&registers, (int)random_below(9));
    uint16_t segment = (uint16_t)(one_in(2) ? 4096 : 4096 + random_below(61440));

    switch (random_below(6)) {
    case 0:
        p->ring = (uint8_t)(8 + random_below(248));
        break;
    case 1:
        p->segment = segment;
        break;
    case 2:
        registers.dbr.address |= (uint32_t)1 << (24 + random_below(8));
        break;
    case 3:
        registers.fault_switch = (uint16_t)(2 + random_below(254));
        break;
    case 4:
        registers.save_segment = segment;
        break;
    default:
        registers.handler_segment = segment;
        break;
    }
}

static void damage_list(damage what)
{
    const uint32_t words = records[0].number;
    record *r = any_wd();
    size_t i = any_record();
    size_t k = any_record();

    switch (what) {
    case DOUBLED:
        records[record_count] = records[i];
        for (size_t at = record_count++; at > k; at--)
            exchange(at, at - 1);
        break;
    case DROPPED:
        for (record_count--; i < record_count; i++)
            records[i] = records[i + 1];
        break;
    case EXCHANGED:
        exchange(i, k);
        break;
    case SAME_ADDRESS:
        r->number = any_wd()->number;
        break;
    case NEAR_ADDRESS:
        r->number = words - 1 + random_below(3);
        break;
    case ANY_ADDRESS:
        r->number = random_number();
        break;
    case SIZE:
        records[0].number = one_in(2) ? words - 1 + random_below(3) : 8191 + random_below(3);
        break;
    case ANY_SIZE:
        records[0].number = random_number();
        break;
    case DBR_AT_END:
        registers.dbr.address = words - registers.dbr.length - 1 + random_below(3);
        break;
    case BAD_FIELD:
        spoil_field();
        break;
    case LOW_PR:
        registers.prs[i % 8].ring = (uint8_t)random_below(8);
        break;
    default:
        break;
    }
}

/* Writes the list; answers where one of its records begins. */
static uint8_t *write_list(bool stored)
{
    size_t any = any_record();
    uint8_t *begin = image;

    end = image;
    for (size_t k = 0; k < record_count; k++) {
        record r = records[k];

        if (k == any)
            begin = end;
        if (r.mark == IS_ME)
            end = put_me(end, r.number);
        else if (r.mark == IS_ST)
            end = stored ? put_stored_st(end, &registers) : put_st(end, &registers);
        else if (r.mark == IS_WD)
            end = put_wd(end, r.number, r.word);
        else
            end = put_rn(end, r.number);
    }
    return begin;
}

static void damage_bytes(damage what, uint8_t *mark)
{
    static const char letters[] = "MESTWDRN";
    uint32_t length = (uint32_t)image_length();
    uint32_t at = random_below(length + 1);

    if (length == 0)
        return;
    switch (what) {
    case CUT_OFF:
        end = image + at;
        break;
    case MORE_BYTES:
        for (uint32_t count = 1 + random_below(one_in(2) ? 1 : ST_SIZE); count > 0; count--)
            *end++ = (uint8_t)(one_in(2) ? letters[random_below(8)] : (int)random_below(256));
        break;
    case ONE_BIT:
        image[at % length] ^= (uint8_t)(1 << random_below(8));
        break;
    case ONE_BYTE:
        image[at % length] = (uint8_t)random_below(256);
        break;
    case OTHER_MARK:
        mark[at % 2] = (uint8_t)letters[random_below(8)];
        break;
    default:
        break;
    }
}

/* What has been seen of random images. */
typedef struct {
    unsigned long refused_by[64];
    unsigned long refused[DAMAGES];
    unsigned long accepted[DAMAGES];
    unsigned long without_wds;
    unsigned long many_wds;
    unsigned long all_wds;
    unsigned long large_budgets;
    unsigned long runs;
    unsigned long all_lines;
    unsigned long with_pointers;
    unsigned long dbr_at_end;
    unsigned long dbr_one_past;
} sight;

static void count_damage(sight *s, damage what, kuzhlemor_image_needs needs)
{
    const uint64_t dbr_end = (uint64_t)registers.dbr.address + registers.dbr.length;

    s->refused[what] += needs.number != 0;
    s->accepted[what] += needs.number == 0;
    if (what == DBR_AT_END && records[0].number < MOST_WORDS) {
        s->dbr_at_end += needs.number == 0 && dbr_end == records[0].number;
        s->dbr_one_past += needs.number == 4 && dbr_end == records[0].number + 1;
    }
}

static void count_image(sight *s, kuzhlemor_image_needs needs, extent e)
{
    if (needs.number != 0) {
        s->refused_by[needs.number % 64]++;
        return;
    }
    s->without_wds += needs.records == 0;
    s->many_wds += needs.records > 100;
    s->all_wds += needs.records == MOST_WORDS;
    s->large_budgets += needs.budget > MOST_BUDGET;
    s->runs += e.lines > 1;
    s->all_lines += e.lines > 1 && e.lines == needs.lines;
    s->with_pointers += e.total > 0;
}

static void check_sight(const sight *s)
{
    static const int numbers[] = {2, 3, 4, 41, 42, 43, 44, 51};
    const unsigned long seldom[] = {s->without_wds, s->many_wds, s->all_wds, s->large_budgets, s->runs, s->all_lines,
                                    s->with_pointers, s->dbr_at_end, s->dbr_one_past};

    for (size_t k = 0; k < sizeof numbers / sizeof numbers[0]; k++)
        check(s->refused_by[numbers[k]] > IMAGES / 1000, "%lu random images were refused by %d", s->refused_by[numbers[k]],
              numbers[k]);
    for (damage k = 0; k < DAMAGES; k++) {
        const bool always = k == DOUBLED || k == BAD_FIELD || k == MORE_BYTES || k == STORED_ST;

        check(s->refused[k] > 0, "no image with damage %d was refused", k);
        check((s->accepted[k] == 0) == always, "%lu images with damage %d were accepted", s->accepted[k], k);
    }
    for (size_t k = 0; k < sizeof seldom / sizeof seldom[0]; k++)
        check(seldom[k] > 10, "%lu random images of sort %zu", seldom[k], k);
}

static void random_images(void)
{
    static sight seen;

    for (int k = 0; k < IMAGES; k++) {
        damage what = one_in(5) ? NONE : random_below(DAMAGES);
        damage also = one_in(4) ? random_below(DAMAGES) : NONE;
        kuzhlemor_image_needs got;
        uint8_t *mark;
        char name[64];

        record_count = 0;
        if (one_in(2))
            list_machine();
        else
            list_words();
        damage_list(what);
        damage_list(also);
        mark = write_list(what == STORED_ST || also == STORED_ST);
        damage_bytes(what, mark);
        damage_bytes(also, mark);
        snprintf(name, sizeof name, "random image %d, damages %d and %d", k, what, also);
        got = ask(kuzhlemor_needs, k % 2 == 0);
        check_needs("the library", name, got, ask(plain_needs, k % 2 == 0));
        count_image(&seen, got, check_bench(name, got));
        if (also == NONE)
            count_damage(&seen, what, got);
    }
    check_sight(&seen);
}

int main(void)
{
    by_hand();
    budgets();
    counts();
    orders();
    reached();
    every_size();
    every_address();
    every_mark();
    every_beginning();
    sequences();
    large_numbers();
    question_2();
    questions_3_and_4();
#ifndef __SANITIZE_ADDRESS__
    small_stack();
#endif
    random_images();
    printf("tests/c/needs: %lu checks passed\n", checks);
    return 0;
}
