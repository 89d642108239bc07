/* The library's time against a plain C and a plain Rust processor's, on programs that loop until the budget is spent, on single
 * steps, on listings, and on the largest images, loaded, asked for their needs and converted. They run in turn from the same
 * start, the best time of each counts, and all must end alike. With BEFORE an earlier library, whose entries are called
 * before_.., runs among them. */
#define _POSIX_C_SOURCE 199309L

#include "images.h"
#include "kuzhlemor.h"
#include "plain.h"
#include "same.h"
#include "words.h"

#include <stdio.h>
#include <stdlib.h>
#include <string.h>
#include <time.h>

enum {
    WORDS = 256,
    ROUNDS = 200
};

typedef struct {
    kuzhlemor_registers registers;
    uint64_t memory[WORDS];
} machine;

typedef kuzhlemor_reply run_function(kuzhlemor_registers *, uint64_t *, size_t, uint32_t);
typedef kuzhlemor_reply step_function(kuzhlemor_registers *, uint64_t *, size_t);
typedef int64_t bench_function(const uint8_t *, size_t, uint8_t *, size_t);
typedef kuzhlemor_image_needs needs_function(const uint8_t *, size_t);
typedef int64_t convert_function(uint8_t *, size_t);

/* The second implementation, in Rust (bench/rust). */
run_function rust_run;
bench_function rust_bench;

#ifdef BEFORE
run_function before_run;
step_function before_step;
bench_function before_bench;
#endif

/* None of the bench's steps faults; any other answers as a run of one step does. */
static kuzhlemor_reply rust_step(kuzhlemor_registers *registers, uint64_t *memory, size_t words)
{
    return rust_run(registers, memory, words, 1);
}

enum {
    PLAIN,
    RUST,
#ifdef BEFORE
    EARLIER,
#endif
    LIBRARY,
    CONTESTANTS
};

typedef struct {
    run_function *run;
    step_function *step;
    bench_function *bench;
} contestant;

static const contestant contestants[CONTESTANTS] = {
    [PLAIN] = {plain_run, plain_step, plain_bench},
    [RUST] = {rust_run, rust_step, rust_bench},
#ifdef BEFORE
    [EARLIER] = {before_run, before_step, before_bench},
#endif
    [LIBRARY] = {kuzhlemor_run, kuzhlemor_step, kuzhlemor_bench},
};

typedef enum {
    AS_RUN, BY_STEPS
} manner;

typedef struct {
    const char *name;
    machine (*make)(void);
    uint32_t steps;
    manner manner;
} row;

/* Segment 4 holds the program, in ring 4, segment 5 its data; PR1 to PR3 point to words 0, 16 and 32 of the data. */
static machine start(void)
{
    machine m = {.registers = {.dbr = {0, 8}, .ipr = pointer_to(4, 4, 0)}};

    for (int k = 0; k < 8; k++)
        m.registers.prs[k].ring = 4;
    m.registers.prs[1] = pointer_to(4, 5, 0);
    m.registers.prs[2] = pointer_to(4, 5, 16);
    m.registers.prs[3] = pointer_to(4, 5, 32);
    m.memory[4] = descriptor_word(16, 48, 4, 4, 4, R | E | V, 0);
    m.memory[5] = descriptor_word(64, 128, 4, 4, 4, R | W | V, 0);
    return m;
}

/* A's operations on constants in the program's own segment; each transfer but the last falls through. */
static machine arithmetic(void)
{
    machine m = start();
    uint64_t *code = &m.memory[16];

    code[0] = near(LDI, 0) | lit(12345);
    code[1] = near(ADA, 31);
    code[2] = near(XRA, 31);
    code[3] = near(SBA, 31);
    code[4] = near(TZE, 4);
    code[5] = near(ORA, 30);
    code[6] = near(ADA, 26);
    code[7] = near(ANA, 29);
    code[8] = near(TMI, 4);
    code[9] = near(XRA, 24);
    code[10] = near(CNT, 23);
    code[11] = near(ADA, 22);
    code[12] = near(SBA, 22);
    code[13] = near(ORA, 20);
    code[14] = near(TRA, -14);
    code[32] = 0x0123456789abcdef;
    code[33] = 0x8000000000000421;
    code[34] = 77;
    code[35] = 0x00000000ffff0000;
    code[36] = 0x0fffffffffffffff;
    return m;
}

/* Reads, writes and both, all through PRs. */
static machine loads_and_stores(void)
{
    machine m = start();
    uint64_t *code = &m.memory[16];

    code[0] = by_pr(LDA, 1, 0);
    code[1] = by_pr(STA, 2, 1);
    code[2] = by_pr(LDA, 2, 2);
    code[3] = by_pr(ADA, 1, 3);
    code[4] = by_pr(STA, 2, 2);
    code[5] = by_pr(AOS, 1, 0);
    code[6] = by_pr(LDA, 3, 5);
    code[7] = by_pr(STA, 3, 6);
    code[8] = by_pr(SPP, 3, 7) | reg(2);
    code[9] = by_pr(LDA, 2, 1);
    code[10] = by_pr(STA, 3, 5);
    code[11] = near(TRA, -11);
    m.memory[64 + 3] = 3;
    return m;
}

/* Ring 4 calls a gate in ring 1, which returns to it. */
static machine calls_and_returns(void)
{
    machine m = start();
    uint64_t *code = &m.memory[16];
    uint64_t *gate = &m.memory[200];

    m.registers.prs[2] = pointer_to(4, 6, 0);
    m.memory[6] = descriptor_word(200, 8, 1, 1, 5, R | E | V, 1);
    code[0] = near(EAP, 2) | reg(3);
    code[1] = by_pr(CALL, 2, 0);
    code[2] = near(TRA, -2);
    gate[0] = by_pr(RETURN, 3, 0);
    return m;
}

enum {
    CHAIN = 64
};

/* A chain of pointer words from a word of the data on, by turns in so many segments from 5 on, and its target. */
static void put_chain(uint64_t *data, unsigned from, unsigned segments, kuzhlemor_pointer target)
{
    for (unsigned k = 0; k < CHAIN - 1; k++)
        data[from + k] = pointer_word(pointer_to(4, 5 + (k + 1) % segments, from + k + 1)) | POINTER_I_ON;
    data[from + CHAIN - 1] = pointer_word(target);
}

/* Every step reads 64 pointer words, the transfer back as well. Segments 5 and 6 are the same words. */
static machine chained(unsigned segments)
{
    machine m = start();
    uint64_t *code = &m.memory[16];
    uint64_t *data = &m.memory[64];

    m.memory[5] = m.memory[6] = descriptor_word(64, 2 * CHAIN + 1, 4, 4, 4, R | W | V, 0);
    m.registers.prs[3] = pointer_to(4, 5, CHAIN + 1);
    put_chain(data, 0, segments, pointer_to(4, 5, CHAIN));
    data[CHAIN] = 1;
    put_chain(data, CHAIN + 1, segments, pointer_to(4, 4, 0));
    code[0] = by_pr(LDA, 1, 0) | I_ON;
    for (int k = 1; k < 15; k++)
        code[k] = by_pr(ADA, 1, 0) | I_ON;
    code[15] = by_pr(TRA, 3, 0) | I_ON;
    return m;
}

static machine pointer_chains(void)
{
    return chained(1);
}

static machine alternating_chains(void)
{
    return chained(2);
}

/* A run by single steps. */
static kuzhlemor_reply by_steps(step_function *step, kuzhlemor_registers *registers, uint64_t *memory, size_t words,
                                uint32_t steps)
{
    uint64_t total = 0;

    for (uint32_t k = 0; k < steps; k++) {
        kuzhlemor_reply reply = step(registers, memory, words);

        if (reply.kind != KUZHLEMOR_SPENT)
            return reply;
        total += reply.pointer_words;
    }
    return (kuzhlemor_reply){.kind = KUZHLEMOR_SPENT, .count = steps, .pointer_words = total};
}

static double now(void)
{
    struct timespec t;

    clock_gettime(CLOCK_MONOTONIC, &t);
    return (double)t.tv_sec * 1e9 + (double)t.tv_nsec;
}

/* The time of a run from the start, and in `end` what it leaves. Every run has the same place in memory. */
static double timed(const contestant *c, const row *r, const machine *from, machine *end, kuzhlemor_reply *reply)
{
    static _Alignas(4096) machine m;
    double before;
    double time;

    m = *from;
    before = now();
    if (r->manner == BY_STEPS)
        *reply = by_steps(c->step, &m.registers, m.memory, WORDS, r->steps);
    else
        *reply = c->run(&m.registers, m.memory, WORDS, r->steps);
    time = now() - before;
    *end = m;
    return time;
}

static void keep_least(double *best, double time)
{
    if (*best == 0 || time < *best)
        *best = time;
}

static void print_row(const char *name, uint32_t steps, const double *best)
{
    printf("%-32s %10.2f %10.2f %10.2f %12.2f %12.2f", name, best[PLAIN] / steps, best[RUST] / steps,
           best[LIBRARY] / steps, best[LIBRARY] / best[PLAIN], best[LIBRARY] / best[RUST]);
#ifdef BEFORE
    printf(" %12.2f %14.2f", best[EARLIER] / best[PLAIN], best[LIBRARY] / best[EARLIER]);
#endif
    printf("\n");
}

static void differ(const char *name)
{
    fprintf(stderr, "bench: %s: they ended differently, or before the budget was spent\n", name);
    exit(1);
}

static void measure(const row *r)
{
    static machine ends[CONTESTANTS];
    machine from = r->make();
    double best[CONTESTANTS] = {0};

    for (int round = 0; round < ROUNDS; round++) {
        kuzhlemor_reply replies[CONTESTANTS];

        for (int k = 0; k < CONTESTANTS; k++)
            keep_least(&best[k], timed(&contestants[k], r, &from, &ends[k], &replies[k]));
        for (int k = 0; k < CONTESTANTS; k++)
            if (replies[k].kind != KUZHLEMOR_SPENT || !same_reply(replies[k], replies[0]) ||
                !same_registers(&ends[k].registers, &ends[0].registers) ||
                memcmp(ends[k].memory, ends[0].memory, sizeof ends[0].memory) != 0)
                differ(r->name);
    }
    print_row(r->name, r->steps, best);
}

enum {
    LISTED = 20000,
    TEXT = 64 * (LISTED + 1)
};

static double timed_listing(bench_function *bench, const uint8_t *image, size_t length, uint8_t *text, int64_t *answer)
{
    double before = now();

    *answer = bench(image, length, text, TEXT);
    return now() - before;
}

static void measure_listing(const char *name, machine (*make)(void))
{
    static uint8_t image[IMAGE_ROOM(WORDS)];
    static uint8_t texts[CONTESTANTS][TEXT];
    machine from = make();
    size_t length = put_image(image, &from.registers, from.memory, WORDS, LISTED);
    double best[CONTESTANTS] = {0};

    for (int round = 0; round < ROUNDS; round++) {
        int64_t answers[CONTESTANTS];

        for (int k = 0; k < CONTESTANTS; k++)
            keep_least(&best[k], timed_listing(contestants[k].bench, image, length, texts[k], &answers[k]));
        for (int k = 0; k < CONTESTANTS; k++)
            if (answers[k] <= 0 || answers[k] != answers[0] || memcmp(texts[k], texts[0], TEXT) != 0)
                differ(name);
    }
    print_row(name, LISTED, best);
}

enum {
    MOST_WORDS = 8192,
    LOADS = 2000,
    LARGEST = IMAGE_ROOM(2 * MOST_WORDS)
};

typedef uint8_t *st_function(uint8_t *, const kuzhlemor_registers *);

/* An image of the most words with `wds` WDs, `per_address` for each address, in a scattered order: 10,007 is odd, so that
 * its multiples go through all numbers below a power of 2 before one comes again. */
static size_t put_largest(uint8_t *image, st_function *st, uint32_t wds, uint32_t per_address)
{
    static const kuzhlemor_registers zero;
    uint8_t *to = st(put_me(image, MOST_WORDS), &zero);

    for (uint32_t k = 0; k < wds; k++)
        to = put_wd(to, k * 10007 % wds / per_address, k * 0x9e3779b97f4a7c15);
    return (size_t)(put_rn(to, 0) - image);
}

/* The time of an image loaded whole, and no step of it run. */
static double timed_loading(const char *name, bench_function *bench, const uint8_t *image, size_t length)
{
    uint8_t text[64];
    double before = now();
    int64_t answer = bench(image, length, text, sizeof text);
    double time = now() - before;

    if (answer != 10 || memcmp(text, "spent 0 0\n", 10) != 0)
        differ(name);
    return time;
}

static void measure_loading(const char *name)
{
    static uint8_t image[LARGEST];
    size_t length = put_largest(image, put_st, MOST_WORDS, 1);
    double best[CONTESTANTS] = {0};

    for (int round = 0; round < LOADS; round++)
        for (int k = 0; k < CONTESTANTS; k++)
            keep_least(&best[k], timed_loading(name, contestants[k].bench, image, length));
    print_row(name, MOST_WORDS, best);
}

/* A row where there is no plain Rust to set beside plain C and the library. */
static void print_pair(const char *name, double plain, double library)
{
    printf("%-32s %10.2f %10s %10.2f %12.2f %12s\n", name, plain, "-", library, library / plain, "-");
}

static double timed_needs(const char *name, needs_function *needs, const uint8_t *image, size_t length)
{
    double before = now();
    kuzhlemor_image_needs answer = needs(image, length);
    double time = now() - before;

    if (!same_needs(answer, (kuzhlemor_image_needs){.memory = MOST_WORDS, .records = MOST_WORDS, .lines = 1}))
        differ(name);
    return time;
}

/* The same image, asked for its needs and loaded in turn; then the first time by the second, of either. */
static void measure_needs(const char *name, const char *ratio)
{
    static uint8_t image[LARGEST];
    size_t length = put_largest(image, put_st, MOST_WORDS, 1);
    double asked[2] = {0};
    double loaded[2] = {0};

    for (int round = 0; round < LOADS; round++) {
        keep_least(&asked[0], timed_needs(name, plain_needs, image, length));
        keep_least(&loaded[0], timed_loading(name, plain_bench, image, length));
        keep_least(&asked[1], timed_needs(name, kuzhlemor_needs, image, length));
        keep_least(&loaded[1], timed_loading(name, kuzhlemor_bench, image, length));
    }
    print_pair(name, asked[0] / MOST_WORDS, asked[1] / MOST_WORDS);
    printf("%-32s %10.2f %10s %10.2f\n", ratio, asked[0] / loaded[0], "-", asked[1] / loaded[1]);
}

/* The time of a conversion, and in `end` what it leaves; the length is with the room that it needs. Every one has the same
 * place in memory. */
static double timed_conversion(convert_function *convert, const uint8_t *from, size_t length, uint8_t *end, int64_t *answer)
{
    static _Alignas(4096) uint8_t image[LARGEST];
    double before;
    double time;

    memcpy(image, from, length);
    before = now();
    *answer = convert(image, length);
    time = now() - before;
    memcpy(end, image, length);
    return time;
}

/* Every address twice, so that half of the WDs go. */
static void measure_converting(const char *name)
{
    static uint8_t from[LARGEST];
    static uint8_t x[LARGEST];
    static uint8_t y[LARGEST];
    size_t length = put_largest(from, put_stored_st, 2 * MOST_WORDS, 2) + ST_GAIN;
    double plain = 0;
    double library = 0;

    for (int round = 0; round < LOADS; round++) {
        int64_t answers[2];

        keep_least(&plain, timed_conversion(plain_convert, from, length, x, &answers[0]));
        keep_least(&library, timed_conversion(kuzhlemor_convert, from, length, y, &answers[1]));
        if (answers[0] != (int64_t)(length - 14 * MOST_WORDS) || answers[0] != answers[1] || memcmp(x, y, length) != 0)
            differ(name);
    }
    print_pair(name, plain / (2 * MOST_WORDS), library / (2 * MOST_WORDS));
}

int main(void)
{
    static const row rows[] = {
        {"arithmetic", arithmetic, 100000, AS_RUN},
        {"loads and stores", loads_and_stores, 100000, AS_RUN},
        {"calls and returns", calls_and_returns, 100000, AS_RUN},
        {"10,000 chains", pointer_chains, 10000, AS_RUN},
        {"10,000 chains, two segments", alternating_chains, 10000, AS_RUN},
        {"arithmetic, single steps", arithmetic, 100000, BY_STEPS},
        {"loads and stores, single steps", loads_and_stores, 100000, BY_STEPS},
        {"calls and returns, single steps", calls_and_returns, 100000, BY_STEPS},
    };

    printf("%-32s %10s %10s %10s %12s %12s", "", "C", "Rust", "library", "library/C", "library/Rust");
#ifdef BEFORE
    printf(" %12s %14s", "before/C", "library/before");
#endif
    printf("\n");
    printf("%-32s %10s %10s %10s\n", "program", "ns a step", "ns a step", "ns a step");
    for (size_t k = 0; k < sizeof rows / sizeof rows[0]; k++)
        measure(&rows[k]);
    measure_listing("arithmetic, listed", arithmetic);
    measure_listing("loads and stores, listed", loads_and_stores);
    measure_listing("calls and returns, listed", calls_and_returns);
    printf("%-32s %10s %10s %10s\n", "image", "ns a WD", "ns a WD", "ns a WD");
    measure_loading("8,192 WDs, loaded");
    measure_needs("8,192 WDs, asked for needs", "  by the time of loading them");
    measure_converting("16,384 WDs, converted");
    return 0;
}
