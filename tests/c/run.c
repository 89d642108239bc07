/* kuzhlemor_run as the firmware calls it: every case with budgets 0 and 1, how runs end, their pointer words, handlers, and
 * random machines against plain C, against single steps, and against the same run in two parts. */
#include "machine.h"

#include <stdio.h>
#include <stdlib.h>

enum {
    MACHINES = 300000,
    MOST_BUDGET = 400,
    MOST_WORDS = 16777216
};

static kuzhlemor_reply run(machine *m, uint32_t budget)
{
    return kuzhlemor_run(&m->registers, m->memory, m->words, budget);
}

static void expect_run(const char *name, const machine *before, uint32_t budget, const machine *after,
                       kuzhlemor_reply reply)
{
    machine m = *before;
    kuzhlemor_reply got = run(&m, budget);

    check_end("kuzhlemor_run", name, &m, got, after, reply);
    m = *before;
    got = run_plain(&m, budget);
    check_end("plain_run", name, &m, got, after, reply);
}

/* With a budget of 1 a run is the step, but that its total has no faulting step in it; with 0 it asks 1 to 4 and no more. */
static void expect_step(const char *name, const machine *before, const machine *after, kuzhlemor_reply reply)
{
    if (reply.kind == KUZHLEMOR_FAULT)
        reply.pointer_words = 0;
    expect_run(name, before, 1, after, reply);
    expect_run(name, before, 0, before, reply.kind == KUZHLEMOR_REFUSED ? reply : spent(0, 0));
}

static void case_12_by_budgets(void)
{
    machine start = case_12();
    machine after_1 = start;
    machine after_2;

    after_1.registers.a = 7;
    after_1.registers.ipr = pointer_to(4, 4, 1);
    after_2 = after_1;
    after_2.registers.ipr = pointer_to(1, 5, 0);
    after_2.registers.prs[7] = pointer_to(1, 1, 0);
    expect_run("case 12, budget 0", &start, 0, &start, spent(0, 0));
    expect_run("case 12, budget 1", &start, 1, &after_1, spent(1, 0));
    expect_run("case 12, budget 2", &start, 2, &after_2, spent(2, 0));
    expect_run("case 12, budget 3", &start, 3, &after_2, fault(23, 2, pointer_to(4, 3, 0), 0));
    expect_run("case 12", &start, 9, &after_2, fault(23, 2, pointer_to(4, 3, 0), 0));
    expect_run("case 12, the largest budget", &start, UINT32_MAX, &after_2, fault(23, 2, pointer_to(4, 3, 0), 0));
}

/* A program in ring 0 that counts word 10 of its segment down and word 11 up, and then halts. */
static machine countdown(uint64_t from)
{
    machine m = empty_machine(32);

    m.registers.dbr = (kuzhlemor_dbr){0, 2};
    m.registers.ipr = pointer_to(0, 1, 0);
    m.memory[1] = descriptor_word(16, 16, 0, 0, 0, R | W | E | V, 0);
    m.memory[16] = near(AOS, 11);
    m.memory[17] = near(LDA, 9);
    m.memory[18] = near(SBA, 10);
    m.memory[19] = near(STA, 7);
    m.memory[20] = near(TZE, 2);
    m.memory[21] = near(TRA, -5);
    m.memory[22] = near(HLT, 0);
    m.memory[26] = from;
    m.memory[28] = 1;
    return m;
}

static void ends(void)
{
    const uint32_t rounds = 100000;
    const uint32_t steps = 6 * rounds;
    machine start = countdown(rounds);
    machine end = start;
    machine before_halt;
    machine broken;

    end.registers.a = 0;
    end.registers.ipr.word = 7;
    end.memory[26] = 0;
    end.memory[27] = rounds;
    before_halt = end;
    before_halt.registers.ipr.word = 6;
    expect_run("spent one step before HLT", &start, steps - 1, &before_halt, spent(steps - 1, 0));
    expect_run("HLT as the last step of the budget", &start, steps, &end, halted(steps, 0));
    expect_run("HLT with budget left", &start, steps + 1, &end, halted(steps, 0));
    expect_run("HLT, the largest budget", &start, UINT32_MAX, &end, halted(steps, 0));
    expect_run("a run that begins with HLT", &before_halt, 5, &end, halted(1, 0));
    expect_run("a run that begins with a fault", &end, 5, &end, fault(32, 0, pointer_to(0, 1, 7), 0));

    broken = start;
    broken.registers.prs[5].segment = 4096;
    expect_run("refused, budget 0", &broken, 0, &broken, refused(2));
    expect_run("refused, the largest budget", &broken, UINT32_MAX, &broken, refused(2));
}

/* A program in ring 0 by whose chains the first five steps read 3, 1, 0, 64 and 2 pointer words. Pointer words 0 to 63 of its
 * data lead to word 64, so that a chain from word k has 64 - k; its sixth instruction is given. */
static machine chains(uint64_t sixth)
{
    machine m = empty_machine(128);
    uint64_t *code = &m.memory[8];
    uint64_t *data = &m.memory[24];

    m.registers.dbr = (kuzhlemor_dbr){0, 3};
    m.registers.ipr = pointer_to(0, 1, 0);
    m.registers.prs[1] = pointer_to(0, 2, 0);
    m.memory[1] = descriptor_word(8, 16, 0, 0, 0, R | E | V, 0);
    m.memory[2] = descriptor_word(24, 104, 0, 0, 0, R | W | V, 0);
    code[0] = by_pr(LDA, 1, 61) | I_ON;
    code[1] = by_pr(ADA, 1, 63) | I_ON;
    code[2] = by_pr(LDI, 1, 0) | I_ON | lit(5);
    code[3] = by_pr(STA, 1, 0) | I_ON;
    code[4] = by_pr(TZE, 1, 62) | I_ON;
    code[5] = sixth;
    for (unsigned k = 0; k < 63; k++)
        data[k] = pointer_word(pointer_to(0, 2, k + 1)) | POINTER_I_ON;
    data[63] = pointer_word(pointer_to(0, 2, 64));
    data[64] = 6;
    /* Two pointer words and a third in no segment; and one that points to itself. */
    data[80] = pointer_word(pointer_to(0, 2, 81)) | POINTER_I_ON;
    data[81] = pointer_word(pointer_to(0, 3, 7)) | POINTER_I_ON;
    data[90] = pointer_word(pointer_to(0, 2, 90)) | POINTER_I_ON;
    return m;
}

/* What `chains` leaves after its first five steps. */
static machine after_five(const machine *start)
{
    machine m = *start;

    m.registers.a = 5;
    m.registers.ipr.word = 5;
    m.memory[24 + 64] = 5;
    return m;
}

/* The sixth step faults: its pointer words are its own answer's, and in no run's total. */
static void expect_fault(const char *name, uint64_t sixth, uint32_t number, kuzhlemor_pointer at, uint64_t pointer_words)
{
    machine start = chains(sixth);
    machine end = after_five(&start);
    machine m = end;

    expect_run(name, &start, 5, &end, spent(5, 70));
    expect_run(name, &start, 6, &end, fault(number, 5, at, 70));
    expect_run(name, &start, UINT32_MAX, &end, fault(number, 5, at, 70));
    expect_run(name, &end, 1, &end, fault(number, 0, at, 0));
    check_end("kuzhlemor_step", name, &m, kuzhlemor_step(&m.registers, m.memory, m.words), &end,
              fault(number, 0, at, pointer_words));
}

static void totals(void)
{
    static const uint64_t total[] = {0, 3, 4, 4, 68, 70};
    static const uint64_t a[] = {0, 6, 12, 5, 5, 5};
    machine start = chains(by_pr(HLT, 1, 0) | I_ON);
    machine end = after_five(&start);
    machine m = start;
    machine wanted = start;
    char name[64];

    for (uint32_t k = 0; k < 6; k++) {
        wanted.registers.a = a[k];
        wanted.registers.ipr.word = (uint16_t)k;
        wanted.memory[24 + 64] = k < 4 ? 6 : 5;
        snprintf(name, sizeof name, "chains, budget %u", (unsigned)k);
        expect_run(name, &start, k, &wanted, spent(k, total[k]));
        if (k > 0) {
            snprintf(name, sizeof name, "chains, step %u", (unsigned)k);
            check_end("kuzhlemor_step", name, &m, kuzhlemor_step(&m.registers, m.memory, m.words), &wanted,
                      spent(1, total[k] - total[k - 1]));
        }
    }
    end.registers.ipr.word = 6;
    expect_run("chains, HLT on the last step", &start, 6, &end, halted(6, 70));
    expect_run("chains, HLT with budget left", &start, UINT32_MAX, &end, halted(6, 70));
    expect_run("chains, HLT alone", &wanted, 1, &end, halted(1, 0));

    /* In parts: a run's total begins with it. */
    m = start;
    check(same_reply(run(&m, 2), spent(2, 4)), "chains, the first two steps");
    check(same_reply(run(&m, 0), spent(0, 0)), "chains, no step");
    check(same_reply(run(&m, 2), spent(2, 64)), "chains, the next two");
    check_end("kuzhlemor_run", "chains, the last two", &m, run(&m, 2), &end, halted(2, 2));
    m.registers.prs[1].ring = 8;
    end = m;
    expect_run("chains, refused", &m, 6, &end, refused(2));

    expect_fault("11 at the third pointer word", by_pr(LDA, 1, 80) | I_ON, 11, pointer_to(0, 3, 7), 2);
    expect_fault("31", by_pr(LDA, 1, 90) | I_ON, 31, pointer_to(0, 2, 90), 64);
    expect_fault("25 after three pointer words", by_pr(TRA, 1, 61) | I_ON, 25, pointer_to(0, 2, 64), 3);
    expect_fault("15 at the first pointer word", by_pr(LDA, 1, 104) | I_ON, 15, pointer_to(0, 2, 104), 0);
    expect_fault("32 after chains", I_ON, 32, pointer_to(0, 1, 5), 0);

    /* A fault before any step completes: 31 at once. */
    start = chains(0);
    start.memory[8] = by_pr(LDA, 1, 90) | I_ON;
    expect_run("31 at once", &start, 9, &start, fault(31, 0, pointer_to(0, 2, 90), 0));

    /* 100,000 times 64 pointer words. */
    start = chains(0);
    start.memory[8] = by_pr(LDA, 1, 0) | I_ON;
    start.memory[9] = near(TRA, -1);
    end = start;
    end.registers.a = 6;
    expect_run("long chains for long", &start, 200000, &end, spent(200000, 6400000));
}

/* A laboratory's program in ring 4, whose second instruction stores where it may only read. The handler in ring 0 keeps the
 * fault's number, raises the frame's IPR by one and goes back; it reaches the frame, in segment 1, by pointer words of its own
 * segment. PR2 points to the laboratory's word. */
static machine handled(void)
{
    machine m = empty_machine(64);
    uint64_t *handler = &m.memory[24];
    uint64_t *code = &m.memory[40];

    m.registers.dbr = (kuzhlemor_dbr){0, 6};
    m.registers.ipr = pointer_to(4, 4, 0);
    for (unsigned k = 0; k < 8; k++)
        m.registers.prs[k] = pointer_to(4, 5, k);
    m.registers.fault_switch = 1;
    m.registers.save_segment = 1;
    m.registers.handler_segment = 2;
    m.memory[1] = descriptor_word(8, 13, 0, 0, 0, R | W | V, 0);
    m.memory[2] = descriptor_word(24, 8, 0, 0, 0, R | W | E | V, 0);
    m.memory[4] = descriptor_word(40, 8, 4, 4, 4, R | E | V, 0);
    m.memory[5] = descriptor_word(48, 8, 3, 4, 4, R | W | V, 0);
    handler[0] = near(LDA, 5) | I_ON;
    handler[1] = near(STA, 6);
    handler[2] = near(AOS, 4) | I_ON;
    handler[3] = near(RCU, 2) | I_ON;
    handler[5] = pointer_word(pointer_to(0, 1, 0));
    handler[6] = pointer_word(pointer_to(0, 1, 4));
    code[0] = near(LDI, 0) | lit(250);
    code[1] = by_pr(STA, 2, 0);
    code[2] = by_pr(ADA, 2, 0);
    code[3] = near(HLT, 0);
    m.memory[50] = 9;
    return m;
}

/* By each budget, worked out step by step. */
static void handlers(void)
{
    const machine start = handled();
    machine wanted = start;
    machine m;

    wanted.registers.a = 250;
    wanted.registers.ipr.word = 1;
    expect_run("handled, budget 1", &start, 1, &wanted, spent(1, 0));

    /* The fault: 23 of word 2 of segment 5 in ring 4, at word 1 of segment 4. */
    wanted.memory[8] = 23;
    wanted.memory[8 + 1] = 0x40050002;
    wanted.memory[8 + 2] = 250;
    wanted.memory[8 + 3] = 0x6000000;
    wanted.memory[8 + 4] = 0x40040001;
    for (unsigned k = 0; k < 8; k++)
        wanted.memory[8 + 5 + k] = 0x40050000 + k;
    wanted.registers.ipr = pointer_to(0, 2, 0);
    expect_run("handled, the budget ends with the fault", &start, 2, &wanted, spent(2, 0));
    m = wanted;

    wanted.registers.a = 23;
    wanted.registers.ipr.word = 1;
    expect_run("handled, the next run is the handler's", &m, 1, &wanted, spent(1, 1));
    wanted.memory[24 + 7] = 23;
    wanted.registers.ipr.word = 2;
    expect_run("handled, budget 4", &start, 4, &wanted, spent(4, 1));
    wanted.memory[8 + 4] = 0x40040002;
    wanted.registers.ipr.word = 3;
    expect_run("handled, budget 5", &start, 5, &wanted, spent(5, 2));
    wanted.registers.a = 250;
    wanted.registers.ipr = pointer_to(4, 4, 2);
    expect_run("handled, back by opcode 42", &start, 6, &wanted, spent(6, 3));
    wanted.registers.a = 259;
    wanted.registers.ipr.word = 3;
    expect_run("handled, the program goes on", &start, 7, &wanted, spent(7, 3));

    /* HLT in ring 4 is the next fault: its frame goes over the first one's. */
    wanted.memory[8] = 33;
    wanted.memory[8 + 1] = 0x40040003;
    wanted.memory[8 + 2] = 259;
    wanted.memory[8 + 4] = 0x40040003;
    wanted.registers.ipr = pointer_to(0, 2, 0);
    expect_run("handled, a second fault", &start, 8, &wanted, spent(8, 3));
    wanted.registers.a = 33;
    wanted.registers.ipr.word = 1;
    expect_run("handled, the handler again", &start, 9, &wanted, spent(9, 4));
}

/* Where the handler can't go on its own fault is delivered, until the budget is spent; where there is no room for the frame the
 * run ends. */
static void handlers_that_fault(void)
{
    machine start = handled();
    machine wanted;

    start.registers.handler_segment = 4095;
    wanted = start;
    wanted.registers.a = 250;
    wanted.registers.ipr = pointer_to(0, 4095, 0);
    wanted.memory[8] = 11;
    wanted.memory[8 + 1] = 0xfff0000;
    wanted.memory[8 + 2] = 250;
    wanted.memory[8 + 3] = 0x6000000;
    wanted.memory[8 + 4] = 0xfff0000;
    for (unsigned k = 0; k < 8; k++)
        wanted.memory[8 + 5 + k] = 0x40050000 + k;
    expect_run("no handler segment", &start, 3, &wanted, spent(3, 0));
    expect_run("no handler segment, for long", &start, 100000, &wanted, spent(100000, 0));

    start = handled();
    start.memory[24 + 2] = near(HLT, 0);
    wanted = start;
    wanted.registers.a = 23;
    wanted.registers.ipr = pointer_to(0, 2, 3);
    for (unsigned k = 0; k < 8; k++)
        wanted.memory[8 + 5 + k] = 0x40050000 + k;
    wanted.memory[8] = wanted.memory[24 + 7] = 23;
    wanted.memory[8 + 1] = 0x40050002;
    wanted.memory[8 + 2] = 250;
    wanted.memory[8 + 3] = 0x6000000;
    wanted.memory[8 + 4] = 0x40040001;
    expect_run("HLT in the handler", &start, 9, &wanted, halted(5, 1));

    start = handled();
    start.memory[1] = descriptor_word(8, 12, 0, 0, 0, R | W | V, 0);
    wanted = start;
    wanted.registers.a = 250;
    wanted.registers.ipr.word = 1;
    expect_run("a save segment of twelve words", &start, 9, &wanted, fault(23, 1, pointer_to(4, 5, 2), 0));
}

/* A delivered fault's pointer words are in the total, and the next fetch goes by the descriptors that its frame has written. */
static void frames_in_runs(void)
{
    machine start = chains(by_pr(TRA, 1, 61) | I_ON);
    machine wanted;

    start.registers.fault_switch = 1;
    start.registers.save_segment = 2;
    start.registers.handler_segment = 1;
    wanted = after_five(&start);
    wanted.memory[24] = 25;
    wanted.memory[24 + 1] = 0x20040;
    wanted.memory[24 + 2] = 5;
    wanted.memory[24 + 3] = 0x3000000;
    wanted.memory[24 + 4] = 0x10005;
    for (int k = 5; k < 13; k++)
        wanted.memory[24 + k] = k == 6 ? 0x20000 : 0;
    wanted.registers.ipr.word = 0;
    expect_run("25 after three pointer words, delivered", &start, 6, &wanted, spent(6, 73));

    /* Words 1 and 2 become no descriptors: V is off. */
    start.memory[2] = descriptor_word(0, 16, 0, 0, 0, R | W | V, 0);
    start.memory[8] = 0;
    wanted = start;
    wanted.memory[0] = 32;
    wanted.memory[1] = 0x10000;
    wanted.memory[2] = 0;
    wanted.memory[3] = 0x3000000;
    wanted.memory[4] = 0x10000;
    for (int k = 5; k < 13; k++)
        wanted.memory[k] = k == 6 ? 0x20000 : 0;
    expect_run("a frame over the descriptors", &start, 1, &wanted, spent(1, 0));
    expect_run("and the next fetch", &start, 9, &wanted, fault(12, 1, pointer_to(0, 1, 0), 0));
}

/* Two programs in ring 4 on stacks of their own: each call within the ring keeps to the stack that PR6 is in, and a gate below has
 * that ring's. */
static void two_stacks(void)
{
    machine m = empty_machine(64);
    machine after;

    m.registers.dbr = (kuzhlemor_dbr){0, 5};
    m.registers.ipr = pointer_to(4, 2, 0);
    for (int k = 0; k < 8; k++)
        m.registers.prs[k].ring = 4;
    m.registers.prs[1] = pointer_to(4, 3, 0);
    m.registers.prs[2] = pointer_to(4, 4, 0);
    m.registers.prs[5] = pointer_to(5, 12, 6);
    m.registers.prs[6] = pointer_to(5, 11, 7);
    m.memory[2] = descriptor_word(16, 8, 4, 4, 4, R | E | V, 2);
    m.memory[3] = descriptor_word(24, 8, 4, 4, 4, R | E | V, 1);
    m.memory[4] = descriptor_word(32, 8, 1, 2, 5, R | E | V, 1);
    m.memory[16] = by_pr(CALL, 1, 0);
    m.memory[17] = by_pr(CALL, 2, 0);
    m.memory[24] = by_pr(EAP, 5, 0) | reg(6);
    m.memory[25] = near(EAP, 0) | reg(3);
    m.memory[26] = near(CALL, 1);
    m.memory[27] = by_pr(CALL, 0, 1);
    m.registers.prs[0] = pointer_to(4, 2, 0);

    after = m;
    after.registers.ipr = pointer_to(4, 3, 0);
    after.registers.prs[7] = pointer_to(4, 11, 0);
    expect_run("the first stack", &m, 1, &after, spent(1, 0));
    after.registers.ipr = pointer_to(4, 3, 3);
    after.registers.prs[6] = pointer_to(5, 12, 6);
    after.registers.prs[3] = pointer_to(4, 3, 1);
    after.registers.prs[7] = pointer_to(4, 12, 0);
    expect_run("the second stack", &m, 4, &after, spent(4, 0));
    after.registers.ipr = pointer_to(2, 4, 0);
    after.registers.prs[7] = pointer_to(2, 2, 0);
    expect_run("a gate below", &m, 6, &after, spent(6, 0));
}

/* 1, of 16,777,217 words; one less isn't refused. */
static void largest_memory(void)
{
    uint64_t *memory = calloc(MOST_WORDS + 1, sizeof memory[0]);
    kuzhlemor_registers r = {.dbr = {MOST_WORDS - 1, 1}};
    kuzhlemor_registers before = r;

    check(memory != NULL, "no memory for the largest memory");
    check(same_reply(kuzhlemor_run(&r, memory, MOST_WORDS, 9), fault(12, 0, r.ipr, 0)) && same_registers(&r, &before),
          "largest memory");
    check(same_reply(kuzhlemor_run(&r, memory, MOST_WORDS + 1, 9), refused(1)) && same_registers(&r, &before),
          "1: one word too many");
    r.ipr.ring = 8;
    r.dbr.length = 4097;
    before = r;
    check(same_reply(kuzhlemor_run(&r, memory, MOST_WORDS + 1, 9), refused(1)) && same_registers(&r, &before),
          "1 before 2 to 4");
    r.ipr.ring = 0;
    r.dbr.address = 0;
    before = r;
    check(same_reply(kuzhlemor_run(&r, memory, MOST_WORDS, 9), refused(4)) && same_registers(&r, &before),
          "4: 4,097 descriptors within memory");
    r.dbr.length = 4096;
    before = r;
    check(same_reply(kuzhlemor_run(&r, memory, MOST_WORDS, 9), fault(12, 0, r.ipr, 0)) && same_registers(&r, &before),
          "4,096 descriptors");
    for (size_t k = 0; k <= MOST_WORDS; k++)
        if (memory[k] != 0)
            check(false, "largest memory, word %zu is changed", k);
    free(memory);
}

/* The same run by single steps. */
static kuzhlemor_reply run_by_steps(machine *m, uint32_t budget)
{
    uint64_t total = 0;

    for (uint32_t count = 0; count < budget; count++) {
        kuzhlemor_reply reply = kuzhlemor_step(&m->registers, m->memory, m->words);

        if (reply.kind == KUZHLEMOR_FAULT)
            reply.pointer_words = 0;
        total += reply.pointer_words;
        if (reply.kind != KUZHLEMOR_SPENT) {
            reply.count += count;
            reply.pointer_words = total;
            return reply;
        }
    }
    return budget == 0 ? run(m, 0) : spent(budget, total);
}

/* The same run as one of j steps and one of k. */
static kuzhlemor_reply run_in_parts(machine *m, uint32_t j, uint32_t k)
{
    kuzhlemor_reply reply = run(m, j);

    if (reply.kind == KUZHLEMOR_SPENT) {
        uint64_t first = reply.pointer_words;

        reply = run(m, k);
        reply.count += j;
        reply.pointer_words += first;
    }
    return reply;
}

/* Whether a run that ended as `end` would have ended otherwise without the switch: whether it delivered a fault. */
static bool differs_with_switch_off(const machine *start, uint32_t budget, const machine *end)
{
    machine m = *start;

    if (start->registers.fault_switch != 1)
        return false;
    m.registers.fault_switch = 0;
    run_plain(&m, budget);
    m.registers.fault_switch = 1;
    return !same_machine(&m, end);
}

static void random_machines(void)
{
    unsigned long refusals = 0;
    unsigned long halts = 0;
    unsigned long halts_on_last = 0;
    unsigned long late_faults = 0;
    unsigned long long_runs = 0;
    unsigned long chained_halts = 0;
    unsigned long chained_faults = 0;
    unsigned long long_chains = 0;
    unsigned long delivered_runs = 0;

    for (int k = 0; k < MACHINES; k++) {
        machine start = random_machine();
        uint32_t budget = random_below(random_below(4) == 0 ? 8 : MOST_BUDGET);
        uint32_t part = random_below(budget + 1);
        machine m = start;
        machine wanted = start;
        kuzhlemor_reply reply = run_plain(&wanted, budget);
        kuzhlemor_reply got = run(&m, budget);
        char name[64];

        snprintf(name, sizeof name, "random machine %d, budget %u", k, (unsigned)budget);
        check_end("kuzhlemor_run", name, &m, got, &wanted, reply);
        m = start;
        got = run_by_steps(&m, budget);
        check_end("kuzhlemor_step by step", name, &m, got, &wanted, reply);
        m = start;
        got = run_in_parts(&m, part, budget - part);
        check_end("kuzhlemor_run in two parts", name, &m, got, &wanted, reply);

        /* A budget of just the steps completed leaves the same, unless refused. */
        m = start;
        got = run(&m, reply.count);
        check_end("kuzhlemor_run of its count", name, &m, got, &wanted,
                  reply.kind == KUZHLEMOR_FAULT ? spent(reply.count, reply.pointer_words) : reply);

        refusals += reply.kind == KUZHLEMOR_REFUSED;
        halts += reply.kind == KUZHLEMOR_HALTED && reply.count < budget;
        halts_on_last += reply.kind == KUZHLEMOR_HALTED && reply.count == budget;
        late_faults += reply.kind == KUZHLEMOR_FAULT && reply.count >= 10;
        long_runs += reply.kind == KUZHLEMOR_SPENT && reply.count >= 100;
        chained_halts += reply.kind == KUZHLEMOR_HALTED && reply.pointer_words > 0;
        chained_faults += reply.kind == KUZHLEMOR_FAULT && reply.pointer_words > 0;
        long_chains += reply.pointer_words > 64;
        delivered_runs += differs_with_switch_off(&start, budget, &wanted);
    }
    check(refusals > 0, "no random machine was refused");
    check(halts > 0, "no random machine halted with budget left");
    check(halts_on_last > 0, "no random machine halted on the last step of its budget");
    check(late_faults > 0, "no random machine faulted after ten steps");
    check(long_runs > 0, "no random machine made a hundred steps");
    check(chained_halts > 0, "no random machine halted after pointer words");
    check(chained_faults > 0, "no random machine faulted after completed steps with pointer words");
    check(long_chains > 0, "no random machine read more pointer words than one step can");
    check(delivered_runs > MACHINES / 10, "only %lu of the random machines delivered a fault", delivered_runs);
}

int main(void)
{
    each_case(expect_step);
    case_12_by_budgets();
    ends();
    totals();
    handlers();
    handlers_that_fault();
    frames_in_runs();
    two_stacks();
    largest_memory();
    random_machines();
    printf("tests/c/run: %lu checks passed\n", checks);
    return 0;
}
