/* kuzhlemor_step as the firmware calls it: every case, the largest memories, and random machines step by step against
 * plain C. */
#include "machine.h"

#include <stdio.h>
#include <stdlib.h>
#include <string.h>

enum {
    MACHINES = 400000,
    STEPS = 24,
    MOST_WORDS = 16777216
};

static kuzhlemor_reply step(machine *m)
{
    return kuzhlemor_step(&m->registers, m->memory, m->words);
}

static void expect_step(const char *name, const machine *before, const machine *after, kuzhlemor_reply reply)
{
    machine m = *before;
    kuzhlemor_reply got = step(&m);

    check_end("kuzhlemor_step", name, &m, got, after, reply);
    m = *before;
    got = plain_step(&m.registers, m.memory, m.words);
    check_end("plain_step", name, &m, got, after, reply);
}

/* Words written in one step are what the next one uses: the program changes itself, its descriptor and DBR. */
static void steps_in_sequence(void)
{
    machine m = empty_machine(64);
    machine wanted;

    m.registers.dbr = (kuzhlemor_dbr){0, 3};
    m.registers.ipr = pointer_to(0, 1, 0);
    m.registers.prs[1] = pointer_to(0, 2, 0);
    m.memory[1] = descriptor_word(16, 16, 0, 0, 0, R | E | V, 0);
    m.memory[2] = descriptor_word(0, 64, 0, 0, 0, R | W | V, 0);
    m.memory[16] = near(LDA, 8);
    m.memory[17] = by_pr(STA, 1, 18);
    m.memory[18] = near(TRA, 100);
    m.memory[19] = by_pr(LDBR, 1, 26);
    m.memory[24] = near(LDI, 0) | lit(5);
    m.memory[26] = dbr_word(40, 2);
    m.memory[41] = descriptor_word(48, 6, 0, 0, 0, E | V, 0);
    m.memory[48 + 4] = near(HLT, 0);
    wanted = m;

    wanted.registers.a = m.memory[24];
    wanted.registers.ipr.word = 1;
    check_end("kuzhlemor_step", "sequence, LDA", &m, step(&m), &wanted, spent(1, 0));
    wanted.memory[18] = m.memory[24];
    wanted.registers.ipr.word = 2;
    check_end("kuzhlemor_step", "sequence, STA over the next instruction", &m, step(&m), &wanted, spent(1, 0));
    wanted.registers.a = 5;
    wanted.registers.ipr.word = 3;
    check_end("kuzhlemor_step", "sequence, the instruction written", &m, step(&m), &wanted, spent(1, 0));
    wanted.registers.dbr = (kuzhlemor_dbr){40, 2};
    wanted.registers.ipr.word = 4;
    check_end("kuzhlemor_step", "sequence, LDBR", &m, step(&m), &wanted, spent(1, 0));
    wanted.registers.ipr.word = 5;
    check_end("kuzhlemor_step", "sequence, HLT by the new descriptor", &m, step(&m), &wanted, halted(1, 0));
    check_end("kuzhlemor_step", "sequence, after HLT", &m, step(&m), &wanted, fault(32, 0, pointer_to(0, 1, 5), 0));
    m.registers.ipr.word = 6;
    wanted.registers.ipr.word = 6;
    check_end("kuzhlemor_step", "sequence, past the new segment", &m, step(&m), &wanted,
              fault(15, 0, pointer_to(0, 1, 6), 0));
}

/* Memory that is the end of an array: a pointer to no words. */
static void no_words(void)
{
    static uint64_t array[4] = {1, 2, 3, 4};
    kuzhlemor_registers r = {.a = 8, .ipr = {3, 4095, 65535}};
    kuzhlemor_registers before;
    kuzhlemor_reply reply;

    for (int k = 0; k < 8; k++)
        r.prs[k].ring = 3;
    before = r;
    reply = kuzhlemor_step(&r, array + 4, 0);
    check(same_reply(reply, fault(11, 0, r.ipr, 0)) && same_registers(&r, &before), "no words at an array's end");
    r.dbr.length = 1;
    before = r;
    reply = kuzhlemor_step(&r, array + 4, 0);
    check(same_reply(reply, refused(4)) && same_registers(&r, &before), "no words at an array's end, DBR length 1");
    for (uint64_t k = 0; k < 4; k++)
        check(array[k] == k + 1, "no words lent, and one is changed");
}

/* Whether memory is all zero but for these words. */
static bool only(const uint64_t *memory, size_t words, const size_t *addresses, const uint64_t *values, size_t count)
{
    size_t next = 0;

    for (size_t k = 0; k < words; k++) {
        bool named = next < count && addresses[next] == k;

        if (memory[k] != (named ? values[next] : 0))
            return false;
        if (named)
            next++;
    }
    return next == count;
}

/* 16,777,216 words, with the last descriptor segment, the last segment and the last word number; and one word more. */
static void largest_memory(void)
{
    uint64_t *memory = calloc(MOST_WORDS + 1, sizeof memory[0]);
    uint32_t base = MOST_WORDS - 4096;
    uint32_t segment = base - 65535;
    kuzhlemor_registers r = {.a = 77, .dbr = {base, 4096}, .ipr = {0, 4095, 65533}};
    kuzhlemor_registers wanted = r;
    size_t addresses[] = {segment, segment + 65533, segment + 65534, MOST_WORDS - 1};
    uint64_t values[] = {0, near(STA, 3), near(LDI, 0) | lit(9),
                         descriptor_word(segment, 65535, 0, 0, 0, R | W | E | V, 0)};

    check(memory != NULL, "no memory for the largest memory");
    for (int k = 0; k < 4; k++)
        memory[addresses[k]] = values[k];

    /* 65,533 and 3 is word 0. */
    values[0] = 77;
    wanted.ipr.word = 65534;
    check(same_reply(kuzhlemor_step(&r, memory, MOST_WORDS), spent(1, 0)) && same_registers(&r, &wanted) &&
              only(memory, MOST_WORDS + 1, addresses, values, 4),
          "largest memory, STA at word 0 from word 65,533");
    wanted.a = 9;
    wanted.ipr.word = 65535;
    check(same_reply(kuzhlemor_step(&r, memory, MOST_WORDS), spent(1, 0)) && same_registers(&r, &wanted) &&
              only(memory, MOST_WORDS + 1, addresses, values, 4),
          "largest memory, LDI at word 65,534");
    check(same_reply(kuzhlemor_step(&r, memory, MOST_WORDS), fault(15, 0, r.ipr, 0)) && same_registers(&r, &wanted) &&
              only(memory, MOST_WORDS + 1, addresses, values, 4),
          "largest memory, no word 65,535");

    r.ipr.word = 65534;
    wanted = r;
    check(same_reply(kuzhlemor_step(&r, memory, MOST_WORDS + 1), refused(1)) && same_registers(&r, &wanted) &&
              only(memory, MOST_WORDS + 1, addresses, values, 4),
          "1: one word too many");
    r.ipr.ring = 8;
    r.dbr.length = 4097;
    wanted = r;
    check(same_reply(kuzhlemor_step(&r, memory, MOST_WORDS + 1), refused(1)) && same_registers(&r, &wanted) &&
              only(memory, MOST_WORDS + 1, addresses, values, 4),
          "1 before 2 to 4");
    free(memory);
}

/* The longest segment: opcode 42 of its last thirteen words, of one word less, and a fault's frame in it. */
static void longest_segment(void)
{
    static uint64_t memory[65535 + 4];
    static uint64_t wanted_memory[65535 + 4];
    const size_t words = 65535 + 4;
    uint64_t *segment = memory + 4;
    kuzhlemor_registers r = {.a = 7, .dbr = {0, 2}, .ipr = {0, 1, 0}, .prs = {[3] = {0, 1, 65522}}, .save_segment = 1};
    kuzhlemor_registers wanted = r;

    memory[1] = descriptor_word(4, 65535, 0, 0, 0, R | W | E | V, 0);
    segment[0] = by_pr(RCU, 3, 0);
    segment[65522 + 2] = 9;
    segment[65522 + 3] = dbr_word(1, 1);
    segment[65522 + 4] = pointer_word(pointer_to(5, 6, 7));
    for (int k = 0; k < 8; k++)
        segment[65522 + 5 + k] = pointer_word(pointer_to(5, 6, 7));
    memcpy(wanted_memory, memory, sizeof memory);
    wanted.a = 9;
    wanted.dbr = (kuzhlemor_dbr){1, 1};
    wanted.ipr = pointer_to(5, 6, 7);
    for (int k = 0; k < 8; k++)
        wanted.prs[k] = wanted.ipr;
    check(same_reply(kuzhlemor_step(&r, memory, words), spent(1, 0)) && same_registers(&r, &wanted) &&
              memcmp(memory, wanted_memory, sizeof memory) == 0,
          "RCU of words 65,522 to 65,534");

    r = (kuzhlemor_registers){.a = 7, .dbr = {0, 2}, .ipr = {0, 1, 0}, .prs = {[3] = {0, 1, 65523}}, .save_segment = 1};
    wanted = r;
    check(same_reply(kuzhlemor_step(&r, memory, words), fault(15, 0, pointer_to(0, 1, 65523), 0)) &&
              same_registers(&r, &wanted) && memcmp(memory, wanted_memory, sizeof memory) == 0,
          "RCU of word 65,535 as well");
    r.fault_switch = 1;
    wanted = r;
    wanted.ipr = pointer_to(0, 0, 0);
    memset(wanted_memory + 4, 0, 13 * sizeof memory[0]);
    wanted_memory[4] = 15;
    wanted_memory[4 + 1] = 0x1fff3;
    wanted_memory[4 + 2] = 7;
    wanted_memory[4 + 3] = 0x2000000;
    wanted_memory[4 + 4] = 0x10000;
    wanted_memory[4 + 5 + 3] = 0x1fff3;
    check(same_reply(kuzhlemor_step(&r, memory, words), spent(1, 0)) && same_registers(&r, &wanted) &&
              memcmp(memory, wanted_memory, sizeof memory) == 0,
          "RCU of word 65,535 as well, delivered");
}

/* 4 and 34 where 4,097 descriptors would lie within memory. */
static void longest_descriptor_segment(void)
{
    static uint64_t memory[8192];
    const size_t addresses[] = {1, 5000, 5001, 5002, 5003};
    const uint64_t values[] = {descriptor_word(5000, 4, 0, 0, 0, R | E | V, 0), near(LDBR, 2), near(LDBR, 2),
                               dbr_word(0, 4096), dbr_word(0, 4097)};
    kuzhlemor_registers r = {.dbr = {0, 4097}, .ipr = {0, 1, 0}};
    kuzhlemor_registers wanted = r;

    for (int k = 0; k < 5; k++)
        memory[addresses[k]] = values[k];
    check(same_reply(kuzhlemor_step(&r, memory, 8192), refused(4)) && same_registers(&r, &wanted) &&
              only(memory, 8192, addresses, values, 5),
          "4: 4,097 descriptors within memory");
    r.dbr.length = 2;
    wanted = r;
    wanted.dbr.length = 4096;
    wanted.ipr.word = 1;
    check(same_reply(kuzhlemor_step(&r, memory, 8192), spent(1, 0)) && same_registers(&r, &wanted) &&
              only(memory, 8192, addresses, values, 5),
          "LDBR of 4,096 descriptors");
    check(same_reply(kuzhlemor_step(&r, memory, 8192), fault(34, 0, pointer_to(0, 1, 3), 0)) &&
              same_registers(&r, &wanted) && only(memory, 8192, addresses, values, 5),
          "34: 4,097 descriptors within memory");
}

/* Each step of random machines leaves what plain C leaves; a refusal or a fault leaves what was there. */
static void random_machines(void)
{
    static tally seen;

    for (int k = 0; k < MACHINES; k++) {
        machine m = random_machine();
        kuzhlemor_reply reply;
        int steps = 0;
        char name[64];

        do {
            machine before = m;
            machine other = m;
            kuzhlemor_reply wanted = step_plain(&other);

            snprintf(name, sizeof name, "random machine %d, step %d", k, steps);
            reply = step(&m);
            check_end("kuzhlemor_step", name, &m, reply, &other, wanted);
            if (reply.kind == KUZHLEMOR_REFUSED || reply.kind == KUZHLEMOR_FAULT)
                check(same_machine(&m, &before), "%s changed something and didn't complete", name);
            count_step(&seen, &before, reply);
            steps++;
        } while (steps < STEPS && (reply.kind == KUZHLEMOR_SPENT || reply.kind == KUZHLEMOR_HALTED));
    }
    check_tally(&seen);
}

int main(void)
{
    each_case(expect_step);
    steps_in_sequence();
    no_words();
    largest_memory();
    longest_segment();
    longest_descriptor_segment();
    random_machines();
    printf("tests/c/step: %lu checks passed\n", checks);
    return 0;
}
