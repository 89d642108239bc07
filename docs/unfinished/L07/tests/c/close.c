/* kuzhlemor_run_close and kuzhlemor_step_close as a controller calls them: records worked out by hand, what clears, 63 and what it
 * leaves, every case from records that nobody has filled and from true copies, and random machines with any records against plain C,
 * by steps and as runs. From true copies the other archive's calls give the same. The records lie at the edge of pages that can't be
 * touched. */
#include "machine.h"
#include "place.h"
#include "plain_close.h"

#include <stdio.h>
#include <string.h>

enum {
    RECORDS = 16,
    MACHINES = 150000,
    STEPS = 12
};

typedef kuzhlemor_close_record record;

static place lent;

/* A call on a copy of the records at the edge of a place, which is taken back. */
static kuzhlemor_reply run_at_edge(machine *m, record *records, size_t count, uint32_t budget, bool single, bool at_end)
{
    record *there = lend(&lent, records, count * sizeof records[0], at_end);
    kuzhlemor_reply reply = single ? kuzhlemor_step_close(&m->registers, m->memory, m->words, there, count)
                                   : kuzhlemor_run_close(&m->registers, m->memory, m->words, there, count, budget);

    take_back(&lent, records);
    return reply;
}

static kuzhlemor_reply step_close(machine *m, record *records)
{
    return run_at_edge(m, records, RECORDS, 1, true, false);
}

static bool same_records(const record *x, const record *y, size_t count)
{
    for (size_t k = 0; k < count; k++)
        if (x[k].descriptor != y[k].descriptor || x[k].segment != y[k].segment || x[k].valid != y[k].valid || x[k].count != y[k].count)
            return false;
    return true;
}

static void check_records(const char *name, const record *got, const record *wanted)
{
    for (int k = 0; k < RECORDS; k++)
        check(same_records(got + k, wanted + k, 1), "%s: record %d is %016llx %u %u %u, not %016llx %u %u %u", name, k,
              (unsigned long long)got[k].descriptor, got[k].segment, got[k].valid, got[k].count,
              (unsigned long long)wanted[k].descriptor, wanted[k].segment, wanted[k].valid, wanted[k].count);
}

/* A machine in ring 0 with code in segment 1, data in segment 2, the descriptor segment as segment 3, and a save segment 4. */
static machine small(void)
{
    machine m = empty_machine(96);

    m.registers.dbr = (kuzhlemor_dbr){0, 5};
    m.registers.ipr = pointer_to(0, 1, 0);
    m.registers.prs[1] = pointer_to(0, 2, 0);
    m.registers.prs[2] = pointer_to(0, 3, 0);
    m.memory[1] = descriptor_word(16, 16, 0, 0, 0, R | E | V, 0);
    m.memory[2] = descriptor_word(32, 16, 0, 0, 0, R | W | V, 0);
    m.memory[3] = descriptor_word(0, 5, 0, 0, 0, R | W | V, 0);
    m.memory[4] = descriptor_word(48, 16, 0, 0, 0, R | W | V, 0);
    return m;
}

static record valid(uint64_t word, uint16_t segment, uint8_t count)
{
    return (record){.descriptor = word, .segment = segment, .valid = 1, .count = count};
}

static void in_order(record *records)
{
    memset(records, 0, RECORDS * sizeof records[0]);
    for (int k = 0; k < RECORDS; k++)
        records[k].count = (uint8_t)k;
}

/* Two misses, then two hits; a hit of count 15 changes nothing. */
static void looked_up(void)
{
    machine m = small();
    record records[RECORDS] = {0};
    record wanted[RECORDS];

    m.memory[16] = by_pr(LDA, 1, 0);
    m.memory[17] = near(LDI, 0) | lit(1);
    m.memory[18] = by_pr(AOS, 1, 0);
    in_order(wanted);
    wanted[0] = valid(m.memory[1], 1, 14);
    wanted[1] = valid(m.memory[2], 2, 15);
    for (int k = 2; k < RECORDS; k++)
        wanted[k].count = (uint8_t)(k - 2);
    check(same_reply(step_close(&m, records), spent(1, 0)), "LDA with empty records");
    check_records("two misses", records, wanted);
    wanted[0].count = 15;
    wanted[1].count = 14;
    check(same_reply(step_close(&m, records), spent(1, 0)), "LDI");
    check_records("a hit", records, wanted);
    wanted[0].count = 14;
    wanted[1].count = 15;
    check(same_reply(step_close(&m, records), spent(1, 0)) && m.memory[32] == 1, "AOS");
    check_records("two hits", records, wanted);
}

/* Each of these leaves no record valid, and the counts as the look-ups left them. */
static void cleared(const char *name, machine m, kuzhlemor_reply wanted)
{
    record records[RECORDS];
    unsigned seen = 0;

    in_order(records);
    records[9] = valid(m.memory[2], 2, 9);
    check(same_reply(step_close(&m, records), wanted), "%s: reply", name);
    for (int k = 0; k < RECORDS; k++) {
        check(records[k].valid == 0, "%s: record %d is valid", name, k);
        seen |= 1u << records[k].count;
    }
    check(seen == 0xffff, "%s: counts", name);
}

static void clears(void)
{
    machine m = small();

    m.memory[16] = by_pr(STA, 2, 4);
    m.registers.a = m.memory[4];
    cleared("STA of the same value to a descriptor word", m, spent(1, 0));
    m.memory[16] = by_pr(AOS, 2, 0);
    cleared("AOS of a descriptor word", m, spent(1, 0));
    m.memory[16] = by_pr(SPP, 2, 0);
    cleared("SPP to a descriptor word", m, spent(1, 0));
    m.memory[16] = by_pr(LDBR, 1, 0);
    m.memory[32] = dbr_word(0, 5);
    cleared("LDBR", m, spent(1, 0));
    m.memory[16] = by_pr(RCU, 1, 0);
    m.memory[35] = dbr_word(0, 5);
    cleared("RCU", m, spent(1, 0));
    m = small();
    m.registers.fault_switch = 1;
    m.registers.save_segment = 4;
    m.registers.handler_segment = 1;
    m.memory[4] = descriptor_word(4, 16, 0, 0, 0, R | W | V, 0);
    cleared("a frame over a descriptor word", m, spent(1, 0));
}

/* 63, whatever else is against the call, with nothing changed; and nothing is changed by 1 to 4 either. */
static void refusals(void)
{
    static const size_t counts[] = {0, 1, 15, 17, 32};
    record records[32];
    record before[32];

    for (size_t k = 0; k < sizeof records; k++)
        ((uint8_t *)before)[k] = (uint8_t)(k * 37 + 5);
    for (size_t k = 0; k < sizeof counts / sizeof counts[0]; k++)
        for (int bad = 0; bad < 2; bad++)
            for (int single = 0; single < 2; single++) {
                machine m = small();
                machine wanted;

                m.registers.ipr.ring = bad ? 9 : 0;
                wanted = m;
                memcpy(records, before, sizeof records);
                check_end("close", "other than sixteen records", &m, run_at_edge(&m, records, counts[k], 5, single, bad), &wanted, refused(63));
                check(same_records(records, before, 32), "63 changes a record");
            }
    for (int single = 0; single < 2; single++) {
        machine m = small();
        machine wanted;

        m.registers.dbr.length = 97;
        wanted = m;
        memcpy(records, before, sizeof records);
        check_end("close", "4 with records", &m, run_at_edge(&m, records, RECORDS, 5, single, true), &wanted, refused(4));
        check(same_records(records, before, RECORDS), "4 changes a record");
    }
}

/* A budget of 0 puts the counts in order, or leaves good ones. */
static void no_steps(void)
{
    machine m = small();
    machine wanted = m;
    record records[RECORDS];
    record ordered[RECORDS];

    in_order(records);
    for (int k = 0; k < RECORDS; k++)
        records[k] = valid(m.memory[2], 2, (uint8_t)(15 - k));
    memcpy(ordered, records, sizeof records);
    check_end("close", "a budget of 0", &m, run_at_edge(&m, records, RECORDS, 0, false, true), &wanted, spent(0, 0));
    check_records("good counts", records, ordered);
    records[3].count = 16;
    for (int k = 0; k < RECORDS; k++)
        ordered[k] = (record){.descriptor = records[k].descriptor, .segment = 2, .valid = 0, .count = (uint8_t)k};
    check_end("close", "a budget of 0, bad counts", &m, run_at_edge(&m, records, RECORDS, 0, false, false), &wanted, spent(0, 0));
    check_records("bad counts", records, ordered);
}

/* The descriptors of the first segments, in records with counts in any order. */
static void true_copies(const machine *m, record *records)
{
    in_order(records);
    for (int k = RECORDS - 1; k > 0; k--) {
        uint32_t j = random_below((uint32_t)k + 1);
        uint8_t count = records[k].count;

        records[k].count = records[j].count;
        records[j].count = count;
    }
    for (uint16_t k = 0; k < RECORDS; k++) {
        uint64_t at = (uint64_t)m->registers.dbr.address + k;

        if (k < m->registers.dbr.length && at < m->words && !one_in(4))
            records[k] = valid(m->memory[at], k, records[k].count);
    }
}

static void expect_close(const char *name, const machine *before, const machine *after, kuzhlemor_reply reply)
{
    record records[RECORDS] = {0};
    machine m = *before;

    check_end("kuzhlemor_step_close", name, &m, step_close(&m, records), after, reply);
    m = *before;
    true_copies(&m, records);
    check_end("kuzhlemor_step_close from true copies", name, &m, step_close(&m, records), after, reply);
}

/* Records of any content: of a third no word is true. */
static void random_records(const machine *m, record *records)
{
    true_copies(m, records);
    if (one_in(3))
        for (int k = 0; k < RECORDS; k++) {
            if (one_in(3))
                records[k].segment = (uint16_t)random_below(12);
            if (one_in(3))
                records[k].descriptor = one_in(2) ? random_word() : m->memory[random_below(CAPACITY)];
            if (one_in(6))
                records[k].valid = (uint8_t)random_below(4);
            if (one_in(60))
                records[k].count = (uint8_t)random_below(18);
        }
}

static void against_plain(void)
{
    for (int k = 0; k < MACHINES; k++) {
        machine m = random_machine();
        machine p = m;
        record records[RECORDS];
        record plain[RECORDS];

        random_records(&m, records);
        memcpy(plain, records, sizeof records);
        if (one_in(2)) {
            uint32_t budget = random_below(STEPS);
            kuzhlemor_reply wanted = plain_run_close(&p.registers, p.memory, p.words, plain, RECORDS, budget);

            check_end("kuzhlemor_run_close", "random", &m, run_at_edge(&m, records, RECORDS, budget, false, one_in(2)), &p, wanted);
            check_records("random run", records, plain);
            continue;
        }
        for (int s = 0; s < STEPS; s++) {
            kuzhlemor_reply wanted = plain_step_close(&p.registers, p.memory, p.words, plain, RECORDS);

            check_end("kuzhlemor_step_close", "random", &m, step_close(&m, records), &p, wanted);
            check_records("random step", records, plain);
            if (wanted.kind != 1)
                break;
        }
    }
}

/* Both archives in one program: from true copies they say the same. */
static void as_without(void)
{
    for (int k = 0; k < MACHINES; k++) {
        machine m = random_machine();
        machine p = m;
        record records[RECORDS];
        uint32_t budget = random_below(2 * STEPS);

        true_copies(&m, records);
        check_end("kuzhlemor_run_close", "as kuzhlemor_run", &m, run_at_edge(&m, records, RECORDS, budget, false, one_in(2)), &p,
                  kuzhlemor_run(&p.registers, p.memory, p.words, budget));
    }
}

int main(void)
{
    lent = new_place(1);
    looked_up();
    clears();
    refusals();
    no_steps();
    each_case(expect_close);
    against_plain();
    as_without();
    printf("close: %lu checks\n", checks);
    return 0;
}
