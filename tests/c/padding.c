/* The record's padding carries nothing, and nothing beside the record is touched: random machines by steps and as runs, with
 * zero, full and random padding, against plain C. Record and memory lie at the edge of pages that can't be touched. */
#include "machine.h"
#include "padding.h"
#include "place.h"

#include <stdio.h>
#include <string.h>

enum {
    MACHINES = 40000,
    STEPS = 16,
    MOST_BUDGET = 400
};

static_assert(CAPACITY * sizeof(uint64_t) <= PAGE, "a machine's memory fits a page");

/* kuzhlemor_run, or kuzhlemor_step where it is a `single` step, with this padding in the record. */
static kuzhlemor_reply call_padded(machine *m, bool single, uint32_t budget, const uint8_t padding[PADDING], bool at_end)
{
    static place record_place;
    static place memory_place;
    kuzhlemor_registers *registers;
    uint64_t *memory;
    kuzhlemor_reply reply;

    if (record_place.start == NULL) {
        record_place = new_place(1);
        memory_place = new_place(1);
    }
    registers = lend(&record_place, &m->registers, sizeof m->registers, at_end);
    memory = lend(&memory_place, m->memory, m->words * sizeof m->memory[0], at_end);
    put_padding(registers, padding);
    reply = single ? kuzhlemor_step(registers, memory, m->words) : kuzhlemor_run(registers, memory, m->words, budget);
    take_back(&record_place, &m->registers);
    take_back(&memory_place, m->memory);
    return reply;
}

/* Goes on from `m` by one call, with each padding, and checks that plain C answers and leaves the same. */
static kuzhlemor_reply call(machine *m, bool single, uint32_t budget, const char *name)
{
    static const uint8_t zero[PADDING];
    uint8_t full[PADDING];
    uint8_t random[PADDING];
    const uint8_t *const paddings[] = {zero, full, random, random};
    const char *who = single ? "kuzhlemor_step" : "kuzhlemor_run";
    machine wanted = *m;
    kuzhlemor_reply reply = single ? step_plain(&wanted) : run_plain(&wanted, budget);

    memset(full, 0xff, sizeof full);
    for (int k = 0; k < 4; k++) {
        machine got = *m;
        kuzhlemor_reply got_reply;
        char text[96];

        for (int byte = 0; byte < PADDING; byte++)
            random[byte] = (uint8_t)random_below(256);
        snprintf(text, sizeof text, "%s, %s padding", name, k == 0 ? "zero" : k == 1 ? "full" : "random");
        got_reply = call_padded(&got, single, budget, paddings[k], k % 2 == 0);
        check_end(who, text, &got, got_reply, &wanted, reply);
    }
    *m = wanted;
    return reply;
}

static void random_machines(void)
{
    static tally seen;

    for (int k = 0; k < MACHINES; k++) {
        const machine start = random_machine();
        uint32_t budget = random_below(MOST_BUDGET);
        machine m = start;
        char name[64];

        snprintf(name, sizeof name, "random machine %d, budget %u", k, (unsigned)budget);
        call(&m, false, budget, name);
        m = start;
        for (int steps = 0; steps < STEPS; steps++) {
            const machine before = m;
            kuzhlemor_reply reply;

            snprintf(name, sizeof name, "random machine %d, step %d", k, steps);
            reply = call(&m, true, 1, name);
            count_step(&seen, &before, reply);
            if (reply.kind != KUZHLEMOR_SPENT)
                break;
        }
    }
    check_tally(&seen);
}

int main(void)
{
    random_machines();
    printf("tests/c/padding: %lu checks passed\n", checks);
    return 0;
}
