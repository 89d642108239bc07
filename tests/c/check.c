/* kuzhlemor_may_call as the firmware calls it: each question at its boundary with the answer that 01 gives, and random machines
 * and pointers against plain C. Record and memory stay as they were. */
#include "machine.h"

#include <stdio.h>

enum {
    MACHINES = 40000,
    POINTERS = 8,
    CODE = 1,
    TARGET = 2,
    LENGTH = 8
};

typedef struct {
    const char *name;
    kuzhlemor_pointer pointer;
    kuzhlemor_check wanted;
} question;

static kuzhlemor_check refuses(uint32_t number)
{
    return (kuzhlemor_check){.kind = KUZHLEMOR_REFUSED, .number = number};
}

static kuzhlemor_check faults(uint32_t number, kuzhlemor_pointer raised)
{
    return (kuzhlemor_check){.kind = KUZHLEMOR_FAULT, .number = number, .pointer = raised};
}

static kuzhlemor_check passes(uint32_t ring)
{
    return (kuzhlemor_check){.kind = KUZHLEMOR_PASSES, .ring = ring};
}

/* Asks the library and plain C, and checks that neither changed anything. */
static kuzhlemor_check ask(const char *name, const machine *m, kuzhlemor_pointer p)
{
    const machine before = *m;
    kuzhlemor_check library = kuzhlemor_may_call(&m->registers, m->memory, m->words, p.ring, p.segment, p.word);
    kuzhlemor_check plain = plain_may_call(&m->registers, m->memory, m->words, p.ring, p.segment, p.word);

    check(same_machine(m, &before), "%s: something changed", name);
    check(same_check(library, plain), "%s: %u %u %u (%u %u %u), plain C: %u %u %u (%u %u %u)", name, library.kind,
          library.number, library.ring, library.pointer.ring, library.pointer.segment, library.pointer.word, plain.kind,
          plain.number, plain.ring, plain.pointer.ring, plain.pointer.segment, plain.pointer.word);
    return library;
}

/* A laboratory's program in ring 4, and a segment that rings 2 to 3 execute and ring 5 and below may call at two gates. */
static machine with_gates(void)
{
    machine m = empty_machine(64);

    m.registers.dbr = (kuzhlemor_dbr){0, 4};
    m.registers.ipr = pointer_to(4, CODE, 0);
    for (int k = 0; k < 8; k++)
        m.registers.prs[k] = pointer_to(4, 0, 0);
    m.memory[CODE] = descriptor_word(16, LENGTH, 4, 4, 4, R | E | V, 0);
    m.memory[TARGET] = descriptor_word(32, LENGTH, 2, 3, 5, R | E | V, 2);
    return m;
}

static void answer(const machine *m, question q)
{
    kuzhlemor_check got = ask(q.name, m, q.pointer);

    check(same_check(got, q.wanted), "%s: %u %u %u", q.name, got.kind, got.number, got.ring);
}

/* The same segment with another descriptor for it. */
static void answer_at(uint64_t descriptor, question q)
{
    machine m = with_gates();

    m.memory[TARGET] = descriptor;
    answer(&m, q);
}

static void each_question(void)
{
    const kuzhlemor_pointer gate = pointer_to(0, TARGET, 1);
    const kuzhlemor_pointer raised = pointer_to(4, TARGET, 1);
    const machine m = with_gates();

    answer(&m, (question){"through a gate", gate, passes(3)});
    answer(&m, (question){"the ring as it is raised", raised, passes(3)});
    answer(&m, (question){"within the segment", pointer_to(0, CODE, 7), passes(4)});
    answer(&m, (question){"2: ring 8", pointer_to(8, TARGET, 1), refuses(2)});
    answer(&m, (question){"2: segment 4,096", pointer_to(0, 4096, 1), refuses(2)});
    answer(&m, (question){"11: segment 4,095", pointer_to(0, 4095, 1), faults(11, pointer_to(4, 4095, 1))});
    answer(&m, (question){"11: the segment after the last", pointer_to(0, 4, 1), faults(11, pointer_to(4, 4, 1))});
    answer(&m, (question){"12: no descriptor", pointer_to(0, 3, 1), faults(12, pointer_to(4, 3, 1))});
    answer(&m, (question){"15: the word after the last", pointer_to(0, CODE, LENGTH), faults(15, pointer_to(4, CODE, LENGTH))});
    answer(&m, (question){"27: the first word that is no gate", pointer_to(0, TARGET, 2), faults(27, pointer_to(4, TARGET, 2))});
    answer(&m, (question){"28: above the gate extension", pointer_to(6, TARGET, 1), faults(28, pointer_to(6, TARGET, 1))});
    answer(&m, (question){"28: the last ring of the gate extension", pointer_to(5, TARGET, 1), passes(3)});
    answer_at(descriptor_word(32, LENGTH, 4, 3, 5, R | E | V, 2), (question){"13", gate, faults(13, raised)});
    answer_at(descriptor_word(57, LENGTH, 2, 3, 5, R | E | V, 2), (question){"14", gate, faults(14, raised)});
    answer_at(descriptor_word(56, LENGTH, 2, 3, 5, R | E | V, 2), (question){"14: up to memory's end", gate, passes(3)});
    answer_at(descriptor_word(32, LENGTH, 2, 3, 5, R | W | V, 2), (question){"26", gate, faults(26, raised)});
    answer_at(descriptor_word(32, LENGTH, 5, 5, 5, R | E | V, 2), (question){"29", gate, faults(29, raised)});
    answer_at(descriptor_word(32, LENGTH, 4, 5, 5, R | E | V, 2), (question){"29: the lowest ring", gate, passes(4)});
    answer_at(descriptor_word(32, LENGTH, 5, 6, 6, R | E | V, 2),
              (question){"30", pointer_to(5, TARGET, 1), faults(30, pointer_to(5, TARGET, 1))});
}

static void each_refusal(void)
{
    const kuzhlemor_pointer gate = pointer_to(0, TARGET, 1);
    machine m = with_gates();

    m.registers.prs[6].ring = 3;
    answer(&m, (question){"3", gate, refuses(3)});
    answer(&m, (question){"2 of the pointer before 3", pointer_to(8, TARGET, 1), refuses(2)});
    m = with_gates();
    m.registers.dbr.length = 65;
    answer(&m, (question){"4", gate, refuses(4)});
    answer(&m, (question){"2 of the pointer before 4", pointer_to(0, 4096, 0), refuses(2)});
    m = with_gates();
    m.registers.fault_switch = 2;
    answer(&m, (question){"2 of the switch", gate, refuses(2)});
    m.registers.fault_switch = 1;
    answer(&m, (question){"nothing is delivered", pointer_to(0, 3, 1), faults(12, pointer_to(4, 3, 1))});
    m = empty_machine(0);
    answer(&m, (question){"no words", gate, faults(11, gate)});
}

/* Near the boundaries as often as not. */
static kuzhlemor_pointer random_pointer(const machine *m)
{
    const kuzhlemor_pointer near_by = m->registers.prs[random_below(8)];

    if (random_below(3) == 0)
        return near_by;
    return pointer_to(random_below(random_below(8) == 0 ? 256 : 9), random_below(8) == 0 ? random_below(65536) : random_below(12),
                      random_below(8) == 0 ? random_below(65536) : random_below(24));
}

static void random_machines(void)
{
    unsigned long seen[53] = {0};
    unsigned long passed = 0;

    for (int k = 0; k < MACHINES; k++) {
        const machine m = random_machine();

        for (int n = 0; n < POINTERS; n++) {
            kuzhlemor_check got = ask("random machine", &m, random_pointer(&m));

            if (got.kind == KUZHLEMOR_PASSES)
                passed++;
            else
                seen[got.number]++;
        }
    }
    check(passed > 0, "no check has passed");
    for (int number = 2; number <= 30; number++)
        if (number <= 4 || (number >= 11 && number <= 15) || number >= 26)
            check(seen[number] > 0, "%d hasn't been answered", number);
}

int main(void)
{
    each_question();
    each_refusal();
    random_machines();
    printf("tests/c/check: %lu checks passed\n", checks);
    return 0;
}
