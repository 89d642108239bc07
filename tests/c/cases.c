/* Single steps of document 01 with 02's delivered faults: every opcode, every question with the values at its edge, the cases
 * of 01 that are steps, the order of the questions, how many pointer words each step reads, and what a fault leaves where it
 * is delivered. */
#include "machine.h"

#include <stdio.h>

/* The desk on which most cases are laid out: 128 words, eight descriptors at 0, three segments of 16 words, and room for a
 * chain of 64 pointer words. */
enum {
    WORDS = 128,
    CHAIN = 2,
    CODE = 4,
    DATA = 5,
    OTHER = 6,
    CODE_AT = 16,
    DATA_AT = 32,
    OTHER_AT = 48,
    CHAIN_AT = 64
};

static expectation *report;

/* The numbers of the faults that were delivered. */
static bool delivered_numbers[53];

/* Segment 5 of the desk, which has room for a frame. */
static uint64_t data_segment(void)
{
    return descriptor_word(DATA_AT, 16, 7, 7, 7, R | W | V, 0);
}

/* The program is in segment 4, at word 2; PR1 points to word 0 of segment 5, which all rings may read and write, PR2 to
 * word 0 of segment 6, which is void at first. The other PRs are all different. */
static machine desk(unsigned ring, uint64_t instruction)
{
    machine m = empty_machine(WORDS);

    m.registers.a = 0x1122334455667788;
    m.registers.dbr = (kuzhlemor_dbr){0, 8};
    m.registers.ipr = pointer_to(ring, CODE, 2);
    for (unsigned k = 0; k < 8; k++)
        m.registers.prs[k] = pointer_to(ring, 1000 + k, 2000 + k);
    m.registers.prs[1] = pointer_to(ring, DATA, 0);
    m.registers.prs[2] = pointer_to(ring, OTHER, 0);
    m.memory[CODE] = descriptor_word(CODE_AT, 16, ring, ring, ring, R | E | V, 0);
    m.registers.save_segment = 4094;
    m.registers.handler_segment = 4093;
    m.memory[DATA] = data_segment();
    for (unsigned k = 8; k < WORDS; k++)
        m.memory[k] = 0xfedc000000000000 + k;
    m.memory[CODE_AT + 2] = instruction;
    return m;
}

/* The switch is on, with these segments. */
static machine switched_on(machine m, unsigned save, unsigned handler)
{
    m.registers.fault_switch = 1;
    m.registers.save_segment = (uint16_t)save;
    m.registers.handler_segment = (uint16_t)handler;
    return m;
}

static void report_on(const char *name, const machine *before, const machine *after, kuzhlemor_reply reply)
{
    char text[128];

    snprintf(text, sizeof text, "%s, the switch on", name);
    report(text, before, after, reply);
}

/* Completes, having read so many pointer words; with the switch on just so. */
static void completes_through(const char *name, const machine *before, const machine *after, unsigned pointer_words)
{
    machine before_on = switched_on(*before, DATA, 0);
    machine after_on = switched_on(*after, DATA, 0);

    report(name, before, after, spent(1, pointer_words));
    report_on(name, &before_on, &after_on, spent(1, pointer_words));
}

/* Completes with IPR one on, A as given, and nothing else changed. */
static void sets_a_through(const char *name, machine before, uint64_t a, unsigned pointer_words)
{
    machine after = before;

    after.registers.a = a;
    after.registers.ipr.word++;
    completes_through(name, &before, &after, pointer_words);
}

/* Completes with IPR one on, the word as given, and nothing else changed. */
static void writes_through(const char *name, machine before, size_t address, uint64_t word, unsigned pointer_words)
{
    machine after = before;

    after.memory[address] = word;
    after.registers.ipr.word++;
    completes_through(name, &before, &after, pointer_words);
}

/* Completes with IPR one on, the PR as given, and nothing else changed. */
static void sets_pr_through(const char *name, machine before, unsigned number, kuzhlemor_pointer p, unsigned pointer_words)
{
    machine after = before;

    after.registers.prs[number] = p;
    after.registers.ipr.word++;
    completes_through(name, &before, &after, pointer_words);
}

/* Completes with IPR as given and nothing else changed. */
static void goes_to_through(const char *name, machine before, kuzhlemor_pointer ipr, unsigned pointer_words)
{
    machine after = before;

    after.registers.ipr = ipr;
    completes_through(name, &before, &after, pointer_words);
}

/* Completes with the move that a call makes, and nothing else changed. */
static void calls_through(const char *name, machine before, kuzhlemor_pointer ipr, unsigned pointer_words)
{
    bool same_ring = ipr.ring == before.registers.ipr.ring;
    machine after = before;

    after.registers.ipr = ipr;
    after.registers.prs[7] = pointer_to(ipr.ring, same_ring ? before.registers.prs[6].segment : ipr.ring, 0);
    completes_through(name, &before, &after, pointer_words);
}

/* Completes by delivering a fault: thirteen words from this address on, IPR at the handler, and nothing else changed. */
static void delivers_through(const char *name, machine before, size_t address, uint32_t number, kuzhlemor_pointer at,
                             unsigned pointer_words)
{
    const kuzhlemor_registers *r = &before.registers;
    machine after = before;
    uint64_t *frame = &after.memory[address];

    frame[0] = number;
    frame[1] = pointer_word(at);
    frame[2] = r->a;
    frame[3] = (uint64_t)r->dbr.length << 24 | r->dbr.address;
    frame[4] = pointer_word(r->ipr);
    for (int k = 0; k < 8; k++)
        frame[5 + k] = pointer_word(r->prs[k]);
    after.registers.ipr = pointer_to(0, r->handler_segment, 0);
    report_on(name, &before, &after, spent(1, pointer_words));
    delivered_numbers[number] = true;
}

static bool has_data_segment(const machine *m)
{
    return m->words == WORDS && m->registers.dbr.address == 0 && m->registers.dbr.length > DATA &&
           m->memory[DATA] == data_segment();
}

/* Faults, having read so many pointer words; with the switch on as well, unless the save segment will do. */
static void faults_through(const char *name, machine before, uint32_t number, kuzhlemor_pointer at, unsigned pointer_words)
{
    machine no_segment = switched_on(before, 4095, 0);

    report(name, &before, &before, fault(number, 0, at, pointer_words));
    report_on(name, &no_segment, &no_segment, fault(number, 0, at, pointer_words));
    if (has_data_segment(&before))
        delivers_through(name, switched_on(before, DATA, 4095), DATA_AT, number, at, pointer_words);
}

/* The same, with no pointer word read. */
static void completes(const char *name, const machine *m, const machine *after) { completes_through(name, m, after, 0); }
static void sets_a(const char *name, machine m, uint64_t a) { sets_a_through(name, m, a, 0); }
static void writes(const char *name, machine m, size_t address, uint64_t word) { writes_through(name, m, address, word, 0); }
static void sets_pr(const char *name, machine m, unsigned k, kuzhlemor_pointer p) { sets_pr_through(name, m, k, p, 0); }
static void goes_to(const char *name, machine m, kuzhlemor_pointer ipr) { goes_to_through(name, m, ipr, 0); }
static void calls(const char *name, machine m, kuzhlemor_pointer ipr) { calls_through(name, m, ipr, 0); }
static void faults(const char *name, machine m, uint32_t number, kuzhlemor_pointer at) { faults_through(name, m, number, at, 0); }

/* With the switch on too: a refusal is no fault. */
static void refuses(const char *name, machine before, uint32_t number)
{
    machine before_on = switched_on(before, DATA, 0);

    report(name, &before, &before, refused(number));
    report_on(name, &before_on, &before_on, refused(number));
}

/* A step on the desk of a ring, with a given descriptor for segment 6. */
static machine with_other(unsigned ring, uint64_t instruction, uint64_t descriptor)
{
    machine m = desk(ring, instruction);

    m.memory[OTHER] = descriptor;
    return m;
}

static void a_and_memory(void)
{
    machine m;

    m = desk(4, near(LDA, 3));
    m.memory[CODE_AT + 5] = 99;
    sets_a("LDA within its own segment", m, 99);
    m = desk(4, by_pr(LDA, 1, 3));
    m.memory[DATA_AT + 3] = UINT64_MAX;
    sets_a("LDA by a PR", m, UINT64_MAX);
    writes("STA", desk(4, by_pr(STA, 1, 3)), DATA_AT + 3, 0x1122334455667788);
    m = desk(4, by_pr(ADA, 1, 3));
    m.memory[DATA_AT + 3] = 0xffffffffffffffff;
    sets_a("ADA modulo 2^64", m, 0x1122334455667787);
    m = desk(4, by_pr(SBA, 1, 3));
    m.memory[DATA_AT + 3] = 0x1122334455667789;
    sets_a("SBA modulo 2^64", m, 0xffffffffffffffff);
    m = desk(4, by_pr(ANA, 1, 3));
    m.memory[DATA_AT + 3] = 0xffff0000ffff0000;
    sets_a("ANA", m, 0x1122000055660000);
    m = desk(4, by_pr(ORA, 1, 3));
    m.memory[DATA_AT + 3] = 0xffff0000ffff0000;
    sets_a("ORA", m, 0xffff3344ffff7788);
    m = desk(4, by_pr(XRA, 1, 3));
    m.memory[DATA_AT + 3] = 0xffff0000ffff0000;
    sets_a("XRA", m, 0xeedd3344aa997788);
    m = desk(4, by_pr(CNT, 1, 3));
    m.memory[DATA_AT + 3] = 0;
    sets_a("CNT of 0", m, 0);
    m.memory[DATA_AT + 3] = UINT64_MAX;
    sets_a("CNT of all ones", m, 64);
    m.memory[DATA_AT + 3] = 0x8000000100010803;
    sets_a("CNT of a mask", m, 6);
    m = desk(4, by_pr(AOS, 1, 3));
    m.memory[DATA_AT + 3] = 41;
    writes("AOS", m, DATA_AT + 3, 42);
    m.memory[DATA_AT + 3] = UINT64_MAX;
    writes("AOS modulo 2^64", m, DATA_AT + 3, 0);
    sets_a("LDI", desk(4, near(LDI, 0) | lit(0xfedcba98)), 0xfedcba98);
    sets_a("LDI forms no address", desk(4, by_pr(LDI, 5, 77) | I_ON | reg(3) | lit(7)), 7);
}

static void pointers(void)
{
    machine m;

    /* Case 1: 40050000 hex is ring 4, segment 5, word 0. */
    m = desk(4, by_pr(SPP, 1, 3) | reg(6));
    m.registers.prs[6] = pointer_to(4, 5, 0);
    writes("case 1 written", m, DATA_AT + 3, 0x40050000);
    m = desk(4, by_pr(EAP, 1, 3) | reg(6) | I_ON);
    m.memory[DATA_AT + 3] = 0x40050000;
    m.memory[DATA] = descriptor_word(DATA_AT, 16, 0, 4, 4, R | V, 0);
    sets_pr_through("case 1 read", m, 6, pointer_to(4, 5, 0), 1);

    m = desk(3, by_pr(SPP, 1, 0) | reg(7));
    m.registers.prs[7] = pointer_to(7, 4095, 65535);
    writes("SPP of the largest pointer", m, DATA_AT, 0x7fffffff);

    sets_pr("EAP, P off", desk(4, near(EAP, 3) | reg(0)), 0, pointer_to(4, CODE, 5));
    sets_pr("EAP, word numbers go round downward", desk(4, near(EAP, -1) | reg(0)), 0, pointer_to(4, CODE, 1));
    m = desk(4, by_pr(EAP, 3, 5) | reg(3));
    m.registers.prs[3] = pointer_to(6, 4095, 65533);
    sets_pr("EAP of a segment that isn't there, word numbers go round", m, 3, pointer_to(6, 4095, 2));
    sets_pr("EAP of an unreadable target", with_other(4, by_pr(EAP, 2, 1) | reg(2), 0), 2, pointer_to(4, OTHER, 1));

    m = desk(4, by_pr(LDA, 3, 1));
    m.registers.prs[3] = pointer_to(4, DATA, 65535);
    m.memory[DATA_AT] = 12;
    sets_a("word 65,535 and one is word 0", m, 12);
    m = desk(4, near(LDA, -2));
    m.memory[CODE_AT] = 13;
    sets_a("LDA two words back", m, 13);

    /* Bits 32 to 63 of a pointer word are ignored. */
    m = desk(4, by_pr(LDA, 1, 0) | I_ON);
    m.memory[DATA] = descriptor_word(DATA_AT, 16, 4, 7, 7, R | W | V, 0);
    m.memory[DATA_AT] = 0xffffffff00000000 | pointer_word(pointer_to(0, DATA, 9));
    m.memory[DATA_AT + 9] = 5;
    sets_a_through("LDA through a pointer word", m, 5, 1);

    /* The effective ring is the largest of TPR's, the pointer's and R1. */
    m = with_other(2, by_pr(EAP, 2, 1) | reg(0) | I_ON, descriptor_word(OTHER_AT, 16, 3, 5, 5, R | V, 0));
    m.memory[OTHER_AT + 1] = pointer_word(pointer_to(1, 77, 88));
    sets_pr_through("case 10", m, 0, pointer_to(3, 77, 88), 1);
    m.memory[OTHER] = descriptor_word(OTHER_AT, 16, 3, 5, 5, R | W | V, 0);
    sets_pr_through("case 10 with W on", m, 0, pointer_to(3, 77, 88), 1);
    m.memory[OTHER_AT + 1] = pointer_word(pointer_to(6, 77, 88));
    sets_pr_through("the pointer's ring is the largest", m, 0, pointer_to(6, 77, 88), 1);
    m.memory[OTHER_AT + 1] = pointer_word(pointer_to(1, 77, 88));
    m.registers.prs[2].ring = 5;
    sets_pr_through("the PR's ring is the largest", m, 0, pointer_to(5, 77, 88), 1);
    m.registers.prs[2].ring = 2;
    m.memory[OTHER] = descriptor_word(OTHER_AT, 16, 0, 5, 5, R | V, 0);
    sets_pr_through("IPR's ring is the largest", m, 0, pointer_to(2, 77, 88), 1);

    /* The ring that the first pointer word gives is asked at the second. */
    m = with_other(2, by_pr(EAP, 2, 0) | reg(0) | I_ON, descriptor_word(OTHER_AT, 16, 0, 5, 5, R | V, 0));
    m.memory[OTHER_AT] = pointer_word(pointer_to(5, OTHER, 1)) | POINTER_I_ON;
    m.memory[OTHER_AT + 1] = pointer_word(pointer_to(0, 77, 88));
    sets_pr_through("the ring stays raised", m, 0, pointer_to(5, 77, 88), 2);
    m.memory[OTHER_AT] = pointer_word(pointer_to(6, OTHER, 1)) | POINTER_I_ON;
    faults_through("a pointer word above R2", m, 22, pointer_to(6, OTHER, 1), 1);
}

/* `count` pointer words from word 0 of segment 6, the last with I off, to word 3 of segment 5. */
static machine chain(unsigned count)
{
    machine m = with_other(4, by_pr(LDA, 2, 0) | I_ON, descriptor_word(24, 72, 0, 4, 4, R | V, 0));

    for (unsigned k = 0; k < count; k++)
        m.memory[24 + k] = pointer_word(pointer_to(0, OTHER, k + 1)) | POINTER_I_ON;
    m.memory[24 + count - 1] = pointer_word(pointer_to(0, DATA, 71));
    m.memory[DATA] = descriptor_word(24, 72, 7, 7, 7, R | W | V, 0);
    m.memory[24 + 71] = 6;
    return m;
}

static void chains(void)
{
    machine m;

    sets_a_through("case 13: 64 pointer words", chain(64), 6, 64);
    faults_through("case 13: 65 pointer words", chain(65), 31, pointer_to(4, OTHER, 64), 64);

    /* 31 comes before 11 to 15. */
    m = chain(65);
    m.memory[24 + 63] = pointer_word(pointer_to(0, 4095, 65535)) | POINTER_I_ON;
    faults_through("the 65th pointer word in no segment", m, 31, pointer_to(4, 4095, 65535), 64);

    m = with_other(4, by_pr(LDA, 2, 0) | I_ON, descriptor_word(OTHER_AT, 16, 0, 4, 4, R | V, 0));
    m.memory[OTHER_AT] = pointer_word(pointer_to(0, OTHER, 0)) | POINTER_I_ON;
    faults_through("a pointer word that points to itself", m, 31, pointer_to(4, OTHER, 0), 64);
}

/* A desk's step by PR0 whose operand stands at the end of `count` pointer words, of which the last is given. They are by
 * turns in segments 2 and 3, which are the same words; all rings may read them, and no ring is raised. */
static machine by_chain(machine m, unsigned count, uint64_t last)
{
    m.registers.prs[0] = pointer_to(m.registers.ipr.ring, CHAIN, 0);
    m.memory[CHAIN] = descriptor_word(CHAIN_AT, 64, 0, 7, 7, R | V, 0);
    m.memory[CHAIN + 1] = m.memory[CHAIN];
    for (unsigned k = 1; k < count; k++)
        m.memory[CHAIN_AT + k - 1] = pointer_word(pointer_to(0, CHAIN + k % 2, k)) | POINTER_I_ON;
    m.memory[CHAIN_AT + count - 1] = last;
    return m;
}

/* 11 to 15 and 22 at each place: as a pointer word that isn't read, and as the operand after those that are. */
static void broken_chains(void)
{
    static const struct {
        uint32_t number;
        unsigned segment;
        unsigned word;
    } broken[] = {
        {11, 8, 0}, {12, 0, 0}, {13, 1, 0}, {14, 7, 0}, {15, DATA, 16}, {22, OTHER, 0},
    };
    static const unsigned counts[] = {1, 2, 3, 33, 63, 64};
    machine start = with_other(4, by_pr(LDA, 0, 0) | I_ON, descriptor_word(OTHER_AT, 16, 7, 7, 7, W | E | V, 0));
    char name[64];

    start.memory[1] = descriptor_word(OTHER_AT, 16, 5, 4, 4, R | V, 0);
    start.memory[7] = descriptor_word(OTHER_AT, WORDS, 4, 4, 4, R | V, 0);
    for (size_t k = 0; k < sizeof broken / sizeof broken[0]; k++) {
        uint32_t number = broken[k].number;
        kuzhlemor_pointer at = pointer_to(4, broken[k].segment, broken[k].word);
        machine m = start;

        m.registers.prs[0] = at;
        snprintf(name, sizeof name, "%u at the first pointer word", number);
        faults_through(name, m, number, at, 0);
        for (size_t i = 0; i < sizeof counts / sizeof counts[0]; i++) {
            unsigned count = counts[i];

            snprintf(name, sizeof name, "%u at the operand after %u pointer words", number, count);
            faults_through(name, by_chain(start, count, pointer_word(at)), number, at, count);
            snprintf(name, sizeof name, "%u at the next pointer word after %u", number, count);
            m = by_chain(start, count, pointer_word(at) | POINTER_I_ON);
            faults_through(name, m, count == 64 ? 31 : number, at, count);
        }
    }
}

/* An opcode's step in a ring, with a given descriptor for segment 6 and its operand at the end of three pointer words. */
static machine by_three(unsigned ring, uint64_t instruction, uint64_t descriptor, kuzhlemor_pointer target)
{
    return by_chain(with_other(ring, instruction | I_ON, descriptor), 3, pointer_word(target));
}

/* Whatever is asked after the address is formed, the count is the whole chain's. */
static void after_chains(void)
{
    const uint64_t data = descriptor_word(OTHER_AT, 16, 4, 4, 4, R | W | V, 0);
    const uint64_t code = descriptor_word(OTHER_AT, 16, 4, 4, 6, E | V, 2);
    const kuzhlemor_pointer at = pointer_to(4, OTHER, 1);
    machine m;
    machine after;

    m = by_three(4, by_pr(LDA, 0, 0), data, at);
    sets_a_through("LDA after three pointer words", m, m.memory[OTHER_AT + 1], 3);
    sets_a_through("CNT after three pointer words", by_three(4, by_pr(CNT, 0, 0), data, at), 15, 3);
    m = by_three(4, by_pr(STA, 0, 0), data, at);
    writes_through("STA after three pointer words", m, OTHER_AT + 1, m.registers.a, 3);
    m = by_three(4, by_pr(AOS, 0, 0), data, at);
    writes_through("AOS after three pointer words", m, OTHER_AT + 1, m.memory[OTHER_AT + 1] + 1, 3);
    m.memory[OTHER] = descriptor_word(CHAIN_AT, 16, 4, 4, 4, R | W | V, 0);
    writes_through("AOS of a pointer word of its chain", m, CHAIN_AT + 1, m.memory[CHAIN_AT + 1] + 1, 3);
    m = by_three(4, by_pr(SPP, 0, 0) | reg(2), data, at);
    writes_through("SPP after three pointer words", m, OTHER_AT + 1, pointer_word(m.registers.prs[2]), 3);
    sets_pr_through("EAP after three pointer words", by_three(4, by_pr(EAP, 0, 0) | reg(3), 0, at), 3, at, 3);
    m = by_chain(desk(4, by_pr(EAP, 0, 0) | reg(3) | I_ON), 64, pointer_word(pointer_to(7, 4095, 65535)));
    sets_pr_through("EAP after 64 pointer words", m, 3, pointer_to(7, 4095, 65535), 64);
    faults_through("22 after three pointer words", by_three(4, by_pr(AOS, 0, 0), code, at), 22, at, 3);
    m = by_three(4, by_pr(AOS, 0, 0), descriptor_word(OTHER_AT, 16, 3, 4, 4, R | W | V, 0), at);
    faults_through("23 after three pointer words", m, 23, at, 3);
    m.memory[CODE_AT + 2] = by_pr(STA, 0, 0) | I_ON;
    faults_through("STA, 23 after three pointer words", m, 23, at, 3);
    m.memory[CODE_AT + 2] = by_pr(SPP, 0, 0) | I_ON;
    faults_through("SPP, 23 after three pointer words", m, 23, at, 3);

    goes_to_through("TRA after three pointer words", by_three(4, by_pr(TRA, 0, 0), code, at), at, 3);
    m = by_three(4, by_pr(TZE, 0, 0), 0, at);
    goes_to_through("TZE not taken after three pointer words", m, pointer_to(4, CODE, 3), 3);
    m.registers.a = 0;
    faults_through("TZE taken, 12 after three pointer words", m, 12, at, 3);
    m.memory[OTHER] = code;
    goes_to_through("TZE taken after three pointer words", m, at, 3);
    m = by_three(4, by_pr(TMI, 0, 0), 0, at);
    goes_to_through("TMI not taken after three pointer words", m, pointer_to(4, CODE, 3), 3);
    m = by_three(4, by_pr(TRA, 0, 0), code, pointer_to(5, OTHER, 1));
    faults_through("24 after three pointer words", m, 24, pointer_to(5, OTHER, 1), 3);
    faults_through("25 after three pointer words", by_three(4, by_pr(TRA, 0, 0), data, at), 25, at, 3);
    faults_through("RETURN, 25 after three pointer words", by_three(4, by_pr(RETURN, 0, 0), data, at), 25, at, 3);
    goes_to_through("RETURN after three pointer words", by_three(4, by_pr(RETURN, 0, 0), code, at), at, 3);

    m = by_three(5, by_pr(CALL, 0, 0), code, pointer_to(5, OTHER, 1));
    calls_through("CALL after three pointer words", m, at, 3);
    faults_through("26 after three pointer words", by_three(4, by_pr(CALL, 0, 0), data, at), 26, at, 3);
    m = by_three(5, by_pr(CALL, 0, 0), code, pointer_to(5, OTHER, 2));
    faults_through("27 after three pointer words", m, 27, pointer_to(5, OTHER, 2), 3);
    m = by_three(7, by_pr(CALL, 0, 0), code, pointer_to(7, OTHER, 1));
    faults_through("28 after three pointer words", m, 28, pointer_to(7, OTHER, 1), 3);
    m = by_three(3, by_pr(CALL, 0, 0), code, pointer_to(3, OTHER, 1));
    faults_through("29 after three pointer words", m, 29, pointer_to(3, OTHER, 1), 3);
    m = by_three(3, by_pr(CALL, 0, 0), descriptor_word(OTHER_AT, 16, 2, 5, 5, E | V, 2), at);
    faults_through("30 after three pointer words", m, 30, at, 3);

    m = by_three(0, by_pr(LDBR, 0, 0), 0, pointer_to(0, DATA, 3));
    m.memory[DATA_AT + 3] = dbr_word(40, 20);
    after = m;
    after.registers.dbr = (kuzhlemor_dbr){40, 20};
    after.registers.ipr.word++;
    completes_through("LDBR after three pointer words", &m, &after, 3);
    m.memory[DATA_AT + 3] = dbr_word(0, 4097);
    faults_through("34 after three pointer words", m, 34, pointer_to(0, DATA, 3), 3);
}

/* Where no address is formed, the chain that the instruction names isn't read. */
static void unread_chains(void)
{
    machine m;
    machine after;

    m = by_three(4, by_pr(LDI, 0, 0) | lit(9), 0, pointer_to(4, DATA, 0));
    sets_a("LDI reads no pointer word", m, 9);
    m.memory[CODE_AT + 2] = by_pr(0, 0, 0) | I_ON;
    faults("32 reads no pointer word", m, 32, pointer_to(4, CODE, 2));
    m.memory[CODE_AT + 2] = by_pr(LDBR, 0, 0) | I_ON;
    faults("33 reads no pointer word", m, 33, pointer_to(4, CODE, 2));
    m.memory[CODE_AT + 2] = by_pr(LDA, 0, 0) | I_ON;
    m.memory[CODE] = descriptor_word(CODE_AT, 16, 4, 4, 4, R | W | V, 0);
    faults("21 reads no pointer word", m, 21, pointer_to(4, CODE, 2));
    m.memory[CODE] = descriptor_word(CODE_AT, 2, 4, 4, 4, R | E | V, 0);
    faults("a fetch's 15 reads no pointer word", m, 15, pointer_to(4, CODE, 2));
    m.registers.prs[5].ring = 3;
    refuses("a refusal reads no pointer word", m, 3);
    m = by_three(0, by_pr(HLT, 0, 0), 0, pointer_to(0, DATA, 0));
    after = m;
    after.registers.ipr.word++;
    report("HLT reads no pointer word", &m, &after, halted(1, 0));
    m = by_three(4, by_pr(LDA, 0, 0), 0, pointer_to(4, DATA, 0));
    m.memory[CODE_AT + 2] = by_pr(LDA, 0, 0);
    sets_a("with I off a pointer word is an operand", m, m.memory[CHAIN_AT]);
}

static void transfers(void)
{
    machine m;

    goes_to("TRA", desk(4, near(TRA, 5)), pointer_to(4, CODE, 7));
    goes_to("TRA to itself", desk(4, near(TRA, 0)), pointer_to(4, CODE, 2));
    goes_to("TRA to another segment", with_other(4, by_pr(TRA, 2, 3), descriptor_word(48, 16, 3, 5, 5, E | V, 0)),
            pointer_to(4, OTHER, 3));

    m = desk(4, near(TZE, 5));
    goes_to("TZE, A not zero", m, pointer_to(4, CODE, 3));
    m.registers.a = (uint64_t)1 << 32;
    goes_to("TZE, A 2^32", m, pointer_to(4, CODE, 3));
    m.registers.a = 0;
    goes_to("TZE, A zero", m, pointer_to(4, CODE, 7));
    m = desk(4, near(TMI, 5));
    m.registers.a = 0x7fffffffffffffff;
    goes_to("TMI, bit 63 off", m, pointer_to(4, CODE, 3));
    m.registers.a = 0x8000000000000000;
    goes_to("TMI, bit 63 on", m, pointer_to(4, CODE, 7));

    /* Not taken, it asks nothing of the target, but reads the pointer words. */
    goes_to("TZE not taken, no such segment", desk(4, by_pr(TZE, 3, 0)), pointer_to(4, CODE, 3));
    goes_to("TMI not taken, no such segment", desk(4, by_pr(TMI, 3, 0)), pointer_to(4, CODE, 3));
    m = desk(4, by_pr(TZE, 1, 0) | I_ON);
    m.memory[DATA] = descriptor_word(DATA_AT, 16, 4, 4, 4, W | V, 0);
    faults("TZE not taken, unreadable pointer word", m, 22, pointer_to(4, DATA, 0));

    m = with_other(4, by_pr(TRA, 2, 3), descriptor_word(48, 16, 0, 7, 7, E | V, 0));
    m.registers.prs[2].ring = 5;
    faults("24: a transfer in another ring", m, 24, pointer_to(5, OTHER, 3));
    m.memory[OTHER] &= ~((uint64_t)E << 49);
    faults("24 before 25", m, 24, pointer_to(5, OTHER, 3));
    m.memory[OTHER] = 0;
    faults("12 before 24", m, 12, pointer_to(5, OTHER, 3));
    faults("25: E off", with_other(4, by_pr(TRA, 2, 3), descriptor_word(48, 16, 4, 4, 4, R | W | V, 0)), 25,
           pointer_to(4, OTHER, 3));
    faults("25: below the execute bracket",
           with_other(4, by_pr(TRA, 2, 3), descriptor_word(48, 16, 5, 6, 6, E | V, 0)), 25, pointer_to(4, OTHER, 3));
    faults("25: above the execute bracket",
           with_other(4, by_pr(TRA, 2, 3), descriptor_word(48, 16, 0, 3, 6, E | V, 0)), 25, pointer_to(4, OTHER, 3));
    goes_to("lowest ring of the execute bracket",
            with_other(4, by_pr(TRA, 2, 3), descriptor_word(48, 16, 4, 6, 6, E | V, 0)), pointer_to(4, OTHER, 3));
    goes_to("highest ring of the execute bracket",
            with_other(4, by_pr(TRA, 2, 3), descriptor_word(48, 16, 0, 4, 6, E | V, 0)), pointer_to(4, OTHER, 3));
    faults("TRA past the segment's end", desk(4, near(TRA, 14)), 15, pointer_to(4, CODE, 16));
}

/* PR7 after CALL: word 0 of PR6's segment where the ring stays as IPR's was, else of the segment of the new ring's number. */
static void stacks(void)
{
    const uint64_t rings_4_4_6 = descriptor_word(OTHER_AT, 16, 4, 4, 6, E | V, 2);
    machine m = with_other(4, by_pr(CALL, 2, 1), rings_4_4_6);
    machine after;

    m.registers.prs[6] = pointer_to(6, 9, 3);
    after = m;
    after.registers.ipr = pointer_to(4, OTHER, 1);
    after.registers.prs[7] = pointer_to(4, 9, 0);
    completes("CALL within the ring keeps to PR6's stack", &m, &after);
    m.registers.prs[2].ring = after.registers.prs[2].ring = 5;
    completes("the same by a pointer of a higher ring", &m, &after);
    m.registers.prs[6].segment = after.registers.prs[6].segment = after.registers.prs[7].segment = 4095;
    completes("a stack in the last segment", &m, &after);

    m = with_other(5, by_pr(CALL, 2, 1), rings_4_4_6);
    m.registers.prs[6] = pointer_to(6, 9, 3);
    after = m;
    after.registers.ipr = pointer_to(4, OTHER, 1);
    after.registers.prs[7] = pointer_to(4, 4, 0);
    completes("CALL to a lower ring has that ring's stack", &m, &after);
}

static void calls_and_returns(void)
{
    const uint64_t rings_4_4_6 = descriptor_word(OTHER_AT, 16, 4, 4, 6, E | V, 2);
    const uint64_t rings_2_5_5 = descriptor_word(OTHER_AT, 16, 2, 5, 5, E | V, 2);
    machine m;
    machine after;

    calls("case 3", with_other(5, by_pr(CALL, 2, 1), rings_4_4_6), pointer_to(4, OTHER, 1));
    faults("case 4", with_other(5, by_pr(CALL, 2, 2), rings_4_4_6), 27, pointer_to(5, OTHER, 2));
    faults("case 5", with_other(7, by_pr(CALL, 2, 1), rings_4_4_6), 28, pointer_to(7, OTHER, 1));
    faults("case 6", with_other(3, by_pr(CALL, 2, 1), rings_4_4_6), 29, pointer_to(3, OTHER, 1));
    m = with_other(3, by_pr(CALL, 2, 1), rings_2_5_5);
    m.registers.prs[2].ring = 4;
    faults("case 7", m, 30, pointer_to(4, OTHER, 1));

    calls("CALL from R3", with_other(6, by_pr(CALL, 2, 0), rings_4_4_6), pointer_to(4, OTHER, 0));
    calls("CALL within the ring", with_other(4, by_pr(CALL, 2, 0), rings_4_4_6), pointer_to(4, OTHER, 0));
    calls("CALL within the execute bracket keeps the ring", with_other(3, by_pr(CALL, 2, 0), rings_2_5_5),
          pointer_to(3, OTHER, 0));
    m = with_other(3, by_pr(CALL, 2, 0), descriptor_word(OTHER_AT, 16, 1, 2, 6, E | V, 2));
    m.registers.prs[2].ring = 6;
    calls("CALL by a pointer of a higher ring", m, pointer_to(2, OTHER, 0));
    m = with_other(5, by_pr(CALL, 1, 0) | I_ON, rings_4_4_6);
    m.memory[DATA] = descriptor_word(DATA_AT, 16, 0, 5, 5, R | V, 0);
    m.memory[DATA_AT] = pointer_word(pointer_to(6, OTHER, 1));
    calls_through("CALL through a pointer word", m, pointer_to(4, OTHER, 1), 1);

    /* Within its own segment a call needs no gate, but 30 is asked. */
    calls("CALL within the segment, past its gates", desk(4, near(CALL, 5)), pointer_to(4, CODE, 7));
    m = desk(3, by_pr(CALL, 3, 0));
    m.memory[CODE] = descriptor_word(CODE_AT, 16, 2, 5, 5, R | E | V, 0);
    m.registers.prs[3] = pointer_to(4, CODE, 7);
    faults("CALL within the segment, 30", m, 30, pointer_to(4, CODE, 7));
    m = with_other(4, by_pr(CALL, 2, 7), descriptor_word(CODE_AT, 16, 4, 4, 4, R | E | V, 0));
    faults("the same words by another segment, 27", m, 27, pointer_to(4, OTHER, 7));

    faults("26: E off", with_other(5, by_pr(CALL, 2, 1), descriptor_word(48, 16, 4, 4, 6, R | W | V, 2)), 26,
           pointer_to(5, OTHER, 1));
    faults("26 before 27", with_other(5, by_pr(CALL, 2, 9), descriptor_word(48, 16, 4, 4, 6, R | W | V, 2)), 26,
           pointer_to(5, OTHER, 9));
    faults("27 before 28", with_other(7, by_pr(CALL, 2, 9), rings_4_4_6), 27, pointer_to(7, OTHER, 9));
    faults("27 before 29", with_other(3, by_pr(CALL, 2, 9), rings_4_4_6), 27, pointer_to(3, OTHER, 9));
    faults("CALL of word 16 of 16", with_other(5, by_pr(CALL, 2, 16), rings_4_4_6), 15, pointer_to(5, OTHER, 16));
    m = with_other(5, by_pr(CALL, 2, 15), descriptor_word(OTHER_AT, 16, 4, 4, 6, E | V, 2047));
    calls("more gates than words", m, pointer_to(4, OTHER, 15));
    m.memory[OTHER] = descriptor_word(OTHER_AT, 16, 4, 4, 6, E | V, 1024);
    calls("1,024 gates", m, pointer_to(4, OTHER, 15));

    /* Case 11: from ring 1 to ring 4, PR rings 2 and 6 become 4 and 6. */
    m = with_other(1, by_pr(RETURN, 2, 3), descriptor_word(OTHER_AT, 16, 4, 4, 4, E | V, 0));
    m.registers.prs[2].ring = 4;
    m.registers.prs[3].ring = 2;
    m.registers.prs[4].ring = 6;
    after = m;
    after.registers.ipr = pointer_to(4, OTHER, 3);
    for (int k = 0; k < 8; k++)
        after.registers.prs[k].ring = k == 4 ? 6 : 4;
    completes("case 11", &m, &after);
    goes_to("RETURN within the ring", with_other(4, by_pr(RETURN, 2, 3), descriptor_word(48, 16, 4, 4, 4, E | V, 0)),
            pointer_to(4, OTHER, 3));
    faults("RETURN, E off", with_other(4, by_pr(RETURN, 2, 3), descriptor_word(48, 16, 4, 4, 4, R | V, 0)), 25,
           pointer_to(4, OTHER, 3));
    faults("RETURN can't go down", with_other(4, by_pr(RETURN, 2, 3), descriptor_word(48, 16, 1, 3, 7, E | V, 9)), 25,
           pointer_to(4, OTHER, 3));
    faults("RETURN below R1", with_other(4, by_pr(RETURN, 2, 3), descriptor_word(48, 16, 5, 6, 7, E | V, 9)), 25,
           pointer_to(4, OTHER, 3));
}

static void brackets(void)
{
    machine m;

    m = with_other(4, by_pr(STA, 2, 1), descriptor_word(OTHER_AT, 16, 4, 4, 4, W | V, 0));
    writes("case 8: ring 4 writes", m, OTHER_AT + 1, m.registers.a);
    m.registers.prs[2].ring = 5;
    faults("case 8: ring 5", m, 23, pointer_to(5, OTHER, 1));
    faults("23: W off", with_other(4, by_pr(STA, 2, 1), descriptor_word(48, 16, 7, 7, 7, R | E | V, 0)), 23,
           pointer_to(4, OTHER, 1));
    m = with_other(5, by_pr(LDA, 2, 1), descriptor_word(OTHER_AT, 16, 0, 5, 5, R | V, 0));
    sets_a("case 9: ring 5 reads", m, m.memory[OTHER_AT + 1]);
    m.registers.prs[2].ring = 6;
    faults("case 9: ring 6", m, 22, pointer_to(6, OTHER, 1));
    faults("22: R off", with_other(4, by_pr(LDA, 2, 1), descriptor_word(48, 16, 7, 7, 7, W | E | V, 0)), 22,
           pointer_to(4, OTHER, 1));
    faults("22: executable isn't readable", with_other(4, by_pr(LDA, 2, 1), descriptor_word(48, 16, 4, 4, 4, E | V, 0)),
           22, pointer_to(4, OTHER, 1));

    faults("SPP, W off", with_other(4, by_pr(SPP, 2, 1), descriptor_word(48, 16, 7, 7, 7, R | V, 0)), 23,
           pointer_to(4, OTHER, 1));
    faults("AOS, W off", with_other(4, by_pr(AOS, 2, 1), descriptor_word(48, 16, 7, 7, 7, R | V, 0)), 23,
           pointer_to(4, OTHER, 1));
    faults("AOS, above R1", with_other(4, by_pr(AOS, 2, 1), descriptor_word(48, 16, 3, 7, 7, R | W | V, 0)), 23,
           pointer_to(4, OTHER, 1));
    faults("AOS, R off", with_other(4, by_pr(AOS, 2, 1), descriptor_word(48, 16, 7, 7, 7, W | V, 0)), 22,
           pointer_to(4, OTHER, 1));
    faults("AOS, 22 before 23", with_other(4, by_pr(AOS, 2, 1), descriptor_word(48, 16, 3, 3, 3, R | W | V, 0)), 22,
           pointer_to(4, OTHER, 1));
    m = with_other(4, by_pr(AOS, 2, 1), descriptor_word(OTHER_AT, 16, 4, 4, 4, R | W | V, 0));
    writes("AOS at the top of both brackets", m, OTHER_AT + 1, m.memory[OTHER_AT + 1] + 1);

    /* An argument is checked in its own ring, not IPR's. */
    m = with_other(1, by_pr(STA, 2, 0), descriptor_word(OTHER_AT, 16, 1, 1, 1, R | W | V, 0));
    writes("ring 1 writes its own", m, OTHER_AT, m.registers.a);
    m.registers.prs[2].ring = 4;
    faults("ring 1 writes for ring 4", m, 23, pointer_to(4, OTHER, 0));

    m = desk(4, near(LDI, 0));
    m.memory[CODE] = descriptor_word(CODE_AT, 16, 4, 4, 4, R | W | V, 0);
    faults("21: E off", m, 21, pointer_to(4, CODE, 2));
    m.memory[CODE] = descriptor_word(CODE_AT, 16, 5, 6, 7, R | E | V, 0);
    faults("21: below the execute bracket", m, 21, pointer_to(4, CODE, 2));
    m.memory[CODE] = descriptor_word(CODE_AT, 16, 0, 3, 7, R | E | V, 9);
    faults("21: above the execute bracket", m, 21, pointer_to(4, CODE, 2));
    m.memory[CODE] = descriptor_word(CODE_AT, 16, 0, 4, 7, E | V, 0);
    sets_a("fetch in R2", m, 0);
    m.memory[CODE] = descriptor_word(CODE_AT, 16, 4, 7, 7, E | V, 0);
    sets_a("fetch in R1, R off", m, 0);
}

/* 11 to 15, at the fetch (segment 4, word 2) and at an operand (segment 6, word 5). */
static void segments(void)
{
    machine m;

    m = desk(4, near(LDI, 0));
    m.registers.ipr.segment = 8;
    faults("fetch, 11", m, 11, pointer_to(4, 8, 2));
    m.registers.ipr.segment = 4095;
    faults("fetch, 11, the last segment", m, 11, pointer_to(4, 4095, 2));
    m = desk(4, near(LDI, 0));
    m.registers.dbr.length = 4;
    faults("fetch, 11, a short descriptor segment", m, 11, pointer_to(4, CODE, 2));
    m.registers.dbr.length = 5;
    sets_a("fetch, the last descriptor", m, 0);
    m.registers.dbr = (kuzhlemor_dbr){WORDS, 0};
    faults("fetch, no descriptors", m, 11, pointer_to(4, CODE, 2));
    m = desk(4, near(LDI, 0));
    m.memory[CODE] = descriptor_word(CODE_AT, 16, 4, 4, 4, R | W | E, 0);
    faults("fetch, 12", m, 12, pointer_to(4, CODE, 2));
    m.memory[CODE] = descriptor_word(CODE_AT, 16, 5, 4, 4, R | E | V, 0);
    faults("fetch, 13, R1 above R2", m, 13, pointer_to(4, CODE, 2));
    m.memory[CODE] = descriptor_word(CODE_AT, 16, 4, 4, 3, R | E | V, 0);
    faults("fetch, 13, R2 above R3", m, 13, pointer_to(4, CODE, 2));
    m.memory[CODE] = descriptor_word(CODE_AT, WORDS - CODE_AT, 4, 4, 4, R | E | V, 0);
    sets_a("fetch, a segment up to the end of memory", m, 0);
    m.memory[CODE] = descriptor_word(CODE_AT, WORDS - CODE_AT + 1, 4, 4, 4, R | E | V, 0);
    faults("fetch, 14", m, 14, pointer_to(4, CODE, 2));
    m.memory[CODE] = descriptor_word(16777215, 65535, 4, 4, 4, R | E | V, 0);
    faults("fetch, 14, the largest", m, 14, pointer_to(4, CODE, 2));
    m.memory[CODE] = descriptor_word(CODE_AT, 3, 4, 4, 4, R | E | V, 0);
    sets_a("fetch, the last word", m, 0);
    m.memory[CODE] = descriptor_word(CODE_AT, 2, 4, 4, 4, R | E | V, 0);
    faults("fetch, 15", m, 15, pointer_to(4, CODE, 2));
    m.registers.ipr.word = 65535;
    faults("fetch, 15, word 65,535", m, 15, pointer_to(4, CODE, 65535));

    m = with_other(4, by_pr(LDA, 2, 0), descriptor_word(OTHER_AT, 0, 7, 7, 7, R | W | V, 0));
    faults("case 2", m, 15, pointer_to(4, OTHER, 0));
    m.memory[OTHER] = descriptor_word(WORDS, 0, 7, 7, 7, R | W | V, 0);
    faults("no words at the end of memory, 15", m, 15, pointer_to(4, OTHER, 0));
    m.memory[OTHER] = descriptor_word(WORDS + 1, 0, 7, 7, 7, R | W | V, 0);
    faults("no words past the end of memory, 14", m, 14, pointer_to(4, OTHER, 0));

    m = desk(4, by_pr(LDA, 3, 5));
    m.registers.prs[3] = pointer_to(4, 8, 0);
    faults("operand, 11", m, 11, pointer_to(4, 8, 5));
    m = with_other(4, by_pr(LDA, 2, 5), descriptor_word(OTHER_AT, 16, 7, 7, 7, R, 0));
    faults("operand, 12", m, 12, pointer_to(4, OTHER, 5));
    m.memory[OTHER] = descriptor_word(OTHER_AT, 16, 7, 6, 7, R | V, 0);
    faults("operand, 13", m, 13, pointer_to(4, OTHER, 5));
    m.memory[OTHER] = descriptor_word(OTHER_AT, WORDS - OTHER_AT + 1, 7, 7, 7, R | V, 0);
    faults("operand, 14", m, 14, pointer_to(4, OTHER, 5));
    m.memory[OTHER] = descriptor_word(OTHER_AT, 5, 7, 7, 7, R | V, 0);
    faults("operand, 15", m, 15, pointer_to(4, OTHER, 5));
    m.memory[OTHER] = descriptor_word(OTHER_AT, 6, 7, 7, 7, R | V, 0);
    sets_a("operand, the last word", m, m.memory[OTHER_AT + 5]);

    /* With every later answer no as well. */
    m.memory[OTHER] = descriptor_word(16777215, 3, 7, 6, 5, 0, 0);
    faults("12 before 13", m, 12, pointer_to(4, OTHER, 5));
    m.memory[OTHER] = descriptor_word(16777215, 3, 7, 6, 5, V, 0);
    faults("13 before 14", m, 13, pointer_to(4, OTHER, 5));
    m.memory[OTHER] = descriptor_word(16777215, 3, 3, 3, 3, V, 0);
    faults("14 before 15", m, 14, pointer_to(4, OTHER, 5));
    m.memory[OTHER] = descriptor_word(OTHER_AT, 3, 3, 3, 3, V, 0);
    faults("15 before 22", m, 15, pointer_to(4, OTHER, 5));
    m.memory[OTHER] = descriptor_word(OTHER_AT, 6, 3, 3, 3, V, 0);
    faults("then 22", m, 22, pointer_to(4, OTHER, 5));

    /* 11 to 15 at a pointer word. */
    m = with_other(4, by_pr(EAP, 2, 5) | I_ON, descriptor_word(OTHER_AT, 16, 0, 7, 7, R, 0));
    faults("pointer word, 12", m, 12, pointer_to(4, OTHER, 5));
    m.memory[OTHER] = descriptor_word(OTHER_AT, 5, 0, 7, 7, R | V, 0);
    faults("pointer word, 15", m, 15, pointer_to(4, OTHER, 5));
    m.memory[OTHER] = descriptor_word(OTHER_AT, 6, 0, 7, 7, W | E | V, 0);
    faults("pointer word, 22", m, 22, pointer_to(4, OTHER, 5));
}

/* Segments that overlap each other, the program and the descriptor segment. */
static void overlaps(void)
{
    machine m;

    m = with_other(4, by_pr(STA, 2, 4), descriptor_word(DATA_AT - 2, 16, 4, 4, 4, W | V, 0));
    writes("STA into the words of another segment", m, DATA_AT + 2, m.registers.a);
    m = with_other(4, by_pr(STA, 2, 2), descriptor_word(CODE_AT, 16, 4, 4, 4, W | V, 0));
    writes("STA over its own instruction", m, CODE_AT + 2, m.registers.a);
    m = with_other(4, by_pr(STA, 2, CODE), descriptor_word(0, 16, 4, 4, 4, W | V, 0));
    writes("STA over the program's descriptor", m, CODE, m.registers.a);
    m = with_other(4, by_pr(AOS, 2, OTHER), descriptor_word(0, 16, 4, 4, 4, R | W | V, 0));
    writes("AOS of its target's descriptor", m, OTHER, m.memory[OTHER] + 1);
    m = with_other(4, by_pr(LDA, 2, OTHER), descriptor_word(0, 16, 4, 4, 4, R | V, 0));
    sets_a("LDA of its target's descriptor", m, m.memory[OTHER]);
    m = with_other(4, by_pr(SPP, 2, 1) | reg(2), descriptor_word(DATA_AT, 16, 4, 4, 4, W | V, 0));
    writes("SPP into the words of another segment", m, DATA_AT + 1, pointer_word(pointer_to(4, OTHER, 0)));
}

static void opcodes(void)
{
    static const unsigned unknown[] = {0, 11, 15, 18, 23, 27, 31, 34, 39, 43, 44, 65, 129, 138, 169, 255};
    machine m;
    machine after;
    char name[64];

    for (size_t k = 0; k < sizeof unknown / sizeof unknown[0]; k++) {
        snprintf(name, sizeof name, "opcode %u in ring 4", unknown[k]);
        faults(name, desk(4, (uint64_t)unknown[k] << 24), 32, pointer_to(4, CODE, 2));
        snprintf(name, sizeof name, "opcode %u in ring 0", unknown[k]);
        faults(name, desk(0, (uint64_t)unknown[k] << 24 | I_ON), 32, pointer_to(0, CODE, 2));
    }
    m = desk(4, 0);
    m.memory[CODE] = descriptor_word(CODE_AT, 16, 4, 4, 4, R | V, 0);
    faults("21 before 32", m, 21, pointer_to(4, CODE, 2));

    m = desk(0, near(HLT, 0));
    after = m;
    after.registers.ipr.word++;
    report("HLT", &m, &after, halted(1, 0));
    m = desk(0, by_pr(HLT, 5, 9) | I_ON | reg(3) | lit(8));
    after = m;
    after.registers.ipr.word++;
    report("HLT forms no address", &m, &after, halted(1, 0));
    faults("HLT in ring 1", desk(1, near(HLT, 0)), 33, pointer_to(1, CODE, 2));
    faults("HLT in ring 7", desk(7, near(HLT, 0)), 33, pointer_to(7, CODE, 2));
    faults("LDBR in ring 1", desk(1, by_pr(LDBR, 1, 0)), 33, pointer_to(1, CODE, 2));
    faults("33 before the address is formed", desk(1, by_pr(LDBR, 3, 0) | I_ON), 33, pointer_to(1, CODE, 2));
    faults("RCU in ring 1", desk(1, by_pr(RCU, 1, 0)), 33, pointer_to(1, CODE, 2));
    faults("RCU in ring 7, before the address is formed", desk(7, by_pr(RCU, 3, 0) | I_ON), 33, pointer_to(7, CODE, 2));
}

/* LDBR of a word, in ring 0. */
static machine load_dbr(uint64_t word)
{
    machine m = desk(0, by_pr(LDBR, 1, 3));

    m.memory[DATA_AT + 3] = word;
    return m;
}

static void loads_dbr(const char *name, uint64_t word, uint32_t address, uint16_t length)
{
    machine m = load_dbr(word);
    machine after = m;

    after.registers.dbr = (kuzhlemor_dbr){address, length};
    after.registers.ipr.word++;
    completes(name, &m, &after);
}

static void descriptor_base(void)
{
    machine m;

    loads_dbr("LDBR", dbr_word(40, 20), 40, 20);
    loads_dbr("LDBR, bits 37 to 63 ignored", dbr_word(40, 20) | 0xffffffe000000000, 40, 20);
    loads_dbr("LDBR up to the end of memory", dbr_word(40, WORDS - 40), 40, WORDS - 40);
    loads_dbr("LDBR of no words at the end of memory", dbr_word(WORDS, 0), WORDS, 0);
    faults("34: one past the end of memory", load_dbr(dbr_word(40, WORDS - 39)), 34, pointer_to(0, DATA, 3));
    faults("34: no words past the end of memory", load_dbr(dbr_word(WORDS + 1, 0)), 34, pointer_to(0, DATA, 3));
    faults("34: length 4,097", load_dbr(dbr_word(0, 4097)), 34, pointer_to(0, DATA, 3));
    faults("34: the largest", load_dbr(UINT64_MAX), 34, pointer_to(0, DATA, 3));
    m = load_dbr(UINT64_MAX);
    m.memory[DATA] = descriptor_word(DATA_AT, 16, 0, 0, 0, W | V, 0);
    faults("22 before 34", m, 22, pointer_to(0, DATA, 3));
    m = load_dbr(dbr_word(40, 20));
    m.registers.prs[1].ring = 5;
    m.memory[DATA] = descriptor_word(DATA_AT, 16, 0, 4, 4, R | V, 0);
    faults("LDBR reads in TPR's ring", m, 22, pointer_to(5, DATA, 3));
}

/* A frame whose words are all different, for the desk of ring 0. Its first two words and the bits that belong to no field are
 * full. */
static void put_frame(machine *m, size_t address)
{
    const uint64_t unused = 0xffffffff80000000;
    uint64_t *frame = &m->memory[address];

    frame[0] = UINT64_MAX;
    frame[1] = UINT64_MAX;
    frame[2] = 0x8877665544332211;
    frame[3] = dbr_word(40, 20) | 0xffffffe000000000;
    frame[4] = pointer_word(pointer_to(3, 77, 65535)) | unused;
    for (unsigned k = 0; k < 8; k++)
        frame[5 + k] = pointer_word(pointer_to(3 + k % 5, 4095 - k, 100 + k)) | unused;
}

/* Opcode 42 of a frame at this word of segment 5. */
static machine restore(int word)
{
    machine m = desk(0, by_pr(RCU, 1, word));

    put_frame(&m, (size_t)(DATA_AT + word));
    return m;
}

/* Completes with that frame's registers; IPR isn't advanced. */
static void takes_up(const char *name, machine before, unsigned pointer_words)
{
    machine after = before;
    kuzhlemor_registers *r = &after.registers;

    r->a = 0x8877665544332211;
    r->dbr = (kuzhlemor_dbr){40, 20};
    r->ipr = pointer_to(3, 77, 65535);
    for (unsigned k = 0; k < 8; k++)
        r->prs[k] = pointer_to(3 + k % 5, 4095 - k, 100 + k);
    completes_through(name, &before, &after, pointer_words);
}

static void taken_frames(void)
{
    machine m;

    takes_up("RCU", restore(0), 0);
    takes_up("RCU of the segment's last thirteen words", restore(3), 0);
    m = restore(0);
    m.memory[DATA] = descriptor_word(DATA_AT, 13, 0, 0, 0, R | V, 0);
    takes_up("RCU, a segment of thirteen words, W off", m, 0);
    m.registers.prs[1].ring = 5;
    m.memory[DATA] = descriptor_word(DATA_AT, 16, 0, 5, 5, R | V, 0);
    takes_up("RCU by a pointer of an outer ring", m, 0);
    m = by_three(0, by_pr(RCU, 0, 0), 0, pointer_to(0, DATA, 1));
    put_frame(&m, DATA_AT + 1);
    takes_up("RCU after three pointer words", m, 3);
    m = with_other(0, by_pr(RCU, 2, 0), descriptor_word(CODE_AT + 2, 13, 7, 7, 7, R | V, 0));
    put_frame(&m, CODE_AT + 2);
    m.memory[CODE_AT + 2] = by_pr(RCU, 2, 0);
    takes_up("RCU in its own frame", m, 0);
}

/* 15 is asked of all thirteen words, then 22. */
static void cut_frames(void)
{
    machine m;

    for (unsigned word = 4; word <= 16; word++) {
        m = desk(0, by_pr(RCU, 1, (int)word));
        faults("RCU past the segment's end", m, 15, pointer_to(0, DATA, word));
    }
    m = restore(0);
    m.registers.prs[1].word = 65535;
    faults("RCU at word 65,535: it doesn't go round", m, 15, pointer_to(0, DATA, 65535));
    m = restore(0);
    m.memory[DATA] = descriptor_word(DATA_AT, 12, 7, 7, 7, R | W | V, 0);
    faults("RCU, a segment of twelve words", m, 15, pointer_to(0, DATA, 0));
    m.memory[DATA] = descriptor_word(DATA_AT, 12, 7, 7, 7, W | V, 0);
    faults("RCU, 15 before 22", m, 15, pointer_to(0, DATA, 0));
    m.memory[DATA] = descriptor_word(DATA_AT, 13, 7, 7, 7, W | E | V, 0);
    faults("RCU, 22: R off", m, 22, pointer_to(0, DATA, 0));
    m.memory[DATA] = descriptor_word(DATA_AT, 16, 0, 4, 4, R | V, 0);
    m.registers.prs[1].ring = 5;
    faults("RCU, 22: TPR's ring above R2", m, 22, pointer_to(5, DATA, 0));

    m = with_other(0, by_pr(RCU, 2, 1), 0);
    faults("RCU, 12", m, 12, pointer_to(0, OTHER, 1));
    m.memory[OTHER] = descriptor_word(OTHER_AT, 16, 5, 4, 4, R | V, 0);
    faults("RCU, 13", m, 13, pointer_to(0, OTHER, 1));
    m.memory[OTHER] = descriptor_word(OTHER_AT, WORDS, 4, 4, 4, R | V, 0);
    faults("RCU, 14", m, 14, pointer_to(0, OTHER, 1));
    m.registers.prs[2].segment = 8;
    faults("RCU, 11", m, 11, pointer_to(0, 8, 1));
}

/* 34, then 52. */
static void wrong_frames(void)
{
    machine m;
    char name[64];

    m = restore(2);
    m.memory[DATA_AT + 2 + 3] = dbr_word(40, WORDS - 39);
    faults("RCU, 34: one past the end of memory", m, 34, pointer_to(0, DATA, 2));
    m.memory[DATA_AT + 2 + 3] = dbr_word(0, 4097);
    faults("RCU, 34: length 4,097", m, 34, pointer_to(0, DATA, 2));
    m.memory[DATA_AT + 2 + 5] = 0;
    faults("RCU, 34 before 52", m, 34, pointer_to(0, DATA, 2));
    m.memory[DATA] = descriptor_word(DATA_AT, 16, 7, 7, 7, W | V, 0);
    faults("RCU, 22 before 34", m, 22, pointer_to(0, DATA, 2));
    for (unsigned k = 0; k < 8; k++) {
        m = restore(2);
        m.memory[DATA_AT + 2 + 5 + k] = pointer_word(pointer_to(2, 0, 0));
        snprintf(name, sizeof name, "RCU, 52: PR%u below IPR", k);
        faults(name, m, 52, pointer_to(0, DATA, 2));
    }
    m = by_three(0, by_pr(RCU, 0, 0), 0, pointer_to(0, DATA, 0));
    put_frame(&m, DATA_AT);
    m.memory[DATA_AT + 4] = pointer_word(pointer_to(4, 77, 88));
    faults_through("52 after three pointer words", m, 52, pointer_to(0, DATA, 0), 3);
    m.memory[DATA_AT + 3] = dbr_word(WORDS, 1);
    faults_through("RCU, 34 after three pointer words", m, 34, pointer_to(0, DATA, 0), 3);
    m = by_chain(desk(0, by_pr(RCU, 0, 0) | I_ON), 2, pointer_word(pointer_to(0, DATA, 4)));
    faults_through("RCU, 15 after two pointer words", m, 15, pointer_to(0, DATA, 4), 2);
}

/* A store by ring 3 above the write bracket, worked out word by word. */
static void frame_by_hand(void)
{
    static const uint64_t frame[] = {
        23, 0x30060001, 0x1122334455667788, 0x8000000, 0x30040002, 0x33e807d0, 0x30050000,
        0x30060000, 0x33eb07d3, 0x33ec07d4, 0x33ed07d5, 0x33ee07d6, 0x33ef07d7,
    };
    machine m = with_other(3, by_pr(STA, 2, 1), descriptor_word(OTHER_AT, 16, 2, 2, 2, R | W | V, 0));
    machine after;

    m = switched_on(m, DATA, 258);
    after = m;
    for (int k = 0; k < 13; k++)
        after.memory[32 + k] = frame[k];
    after.registers.ipr = pointer_to(0, 258, 0);
    report("a frame by hand", &m, &after, spent(1, 0));
}

/* An opcode in no table, with segment 6 as the save segment. */
static machine save_in(uint64_t descriptor)
{
    return switched_on(with_other(7, 0, descriptor), OTHER, 0);
}

static void delivers(const char *name, uint64_t descriptor, size_t address)
{
    delivers_through(name, save_in(descriptor), address, 32, pointer_to(7, CODE, 2), 0);
}

static void keeps_fault(const char *name, machine before)
{
    report(name, &before, &before, fault(32, 0, pointer_to(7, CODE, 2), 0));
}

/* Each no of the save segment, with the value at its edge. */
static void save_segments(void)
{
    const uint64_t good = descriptor_word(OTHER_AT, 16, 0, 0, 0, W | V, 0);
    machine m;

    delivers("ring 7 to a segment of ring 0", good, OTHER_AT);
    m = save_in(good);
    m.registers.fault_switch = 0;
    keeps_fault("the switch off", m);

    m = save_in(0);
    m.memory[7] = good;
    delivers_through("the last descriptor", switched_on(m, 7, 9), OTHER_AT, 32, pointer_to(7, CODE, 2), 0);
    m.memory[8] = good;
    keeps_fault("save segment, 11", switched_on(m, 8, 9));
    keeps_fault("save segment, 11, the last segment", switched_on(m, 4095, 9));
    keeps_fault("save segment, 12", save_in(good & ~((uint64_t)V << 49)));
    keeps_fault("save segment, 13, R1 above R2", save_in(descriptor_word(OTHER_AT, 16, 1, 0, 0, R | W | V, 0)));
    keeps_fault("save segment, 13, R2 above R3", save_in(descriptor_word(OTHER_AT, 16, 0, 1, 0, R | W | V, 0)));
    keeps_fault("save segment, 14", save_in(descriptor_word(WORDS - 13, 14, 0, 0, 0, R | W | V, 0)));
    keeps_fault("save segment, 14, the largest", save_in(descriptor_word(16777215, 65535, 0, 0, 0, R | W | V, 0)));
    delivers("up to the end of memory", descriptor_word(WORDS - 13, 13, 0, 0, 0, R | W | V, 0), WORDS - 13);
    keeps_fault("save segment, twelve words", save_in(descriptor_word(OTHER_AT, 12, 0, 0, 0, R | W | V, 0)));
    keeps_fault("save segment, no words", save_in(descriptor_word(OTHER_AT, 0, 0, 0, 0, R | W | V, 0)));
    delivers("a longer segment", descriptor_word(8, WORDS - 8, 0, 3, 6, R | W | E | V, 2047), 8);
    keeps_fault("save segment, W off", save_in(descriptor_word(OTHER_AT, 16, 7, 7, 7, R | E | V, 0)));

    m = save_in(good);
    m.registers.dbr.length = 5;
    keeps_fault("save segment, 11 by a short descriptor segment", m);
    m = save_in(good);
    for (int k = 0; k < 8; k++)
        m.memory[64 + k] = m.memory[k];
    m.registers.dbr = (kuzhlemor_dbr){64, 7};
    m.memory[OTHER] = 0;
    delivers_through("descriptors elsewhere", m, OTHER_AT, 32, pointer_to(7, CODE, 2), 0);
}

/* The frame may lie over descriptors, the program and what was just read. */
static void frames_over_words(void)
{
    machine m;

    delivers("a frame over the descriptors", descriptor_word(0, 16, 0, 0, 0, W | V, 0), 0);
    delivers("a frame over the program", descriptor_word(CODE_AT - 2, 14, 0, 0, 0, W | V, 0), CODE_AT - 2);
    m = by_three(4, by_pr(LDA, 0, 0), descriptor_word(CHAIN_AT - 1, 13, 0, 0, 0, W | V, 0), pointer_to(4, 8, 9));
    delivers_through("a frame over the chain", switched_on(m, OTHER, 4095), CHAIN_AT - 1, 11, pointer_to(4, 8, 9), 3);
    m = desk(0, by_pr(RCU, 1, 0));
    m.memory[DATA_AT + 3] = dbr_word(0, 4097);
    delivers_through("a frame over a frame", switched_on(m, DATA, DATA), DATA_AT, 34, pointer_to(0, DATA, 0), 0);
    m = desk(7, near(HLT, 0));
    for (unsigned k = 0; k < 8; k++)
        m.registers.prs[k] = pointer_to(7, 4095, 65535);
    delivers_through("the largest pointers", switched_on(m, DATA, 0), DATA_AT, 33, pointer_to(7, CODE, 2), 0);
}

/* 2 of the switch and both segments. */
static void wide_fields(void)
{
    static const uint16_t wide[] = {4096, 8191, 65535};
    static const uint16_t on[] = {2, 3, 256, 65535};
    const machine start = switched_on(desk(4, near(LDI, 0)), 4095, 4095);
    machine m;
    machine after = start;

    after.registers.a = 0;
    after.registers.ipr.word++;
    report("switch 1, segments 4,095", &start, &after, spent(1, 0));
    for (int k = 0; k < 4; k++) {
        m = start;
        m.registers.fault_switch = on[k];
        report("a switch above 1", &m, &m, refused(2));
        m.memory[CODE_AT + 2] = 0;
        m.registers.save_segment = DATA;
        report("a switch above 1 at a fault", &m, &m, refused(2));
    }
    for (int k = 0; k < 3; k++) {
        for (uint16_t fault_switch = 0; fault_switch <= 1; fault_switch++) {
            m = start;
            m.registers.fault_switch = fault_switch;
            m.registers.save_segment = wide[k];
            report("a wide save segment", &m, &m, refused(2));
            m = start;
            m.registers.fault_switch = fault_switch;
            m.registers.handler_segment = wide[k];
            report("a wide handler segment", &m, &m, refused(2));
        }
    }
    m.registers.prs[0].ring = 3;
    report("2 before 3, by the handler segment", &m, &m, refused(2));
}

static void refusals(void)
{
    machine m;
    char name[64];

    m = desk(4, near(LDI, 0));
    m.registers.ipr.ring = 8;
    refuses("IPR ring 8", m, 2);
    m = desk(4, near(LDI, 0));
    m.registers.ipr.segment = 4096;
    refuses("IPR segment 4,096", m, 2);
    m.registers.ipr.segment = 65535;
    refuses("IPR segment 65,535", m, 2);
    for (int k = 0; k < 8; k++) {
        m = desk(4, near(LDI, 0));
        m.registers.prs[k].ring = 8;
        snprintf(name, sizeof name, "PR%d ring 8", k);
        refuses(name, m, 2);
        m.registers.prs[k].ring = 255;
        snprintf(name, sizeof name, "PR%d ring 255", k);
        refuses(name, m, 2);
        m.registers.prs[k].ring = 7;
        snprintf(name, sizeof name, "PR%d ring 7", k);
        sets_a(name, m, 0);
        m.registers.prs[k].ring = 3;
        snprintf(name, sizeof name, "PR%d ring below IPR's", k);
        refuses(name, m, 3);
        m = desk(4, near(LDI, 0));
        m.registers.prs[k].segment = 4096;
        snprintf(name, sizeof name, "PR%d segment 4,096", k);
        refuses(name, m, 2);
        m.registers.prs[k].segment = 4095;
        snprintf(name, sizeof name, "PR%d segment 4,095", k);
        sets_a(name, m, 0);
    }
    m = desk(4, near(LDI, 0));
    m.registers.dbr.address = 16777216;
    refuses("DBR address 2^24", m, 2);
    m.registers.dbr.address = UINT32_MAX;
    refuses("DBR address 2^32 - 1", m, 2);
    m.registers.dbr.address = 16777215;
    refuses("DBR address 2^24 - 1", m, 4);
    m.registers.dbr = (kuzhlemor_dbr){0, 4097};
    refuses("DBR length 4,097", m, 4);
    m.registers.dbr = (kuzhlemor_dbr){0, 65535};
    refuses("DBR length 65,535", m, 4);
    m.registers.dbr = (kuzhlemor_dbr){0, WORDS + 1};
    refuses("DBR one past the end of memory", m, 4);
    m.registers.dbr = (kuzhlemor_dbr){WORDS + 1, 0};
    refuses("an empty DBR past the end of memory", m, 4);
    m.registers.dbr = (kuzhlemor_dbr){0, WORDS};
    sets_a("DBR up to the end of memory", m, 0);

    /* The first no gives the number. */
    m = desk(4, near(LDI, 0));
    m.registers.prs[0].ring = 3;
    m.registers.dbr.length = 4097;
    refuses("3 before 4", m, 3);
    m.registers.prs[7].segment = 4096;
    refuses("2 before 3", m, 2);
    m = desk(4, near(LDI, 0));
    m.registers.dbr = (kuzhlemor_dbr){16777216, 4097};
    refuses("2 before 4", m, 2);

    /* No words at all. */
    m = empty_machine(0);
    m.registers.prs[4] = pointer_to(3, 9, 9);
    faults("an empty memory", m, 11, pointer_to(0, 0, 0));
    m.registers.ipr = pointer_to(3, 4095, 65535);
    refuses("an empty memory, 3", m, 3);
    for (int k = 0; k < 8; k++)
        m.registers.prs[k].ring = 7;
    faults("an empty memory, high IPR", m, 11, pointer_to(3, 4095, 65535));
    m.registers.dbr = (kuzhlemor_dbr){0, 1};
    refuses("an empty memory, DBR length 1", m, 4);
    m.registers.dbr = (kuzhlemor_dbr){1, 0};
    refuses("an empty memory, DBR address 1", m, 4);
}

machine case_12(void)
{
    machine m = empty_machine(64);

    m.registers.dbr = (kuzhlemor_dbr){0, 6};
    m.registers.ipr = pointer_to(4, 4, 0);
    for (int k = 0; k < 8; k++)
        m.registers.prs[k].ring = 4;
    m.registers.prs[2] = pointer_to(4, 5, 0);
    m.registers.prs[3] = pointer_to(4, 3, 0);
    m.memory[3] = descriptor_word(32, 4, 1, 1, 1, R | W | V, 0);
    m.memory[4] = descriptor_word(16, 8, 4, 4, 4, R | E | V, 0);
    m.memory[5] = descriptor_word(24, 8, 1, 1, 5, R | E | V, 1);
    m.memory[16] = near(LDI, 0) | lit(7);
    m.memory[17] = by_pr(CALL, 2, 0);
    m.memory[24] = by_pr(STA, 3, 0);
    return m;
}

static void case_12_by_steps(void)
{
    machine m = case_12();
    machine next = m;

    next.registers.a = 7;
    next.registers.ipr = pointer_to(4, 4, 1);
    completes("case 12, step 1", &m, &next);
    m = next;
    next.registers.ipr = pointer_to(1, 5, 0);
    next.registers.prs[7] = pointer_to(1, 1, 0);
    completes("case 12, step 2", &m, &next);
    faults("case 12, the fault", next, 23, pointer_to(4, 3, 0));
}

void each_case(expectation *expect)
{
    report = expect;
    a_and_memory();
    pointers();
    chains();
    broken_chains();
    after_chains();
    unread_chains();
    transfers();
    stacks();
    calls_and_returns();
    brackets();
    segments();
    overlaps();
    opcodes();
    descriptor_base();
    taken_frames();
    cut_frames();
    wrong_frames();
    frame_by_hand();
    save_segments();
    frames_over_words();
    wide_fields();
    refusals();
    case_12_by_steps();
    for (int number = 0; number <= 52; number++)
        if (is_fault_number(number))
            check(delivered_numbers[number], "no case delivers fault %d", number);
}
