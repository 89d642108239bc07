/* Checks and their messages, and the random machines. */
#include "machine.h"

#include <inttypes.h>
#include <stdarg.h>
#include <stdio.h>
#include <stdlib.h>
#include <string.h>

enum {
    OPCODES = 20
};

static const enum opcode opcodes[OPCODES] = {
    LDA, STA, ADA, SBA, ANA, ORA, XRA, CNT, AOS, LDI, EAP, SPP, TRA, TZE, TMI, CALL, RETURN, LDBR, HLT, RCU,
};

unsigned long checks;

void check(bool ok, const char *format, ...)
{
    va_list arguments;

    checks++;
    if (ok)
        return;
    va_start(arguments, format);
    fputs("failed: ", stderr);
    vfprintf(stderr, format, arguments);
    fputs("\n", stderr);
    va_end(arguments);
    exit(1);
}

machine empty_machine(size_t words)
{
    machine m = {.words = words};

    for (unsigned k = 0; k < GUARDS; k++) {
        m.guards_before[k] = 0xa5a5a5a5a5a50000 + k;
        m.guards_between[k] = 0x5a5a5a5a5a5a0000 + k;
    }
    for (size_t k = words; k < CAPACITY + GUARDS; k++)
        m.memory[k] = 0x3c3c3c3c3c3c0000 + k;
    return m;
}

bool same_machine(const machine *x, const machine *y)
{
    return same_registers(&x->registers, &y->registers) && x->words == y->words &&
           memcmp(x->memory, y->memory, sizeof x->memory) == 0 &&
           memcmp(x->guards_before, y->guards_before, sizeof x->guards_before) == 0 &&
           memcmp(x->guards_between, y->guards_between, sizeof x->guards_between) == 0;
}

kuzhlemor_reply refused(uint32_t number)
{
    return (kuzhlemor_reply){.kind = 0, .number = number};
}

kuzhlemor_reply spent(uint32_t count, uint64_t pointer_words)
{
    return (kuzhlemor_reply){.kind = 1, .count = count, .pointer_words = pointer_words};
}

kuzhlemor_reply halted(uint32_t count, uint64_t pointer_words)
{
    return (kuzhlemor_reply){.kind = 2, .count = count, .pointer_words = pointer_words};
}

kuzhlemor_reply fault(uint32_t number, uint32_t count, kuzhlemor_pointer pointer, uint64_t pointer_words)
{
    return (kuzhlemor_reply){3, number, count, pointer, pointer_words};
}

static void print_pointer(kuzhlemor_pointer p)
{
    fprintf(stderr, " %u|%u|%u", p.ring, p.segment, p.word);
}

static void print_end(const char *label, const machine *m, kuzhlemor_reply reply)
{
    fprintf(stderr, "%s: kind %" PRIu32 ", number %" PRIu32 ", count %" PRIu32 ", at", label, reply.kind, reply.number,
            reply.count);
    print_pointer(reply.pointer);
    fprintf(stderr, ", %" PRIu64 " pointer words", reply.pointer_words);
    fprintf(stderr, "; A %016" PRIx64 ", DBR %" PRIu32 "+%u, IPR", m->registers.a, m->registers.dbr.address,
            m->registers.dbr.length);
    print_pointer(m->registers.ipr);
    fputs(", PRs", stderr);
    for (int k = 0; k < 8; k++)
        print_pointer(m->registers.prs[k]);
    fprintf(stderr, ", switch %u, save %u, handler %u\n", m->registers.fault_switch, m->registers.save_segment,
            m->registers.handler_segment);
}

void check_end(const char *who, const char *name, const machine *got, kuzhlemor_reply got_reply, const machine *wanted,
               kuzhlemor_reply wanted_reply)
{
    bool ok = same_reply(got_reply, wanted_reply) && same_machine(got, wanted);

    if (!ok) {
        print_end("wanted", wanted, wanted_reply);
        print_end("got   ", got, got_reply);
        for (size_t k = 0; k < CAPACITY + GUARDS; k++)
            if (got->memory[k] != wanted->memory[k])
                fprintf(stderr, "word %zu of %zu: wanted %016" PRIx64 ", got %016" PRIx64 "\n", k, got->words,
                        wanted->memory[k], got->memory[k]);
    }
    check(ok, "%s: %s", who, name);
}

/* plain_run, or plain_step where it is a `single` step. */
static kuzhlemor_reply call_plain(machine *m, bool single, uint32_t budget)
{
    size_t bytes = m->words * sizeof m->memory[0];
    uint64_t *block = malloc(bytes + sizeof m->memory[0]);
    uint64_t *memory;
    kuzhlemor_reply reply;

    if (block == NULL) {
        fputs("no memory\n", stderr);
        exit(1);
    }
    /* The block's last words are lent: what is past them is past the block. */
    memory = block + 1;
    memcpy(memory, m->memory, bytes);
    reply = single ? plain_step(&m->registers, memory, m->words) : plain_run(&m->registers, memory, m->words, budget);
    memcpy(m->memory, memory, bytes);
    free(block);
    return reply;
}

kuzhlemor_reply run_plain(machine *m, uint32_t budget)
{
    return call_plain(m, false, budget);
}

kuzhlemor_reply step_plain(machine *m)
{
    return call_plain(m, true, 1);
}

/* Pseudo-random numbers by the splitmix64 recurrence, from a fixed seed. */
uint64_t random_word(void)
{
    static uint64_t state = 1971;
    uint64_t z;

    state += 0x9e3779b97f4a7c15;
    z = state;
    z = (z ^ z >> 30) * 0xbf58476d1ce4e5b9;
    z = (z ^ z >> 27) * 0x94d049bb133111eb;
    return z ^ z >> 31;
}

uint32_t random_below(uint32_t bound)
{
    return (uint32_t)((random_word() >> 32) * bound >> 32);
}

bool one_in(uint32_t n)
{
    return random_below(n) == 0;
}

static unsigned smaller_of(unsigned x, unsigned y)
{
    return x < y ? x : y;
}

static unsigned larger_of(unsigned x, unsigned y)
{
    return x > y ? x : y;
}

/* How a random machine is made: instructions from `code_at`, data from `data_at` to the end of memory. Segments of even
 * number are code, odd ones data. One choice in `odd` is unlikely to work; a pointer word has I off one time in
 * `chain`. PR `frame` mostly points to the save segment's first word, where opcode 42 mostly reads.
 *
 * Random numbers are never drawn in an order that C leaves open, so that every compiler makes the same machines. */
typedef struct {
    uint32_t odd;
    uint32_t chain;
    unsigned words;
    unsigned segments;
    unsigned code_at;
    unsigned data_at;
    unsigned ring;
    unsigned save;
    unsigned handler;
    unsigned frame;
    bool delivers;
} plan;

/* Small and forward, small and back, or rarely any. */
static unsigned random_offset(const plan *p)
{
    if (one_in(p->odd))
        return random_below(65536);
    return one_in(16) ? 65535 - random_below(12) : random_below(8);
}

static unsigned random_segment(const plan *p, bool code)
{
    if (one_in(p->odd) || p->segments < 2)
        return random_below(4096);
    return code ? random_below((p->segments + 1) / 2) * 2 : random_below(p->segments / 2) * 2 + 1;
}

static unsigned random_flags(const plan *p, bool code)
{
    unsigned flags = code ? V | E : V;

    if (one_in(p->odd))
        return random_below(16);
    if (!one_in(8))
        flags |= R;
    if (one_in(code ? 6 : 2))
        flags |= W;
    if (one_in(4))
        flags |= E;
    return flags;
}

static uint64_t random_descriptor(const plan *p, bool code)
{
    unsigned start = code ? p->code_at : p->data_at;
    unsigned end = code ? p->data_at : p->words;
    unsigned address = smaller_of(start + random_below(6), end);
    unsigned length = one_in(8) ? random_below(end - address + 1) : end - address;
    unsigned r1 = one_in(2) ? random_below(p->ring + 1) : p->ring;
    unsigned r2 = p->ring + random_below(8 - p->ring);
    unsigned r3 = random_below(8);
    unsigned gate = one_in(3) ? random_below(2048) : random_below(24);
    unsigned flags = random_flags(p, code);

    if (one_in(8)) {
        address = 0;
        length = p->words;
    }
    if (one_in(code ? 6 : 2)) {
        r1 = random_below(8);
        r2 = random_below(8);
    }
    if (!one_in(p->odd)) {
        unsigned low = smaller_of(r1, r2);

        r2 = larger_of(r1, r2);
        r1 = low;
        r3 = larger_of(r2, r3);
    }
    if (one_in(p->odd))
        length = one_in(2) ? length + 1 : random_below(65536);
    if (one_in(p->odd))
        address = random_below(16777216);
    return descriptor_word(address, (uint16_t)length, r1, r2, r3, flags, gate);
}

static uint64_t random_pointer_word(const plan *p)
{
    unsigned ring = one_in(6) ? random_below(8) : random_below(p->ring + 1);
    bool code = one_in(4);
    unsigned segment = random_segment(p, code);
    uint64_t word = pointer_word(pointer_to(ring, segment, random_below(code ? 24 : 12)));

    if (!one_in(p->chain))
        word |= POINTER_I_ON;
    if (one_in(2))
        word |= random_word() << 32;
    return word;
}

static uint64_t random_instruction(const plan *p)
{
    unsigned opcode = opcodes[random_below(OPCODES)];
    bool moves = opcode >= TRA && opcode <= RETURN;
    /* PR0 and PR1 start in code. */
    unsigned pr = random_below(moves ? 3 : 8);
    bool has_pr = !one_in(moves ? 2 : 8);
    int offset = (int)random_offset(p);
    uint64_t word = has_pr ? by_pr(opcode, pr, offset) : near(opcode, offset);

    if (opcode == RCU && !one_in(4))
        word = by_pr(RCU, p->frame, one_in(8) ? offset : 0);
    /* A handler that goes on after the instruction that faulted. */
    if (opcode == AOS && p->delivers && one_in(2))
        word = by_pr(AOS, p->frame, FRAME_IPR);
    /* Handlers have ring 0. */
    if (p->ring > 0 && opcode >= LDBR && !one_in(p->delivers ? 3 : p->odd))
        word = near(LDI, offset);
    if (one_in(has_pr ? 4 : p->odd))
        word |= I_ON;
    if (one_in(p->odd))
        word ^= (uint64_t)random_below(65536) << 16;
    word |= reg(random_below(8));
    if (!one_in(3))
        word |= lit((uint32_t)random_word());
    return word;
}

static uint64_t random_data(const plan *p)
{
    uint64_t word;

    switch (random_below(16)) {
    case 0:
        return random_word();
    case 1:
        return random_below(16);
    case 2:
        return UINT64_MAX - random_below(2);
    case 3:
        word = random_below(p->words + 2);
        word |= dbr_word(0, random_below(12));
        return word | random_word() << 37;
    default:
        return random_pointer_word(p);
    }
}

/* Mostly, the save segment can be written and the handler can be executed in ring 0. */
static void fit_segments(machine *m, const plan *p)
{
    uint64_t *descriptors = &m->memory[m->registers.dbr.address];

    if (p->save < p->segments && !one_in(4))
        descriptors[p->save] |= (uint64_t)(W | V) << 49;
    if (p->handler < p->segments && !one_in(4)) {
        descriptors[p->handler] |= (uint64_t)(E | V) << 49;
        descriptors[p->handler] &= ~((uint64_t)7 << 40);
    }
}

/* A frame where the save segment's words start, if that is among the data: mostly one that can be taken up. */
static void put_frame(machine *m, const plan *p)
{
    uint64_t *descriptors = &m->memory[m->registers.dbr.address];
    unsigned start = p->save < p->segments ? descriptors[p->save] & 0xffffff : 0;
    unsigned ring = one_in(4) ? random_below(8) : p->ring;
    uint64_t *frame;

    if (start < p->data_at || start + FRAME > p->words)
        return;
    frame = &m->memory[start];
    if (!one_in(4))
        frame[FRAME_DBR] = dbr_word(m->registers.dbr.address, m->registers.dbr.length) | random_word() << 37;
    for (unsigned k = FRAME_IPR; k < FRAME; k++) {
        bool code = k == FRAME_IPR || one_in(4);
        unsigned high = one_in(40) ? random_below(8) : k == FRAME_IPR ? ring : larger_of(ring, random_below(8));
        unsigned segment = k == FRAME_PRS + p->frame ? p->save : random_segment(p, code);
        uint64_t ignored = random_word() << 31;

        frame[k] = pointer_word(pointer_to(high, segment, random_below(12))) | ignored;
    }
}

/* Makes one of 2 to 4 be answered no, or two of them. */
static void spoil(machine *m)
{
    kuzhlemor_registers *r = &m->registers;
    kuzhlemor_pointer *any = one_in(4) ? &r->ipr : &r->prs[random_below(8)];
    uint16_t *segment = one_in(2) ? &r->save_segment : &r->handler_segment;

    switch (random_below(8)) {
    case 0:
        any->ring = (uint8_t)(one_in(2) ? 8 : 8 + random_below(248));
        break;
    case 1:
        any->segment = (uint16_t)(one_in(2) ? 4096 : 4096 + random_below(61440));
        break;
    case 2:
        r->dbr.address = one_in(2) ? 16777216 : UINT32_MAX - random_below(4096);
        break;
    case 3:
        if (r->ipr.ring > 0)
            any->ring = (uint8_t)(r->ipr.ring - 1);
        break;
    case 4:
        r->dbr.length = (uint16_t)(one_in(2) ? 4097 : 4097 + random_below(61439));
        break;
    case 5:
        r->fault_switch = (uint16_t)(one_in(2) ? 2 : 2 + random_below(65534));
        break;
    case 6:
        *segment = (uint16_t)(one_in(2) ? 4096 : 4096 + random_below(61440));
        break;
    default:
        r->dbr.address = (uint32_t)(m->words - r->dbr.length + 1 + random_below(3));
        break;
    }
    if (one_in(3))
        spoil(m);
}

machine random_machine(void)
{
    static const uint32_t odds[] = {12, 50, 200, 5000};
    unsigned words = one_in(30) ? random_below(12) : 48 + random_below(CAPACITY - 47);
    unsigned segments = one_in(30) ? random_below(words + 1) : smaller_of(words, 2 + random_below(8));
    machine m = empty_machine(words);
    kuzhlemor_registers *r = &m.registers;
    plan p = {
        .words = words,
        .segments = segments,
        .code_at = segments,
        .data_at = segments + (words - segments) * 5 / 8,
    };

    p.odd = odds[random_below(4)];
    p.chain = one_in(6) ? 60 : 2;
    p.ring = one_in(3) ? 0 : random_below(8);
    p.delivers = one_in(2);
    p.save = random_segment(&p, false);
    p.handler = random_segment(&p, true);
    p.frame = 2 + random_below(6);

    r->a = one_in(3) ? 0 : one_in(2) ? random_word() : random_below(100);
    r->dbr.address = one_in(8) ? random_below(words - segments + 1) : 0;
    r->dbr.length = (uint16_t)segments;
    r->ipr.ring = (uint8_t)p.ring;
    r->ipr.segment = (uint16_t)random_segment(&p, true);
    r->ipr.word = (uint16_t)random_below(12);
    for (int k = 0; k < 8; k++) {
        r->prs[k].ring = (uint8_t)(one_in(4) ? p.ring + random_below(8 - p.ring) : p.ring);
        r->prs[k].segment = (uint16_t)random_segment(&p, k < 2);
        r->prs[k].word = (uint16_t)(one_in(8) ? random_offset(&p) : random_below(6));
    }
    if (!one_in(4)) {
        r->prs[p.frame].segment = (uint16_t)p.save;
        r->prs[p.frame].word = 0;
    }
    r->fault_switch = p.delivers;
    r->save_segment = (uint16_t)p.save;
    r->handler_segment = (uint16_t)p.handler;
    for (unsigned k = 0; k < words; k++)
        m.memory[k] = k < p.data_at ? random_instruction(&p) : random_data(&p);
    for (unsigned k = 0; k < segments; k++)
        m.memory[r->dbr.address + k] = random_descriptor(&p, k % 2 == 0);
    fit_segments(&m, &p);
    if (one_in(2))
        put_frame(&m, &p);
    if (one_in(25))
        spoil(&m);
    return m;
}

/* The opcode at IPR of a machine whose fetch passes. */
static unsigned opcode_at_ipr(const machine *m)
{
    const kuzhlemor_registers *r = &m->registers;
    uint64_t descriptor = m->memory[r->dbr.address + r->ipr.segment];
    uint64_t instruction = m->memory[(descriptor & 0xffffff) + r->ipr.word];

    return instruction >> 24 & 0xff;
}

/* The number of the fault that the next step meets, delivered or not; 0 if it meets none. */
static uint32_t fault_met(const machine *before)
{
    machine m = *before;
    kuzhlemor_reply reply;

    m.registers.fault_switch = 0;
    reply = step_plain(&m);
    return reply.kind == KUZHLEMOR_FAULT ? reply.number : 0;
}

/* What keeps a fault from being delivered: 11 to 14 of the save segment, 15 for too few words, 23 for W off; else 0. */
static unsigned save_segment_no(const machine *m)
{
    const kuzhlemor_registers *r = &m->registers;
    uint64_t d = r->save_segment < r->dbr.length ? m->memory[r->dbr.address + r->save_segment] : 0;
    unsigned length = d >> 24 & 0xffff;

    if (r->save_segment >= r->dbr.length)
        return 11;
    if ((d >> 49 & V) == 0)
        return 12;
    if ((d >> 40 & 7) > (d >> 43 & 7) || (d >> 43 & 7) > (d >> 46 & 7))
        return 13;
    if ((d & 0xffffff) + length > m->words)
        return 14;
    if (length < 13)
        return 15;
    return (d >> 49 & W) == 0 ? 23 : 0;
}

static void count_fault(tally *t, const machine *before, kuzhlemor_reply reply)
{
    t->faults[reply.number]++;
    t->faults_through[reply.pointer_words]++;
    if (before->registers.fault_switch != 0) {
        unsigned no = save_segment_no(before);

        check(no != 0, "fault %" PRIu32 " wasn't delivered", reply.number);
        t->undelivered[no]++;
    }
}

static void count_completed(tally *t, const machine *before, kuzhlemor_reply reply)
{
    uint32_t number = fault_met(before);

    t->completed_through[reply.pointer_words]++;
    if (number == 0) {
        t->completed[opcode_at_ipr(before)]++;
        return;
    }
    check(before->registers.fault_switch != 0 && save_segment_no(before) == 0, "fault %" PRIu32 " was delivered", number);
    t->delivered[number]++;
}

void count_step(tally *t, const machine *before, kuzhlemor_reply reply)
{
    check(reply.pointer_words <= 64, "a step of %" PRIu64 " pointer words", reply.pointer_words);
    switch (reply.kind) {
    case KUZHLEMOR_REFUSED:
        t->refused[reply.number]++;
        break;
    case KUZHLEMOR_FAULT:
        count_fault(t, before, reply);
        break;
    default:
        count_completed(t, before, reply);
        break;
    }
}

bool is_fault_number(int number)
{
    return (number >= 11 && number <= 15) || (number >= 21 && number <= 34) || number == 52;
}

void check_tally(const tally *t)
{
    for (size_t k = 0; k < OPCODES; k++)
        check(t->completed[opcodes[k]] > 0, "no random machine completed opcode %d", (int)opcodes[k]);
    for (int number = 2; number <= 4; number++)
        check(t->refused[number] > 0, "no random machine was refused by %d", number);
    for (int number = 11; number <= 52; number++)
        if (is_fault_number(number)) {
            check(t->faults[number] > 0, "no random machine gave fault %d", number);
            check(t->delivered[number] > 0, "no random machine delivered fault %d", number);
        }
    for (int no = 11; no <= 23; no++)
        if (no <= 15 || no == 23)
            check(t->undelivered[no] > 0, "no random machine kept a fault by %d of its save segment", no);
    for (int length = 0; length <= 4; length++) {
        check(t->completed_through[length] > 0, "no random machine completed a step of %d pointer words", length);
        check(t->faults_through[length] > 0, "no random machine faulted after %d pointer words", length);
    }
}
