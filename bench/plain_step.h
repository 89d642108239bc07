/* The machine of document 01, which counts the pointer words it reads and delivers faults as 02 asks, in ordinary C, written
 * from these papers alone. Nothing here is proved. Each file that includes it has one place that makes steps, so that the
 * compiler merges the whole step into that place; what is COLD stays out of it. */
#ifndef PLAIN_STEP_H
#define PLAIN_STEP_H

#include "plain_start.h"
#include "words.h"

#define COLD __attribute__((cold, noinline))

/* How a step ended; any other number is that of a fault. */
enum {
    COMPLETED = 0,
    HALTED = 1
};

/* What an opcode asks for, beside its own questions. */
enum {
    KNOWN = 1,
    OPERAND = 2,
    PRIVILEGED = 4,
    READ = 8,
    WRITE = 16
};

static const uint8_t opcodes[256] = {
    [LDA] = KNOWN | OPERAND | READ,
    [STA] = KNOWN | OPERAND | WRITE,
    [ADA] = KNOWN | OPERAND | READ,
    [SBA] = KNOWN | OPERAND | READ,
    [ANA] = KNOWN | OPERAND | READ,
    [ORA] = KNOWN | OPERAND | READ,
    [XRA] = KNOWN | OPERAND | READ,
    [CNT] = KNOWN | OPERAND | READ,
    [AOS] = KNOWN | OPERAND | READ | WRITE,
    [LDI] = KNOWN,
    [EAP] = KNOWN | OPERAND,
    [SPP] = KNOWN | OPERAND | WRITE,
    [TRA] = KNOWN | OPERAND,
    [TZE] = KNOWN | OPERAND,
    [TMI] = KNOWN | OPERAND,
    [CALL] = KNOWN | OPERAND,
    [RETURN] = KNOWN | OPERAND,
    [LDBR] = KNOWN | OPERAND | PRIVILEGED | READ,
    [HLT] = KNOWN | PRIVILEGED,
    /* It asks 22 itself, after 15 of its other words. */
    [RCU] = KNOWN | OPERAND | PRIVILEGED,
};

static inline uint32_t field(uint64_t word, unsigned place, unsigned width)
{
    return (uint32_t)(word >> place & (((uint64_t)1 << width) - 1));
}

static inline bool bit(uint64_t word, unsigned place)
{
    return field(word, place, 1) != 0;
}

/* The fields of a descriptor. */
static inline uint32_t address(uint64_t d) { return field(d, 0, 24); }
static inline uint32_t length(uint64_t d) { return field(d, 24, 16); }
static inline uint32_t r1(uint64_t d) { return field(d, 40, 3); }
static inline uint32_t r2(uint64_t d) { return field(d, 43, 3); }
static inline uint32_t r3(uint64_t d) { return field(d, 46, 3); }
static inline uint32_t gate(uint64_t d) { return field(d, 53, 11); }

static inline uint32_t larger(uint32_t x, uint32_t y)
{
    return x > y ? x : y;
}

static inline uint32_t smaller(uint32_t x, uint32_t y)
{
    return x < y ? x : y;
}

static uint64_t count_of_ones(uint64_t word)
{
    uint64_t count = 0;

    for (; word != 0; word &= word - 1)
        count++;
    return count;
}

/* 11 to 14: a segment's descriptor. */
static inline int find_segment(const kuzhlemor_registers *r, const uint64_t *memory, size_t words, uint16_t segment,
                               uint64_t *descriptor)
{
    uint64_t d;

    if (segment >= r->dbr.length)
        return 11;
    d = memory[r->dbr.address + segment];
    if (!bit(d, 52))
        return 12;
    if (r1(d) > r2(d) || r2(d) > r3(d))
        return 13;
    if (address(d) + length(d) > words)
        return 14;
    *descriptor = d;
    return 0;
}

/* 11 to 15: the descriptor of a segment that is used. */
static inline int find(const kuzhlemor_registers *r, const uint64_t *memory, size_t words, kuzhlemor_pointer p,
                       uint64_t *descriptor)
{
    int number = find_segment(r, memory, words, p.segment, descriptor);

    if (number != 0)
        return number;
    return p.word < length(*descriptor) ? 0 : 15;
}

static inline bool may_read(uint64_t d, uint32_t ring)
{
    return bit(d, 49) && ring <= r2(d);
}

static inline bool may_write(uint64_t d, uint32_t ring)
{
    return bit(d, 50) && ring <= r1(d);
}

static inline bool may_execute(uint64_t d, uint32_t ring)
{
    return bit(d, 51) && r1(d) <= ring && ring <= r2(d);
}

/* TPR: the address with its effective ring, through pointer words while I is on; and how many of these were read. */
static int form_address(const kuzhlemor_registers *r, const uint64_t *memory, size_t words, uint64_t instruction,
                        kuzhlemor_pointer *at, uint32_t *pointer_words)
{
    kuzhlemor_pointer tpr = r->ipr;
    bool indirect = bit(instruction, 20);
    uint32_t count = 0;
    int number = 0;

    if (bit(instruction, 19)) {
        tpr = r->prs[field(instruction, 16, 3)];
        tpr.ring = (uint8_t)larger(tpr.ring, r->ipr.ring);
    }
    tpr.word = (uint16_t)(tpr.word + field(instruction, 0, 16));

    for (; indirect; count++) {
        uint64_t d;
        uint64_t word;

        if (count == MOST_POINTER_WORDS) {
            number = 31;
            break;
        }
        number = find(r, memory, words, tpr, &d);
        if (number != 0)
            break;
        if (!may_read(d, tpr.ring)) {
            number = 22;
            break;
        }
        word = memory[address(d) + tpr.word];
        tpr.ring = (uint8_t)larger(larger(tpr.ring, field(word, 28, 3)), r1(d));
        tpr.segment = (uint16_t)field(word, 16, 12);
        tpr.word = (uint16_t)field(word, 0, 16);
        indirect = bit(word, 31);
    }
    *at = tpr;
    *pointer_words = count;
    return number;
}

/* 24 and 25. */
static int transfer(kuzhlemor_registers *r, uint64_t d, kuzhlemor_pointer tpr)
{
    if (tpr.ring != r->ipr.ring)
        return 24;
    if (!may_execute(d, tpr.ring))
        return 25;
    r->ipr = tpr;
    return COMPLETED;
}

/* 26 to 30, for a CALL at IPR: the new ring, or the number of the first no. */
static inline int check_call(const kuzhlemor_registers *r, uint64_t d, kuzhlemor_pointer tpr, uint8_t *new_ring)
{
    uint8_t ring = (uint8_t)smaller(tpr.ring, r2(d));

    if (!bit(d, 51))
        return 26;
    if (tpr.segment != r->ipr.segment && tpr.word >= gate(d))
        return 27;
    if (tpr.ring > r3(d))
        return 28;
    if (tpr.ring < r1(d))
        return 29;
    if (ring > r->ipr.ring)
        return 30;
    *new_ring = ring;
    return 0;
}

/* CALL: its check, and the move by its ring. The stack stays PR6's where the ring stays. */
static int call(kuzhlemor_registers *r, uint64_t d, kuzhlemor_pointer tpr)
{
    uint8_t ring;
    int number = check_call(r, d, tpr, &ring);

    if (number != 0)
        return number;
    r->prs[7] = (kuzhlemor_pointer){ring, ring == r->ipr.ring ? r->prs[6].segment : ring, 0};
    r->ipr = (kuzhlemor_pointer){ring, tpr.segment, tpr.word};
    return COMPLETED;
}

/* 25. */
static int return_to(kuzhlemor_registers *r, uint64_t d, kuzhlemor_pointer tpr)
{
    if (!may_execute(d, tpr.ring))
        return 25;
    r->ipr = tpr;
    for (int k = 0; k < 8; k++)
        r->prs[k].ring = (uint8_t)larger(r->prs[k].ring, tpr.ring);
    return COMPLETED;
}

/* 34: what a word says of DBR. */
static inline int dbr_from(uint64_t word, size_t words, kuzhlemor_dbr *dbr)
{
    uint32_t base = field(word, 0, 24);
    uint32_t bound = field(word, 24, 13);

    if (bound > MOST_DESCRIPTORS || base + bound > words)
        return 34;
    *dbr = (kuzhlemor_dbr){base, (uint16_t)bound};
    return 0;
}

static int load_dbr(kuzhlemor_registers *r, size_t words, uint64_t word)
{
    int number = dbr_from(word, words, &r->dbr);

    if (number != 0)
        return number;
    r->ipr.word++;
    return COMPLETED;
}

/* The pointer of a word, whatever its I. */
static kuzhlemor_pointer pointer_from(uint64_t word)
{
    return pointer_to(field(word, 28, 3), field(word, 16, 12), field(word, 0, 16));
}

/* 15 of a whole frame, 22, 34 and 52; then its registers are taken up. The switch and both segments stay. */
COLD static int take_up(kuzhlemor_registers *r, size_t words, uint64_t d, kuzhlemor_pointer tpr, const uint64_t *frame)
{
    kuzhlemor_registers taken = *r;

    if ((uint32_t)tpr.word + FRAME > length(d))
        return 15;
    if (!may_read(d, tpr.ring))
        return 22;
    if (dbr_from(frame[FRAME_DBR], words, &taken.dbr) != 0)
        return 34;
    taken.a = frame[FRAME_A];
    taken.ipr = pointer_from(frame[FRAME_IPR]);
    for (int k = 0; k < 8; k++) {
        taken.prs[k] = pointer_from(frame[FRAME_PRS + k]);
        if (taken.prs[k].ring < taken.ipr.ring)
            return 52;
    }
    *r = taken;
    return COMPLETED;
}

/* Performs an instruction at its effective address; a fault comes before anything is changed. */
static int perform(kuzhlemor_registers *r, uint64_t *memory, size_t words, uint64_t instruction, kuzhlemor_pointer tpr)
{
    uint32_t opcode = field(instruction, 24, 8);
    uint32_t reg = field(instruction, 21, 3);
    uint64_t d;
    uint64_t *target;
    int number;

    /* Where no segment is used. */
    switch (opcode) {
    case LDI:
        r->a = field(instruction, 32, 32);
        r->ipr.word++;
        return COMPLETED;
    case EAP:
        r->prs[reg] = tpr;
        r->ipr.word++;
        return COMPLETED;
    case HLT:
        r->ipr.word++;
        return HALTED;
    case TZE:
        if (r->a == 0)
            break;
        r->ipr.word++;
        return COMPLETED;
    case TMI:
        if (bit(r->a, 63))
            break;
        r->ipr.word++;
        return COMPLETED;
    default:
        break;
    }

    number = find(r, memory, words, tpr, &d);
    if (number != 0)
        return number;
    if ((opcodes[opcode] & READ) != 0 && !may_read(d, tpr.ring))
        return 22;
    if ((opcodes[opcode] & WRITE) != 0 && !may_write(d, tpr.ring))
        return 23;
    target = &memory[address(d) + tpr.word];

    switch (opcode) {
    case LDA:
        r->a = *target;
        break;
    case STA:
        *target = r->a;
        break;
    case ADA:
        r->a += *target;
        break;
    case SBA:
        r->a -= *target;
        break;
    case ANA:
        r->a &= *target;
        break;
    case ORA:
        r->a |= *target;
        break;
    case XRA:
        r->a ^= *target;
        break;
    case CNT:
        r->a = count_of_ones(*target);
        break;
    case AOS:
        *target += 1;
        break;
    case SPP:
        *target = pointer_word(r->prs[reg]);
        break;
    case TRA:
    case TZE:
    case TMI:
        return transfer(r, d, tpr);
    case CALL:
        return call(r, d, tpr);
    case RETURN:
        return return_to(r, d, tpr);
    case LDBR:
        return load_dbr(r, words, *target);
    case RCU:
        return take_up(r, words, d, tpr, target);
    default:
        break;
    }
    r->ipr.word++;
    return COMPLETED;
}

/* One step; `at` becomes the address and ring under question. The pointer words are those that it read, faulting or not. */
static int step(kuzhlemor_registers *r, uint64_t *memory, size_t words, kuzhlemor_pointer *at, uint32_t *pointer_words)
{
    uint64_t d;
    uint64_t instruction;
    uint8_t kind;
    int number;

    *at = r->ipr;
    *pointer_words = 0;
    number = find(r, memory, words, r->ipr, &d);
    if (number != 0)
        return number;
    if (!may_execute(d, r->ipr.ring))
        return 21;
    instruction = memory[address(d) + r->ipr.word];
    kind = opcodes[field(instruction, 24, 8)];
    if ((kind & KNOWN) == 0)
        return 32;
    if ((kind & PRIVILEGED) != 0 && r->ipr.ring != 0)
        return 33;
    if ((kind & OPERAND) != 0) {
        number = form_address(r, memory, words, instruction, at, pointer_words);
        if (number != 0)
            return number;
    }
    return perform(r, memory, words, instruction, *at);
}

/* Writes a fault's frame and goes to the handler, if the switch is on and the save segment will do: 11 to 14, no less than a
 * frame's length, W on. Else nothing changes, and the answer is no. */
COLD static bool deliver(kuzhlemor_registers *r, uint64_t *memory, size_t words, int number, kuzhlemor_pointer at)
{
    uint64_t d;
    uint64_t *frame;

    if (r->fault_switch == 0 || find_segment(r, memory, words, r->save_segment, &d) != 0)
        return false;
    if (length(d) < FRAME || !bit(d, 50))
        return false;
    frame = &memory[address(d)];
    frame[FRAME_NUMBER] = (uint64_t)number;
    frame[FRAME_ADDRESS] = pointer_word(at);
    frame[FRAME_A] = r->a;
    frame[FRAME_DBR] = dbr_word(r->dbr.address, r->dbr.length);
    frame[FRAME_IPR] = pointer_word(r->ipr);
    for (int k = 0; k < 8; k++)
        frame[FRAME_PRS + k] = pointer_word(r->prs[k]);
    r->ipr = pointer_to(0, r->handler_segment, 0);
    return true;
}

#endif
