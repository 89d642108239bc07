/* Opcodes, and words in the layout of document 01, for C programs that make memories. */
#ifndef WORDS_H
#define WORDS_H

#include "kuzhlemor.h"

enum opcode {
    LDA = 1, STA, ADA, SBA, ANA, ORA, XRA, CNT, AOS, LDI,
    EAP = 16, SPP,
    TRA = 24, TZE, TMI,
    CALL = 32, RETURN,
    LDBR = 40, HLT, RCU
};

/* The words of a frame: a fault's number, the address under question, A, DBR, IPR, then PR0 to PR7. */
enum {
    FRAME_NUMBER, FRAME_ADDRESS, FRAME_A, FRAME_DBR, FRAME_IPR, FRAME_PRS,
    FRAME = FRAME_PRS + 8
};

/* The flags of a descriptor, from bit 49. */
enum {
    R = 1, W = 2, E = 4, V = 8
};

/* I of an instruction, and of a pointer word. */
#define I_ON ((uint64_t)1 << 20)
#define POINTER_I_ON ((uint64_t)1 << 31)

static inline uint64_t descriptor_word(uint32_t address, uint16_t length, unsigned r1, unsigned r2, unsigned r3,
                                       unsigned flags, unsigned gate)
{
    return (uint64_t)address | (uint64_t)length << 24 | (uint64_t)r1 << 40 | (uint64_t)r2 << 43 | (uint64_t)r3 << 46 |
           (uint64_t)flags << 49 | (uint64_t)gate << 53;
}

static inline kuzhlemor_pointer pointer_to(unsigned ring, unsigned segment, unsigned word)
{
    return (kuzhlemor_pointer){(uint8_t)ring, (uint16_t)segment, (uint16_t)word};
}

/* With I off. */
static inline uint64_t pointer_word(kuzhlemor_pointer p)
{
    return (uint64_t)p.ring << 28 | (uint64_t)p.segment << 16 | p.word;
}

/* P off: OFFSET counts from the instruction itself. */
static inline uint64_t near(enum opcode opcode, int offset)
{
    return (uint64_t)opcode << 24 | (uint16_t)offset;
}

/* P on: OFFSET counts from where the PR points. */
static inline uint64_t by_pr(enum opcode opcode, unsigned prnum, int offset)
{
    return near(opcode, offset) | (uint64_t)prnum << 16 | (uint64_t)1 << 19;
}

static inline uint64_t reg(unsigned number)
{
    return (uint64_t)number << 21;
}

static inline uint64_t lit(uint32_t value)
{
    return (uint64_t)value << 32;
}

/* The layout of the word that LDBR reads. */
static inline uint64_t dbr_word(uint32_t address, unsigned length)
{
    return (uint64_t)address | (uint64_t)length << 24;
}

#endif
