/* Machines for the tests: a register record and a memory to lend, with guard words around both. */
#ifndef MACHINE_H
#define MACHINE_H

#include "kuzhlemor.h"
#include "plain.h"
#include "same.h"
#include "words.h"

#include <stdbool.h>

enum {
    CAPACITY = 128,
    GUARDS = 8
};

/* Of `memory` the first `words` words are lent; the rest are guards too. */
typedef struct {
    uint64_t guards_before[GUARDS];
    kuzhlemor_registers registers;
    uint64_t guards_between[GUARDS];
    uint64_t memory[CAPACITY + GUARDS];
    size_t words;
} machine;

/* All zero but the guards. */
machine empty_machine(size_t words);

/* All registers, words and guards. */
bool same_machine(const machine *x, const machine *y);

/* Replies, with their numbers in the order of a listing's last line. */
kuzhlemor_reply refused(uint32_t number);
kuzhlemor_reply spent(uint32_t count, uint64_t pointer_words);
kuzhlemor_reply halted(uint32_t count, uint64_t pointer_words);
kuzhlemor_reply fault(uint32_t number, uint32_t count, kuzhlemor_pointer pointer, uint64_t pointer_words);

/* Counts a check. If it fails: the message, and the program ends with 1. */
extern unsigned long checks;
void check(bool ok, const char *format, ...) __attribute__((format(printf, 2, 3)));

/* Checks that a call gave this reply and left this machine; `who` and `name` go in the message. */
void check_end(const char *who, const char *name, const machine *got, kuzhlemor_reply got_reply, const machine *wanted,
               kuzhlemor_reply wanted_reply);

/* plain_run and plain_step on memory that is a block of just its size, so that a sanitizer sees its end. */
kuzhlemor_reply run_plain(machine *m, uint32_t budget);
kuzhlemor_reply step_plain(machine *m);

/* Hands on each case of cases.c: the machine before and after one step, and the step's reply. */
typedef void expectation(const char *name, const machine *before, const machine *after, kuzhlemor_reply reply);
void each_case(expectation *expect);

/* Case 12 of document 01, at its start. */
machine case_12(void);

/* A pseudo-random small machine; the sequence of machines is always the same. */
machine random_machine(void);
uint64_t random_word(void);
uint32_t random_below(uint32_t bound);
bool one_in(uint32_t n);

/* What has been seen of replies, which opcodes have completed, which faults were delivered, which no of the save segment kept
 * one from it (15: too few words, 23: W off), and how many pointer words steps have read. */
typedef struct {
    unsigned long refused[5];
    unsigned long completed[256];
    unsigned long faults[53];
    unsigned long delivered[53];
    unsigned long undelivered[24];
    unsigned long completed_through[65];
    unsigned long faults_through[65];
} tally;

/* Whether a number is a fault's: 11 to 15, 21 to 34, 52. */
bool is_fault_number(int number);

/* Adds a step's reply; `before` is the machine that it started from. With the switch on, it checks that a fault was delivered
 * if and only if the save segment would do. */
void count_step(tally *t, const machine *before, kuzhlemor_reply reply);

/* Checks that every opcode has completed, that 2 to 4 and every fault have been answered, that every fault was delivered and
 * every no of a save segment kept one, and that there were chains of each length up to 4 in completed steps and in faulting
 * ones. */
void check_tally(const tally *t);

#endif
