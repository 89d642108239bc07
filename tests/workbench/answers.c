/* What the library answers to C, for the pages' tests: machines, steps and questions as numbers on standard input.
 *   m WORDS A ADDRESS LENGTH, nine times RING SEGMENT WORD, SWITCH SAVE HANDLER, COUNT and as many ADDRESS WORD: another machine
 *   r STEPS: a run of so many steps from the machine's start; prints every register
 *   q SEGMENT FIRST LAST: may a CALL go there, in IPR's ring? Prints FIRST LAST KIND NUMBER RING for each stretch of words with
 *     equal answers */
#include <inttypes.h>
#include <stdio.h>
#include <stdlib.h>
#include <string.h>

#include "kuzhlemor.h"

enum { MOST_WORDS = 8192 };

static kuzhlemor_registers start, registers;
static uint64_t start_memory[MOST_WORDS], memory[MOST_WORDS];
static size_t words;

static uint64_t number(void)
{
    uint64_t value;
    if (scanf("%" SCNu64, &value) != 1) {
        fputs("answers: a number is missing\n", stderr);
        exit(1);
    }
    return value;
}

static kuzhlemor_pointer pointer(void)
{
    kuzhlemor_pointer read;
    read.ring = (uint8_t)number();
    read.segment = (uint16_t)number();
    read.word = (uint16_t)number();
    return read;
}

static void read_machine(void)
{
    words = number();
    start.a = number();
    start.dbr.address = (uint32_t)number();
    start.dbr.length = (uint16_t)number();
    start.ipr = pointer();
    for (int k = 0; k < 8; k++)
        start.prs[k] = pointer();
    start.fault_switch = (uint16_t)number();
    start.save_segment = (uint16_t)number();
    start.handler_segment = (uint16_t)number();
    memset(start_memory, 0, sizeof start_memory);
    for (uint64_t count = number(); count > 0; count--) {
        uint64_t address = number();
        if (words > MOST_WORDS || address >= words) {
            fputs("answers: no such address\n", stderr);
            exit(1);
        }
        start_memory[address] = number();
    }
}

static void run(void)
{
    registers = start;
    memcpy(memory, start_memory, sizeof memory);
    kuzhlemor_run(&registers, memory, words, (uint32_t)number());
    printf("%" PRIu64 " %" PRIu32 " %u", registers.a, registers.dbr.address, registers.dbr.length);
    printf(" %u %u %u", registers.ipr.ring, registers.ipr.segment, registers.ipr.word);
    for (int k = 0; k < 8; k++)
        printf(" %u %u %u", registers.prs[k].ring, registers.prs[k].segment, registers.prs[k].word);
    printf(" %u %u %u\n", registers.fault_switch, registers.save_segment, registers.handler_segment);
}

static void ask(void)
{
    uint16_t segment = (uint16_t)number();
    unsigned first = (unsigned)number(), last = (unsigned)number();
    kuzhlemor_check before = {0};
    unsigned since = first;
    for (unsigned word = first; word <= last + 1; word++) {
        kuzhlemor_check now = before;
        if (word <= last)
            now = kuzhlemor_may_call(&registers, memory, words, registers.ipr.ring, segment, (uint16_t)word);
        if (word == first)
            before = now;
        if (word > last || now.kind != before.kind || now.number != before.number || now.ring != before.ring) {
            printf("%u %u %" PRIu32 " %" PRIu32 " %" PRIu32 "\n", since, word - 1, before.kind, before.number, before.ring);
            since = word;
            before = now;
        }
    }
}

int main(void)
{
    char what;
    while (scanf(" %c", &what) == 1) {
        if (what == 'm')
            read_machine();
        else if (what == 'r')
            run();
        else if (what == 'q')
            ask();
        else
            return 1;
    }
    return 0;
}
