/* Single steps of the plain processor, and CALL's check of any pointer. */
#include "plain_step.h"

kuzhlemor_reply plain_step(kuzhlemor_registers *registers, uint64_t *memory, size_t words)
{
    uint32_t number = refusal(registers, words);
    kuzhlemor_pointer at;
    uint32_t pointer_words;
    int end;

    if (number != 0)
        return (kuzhlemor_reply){.kind = KUZHLEMOR_REFUSED, .number = number};
    end = step(registers, memory, words, &at, &pointer_words);
    if (end == HALTED)
        return (kuzhlemor_reply){.kind = KUZHLEMOR_HALTED, .count = 1, .pointer_words = pointer_words};
    if (end == COMPLETED || deliver(registers, memory, words, end, at))
        return (kuzhlemor_reply){.kind = KUZHLEMOR_SPENT, .count = 1, .pointer_words = pointer_words};
    return (kuzhlemor_reply){KUZHLEMOR_FAULT, (uint32_t)end, 0, at, pointer_words};
}

/* 1 to 4, with the pointer under 2: a pointer in range changes nothing in the registers' answer, and 1 comes first. */
static uint32_t refusal_with(const kuzhlemor_registers *registers, size_t words, kuzhlemor_pointer p)
{
    uint32_t number = refusal(registers, words);

    if (number == 1)
        return 1;
    return p.ring > 7 || p.segment > 4095 ? 2 : number;
}

kuzhlemor_check plain_may_call(const kuzhlemor_registers *registers, const uint64_t *memory, size_t words, uint8_t ring,
                               uint16_t segment, uint16_t word)
{
    kuzhlemor_pointer p = {ring, segment, word};
    uint32_t refused = refusal_with(registers, words, p);
    uint8_t new_ring;
    uint64_t d;
    int number;

    if (refused != 0)
        return (kuzhlemor_check){.kind = KUZHLEMOR_REFUSED, .number = refused};
    p.ring = (uint8_t)larger(p.ring, registers->ipr.ring);
    number = find(registers, memory, words, p, &d);
    if (number == 0)
        number = check_call(registers, d, p, &new_ring);
    if (number != 0)
        return (kuzhlemor_check){.kind = KUZHLEMOR_FAULT, .number = (uint32_t)number, .pointer = p};
    return (kuzhlemor_check){.kind = KUZHLEMOR_PASSES, .ring = new_ring};
}
