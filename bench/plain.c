/* Runs of the plain processor. */
#include "plain_step.h"

kuzhlemor_reply plain_run(kuzhlemor_registers *registers, uint64_t *memory, size_t words, uint32_t budget)
{
    uint32_t number = refusal(registers, words);
    uint64_t total = 0;

    if (number != 0)
        return (kuzhlemor_reply){.kind = KUZHLEMOR_REFUSED, .number = number};
    for (uint32_t count = 0; count < budget; count++) {
        kuzhlemor_pointer at;
        uint32_t pointer_words;
        int end = step(registers, memory, words, &at, &pointer_words);

        if (end != COMPLETED && end != HALTED && !deliver(registers, memory, words, end, at))
            return (kuzhlemor_reply){KUZHLEMOR_FAULT, (uint32_t)end, count, at, total};
        total += pointer_words;
        if (end == HALTED)
            return (kuzhlemor_reply){.kind = KUZHLEMOR_HALTED, .count = count + 1, .pointer_words = total};
    }
    return (kuzhlemor_reply){.kind = KUZHLEMOR_SPENT, .count = budget, .pointer_words = total};
}
