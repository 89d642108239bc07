/* What an image will need, after documents 01 and 02: from its records, without a memory. */
#include "plain_records.h"

kuzhlemor_image_needs plain_needs(const uint8_t *image, size_t length)
{
    image_start start = {0};
    int number = load_and_ask(image, length, TODAYS_RULES, &start, NULL);

    if (number != 0)
        return (kuzhlemor_image_needs){.number = (uint64_t)number};
    return (kuzhlemor_image_needs){
        .memory = start.words,
        .records = start.wds,
        .budget = start.budget,
        .lines = (uint64_t)start.budget + 1,
        .pointers = MOST_POINTER_WORDS * (uint64_t)start.budget,
    };
}
