/* A plain processor in C after documents 01 and 02, with the library's records and answers: the measure for its speed, and a
 * second opinion in its tests. */
#ifndef PLAIN_H
#define PLAIN_H

#include "kuzhlemor.h"

/* As kuzhlemor_step. */
kuzhlemor_reply plain_step(kuzhlemor_registers *registers, uint64_t *memory, size_t words);

/* As kuzhlemor_run. */
kuzhlemor_reply plain_run(kuzhlemor_registers *registers, uint64_t *memory, size_t words, uint32_t budget);

/* The listing of a run, into a text with 64 bytes for each line: its length, or 0 if the run is refused. */
size_t plain_list(kuzhlemor_registers *registers, uint64_t *memory, size_t words, uint32_t budget, uint8_t *text);

/* As kuzhlemor_bench. */
int64_t plain_bench(const uint8_t *image, size_t image_length, uint8_t *text, size_t text_length);

/* As kuzhlemor_needs. */
kuzhlemor_image_needs plain_needs(const uint8_t *image, size_t length);

/* As kuzhlemor_may_call. */
kuzhlemor_check plain_may_call(const kuzhlemor_registers *registers, const uint64_t *memory, size_t words, uint8_t ring,
                               uint16_t segment, uint16_t word);

/* As kuzhlemor_set_brackets. */
uint32_t plain_set_brackets(uint64_t *memory, size_t words, uint32_t dbr_address, uint16_t dbr_length,
                            const kuzhlemor_row *rows, size_t row_count);

/* As kuzhlemor_from_old and kuzhlemor_to_old. */
kuzhlemor_old_answer plain_from_old(uint64_t *words, size_t count);
kuzhlemor_old_answer plain_to_old(uint64_t *words, size_t count);

/* As kuzhlemor_convert. */
int64_t plain_convert(uint8_t *image, size_t length);

#endif
