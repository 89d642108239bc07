/* The plain processor with descriptor records lent, as kuzhlemor_close.h has it. */
#ifndef PLAIN_CLOSE_H
#define PLAIN_CLOSE_H

#include "kuzhlemor_close.h"

/* As kuzhlemor_run_close. */
kuzhlemor_reply plain_run_close(kuzhlemor_registers *registers, uint64_t *memory, size_t words, kuzhlemor_close_record *records,
                                size_t record_count, uint32_t budget);

/* As kuzhlemor_step_close. */
kuzhlemor_reply plain_step_close(kuzhlemor_registers *registers, uint64_t *memory, size_t words,
                                 kuzhlemor_close_record *records, size_t record_count);

#endif
