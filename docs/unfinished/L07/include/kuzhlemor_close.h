/* The ring processor for a controller that reads memory slowly: as kuzhlemor.h has it, with sixteen descriptor records that the
 * caller lends beside record and memory. A segment's descriptor is looked for among these first, and read from memory only where
 * it isn't found. Link with libkuzhlemor_close.a, which goes into one program with libkuzhlemor.a and needs no more than that.
 *
 * What kuzhlemor.h asks of the caller holds here too; the records are aligned, readable and writable, and overlap nothing.
 * Records may hold anything. Those that nobody has filled are lent as zeros: such are invalid.
 *
 * From records that are all invalid or true copies, every reply, register and word is what kuzhlemor_run and kuzhlemor_step give,
 * and the records are such again afterwards. A record is a true copy if it isn't valid, or its segment isn't below DBR's length,
 * or its word is that segment's descriptor as memory has it. A valid record that is no true copy is believed: a program then
 * uses the segment that the record describes, as far as 12 to 15 and the ring's questions let it. So a host that changes a
 * descriptor, DBR or which memory it lends must make the records invalid. */
#ifndef KUZHLEMOR_CLOSE_H
#define KUZHLEMOR_CLOSE_H

#include "kuzhlemor.h"

#ifdef __cplusplus
extern "C" {
#endif

/* A descriptor's word with the number of its segment. It is valid where `valid` is 1, and only there. The counts of sixteen
 * records are the numbers 0 to 15, each once, the latest use having 15. The last four bytes are padding, and carry nothing. */
typedef struct {
    uint64_t descriptor;
    uint16_t segment;
    uint8_t valid;
    uint8_t count;
} kuzhlemor_close_record;

/* As kuzhlemor_run and kuzhlemor_step, but for:
 *   - 63, asked before 1: are sixteen records lent? A refused call changes no record.
 *   - Counts that aren't 0 to 15, each once, become 0 to 15 in order, and no record is valid then; with a budget of 0 too.
 *   - Every use of a segment that is below DBR's length looks its descriptor up, before 12. The first valid record of the segment
 *     gives its word: its count becomes 15, and each count that was above its own is lowered by one. Without one the word is read
 *     from memory and takes the place of the record with count 0, which becomes valid; its count becomes 15, and the others are
 *     lowered by one. Look-ups of a step that faults count too, and so does that of the save segment.
 *   - LDBR and opcode 42, unless they fault, and a step that writes a word of the descriptor segment make every record invalid. */
kuzhlemor_reply kuzhlemor_run_close(kuzhlemor_registers *registers, uint64_t *memory, size_t words,
                                    kuzhlemor_close_record *records, size_t record_count, uint32_t budget);
kuzhlemor_reply kuzhlemor_step_close(kuzhlemor_registers *registers, uint64_t *memory, size_t words,
                                     kuzhlemor_close_record *records, size_t record_count);

/* The layout that the library has. */
static_assert(sizeof(kuzhlemor_close_record) == 16, "kuzhlemor_close_record has 16 bytes");
static_assert(offsetof(kuzhlemor_close_record, segment) == 8, "segment is at byte 8");
static_assert(offsetof(kuzhlemor_close_record, valid) == 10, "valid is at byte 10");
static_assert(offsetof(kuzhlemor_close_record, count) == 11, "count is at byte 11");

#ifdef __cplusplus
}
#endif

#endif
