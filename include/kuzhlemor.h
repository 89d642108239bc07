/* The ring processor as a C library: one step, or a run under a budget, over a register record and a memory that the
 * caller lends; brackets set for ranges of segments by a table (kuzhlemor_set_brackets); descriptors of the oldest benches made
 * into today's and back (kuzhlemor_from_old, kuzhlemor_to_old); a whole image run for its listing; what an image will need
 * (kuzhlemor_needs); and a stored image of the old rules made into one of today's. Link with libkuzhlemor.a (x86-64, System V
 * calling convention), which needs nothing but memset and memmove.
 *
 * The caller tests nothing first. Any values in the record and in memory, broken ones too, any number of words and any
 * budget get a defined reply. What the caller owes is the usual of C:
 *   - registers points to one record and memory to `words` words, both aligned, readable and writable; memory isn't
 *     null, not even when words is 0;
 *   - record and memory don't overlap, and nobody else reads or writes them during the call.
 *
 * After a call, record and memory hold exactly what the completed steps wrote. A refused call and a fault that isn't
 * delivered leave both as they were. Nothing is kept between calls.
 *
 * A fault is delivered where the record's switch is on and the save segment passes 11 to 14, has 13 words or more and has W
 * on; no ring is asked. Then the frame is written to words 0 to 12 of that segment: the fault's number; the address and ring
 * under question; A; DBR; IPR; PR0 to PR7; all as they stood before the step, pointers as pointer words with I off and DBR in
 * LDBR's layout. IPR becomes ring 0, word 0 of the handler segment, and the step is a completed one. Every fault is delivered
 * so, the handler's own as well; a refusal never is. With the switch off, or where the save segment won't do, the fault ends
 * the run.
 *
 * Opcode 42 (RCU), which is privileged, takes up A, DBR, IPR and PR0 to PR7 from the frame at its operand: 15 and 22 are asked
 * of all thirteen words, 34 of the DBR, and 52 is whether no PR of the frame has a lower ring than its IPR. It reads where its
 * operand leads: a handler that gets there through a pointer of an outer ring may be handed a forged frame. The save segment
 * belongs where ring 0 alone can write.
 *
 * The record is used in place: during the call it holds registers half-way through a run. The bytes of padding in the
 * records carry nothing: whatever they hold, the fields end alike, and a call may overwrite them. */
#ifndef KUZHLEMOR_H
#define KUZHLEMOR_H

#include <assert.h>
#include <stddef.h>
#include <stdint.h>

#ifdef __cplusplus
extern "C" {
#endif

/* A word of a segment, and the ring in which it is used: ring 0 to 7, segment 0 to 4,095, word 0 to 65,535. */
typedef struct {
    uint8_t ring;
    uint16_t segment;
    uint16_t word;
} kuzhlemor_pointer;

/* The descriptor segment: its absolute address, below 2^24, and its length in words, at most 4,096. */
typedef struct {
    uint32_t address;
    uint16_t length;
} kuzhlemor_dbr;

/* The registers: A, DBR, IPR, and PR0 to PR7; then what faults need, which no call changes: the switch, 0 (off) or 1 (on),
 * and the numbers of the save segment and the handler segment, 0 to 4,095. */
typedef struct {
    uint64_t a;
    kuzhlemor_dbr dbr;
    kuzhlemor_pointer ipr;
    kuzhlemor_pointer prs[8];
    uint16_t fault_switch;
    uint16_t save_segment;
    uint16_t handler_segment;
} kuzhlemor_registers;

/* The kinds of reply. What a kind doesn't name in its reply is 0, the pointer's fields as well. */
enum {
    /* number: the first of these that is answered no. Nothing was done.
     *   1  memory has at most 16,777,216 words
     *   2  every ring is at most 7, every segment at most 4,095, DBR's address below 2^24; the switch is at most 1, the save
     *      and the handler segment at most 4,095
     *   3  no PR's ring is below IPR's
     *   4  DBR's length is at most 4,096, and the descriptor segment lies within memory */
    KUZHLEMOR_REFUSED = 0,
    /* count: the steps completed, delivered faults among them. A run: the whole budget. A single step: 1.
     * pointer_words: how many those steps read. */
    KUZHLEMOR_SPENT = 1,
    /* count: the steps completed; HLT was the last of them. pointer_words: how many those steps read. */
    KUZHLEMOR_HALTED = 2,
    /* A fault that wasn't delivered. number: the first question, 11 to 15, 21 to 34 or 52, that the next instruction
     * answered no; pointer: the address and ring under question; count: the steps completed before it. A single step: 0.
     * pointer_words: how many those steps read; what the faulting step read isn't in it. A single step: how many the
     * faulting step itself read. */
    KUZHLEMOR_FAULT = 3,
    /* Of kuzhlemor_may_call alone. ring: the ring that the call would go on in. */
    KUZHLEMOR_PASSES = 4
};

/* A step reads 0 to 64 pointer words, those through which its address is formed. One counts once it has been read: a
 * fault at the third has 2, 31 has 64, any fault after the address is formed has the whole chain's; a fault of the fetch,
 * 32 and 33 have 0, and so has an instruction without an operand. A delivered fault has as many, as a completed step. A
 * run's total is at most 64 times its count. */
typedef struct {
    uint32_t kind;
    uint32_t number;
    uint32_t count;
    kuzhlemor_pointer pointer;
    uint64_t pointer_words;
} kuzhlemor_reply;

/* Performs the instruction at IPR, or delivers its fault. Answers what kuzhlemor_run does with a budget of 1, except for the
 * pointer_words of a fault that isn't delivered. */
kuzhlemor_reply kuzhlemor_step(kuzhlemor_registers *registers, uint64_t *memory, size_t words);

/* Performs instructions until HLT, a fault that isn't delivered, or as many as the budget says are completed. HLT as the last
 * step of the budget is halted. With a budget of 0 it asks 1 to 4 and answers refused or spent. A run that was spent goes on
 * where it stopped when record and memory are lent again as they were left. */
kuzhlemor_reply kuzhlemor_run(kuzhlemor_registers *registers, uint64_t *memory, size_t words, uint32_t budget);

/* What kuzhlemor_may_call answers: KUZHLEMOR_REFUSED, KUZHLEMOR_FAULT with the number and the pointer under question, or
 * KUZHLEMOR_PASSES. What a kind doesn't name is 0. */
typedef struct {
    uint32_t kind;
    uint32_t number;
    uint32_t ring;
    kuzhlemor_pointer pointer;
} kuzhlemor_check;

/* May a CALL go there? Answers as if one stood at IPR: 1 to 4 are asked, 2 of the pointer handed in as well (its ring at most 7,
 * its segment at most 4,095); the pointer's ring is raised to at least IPR's; then 11 to 15 and 26 to 30. Any pointer may be
 * asked for, not only one that a program has formed. Whether IPR itself may be fetched isn't asked. Record and memory are only
 * read. Nothing is delivered, whatever the switch says. */
kuzhlemor_check kuzhlemor_may_call(const kuzhlemor_registers *registers, const uint64_t *memory, size_t words, uint8_t ring,
                                   uint16_t segment, uint16_t word);

/* A row of a table for who may do what: segments first to last, these two as well, get rings r1, r2 and r3 and the flags R, W
 * and E, each off at 0 and on at any other value. */
typedef struct {
    uint16_t first;
    uint16_t last;
    uint8_t r1;
    uint8_t r2;
    uint8_t r3;
    uint8_t read;
    uint8_t write;
    uint8_t execute;
} kuzhlemor_row;

/* Sets the brackets of all segments below DBR's length by a table of up to 32 rows, which may be in any order. In the
 * descriptor word of each segment R1, R2, R3, R, W and E become those of its row. ADDRESS, LENGTH, V and GATE stay, whatever
 * they are, and so does every other word of memory. Answers 0, or the number of the first of these that is answered no; then
 * nothing was written.
 *   1   memory has at most 16,777,216 words
 *   4   DBR's length is at most 4,096, and the descriptor segment lies within memory
 *   53  there are at most 32 rows, and in each first <= last < DBR's length and r1 <= r2 <= r3 <= 7
 *   54, 55  every segment below DBR's length is in one row only; the lowest that isn't decides:
 *       54  it is in some row
 *       55  it isn't in several rows
 * 2 isn't asked: the address may be any number. With a length of 0 the table without rows is accepted, and no other.
 * rows points to `row_count` rows, aligned, which are only read; it isn't null, not even when row_count is 0. Memory and rows
 * don't overlap. */
uint32_t kuzhlemor_set_brackets(uint64_t *memory, size_t words, uint32_t dbr_address, uint16_t dbr_length,
                                const kuzhlemor_row *rows, size_t row_count);

/* What a conversion of descriptors answers: 0 and 0, or the number of the question that is answered no, and the index of the
 * first word of which it is. */
typedef struct {
    uint64_t number;
    uint64_t index;
} kuzhlemor_old_answer;

/* The descriptors of the oldest benches have no rings: bits 0-23 ADDRESS and 24-39 LENGTH, as now; 40 R, 41 W, 42 E, 43 user; the
 * rest zero. kuzhlemor_from_old makes `count` such words into descriptors of today's, where they stand: user becomes rings 4 4 4,
 * no user 0 0 0; V is on, GATE is 0; ADDRESS, LENGTH, R, W and E stay. kuzhlemor_to_old is the way back. Either converts all
 * words or, where one of them fails, none; and what one has converted the other makes again what it was.
 *   56  of an old word: bits 44 to 63 are off
 *   57  of today's: V is on, GATE is 0, and the rings are 4 4 4 or 0 0 0
 * Nothing else is asked of a word, and any count is taken. words isn't null, not even when the count is 0. */
kuzhlemor_old_answer kuzhlemor_from_old(uint64_t *words, size_t count);
kuzhlemor_old_answer kuzhlemor_to_old(uint64_t *words, size_t count);

/* Loads an image, runs it and writes its listing into text: a line for each completed step (its number, IPR's ring, segment
 * and word after it, and how many pointer words it read) and a last line (`spent COUNT TOTAL`, `halted COUNT TOTAL` or
 * `fault NUMBER COUNT RING SEGMENT WORD TOTAL`, where TOTAL is the sum of the lines' pointer words), each ended by a
 * newline, with no zero byte after them. A delivered fault has a step's line, with IPR at the handler. ST has 64 bytes after
 * its mark; the last five are the switch in 1 byte, the save segment and the handler segment in 2 each.
 * Answers the text's length, or a question's number negated:
 *   -41  a record's mark is known, and the record is whole
 *   -42  ME comes first and once, ST once and before RN, RN comes once and last
 *   -43  ME says at most 8,192 words
 *   -44  a WD's address is below ME's number
 *   -51  no earlier WD has the address
 *   -1 to -4  as above, of what the image records
 *   -45  text has 64 bytes for each line there may be: 64 * (budget + 1)
 * Bytes of text after the listing, and on refusal all of them, keep what they held. image and text aren't null, not even
 * when their lengths are 0, and don't overlap.
 * The call takes about 69 KiB of stack, most of it for the image's memory; kuzhlemor_step and kuzhlemor_run take less
 * than 1,280 bytes, a step that doesn't fault less than 512. */
int64_t kuzhlemor_bench(const uint8_t *image, size_t image_length, uint8_t *text, size_t text_length);

/* What an image needs: number 0, then its words of memory, its WD records, its budget, and the most lines (budget + 1) and
 * pointer words (64 * budget) that a listing of it can have. Of a refused image: the question's number, and the rest is 0. */
typedef struct {
    uint64_t number;
    uint64_t memory;
    uint64_t records;
    uint64_t budget;
    uint64_t lines;
    uint64_t pointers;
} kuzhlemor_image_needs;

/* What will this image need? It is worked out from the records: no memory is built, and no step taken. The image is accepted and
 * refused just as by kuzhlemor_bench, with the same number, here not negated: 41 to 44 and 51 of each record, then 1 to 4 with
 * ME's number as memory's size. 45 isn't asked, since there is no text; a buffer of 64 * lines bytes passes it. No run of the
 * image, under its budget or a smaller one, exceeds these figures. image is only read; it isn't null, not even when the length is
 * 0. The call takes less than 8 KiB of stack. */
kuzhlemor_image_needs kuzhlemor_needs(const uint8_t *image, size_t length);

/* Makes a stored image of the old rules into one of today's, in place. By the old rules ST had 59 bytes, and an address might
 * have several WDs, of which the last held. ST gains five zero bytes at its end: switch, save segment and handler segment are
 * 0. ME and RN stay, and of the WDs of each address the last, all in the order in which they stood: the new image loads as the
 * old one did.
 *
 * The new image may be longer than the old one by those five bytes, so the caller lends them too. The buffer is the stored
 * image and five bytes of room after it, whatever they hold; `length` is the image's length plus 5:
 *
 *     uint8_t buffer[MOST_BYTES + 5];
 *     size_t stored = fread(buffer, 1, MOST_BYTES, file);
 *     int64_t answer = kuzhlemor_convert(buffer, stored + 5);
 *
 * Then the new image is the first `answer` bytes of the buffer, or the answer is a question's number negated:
 *   -41 to -44, -1 to -4  as above, of the stored image by the old rules; 51 isn't asked of it
 * An image of today's, whose ST has 64 bytes, is refused by the old rules (-41). A buffer shorter than five bytes is an empty
 * image (-42). Bytes after the new image, and on refusal all of them, those of the room too, keep what they held. image isn't
 * null, not even when the length is 0. The call takes about 130 KiB of stack. */
int64_t kuzhlemor_convert(uint8_t *image, size_t length);

/* The layout that the library was built for. */
static_assert(sizeof(size_t) == 8, "64-bit lengths");
static_assert(sizeof(kuzhlemor_pointer) == 6, "size of a pointer");
static_assert(offsetof(kuzhlemor_pointer, ring) == 0, "ring");
static_assert(offsetof(kuzhlemor_pointer, segment) == 2, "segment");
static_assert(offsetof(kuzhlemor_pointer, word) == 4, "word");
static_assert(sizeof(kuzhlemor_dbr) == 8, "size of DBR");
static_assert(offsetof(kuzhlemor_dbr, address) == 0, "DBR's address");
static_assert(offsetof(kuzhlemor_dbr, length) == 4, "DBR's length");
static_assert(sizeof(kuzhlemor_registers) == 80, "size of the registers");
static_assert(offsetof(kuzhlemor_registers, a) == 0, "A");
static_assert(offsetof(kuzhlemor_registers, dbr) == 8, "DBR");
static_assert(offsetof(kuzhlemor_registers, ipr) == 16, "IPR");
static_assert(offsetof(kuzhlemor_registers, prs) == 22, "PR0 to PR7");
static_assert(offsetof(kuzhlemor_registers, fault_switch) == 70, "switch");
static_assert(offsetof(kuzhlemor_registers, save_segment) == 72, "save segment");
static_assert(offsetof(kuzhlemor_registers, handler_segment) == 74, "handler segment");
static_assert(sizeof(kuzhlemor_reply) == 32, "size of a reply");
static_assert(offsetof(kuzhlemor_reply, kind) == 0, "kind");
static_assert(offsetof(kuzhlemor_reply, number) == 4, "number");
static_assert(offsetof(kuzhlemor_reply, count) == 8, "count");
static_assert(offsetof(kuzhlemor_reply, pointer) == 12, "pointer");
static_assert(offsetof(kuzhlemor_reply, pointer_words) == 24, "pointer words");
static_assert(sizeof(kuzhlemor_check) == 20, "size of a check");
static_assert(offsetof(kuzhlemor_check, ring) == 8, "ring of a check");
static_assert(offsetof(kuzhlemor_check, pointer) == 12, "pointer of a check");
static_assert(sizeof(kuzhlemor_row) == 10, "size of a row");
static_assert(offsetof(kuzhlemor_row, first) == 0, "first segment");
static_assert(offsetof(kuzhlemor_row, last) == 2, "last segment");
static_assert(offsetof(kuzhlemor_row, r1) == 4, "R1");
static_assert(offsetof(kuzhlemor_row, r2) == 5, "R2");
static_assert(offsetof(kuzhlemor_row, r3) == 6, "R3");
static_assert(offsetof(kuzhlemor_row, read) == 7, "R");
static_assert(offsetof(kuzhlemor_row, write) == 8, "W");
static_assert(offsetof(kuzhlemor_row, execute) == 9, "E");
static_assert(sizeof(kuzhlemor_old_answer) == 16, "size of a conversion's answer");
static_assert(offsetof(kuzhlemor_old_answer, number) == 0, "number of a conversion's answer");
static_assert(offsetof(kuzhlemor_old_answer, index) == 8, "index of a conversion's answer");
static_assert(sizeof(kuzhlemor_image_needs) == 48, "size of an image's needs");
static_assert(offsetof(kuzhlemor_image_needs, number) == 0, "number of an image's needs");
static_assert(offsetof(kuzhlemor_image_needs, memory) == 8, "words of memory");
static_assert(offsetof(kuzhlemor_image_needs, records) == 16, "WD records");
static_assert(offsetof(kuzhlemor_image_needs, budget) == 24, "budget");
static_assert(offsetof(kuzhlemor_image_needs, lines) == 32, "lines");
static_assert(offsetof(kuzhlemor_image_needs, pointers) == 40, "pointers");
#ifdef __cplusplus
static_assert(alignof(kuzhlemor_registers) == 8, "alignment of the registers");
static_assert(alignof(kuzhlemor_row) == 2, "alignment of a row");
#else
static_assert(_Alignof(kuzhlemor_registers) == 8, "alignment of the registers");
static_assert(_Alignof(kuzhlemor_row) == 2, "alignment of a row");
#endif

#ifdef __cplusplus
}
#endif

#endif
