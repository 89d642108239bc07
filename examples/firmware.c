/* A small dosing bench: it keeps the registers and memory of a program, runs it a step at a time and as a whole, and prints
 * the listing of an image and how many pointer words it read. It takes stored images too. Build it with gcc and link
 * libkuzhlemor.a. */
#include "kuzhlemor.h"

#include <stdbool.h>
#include <stdio.h>
#include <string.h>

enum {
    WORDS = 8192,
    BUDGET = 1000,
    TEXT = 64 * (BUDGET + 1),
    MOST_BYTES = 1 << 20,
    CONVERSION_ROOM = 5
};

typedef struct {
    kuzhlemor_registers registers;
    uint64_t memory[WORDS];
    size_t words;
    uint32_t budget;
} machine;

static uint64_t number(const uint8_t *bytes, size_t count)
{
    uint64_t value = 0;

    for (size_t k = 0; k < count; k++)
        value = value << 8 | bytes[k];
    return value;
}

static kuzhlemor_pointer pointer(const uint8_t *bytes)
{
    return (kuzhlemor_pointer){bytes[0], (uint16_t)number(bytes + 1, 2), (uint16_t)number(bytes + 3, 2)};
}

/* With the switch on, faults go to the handler segment, which ring 0 must be able to execute. The save segment has 13 words or
 * more and W on; rings 0 0 0 keep the others from writing a frame for the handler to take up. */
static void take_fault_fields(const uint8_t *bytes, kuzhlemor_registers *r)
{
    r->fault_switch = bytes[0];
    r->save_segment = (uint16_t)number(bytes + 1, 2);
    r->handler_segment = (uint16_t)number(bytes + 3, 2);
}

/* Takes the records of an image that kuzhlemor_bench has accepted into a machine of the bench's own. */
static void take(const uint8_t *image, machine *m)
{
    memset(m, 0, sizeof *m);
    for (;;) {
        const uint8_t *at = image + 2;

        if (memcmp(image, "ME", 2) == 0) {
            m->words = number(at, 4);
            image += 6;
        } else if (memcmp(image, "ST", 2) == 0) {
            m->registers.a = number(at, 8);
            m->registers.dbr = (kuzhlemor_dbr){(uint32_t)number(at + 8, 4), (uint16_t)number(at + 12, 2)};
            m->registers.ipr = pointer(at + 14);
            for (size_t k = 0; k < 8; k++)
                m->registers.prs[k] = pointer(at + 19 + 5 * k);
            take_fault_fields(at + 59, &m->registers);
            image += 66;
        } else if (memcmp(image, "WD", 2) == 0) {
            m->memory[number(at, 4)] = number(at + 4, 8);
            image += 14;
        } else {
            m->budget = (uint32_t)number(at, 4);
            return;
        }
    }
}

/* The listing of an image. One that is refused may be a stored one: then it is converted in place, and the buffer has room
 * behind it for what that adds. */
static int64_t list(uint8_t *image, size_t length, uint8_t *text)
{
    int64_t answer = kuzhlemor_bench(image, length, text, TEXT);
    int64_t converted;

    if (answer >= 0)
        return answer;
    converted = kuzhlemor_convert(image, length + CONVERSION_ROOM);
    return converted < 0 ? answer : kuzhlemor_bench(image, (size_t)converted, text, TEXT);
}

static void print_reply(const char *name, kuzhlemor_reply r)
{
    static const char *const kinds[] = {"refused", "spent", "halted", "fault"};

    printf("%s: %s, %u steps", name, kinds[r.kind], (unsigned)r.count);
    if (r.kind == KUZHLEMOR_REFUSED || r.kind == KUZHLEMOR_FAULT)
        printf(", question %u", (unsigned)r.number);
    if (r.kind == KUZHLEMOR_FAULT)
        printf(" at ring %u, segment %u, word %u", r.pointer.ring, r.pointer.segment, r.pointer.word);
    printf("; %llu pointer words\n", (unsigned long long)r.pointer_words);
}

/* The main loop of a bench that looks at the registers after each step. The caller tests nothing first. The answer is a run's:
 * what a faulting step has read isn't in its total. */
static kuzhlemor_reply run_by_steps(machine *m)
{
    kuzhlemor_reply reply = {.kind = KUZHLEMOR_SPENT};
    uint32_t count = 0;
    uint64_t total = 0;

    while (count < m->budget && reply.kind == KUZHLEMOR_SPENT) {
        reply = kuzhlemor_step(&m->registers, m->memory, m->words);
        count += reply.count;
        if (reply.kind != KUZHLEMOR_FAULT)
            total += reply.pointer_words;
    }
    reply.count = count;
    reply.pointer_words = total;
    return reply;
}

static bool same_machine(const machine *x, const machine *y)
{
    return x->registers.a == y->registers.a && x->registers.ipr.ring == y->registers.ipr.ring &&
           x->registers.ipr.segment == y->registers.ipr.segment && x->registers.ipr.word == y->registers.ipr.word &&
           memcmp(x->memory, y->memory, sizeof x->memory) == 0;
}

int main(int argc, char **argv)
{
    static uint8_t image[MOST_BYTES + CONVERSION_ROOM];
    static uint8_t text[TEXT];
    static machine x;
    static machine y;
    kuzhlemor_reply by_steps;
    kuzhlemor_reply as_a_run;
    FILE *file = argc == 2 ? fopen(argv[1], "rb") : NULL;
    size_t length;
    int64_t answer;

    if (file == NULL) {
        fprintf(stderr, "usage: firmware IMAGE\n");
        return 2;
    }
    length = fread(image, 1, MOST_BYTES, file);
    fclose(file);

    answer = list(image, length, text);
    if (answer < 0) {
        printf("question %d\n", (int)-answer);
        return 0;
    }
    fwrite(text, 1, (size_t)answer, stdout);

    take(image, &x);
    take(image, &y);
    by_steps = run_by_steps(&x);
    as_a_run = kuzhlemor_run(&y.registers, y.memory, y.words, y.budget);
    print_reply("by steps", by_steps);
    print_reply("as a run", as_a_run);
    if (!same_machine(&x, &y) || by_steps.count != as_a_run.count || by_steps.pointer_words != as_a_run.pointer_words) {
        printf("steps and run differ\n");
        return 1;
    }
    return 0;
}
