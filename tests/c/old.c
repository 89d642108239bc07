/* kuzhlemor_from_old and kuzhlemor_to_old as a host calls them: words worked out by hand, both ways; every bit of a word, every
 * GATE and every three rings; every choice of failing words in a short segment; segments of up to 100,000 words; a run by
 * descriptors that were converted where they stood; and random segments, most of them whole but for one damage, against plain C.
 * The words lie at the edge of pages that can't be touched, and where one fails all of them stay. */
#include "machine.h"
#include "place.h"

#include <inttypes.h>
#include <stdio.h>
#include <string.h>

enum {
    SEGMENTS = 300000,
    LARGEST = 100000,
    LONG = 4200,
    RINGS = 512,
    REST_BITS = 20,
    GATE_BITS = 11
};

/* All that an old word may have on, and of today's all that may differ beside the rings. */
static const uint64_t old_bits = 0x00000fffffffffff;
static const uint64_t free_bits = 0x000e00ffffffffff;

/* Of today's: V, and V with rings 4 4 4. */
static const uint64_t inner = 0x0010000000000000;
static const uint64_t outer = 0x0011240000000000;

typedef kuzhlemor_old_answer conversion(uint64_t *words, size_t count);

/* A way, as the library and as plain C go it, and the library's way back. */
typedef struct {
    const char *name;
    conversion *library;
    conversion *plain;
    conversion *back;
    uint64_t number;
} way;

static const way from_old = {"from old", kuzhlemor_from_old, plain_from_old, kuzhlemor_to_old, 56};
static const way to_old = {"to old", kuzhlemor_to_old, plain_to_old, kuzhlemor_from_old, 57};

static const kuzhlemor_old_answer passed = {0, 0};

/* Calls it with a copy that lies at the edge of the smallest place for it; `words` become what it leaves. */
static kuzhlemor_old_answer call(conversion *convert, uint64_t *words, size_t count, bool at_end)
{
    static const size_t pages[] = {1, LONG * sizeof words[0] / PAGE + 1, LARGEST * sizeof words[0] / PAGE + 1};
    static place places[3];
    const size_t size = count * sizeof words[0];
    int k = 0;
    kuzhlemor_old_answer answer;

    while (size > pages[k] * PAGE)
        k++;
    if (places[k].start == NULL)
        places[k] = new_place(pages[k]);
    answer = convert(lend(&places[k], words, size, at_end), count);
    take_back(&places[k], words);
    return answer;
}

static void check_answer(const char *who, const char *name, kuzhlemor_old_answer got, kuzhlemor_old_answer wanted)
{
    check(got.number == wanted.number && got.index == wanted.index,
          "%s: %s: %" PRIu64 " at %" PRIu64 ", not %" PRIu64 " at %" PRIu64, who, name, got.number, got.index, wanted.number,
          wanted.index);
}

static void check_words(const char *who, const char *name, const uint64_t *got, const uint64_t *wanted, size_t count)
{
    for (size_t k = 0; k < count; k++)
        if (got[k] != wanted[k])
            check(false, "%s: %s: word %zu of %zu is %016" PRIx64 ", not %016" PRIx64, who, name, k, count, got[k], wanted[k]);
}

/* The answer of the library and of plain C, and every word that they leave, at either edge. */
static void expect(const char *name, const way *w, const uint64_t *before, size_t count, kuzhlemor_old_answer answer,
                   const uint64_t *after)
{
    static uint64_t words[LARGEST];

    for (int k = 0; k < 4; k++) {
        char who[32];
        kuzhlemor_old_answer got;

        snprintf(who, sizeof who, "%s, %s", w->name, k < 2 ? "the library" : "plain C");
        memcpy(words, before, count * sizeof words[0]);
        got = call(k < 2 ? w->library : w->plain, words, count, k % 2 == 0);
        check_answer(who, name, got, answer);
        check_words(who, name, words, after, count);
    }
}

/* Each is what the other becomes. */
static void both_ways(const char *name, const uint64_t *old, const uint64_t *today, size_t count)
{
    expect(name, &from_old, old, count, passed, today);
    expect(name, &to_old, today, count, passed, old);
}

static void refuses(const char *name, const way *w, const uint64_t *words, size_t count, uint64_t index)
{
    expect(name, w, words, count, (kuzhlemor_old_answer){w->number, index}, words);
}

static void word_both_ways(const char *name, uint64_t old, uint64_t today)
{
    both_ways(name, &old, &today, 1);
}

static void refuses_word(const char *name, const way *w, uint64_t word)
{
    refuses(name, w, &word, 1, 0);
}

/* R, W and E, which are 1, 2 and 4 in an old word's third byte, are 2, 4 and 8 in the second byte of one of today's. V is 10 there,
 * and rings 4 4 4 are 01 24 in the second and third. */
static void words_by_hand(void)
{
    static const char *const names[] = {
        "nothing on", "user", "R", "W", "E", "R and user", "W and user", "E and user", "R W E", "R W E and user", "ADDRESS",
        "LENGTH", "all on", "all but user", "words 32 to 35, R W, user", "43,981 words from 1,193,046, R E",
    };
    static const uint64_t old[] = {
        0x0000000000000000, 0x0000080000000000, 0x0000010000000000, 0x0000020000000000, 0x0000040000000000, 0x0000090000000000,
        0x00000a0000000000, 0x00000c0000000000, 0x0000070000000000, 0x00000f0000000000, 0x0000000000ffffff, 0x000000ffff000000,
        0x00000fffffffffff, 0x000007ffffffffff, 0x00000b0004000020, 0x000005abcd123456,
    };
    static const uint64_t today[] = {
        0x0010000000000000, 0x0011240000000000, 0x0012000000000000, 0x0014000000000000, 0x0018000000000000, 0x0013240000000000,
        0x0015240000000000, 0x0019240000000000, 0x001e000000000000, 0x001f240000000000, 0x0010000000ffffff, 0x001000ffff000000,
        0x001f24ffffffffff, 0x001e00ffffffffff, 0x0017240004000020, 0x001a00abcd123456,
    };
    const size_t count = sizeof old / sizeof old[0];

    check(today[14] == descriptor_word(32, 4, 4, 4, 4, R | W | V, 0), "a word of ring 4 by hand");
    check(today[15] == descriptor_word(1193046, 43981, 0, 0, 0, R | E | V, 0), "a word of ring 0 by hand");
    for (size_t k = 0; k < count; k++) {
        word_both_ways(names[k], old[k], today[k]);
        refuses_word(names[k], &from_old, today[k]);
        refuses_word(names[k], &to_old, old[k]);
    }
    both_ways("all words by hand", old, today, count);
}

/* Bits 0 to 39 stay, 40 to 42 move by 9, 43 is the rings, and of the rest none may be on. */
static void every_old_bit(void)
{
    for (unsigned k = 0; k < 64; k++) {
        uint64_t bit = (uint64_t)1 << k;

        if (k < 43) {
            uint64_t moved = k < 40 ? bit : bit << 9;

            word_both_ways("one bit on", bit, inner | moved);
            word_both_ways("one bit off", old_bits ^ bit, 0x001f24ffffffffff ^ moved);
        } else if (k == 43) {
            word_both_ways("user on", bit, outer);
            word_both_ways("user off", old_bits ^ bit, 0x001e00ffffffffff);
        } else {
            refuses_word("56: one bit on", &from_old, bit);
            refuses_word("56: one bit more on", &from_old, old_bits | bit);
            refuses_word("56: one bit off", &from_old, ~bit);
        }
    }
    refuses_word("56: the whole rest on", &from_old, ~old_bits);
    refuses_word("56: all on", &from_old, UINT64_MAX);
}

/* A word of today's with one bit another: ADDRESS, LENGTH, R, W and E may be any, every other bit is asked for. */
static void every_bit_of_today(void)
{
    static const uint64_t old[] = {0x0000000000000000, 0x0000080000000000, 0x000007ffffffffff, 0x00000fffffffffff};
    static const uint64_t today[] = {0x0010000000000000, 0x0011240000000000, 0x001e00ffffffffff, 0x001f24ffffffffff};

    for (unsigned k = 0; k < 64; k++) {
        uint64_t bit = (uint64_t)1 << k;

        for (int word = 0; word < 4; word++) {
            if ((free_bits & bit) == 0)
                refuses_word(k == 52 ? "57: V" : k > 52 ? "57: GATE" : "57: rings", &to_old, today[word] ^ bit);
            else
                word_both_ways("one bit another", old[word] ^ (k < 40 ? bit : bit >> 9), today[word] ^ bit);
        }
        if (k != 52)
            refuses_word("57: one bit on", &to_old, bit);
        refuses_word("57: one bit off", &to_old, ~bit);
    }
    refuses_word("57: all on", &to_old, UINT64_MAX);
}

/* R1 is bits 40 to 42, R2 43 to 45, R3 46 to 48, and 4 4 4 are 124. Without V no rings will do. */
static void every_three_rings(void)
{
    for (uint64_t rings = 0; rings < RINGS; rings++) {
        uint64_t word = inner | rings << 40;

        if (rings == 0 || rings == 0x124) {
            word_both_ways("rings", rings == 0 ? 0x0000000000000000 : 0x0000080000000000, word);
            word_both_ways("rings, the rest on", rings == 0 ? 0x000007ffffffffff : 0x00000fffffffffff, word | free_bits);
        } else {
            refuses_word("57: rings", &to_old, word);
            refuses_word("57: rings, the rest on", &to_old, word | free_bits);
        }
        refuses_word("57: rings without V", &to_old, word ^ inner);
    }
}

static void every_gate(void)
{
    for (uint64_t gate = 1; gate < (uint64_t)1 << GATE_BITS; gate++) {
        refuses_word("57: GATE", &to_old, inner | gate << 53);
        refuses_word("57: GATE, the rest on", &to_old, outer | free_bits | gate << 53);
    }
}

/* Words that are all different: old ones, and what they become. */
static uint64_t old_word(uint64_t k)
{
    return k | (k & 15) << 40;
}

static uint64_t today_word(uint64_t k)
{
    return k | (k & 7) << 49 | ((k & 8) != 0 ? outer : inner);
}

/* Spoils such a word, each one after three in another way. */
static uint64_t spoilt(const way *w, uint64_t word, size_t k)
{
    static const uint64_t of_old[] = {(uint64_t)1 << 44, (uint64_t)1 << 63, (uint64_t)1 << 52};
    static const uint64_t of_today[] = {(uint64_t)1 << 52, (uint64_t)1 << 53, (uint64_t)1 << 43};

    return word ^ (w == &from_old ? of_old : of_today)[k % 3];
}

/* Six words, of which any may fail: the first that does is named, whatever the later ones are. */
static void every_choice_of_six(void)
{
    for (unsigned choice = 0; choice < 3 * 64; choice++) {
        uint64_t old[6];
        uint64_t today[6];
        uint64_t first = 0;

        for (unsigned k = 0; k < 6; k++) {
            bool fails = (choice >> k & 1) != 0;

            old[k] = fails ? spoilt(&from_old, old_word(k + 5), k + choice / 64) : old_word(k + 5);
            today[k] = fails ? spoilt(&to_old, today_word(k + 5), k + choice / 64) : today_word(k + 5);
        }
        if (choice % 64 == 0) {
            both_ways("six words", old, today, 6);
            continue;
        }
        while ((choice >> first & 1) == 0)
            first++;
        refuses("some of six words", &from_old, old, 6, first);
        refuses("some of six words", &to_old, today, 6, first);
    }
}

/* A segment of so many words, of which the one at `from` fails, or all from there on. */
static void refuses_from(const char *name, const way *w, size_t count, size_t from, bool all)
{
    static uint64_t words[LARGEST];

    for (size_t k = 0; k < count; k++) {
        words[k] = w == &from_old ? old_word(k) : today_word(k);
        if (k == from || (all && k > from))
            words[k] = spoilt(w, words[k], k);
    }
    refuses(name, w, words, count, from);
}

static void every_length(void)
{
    static const size_t counts[] = {0, 1, 2, 3, 511, 512, 513, 4095, 4096, 4097, 65535, 65536, 65537, LARGEST};
    static uint64_t old[LARGEST];
    static uint64_t today[LARGEST];

    for (size_t k = 0; k < LARGEST; k++) {
        old[k] = old_word(k);
        today[k] = today_word(k);
    }
    for (size_t n = 0; n < sizeof counts / sizeof counts[0]; n++) {
        size_t count = counts[n];

        both_ways("a whole segment", old, today, count);
        for (int k = 0; k < 2 && count > 0; k++) {
            const way *w = k == 0 ? &from_old : &to_old;

            refuses_from("the first word", w, count, 0, false);
            refuses_from("all words", w, count, 0, true);
            refuses_from("the middle", w, count, count / 2, false);
            refuses_from("the middle and all after it", w, count, count / 2, true);
            refuses_from("the last word", w, count, count - 1, false);
        }
    }
}

/* An old bench's memory. Segment 1 is words 16 to 23, R E, user; segment 2 is words 32 to 35, R W, and `third` is its word. */
static machine old_bench(uint64_t third)
{
    machine m = empty_machine(64);

    m.registers.dbr = (kuzhlemor_dbr){4, 3};
    m.registers.ipr = pointer_to(4, 1, 0);
    for (int k = 0; k < 8; k++)
        m.registers.prs[k] = pointer_to(4, 2, 0);
    m.memory[5] = 0x00000d0008000010;
    m.memory[6] = third;
    m.memory[16] = near(LDI, 0) | lit(7);
    m.memory[17] = by_pr(STA, 3, 0);
    return m;
}

/* Without V the fetch is 12. By descriptors converted where they stand, the program stores into a user's segment, and 23 keeps it
 * from another. */
static void a_run_after(void)
{
    machine m = old_bench(0x00000b0004000020);
    kuzhlemor_reply reply = kuzhlemor_run(&m.registers, m.memory, m.words, 2);

    check(same_reply(reply, fault(12, 0, pointer_to(4, 1, 0), 0)), "a run by old descriptors");
    check_answer("from old", "a bench", kuzhlemor_from_old(m.memory + 4, 3), passed);
    reply = kuzhlemor_run(&m.registers, m.memory, m.words, 2);
    check(same_reply(reply, spent(2, 0)) && m.memory[32] == 7, "a run by converted descriptors");
    check_answer("to old", "a bench", kuzhlemor_to_old(m.memory + 4, 3), passed);
    m.memory[32] = 0;
    check(memcmp(m.memory, old_bench(0x00000b0004000020).memory, sizeof m.memory) == 0, "a bench, there and back");

    m = old_bench(0x0000030004000020);
    check_answer("from old", "a bench without user", kuzhlemor_from_old(m.memory + 4, 3), passed);
    reply = kuzhlemor_run(&m.registers, m.memory, m.words, 2);
    check(same_reply(reply, fault(23, 1, pointer_to(4, 2, 0), 0)) && m.memory[32] == 0, "a run, no user's segment");

    m = old_bench(0x00001b0004000020);
    check_answer("from old", "a refused bench", kuzhlemor_from_old(m.memory + 4, 3), (kuzhlemor_old_answer){56, 2});
    reply = kuzhlemor_run(&m.registers, m.memory, m.words, 2);
    check(same_reply(reply, fault(12, 0, pointer_to(4, 1, 0), 0)), "a run by descriptors that were refused");
}

/* What is done to a word of a random segment: first of old ones, then of today's. */
typedef enum {
    BIT_44, BIT_63, ONE_OF_THE_REST, SOME_OF_THE_REST, ONE_OF_TODAY, ANY_OLD,
    V_OFF, ONE_BIT_OF_GATE, ANY_GATE, ONE_OTHER_RING, ALL_IN_ANOTHER_RING, ANY_RINGS, AN_OLD_ONE, ANY_TODAY,
    DAMAGES
} damage;

/* What is lent. */
static uint64_t random_words[LONG];
static size_t random_count;

/* Sometimes ADDRESS and LENGTH are 0, or all is on that may be. */
static uint64_t random_old(void)
{
    switch (random_below(8)) {
    case 0:
        return random_word() & 0x00000f0000000000;
    case 1:
        return old_bits;
    default:
        return random_word() & old_bits;
    }
}

static uint64_t random_today(void)
{
    uint64_t ring = one_in(2) ? outer : inner;

    switch (random_below(8)) {
    case 0:
        return ring | (random_word() & 0x000e000000000000);
    case 1:
        return ring | free_bits;
    default:
        return ring | (random_word() & free_bits);
    }
}

static uint64_t with_rings(uint64_t word, uint64_t rings)
{
    return (word & ~((uint64_t)(RINGS - 1) << 40)) | rings << 40;
}

/* Random numbers are never drawn in an order that C leaves open. */
static uint64_t damaged(damage what, uint64_t word)
{
    static const uint64_t rings[] = {1, 2, 3, 5, 6, 7};
    uint64_t change;

    switch (what) {
    case BIT_44:
        return word | (uint64_t)1 << 44;
    case BIT_63:
        return word | (uint64_t)1 << 63;
    case ONE_OF_THE_REST:
        return word | (uint64_t)1 << (44 + random_below(REST_BITS));
    case SOME_OF_THE_REST:
        return word | (uint64_t)(1 + random_below((1 << REST_BITS) - 1)) << 44;
    case ONE_OF_TODAY:
        return random_today();
    case V_OFF:
        return word & ~inner;
    case ONE_BIT_OF_GATE:
        return word | (uint64_t)1 << (53 + random_below(GATE_BITS));
    case ANY_GATE:
        return word | (uint64_t)(1 + random_below((1 << GATE_BITS) - 1)) << 53;
    case ONE_OTHER_RING:
        change = 1 + random_below(7);
        return word ^ change << (40 + 3 * random_below(3));
    case ALL_IN_ANOTHER_RING:
        return with_rings(word, rings[random_below(6)] * 0x49);
    case ANY_RINGS:
        return with_rings(word, random_below(RINGS));
    case AN_OLD_ONE:
        return random_old();
    default:
        return random_word();
    }
}

/* What has been seen: damages that were refused, causes that a failing word had alone, and where it stood. */
typedef struct {
    unsigned long whole[2];
    unsigned long refused[DAMAGES];
    unsigned long rest_bits[REST_BITS];
    unsigned long rings[RINGS];
    unsigned long gate_bits[GATE_BITS];
    unsigned long v_off;
    unsigned long first;
    unsigned long between;
    unsigned long last;
    unsigned long several;
    unsigned long empty;
    unsigned long long_segments;
} sight;

static void count_cause(sight *s, const way *w, uint64_t word)
{
    uint64_t rest = word >> 44;
    uint64_t rings = word >> 40 & (RINGS - 1);
    uint64_t gate = word >> 53;
    bool v = (word & inner) != 0;
    bool rings_fit = rings == 0 || rings == 0x124;

    for (int k = 0; k < REST_BITS; k++)
        s->rest_bits[k] += w == &from_old && rest == (uint64_t)1 << k;
    for (int k = 0; k < GATE_BITS; k++)
        s->gate_bits[k] += w == &to_old && v && rings_fit && gate == (uint64_t)1 << k;
    s->rings[rings] += w == &to_old && v && gate == 0;
    s->v_off += w == &to_old && !v && rings_fit && gate == 0;
}

static void count_segment(sight *s, const way *w, kuzhlemor_old_answer answer, bool several)
{
    if (answer.number == 0) {
        s->whole[w == &to_old]++;
        s->empty += random_count == 0;
        s->long_segments += random_count > 4096;
        return;
    }
    count_cause(s, w, random_words[answer.index]);
    s->first += answer.index == 0;
    s->between += answer.index > 0 && answer.index < random_count - 1;
    s->last += answer.index == random_count - 1;
    s->several += several;
}

static void check_sight(const sight *s)
{
    check(s->whole[0] > 0 && s->whole[1] > 0, "no segment was converted one of the ways");
    for (int k = 0; k < DAMAGES; k++)
        check(s->refused[k] > 0, "no segment with damage %d was refused", k);
    for (int k = 0; k < REST_BITS; k++)
        check(s->rest_bits[k] > 0, "no old word had bit %d on, and no other of the rest", 44 + k);
    for (int k = 0; k < GATE_BITS; k++)
        check(s->gate_bits[k] > 0, "no word failed by bit %d of GATE", k);
    for (int k = 0; k < RINGS; k++)
        check((s->rings[k] > 0) == (k != 0 && k != 0x124), "rings %d %d %d: %lu refused", k & 7, k >> 3 & 7, k >> 6, s->rings[k]);
    check(s->v_off > 0, "no word failed by V");
    check(s->first > 0 && s->between > 0 && s->last > 0, "no first, last or other word failed");
    check(s->several > 0, "no segment had several failing words");
    check(s->empty > 0, "no empty segment was converted");
    check(s->long_segments > 0, "no segment of more than 4,096 words was converted");
}

/* The library leaves what plain C leaves; whatever that says, a refused segment stays, and a converted one comes back. */
static kuzhlemor_old_answer compare(const char *name, const way *w, bool at_end)
{
    static uint64_t left[LONG];
    static uint64_t wanted_left[LONG];
    kuzhlemor_old_answer answer;
    kuzhlemor_old_answer wanted;

    memcpy(left, random_words, random_count * sizeof left[0]);
    memcpy(wanted_left, random_words, random_count * sizeof left[0]);
    wanted = call(w->plain, wanted_left, random_count, at_end);
    answer = call(w->library, left, random_count, at_end);
    check_answer(w->name, name, answer, wanted);
    check_words(w->name, name, left, wanted_left, random_count);
    if (answer.number == 0)
        check_answer("and back", name, call(w->back, left, random_count, !at_end), passed);
    check_words("what was lent", name, left, random_words, random_count);
    return answer;
}

static void random_segments(void)
{
    static sight seen;

    for (int k = 0; k < SEGMENTS; k++) {
        const way *w = one_in(2) ? &from_old : &to_old;
        damage what = w == &from_old ? random_below(V_OFF) : V_OFF + random_below(DAMAGES - V_OFF);
        unsigned most = one_in(800) ? LONG : one_in(40) ? 600 : one_in(2) ? 5 : 20;
        unsigned damages = one_in(4) ? 0 : one_in(5) ? 2 + random_below(3) : 1;
        kuzhlemor_old_answer answer;
        char name[64];

        random_count = random_below(most + 1);
        for (size_t word = 0; word < random_count; word++)
            random_words[word] = w == &from_old ? random_old() : random_today();
        for (unsigned n = 0; n < damages && random_count > 0; n++) {
            uint64_t *word = &random_words[one_in(8) ? random_count - 1 : random_below((uint32_t)random_count)];

            *word = damaged(what, *word);
        }
        snprintf(name, sizeof name, "random segment %d, damage %d", k, damages == 0 ? -1 : (int)what);
        answer = compare(name, w, k % 2 == 0);
        seen.refused[what] += answer.number != 0;
        count_segment(&seen, w, answer, damages > 1);
    }
    check_sight(&seen);
}

int main(void)
{
    words_by_hand();
    every_old_bit();
    every_bit_of_today();
    every_three_rings();
    every_gate();
    every_choice_of_six();
    every_length();
    a_run_after();
    random_segments();
    printf("tests/c/old: %lu checks passed\n", checks);
    return 0;
}
