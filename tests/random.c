/* random SEED CALLS: the same random calls to the library and to the model,
 * compared answer by answer and, after every call, byte by byte. */
#include <inttypes.h>
#include <stdio.h>
#include <stdlib.h>
#include "cleftromi.h"
#include "layout.h"
#include "mix.h"
#include "pair.h"
#include "reasons.h"

static pair both;
static model before; /* the call */
static mix calls;
static reasons why;

/* ------------------------------------------------------------------ */
/* What has been seen                                                  */
/* ------------------------------------------------------------------ */

enum {
    SEEN_REFUSALS = 0, /* 1 to 7 at their own number */
    SEEN_DONE = 8,
    SEEN_BYTE,
    SEEN_MAPPED,
    SEEN_VIOLATION,
    SEEN_UNDEFINED,
    SEEN_IRQ,
    SEEN_WIN,
    SEEN_VECTOR,
    SEEN_LOAD,
    SEEN_CLASH,
    SEEN_CLASH_ELSEWHERE,
    SEEN_TRANSLATION,
    SEEN_NO_TRANSLATION,
    SEEN_DOUBLE_FAULT,
    SEEN_LAST_UNIT,
    SEEN_LAST_UNIT_NAMED,
    SEEN_FULL_UNIT,
    SEEN_MODIFIED,
    SEEN_MODIFY_FAULT,
    SEEN_MODIFY_DOUBLE_FAULT,
    SEEN_MODIFY_IRQ,
    SEEN_MODIFY_VIOLATION, /* the rarest of the kinds below */
    SEEN_THREE,
    SEEN_WIDE_TWO,
    SEEN_REGISTER_TWO,
    SEEN_REGISTER_WIDE_TWO,
    SEEN_END
};

static const char *const seen_names[SEEN_END] = {
    0, "refusals 1", "refusals 2", "refusals 3", "refusals 4", "refusals 5", "refusals 6", "refusals 7",
    "done", "bytes", "mapped", "violations", "undefined", "IRQ", "WIN", "vectors",
    "loads granted", "loads refused", "loads refused by another unit alone", "translations", "translations refused",
    "double faults", "answers of unit 5", "places named in unit 5", "full units",
    "read-modify-writes of free segments", "undefined read-modify-writes with F clear", "with F set",
    "read-modify-writes of protected segments that raise IRQ", "the rarest of 32 kinds of those that violate",
    "accesses with direction 3", "with another that ends in 2", "register accesses with direction 2",
    "with another that ends in 2",
};

static unsigned long seen[SEEN_END];

/* Violating read-modify-writes by what stood before: one unit or several, IE,
 * and I, IP and U of the segment. */
static unsigned long violated[2][2][2][2][2];

static bool is_read(call c, unsigned address)
{
    return c.name == CALL_REGISTER && c.number[1] == address && c.number[2] == 0;
}

static void note_load(call c, model_answer a)
{
    seen[a.byte == 0 ? SEEN_LOAD : SEEN_CLASH]++;
    if (a.byte != 0 && both.m.unit[c.number[0]].rdp == 0x80)
        seen[SEEN_CLASH_ELSEWHERE]++;
}

static bool full(const model_unit *u)
{
    for (unsigned e = 0; e < 32; e++)
        if ((u->d[e].ssr & CLEFTROMI_SSR_E) == 0)
            return false;
    return true;
}

static bool ends_in_two(uint64_t direction)
{
    return direction > 255 && direction % 256 == 2;
}

static void note_direction(call c)
{
    if (c.name == CALL_ACCESS) {
        seen[SEEN_THREE] += c.number[1] == 3;
        seen[SEEN_WIDE_TWO] += ends_in_two(c.number[1]);
    } else if (c.name == CALL_REGISTER) {
        seen[SEEN_REGISTER_TWO] += c.number[2] == CLEFTROMI_MODIFY;
        seen[SEEN_REGISTER_WIDE_TWO] += ends_in_two(c.number[2]);
    }
}

static void note_modify(const model *old, model_answer a, bool irq)
{
    const uint8_t ssr = old->unit[a.unit].d[a.descriptor].ssr;
    if (a.kind == MODEL_MAPPED) {
        seen[SEEN_MODIFIED]++;
    } else if (a.kind == MODEL_UNDEFINED) {
        seen[old->gsr & CLEFTROMI_GSR_F ? SEEN_MODIFY_DOUBLE_FAULT : SEEN_MODIFY_FAULT]++;
    } else {
        seen[SEEN_MODIFY_IRQ] += a.irq && !irq;
        violated[old->count > 1][(old->gsr & CLEFTROMI_GSR_IE) != 0][(ssr & CLEFTROMI_SSR_I) != 0]
                [(ssr & CLEFTROMI_SSR_IP) != 0][(ssr & CLEFTROMI_SSR_U) != 0]++;
    }
}

/* "old" is the state before the call; "irq" is what the last answer said. */
static void note(const model *old, call c, model_answer a)
{
    static unsigned irq;
    if (a.refusal != 0) {
        seen[SEEN_REFUSALS + a.refusal]++;
        return;
    }
    bool fault = a.kind == MODEL_VIOLATION || a.kind == MODEL_UNDEFINED;
    seen[SEEN_DONE - MODEL_DONE + a.kind]++;
    seen[SEEN_IRQ] += a.irq;
    seen[SEEN_WIN] += a.win;
    seen[SEEN_VECTOR] += c.name == CALL_ACKNOWLEDGE;
    seen[SEEN_DOUBLE_FAULT] += fault && (both.m.gsr & CLEFTROMI_GSR_DF) != 0;
    seen[a.near ? SEEN_LAST_UNIT_NAMED : SEEN_LAST_UNIT] += a.unit == 5;
    if (is_read(c, CLEFTROMI_LOAD))
        note_load(c, a);
    if (is_read(c, CLEFTROMI_TRANSLATE))
        seen[a.byte == 0 ? SEEN_TRANSLATION : SEEN_NO_TRANSLATION]++;
    if (c.name == CALL_ACCESS)
        seen[SEEN_FULL_UNIT] += full(&both.m.unit[0]);
    note_direction(c);
    reasons_note(&why, old, c);
    if (c.name == CALL_ACCESS && c.number[1] == CLEFTROMI_MODIFY)
        note_modify(old, a, irq);
    irq = a.irq;
}

static unsigned long rarest(const unsigned long *counts, unsigned length)
{
    unsigned long least = counts[0];
    for (unsigned i = 1; i < length; i++)
        if (counts[i] < least)
            least = counts[i];
    return least;
}

/* A long run that misses one of these tests less than it says. */
static int report(unsigned long made)
{
    unsigned long least = made >= 1000000 ? 20 : 0;
    int status = reasons_report(&why, "", least) != NULL;
    seen[SEEN_MODIFY_VIOLATION] = rarest(&violated[0][0][0][0][0], 32);
    for (unsigned i = 1; i < SEEN_END; i++) {
        printf("%s%lu %s", i > 1 ? ", " : "", seen[i], seen_names[i]);
        if (seen[i] < least)
            status = 1;
    }
    printf("\n%lu calls%s\n", made, status ? ", but some of these were seen too seldom" : ", all the same");
    return status;
}

/* ------------------------------------------------------------------ */

/* Another place, another length; now and then one that is too short. */
static void lend_again(void)
{
    size_t at = PAIR_GUARD + mix_below(&calls, 64);
    size_t more = PAIR_ROOM - PAIR_GUARD - LAYOUT_BYTES - at;
    size_t bytes = LAYOUT_BYTES + (mix_below(&calls, 2) ? 0 : mix_below(&calls, (unsigned)more));
    pair_lend(&both, both.wanted + both.at, at, bytes, mix_random(&calls));
}

static void vary_length(void)
{
    static size_t kept;
    if (both.bytes < LAYOUT_BYTES)
        both.bytes = kept;
    else if (mix_below(&calls, 500) == 0) {
        kept = both.bytes;
        both.bytes = mix_below(&calls, LAYOUT_BYTES);
    }
}

/* The first block is random bytes: a start looks at none of them. */
static void begin(uint64_t seed)
{
    static uint8_t noise[LAYOUT_BYTES];
    mix_begin(&calls, seed);
    for (size_t i = 0; i < LAYOUT_BYTES; i++)
        noise[i] = (uint8_t)mix_random(&calls);
    pair_lend(&both, noise, PAIR_GUARD, LAYOUT_BYTES, seed);
}

int main(int argc, char **argv)
{
    if (argc != 3) {
        fprintf(stderr, "random SEED CALLS\n");
        return 2;
    }
    uint64_t seed = strtoull(argv[1], NULL, 0);
    unsigned long wanted = strtoul(argv[2], NULL, 0);
    call start = {CALL_START, {1 + seed % 6, CLEFTROMI_NONE, 0}, 0};
    begin(seed);
    for (unsigned long i = 0; i < wanted; i++) {
        if (i % 256 == 255)
            lend_again();
        vary_length();
        call c = i == 0 ? start : mix_next(&calls, &both.m);
        before = both.m;
        if (!pair_call(&both, c)) {
            printf("seed %" PRIu64 ", call %lu, %zu bytes lent at %zu: ", seed, i, both.bytes, both.at);
            call_print(c);
            return 1;
        }
        note(&before, c, both.answer);
    }
    return report(wanted);
}
