/* blocks SEED COUNT: blocks that no call has written.  Each is read into the
 * model by docs/LAYOUTS.md, and a few calls to both are compared: the answers,
 * and every byte afterwards. */
#include <inttypes.h>
#include <stdio.h>
#include <stdlib.h>
#include <string.h>
#include "cleftromi.h"
#include "layout.h"
#include "mix.h"
#include "pair.h"
#include "reasons.h"

static pair both;
static model before; /* the call */
static mix calls;
static reasons why;
static uint8_t block[LAYOUT_BYTES];
static unsigned long refused, granted, mapped, kept_bad, beyond;
static unsigned long modified[MODEL_UNDEFINED + 1]; /* read-modify-writes, by the kind of answer */

/* ------------------------------------------------------------------ */
/* Blocks                                                              */
/* ------------------------------------------------------------------ */

static void random_bytes(void)
{
    for (size_t i = 0; i < LAYOUT_BYTES; i++)
        block[i] = (uint8_t)mix_random(&calls);
}

static void good_count(void)
{
    block[0] = (uint8_t)(1 + mix_below(&calls, 6));
}

/* Bytes of descriptors with few ones in the masks, so that many match. */
static void wide_masks(void)
{
    for (size_t at = 128; at < 1856; at += 9) {
        block[at + 2] &= (uint8_t)mix_random(&calls);
        block[at + 3] &= (uint8_t)mix_random(&calls);
        block[at + 8] &= (uint8_t)mix_random(&calls);
    }
}

/* Every mark of every unit, so that nothing is sent before an operation. */
static void all_marks(void)
{
    for (size_t at = 32; at < 128; at += 16) {
        block[at + 9] = 0xFF;
        block[at + 10] |= 1;
    }
}

/* Most segments disabled, so that a load has a chance. */
static void few_enabled(void)
{
    for (size_t at = 128; at < 1856; at += 9)
        if (mix_below(&calls, 16) != 0)
            block[at + 7] &= (uint8_t)~CLEFTROMI_SSR_E;
}

static void written_form(void)
{
    static model m;
    layout_decode(block, &m);
    if (m.count >= 1 && m.count <= 6)
        layout_encode(&m, block);
}

static void damage(void)
{
    for (unsigned n = mix_below(&calls, 5); n > 0; n--) {
        unsigned at = mix_below(&calls, mix_below(&calls, 2) ? 1900 : LAYOUT_BYTES);
        block[at] = (uint8_t)mix_random(&calls);
    }
}

static void make_block(void)
{
    random_bytes();
    if (mix_below(&calls, 8) != 0)
        good_count();
    if (mix_below(&calls, 2))
        wide_masks();
    if (mix_below(&calls, 2))
        all_marks();
    if (mix_below(&calls, 2))
        few_enabled();
    if (mix_below(&calls, 2)) {
        written_form();
        damage();
    }
    if (mix_below(&calls, 32) == 0)
        block[0] = (uint8_t)mix_random(&calls);
}

/* ------------------------------------------------------------------ */
/* Calls                                                               */
/* ------------------------------------------------------------------ */

static bool has_good_count(const model *m)
{
    return m->count >= 1 && m->count <= 6;
}

/* The block as if it had all six units. */
static const model *with_six_units(void)
{
    static uint8_t copy[LAYOUT_BYTES];
    static model m;
    memcpy(copy, block, LAYOUT_BYTES);
    copy[0] = 6;
    layout_decode(copy, &m);
    return &m;
}

/* Some enabled descriptor, now and then one of a unit that the count leaves out;
 * or NULL. */
static const model_descriptor *some_enabled(const model *m)
{
    unsigned unit, number;
    return mix_often_first(&calls, mix_below(&calls, 4) ? m : with_six_units(), &unit, &number);
}

/* The table and the accumulators of the block, not of the library, ask for a page
 * and a number: an access or a direct translation can then be the first call that
 * the block sees. */
static call asking(const model *m, unsigned page, uint8_t number)
{
    unsigned unit = mix_below(&calls, m->count), code = mix_below(&calls, 16);
    uint8_t *ac = block + 32 + 16 * unit;
    call access = {CALL_ACCESS, {code, mix_direction(&calls), (uint64_t)page << 8 | 0x5A}, 0};
    call translation = {CALL_REGISTER, {unit, CLEFTROMI_TRANSLATE, CLEFTROMI_READ}, 0x5A};
    memset(block + 16, number, 16);
    ac[0] = (uint8_t)(page >> 8);
    ac[1] = (uint8_t)page;
    ac[6] = number;
    return mix_below(&calls, 4) ? access : translation;
}

/* For what some descriptor matches, or for all of it but the number. */
static call aimed_call(void)
{
    static model m;
    layout_decode(block, &m);
    const model_descriptor *d = has_good_count(&m) ? some_enabled(&m) : NULL;
    if (d == NULL) {
        unsigned code = mix_below(&calls, 16);
        call c = {CALL_ACCESS, {code, mix_direction(&calls), 0x5A5A5A}, 0};
        return c;
    }
    unsigned page = mix_page(&calls, d);
    return asking(&m, page, mix_below(&calls, 2) ? mix_number(&calls, d) : mix_other_number(&calls, d));
}

static void lend(void)
{
    size_t at = PAIR_GUARD + mix_below(&calls, 64);
    size_t more = PAIR_ROOM - PAIR_GUARD - LAYOUT_BYTES - at;
    size_t bytes = LAYOUT_BYTES + (mix_below(&calls, 2) ? 0 : mix_below(&calls, (unsigned)more));
    pair_lend(&both, block, at, bytes, mix_random(&calls));
}

/* There is none to name in the units that the count has, and one in the space above. */
static void note_beyond(call c)
{
    const model *six = with_six_units();
    beyond += both.answer.kind == MODEL_UNDEFINED && both.answer.near == 0 && reasons_near(six, c, before.count);
}

static bool compare(call c, unsigned long number, uint64_t seed)
{
    before = both.m;
    if (!pair_call(&both, c)) {
        printf("seed %" PRIu64 ", block %lu, %zu bytes lent at %zu: ", seed, number, both.bytes, both.at);
        call_print(c);
        return false;
    }
    refused += both.answer.refusal != 0;
    kept_bad += both.answer.refusal == 1;
    granted += both.answer.refusal == 0;
    if (both.answer.refusal == 0)
        reasons_note(&why, &before, c);
    mapped += both.answer.kind == MODEL_MAPPED;
    modified[both.answer.kind] += c.name == CALL_ACCESS && c.number[1] == CLEFTROMI_MODIFY;
    return true;
}

/* The last call of a sequence alone, or a whole sequence. */
static bool some_calls(unsigned long number, uint64_t seed)
{
    if (mix_below(&calls, 2))
        return compare(mix_single(&calls, &both.m), number, seed);
    do
        if (!compare(mix_next(&calls, &both.m), number, seed))
            return false;
    while (calls.waiting > 0);
    return true;
}

static bool try_block(unsigned long number, uint64_t seed)
{
    make_block();
    if (mix_below(&calls, 3) != 0) {
        lend();
        return some_calls(number, seed);
    }
    call first = aimed_call();
    lend();
    if (!compare(first, number, seed))
        return false;
    note_beyond(first);
    return compare(mix_single(&calls, &both.m), number, seed);
}

int main(int argc, char **argv)
{
    if (argc != 3) {
        fprintf(stderr, "blocks SEED COUNT\n");
        return 2;
    }
    uint64_t seed = strtoull(argv[1], NULL, 0);
    unsigned long wanted = strtoul(argv[2], NULL, 0);
    mix_begin(&calls, seed);
    for (unsigned long i = 0; i < wanted; i++)
        if (!try_block(i, seed))
            return 1;
    const char *missing = reasons_report(&why, "", wanted < 10000 ? 0 : 10);
    bool enough = wanted < 10000 || (refused > 100 && granted > 100 && mapped > 100 && kept_bad > 100 &&
                                     modified[MODEL_REFUSED] > 10 && modified[MODEL_MAPPED] > 100 &&
                                     modified[MODEL_VIOLATION] > 100 && modified[MODEL_UNDEFINED] > 100 &&
                                     beyond > 10 && missing == NULL);
    printf("%lu blocks, %lu calls granted (%lu mapped), %lu refused (%lu for the count)", wanted, granted, mapped,
           refused, kept_bad);
    printf(", of read-modify-writes %lu mapped, %lu violations, %lu undefined, %lu refused",
           modified[MODEL_MAPPED], modified[MODEL_VIOLATION], modified[MODEL_UNDEFINED], modified[MODEL_REFUSED]);
    printf(", %lu undefined where units above the count would have been named%s\n", beyond,
           enough ? ", all the same" : ", but some of these were seen too seldom");
    return enough ? 0 : 1;
}
