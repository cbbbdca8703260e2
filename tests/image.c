/* image SEED HISTORIES FILE: saves and restores by the library and by the model,
 * compared: the answer, the block and the image, and every byte around both.
 *
 *   - FILE, an image that was kept, and the calls that it came from;
 *   - states that random histories reach, saved, and restored into random bytes;
 *     the calls that follow; saves and restores among the calls of a history;
 *   - blocks that no history reaches, saved;
 *   - images with one fault and with two, of one to six units;
 *   - blocks of an image in another order, too few and too many;
 *   - every length of an image up to 3,600, and lengths of the lent block.
 *
 * Where the request says what the answer is, the number stands here too: so the
 * model is tested as well. */
#include <inttypes.h>
#include <stdio.h>
#include <stdlib.h>
#include <string.h>
#include "cleftromi.h"
#include "layout.h"
#include "mix.h"
#include "model_image.h"
#include "pair.h"
#include "pair_image.h"

#define UNITS 6u
#define LENGTHS 3600u
#define REFUSALS 11u

enum { GRANTED = 0, COUNT = 1, BLOCK = 7, LENGTH = 8, CHECK = 9, FIELDS = 10 };

static pair both;
static lent_image lent;
static mix calls;
static uint64_t seed;
static unsigned long made, saves[REFUSALS], restores[REFUSALS];

/* An image that is worked on, and its count of blocks. */
typedef struct {
    uint8_t bytes[IMAGE_LONGEST];
    unsigned count;
} image;

/* ------------------------------------------------------------------ */
/* Failing, random bytes                                               */
/* ------------------------------------------------------------------ */

static void fail(const char *call, const char *what)
{
    printf("seed %" PRIu64 ", case %lu, %s, %s: %zu bytes of state lent at %zu, %zu of image at %zu\n", seed, made,
           call, what, both.bytes, both.at, lent.bytes, lent.at);
    exit(1);
}

static void must(bool good, const char *what)
{
    if (!good)
        fail("not as it should be", what);
}

static void must_be(unsigned got, unsigned due, const char *what)
{
    if (got == due)
        return;
    printf("  the model gives %u, and %u is due\n", got, due);
    fail("the model", what);
}

static bool one_in(unsigned n)
{
    return mix_below(&calls, n) == 0;
}

static uint8_t not_zero(void)
{
    return (uint8_t)(1 + mix_below(&calls, 255));
}

static void random_bytes(uint8_t *to, size_t length)
{
    uint64_t some = 0;
    for (size_t i = 0; i < length; i++) {
        some = i % 8 == 0 ? mix_random(&calls) : some >> 8;
        to[i] = (uint8_t)some;
    }
}

static size_t some_place(void)
{
    return PAIR_GUARD + mix_below(&calls, 64);
}

/* ------------------------------------------------------------------ */
/* Single calls                                                        */
/* ------------------------------------------------------------------ */

/* Long enough; half of them no longer than need be. */
static void lend_block(const uint8_t *block)
{
    size_t at = some_place(), more = PAIR_ROOM - PAIR_GUARD - LAYOUT_BYTES - at;
    size_t bytes = LAYOUT_BYTES + (one_in(2) ? 0 : mix_below(&calls, (unsigned)more));
    pair_lend(&both, block, at, bytes, mix_random(&calls));
}

static void lend_noise(void)
{
    static uint8_t noise[LAYOUT_BYTES];
    random_bytes(noise, LAYOUT_BYTES);
    lend_block(noise);
}

/* Random bytes to save into. */
static void lend_room(size_t bytes)
{
    size_t at = some_place();
    image_lend(&lent, NULL, 0, at, bytes, mix_random(&calls));
}

static void lend_bytes(const uint8_t *bytes, size_t length)
{
    size_t at = some_place();
    image_lend(&lent, bytes, length, at, length, mix_random(&calls));
}

static unsigned save(const char *what)
{
    made++;
    if (!pair_save(&both, &lent))
        fail("save", what);
    saves[both.answer.refusal]++;
    return both.answer.refusal;
}

static unsigned restore(const char *what)
{
    made++;
    if (!pair_restore(&both, &lent))
        fail("restore", what);
    restores[both.answer.refusal]++;
    return both.answer.refusal;
}

static void make(call c)
{
    made++;
    if (!pair_call(&both, c)) {
        call_print(c);
        fail("call", "among saves and restores");
    }
}

static void some_calls(unsigned n)
{
    for (; n > 0; n--)
        make(mix_next(&calls, &both.m));
}

/* ------------------------------------------------------------------ */
/* Round trips                                                         */
/* ------------------------------------------------------------------ */

static size_t right_length(void)
{
    return IMAGE_BLOCK * both.m.count;
}

/* The state that stands, into "i".  One that a history reached is never refused. */
static void save_reached(image *i)
{
    lend_room(right_length());
    must_be(save("a reached state"), GRANTED, "a reached state");
    i->count = both.m.count;
    memcpy(i->bytes, lent.room + lent.at, lent.bytes);
}

static unsigned restore_image(const image *i, const char *what)
{
    lend_bytes(i->bytes, IMAGE_BLOCK * i->count);
    return restore(what);
}

/* "Reading an accepted image, then writing, gives the bytes." */
static void write_again(const image *i, const char *what)
{
    lend_room(IMAGE_BLOCK * i->count);
    must_be(save(what), GRANTED, what);
    must(memcmp(lent.room + lent.at, i->bytes, lent.bytes) == 0, "restored and saved, other bytes");
}

/* An image, restored into random bytes; what is accepted is now and then saved
 * again, or goes on by some calls. */
static unsigned try_image(const image *i, const char *what)
{
    lend_noise();
    unsigned refusal = restore_image(i, what);
    if (refusal == GRANTED && one_in(4))
        write_again(i, what);
    if (refusal == GRANTED && one_in(16))
        some_calls(8);
    return refusal;
}

/* "Writing then reading gives the state." */
static void round_trip(void)
{
    static uint8_t block[LAYOUT_BYTES];
    static image saved;
    memcpy(block, both.room + both.at, LAYOUT_BYTES);
    save_reached(&saved);
    must(memcmp(block, both.room + both.at, LAYOUT_BYTES) == 0, "a save changes a reached state");
    lend_noise();
    must_be(restore_image(&saved, "a reached state"), GRANTED, "a reached state");
    must(memcmp(block, both.room + both.at, LAYOUT_BYTES) == 0, "saved and restored, another state");
    write_again(&saved, "a reached state");
}

/* ------------------------------------------------------------------ */
/* Changing an image                                                   */
/* ------------------------------------------------------------------ */

static uint8_t *block_of(image *i, unsigned k)
{
    return i->bytes + IMAGE_BLOCK * k;
}

static uint8_t *status_of(image *i, unsigned k, unsigned e)
{
    return block_of(i, k) + IMAGE_DESCRIPTORS + 9 * e + 7;
}

static void mend(image *i)
{
    for (unsigned k = 0; k < i->count; k++)
        model_mend(block_of(i, k));
}

/* Every block's check is put right, and the image must have this answer. */
static void mended(image *i, unsigned due, const char *what)
{
    mend(i);
    must_be(try_image(i, what), due, what);
}

/* The same change in every block. */
static void set_in_all(image *i, unsigned at, uint8_t value)
{
    for (unsigned k = 0; k < i->count; k++)
        block_of(i, k)[at] = value;
}

static void mark(image *i, unsigned k, unsigned n, bool on)
{
    uint8_t *marks = block_of(i, k) + IMAGE_MARKS;
    unsigned word = (marks[0] << 8 | marks[1]) & ~(1u << n);
    word |= (on ? 1u : 0u) << n;
    marks[0] = (uint8_t)(word >> 8);
    marks[1] = (uint8_t)word;
}

static void disable_all(image *i)
{
    for (unsigned k = 0; k < i->count; k++)
        for (unsigned e = 0; e < 32; e++)
            *status_of(i, k, e) &= (uint8_t)~(CLEFTROMI_SSR_E | CLEFTROMI_SSR_IP);
}

/* ------------------------------------------------------------------ */
/* Histories                                                           */
/* ------------------------------------------------------------------ */

#define KEPT 16u
static image kept[KEPT]; /* of earlier states */
static unsigned filled;

static void keep(const image *i)
{
    kept[filled < KEPT ? filled++ : mix_below(&calls, KEPT)] = *i;
}

static void save_in_history(void)
{
    static image saved;
    if (!one_in(4)) {
        save_reached(&saved);
        keep(&saved);
        return;
    }
    size_t length = one_in(2) ? IMAGE_BLOCK * mix_below(&calls, 8) : mix_below(&calls, LENGTHS);
    lend_room(length);
    must_be(save("in a history"), length == right_length() ? GRANTED : LENGTH, "in a history");
}

/* A byte or two changed, the check left or mended. */
static void damage(image *i)
{
    for (unsigned n = 1 + mix_below(&calls, 2); n > 0; n--) {
        unsigned at = mix_below(&calls, IMAGE_BLOCK * i->count);
        i->bytes[at] ^= not_zero();
    }
    if (one_in(2))
        mend(i);
}

/* Into the state that stands, or into random bytes; where the image is refused
 * the history goes on from the state that stood. */
static void restore_in_history(void)
{
    static image i;
    if (filled == 0)
        return;
    i = kept[mix_below(&calls, filled)];
    if (one_in(2))
        damage(&i);
    else if (one_in(2))
        lend_noise();
    restore_image(&i, "in a history");
}

static void history(unsigned count)
{
    call start = {CALL_START, {count, mix_below(&calls, count), 0}, 0};
    lend_noise();
    make(start);
    for (unsigned n = 0; n < 40; n++) {
        some_calls(1 + mix_below(&calls, 40));
        if (one_in(2))
            save_in_history();
        else
            restore_in_history();
    }
    round_trip();
    some_calls(20);
}

/* A state with this count that calls alone have reached. */
static void reach(unsigned count, unsigned length)
{
    call start = {CALL_START, {count, mix_below(&calls, count), 0}, 0};
    lend_noise();
    make(start);
    while (length > 0) {
        call c = mix_next(&calls, &both.m);
        if (c.name == CALL_START || c.name == CALL_RESET)
            continue;
        make(c);
        length--;
    }
}

/* ------------------------------------------------------------------ */
/* Blocks that no history reaches                                      */
/* ------------------------------------------------------------------ */

static void few_enabled(uint8_t *block)
{
    for (size_t at = 128; at < 1856; at += 9)
        if (!one_in(24))
            block[at + 7] &= (uint8_t)~CLEFTROMI_SSR_E;
}

/* The accumulators alike, but for one byte now and then. */
static void same_accumulators(uint8_t *block)
{
    for (size_t at = 48; at < 128; at += 16)
        memcpy(block + at, block + 32, 9);
    unsigned unit = mix_below(&calls, UNITS), n = mix_below(&calls, 9);
    if (one_in(2))
        block[32 + 16 * unit + n] ^= not_zero();
}

static void noise_saved(void)
{
    static uint8_t block[LAYOUT_BYTES];
    static image i;
    random_bytes(block, LAYOUT_BYTES);
    if (!one_in(32))
        block[0] = (uint8_t)(1 + mix_below(&calls, UNITS));
    if (!one_in(4))
        few_enabled(block);
    if (!one_in(4))
        same_accumulators(block);
    lend_block(block);
    lend_room(one_in(8) ? IMAGE_BLOCK * mix_below(&calls, 8) : IMAGE_BLOCK * (both.m.count % 7));
    if (save("random bytes") != GRANTED)
        return;
    i.count = both.m.count;
    memcpy(i.bytes, lent.room + lent.at, lent.bytes);
    must_be(try_image(&i, "random bytes, saved"), GRANTED, "random bytes, saved");
}

/* ------------------------------------------------------------------ */
/* One fault: every byte, every reserved bit                           */
/* ------------------------------------------------------------------ */

/* One byte changed shows in the sum; with the check mended its field decides. */
static void every_byte(const image *good)
{
    static image i;
    for (unsigned at = 0; at < IMAGE_BLOCK * good->count; at++) {
        i = *good;
        i.bytes[at] ^= not_zero();
        must_be(try_image(&i, "a byte changed"), CHECK, "a byte changed");
        mend(&i);
        try_image(&i, "a byte changed, the check mended");
    }
}

static void every_bit(const image *good)
{
    static image i;
    for (unsigned bit = 0; bit < 8 * IMAGE_BLOCK * good->count; bit++) {
        i = *good;
        i.bytes[bit / 8] ^= (uint8_t)(1u << bit % 8);
        mend(&i);
        try_image(&i, "a bit changed, the check mended");
    }
}

static void reserved_bit(const image *good, unsigned k, unsigned at, uint8_t bits, const char *what)
{
    static image i;
    for (unsigned bit = 1; bit < 256; bit <<= 1) {
        if ((bits & bit) == 0)
            continue;
        i = *good;
        block_of(&i, k)[at] |= (uint8_t)bit;
        mended(&i, FIELDS, what);
    }
}

static void reserved_bits(const image *good, unsigned k)
{
    reserved_bit(good, k, IMAGE_MARKS, 0xFE, "a mark above the ninth");
    reserved_bit(good, k, IMAGE_DP, 0xE0, "DP above five bits");
    reserved_bit(good, k, IMAGE_GSR, 0x3E, "GSR 1 to 5");
    reserved_bit(good, k, IMAGE_LSR, 0x07, "LSR 0 to 2");
    reserved_bit(good, k, IMAGE_RDP, 0x60, "RDP 5 and 6");
    for (unsigned e = 0; e < 32; e++)
        reserved_bit(good, k, IMAGE_DESCRIPTORS + 9 * e + 7, 0x60, "SSR 5 and 6");
    for (unsigned at = IMAGE_ZEROS; at < IMAGE_CHECK; at++)
        reserved_bit(good, k, at, 0xFF, "a reserved byte");
}

/* In all blocks alike, so that it is not that they differ. */
static void reserved_in_all(const image *good)
{
    static image i;
    for (unsigned bit = 1; bit < 6; bit++) {
        i = *good;
        set_in_all(&i, IMAGE_GSR, (uint8_t)(good->bytes[IMAGE_GSR] | 1u << bit));
        mended(&i, FIELDS, "GSR 1 to 5 in all blocks");
    }
}

/* ------------------------------------------------------------------ */
/* One fault: the other rules of a block                               */
/* ------------------------------------------------------------------ */

static void every_value(const image *good, unsigned k, unsigned at, unsigned only, const char *what)
{
    static image i;
    for (unsigned value = 0; value < 256; value++) {
        i = *good;
        block_of(&i, k)[at] = (uint8_t)value;
        mended(&i, value == only ? GRANTED : FIELDS, what);
    }
}

static void number_under_nvr(const image *good, unsigned k)
{
    static image i;
    for (unsigned rdp = 0; rdp <= 0x9F; rdp = rdp == 0x1F ? 0x80 : rdp + 1) {
        i = *good;
        block_of(&i, k)[IMAGE_RDP] = (uint8_t)rdp;
        mended(&i, rdp > 0x80 ? FIELDS : GRANTED, "RDP");
    }
}

static void pending_without_enable(const image *good, unsigned k)
{
    static image i;
    for (unsigned e = 0; e < 32; e++) {
        i = *good;
        *status_of(&i, k, e) &= (uint8_t)~CLEFTROMI_SSR_E;
        *status_of(&i, k, e) |= CLEFTROMI_SSR_IP;
        mended(&i, FIELDS, "IP without E");
        *status_of(&i, k, e) &= (uint8_t)~CLEFTROMI_SSR_IP;
        mended(&i, GRANTED, "neither IP nor E");
    }
}

static void own_rules(const image *good)
{
    for (unsigned k = 0; k < good->count; k++) {
        reserved_bits(good, k);
        every_value(good, k, IMAGE_UNIT, k, "the unit number");
        every_value(good, k, IMAGE_COUNT, good->count, "the count");
        number_under_nvr(good, k);
        pending_without_enable(good, k);
    }
    reserved_in_all(good);
}

/* ------------------------------------------------------------------ */
/* What no rule forbids (ruling 13)                                    */
/* ------------------------------------------------------------------ */

/* AC7 has no reserved bits; nothing ties L to F, or RW of one unit to another's. */
static void not_forbidden(const image *good)
{
    static image i;
    for (unsigned n = 0; n < 256; n++) {
        i = *good;
        set_in_all(&i, IMAGE_AC + 7, (uint8_t)n);
        set_in_all(&i, IMAGE_IVR, (uint8_t)mix_random(&calls));
        set_in_all(&i, IMAGE_GSR, mix_random(&calls) & 0xC1);
        set_in_all(&i, IMAGE_TABLE + n % 16, (uint8_t)mix_random(&calls));
        for (unsigned k = 0; k < i.count; k++) {
            block_of(&i, k)[IMAGE_DP] = (uint8_t)((n + k) % 32);
            block_of(&i, k)[IMAGE_LSR] = mix_random(&calls) & 0xF8;
        }
        mended(&i, GRANTED, "what no rule forbids");
    }
}

/* ------------------------------------------------------------------ */
/* One fault: the rules across blocks                                  */
/* ------------------------------------------------------------------ */

static void differs(const image *good, unsigned k, unsigned at, uint8_t bits, const char *what)
{
    static image i;
    for (unsigned bit = 1; bit < 256; bit <<= 1) {
        if ((bits & bit) == 0)
            continue;
        i = *good;
        block_of(&i, k)[at] ^= (uint8_t)bit;
        mended(&i, FIELDS, what);
    }
}

static void shared_registers(const image *good)
{
    for (unsigned k = 0; k < good->count; k++) {
        for (unsigned n = 0; n < 16; n++)
            differs(good, k, IMAGE_TABLE + n, 0xFF, "unequal tables");
        differs(good, k, IMAGE_GSR, 0xC1, "unequal GSR");
        differs(good, k, IMAGE_IVR, 0xFF, "unequal IVR");
    }
}

static void marked_byte(const image *good, unsigned a, unsigned b, unsigned n)
{
    static image i;
    i = *good;
    for (unsigned k = 0; k < i.count; k++)
        mark(&i, k, n, k == a || k == b);
    block_of(&i, b)[IMAGE_AC + n] = block_of(&i, a)[IMAGE_AC + n];
    mended(&i, GRANTED, "a byte marked in two units, equal");
    block_of(&i, b)[IMAGE_AC + n] ^= (uint8_t)(1u << mix_below(&calls, 8));
    mended(&i, FIELDS, "a byte marked in two units, not equal");
    mark(&i, one_in(2) ? a : b, n, false);
    mended(&i, GRANTED, "a byte marked in one unit, not equal");
}

static void marked_bytes(const image *good)
{
    for (unsigned b = 1; b < good->count; b++)
        for (unsigned a = 0; a < b; a++)
            for (unsigned n = 0; n < 9; n++)
                marked_byte(good, a, b, n);
}

/* ------------------------------------------------------------------ */
/* Clashes                                                             */
/* ------------------------------------------------------------------ */

/* Puts down a segment, enabled; its other bytes do not matter to a clash. */
static void put_segment(image *i, unsigned place, const uint8_t bytes[9])
{
    uint8_t *at = block_of(i, place / 32) + IMAGE_DESCRIPTORS + 9 * (place % 32);
    memcpy(at, bytes, 9);
    at[4] = (uint8_t)mix_random(&calls);
    at[7] = (mix_random(&calls) & 0x9F) | CLEFTROMI_SSR_E;
}

static const uint8_t compared[6] = {0, 1, 2, 3, 6, 8};

/* Does some page and some number match both?  Every bit that both masks ask
 * for must be asked for alike. */
static bool meet(const uint8_t *a, const uint8_t *b)
{
    unsigned high = (a[0] ^ b[0]) & a[2] & b[2], low = (a[1] ^ b[1]) & a[3] & b[3];
    unsigned number = (a[6] ^ b[6]) & a[8] & b[8];
    return (high | low | number) == 0;
}

/* Two enabled descriptors and no third: alike but for a few bits under few ones
 * of the masks, so that they are just apart, or just not. */
static void two_segments(const image *good)
{
    static image i;
    uint8_t one[9], other[9];
    unsigned all = 32 * good->count, a = mix_below(&calls, all), b = mix_below(&calls, all - 1);
    if (one_in(2)) /* two neighbours of one unit */
        b = a == 0 ? 0 : a - 1;
    if (b >= a)
        b++;
    random_bytes(one, 9);
    memcpy(other, one, 9);
    for (unsigned n = 1 + mix_below(&calls, 2); n > 0; n--) {
        unsigned at = compared[mix_below(&calls, 6)];
        other[at] ^= (uint8_t)(1u << mix_below(&calls, 8));
    }
    i = *good;
    disable_all(&i);
    put_segment(&i, a, one);
    put_segment(&i, b, other);
    mended(&i, meet(one, other) ? FIELDS : GRANTED, a / 32 == b / 32 ? "a clash within" : "a clash across");
    *status_of(&i, b / 32, b % 32) &= (uint8_t)~(CLEFTROMI_SSR_E | CLEFTROMI_SSR_IP);
    mended(&i, GRANTED, "one of the two disabled");
}

/* Every two places, with segments that match everything: all of them for one, two
 * and six units, some of them for the others. */
static void every_two_places(const image *good)
{
    static image i;
    static const uint8_t everything[9] = {0};
    unsigned all = 32 * good->count;
    bool some = good->count > 2 && good->count < UNITS;
    for (unsigned a = 0; a < all; a += some ? 13 : 1)
        for (unsigned b = a + 1; b < all; b += some ? 7 : 1) {
            i = *good;
            disable_all(&i);
            put_segment(&i, a, everything);
            put_segment(&i, b, everything);
            mended(&i, FIELDS, "two that match everything");
        }
}

/* ------------------------------------------------------------------ */
/* States that are not saved                                           */
/* ------------------------------------------------------------------ */

static void must_save(const uint8_t *block, unsigned due, const char *what)
{
    lend_block(block);
    lend_room(right_length());
    must_be(save(what), due, what);
}

/* Two places of a block in which nothing else is enabled. */
static void clash_saved(uint8_t *block, unsigned a, unsigned b)
{
    uint8_t *one = block + 128 + 9 * a, *other = block + 128 + 9 * b;
    memset(one, 0, 9);
    memset(other, 0, 9);
    one[7] = other[7] = CLEFTROMI_SSR_E;
    must_save(block, FIELDS, "a state with a clash");
    other[7] = 0;
    must_save(block, GRANTED, "a state with one of the two disabled");
    one[7] = 0;
}

static void marked_saved(uint8_t *block, unsigned a, unsigned b, unsigned n)
{
    uint8_t *one = block + 32 + 16 * a, *other = block + 32 + 16 * b;
    one[n] = (uint8_t)mix_random(&calls);
    other[n] = one[n] ^ not_zero();
    one[9 + n / 8] = other[9 + n / 8] = (uint8_t)(1u << n % 8);
    must_save(block, FIELDS, "a state with a byte marked in two units, not equal");
    other[n] = one[n];
    must_save(block, GRANTED, "a state with a byte marked in two units, equal");
    one[9 + n / 8] = other[9 + n / 8] = 0;
}

/* Of a fresh block, with nothing enabled and no marks. */
static void not_to_be_saved(unsigned count)
{
    static uint8_t block[LAYOUT_BYTES];
    unsigned all = 32 * count;
    call start = {CALL_START, {count, CLEFTROMI_NONE, 0}, 0};
    lend_noise();
    make(start);
    memcpy(block, both.room + both.at, LAYOUT_BYTES);
    for (unsigned a = 0; a < all; a += count == 1 ? 1 : 11)
        for (unsigned b = a + 1; b < all; b += count == 1 ? 1 : 5)
            clash_saved(block, a, b);
    for (unsigned b = 1; b < count; b++)
        for (unsigned a = 0; a < b; a++)
            for (unsigned n = 0; n < 9; n++)
                marked_saved(block, a, b, n);
}

/* ------------------------------------------------------------------ */
/* Two faults: which decides                                           */
/* ------------------------------------------------------------------ */

/* Each takes an image and a block in it.  No fault takes another away: those
 * across blocks come first, and each sets what it needs by itself. */
static unsigned neighbour(const image *i, unsigned k)
{
    return (k + 1) % i->count;
}

static void unequal(image *i, unsigned k, unsigned at, uint8_t difference)
{
    block_of(i, k)[at] = block_of(i, neighbour(i, k))[at] ^ difference;
}

static void fault_table(image *i, unsigned k)
{
    unsigned at = IMAGE_TABLE + mix_below(&calls, 16);
    unequal(i, k, at, not_zero());
}

static void fault_gsr(image *i, unsigned k)
{
    unequal(i, k, IMAGE_GSR, one_in(2) ? CLEFTROMI_GSR_IE : CLEFTROMI_GSR_DF);
}

static void fault_ivr(image *i, unsigned k)
{
    unequal(i, k, IMAGE_IVR, not_zero());
}

static void fault_marked(image *i, unsigned k)
{
    unsigned n = mix_below(&calls, 9);
    unequal(i, k, IMAGE_AC + n, not_zero());
    mark(i, k, n, true);
    mark(i, neighbour(i, k), n, true);
}

/* Descriptors from 16 up; the faults of a status are below. */
static void fault_clash(image *i, unsigned k)
{
    static const uint8_t everything[9] = {0};
    put_segment(i, 32 * k + 16 + mix_below(&calls, 8), everything);
    put_segment(i, 32 * k + 24 + mix_below(&calls, 8), everything);
}

static void fault_clash_across(image *i, unsigned k)
{
    static const uint8_t everything[9] = {0};
    put_segment(i, 32 * k + 16 + mix_below(&calls, 16), everything);
    put_segment(i, 32 * neighbour(i, k) + 16 + mix_below(&calls, 16), everything);
}

static void fault_number(image *i, unsigned k)
{
    block_of(i, k)[IMAGE_UNIT] = (uint8_t)(k + not_zero());
}

static void fault_count(image *i, unsigned k)
{
    block_of(i, k)[IMAGE_COUNT] = (uint8_t)(i->count + not_zero());
}

static void fault_marks(image *i, unsigned k)
{
    block_of(i, k)[IMAGE_MARKS] |= (uint8_t)(2u << mix_below(&calls, 7));
}

static void fault_dp(image *i, unsigned k)
{
    block_of(i, k)[IMAGE_DP] |= (uint8_t)(0x20u << mix_below(&calls, 3));
}

static void fault_gsr_bit(image *i, unsigned k)
{
    block_of(i, k)[IMAGE_GSR] |= (uint8_t)(2u << mix_below(&calls, 5));
}

static void fault_lsr(image *i, unsigned k)
{
    block_of(i, k)[IMAGE_LSR] |= (uint8_t)(1u << mix_below(&calls, 3));
}

static void fault_rdp(image *i, unsigned k)
{
    block_of(i, k)[IMAGE_RDP] |= (uint8_t)(0x20u << mix_below(&calls, 2));
}

static void fault_nvr(image *i, unsigned k)
{
    block_of(i, k)[IMAGE_RDP] |= (uint8_t)(0x81u + mix_below(&calls, 31));
}

static void fault_pending(image *i, unsigned k)
{
    uint8_t *status = status_of(i, k, mix_below(&calls, 16));
    *status = (uint8_t)((*status & ~CLEFTROMI_SSR_E) | CLEFTROMI_SSR_IP);
}

static void fault_status(image *i, unsigned k)
{
    uint8_t *status = status_of(i, k, mix_below(&calls, 16));
    *status |= (uint8_t)(0x20u << mix_below(&calls, 2));
}

static void fault_zeros(image *i, unsigned k)
{
    unsigned at = IMAGE_ZEROS + mix_below(&calls, IMAGE_CHECK - IMAGE_ZEROS);
    block_of(i, k)[at] |= not_zero();
}

/* When all checks have been mended. */
static void fault_check(image *i, unsigned k)
{
    unsigned at = IMAGE_CHECK + mix_below(&calls, 2);
    model_mend(block_of(i, k));
    block_of(i, k)[at] ^= not_zero();
}

/* The faults across blocks, then those of a block, the check last. */
static const struct {
    const char *name;
    void (*put)(image *, unsigned);
} faults[] = {
    {"unequal tables", fault_table},
    {"unequal GSR", fault_gsr},
    {"unequal IVR", fault_ivr},
    {"unequal marked bytes", fault_marked},
    {"a clash across", fault_clash_across},
    {"a clash within", fault_clash},
    {"a unit number", fault_number},
    {"a count", fault_count},
    {"marks", fault_marks},
    {"DP", fault_dp},
    {"GSR", fault_gsr_bit},
    {"LSR", fault_lsr},
    {"RDP", fault_rdp},
    {"a number under NVR", fault_nvr},
    {"IP without E", fault_pending},
    {"SSR", fault_status},
    {"reserved bytes", fault_zeros},
    {"a check", fault_check},
};
#define FAULTS (sizeof faults / sizeof faults[0])
#define FIRST_ACROSS_ALONE 5u /* a clash within needs no second block */
#define FIRST_OWN 6u
#define FAULT_CHECK (FAULTS - 1)

/* Rulings 13 and 14: the first block with a fault of its own decides, in it the
 * check; faults across blocks come last. */
static unsigned due(unsigned first, unsigned a, unsigned second, unsigned b)
{
    if (first < FIRST_OWN && second < FIRST_OWN)
        return FIELDS;
    if (first < FIRST_OWN)
        return second == FAULT_CHECK ? CHECK : FIELDS;
    if (a == b)
        return second == FAULT_CHECK ? CHECK : FIELDS;
    return (a < b ? first : second) == FAULT_CHECK ? CHECK : FIELDS;
}

/* "first" is not above "second" in the table, so it is put first; checks are put
 * wrong when all have been mended. */
static void two_faults(const image *good, unsigned first, unsigned a, unsigned second, unsigned b)
{
    static image i;
    char what[96];
    snprintf(what, sizeof what, "%s in block %u and %s in block %u of %u", faults[first].name, a, faults[second].name,
             b, good->count);
    i = *good;
    faults[first].put(&i, a);
    faults[second].put(&i, b);
    mend(&i);
    if (first == FAULT_CHECK)
        fault_check(&i, a);
    if (second == FAULT_CHECK)
        fault_check(&i, b);
    must_be(try_image(&i, what), due(first, a, second, b), what);
}

static void every_two_faults(const image *good)
{
    unsigned from = good->count > 1 ? 0 : FIRST_ACROSS_ALONE;
    for (unsigned first = from; first < FAULTS; first++)
        for (unsigned second = first; second < FAULTS; second++)
            for (unsigned a = 0; a < good->count; a++)
                for (unsigned b = 0; b < good->count; b++)
                    two_faults(good, first, a, second, b);
}

/* ------------------------------------------------------------------ */
/* Blocks in another order, too few, too many                          */
/* ------------------------------------------------------------------ */

/* Numbers and counts as they ought to be for the blocks that there are. */
static void renumber(image *i)
{
    for (unsigned k = 0; k < i->count; k++) {
        block_of(i, k)[IMAGE_UNIT] = (uint8_t)k;
        block_of(i, k)[IMAGE_COUNT] = (uint8_t)i->count;
    }
}

static void recount(image *i)
{
    set_in_all(i, IMAGE_COUNT, (uint8_t)i->count);
}

static void copy_block(image *to, unsigned k, const image *from, unsigned n)
{
    memcpy(block_of(to, k), from->bytes + IMAGE_BLOCK * n, IMAGE_BLOCK);
}

static void swapped(const image *good, unsigned a, unsigned b)
{
    static image i;
    i = *good;
    copy_block(&i, a, good, b);
    copy_block(&i, b, good, a);
    must_be(try_image(&i, "two blocks swapped"), FIELDS, "two blocks swapped");
    renumber(&i);
    mended(&i, GRANTED, "two blocks swapped and numbered anew");
}

static void missing(const image *good, unsigned k)
{
    static image i;
    bool last = k + 1 == good->count;
    i = *good;
    i.count--;
    for (unsigned n = k; n < i.count; n++)
        copy_block(&i, n, good, n + 1);
    must_be(try_image(&i, "a block missing"), FIELDS, "a block missing");
    recount(&i);
    mended(&i, last ? GRANTED : FIELDS, "a block missing and counted anew");
    renumber(&i);
    mended(&i, GRANTED, "a block missing, counted and numbered anew");
}

static bool some_enabled(image *i, unsigned k)
{
    for (unsigned e = 0; e < 32; e++)
        if (*status_of(i, k, e) & CLEFTROMI_SSR_E)
            return true;
    return false;
}

static void doubled(const image *good, unsigned k)
{
    static image i;
    i = *good;
    i.count++;
    for (unsigned n = k + 1; n < i.count; n++)
        copy_block(&i, n, good, n - 1);
    must_be(try_image(&i, "a block twice"), FIELDS, "a block twice");
    recount(&i);
    mended(&i, FIELDS, "a block twice, counted anew");
    renumber(&i);
    mended(&i, some_enabled(&i, k) ? FIELDS : GRANTED, "a block twice, counted and numbered anew");
    disable_all(&i);
    mended(&i, GRANTED, "a block twice, counted and numbered anew, all disabled");
}

/* One block of another image. */
static void mixed(const image *good, const image *other, unsigned k)
{
    static image i;
    i = *good;
    copy_block(&i, k, other, k % other->count);
    try_image(&i, "a block of another image");
    renumber(&i);
    mend(&i);
    try_image(&i, "a block of another image, numbered anew");
}

static void other_blocks(const image *good, const image *other)
{
    for (unsigned b = 0; b < good->count; b++) {
        for (unsigned a = 0; a < b; a++)
            swapped(good, a, b);
        if (good->count > 1)
            missing(good, b);
        if (good->count < UNITS)
            doubled(good, b);
        mixed(good, other, b);
    }
}

/* ------------------------------------------------------------------ */
/* Lengths                                                             */
/* ------------------------------------------------------------------ */

/* What lies behind the image is random; a shorter one has too few blocks. */
static void restore_lengths(const image *good)
{
    size_t whole = IMAGE_BLOCK * good->count;
    for (size_t length = 0; length <= LENGTHS; length++) {
        bool blocks = length > 0 && length <= IMAGE_LONGEST && length % IMAGE_BLOCK == 0;
        size_t at = some_place();
        lend_noise();
        image_lend(&lent, good->bytes, length < whole ? length : whole, at, length, mix_random(&calls));
        must_be(restore("a length"), length == whole ? GRANTED : blocks ? FIELDS : LENGTH, "a length");
    }
}

static void save_lengths(void)
{
    size_t right = right_length();
    for (size_t length = 0; length <= LENGTHS; length++) {
        lend_room(length);
        must_be(save("a length"), length == right ? GRANTED : LENGTH, "a length");
    }
}

/* 7 comes before all else. */
static void short_state(const image *good, size_t bytes)
{
    static const size_t lengths[] = {0, 511, 512, 3072, 3073, 3584};
    for (unsigned n = 0; n < sizeof lengths / sizeof lengths[0]; n++) {
        lend_noise();
        both.bytes = bytes;
        lend_room(lengths[n]);
        must_be(restore("a short block"), BLOCK, "a short block");
        must_be(save("a short block"), BLOCK, "a short block");
    }
    lend_noise();
    both.bytes = bytes;
    must_be(restore_image(good, "a short block, a good image"), BLOCK, "a short block, a good image");
}

static void state_lengths(const image *good)
{
    static const size_t lent_short[] = {0, 1, 511, 512, 2048, 4094, 4095};
    for (unsigned n = 0; n < sizeof lent_short / sizeof lent_short[0]; n++)
        short_state(good, lent_short[n]);
    for (size_t bytes = LAYOUT_BYTES; bytes < LAYOUT_BYTES + 3; bytes++) {
        lend_noise();
        both.bytes = bytes;
        must_be(restore_image(good, "a block of 4,096 or more"), GRANTED, "a block of 4,096 or more");
        write_again(good, "a block of 4,096 or more");
    }
}

/* A save tests the count in the block before the length; a restore looks at
 * nothing in the block. */
static void bad_counts(const image *good)
{
    static uint8_t block[LAYOUT_BYTES];
    for (unsigned count = 0; count < 256; count = count == 0 ? 7 : count + 1) {
        random_bytes(block, LAYOUT_BYTES);
        block[0] = (uint8_t)count;
        lend_block(block);
        for (unsigned blocks = 0; blocks <= 8; blocks++) {
            lend_room(IMAGE_BLOCK * blocks);
            must_be(save("a bad count"), COUNT, "a bad count");
        }
        must_be(restore_image(good, "over a bad count"), GRANTED, "over a bad count");
    }
}

/* ------------------------------------------------------------------ */
/* The image that was kept                                             */
/* ------------------------------------------------------------------ */

static void set(unsigned unit, unsigned address, uint8_t value)
{
    call c = {CALL_REGISTER, {unit, address, CLEFTROMI_WRITE}, value};
    make(c);
}

static uint8_t get(unsigned unit, unsigned address)
{
    call c = {CALL_REGISTER, {unit, address, CLEFTROMI_READ}, 0};
    make(c);
    return both.answer.byte;
}

static unsigned touch(unsigned function_code, unsigned direction, uint32_t address)
{
    call c = {CALL_ACCESS, {function_code, direction, address}, 0};
    make(c);
    return both.answer.kind;
}

static void load(unsigned unit, unsigned descriptor, const uint8_t bytes[9])
{
    for (unsigned n = 0; n < 9; n++)
        set(unit, CLEFTROMI_AC0 + n, bytes[n]);
    set(unit, CLEFTROMI_DP, (uint8_t)descriptor);
    must(get(unit, CLEFTROMI_LOAD) == 0, "a load for the kept image clashes");
}

/* Two units.  At its end each unit has its own DP, L, RDP, accumulator and
 * marks; both have descriptors with IP, U and M, and one that is disabled. */
static void kept_history(void)
{
    static const uint8_t program[9] = {0x40, 0x00, 0xC0, 0x00, 0x80, 0x00, 0x01, 0x01, 0x7F};
    static const uint8_t unused[9] = {0x12, 0x34, 0xFF, 0xF0, 0x56, 0x70, 0x9A, 0x96, 0xFE};
    static const uint8_t printer[9] = {0x00, 0x00, 0xF0, 0x00, 0x10, 0x00, 0x02, 0x11, 0x7F};
    static const uint8_t labels[9] = {0x9F, 0xFF, 0xF0, 0x00, 0xE0, 0x00, 0x02, 0x13, 0xFF};
    call start = {CALL_START, {2, 0, 0}, 0};
    lend_noise();
    make(start);
    set(0, CLEFTROMI_AST(1), 0x01);
    set(0, CLEFTROMI_AST(2), 0x02);
    set(1, CLEFTROMI_AST(5), 0x81);
    set(1, CLEFTROMI_AST(15), 0xFF);
    set(0, CLEFTROMI_IVR, 0x40);
    load(0, 3, program);
    load(0, 12, unused);
    load(1, 7, printer);
    load(1, 31, labels);
    set(0, CLEFTROMI_DP, 3);
    must(get(0, CLEFTROMI_SSR) == 0x01, "the transfer for the kept image");
    set(1, CLEFTROMI_AC0, 0x00);
    set(1, CLEFTROMI_AC1, 0x05);
    set(0, CLEFTROMI_AC6, 0x82);
    must(get(0, CLEFTROMI_TRANSLATE) == 0, "the direct translation for the kept image");
    set(0, CLEFTROMI_AC7, 0xF7);
    set(0, CLEFTROMI_AC5, 0x55);
    set(0, CLEFTROMI_GSR, CLEFTROMI_GSR_IE);
    must(touch(1, CLEFTROMI_WRITE, 0x7FFF12) == CLEFTROMI_MAPPED, "an access for the kept image");
    must(touch(2, CLEFTROMI_READ, 0x000510) == CLEFTROMI_MAPPED, "an access for the kept image");
    must(touch(1, CLEFTROMI_READ, 0x3FFF00) == CLEFTROMI_UNDEFINED, "an access for the kept image");
    must(touch(2, CLEFTROMI_MODIFY, 0x912345) == CLEFTROMI_VIOLATION, "an access for the kept image");
    set(0, CLEFTROMI_AC1, 0x77);
}

static void read_file(const char *path, image *i)
{
    FILE *f = fopen(path, "rb");
    size_t length = f == NULL ? 0 : fread(i->bytes, 1, sizeof i->bytes, f);
    if (f != NULL)
        fclose(f);
    i->count = (unsigned)(length / IMAGE_BLOCK);
    must(length == IMAGE_BLOCK * 2, "the kept image can't be read, or is of another length");
}

static void kept_image(const char *path)
{
    static image stored, saved;
    static uint8_t block[LAYOUT_BYTES];
    read_file(path, &stored);
    kept_history();
    memcpy(block, both.room + both.at, LAYOUT_BYTES);
    save_reached(&saved);
    must(memcmp(saved.bytes, stored.bytes, IMAGE_BLOCK * 2) == 0, "the kept image, other bytes");
    lend_noise();
    must_be(restore_image(&stored, "the kept image"), GRANTED, "the kept image");
    must(memcmp(block, both.room + both.at, LAYOUT_BYTES) == 0, "the kept image, another state");
    must(both.answer.irq == 1, "the kept image, without IRQ");
    write_again(&stored, "the kept image");
    every_byte(&stored);
    every_bit(&stored);
    every_two_faults(&stored);
}

/* ------------------------------------------------------------------ */

/* One to six units, each with the state of a short history and of a longer one. */
static void images_with_faults(unsigned count)
{
    static image good, other;
    reach(count, 300);
    save_reached(&other);
    reach(count, 1500);
    save_lengths();
    save_reached(&good);
    restore_lengths(&good);
    state_lengths(&good);
    bad_counts(&good);
    every_byte(&good);
    own_rules(&good);
    not_forbidden(&other);
    if (count > 1)
        shared_registers(&other);
    marked_bytes(&good);
    for (unsigned n = 0; n < 800; n++)
        two_segments(&other);
    every_two_places(&other);
    not_to_be_saved(count);
    every_two_faults(&other);
    other_blocks(&good, &other);
    other_blocks(&other, &good);
}

static void print_counts(const char *what, const unsigned long *counts)
{
    printf("%s: %lu granted", what, counts[GRANTED]);
    for (unsigned n = 1; n < REFUSALS; n++)
        if (counts[n] > 0)
            printf(", %lu refused with %u", counts[n], n);
    printf("\n");
}

static int report(void)
{
    bool enough = saves[GRANTED] > 100 && saves[COUNT] > 100 && saves[BLOCK] > 100 && saves[LENGTH] > 100 &&
                  saves[FIELDS] > 100 && restores[GRANTED] > 100 && restores[BLOCK] > 100 && restores[LENGTH] > 100 &&
                  restores[CHECK] > 100 && restores[FIELDS] > 100;
    print_counts("saves", saves);
    print_counts("restores", restores);
    printf("%lu calls%s\n", made, enough ? ", all the same" : ", but some of these were seen too seldom");
    return enough ? 0 : 1;
}

int main(int argc, char **argv)
{
    if (argc != 4) {
        fprintf(stderr, "image SEED HISTORIES FILE\n");
        return 2;
    }
    seed = strtoull(argv[1], NULL, 0);
    unsigned long histories = strtoul(argv[2], NULL, 0);
    mix_begin(&calls, seed);
    kept_image(argv[3]);
    for (unsigned long n = 0; n < histories; n++)
        history(1 + (unsigned)(n % UNITS));
    for (unsigned long n = 0; n < 40 * histories; n++)
        noise_saved();
    for (unsigned count = 1; count <= UNITS; count++)
        images_with_faults(count);
    return report();
}
