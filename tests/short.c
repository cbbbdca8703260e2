/* short: lengths of the lent block and of the lent image, and calls that are
 * wrong in several ways at once.  Block and image end where the readable memory
 * ends, so that a byte touched past them, even only read, ends the program. */
#define _DEFAULT_SOURCE /* for MAP_ANONYMOUS */
#include <stdio.h>
#include <stdlib.h>
#include <string.h>
#include <sys/mman.h>
#include <unistd.h>
#include "cleftromi.h"
#include "layout.h"
#include "model_image.h"
#include "pair.h"

#define AREA 16384u
#define LENGTHS 3600u
#define WIDE ((uint64_t)1 << 32)
#define WIDEST UINT64_MAX

/* AREA bytes each, with memory that may not be touched on both sides. */
static uint8_t *area, *image_area;
static uint8_t before[AREA], image_before[AREA];
static unsigned made;

static void fail(const char *what, call c, size_t bytes, uint64_t ours, uint64_t wanted)
{
    printf("%s, %zu bytes lent: library 0x%016llX, wanted 0x%016llX: ", what, bytes, (unsigned long long)ours,
           (unsigned long long)wanted);
    call_print(c);
    exit(1);
}

static uint8_t *make_area(void)
{
    size_t page = (size_t)sysconf(_SC_PAGESIZE);
    size_t hedge = page > AREA ? page : AREA; /* AREA is a whole number of small pages */
    uint8_t *all = mmap(NULL, 2 * hedge + AREA, PROT_READ | PROT_WRITE, MAP_PRIVATE | MAP_ANONYMOUS, -1, 0);
    if (all == MAP_FAILED || mprotect(all, hedge, PROT_NONE) != 0 ||
        mprotect(all + hedge + AREA, hedge, PROT_NONE) != 0) {
        printf("no memory with an edge\n");
        exit(2);
    }
    return all + hedge;
}

static void fill_with_noise(uint8_t *to)
{
    uint32_t seed = 68451;
    for (size_t i = 0; i < AREA; i++) {
        seed = seed * 1664525u + 1013904223u;
        to[i] = (uint8_t)(seed >> 24);
    }
}

static void fill_area(void)
{
    fill_with_noise(area);
}

/* The call must be answered so, and leave every byte. */
static void must_refuse(const char *what, call c, uint8_t *state, size_t bytes, uint64_t refusal)
{
    memcpy(before, area, AREA);
    uint64_t ours = call_library(c, state, bytes);
    if (ours != refusal)
        fail(what, c, bytes, ours, refusal);
    if (memcmp(before, area, AREA) != 0)
        fail("refused, but bytes have changed", c, bytes, ours, refusal);
    made++;
}

/* ------------------------------------------------------------------ */
/* Lengths                                                             */
/* ------------------------------------------------------------------ */

static const call good[] = {
    {CALL_START, {2, 0, 0}, 0},
    {CALL_RESET, {CLEFTROMI_NONE, 0, 0}, 0},
    {CALL_ACCESS, {5, CLEFTROMI_WRITE, 0x001234}, 0},
    {CALL_ACCESS, {5, CLEFTROMI_MODIFY, 0x001234}, 0},
    {CALL_REGISTER, {1, CLEFTROMI_IVR, CLEFTROMI_WRITE}, 0x40},
    {CALL_REGISTER, {1, CLEFTROMI_TRANSLATE, CLEFTROMI_READ}, 0},
    {CALL_ACKNOWLEDGE, {0, 0, 0}, 0},
};
#define CALLS (sizeof good / sizeof good[0])

/* At the very end of the memory (with length 0 no byte may be touched at all),
 * and where more bytes would follow that were not lent. */
static void too_short(size_t bytes)
{
    uint8_t *places[] = {area + AREA - bytes, area + 3};
    for (unsigned p = 0; p < 2; p++)
        for (unsigned i = 0; i < CALLS; i++) {
            if (bytes > 0)
                places[p][0] = 2; /* a good count, so that nothing else is wrong */
            must_refuse("too short", good[i], places[p], bytes, 7);
        }
}

/* The same calls to the model, and the bytes compared. */
static void long_enough(size_t bytes)
{
    static const call calls[] = {
        {CALL_START, {2, 0, 0}, 0},
        {CALL_ACCESS, {5, CLEFTROMI_READ, 0x001234}, 0},
        {CALL_REGISTER, {0, CLEFTROMI_GSR, CLEFTROMI_WRITE}, CLEFTROMI_GSR_IE},
        {CALL_REGISTER, {0, CLEFTROMI_SSR, CLEFTROMI_WRITE}, CLEFTROMI_SSR_E | CLEFTROMI_SSR_IP},
        {CALL_ACKNOWLEDGE, {1, 0, 0}, 0},
        {CALL_RESET, {1, 0, 0}, 0},
        {CALL_ACCESS, {0, CLEFTROMI_WRITE, 0xFFFFFF}, 0},
        {CALL_REGISTER, {1, CLEFTROMI_SSR, CLEFTROMI_READ}, 0},
        {CALL_ACCESS, {0, CLEFTROMI_MODIFY, 0xFFFFFF}, 0},
        {CALL_REGISTER, {1, CLEFTROMI_SSR, CLEFTROMI_MODIFY}, CLEFTROMI_SSR_E | CLEFTROMI_SSR_WP},
        {CALL_ACCESS, {0, CLEFTROMI_MODIFY, 0xFFFFFF}, 0},
        {CALL_REGISTER, {0, CLEFTROMI_AST(15), CLEFTROMI_WRITE}, 0x80},
        {CALL_ACCESS, {15, CLEFTROMI_READ, 0xFFFFFF}, 0}, /* the space alone differs */
        {CALL_REGISTER, {0, CLEFTROMI_TRANSLATE, CLEFTROMI_READ}, 0},
        {CALL_REGISTER, {1, CLEFTROMI_SSR, WIDE + CLEFTROMI_MODIFY}, 0},
        {CALL_ACCESS, {0, CLEFTROMI_MODIFY, 0xFFFFFF}, 0},
        {CALL_ACCESS, {0, WIDE + CLEFTROMI_MODIFY, 0xFFFFFF}, 0},
        {CALL_ACCESS, {0, CLEFTROMI_MODIFY + 1, 0xFFFFFF}, 0},
    };
    static model m;
    uint8_t *state = area + AREA - bytes;
    fill_area();
    memcpy(before, area, AREA);
    for (unsigned i = 0; i < sizeof calls / sizeof calls[0]; i++) {
        uint64_t ours = call_library(calls[i], state, bytes), wanted = layout_answer(call_model(calls[i], &m));
        layout_encode(&m, before + AREA - bytes);
        if (ours != wanted)
            fail("long enough", calls[i], bytes, ours, wanted);
        if (memcmp(before, area, AREA) != 0)
            fail("granted, but other bytes", calls[i], bytes, ours, wanted);
        made++;
    }
}

/* ------------------------------------------------------------------ */
/* The order of refusals                                               */
/* ------------------------------------------------------------------ */

/* Whatever stands in the block: the count asked for, the length. */
static const struct {
    size_t bytes;
    unsigned refusal;
    call c;
} on_noise[] = {
    {4095, 7, {CALL_START, {0, 9, 0}, 0}},
    {4095, 7, {CALL_RESET, {9, 0, 0}, 0}},
    {4095, 7, {CALL_ACCESS, {16, 0, WIDE}, 0}},
    {4095, 7, {CALL_ACCESS, {16, CLEFTROMI_MODIFY, WIDE}, 0}},
    {4095, 7, {CALL_REGISTER, {9, 64, 0}, 0}},
    {4095, 7, {CALL_ACKNOWLEDGE, {9, 0, 0}, 0}},
    {4096, 1, {CALL_START, {0, 0, 0}, 0}},
    {4096, 1, {CALL_START, {7, 7, 0}, 0}},
    {4096, 1, {CALL_START, {WIDE + 1, 0, 0}, 0}},
    {4096, 1, {CALL_START, {WIDEST, WIDEST, 0}, 0}},
    {4096, 2, {CALL_START, {1, 1, 0}, 0}},
    {4096, 2, {CALL_START, {6, 254, 0}, 0}},
    {4096, 2, {CALL_START, {6, 256, 0}, 0}},
    {4096, 2, {CALL_START, {6, WIDE + 255, 0}, 0}},
    {4096, 2, {CALL_START, {6, WIDE, 0}, 0}},
};

/* With a bad count in the block this comes before all else. */
static const call on_bad_count[] = {
    {CALL_RESET, {9, 0, 0}, 0},          {CALL_RESET, {0, 0, 0}, 0},         {CALL_ACCESS, {16, 0, WIDE}, 0},
    {CALL_ACCESS, {0, 1, 0}, 0},         {CALL_REGISTER, {9, 64, 0}, 0},     {CALL_REGISTER, {0, 0x2B, 1}, 9},
    {CALL_ACKNOWLEDGE, {WIDEST, 0, 0}, 0}, {CALL_ACKNOWLEDGE, {0, 0, 0}, 0},
    {CALL_ACCESS, {16, CLEFTROMI_MODIFY, WIDE}, 0},
    {CALL_ACCESS, {0, CLEFTROMI_MODIFY, 0}, 0},
};

/* Two units; "irq" says whether IRQ is asserted then. */
static const struct {
    unsigned irq, refusal;
    call c;
} on_two_units[] = {
    {1, 2, {CALL_RESET, {2, 0, 0}, 0}},
    {1, 2, {CALL_RESET, {254, 0, 0}, 0}},
    {1, 2, {CALL_RESET, {256, 0, 0}, 0}},
    {1, 2, {CALL_RESET, {WIDE, 0, 0}, 0}},
    {1, 2, {CALL_RESET, {WIDE + 255, 0, 0}, 0}},
    {0, 2, {CALL_REGISTER, {2, 64, 0}, 0}},
    {0, 2, {CALL_REGISTER, {255, 0x2B, 1}, 0x77}},
    {0, 2, {CALL_REGISTER, {WIDE, 0x2B, 1}, 0x77}},
    {0, 3, {CALL_REGISTER, {1, 64, 0}, 0}},
    {0, 3, {CALL_REGISTER, {0, 256 + 0x2B, 1}, 0x77}},
    {0, 3, {CALL_REGISTER, {0, WIDE + 0x2B, 1}, 0x77}},
    {0, 4, {CALL_ACCESS, {16, 0, 0x1000000}, 0}},
    {0, 4, {CALL_ACCESS, {WIDE, 0, WIDEST}, 0}},
    {0, 4, {CALL_ACCESS, {256, 1, 0}, 0}},
    {0, 5, {CALL_ACCESS, {15, 0, 0x1000000}, 0}},
    {0, 5, {CALL_ACCESS, {0, 1, WIDE}, 0}},
    {0, 5, {CALL_ACCESS, {0, 1, WIDEST}, 0}},
    {0, 4, {CALL_ACCESS, {16, CLEFTROMI_MODIFY, 0x1000000}, 0}},
    {0, 4, {CALL_ACCESS, {WIDE, CLEFTROMI_MODIFY, 0}, 0}},
    {1, 5, {CALL_ACCESS, {15, CLEFTROMI_MODIFY, 0x1000000}, 0}},
    {0, 5, {CALL_ACCESS, {0, CLEFTROMI_MODIFY, WIDE}, 0}},
    {0, 2, {CALL_REGISTER, {2, 64, CLEFTROMI_MODIFY}, 0x77}},
    {0, 3, {CALL_REGISTER, {1, 64, CLEFTROMI_MODIFY}, 0x77}},
    {0, 2, {CALL_ACKNOWLEDGE, {2, 0, 0}, 0}},
    {1, 2, {CALL_ACKNOWLEDGE, {2, 0, 0}, 0}},
    {1, 2, {CALL_ACKNOWLEDGE, {255, 0, 0}, 0}},
    {1, 2, {CALL_ACKNOWLEDGE, {WIDE, 0, 0}, 0}},
    {0, 6, {CALL_ACKNOWLEDGE, {1, 0, 0}, 0}},
    {0, 6, {CALL_ACKNOWLEDGE, {0, 0, 0}, 0}},
};

static void must_be_done(uint64_t answer)
{
    if (cleftromi_kind(answer) == CLEFTROMI_DONE)
        return;
    printf("setting up two units: answer 0x%016llX\n", (unsigned long long)answer);
    exit(1);
}

static void two_units(uint8_t *state, unsigned irq)
{
    size_t bytes = LAYOUT_BYTES;
    must_be_done(cleftromi_start(state, bytes, 2, 0));
    must_be_done(cleftromi_register(state, bytes, 0, CLEFTROMI_SSR, CLEFTROMI_WRITE, 0x09));
    must_be_done(cleftromi_register(state, bytes, 0, CLEFTROMI_GSR, CLEFTROMI_WRITE, irq ? 0x01 : 0x00));
}

static void orders(void)
{
    static const uint8_t bad_counts[] = {0, 7, 8, 128, 255};
    uint8_t *state = area + AREA - LAYOUT_BYTES;
    fill_area();
    for (unsigned i = 0; i < sizeof on_noise / sizeof on_noise[0]; i++)
        must_refuse("on noise", on_noise[i].c, area + AREA - on_noise[i].bytes, on_noise[i].bytes, on_noise[i].refusal);
    for (unsigned b = 0; b < sizeof bad_counts; b++)
        for (unsigned i = 0; i < sizeof on_bad_count / sizeof on_bad_count[0]; i++) {
            state[0] = bad_counts[b];
            must_refuse("on a bad count", on_bad_count[i], state, LAYOUT_BYTES, 1);
        }
    for (unsigned i = 0; i < sizeof on_two_units / sizeof on_two_units[0]; i++) {
        two_units(state, on_two_units[i].irq);
        must_refuse("on two units", on_two_units[i].c, state, LAYOUT_BYTES, on_two_units[i].refusal);
    }
}

/* ------------------------------------------------------------------ */
/* Images                                                              */
/* ------------------------------------------------------------------ */

typedef struct {
    const char *name;
    uint8_t *state, *image;
    size_t bytes, image_bytes;
} image_call;

static uint64_t save(image_call c)
{
    return cleftromi_save(c.state, c.bytes, c.image, c.image_bytes);
}

static uint64_t restore(image_call c)
{
    return cleftromi_restore(c.state, c.bytes, c.image, c.image_bytes);
}

/* The call must be answered so, and leave in both areas what "before" has. */
static void must_leave(image_call c, const char *what, uint64_t ours, uint64_t wanted)
{
    made++;
    if (ours == wanted && memcmp(before, area, AREA) == 0 && memcmp(image_before, image_area, AREA) == 0)
        return;
    printf("%s of an image, %s, %zu bytes of state and %zu of image lent: library 0x%016llX, wanted 0x%016llX%s\n",
           c.name, what, c.bytes, c.image_bytes, (unsigned long long)ours, (unsigned long long)wanted,
           ours == wanted ? ", and other bytes" : "");
    exit(1);
}

static void note_areas(void)
{
    memcpy(before, area, AREA);
    memcpy(image_before, image_area, AREA);
}

static void must_refuse_both(image_call c, const char *what, uint64_t refusal_of_save, uint64_t refusal_of_restore)
{
    note_areas();
    c.name = "save";
    must_leave(c, what, save(c), refusal_of_save);
    c.name = "restore";
    must_leave(c, what, restore(c), refusal_of_restore);
}

/* A board of so many units, some of them with a segment. */
static model board(unsigned units)
{
    static model m;
    model_start(&m, units, units / 2);
    model_register(&m, units - 1, CLEFTROMI_SSR, CLEFTROMI_READ, 0);
    model_register(&m, 0, CLEFTROMI_AC8, CLEFTROMI_WRITE, 0x5A);
    model_register(&m, 0, CLEFTROMI_AST(3), CLEFTROMI_WRITE, 0xA5);
    model_access(&m, 0, CLEFTROMI_MODIFY, 0x123456);
    model_access(&m, 3, CLEFTROMI_READ, 0x654321);
    return m;
}

/* The image of such a board, up to the end of its area. */
static uint8_t *put_image(const model *m, size_t image_bytes)
{
    model copy = *m;
    fill_with_noise(image_area);
    model_save(&copy, image_area + AREA - image_bytes, image_bytes);
    return image_area + AREA - image_bytes;
}

/* A block too short, with an image that is good. */
static void too_short_for_images(size_t bytes)
{
    uint8_t *places[] = {area + AREA - bytes, area + 3};
    for (unsigned p = 0; p < 2; p++) {
        image_call c = {0, places[p], image_area + AREA - 1024, bytes, 1024};
        if (bytes > 0)
            places[p][0] = 2;
        must_refuse_both(c, "too short", 7, 7);
    }
}

/* Any length of an image but the right one, right up to the edge, and with more
 * bytes that were not lent behind it.  Of six blocks the first has a good check,
 * but not the count of fewer. */
static void image_lengths(void)
{
    model six = board(6);
    uint8_t *state = area + AREA - LAYOUT_BYTES;
    fill_area();
    layout_encode(&six, state);
    for (size_t length = 0; length <= LENGTHS; length++) {
        image_call c = {0, state, image_area + AREA - length, LAYOUT_BYTES, length};
        uint64_t due = length > 0 && length < 3072 && length % 512 == 0 ? 10 : 8;
        if (length == 3072)
            continue;
        memmove(c.image, put_image(&six, 3072), length < 3072 ? length : 3072);
        must_refuse_both(c, "a length", 8, due);
        c.image = put_image(&six, 3072);
        if (length < 3072)
            must_refuse_both(c, "a length with more behind it", 8, due);
    }
}

/* A save and a restore that are granted, image and block at both ends. */
static void images_granted(unsigned units, bool at_the_end)
{
    model m = board(units);
    size_t length = CLEFTROMI_IMAGE_BYTES(units);
    image_call c = {"save", area, image_area, LAYOUT_BYTES, length};
    if (at_the_end) {
        c.state = area + AREA - LAYOUT_BYTES;
        c.image = image_area + AREA - length;
    }
    fill_area();
    fill_with_noise(image_area);
    layout_encode(&m, c.state);
    note_areas();
    uint64_t wanted = layout_answer(model_save(&m, image_before + (c.image - image_area), length));
    must_leave(c, "granted", save(c), wanted);

    fill_area();
    note_areas();
    layout_encode(&m, before + (c.state - area));
    c.name = "restore";
    must_leave(c, "granted", restore(c), wanted);
}

/* No pointer need point anywhere where its length is 0. */
static void no_bytes(void)
{
    model m = board(1);
    uint8_t *state = area + AREA - LAYOUT_BYTES;
    image_call nothing = {0, NULL, NULL, 0, 0}, no_state = {0, NULL, NULL, 0, 512}, no_image = {0, NULL, NULL, 4096, 0};
    no_state.image = put_image(&m, 512);
    layout_encode(&m, state);
    no_image.state = state;
    must_refuse_both(nothing, "nothing lent", 7, 7);
    must_refuse_both(no_state, "no state", 7, 7);
    must_refuse_both(no_image, "no image", 8, 8);
}

/* Lengths that a narrowing would turn into good ones, of memory that is really
 * there: an image of 2^32 + 512 bytes, and a block of 2^32 + 16. */
static void wide_lengths(void)
{
    static const uint64_t wide[] = {0x10000, 0x10000 + 512, WIDE, WIDE + 512, WIDE + 1024, WIDE + 3072};
    size_t all = (size_t)WIDE + AREA;
    uint8_t *room = mmap(NULL, all, PROT_READ | PROT_WRITE, MAP_PRIVATE | MAP_ANONYMOUS | MAP_NORESERVE, -1, 0);
    model m = board(1);
    uint8_t *state = area + AREA - LAYOUT_BYTES;
    if (room == MAP_FAILED) {
        printf("no room for lengths of 2^32 bytes, which were not tried\n");
        return;
    }
    fill_area();
    layout_encode(&m, state);
    memcpy(room, put_image(&m, 512), 512);
    for (unsigned i = 0; i < sizeof wide / sizeof wide[0]; i++) {
        image_call c = {0, state, room, LAYOUT_BYTES, (size_t)wide[i]};
        must_refuse_both(c, "a wide length", 8, 8);
    }
    image_call c = {"restore", room, image_area + AREA - 512, (size_t)WIDE + 16, 512};
    note_areas();
    must_leave(c, "a wide block", restore(c), layout_answer(model_done(&m)));
    must_leave(c, "a wide block", save(c), layout_answer(model_done(&m)));
    munmap(room, all);
}

static void images(void)
{
    model two = board(2);
    fill_area();
    put_image(&two, 1024);
    for (size_t bytes = 0; bytes < LAYOUT_BYTES; bytes++)
        too_short_for_images(bytes);
    image_lengths();
    for (unsigned units = 1; units <= 6; units++) {
        images_granted(units, false);
        images_granted(units, true);
    }
    no_bytes();
    wide_lengths();
}

int main(void)
{
    area = make_area();
    image_area = make_area();
    fill_area();
    for (size_t bytes = 0; bytes < LAYOUT_BYTES; bytes++)
        too_short(bytes);
    long_enough(4096);
    long_enough(4097);
    long_enough(8192);
    orders();
    images();
    printf("%u calls\n", made);
    return 0;
}
