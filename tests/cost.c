/* cost prepare all|half|one UNITS FILE: fills every descriptor of every unit, or
 * every second one, or the last of the last unit alone, in the library and in the
 * model, and saves both states and their image.
 * cost ours|model OPERATION CALLS FILE: takes up a saved state and makes one
 * call that many times.  tests/cost counts the instructions of two such runs. */
#include <stdio.h>
#include <stdlib.h>
#include <string.h>
#include "cleftromi.h"
#include "layout.h"
#include "model.h"
#include "model_image.h"
#include "pair.h"

static uint8_t block[LAYOUT_BYTES], image[IMAGE_LONGEST];
static model m;

/* A code and the number that it has; the other number is of every other code. */
static const uint64_t code = 1, other_code = 2;
static const uint8_t space = 0x01, other_space = 0x00;

/* Each descriptor has 256 pages of its own, by the high byte of the page. */
static unsigned last_segment(unsigned units)
{
    return 32 * units - 1;
}

static void fail(const char *what)
{
    fprintf(stderr, "cost: %s\n", what);
    exit(1);
}

/* ------------------------------------------------------------------ */
/* Preparing                                                           */
/* ------------------------------------------------------------------ */

static uint64_t on_both(call c)
{
    uint64_t ours = call_library(c, block, sizeof block);
    if (ours != layout_answer(call_model(c, &m)))
        fail("the library and the model differ");
    return ours;
}

static void set(unsigned unit, unsigned address, unsigned value)
{
    call c = {CALL_REGISTER, {unit, address, CLEFTROMI_WRITE}, (uint8_t)value};
    on_both(c);
}

static void load_segment(unsigned number)
{
    const unsigned bytes[9] = {number, 0, 0xFF, 0, number ^ 0xFF, 0, space, CLEFTROMI_SSR_E, 0xFF};
    unsigned unit = number / 32;
    call load = {CALL_REGISTER, {unit, CLEFTROMI_LOAD, CLEFTROMI_READ}, 0};
    for (unsigned n = 0; n < 9; n++)
        set(unit, CLEFTROMI_AC0 + n, bytes[n]);
    set(unit, CLEFTROMI_DP, number % 32);
    if (cleftromi_byte(on_both(load)) != 0)
        fail("a load clashes");
}

static void save_both(void)
{
    static uint8_t plain[IMAGE_LONGEST];
    size_t length = CLEFTROMI_IMAGE_BYTES(m.count);
    uint64_t ours = cleftromi_save(block, sizeof block, image, length);
    if (ours != layout_answer(model_save(&m, plain, length)) || memcmp(image, plain, length) != 0)
        fail("the images of the library and the model differ");
}

/* One of how many is enabled. */
static unsigned every(const char *filled, unsigned units)
{
    return strcmp(filled, "all") == 0 ? 1 : strcmp(filled, "half") == 0 ? 2 : 32 * units;
}

/* The accumulator and DP are left with the last descriptor of the last unit. */
static void prepare(const char *filled, unsigned units, const char *path)
{
    call start = {CALL_START, {units, CLEFTROMI_NONE, 0}, 0};
    unsigned step = every(filled, units);
    on_both(start);
    for (unsigned i = step - 1; i <= last_segment(units); i += step)
        load_segment(i);
    set(0, CLEFTROMI_AST(code), space);
    save_both();
    FILE *f = fopen(path, "wb");
    if (f == NULL || fwrite(block, sizeof block, 1, f) != 1 || fwrite(&m, sizeof m, 1, f) != 1 ||
        fwrite(image, sizeof image, 1, f) != 1 || fclose(f) != 0)
        fail("the state can't be saved");
}

static void take_up(const char *path)
{
    FILE *f = fopen(path, "rb");
    if (f == NULL || fread(block, sizeof block, 1, f) != 1 || fread(&m, sizeof m, 1, f) != 1 ||
        fread(image, sizeof image, 1, f) != 1)
        fail("there is no saved state");
    fclose(f);
}

/* ------------------------------------------------------------------ */
/* Calling                                                             */
/* ------------------------------------------------------------------ */

/* Protects the last descriptor of the last unit, which DP names. */
static void protect(unsigned units)
{
    set(units - 1, CLEFTROMI_SSR, CLEFTROMI_SSR_E | CLEFTROMI_SSR_WP);
}

static bool is(const char *name, const char *other)
{
    return strcmp(name, other) == 0;
}

/* An answer with the last descriptor of the last unit. */
static model_answer by_last(unsigned kind, unsigned units)
{
    model_answer a = {.kind = kind, .unit = units - 1, .descriptor = 31};
    return a;
}

/* To the pages of the last descriptor, or to some that none has. */
static call bus_access(const char *name, unsigned units, model_answer *wanted)
{
    call c = {CALL_ACCESS, {code, CLEFTROMI_READ, (uint64_t)last_segment(units) << 16 | 0x1234}, 0};
    model_answer undefined = {.kind = MODEL_UNDEFINED};
    if (strncmp(name, "modify", strlen("modify")) == 0)
        c.number[1] = CLEFTROMI_MODIFY;
    if (is(name, "access") || is(name, "modify")) {
        *wanted = by_last(MODEL_MAPPED, units);
        wanted->address = (last_segment(units) ^ 0xFF) << 16 | 0x1234;
    } else if (is(name, "undefined") || is(name, "modify-undefined")) {
        c.number[2] = 0xFFFFFF;
        *wanted = undefined;
    } else if (is(name, "near")) {
        c.number[0] = other_code;
        *wanted = by_last(MODEL_UNDEFINED, units);
        wanted->near = 1;
    } else if (is(name, "modify-protected")) {
        protect(units);
        *wanted = by_last(MODEL_VIOLATION, units);
        wanted->win = 1;
    } else {
        fail("there is no such operation");
    }
    return c;
}

/* The call, and the answer that it must have.  What is to be set up first is set
 * up in both states, and falls out of the difference of two runs. */
static call operation(const char *name, unsigned units, model_answer *wanted)
{
    call write = {CALL_REGISTER, {0, CLEFTROMI_IVR, CLEFTROMI_WRITE}, 0x40};
    call load = {CALL_REGISTER, {units - 1, CLEFTROMI_LOAD, CLEFTROMI_READ}, 0};
    call translate = {CALL_REGISTER, {units - 1, CLEFTROMI_TRANSLATE, CLEFTROMI_READ}, 0};
    model_answer done = {.kind = MODEL_DONE}, granted = {.kind = MODEL_BYTE, .byte = 0x00};
    if (is(name, "write")) {
        *wanted = done;
        return write;
    }
    if (is(name, "load")) {
        *wanted = granted;
        return load;
    }
    if (is(name, "translate-near")) {
        set(0, CLEFTROMI_AC6, other_space);
        *wanted = by_last(MODEL_BYTE, units);
        wanted->near = 1;
        wanted->byte = 0xFF;
        return translate;
    }
    return bus_access(name, units, wanted);
}

/* The two loops are alike, so that what they cost themselves is about equal. */
static uint64_t call_ours(call c, long calls)
{
    uint64_t answer = 0;
    for (long i = 0; i < calls; i++)
        answer = call_library(c, block, sizeof block);
    return answer;
}

static uint64_t call_plain(call c, long calls)
{
    model_answer answer = {.kind = 0};
    for (long i = 0; i < calls; i++)
        answer = call_model(c, &m);
    return layout_answer(answer);
}

/* The same of saves and restores, of the image that was prepared. */
static uint64_t image_ours(bool saves, size_t length, long calls)
{
    uint64_t answer = 0;
    for (long i = 0; i < calls; i++)
        answer = saves ? cleftromi_save(block, sizeof block, image, length)
                       : cleftromi_restore(block, sizeof block, image, length);
    return answer;
}

static uint64_t image_plain(bool saves, size_t length, long calls)
{
    model_answer answer = {.kind = 0};
    for (long i = 0; i < calls; i++)
        answer = saves ? model_save(&m, image, length) : model_restore(&m, image, length);
    return layout_answer(answer);
}

static uint64_t answer_to(bool ours, const char *name, long calls, model_answer *wanted)
{
    static const model_answer done = {.kind = MODEL_DONE};
    bool saves = is(name, "save");
    if (saves || is(name, "restore")) {
        size_t length = CLEFTROMI_IMAGE_BYTES(m.count);
        *wanted = done;
        return ours ? image_ours(saves, length, calls) : image_plain(saves, length, calls);
    }
    call c = operation(name, m.count, wanted);
    return ours ? call_ours(c, calls) : call_plain(c, calls);
}

int main(int argc, char **argv)
{
    if (argc == 5 && strcmp(argv[1], "prepare") == 0) {
        prepare(argv[2], (unsigned)strtoul(argv[3], NULL, 10), argv[4]);
        return 0;
    }
    if (argc != 5)
        fail("prepare all|half|one UNITS FILE, or ours|model OPERATION CALLS FILE");
    model_answer wanted;
    take_up(argv[4]);
    uint64_t answer = answer_to(strcmp(argv[1], "ours") == 0, argv[2], strtol(argv[3], NULL, 10), &wanted);
    if (answer != layout_answer(wanted))
        fail("the answer is not the one expected");
    return 0;
}
