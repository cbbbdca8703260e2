/* header: the readers take the documented bits, the names are those that hosts
 * are written against, and the use that the header shows works.  C and C++ alike. */
#include "cleftromi.h"
#include "cleftromi.h" /* twice does no harm */
#include <stdio.h>
#include <string.h>

/* Must agree with the header, or this does not compile. */
#ifdef __cplusplus
extern "C" {
#endif
uint64_t cleftromi_start(uint8_t *state, size_t bytes, uint64_t units, uint64_t selected);
uint64_t cleftromi_reset(uint8_t *state, size_t bytes, uint64_t selected);
uint64_t cleftromi_access(uint8_t *state, size_t bytes, uint64_t function_code, uint64_t direction, uint64_t address);
uint64_t cleftromi_register(uint8_t *state, size_t bytes, uint64_t unit, uint64_t address, uint64_t direction,
                            uint8_t value);
uint64_t cleftromi_acknowledge(uint8_t *state, size_t bytes, uint64_t unit);
uint64_t cleftromi_save(uint8_t *state, size_t bytes, uint8_t *image, size_t image_bytes);
uint64_t cleftromi_restore(uint8_t *state, size_t bytes, const uint8_t *image, size_t image_bytes);
#ifdef __cplusplus
}
#endif

static const int constants[][2] = {
    {CLEFTROMI_STATE_BYTES, 4096},
    {CLEFTROMI_NONE, 255},
    {CLEFTROMI_READ, 0},
    {CLEFTROMI_WRITE, 1},
    {CLEFTROMI_MODIFY, 2},
    {CLEFTROMI_DONE, 1},
    {CLEFTROMI_BYTE, 2},
    {CLEFTROMI_MAPPED, 3},
    {CLEFTROMI_VIOLATION, 4},
    {CLEFTROMI_UNDEFINED, 5},
    {CLEFTROMI_REFUSED_COUNT, 1},
    {CLEFTROMI_REFUSED_UNIT, 2},
    {CLEFTROMI_REFUSED_REGISTER, 3},
    {CLEFTROMI_REFUSED_FUNCTION_CODE, 4},
    {CLEFTROMI_REFUSED_ADDRESS, 5},
    {CLEFTROMI_REFUSED_INTERRUPT, 6},
    {CLEFTROMI_REFUSED_BLOCK, 7},
    {CLEFTROMI_REFUSED_IMAGE_LENGTH, 8},
    {CLEFTROMI_REFUSED_IMAGE_CHECK, 9},
    {CLEFTROMI_REFUSED_IMAGE_FIELDS, 10},
};

/* The length of an image is a size, of any expression. */
static const size_t lengths[][2] = {
    {CLEFTROMI_IMAGE_BYTES(1), 512},
    {CLEFTROMI_IMAGE_BYTES(6), 3072},
    {CLEFTROMI_IMAGE_BYTES(1 + 1), 1024},
    {CLEFTROMI_IMAGE_BYTES(2) / 2, 512},
    {sizeof(CLEFTROMI_IMAGE_BYTES(1)), sizeof(size_t)},
};

/* docs/LAYOUTS.md, "The answer". */
static const struct {
    const char *name;
    unsigned from, to;
} fields[] = {
    {"refusal", 0, 7}, {"kind", 8, 11},        {"irq", 12, 12},  {"win", 13, 13},     {"near", 14, 14},
    {"unit", 16, 18},  {"descriptor", 19, 23}, {"byte", 24, 31}, {"address", 32, 55},
};
#define FIELDS (sizeof fields / sizeof fields[0])

static uint64_t field(unsigned i, uint64_t answer)
{
    switch (i) {
    case 0:
        return cleftromi_refusal(answer);
    case 1:
        return cleftromi_kind(answer);
    case 2:
        return cleftromi_irq(answer);
    case 3:
        return cleftromi_win(answer);
    case 4:
        return cleftromi_near(answer);
    case 5:
        return cleftromi_unit(answer);
    case 6:
        return cleftromi_descriptor(answer);
    case 7:
        return cleftromi_byte(answer);
    default:
        return cleftromi_address(answer);
    }
}

/* What a field shows of one bit of the answer. */
static uint64_t shown(unsigned i, unsigned bit)
{
    return bit >= fields[i].from && bit <= fields[i].to ? (uint64_t)1 << (bit - fields[i].from) : 0;
}

static int wrong_readers(void)
{
    int wrong = 0;
    for (unsigned i = 0; i < FIELDS; i++)
        for (unsigned bit = 0; bit < 64; bit++) {
            uint64_t one = (uint64_t)1 << bit, all = shown(i, fields[i].to) * 2 - 1;
            if (field(i, one) == shown(i, bit) && field(i, ~one) == all - shown(i, bit))
                continue;
            printf("cleftromi_%s reads bit %u wrongly\n", fields[i].name, bit);
            wrong++;
        }
    return wrong;
}

static int wrong_constants(void)
{
    int wrong = 0;
    for (unsigned i = 0; i < sizeof constants / sizeof constants[0]; i++)
        if (constants[i][0] != constants[i][1]) {
            printf("constant %u is %d, and was to be %d\n", i, constants[i][0], constants[i][1]);
            wrong++;
        }
    return wrong;
}

static int wrong_lengths(void)
{
    int wrong = 0;
    for (unsigned i = 0; i < sizeof lengths / sizeof lengths[0]; i++)
        if (lengths[i][0] != lengths[i][1]) {
            printf("length %u of an image is not what it was to be\n", i);
            wrong++;
        }
    return wrong;
}

/* With C++, names are the C ones only if the header says so: these calls fail
 * to link otherwise. */
static int wrong_names(void)
{
    uint8_t state[1] = {0}, image[1] = {0};
    const uint8_t *read_only = image;
    return cleftromi_start(state, 0, 1, 0) != CLEFTROMI_REFUSED_BLOCK ||
           cleftromi_save(state, 0, image, 0) != CLEFTROMI_REFUSED_BLOCK ||
           cleftromi_restore(state, 0, read_only, 0) != CLEFTROMI_REFUSED_BLOCK;
}

/* ------------------------------------------------------------------ */
/* Whose is the page?                                                  */
/* ------------------------------------------------------------------ */

static uint8_t board[CLEFTROMI_STATE_BYTES];

static uint64_t get(uint8_t *state, unsigned unit, unsigned address)
{
    return cleftromi_register(state, CLEFTROMI_STATE_BYTES, unit, address, CLEFTROMI_READ, 0);
}

static void set(uint8_t *state, unsigned unit, unsigned address, unsigned value)
{
    cleftromi_register(state, CLEFTROMI_STATE_BYTES, unit, address, CLEFTROMI_WRITE, (uint8_t)value);
}

/* Two units.  Pages 4000 to 4FFF are the setup task's, whose numbers are 12 and 92;
 * the print task has number 13, and function code 1. */
static void set_up(void)
{
    static const uint8_t setup[9] = {0x40, 0x00, 0xF0, 0x00, 0x80, 0x00, 0x12, CLEFTROMI_SSR_E, 0x7F};
    cleftromi_start(board, sizeof board, 2, CLEFTROMI_NONE);
    for (unsigned n = 0; n < 9; n++)
        set(board, 0, CLEFTROMI_AC0 + n, setup[n]);
    set(board, 0, CLEFTROMI_DP, 5);
    get(board, 1, CLEFTROMI_LOAD);
    set(board, 0, CLEFTROMI_AST(1), 0x13);
}

/* As the header says it beside cleftromi_near: the board keeps what the fault left
 * in it.  The number and the mask of the owner, in two bytes. */
static unsigned owner(uint64_t a)
{
    uint8_t copy[CLEFTROMI_STATE_BYTES];
    unsigned unit = cleftromi_unit(a);

    memcpy(copy, board, sizeof copy);
    set(copy, unit, CLEFTROMI_DP, cleftromi_descriptor(a));
    get(copy, unit, CLEFTROMI_SSR);
    return (unsigned)cleftromi_byte(get(copy, unit, CLEFTROMI_AC6)) << 8 |
           cleftromi_byte(get(copy, unit, CLEFTROMI_AC8));
}

static int wrong(int is_wrong, const char *what)
{
    if (is_wrong)
        printf("%s\n", what);
    return is_wrong;
}

static int wrong_owner(void)
{
    uint8_t kept[CLEFTROMI_STATE_BYTES];
    int count = 0;
    set_up();
    uint64_t a = cleftromi_access(board, sizeof board, 1, CLEFTROMI_WRITE, 0x4ABCDE);
    memcpy(kept, board, sizeof kept);
    count += wrong(cleftromi_kind(a) != CLEFTROMI_UNDEFINED || cleftromi_near(a) != 1, "the page is nobody's");
    count += wrong(cleftromi_unit(a) != 1 || cleftromi_descriptor(a) != 5, "the page is another segment's");
    count += wrong(owner(a) != 0x127F, "the page is another task's");
    count += wrong(memcmp(kept, board, sizeof kept) != 0, "asking for the owner changes the board");

    /* the fault has left page and number for a direct translation */
    a = get(board, 0, CLEFTROMI_TRANSLATE);
    count += wrong(cleftromi_byte(a) != 0xFF || cleftromi_near(a) != 1, "the page to be translated is nobody's");
    count += wrong(owner(a) != 0x127F, "the page to be translated is another task's");

    a = cleftromi_access(board, sizeof board, 1, CLEFTROMI_READ, 0x5ABCDE);
    count += wrong(cleftromi_kind(a) != CLEFTROMI_UNDEFINED, "a page that nobody has is not undefined");
    count += wrong(cleftromi_near(a) != 0 || cleftromi_unit(a) != 0 || cleftromi_descriptor(a) != 0,
                   "a page that nobody has is somebody's");
    return count;
}

int main(void)
{
    return wrong_readers() + wrong_constants() + wrong_lengths() + wrong_names() + wrong_owner() != 0;
}
