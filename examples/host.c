/* A host of one MMU: sets up the memory map of Figure 6-1 of the MC68451
 * handbook, maps a few addresses through it, makes two faults and reads what
 * the chip noted of them, asks whose page an undefined access wanted, and tries
 * a load that clashes.
 *
 *     examples/run
 */
#include <inttypes.h>
#include <stdio.h>
#include <stdlib.h>
#include <string.h>
#include "cleftromi.h"

/* Function codes of the 68010 that the host uses. */
enum { USER_DATA = 1, USER_PROGRAM = 2, SUPERVISOR_DATA = 5 };

/* All that there is of the board; it needs no initialisation. */
static uint8_t board[CLEFTROMI_STATE_BYTES];

static const unsigned unit = 0;

/* ------------------------------------------------------------------ */
/* Calls: none of these may be refused                                 */
/* ------------------------------------------------------------------ */

static uint64_t granted(const char *what, uint64_t answer)
{
    if (cleftromi_refusal(answer) == 0)
        return answer;
    fprintf(stderr, "%s: refused (%u)\n", what, cleftromi_refusal(answer));
    exit(1);
}

static void start(void)
{
    granted("start", cleftromi_start(board, sizeof board, 1, unit));
}

static void set(unsigned address, uint8_t value)
{
    granted("register write", cleftromi_register(board, sizeof board, unit, address, CLEFTROMI_WRITE, value));
}

static uint8_t get(unsigned address)
{
    return cleftromi_byte(
        granted("register read", cleftromi_register(board, sizeof board, unit, address, CLEFTROMI_READ, 0)));
}

static uint64_t touch(unsigned function_code, unsigned direction, uint32_t address)
{
    return granted("access", cleftromi_access(board, sizeof board, function_code, direction, address));
}

/* ------------------------------------------------------------------ */
/* Segments                                                            */
/* ------------------------------------------------------------------ */

typedef struct {
    const char *name;
    uint16_t logical_base, mask, physical_base;
    uint8_t space, space_mask;
} segment;

/* 1B and 2B are given by their last page: only the bits under the mask count. */
static const segment figure_6_1[9] = {
    {"R", 0x0000, 0x0000, 0x0000, 0x00, 0xFF},  {"V", 0x8000, 0xFFFC, 0x0000, 0x80, 0x80},
    {"O", 0xF000, 0xF000, 0xF000, 0x80, 0x80},  {"1A", 0x0000, 0xE000, 0x2000, 0x01, 0x7F},
    {"1B", 0x7FFF, 0xC000, 0xBFFF, 0x01, 0x7F}, {"1C", 0x9000, 0xF000, 0xE000, 0x01, 0x7F},
    {"2A", 0x0000, 0xF000, 0x1000, 0x02, 0x7F}, {"2B", 0x7FFF, 0xE000, 0x7FFF, 0x02, 0x7F},
    {"2C", 0xA000, 0xF000, 0xE000, 0x02, 0x7F},
};

/* The chip's answer to a load: $00 if it took the segment, $FF if it clashes. */
static uint8_t load(unsigned descriptor, const segment *s)
{
    set(CLEFTROMI_AC0, (uint8_t)(s->logical_base >> 8));
    set(CLEFTROMI_AC1, (uint8_t)s->logical_base);
    set(CLEFTROMI_AC2, (uint8_t)(s->mask >> 8));
    set(CLEFTROMI_AC3, (uint8_t)s->mask);
    set(CLEFTROMI_AC4, (uint8_t)(s->physical_base >> 8));
    set(CLEFTROMI_AC5, (uint8_t)s->physical_base);
    set(CLEFTROMI_AC6, s->space);
    set(CLEFTROMI_AC7, CLEFTROMI_SSR_E);
    set(CLEFTROMI_AC8, s->space_mask);
    set(CLEFTROMI_DP, (uint8_t)descriptor);
    return get(CLEFTROMI_LOAD);
}

static void show_load(unsigned descriptor, const segment *s)
{
    uint8_t result = load(descriptor, s);
    printf("load %-2s into descriptor %u: %s\n", s->name, descriptor, result == 0 ? "done" : "it clashes");
    if (result != 0)
        printf("  with descriptor %u (LSR $%02X); descriptor %u stays disabled\n", get(CLEFTROMI_RDP),
               get(CLEFTROMI_LSR), descriptor);
}

/* ------------------------------------------------------------------ */
/* Accesses                                                            */
/* ------------------------------------------------------------------ */

/* "Which task owns the page that this task asked for?"  A copy is asked, so that
 * the board keeps what the fault left in it. */
static void show_owner(uint64_t a)
{
    if (!cleftromi_near(a)) {
        printf("  nobody has the page\n");
        return;
    }
    uint8_t copy[CLEFTROMI_STATE_BYTES];
    unsigned near_unit = cleftromi_unit(a), descriptor = cleftromi_descriptor(a);
    memcpy(copy, board, sizeof copy);
    cleftromi_register(copy, sizeof copy, near_unit, CLEFTROMI_DP, CLEFTROMI_WRITE, (uint8_t)descriptor);
    cleftromi_register(copy, sizeof copy, near_unit, CLEFTROMI_SSR, CLEFTROMI_READ, 0);
    uint64_t number = cleftromi_register(copy, sizeof copy, near_unit, CLEFTROMI_AC6, CLEFTROMI_READ, 0);
    uint64_t mask = cleftromi_register(copy, sizeof copy, near_unit, CLEFTROMI_AC8, CLEFTROMI_READ, 0);
    printf("  the page is in descriptor %u, for number $%02X in the bits $%02X\n", descriptor, cleftromi_byte(number),
           cleftromi_byte(mask));
}

static void show_access(unsigned function_code, unsigned direction, uint32_t address)
{
    uint64_t a = touch(function_code, direction, address);
    uint8_t space = get(CLEFTROMI_AST(function_code));
    printf("space $%02X, %s $%06" PRIX32 ": ", space, direction == CLEFTROMI_READ ? "read " : "write", address);
    switch (cleftromi_kind(a)) {
    case CLEFTROMI_MAPPED:
        printf("$%06" PRIX32 " by descriptor %u%s\n", cleftromi_address(a), cleftromi_descriptor(a),
               cleftromi_win(a) ? ", write-protected" : "");
        break;
    case CLEFTROMI_VIOLATION:
        printf("write violation in descriptor %u\n", cleftromi_descriptor(a));
        break;
    default:
        printf("undefined\n");
        show_owner(a);
        break;
    }
}

/* What a fault handler reads: what happened, where, and to whom. */
static void show_status(void)
{
    uint8_t global = get(CLEFTROMI_GSR), local = get(CLEFTROMI_LSR), result = get(CLEFTROMI_RDP);
    printf("  GSR $%02X:%s%s\n", global, global & CLEFTROMI_GSR_F ? " fault" : "",
           global & CLEFTROMI_GSR_DF ? ", and one before it" : "");
    printf("  LSR $%02X: %s, on a %s\n", local,
           (local & CLEFTROMI_LSR_L) == CLEFTROMI_L_VIOLATION ? "write violation" : "undefined segment",
           local & CLEFTROMI_LSR_RW ? "read" : "write");
    if (result & CLEFTROMI_NO_DESCRIPTOR)
        printf("  RDP $%02X: no descriptor\n", result);
    else
        printf("  RDP $%02X: descriptor %u\n", result, result);
    printf("  accumulator: page $%02X%02X, space $%02X\n", get(CLEFTROMI_AC0), get(CLEFTROMI_AC1),
           get(CLEFTROMI_AC6));
}

static void protect(unsigned descriptor)
{
    set(CLEFTROMI_DP, (uint8_t)descriptor);
    uint8_t status = get(CLEFTROMI_SSR);
    set(CLEFTROMI_SSR, status | CLEFTROMI_SSR_WP);
    printf("descriptor %u has status $%02X, and is write-protected now\n", descriptor, status);
}

int main(void)
{
    static const segment clashing = {"X", 0x5000, 0xF000, 0x0000, 0x01, 0xFF};
    static const segment apart = {"Y", 0x5000, 0xF000, 0x0000, 0x03, 0xFF};

    start();
    for (unsigned i = 0; i < 9; i++)
        show_load(i, &figure_6_1[i]);

    set(CLEFTROMI_AST(USER_DATA), 0x01);       /* user one */
    set(CLEFTROMI_AST(USER_PROGRAM), 0x02);    /* user two */
    set(CLEFTROMI_AST(SUPERVISOR_DATA), 0x81); /* the system, in user one's segments */
    show_access(USER_DATA, CLEFTROMI_READ, 0x7FFF12);
    show_access(USER_DATA, CLEFTROMI_WRITE, 0x400000);
    show_access(USER_PROGRAM, CLEFTROMI_READ, 0x010000);
    show_access(SUPERVISOR_DATA, CLEFTROMI_READ, 0x010000);
    show_access(0, CLEFTROMI_READ, 0xABCDEF);

    show_access(USER_DATA, CLEFTROMI_READ, 0x3FFF00);
    show_status();
    set(CLEFTROMI_GSR, 0); /* the fault is dealt with */

    protect(3);
    show_access(USER_DATA, CLEFTROMI_READ, 0x012345);
    show_access(USER_DATA, CLEFTROMI_WRITE, 0x012345);
    show_status();
    set(CLEFTROMI_GSR, 0);

    show_load(9, &clashing);
    show_load(9, &apart);

    uint64_t a = cleftromi_register(board, sizeof board, 1, CLEFTROMI_GSR, CLEFTROMI_READ, 0);
    printf("unit 1 of a board with one unit: refused (%u)\n", cleftromi_refusal(a));
    return cleftromi_refusal(a) == CLEFTROMI_REFUSED_UNIT ? 0 : 1;
}
