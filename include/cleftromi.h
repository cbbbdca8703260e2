/* Cleftromi: one to six MC68451 memory management units, called from C.
 *
 * The host lends one block of CLEFTROMI_STATE_BYTES bytes, which holds the
 * whole state of the units, and lends the same block again at each call:
 *
 *     static uint8_t board[CLEFTROMI_STATE_BYTES];
 *
 *     uint64_t a = cleftromi_start(board, sizeof board, 1, 0);
 *     a = cleftromi_access(board, sizeof board, 5, CLEFTROMI_READ, 0x001234);
 *     if (cleftromi_kind(a) == CLEFTROMI_MAPPED)
 *         fetch(cleftromi_address(a));
 *
 * The block
 *   - may lie anywhere and needs no alignment;
 *   - needs no initialisation before a start: a start looks at none of it;
 *   - must really be `bytes` bytes long: the library believes the number;
 *   - may be longer than 4,096: bytes past 4,096 are never touched;
 *   - may be copied, saved and moved between calls: it has no pointers in it;
 *   - is all there is: the library keeps nothing else, so a host may have any
 *     number of boards.  Two calls at once on one block are the host's to
 *     prevent.
 *
 * Each call gives one 64-bit answer, read by the functions at the end of this
 * header.  A call with a number out of range is refused: the answer then has
 * the number of the refusal and nothing else, and no byte of the block has
 * changed.  What the chip itself says no to (a write violation, an undefined
 * segment, a load that clashes) is not a refusal but an answer.
 *
 * Every number but the byte that is written is 64 bits wide, so that a host's
 * bad number is not narrowed into a good one on its way.  Section numbers below
 * are those of the MC68451 handbook, April 1983.  For C99 and C++.
 */
#ifndef CLEFTROMI_H
#define CLEFTROMI_H

#include <stddef.h>
#include <stdint.h>

#ifdef __cplusplus
extern "C" {
#endif

/* The length of the block. */
#define CLEFTROMI_STATE_BYTES 4096

/* "No unit", for `selected` at a start or a reset. */
#define CLEFTROMI_NONE 255

/* The direction of an access.  CLEFTROMI_MODIFY is a read-modify-write, by a
 * bus access alone; every other number writes, and in a register access 2 as
 * well. */
#define CLEFTROMI_READ 0
#define CLEFTROMI_WRITE 1
#define CLEFTROMI_MODIFY 2

/* ------------------------------------------------------------------ */
/* The calls                                                           */
/* ------------------------------------------------------------------ */

/* Puts a board of `units` units, 1 to 6, into the block, fresh from reset.
 *
 * In the unit `selected` (0 up to units - 1) descriptor 0 is then enabled and
 * maps every address to itself for address space number $00, which is what
 * every function code has after a reset.  With CLEFTROMI_NONE no descriptor
 * is enabled, and every access is undefined until one is loaded.
 *
 * Refusals: 7, 1, 2.  Answer: CLEFTROMI_DONE. */
uint64_t cleftromi_start(uint8_t *state, size_t bytes, uint64_t units, uint64_t selected);

/* The RESET pin (4.5.1): as a start with the count of units the board has.
 *
 * Refusals: 7, 1, 2.  Answer: CLEFTROMI_DONE. */
uint64_t cleftromi_reset(uint8_t *state, size_t bytes, uint64_t selected);

/* A bus access by the processor, seen by all units (4.5.3).
 *
 * function_code: FC3 to FC0, 0 to 15.  It selects the entry of the address
 * space table that gives the cycle its address space number.
 * address: the logical address, 0 to $FFFFFF.
 * direction: CLEFTROMI_READ, CLEFTROMI_WRITE, or CLEFTROMI_MODIFY for the one
 * cycle of a 68010's TAS, in which R/W falls after the read (4.5.3.2, item 3).
 *
 * Refusals: 7, 1, 4, 5.  Answer, one of
 *   CLEFTROMI_MAPPED     with unit, descriptor, address and WIN;
 *   CLEFTROMI_VIOLATION  with unit, descriptor and WIN: a write, or a
 *                        read-modify-write, to a write-protected segment;
 *   CLEFTROMI_UNDEFINED  no enabled descriptor of any unit matches; with the
 *                        unit and descriptor that cleftromi_near tells of.
 * The last two are faults: read GSR, LSR, RDP, AC0, AC1 and AC6 for what the
 * chip noted of them, after a violation in the unit that the answer names, after
 * an undefined access in any unit.  RW in the LSR is then 1 for an undefined
 * read or read-modify-write, else 0.
 *
 * A read-modify-write is one call and at most one fault.  What becomes of the
 * status of the segment that was matched (3.1.6):
 *
 *                       address given           violation
 *   read                U, IP if I is set       -
 *   write               U, M, IP if I is set    nothing
 *   read-modify-write   U, M, IP if I is set    U, IP if I is set
 *
 * A host whose processor makes two cycles of it (a read, and then a write that
 * it makes only if the read was answered by an address) may give both, as
 * before: answer and state come out the same. */
uint64_t cleftromi_access(uint8_t *state, size_t bytes, uint64_t function_code, uint64_t direction,
                          uint64_t address);

/* A register access by byte, with the chip select of `unit` asserted (4.6).
 *
 * address: $00 to $3F, see the map below.  `value` is the byte written; a read
 * does not look at it.  An address or direction that the map does not have is
 * a null operation: a read gives $FF, a write does nothing.
 *
 * Refusals: 7, 1, 2, 3.  Answer: CLEFTROMI_BYTE for a read, CLEFTROMI_DONE for
 * a write.  A direct translation that finds no match answers with the unit and
 * descriptor that cleftromi_near tells of, beside its byte $FF. */
uint64_t cleftromi_register(uint8_t *state, size_t bytes, uint64_t unit, uint64_t address,
                            uint64_t direction, uint8_t value);

/* An interrupt acknowledge with the IACK pin of `unit` asserted (4.6.2.1).
 * Gives the vector (IVR) and changes nothing: clear IP or IE to take IRQ away.
 *
 * Refusals: 7, 1, 2, 6.  Answer: CLEFTROMI_BYTE. */
uint64_t cleftromi_acknowledge(uint8_t *state, size_t bytes, uint64_t unit);

/* ------------------------------------------------------------------ */
/* The image: a board that outlives the host                           */
/* ------------------------------------------------------------------ */

/* The length of the image of a board with `units` units, 1 to 6: a block of 512
 * bytes for each unit.  The image has one form on every machine.  Block n is
 * unit n and starts at byte 512 times n; a word has its high byte first.
 *
 *   0         the number of the unit, n
 *   1         the count of units
 *   2-17      the address space table
 *   18-26     AC0 to AC8
 *   27-28     for each of them, AC0 in the lowest bit, whether it was last
 *             written globally
 *   29 DP, 30 IVR, 31 GSR, 32 LSR (GAT, GAL and LIP as zero), 33 RDP
 *   34-321    descriptors 0 to 31, nine bytes each, in the order of AC0 to AC8
 *   322-509   zero
 *   510-511   the check: the 256 words of the block add up to zero, carries
 *             beyond 16 bits dropped
 */
#define CLEFTROMI_IMAGE_BYTES(units) (512 * (size_t)(units))

/* Of both calls below: state and image do not overlap, each is really as long
 * as is said, and neither pointer is NULL unless its length is 0.  That is the
 * host's to see to.  The image may lie anywhere and needs no alignment.  A
 * refusal changes no byte of either. */

/* Writes the board into the image: all of its `image_bytes` bytes, which must be
 * CLEFTROMI_IMAGE_BYTES of the count of units that the board has, and none
 * beyond.  It does not matter what stood there.  The board goes on as it was; the
 * block is written anew, as by every call that is granted.
 *
 * Refusals, the first that applies of 7, 1, 8, 10.  10 is given exactly when a
 * restore would not take the image back.  That never happens to a board that
 * these calls alone have written since a start, reset or restore was granted; so
 * it means that something else has written into the block.
 * Answer: CLEFTROMI_DONE. */
uint64_t cleftromi_save(uint8_t *state, size_t bytes, uint8_t *image, size_t image_bytes);

/* Puts the board of an image into the block: the one that was saved, in every
 * register.  As a start it looks at nothing in the block, so the block needs no
 * initialisation; the count of units comes from the image.  The image is only
 * read.
 *
 * `image_bytes` must be 512 times 1 to 6: lend what the file has, whatever its
 * length, and let the answer say whether it is an image.
 *
 * Refusals, the first that applies of 7, 8, and then
 *   for each block, from block 0 on,
 *      9   its words do not add up to zero;
 *     10   a field of its own is not what a save writes: its number is not its
 *          place, its count not the number of blocks, a bit is set that no
 *          register has or a byte of 322-509 is not zero, RDP has a number
 *          beside its bit 7, or a descriptor has IP without E;
 *   and after all blocks
 *     10   they do not fit together: table, GSR or IVR are not the same in all,
 *          a byte of AC0 to AC8 last written globally in two units is not the
 *          same in both, or two enabled descriptors of any units match the same
 *          address and address space number.
 * So the first bad block decides, and in it 9 comes before 10.
 * Answer: CLEFTROMI_DONE. */
uint64_t cleftromi_restore(uint8_t *state, size_t bytes, const uint8_t *image, size_t image_bytes);

/* ------------------------------------------------------------------ */
/* Refusals                                                            */
/* ------------------------------------------------------------------ */

/* Where several apply, the answer is the first in the order 7, 1, 2, 3, 4, 5,
 * 6; for images it is the one that cleftromi_save and cleftromi_restore name.
 * A refusal changes nothing.
 *
 *   no.  given exactly when                          by
 *   ---  ------------------------------------------  --------------------------
 *   1    the count of units is 0 or above 6: start   every call but restore
 *        tests the count asked for, the others the
 *        one in the block
 *   2    the unit is not below the count             start and reset (where
 *                                                    CLEFTROMI_NONE is good),
 *                                                    register, acknowledge
 *   3    the register address is above $3F           register
 *   4    the function code is above 15               access
 *   5    the logical address is above $FFFFFF        access
 *   6    IRQ is not asserted                         acknowledge
 *   7    `bytes` is below CLEFTROMI_STATE_BYTES      every call
 *   8    `image_bytes` is not 512 times 1 to 6;      restore
 *        is not 512 times the count in the block     save
 *   9    a block of the image does not add up        restore
 *   10   the fields of the image are none that a     restore; save, of the
 *        board can have                              image it would write */
enum {
    CLEFTROMI_REFUSED_COUNT = 1,
    CLEFTROMI_REFUSED_UNIT = 2,
    CLEFTROMI_REFUSED_REGISTER = 3,
    CLEFTROMI_REFUSED_FUNCTION_CODE = 4,
    CLEFTROMI_REFUSED_ADDRESS = 5,
    CLEFTROMI_REFUSED_INTERRUPT = 6,
    CLEFTROMI_REFUSED_BLOCK = 7,
    CLEFTROMI_REFUSED_IMAGE_LENGTH = 8,
    CLEFTROMI_REFUSED_IMAGE_CHECK = 9,
    CLEFTROMI_REFUSED_IMAGE_FIELDS = 10
};

/* ------------------------------------------------------------------ */
/* The answer                                                          */
/* ------------------------------------------------------------------ */

/* The kinds.  A refusal has kind 0. */
enum {
    CLEFTROMI_DONE = 1,      /* start, reset, register write, save, restore */
    CLEFTROMI_BYTE = 2,      /* register read, acknowledge */
    CLEFTROMI_MAPPED = 3,    /* bus access: translated */
    CLEFTROMI_VIOLATION = 4, /* bus access: write violation */
    CLEFTROMI_UNDEFINED = 5  /* bus access: undefined segment */
};

/* Which kind has which field; a field that a kind does not have is zero.
 *
 *               irq  win  near  unit  descriptor  byte  address
 *   DONE         x
 *   BYTE         x         *     *        *         x
 *   MAPPED       x    x          x        x                x
 *   VIOLATION    x    x          x        x
 *   UNDEFINED    x         *     *        *
 *
 * * see cleftromi_near: all three are zero where there is no such descriptor,
 *   and in every byte but that of a direct translation that found no match.
 */

/* 0, or the number of the refusal; then every other field is zero. */
static inline unsigned cleftromi_refusal(uint64_t answer)
{
    return (unsigned)(answer & 0xFF);
}

/* CLEFTROMI_DONE to CLEFTROMI_UNDEFINED, or 0 for a refusal. */
static inline unsigned cleftromi_kind(uint64_t answer)
{
    return (unsigned)(answer >> 8 & 0xF);
}

/* 1 if the interrupt request is asserted after the call: IE is set and some
 * descriptor of some unit has IP set. */
static inline unsigned cleftromi_irq(uint64_t answer)
{
    return (unsigned)(answer >> 12 & 1);
}

/* 1 if the write inhibit is asserted: the segment is write-protected (2.23). */
static inline unsigned cleftromi_win(uint64_t answer)
{
    return (unsigned)(answer >> 13 & 1);
}

/* Support: "Which task owns the page that this task asked for?"
 *
 * 1 if nothing matches, and some enabled descriptor has the page, but for other
 * address space numbers than the one that asked: its range matches and its space
 * does not (4.5.3.1).  unit and descriptor then give the lowest unit that has
 * one, and of that unit the lowest descriptor.  It is told of an undefined
 * access, and of a direct translation that found no match (CLEFTROMI_TRANSLATE,
 * $FF).  Otherwise all three are 0: 1 alone tells "unit 0, descriptor 0" from
 * "there is none".
 *
 * The print task got an undefined access.  Whose is the page?  The descriptor
 * knows, and a copy of the block can be asked, so that the board keeps what the
 * fault left in it:
 *
 *     if (cleftromi_near(a)) {
 *         uint8_t copy[CLEFTROMI_STATE_BYTES];
 *         unsigned unit = cleftromi_unit(a);
 *
 *         memcpy(copy, board, sizeof copy);
 *         cleftromi_register(copy, sizeof copy, unit, CLEFTROMI_DP,
 *                            CLEFTROMI_WRITE, (uint8_t)cleftromi_descriptor(a));
 *         cleftromi_register(copy, sizeof copy, unit, CLEFTROMI_SSR,
 *                            CLEFTROMI_READ, 0);
 *         number = cleftromi_byte(cleftromi_register(
 *             copy, sizeof copy, unit, CLEFTROMI_AC6, CLEFTROMI_READ, 0));
 *         mask = cleftromi_byte(cleftromi_register(
 *             copy, sizeof copy, unit, CLEFTROMI_AC8, CLEFTROMI_READ, 0));
 *     }
 *
 * The page belongs to the task whose number is `number` in the bits that are set
 * in `mask`: "the print task asked for a page of the setup task".  With near 0 it
 * belongs to nobody, and the address itself is wrong.  A segment that has every
 * page, as a reset leaves one in descriptor 0 of the unit that is selected, is
 * named for all of them: load such a one into the last descriptor, and a task's
 * own is named first.  examples/host.c does this, examples/owner.md shows it. */
static inline unsigned cleftromi_near(uint64_t answer)
{
    return (unsigned)(answer >> 14 & 1);
}

/* The unit that translated the access or found the violation, 0 to 5; or the one
 * that cleftromi_near tells of. */
static inline unsigned cleftromi_unit(uint64_t answer)
{
    return (unsigned)(answer >> 16 & 0x7);
}

/* The descriptor of that unit, 0 to 31. */
static inline unsigned cleftromi_descriptor(uint64_t answer)
{
    return (unsigned)(answer >> 19 & 0x1F);
}

/* The byte read. */
static inline uint8_t cleftromi_byte(uint64_t answer)
{
    return (uint8_t)(answer >> 24 & 0xFF);
}

/* The physical address, 24 bits. */
static inline uint32_t cleftromi_address(uint64_t answer)
{
    return (uint32_t)(answer >> 32 & 0xFFFFFF);
}

/* ------------------------------------------------------------------ */
/* The register map (Table 4-3)                                        */
/* ------------------------------------------------------------------ */

/* Reads are of the selected unit.  Writes go to all units, but for the segment
 * status, which is the selected unit's own.  IDP, RDP and the last two are
 * only read.
 *
 * To load a descriptor: write AC0 to AC8 and DP, then read CLEFTROMI_LOAD in
 * the unit that is to have it, and look at the byte read. */
enum {
    CLEFTROMI_AC0 = 0x20, /* logical base, or the page to translate: high byte */
    CLEFTROMI_AC1 = 0x21, /*   low byte */
    CLEFTROMI_AC2 = 0x22, /* logical address mask: high byte */
    CLEFTROMI_AC3 = 0x23, /*   low byte */
    CLEFTROMI_AC4 = 0x24, /* physical base, or the translated page: high byte */
    CLEFTROMI_AC5 = 0x25, /*   low byte */
    CLEFTROMI_AC6 = 0x26, /* address space number */
    CLEFTROMI_AC7 = 0x27, /* segment status, CLEFTROMI_SSR_.. */
    CLEFTROMI_AC8 = 0x28, /* address space mask */
    CLEFTROMI_DP = 0x29,  /* descriptor pointer: the low five bits count */
    CLEFTROMI_IVR = 0x2B, /* interrupt vector */
    CLEFTROMI_GSR = 0x2D, /* global status, CLEFTROMI_GSR_.. */
    CLEFTROMI_LSR = 0x2F, /* local status, CLEFTROMI_LSR_.. */

    /* Segment status of the descriptor that DP names.  A write never enables.
     * A read is the transfer operation: the whole descriptor goes to AC0 to
     * AC8 of the unit. */
    CLEFTROMI_SSR = 0x31,

    CLEFTROMI_IDP = 0x39, /* lowest descriptor with IP, or CLEFTROMI_NO_DESCRIPTOR */
    CLEFTROMI_RDP = 0x3B, /* descriptor of the last event, or CLEFTROMI_NO_DESCRIPTOR */

    /* A read translates page AC0, AC1 for the number in AC6, in all units.
     * $00: the unit that has it puts the physical page in its AC4, AC5 and the
     * descriptor in its DP and RDP.  $FF: no unit has it, and cleftromi_near
     * tells who has it for other numbers.  Where GAT is clear in some unit, the
     * selected unit's AC0, 1 and 6 first go to all units. */
    CLEFTROMI_TRANSLATE = 0x3D,

    /* A read loads AC0 to AC8 of the selected unit into its descriptor that DP
     * names.  $00: loaded.  $FF: it clashes with another enabled descriptor of
     * some unit (each such unit's RDP has its lowest), and the descriptor that
     * DP names is now disabled.  With E clear in AC7 nothing is compared.
     * Where GAL is clear in some unit, the selected unit's AC0 to 3, 6 and 8
     * first go to all units. */
    CLEFTROMI_LOAD = 0x3F
};

/* Entry n, 0 to 15, of the address space table: the address space number of
 * function code n.  1 is user data, 2 user program, 5 supervisor data, 6
 * supervisor program. */
#define CLEFTROMI_AST(n) (2 * (n))

/* What RDP and IDP read as when they name no descriptor (3.2.6, 3.2.7). */
#define CLEFTROMI_NO_DESCRIPTOR 0x80

/* The segment status (3.1.6). */
enum {
    CLEFTROMI_SSR_E = 0x01,  /* enabled */
    CLEFTROMI_SSR_WP = 0x02, /* write protect */
    CLEFTROMI_SSR_M = 0x04,  /* modified: set by a write or read-modify-write */
    CLEFTROMI_SSR_IP = 0x08, /* interrupt pending: set by an access if I is set */
    CLEFTROMI_SSR_I = 0x10,  /* interrupt control */
    CLEFTROMI_SSR_U = 0x80   /* used: set by an access */
};

/* The global status (3.2.3).  Writing F as 0 clears L7 to L4 in every unit. */
enum {
    CLEFTROMI_GSR_IE = 0x01, /* interrupt enable */
    CLEFTROMI_GSR_DF = 0x40, /* double fault: a fault while F was set */
    CLEFTROMI_GSR_F = 0x80   /* fault */
};

/* The local status (3.2.4): bits, and the codes of L7 to L4 under the mask
 * CLEFTROMI_LSR_L.  A write changes L7 to L4 and RW. */
enum {
    CLEFTROMI_LSR_LIP = 0x01, /* a descriptor of this unit has IP set */
    CLEFTROMI_LSR_GAL = 0x02, /* AC0 to 3, 6 and 8 were last written globally */
    CLEFTROMI_LSR_GAT = 0x04, /* AC0, 1 and 6 were last written globally */
    CLEFTROMI_LSR_RW = 0x08,  /* the last fault was a read, or began as one */
    CLEFTROMI_LSR_L = 0xF0,
    CLEFTROMI_L_NONE = 0x00,       /* this unit had no part in the last event */
    CLEFTROMI_L_TRANSLATED = 0x80, /* direct translation, found here */
    CLEFTROMI_L_CLASH = 0x90,      /* load refused, it clashes here */
    CLEFTROMI_L_UNDEFINED = 0xA0,  /* undefined segment access */
    CLEFTROMI_L_VIOLATION = 0xC0   /* write violation here */
};

#ifdef __cplusplus
}
#endif

#endif
