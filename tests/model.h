/* One to six MC68451 memory management units, at the level of whole cycles.
 *
 * Written from the papers alone: the MC68451 handbook of April 1983 (section
 * numbers such as 4.6.3.2 are its own), document 01 ("01"), requests P1, P2 and P4
 * of document 02 and the rulings.
 * It is an oracle for tests: clarity goes before speed everywhere.
 */
#ifndef MODEL_H
#define MODEL_H

#include <stdint.h>
#include <stdbool.h>

/* 3.1, Table 3-1: a descriptor, nine bytes in accumulator order. */
typedef struct {
    uint16_t lba, lam, pba;
    uint8_t asn, ssr, asm_;
} model_descriptor;

/* 3.2: what each unit has of its own.
 * lsr holds L7-L4 in bits 7-4 and RW in bit 3 only; GAT, GAL and LIP are
 * worked out at each read.  mark[n] is true while ACn is "global" (4.6.3.1). */
typedef struct {
    uint8_t ac[9];
    bool mark[9];
    uint8_t dp, rdp, lsr;
    model_descriptor d[32];
} model_unit;

/* The system.  Table, GSR and IVR are one for all units (01). */
typedef struct {
    unsigned count;
    uint8_t table[16], gsr, ivr;
    model_unit unit[6];
} model;

enum {
    MODEL_REFUSED = 0,
    MODEL_DONE = 1,
    MODEL_BYTE = 2,
    MODEL_MAPPED = 3,
    MODEL_VIOLATION = 4,
    MODEL_UNDEFINED = 5
};

/* A refusal: its number, every other field zero.
 * Otherwise refusal is zero, and a field that the kind does not have is zero.
 * near is 1 where an undefined access, or a direct translation that finds no
 * match, names a descriptor by unit and descriptor (P4, ruling 16). */
typedef struct {
    unsigned refusal;
    unsigned kind;
    unsigned irq, win, near, unit, descriptor;
    uint8_t byte;
    uint32_t address;
} model_answer;

#define MODEL_NONE 255

/* The direction of a bus access: 0 reads, MODEL_MODIFY is a read-modify-write
 * (document 02, P1), any other number writes. */
#define MODEL_MODIFY 2

/* selected: a unit or MODEL_NONE.  The direction of a register access: 0 reads,
 * any other number writes, MODEL_MODIFY too. */
model_answer model_start(model *m, uint64_t units, uint64_t selected);
model_answer model_reset(model *m, uint64_t selected);
model_answer model_access(model *m, uint64_t function_code, uint64_t direction, uint64_t address);
model_answer model_register(model *m, uint64_t unit, uint64_t address, uint64_t direction, uint8_t value);
model_answer model_acknowledge(model *m, uint64_t unit);

/* What model_image.c needs: the answer that has no field but IRQ, the one
 * meaning of a state that no call leaves, and whether two descriptors clash. */
model_answer model_done(const model *m);
void model_read_as_state(model *m);
bool model_clash(const model_descriptor *a, const model_descriptor *b);

#endif
