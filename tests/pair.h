/* The library and the model side by side: the same calls to both, and both
 * compared after each. */
#ifndef PAIR_H
#define PAIR_H

#include <stdbool.h>
#include <stddef.h>
#include <stdint.h>
#include "model.h"

typedef enum { CALL_START, CALL_RESET, CALL_ACCESS, CALL_REGISTER, CALL_ACKNOWLEDGE } call_name;

/* One call: its numbers in the order of the parameters, and the byte that a
 * register access brings. */
typedef struct {
    call_name name;
    uint64_t number[3];
    uint8_t value;
} call;

uint64_t call_library(call c, uint8_t *state, size_t bytes);
model_answer call_model(call c, model *m);
void call_print(call c);

/* The lent block stands inside a room, with guards before and after it.
 * "wanted" is what the whole room has to look like, guards and bytes past the
 * 4,096 included. */
#define PAIR_ROOM 4800u
#define PAIR_GUARD 32u

typedef struct {
    model m;
    uint8_t room[PAIR_ROOM], wanted[PAIR_ROOM];
    size_t at, bytes;
    model_answer answer; /* of the last call */
} pair;

/* Puts a block into a room whose every other byte comes from the seed, at
 * "at", and lends "bytes" of it from now on.  The model reads the block. */
void pair_lend(pair *p, const uint8_t *block, size_t at, size_t bytes, uint64_t seed);

/* Makes a call to both.  False if they differ; what differs is then printed. */
bool pair_call(pair *p, call c);

/* Whether an answer of the library and its room are as wanted; else what differs
 * is printed. */
bool pair_same(const pair *p, uint64_t ours);

#endif
