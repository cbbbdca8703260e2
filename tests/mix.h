/* Random calls that go where the chip has something to do. */
#ifndef MIX_H
#define MIX_H

#include <stdint.h>
#include "model.h"
#include "pair.h"

#define MIX_QUEUE 24u

typedef struct {
    uint64_t state;          /* of the random numbers */
    unsigned mode, left;     /* the mixture in force, and for how many more sequences */
    unsigned first, waiting; /* of the queue */
    call queue[MIX_QUEUE];
} mix;

void mix_begin(mix *x, uint64_t seed);

/* A random number; one below n. */
uint64_t mix_random(mix *x);
unsigned mix_below(mix *x, unsigned n);

/* A direction of a bus access: reads, writes and read-modify-writes as often as
 * one another, a write now and then by some other number than 1. */
uint64_t mix_direction(mix *x);

/* A page and a number that a descriptor matches. */
uint16_t mix_page(mix *x, const model_descriptor *d);
uint8_t mix_number(mix *x, const model_descriptor *d);

/* A number that it does not match; any where it matches all. */
uint8_t mix_other_number(mix *x, const model_descriptor *d);

/* Some enabled descriptor and its unit, or NULL. */
const model_descriptor *mix_enabled(mix *x, const model *m, unsigned *unit, unsigned *number);

/* The same, and often descriptor 0 of unit 0, which is a place like any other. */
const model_descriptor *mix_often_first(mix *x, const model *m, unsigned *unit, unsigned *number);

/* The next call.  Calls come in short sequences (fill the accumulator, set DP,
 * load), planned by the state that the model is in when a sequence begins. */
call mix_next(mix *x, const model *m);

/* The last call of a fresh sequence alone, for a state that is prepared. */
call mix_single(mix *x, const model *m);

#endif
