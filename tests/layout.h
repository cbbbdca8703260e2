/* The written forms that docs/LAYOUTS.md lays down, of the model's states and
 * answers. */
#ifndef LAYOUT_H
#define LAYOUT_H

#include <stddef.h>
#include <stdint.h>
#include "model.h"

#define LAYOUT_BYTES 4096u
#define LAYOUT_PLACE_LENGTH 64

/* The one written form of a state, whose count is 1 to 6. */
void layout_encode(const model *m, uint8_t *block);

/* The state that a block reads as.  A count of 0 or above 6 is kept, so that
 * the model refuses it, and nothing else is read then. */
void layout_decode(const uint8_t *block, model *m);

/* The 64-bit number of an answer. */
uint64_t layout_answer(model_answer a);

/* What stands at byte "at" of a block, in words. */
void layout_place(size_t at, char place[LAYOUT_PLACE_LENGTH]);

#endif
