/* Saves and restores, by the library and by the model side by side. */
#ifndef PAIR_IMAGE_H
#define PAIR_IMAGE_H

#include <stdbool.h>
#include <stddef.h>
#include <stdint.h>
#include "pair.h"

/* The lent image stands inside a room of its own, with guards before and after
 * it.  "wanted" is what the whole room has to look like. */
typedef struct {
    uint8_t room[PAIR_ROOM], wanted[PAIR_ROOM];
    size_t at, bytes;
} lent_image;

/* Puts "length" bytes into a room whose every other byte comes from the seed, at
 * "at", and lends "bytes" from there on. */
void image_lend(lent_image *i, const uint8_t *image, size_t length, size_t at, size_t bytes, uint64_t seed);

/* Makes the call to both.  False if they differ; what differs is then printed. */
bool pair_save(pair *p, lent_image *i);
bool pair_restore(pair *p, lent_image *i);

#endif
