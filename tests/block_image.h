/* The image of a lent block and the block of an image, byte by byte: the block by
 * docs/LAYOUTS.md, the image by document 02, P2.  For demands, so nothing of the
 * model is in it. */
#ifndef BLOCK_IMAGE_H
#define BLOCK_IMAGE_H

#include <stdbool.h>
#include <stdint.h>

#define PER_UNIT 512u
#define LONGEST_IMAGE 3072u

/* The block has a count of 1 to 6, and may be noise otherwise. */
void image_of_block(const uint8_t *block, uint8_t *image);

/* Table, GSR and IVR are taken from block 0, bits as they stand. */
void block_of_image(const uint8_t *image, unsigned count, uint8_t *block);

/* Do the 256 words of a block of an image add up to zero?  Makes them do so. */
bool adds_up(const uint8_t *part);
void make_add_up(uint8_t *part);

/* Is it what unit "m" of some board with "count" units is written as? */
bool is_some_unit(const uint8_t *part, unsigned m, unsigned count);

#endif
