/* The end of shift image (document 02, P2, and rulings 13 to 15): the whole
 * system as blocks of 512 bytes, one a unit. */
#ifndef MODEL_IMAGE_H
#define MODEL_IMAGE_H

#include <stddef.h>
#include <stdint.h>
#include "model.h"

#define IMAGE_BLOCK 512u
#define IMAGE_LONGEST 3072u

/* The bytes of a block. */
enum {
    IMAGE_UNIT = 0,
    IMAGE_COUNT = 1,
    IMAGE_TABLE = 2,
    IMAGE_AC = 18,
    IMAGE_MARKS = 27,
    IMAGE_DP = 29,
    IMAGE_IVR = 30,
    IMAGE_GSR = 31,
    IMAGE_LSR = 32,
    IMAGE_RDP = 33,
    IMAGE_DESCRIPTORS = 34,
    IMAGE_ZEROS = 322,
    IMAGE_CHECK = 510
};

/* A refused call changes neither the state nor the image. */
model_answer model_save(model *m, uint8_t *image, size_t image_bytes);
model_answer model_restore(model *m, const uint8_t *image, size_t image_bytes);

/* Puts the check of a block right. */
void model_mend(uint8_t *block);

#endif
