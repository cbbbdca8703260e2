#include <string.h>
#include "block_image.h"

#define BLOCK 4096u

/* A word of a descriptor has its low byte first in the block, and its high byte
 * first in the image. */
static const uint8_t order[9] = {1, 0, 3, 2, 5, 4, 6, 7, 8};

static unsigned sum(const uint8_t *part)
{
    unsigned total = 0;
    for (unsigned i = 0; i < PER_UNIT; i++)
        total += i % 2 == 0 ? 256u * part[i] : part[i];
    return total & 0xFFFF;
}

bool adds_up(const uint8_t *part)
{
    return sum(part) == 0;
}

void make_add_up(uint8_t *part)
{
    part[510] = part[511] = 0;
    unsigned missing = 0x10000 - sum(part);
    part[510] = (uint8_t)(missing >> 8);
    part[511] = (uint8_t)missing;
}

/* As a block reads: without bits that no register has. */
static void write_unit(const uint8_t *block, unsigned m, uint8_t *part)
{
    const uint8_t *unit = block + 32 + 16 * m, *d = block + 128 + 288 * m;
    memset(part, 0, PER_UNIT);
    part[0] = (uint8_t)m;
    part[1] = block[0];
    memcpy(part + 2, block + 16, 16);
    memcpy(part + 18, unit, 9);
    part[27] = unit[10] & 0x01;
    part[28] = unit[9];
    part[29] = unit[11] & 0x1F;
    part[30] = block[2];
    part[31] = block[1] & 0xC1;
    part[32] = unit[12] & 0xF8;
    part[33] = unit[13] & 0x80 ? 0x80 : unit[13] & 0x1F;
    for (unsigned i = 0; i < 288; i++)
        part[34 + i] = d[i - i % 9 + order[i % 9]];
    for (unsigned i = 34 + 7; i < 322; i += 9)
        part[i] &= part[i] & 0x01 ? 0x9F : 0x97;
    make_add_up(part);
}

static void read_unit(const uint8_t *part, unsigned m, uint8_t *block)
{
    uint8_t *unit = block + 32 + 16 * m, *d = block + 128 + 288 * m;
    memcpy(unit, part + 18, 9);
    unit[9] = part[28];
    unit[10] = part[27];
    unit[11] = part[29];
    unit[12] = part[32];
    unit[13] = part[33];
    for (unsigned i = 0; i < 288; i++)
        d[i - i % 9 + order[i % 9]] = part[34 + i];
}

static void read_shared(const uint8_t *part, unsigned count, uint8_t *block)
{
    memset(block, 0, BLOCK);
    block[0] = (uint8_t)count;
    block[1] = part[31];
    block[2] = part[30];
    memcpy(block + 16, part + 2, 16);
}

void image_of_block(const uint8_t *block, uint8_t *image)
{
    for (unsigned m = 0; m < block[0]; m++)
        write_unit(block, m, image + PER_UNIT * m);
}

void block_of_image(const uint8_t *image, unsigned count, uint8_t *block)
{
    read_shared(image, count, block);
    for (unsigned m = 0; m < count; m++)
        read_unit(image + PER_UNIT * m, m, block);
}

bool is_some_unit(const uint8_t *part, unsigned m, unsigned count)
{
    static uint8_t block[BLOCK], again[PER_UNIT];
    read_shared(part, count, block);
    read_unit(part, m, block);
    write_unit(block, m, again);
    return memcmp(part, again, PER_UNIT) == 0;
}
