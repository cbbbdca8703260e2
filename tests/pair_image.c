#include <stdio.h>
#include <string.h>
#include "cleftromi.h"
#include "layout.h"
#include "model_image.h"
#include "pair_image.h"

void image_lend(lent_image *i, const uint8_t *image, size_t length, size_t at, size_t bytes, uint64_t seed)
{
    for (size_t n = 0; n < PAIR_ROOM; n++) {
        seed = seed * 6364136223846793005u + 1442695040888963407u;
        i->wanted[n] = (uint8_t)(seed >> 56);
    }
    if (length > 0)
        memcpy(i->wanted + at, image, length);
    memcpy(i->room, i->wanted, PAIR_ROOM);
    i->at = at;
    i->bytes = bytes;
}

/* ------------------------------------------------------------------ */
/* Comparing                                                           */
/* ------------------------------------------------------------------ */

static void print_difference(const lent_image *i)
{
    size_t n = 0;
    while (i->room[n] == i->wanted[n])
        n++;
    if (n < i->at)
        printf("  %zu bytes before the image: ", i->at - n);
    else if (n >= i->at + i->bytes)
        printf("  byte %zu, past the image: ", n - i->at);
    else
        printf("  byte %zu of block %zu: ", (n - i->at) % IMAGE_BLOCK, (n - i->at) / IMAGE_BLOCK);
    printf("library 0x%02X, model 0x%02X\n", i->room[n], i->wanted[n]);
}

static bool same(const pair *p, const lent_image *i, uint64_t ours)
{
    bool state = pair_same(p, ours), image = memcmp(i->room, i->wanted, PAIR_ROOM) == 0;
    if (!image)
        print_difference(i);
    return state && image;
}

/* ------------------------------------------------------------------ */
/* The calls                                                           */
/* ------------------------------------------------------------------ */

static const model_answer too_short = {.refusal = 7, .kind = MODEL_REFUSED};

/* A refused call writes nothing. */
static void write_state(pair *p)
{
    if (p->answer.refusal == 0)
        layout_encode(&p->m, p->wanted + p->at);
}

bool pair_save(pair *p, lent_image *i)
{
    uint64_t ours = cleftromi_save(p->room + p->at, p->bytes, i->room + i->at, i->bytes);
    p->answer = p->bytes < LAYOUT_BYTES ? too_short : model_save(&p->m, i->wanted + i->at, i->bytes);
    write_state(p);
    return same(p, i, ours);
}

bool pair_restore(pair *p, lent_image *i)
{
    uint64_t ours = cleftromi_restore(p->room + p->at, p->bytes, i->room + i->at, i->bytes);
    p->answer = p->bytes < LAYOUT_BYTES ? too_short : model_restore(&p->m, i->wanted + i->at, i->bytes);
    write_state(p);
    return same(p, i, ours);
}
