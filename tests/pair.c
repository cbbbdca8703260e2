#include <inttypes.h>
#include <stdio.h>
#include <string.h>
#include "cleftromi.h"
#include "layout.h"
#include "pair.h"

/* ------------------------------------------------------------------ */
/* A call                                                              */
/* ------------------------------------------------------------------ */

uint64_t call_library(call c, uint8_t *state, size_t bytes)
{
    switch (c.name) {
    case CALL_START:
        return cleftromi_start(state, bytes, c.number[0], c.number[1]);
    case CALL_RESET:
        return cleftromi_reset(state, bytes, c.number[0]);
    case CALL_ACCESS:
        return cleftromi_access(state, bytes, c.number[0], c.number[1], c.number[2]);
    case CALL_REGISTER:
        return cleftromi_register(state, bytes, c.number[0], c.number[1], c.number[2], c.value);
    default:
        return cleftromi_acknowledge(state, bytes, c.number[0]);
    }
}

model_answer call_model(call c, model *m)
{
    switch (c.name) {
    case CALL_START:
        return model_start(m, c.number[0], c.number[1]);
    case CALL_RESET:
        return model_reset(m, c.number[0]);
    case CALL_ACCESS:
        return model_access(m, c.number[0], c.number[1], c.number[2]);
    case CALL_REGISTER:
        return model_register(m, c.number[0], c.number[1], c.number[2], c.value);
    default:
        return model_acknowledge(m, c.number[0]);
    }
}

void call_print(call c)
{
    static const char *const names[] = {"start", "reset", "access", "register", "acknowledge"};
    static const char *const parameters[][3] = {
        {"units", "selected", 0},
        {"selected", 0, 0},
        {"function code", "direction", "address"},
        {"unit", "address", "direction"},
        {"unit", 0, 0},
    };
    printf("%s:", names[c.name]);
    for (unsigned i = 0; i < 3 && parameters[c.name][i]; i++)
        printf("%s %s 0x%" PRIX64, i ? "," : "", parameters[c.name][i], c.number[i]);
    if (c.name == CALL_REGISTER)
        printf(", value 0x%02X", c.value);
    printf("\n");
}

/* ------------------------------------------------------------------ */
/* Comparing                                                           */
/* ------------------------------------------------------------------ */

static void print_answer(const char *whose, uint64_t a)
{
    printf("  %s 0x%016" PRIX64 ": refusal %u, kind %u, irq %u, win %u, near %u, unit %u, descriptor %u, "
           "byte 0x%02X, address 0x%06" PRIX32 "\n",
           whose, a, cleftromi_refusal(a), cleftromi_kind(a), cleftromi_irq(a), cleftromi_win(a), cleftromi_near(a),
           cleftromi_unit(a), cleftromi_descriptor(a), cleftromi_byte(a), cleftromi_address(a));
}

/* The readers and the whole number: no bit outside the fields may be set. */
static bool same_answer(uint64_t ours, model_answer a)
{
    return ours == layout_answer(a) && cleftromi_refusal(ours) == a.refusal && cleftromi_kind(ours) == a.kind &&
           cleftromi_irq(ours) == a.irq && cleftromi_win(ours) == a.win && cleftromi_near(ours) == a.near &&
           cleftromi_unit(ours) == a.unit && cleftromi_descriptor(ours) == a.descriptor &&
           cleftromi_byte(ours) == a.byte && cleftromi_address(ours) == a.address;
}

static void print_difference(const pair *p)
{
    size_t i = 0;
    while (p->room[i] == p->wanted[i])
        i++;
    if (i < p->at) {
        printf("  %zu bytes before the block: ", p->at - i);
    } else if (i >= p->at + LAYOUT_BYTES) {
        printf("  byte %zu, past the block (%zu lent): ", i - p->at, p->bytes);
    } else {
        char place[LAYOUT_PLACE_LENGTH];
        layout_place(i - p->at, place);
        printf("  byte %zu of the block (%s): ", i - p->at, place);
    }
    printf("library 0x%02X, model 0x%02X\n", p->room[i], p->wanted[i]);
}

void pair_lend(pair *p, const uint8_t *block, size_t at, size_t bytes, uint64_t seed)
{
    uint8_t kept[LAYOUT_BYTES]; /* the block may stand in this very room */
    memcpy(kept, block, LAYOUT_BYTES);
    for (size_t i = 0; i < PAIR_ROOM; i++) {
        seed = seed * 6364136223846793005u + 1442695040888963407u;
        p->wanted[i] = (uint8_t)(seed >> 56);
    }
    memcpy(p->wanted + at, kept, LAYOUT_BYTES);
    memcpy(p->room, p->wanted, PAIR_ROOM);
    p->at = at;
    p->bytes = bytes;
    layout_decode(p->wanted + at, &p->m);
}

/* The length is the block's, not the chip's: the model does not know of it. */
static model_answer expected(pair *p, call c)
{
    model_answer too_short = {.refusal = 7, .kind = MODEL_REFUSED};
    return p->bytes < LAYOUT_BYTES ? too_short : call_model(c, &p->m);
}

bool pair_same(const pair *p, uint64_t ours)
{
    bool same = true;
    if (!same_answer(ours, p->answer)) {
        print_answer("library", ours);
        print_answer("model  ", layout_answer(p->answer));
        same = false;
    }
    if (memcmp(p->room, p->wanted, PAIR_ROOM) != 0) {
        print_difference(p);
        same = false;
    }
    return same;
}

bool pair_call(pair *p, call c)
{
    uint64_t ours = call_library(c, p->room + p->at, p->bytes);
    p->answer = expected(p, c);
    if (p->answer.refusal == 0) /* a refused call writes nothing */
        layout_encode(&p->m, p->wanted + p->at);
    return pair_same(p, ours);
}
