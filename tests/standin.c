/* The functions of the library, by the model.  For tests/broken alone: a program
 * that runs on the library can so be run on something wrong. */
#include "cleftromi.h"
#include "layout.h"
#include "model_image.h"
#include "pair.h"

/* A refused call writes nothing. */
static uint64_t stand_in(call c, uint8_t *state, size_t bytes)
{
    static model m;
    if (bytes < LAYOUT_BYTES)
        return CLEFTROMI_REFUSED_BLOCK;
    layout_decode(state, &m);
    model_answer a = call_model(c, &m);
    if (a.refusal == 0)
        layout_encode(&m, state);
    return layout_answer(a);
}

uint64_t cleftromi_start(uint8_t *state, size_t bytes, uint64_t units, uint64_t selected)
{
    call c = {CALL_START, {units, selected, 0}, 0};
    return stand_in(c, state, bytes);
}

uint64_t cleftromi_reset(uint8_t *state, size_t bytes, uint64_t selected)
{
    call c = {CALL_RESET, {selected, 0, 0}, 0};
    return stand_in(c, state, bytes);
}

uint64_t cleftromi_access(uint8_t *state, size_t bytes, uint64_t function_code, uint64_t direction, uint64_t address)
{
    call c = {CALL_ACCESS, {function_code, direction, address}, 0};
    return stand_in(c, state, bytes);
}

uint64_t cleftromi_register(uint8_t *state, size_t bytes, uint64_t unit, uint64_t address, uint64_t direction,
                            uint8_t value)
{
    call c = {CALL_REGISTER, {unit, address, direction}, value};
    return stand_in(c, state, bytes);
}

uint64_t cleftromi_acknowledge(uint8_t *state, size_t bytes, uint64_t unit)
{
    call c = {CALL_ACKNOWLEDGE, {unit, 0, 0}, 0};
    return stand_in(c, state, bytes);
}

uint64_t cleftromi_save(uint8_t *state, size_t bytes, uint8_t *image, size_t image_bytes)
{
    static model m;
    if (bytes < LAYOUT_BYTES)
        return CLEFTROMI_REFUSED_BLOCK;
    layout_decode(state, &m);
    model_answer a = model_save(&m, image, image_bytes);
    if (a.refusal == 0)
        layout_encode(&m, state);
    return layout_answer(a);
}

/* What stands in the state is not read. */
uint64_t cleftromi_restore(uint8_t *state, size_t bytes, const uint8_t *image, size_t image_bytes)
{
    static model m;
    if (bytes < LAYOUT_BYTES)
        return CLEFTROMI_REFUSED_BLOCK;
    model_answer a = model_restore(&m, image, image_bytes);
    if (a.refusal == 0)
        layout_encode(&m, state);
    return layout_answer(a);
}
