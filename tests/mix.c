#include <stddef.h>
#include "cleftromi.h"
#include "mix.h"

/* ------------------------------------------------------------------ */
/* Random numbers                                                      */
/* ------------------------------------------------------------------ */

/* A seed gives the same calls with every compiler, so no expression draws two
 * numbers whose order C leaves open. */

/* splitmix64: any seed is a good one, 0 too. */
uint64_t mix_random(mix *x)
{
    uint64_t z = x->state += 0x9E3779B97F4A7C15u;
    z = (z ^ z >> 30) * 0xBF58476D1CE4E5B9u;
    z = (z ^ z >> 27) * 0x94D049BB133111EBu;
    return z ^ z >> 31;
}

unsigned mix_below(mix *x, unsigned n)
{
    return (unsigned)(mix_random(x) >> 33) % n;
}

static bool one_in(mix *x, unsigned n)
{
    return mix_below(x, n) == 0;
}

static uint8_t any_byte(mix *x)
{
    return (uint8_t)mix_below(x, 256);
}

static unsigned any_word(mix *x)
{
    return mix_below(x, 65536);
}

void mix_begin(mix *x, uint64_t seed)
{
    x->state = seed;
    x->left = x->first = x->waiting = 0;
}

/* ------------------------------------------------------------------ */
/* Looking at the state                                                */
/* ------------------------------------------------------------------ */

/* Some blocks have no good count; calls to them are planned as for one unit. */
static unsigned units(const model *m)
{
    return m->count >= 1 && m->count <= 6 ? m->count : 1;
}

static unsigned any_unit(mix *x, const model *m)
{
    return mix_below(x, units(m));
}

static const model_descriptor *with_status(mix *x, const model *m, uint8_t bits, unsigned *unit, unsigned *number)
{
    unsigned all = 32 * units(m), from = mix_below(x, all);
    for (unsigned i = 0; i < all; i++) {
        unsigned at = (from + i) % all;
        const model_descriptor *d = &m->unit[at / 32].d[at % 32];
        if ((d->ssr & bits) == bits) {
            *unit = at / 32;
            *number = at % 32;
            return d;
        }
    }
    return NULL;
}

const model_descriptor *mix_enabled(mix *x, const model *m, unsigned *unit, unsigned *number)
{
    return with_status(x, m, CLEFTROMI_SSR_E, unit, number);
}

const model_descriptor *mix_often_first(mix *x, const model *m, unsigned *unit, unsigned *number)
{
    if (!one_in(x, 6) || (m->unit[0].d[0].ssr & CLEFTROMI_SSR_E) == 0)
        return mix_enabled(x, m, unit, number);
    *unit = *number = 0;
    return &m->unit[0].d[0];
}

uint16_t mix_page(mix *x, const model_descriptor *d)
{
    return (uint16_t)((d->lba & d->lam) | (any_word(x) & ~(unsigned)d->lam));
}

uint8_t mix_number(mix *x, const model_descriptor *d)
{
    return (uint8_t)((d->asn & d->asm_) | (any_byte(x) & ~(unsigned)d->asm_));
}

uint8_t mix_other_number(mix *x, const model_descriptor *d)
{
    uint8_t number = mix_number(x, d);
    unsigned from = mix_below(x, 8);
    for (unsigned i = from; i < from + 8; i++)
        if ((d->asm_ >> i % 8 & 1) != 0)
            return (uint8_t)(number ^ 1u << i % 8);
    return number;
}

/* ------------------------------------------------------------------ */
/* Single calls, put into the queue                                    */
/* ------------------------------------------------------------------ */

static void put(mix *x, call_name name, uint64_t a, uint64_t b, uint64_t c, uint8_t value)
{
    call made = {name, {a, b, c}, value};
    if (x->first + x->waiting < MIX_QUEUE)
        x->queue[x->first + x->waiting++] = made;
}

#define TOP ((uint64_t)1 << 63)

/* 1, or now and then another number that writes all the same: small ones, and
 * some that a narrowing would turn into a read or a read-modify-write. */
static uint64_t writing(mix *x)
{
    static const uint64_t others[] = {3,       3,          4,           128,         255, 256,     258,       0x10000,
                                      0x10002, 0x80000002, 0x100000000, 0x100000002, TOP, TOP + 2, UINT64_MAX};
    return one_in(x, 6) ? others[mix_below(x, sizeof others / sizeof others[0])] : CLEFTROMI_WRITE;
}

uint64_t mix_direction(mix *x)
{
    switch (mix_below(x, 3)) {
    case 0:
        return CLEFTROMI_READ;
    case 1:
        return CLEFTROMI_MODIFY;
    default:
        return writing(x);
    }
}

/* For a register a read-modify-write's number is one more that writes. */
static uint64_t writing_register(mix *x)
{
    return one_in(x, 32) ? CLEFTROMI_MODIFY : writing(x);
}

static uint64_t register_direction(mix *x)
{
    return one_in(x, 2) ? CLEFTROMI_READ : writing_register(x);
}

static void put_write(mix *x, unsigned unit, unsigned address, uint8_t value)
{
    put(x, CALL_REGISTER, unit, address, writing_register(x), value);
}

static void put_read(mix *x, unsigned unit, unsigned address)
{
    put(x, CALL_REGISTER, unit, address, CLEFTROMI_READ, any_byte(x));
}

static void put_write_anywhere(mix *x, const model *m, unsigned address, uint8_t value)
{
    put_write(x, any_unit(x, m), address, value);
}

static void put_read_anywhere(mix *x, const model *m, unsigned address)
{
    put_read(x, any_unit(x, m), address);
}

static void put_access(mix *x, unsigned function_code, uint64_t direction, unsigned page)
{
    uint64_t address = (uint64_t)page << 8 | any_byte(x);
    put(x, CALL_ACCESS, function_code, direction, address, 0);
}

static void put_acknowledge(mix *x, unsigned unit)
{
    put(x, CALL_ACKNOWLEDGE, unit, 0, 0, 0);
}

/* ------------------------------------------------------------------ */
/* Descriptors to load                                                 */
/* ------------------------------------------------------------------ */

/* Small and mostly apart from one another: these fill the units. */
static model_descriptor small_segment(mix *x)
{
    static const uint16_t masks[] = {0xFFFF, 0xFFFF, 0xFF00, 0xFFF0, 0x7FFF, 0xF0FF};
    model_descriptor d = {0};
    d.lba = one_in(x, 16) ? 0 : (uint16_t)any_word(x); /* page 0 is a page like any other */
    d.lam = masks[mix_below(x, 6)];
    d.asn = one_in(x, 2) ? (uint8_t)mix_below(x, 4) : any_byte(x);
    d.asm_ = one_in(x, 4) ? 0x7F : 0xFF;
    return d;
}

/* Few ones in the masks: these clash a good deal. */
static model_descriptor large_segment(mix *x)
{
    model_descriptor d = {0};
    d.lba = (uint16_t)any_word(x);
    d.lam = (uint16_t)(any_word(x) & any_word(x));
    d.asn = any_byte(x);
    d.asm_ = any_byte(x) & any_byte(x);
    return d;
}

static model_descriptor any_segment(mix *x)
{
    model_descriptor d = {0};
    d.lba = (uint16_t)any_word(x);
    d.lam = (uint16_t)any_word(x);
    d.asn = any_byte(x);
    d.asm_ = any_byte(x);
    return d;
}

/* A copy of an enabled one, or false and some segment where none is. */
static bool enabled_copy(mix *x, const model *m, model_descriptor *d)
{
    unsigned unit, number;
    const model_descriptor *found = mix_enabled(x, m, &unit, &number);
    *d = found == NULL ? small_segment(x) : *found;
    return found != NULL;
}

/* One bit away from an enabled one: just apart, or just not. */
static model_descriptor neighbour(mix *x, const model *m)
{
    model_descriptor d;
    if (!enabled_copy(x, m, &d))
        return d;
    switch (mix_below(x, 5)) {
    case 0:
        d.lba ^= (uint16_t)(1u << mix_below(x, 16));
        break;
    case 1:
        d.lam ^= (uint16_t)(1u << mix_below(x, 16));
        break;
    case 2:
        d.asn ^= (uint8_t)(1u << mix_below(x, 8));
        break;
    case 3:
        d.asm_ ^= (uint8_t)(1u << mix_below(x, 8));
        break;
    default:
        d.lba = (uint16_t)(d.lba ^ (any_word(x) & ~(unsigned)d.lam));
        break;
    }
    return d;
}

/* The pages of an enabled one for another number: for a third number there is
 * then more than one that has the page. */
static model_descriptor sharing(mix *x, const model *m)
{
    model_descriptor d;
    if (!enabled_copy(x, m, &d))
        return d;
    d.asn = mix_other_number(x, &d);
    d.asm_ = 0xFF;
    return d;
}

static model_descriptor wanted_segment(mix *x, const model *m)
{
    model_descriptor d;
    switch (mix_below(x, 10)) {
    case 0:
        d = large_segment(x);
        break;
    case 1:
        d = any_segment(x);
        break;
    case 2:
    case 3:
        d = neighbour(x, m);
        break;
    case 4:
    case 5:
        d = sharing(x, m);
        break;
    default:
        d = small_segment(x);
        break;
    }
    d.pba = (uint16_t)any_word(x);
    d.ssr = any_byte(x);
    if (!one_in(x, 12))
        d.ssr |= CLEFTROMI_SSR_E;
    if (one_in(x, 2)) /* else most segments would interrupt and be protected */
        d.ssr &= (uint8_t)~(CLEFTROMI_SSR_WP | CLEFTROMI_SSR_I | CLEFTROMI_SSR_IP);
    return d;
}

/* AC0 to AC8, of which one in "left_out" is left as it was. */
static void put_accumulator(mix *x, const model *m, const model_descriptor *d, unsigned left_out)
{
    const uint8_t bytes[9] = {
        (uint8_t)(d->lba >> 8), (uint8_t)d->lba, (uint8_t)(d->lam >> 8), (uint8_t)d->lam, (uint8_t)(d->pba >> 8),
        (uint8_t)d->pba,        d->asn,          d->ssr,                 d->asm_,
    };
    for (unsigned n = 0; n < 9; n++)
        if (!one_in(x, left_out))
            put_write_anywhere(x, m, CLEFTROMI_AC0 + n, bytes[n]);
}

/* ------------------------------------------------------------------ */
/* Sequences                                                           */
/* ------------------------------------------------------------------ */

static void load_segment(mix *x, const model *m)
{
    model_descriptor d = wanted_segment(x, m);
    put_accumulator(x, m, &d, one_in(x, 6) ? 6 : 1000);
    unsigned pointer = mix_below(x, 32);
    if (one_in(x, 8))
        pointer |= 0xE0; /* bits that DP does not have */
    put_write_anywhere(x, m, CLEFTROMI_DP, (uint8_t)pointer);
    put_read_anywhere(x, m, CLEFTROMI_LOAD);
}

/* One page into a descriptor that is free, so that whole units fill up. */
static void fill(mix *x, const model *m)
{
    unsigned unit = any_unit(x, m), all = 32 * units(m), at = 32 * unit + mix_below(x, 32);
    for (unsigned i = 0; i < all && (m->unit[at / 32].d[at % 32].ssr & CLEFTROMI_SSR_E) != 0; i++)
        at = (at + 1) % all;
    model_descriptor d = small_segment(x);
    d.lam = 0xFFFF;
    d.asm_ = 0xFF;
    d.pba = (uint16_t)any_word(x);
    d.ssr = any_byte(x) | CLEFTROMI_SSR_E;
    put_accumulator(x, m, &d, 1000);
    put_write(x, unit, CLEFTROMI_DP, (uint8_t)(at % 32));
    put_read(x, at / 32, CLEFTROMI_LOAD);
}

/* An enabled descriptor with its own bytes: granted, unless something in
 * between spoils it. */
static void reload(mix *x, const model *m)
{
    unsigned unit = any_unit(x, m), number = mix_below(x, 32);
    mix_enabled(x, m, &unit, &number);
    put_write(x, unit, CLEFTROMI_DP, (uint8_t)number);
    put_read(x, unit, CLEFTROMI_SSR);
    if (one_in(x, 8)) {
        uint8_t value = any_byte(x);
        put_write(x, unit, CLEFTROMI_AC0 + mix_below(x, 9), value);
    }
    if (one_in(x, 8))
        put_write(x, unit, CLEFTROMI_DP, any_byte(x));
    put_read(x, one_in(x, 8) ? any_unit(x, m) : unit, CLEFTROMI_LOAD);
}

/* An access that a descriptor matches; WP and I decide what comes of it. */
static void hit(mix *x, const model *m, uint8_t status, uint64_t direction)
{
    unsigned unit, number, code = mix_below(x, 16);
    const model_descriptor *d = with_status(x, m, status, &unit, &number);
    if (d == NULL) {
        put_access(x, code, direction, any_word(x));
        return;
    }
    put_write_anywhere(x, m, CLEFTROMI_AST(code), mix_number(x, d));
    put_access(x, code, direction, mix_page(x, d));
    if (one_in(x, 2)) {
        unsigned page = mix_page(x, d);
        put_access(x, code, mix_direction(x), page);
    }
}

static void access_segment(mix *x, const model *m)
{
    hit(x, m, CLEFTROMI_SSR_E, mix_direction(x));
}

static void access_anything(mix *x, const model *m)
{
    (void)m;
    unsigned page = any_word(x);
    uint64_t direction = mix_direction(x);
    put_access(x, mix_below(x, 16), direction, page);
}

/* What a host reads after a fault, of any unit. */
static void put_status_reads(mix *x, const model *m)
{
    static const uint8_t registers[] = {CLEFTROMI_GSR, CLEFTROMI_LSR, CLEFTROMI_RDP,
                                        CLEFTROMI_AC0, CLEFTROMI_AC1, CLEFTROMI_AC6};
    for (unsigned i = 0; i < 2; i++)
        put_read_anywhere(x, m, registers[mix_below(x, sizeof registers)]);
}

static void fault(mix *x, const model *m)
{
    unsigned times = 1 + mix_below(x, 2);
    for (unsigned i = 0; i < times; i++)
        if (one_in(x, 3))
            access_anything(x, m);
        else
            hit(x, m, CLEFTROMI_SSR_E | CLEFTROMI_SSR_WP, one_in(x, 2) ? CLEFTROMI_MODIFY : writing(x));
    put_status_reads(x, m);
    if (one_in(x, 2))
        put_write_anywhere(x, m, CLEFTROMI_GSR, any_byte(x));
}

/* Takes IP from some that have it, so that IRQ may go away. */
static void put_quiet(mix *x, const model *m)
{
    unsigned unit, number;
    for (unsigned i = 0; i < 4; i++) {
        const model_descriptor *d = with_status(x, m, CLEFTROMI_SSR_E | CLEFTROMI_SSR_IP, &unit, &number);
        if (d == NULL)
            return;
        put_write(x, unit, CLEFTROMI_DP, (uint8_t)number);
        put_write(x, unit, CLEFTROMI_SSR, d->ssr & (uint8_t)~CLEFTROMI_SSR_IP);
    }
}

/* A read-modify-write after any global status, of a segment with any status. */
static void modify(mix *x, const model *m)
{
    unsigned unit, number, code = mix_below(x, 16), page = any_word(x);
    const model_descriptor *d = mix_enabled(x, m, &unit, &number);
    if (one_in(x, 2))
        put_quiet(x, m);
    if (!one_in(x, 4))
        put_write_anywhere(x, m, CLEFTROMI_GSR, any_byte(x));
    if (d != NULL && !one_in(x, 4)) {
        put_write(x, unit, CLEFTROMI_DP, (uint8_t)number);
        put_write(x, unit, CLEFTROMI_SSR, any_byte(x) | CLEFTROMI_SSR_E);
        put_write_anywhere(x, m, CLEFTROMI_AST(code), mix_number(x, d));
        page = mix_page(x, d);
    }
    put_access(x, code, CLEFTROMI_MODIFY, page);
    if (one_in(x, 2))
        put_status_reads(x, m);
}

/* IP by an access or by a status write, IE, acknowledge, and IP away again. */
static void interrupt(mix *x, const model *m)
{
    unsigned unit = any_unit(x, m), number = mix_below(x, 32);
    mix_enabled(x, m, &unit, &number);
    put_write(x, unit, CLEFTROMI_DP, (uint8_t)number);
    uint8_t status = any_byte(x) | CLEFTROMI_SSR_E;
    status |= one_in(x, 2) ? CLEFTROMI_SSR_I : CLEFTROMI_SSR_IP;
    put_write(x, unit, CLEFTROMI_SSR, status);
    if (one_in(x, 2))
        put_write_anywhere(x, m, CLEFTROMI_GSR, any_byte(x) | CLEFTROMI_GSR_IE);
    hit(x, m, CLEFTROMI_SSR_E | CLEFTROMI_SSR_I, mix_direction(x));
    put_read_anywhere(x, m, one_in(x, 2) ? CLEFTROMI_IDP : CLEFTROMI_LSR);
    put_acknowledge(x, any_unit(x, m));
    if (one_in(x, 2))
        put_write(x, unit, CLEFTROMI_SSR, any_byte(x) & (uint8_t)~CLEFTROMI_SSR_IP);
}

static void status_write(mix *x, const model *m)
{
    unsigned unit = any_unit(x, m), number = mix_below(x, 32);
    if (one_in(x, 2))
        mix_enabled(x, m, &unit, &number);
    put_write_anywhere(x, m, CLEFTROMI_DP, (uint8_t)number);
    put_write(x, unit, CLEFTROMI_SSR, any_byte(x));
}

static void transfer(mix *x, const model *m)
{
    if (one_in(x, 2))
        put_write_anywhere(x, m, CLEFTROMI_DP, any_byte(x));
    put_read_anywhere(x, m, CLEFTROMI_SSR);
}

/* Some bytes written globally, others not, before an operation that counts
 * on them. */
static void half_accumulator(mix *x, const model *m)
{
    static const uint8_t operations[] = {CLEFTROMI_LOAD, CLEFTROMI_TRANSLATE, CLEFTROMI_LSR, CLEFTROMI_SSR};
    model_descriptor d = wanted_segment(x, m);
    if (one_in(x, 2))
        put_read_anywhere(x, m, CLEFTROMI_SSR);
    put_accumulator(x, m, &d, 3);
    put_read_anywhere(x, m, operations[mix_below(x, sizeof operations)]);
}

/* Mostly of this page and number. */
static void put_translation(mix *x, const model *m, unsigned page, uint8_t space)
{
    if (one_in(x, 4))
        put_read_anywhere(x, m, CLEFTROMI_SSR); /* takes GAT from one unit */
    if (!one_in(x, 10))
        put_write_anywhere(x, m, CLEFTROMI_AC0, (uint8_t)(page >> 8));
    if (!one_in(x, 10))
        put_write_anywhere(x, m, CLEFTROMI_AC1, (uint8_t)page);
    if (!one_in(x, 10))
        put_write_anywhere(x, m, CLEFTROMI_AC6, space);
    put_read_anywhere(x, m, CLEFTROMI_TRANSLATE);
}

static void translate(mix *x, const model *m)
{
    unsigned unit, number, page = any_word(x);
    uint8_t space = any_byte(x);
    const model_descriptor *d = mix_enabled(x, m, &unit, &number);
    if (d != NULL && !one_in(x, 4)) {
        page = mix_page(x, d);
        space = mix_number(x, d);
    }
    put_translation(x, m, page, space);
}

/* Disabled, it has its pages all the same. */
static void put_disable(mix *x, const model_descriptor *d, unsigned unit, unsigned number)
{
    put_write(x, unit, CLEFTROMI_DP, (uint8_t)number);
    put_write(x, unit, CLEFTROMI_SSR, d->ssr & (uint8_t)~CLEFTROMI_SSR_E);
}

/* A page of a segment for a number that is not the segment's: undefined, unless
 * another has that. */
static void other_space(mix *x, const model *m)
{
    unsigned unit, number, code = mix_below(x, 16);
    const model_descriptor *d = mix_often_first(x, m, &unit, &number);
    if (d == NULL) {
        access_anything(x, m);
        return;
    }
    unsigned page = mix_page(x, d);
    uint8_t space = mix_other_number(x, d);
    if (one_in(x, 6))
        put_disable(x, d, unit, number);
    if (one_in(x, 3)) {
        put_translation(x, m, page, space);
        return;
    }
    put_write_anywhere(x, m, CLEFTROMI_AST(code), space);
    put_access(x, code, mix_direction(x), page);
}

static void read_register(mix *x, const model *m)
{
    put_read_anywhere(x, m, mix_below(x, 64));
}

static void write_register(mix *x, const model *m)
{
    uint8_t value = any_byte(x);
    put_write_anywhere(x, m, mix_below(x, 64), value);
}

static void write_status(mix *x, const model *m)
{
    static const uint8_t registers[] = {CLEFTROMI_GSR, CLEFTROMI_LSR, CLEFTROMI_IVR};
    uint8_t value = any_byte(x);
    put_write_anywhere(x, m, registers[mix_below(x, sizeof registers)], value);
}

/* Places that the map does not have, and writes to what is only read. */
static void null_operation(mix *x, const model *m)
{
    static const uint8_t places[] = {0x01, 0x1F, 0x2A, 0x2C, 0x2E, 0x30, 0x32, 0x33, 0x38, 0x3A, 0x3C, 0x3E};
    static const uint8_t only_read[] = {CLEFTROMI_IDP, CLEFTROMI_RDP, CLEFTROMI_TRANSLATE, CLEFTROMI_LOAD};
    bool write = one_in(x, 2);
    uint8_t value = any_byte(x);
    if (write) {
        put_write_anywhere(x, m, only_read[mix_below(x, sizeof only_read)], value);
        return;
    }
    unsigned place = places[mix_below(x, sizeof places)];
    uint64_t direction = register_direction(x);
    put(x, CALL_REGISTER, any_unit(x, m), place, direction, value);
}

static void acknowledge(mix *x, const model *m)
{
    put_acknowledge(x, any_unit(x, m));
}

static void restart(mix *x, const model *m)
{
    unsigned count = 1 + mix_below(x, 6);
    if (one_in(x, 4)) {
        put(x, CALL_RESET, one_in(x, 3) ? CLEFTROMI_NONE : any_unit(x, m), 0, 0, 0);
        return;
    }
    put(x, CALL_START, count, one_in(x, 3) ? CLEFTROMI_NONE : mix_below(x, count), 0, 0);
}

/* ------------------------------------------------------------------ */
/* Bad numbers                                                         */
/* ------------------------------------------------------------------ */

/* Numbers at the edges of every range, and good ones with a bit set far above
 * them, which a narrowing would turn into good ones. */
static uint64_t bad_number(mix *x, uint64_t good)
{
    static const uint64_t edges[] = {
        0, 1, 2, 3, 5, 6, 7, 15, 16, 31, 32, 63, 64, 127, 128, 254, 255, 256, 257, 258, 0xFFFF, 0x10000, 0x10002,
        0xFFFFFF, 0x1000000, 0x7FFFFFFF, 0x80000000, 0xFFFFFFFF, 0x100000000, 0x100000002, 0x1000000FF, TOP - 1, TOP,
        TOP + 2, UINT64_MAX - 1, UINT64_MAX,
    };
    if (one_in(x, 2))
        return edges[mix_below(x, sizeof edges / sizeof edges[0])];
    if (one_in(x, 4)) {
        uint64_t number = mix_random(x);
        return number >> mix_below(x, 64);
    }
    return good | (uint64_t)1 << mix_below(x, 64);
}

static void any_register(mix *x, const model *m)
{
    uint8_t value = any_byte(x);
    unsigned address = mix_below(x, 64);
    uint64_t direction = register_direction(x);
    put(x, CALL_REGISTER, any_unit(x, m), address, direction, value);
}

static void good_call(mix *x, const model *m)
{
    switch (mix_below(x, 4)) {
    case 0:
        restart(x, m);
        break;
    case 1:
        access_anything(x, m);
        break;
    case 2:
        any_register(x, m);
        break;
    default:
        acknowledge(x, m);
        break;
    }
}

/* A call of which one number or more is replaced. */
static void bad_call(mix *x, const model *m)
{
    good_call(x, m);
    call *c = &x->queue[x->first + x->waiting - 1];
    do {
        unsigned i = mix_below(x, 3);
        c->number[i] = bad_number(x, c->number[i]);
    } while (one_in(x, 3));
}

/* ------------------------------------------------------------------ */
/* Mixtures                                                            */
/* ------------------------------------------------------------------ */

#define SEQUENCES 20u

static void (*const sequences[SEQUENCES])(mix *, const model *) = {
    fill,         load_segment, reload,           access_segment, access_anything, fault,
    interrupt,    status_write, transfer,         translate,      read_register,   write_register,
    write_status, acknowledge,  half_accumulator, null_operation, restart,         bad_call,
    modify,       other_space,
};

#define MODES 8u
#define BAD_NUMBERS 7u

/* How often each sequence comes, in the order above. */
static const uint8_t weights[MODES][SEQUENCES] = {
    {80, 4, 2, 30, 2, 1, 1, 0, 0, 4, 2, 0, 1, 1, 0, 1, 0, 1, 2, 10},        /* fills the units */
    {5, 40, 20, 20, 2, 4, 2, 4, 2, 2, 2, 2, 2, 1, 4, 1, 0, 4, 2, 20},       /* loads and reloads */
    {5, 10, 2, 20, 10, 40, 2, 4, 2, 2, 8, 1, 6, 1, 2, 1, 0, 4, 20, 30},     /* faults */
    {5, 10, 2, 20, 2, 4, 40, 10, 2, 2, 4, 1, 6, 10, 1, 1, 0, 4, 20, 10},    /* interrupts */
    {5, 10, 10, 5, 5, 10, 1, 2, 20, 20, 6, 2, 1, 1, 40, 1, 0, 4, 2, 10},    /* half accumulators */
    {5, 20, 2, 10, 2, 4, 2, 2, 10, 40, 8, 1, 1, 1, 4, 1, 0, 4, 2, 20},      /* direct translation */
    {5, 10, 5, 10, 10, 5, 5, 10, 5, 5, 30, 30, 5, 5, 5, 10, 1, 10, 10, 20}, /* anything */
    {1, 5, 1, 5, 5, 2, 2, 2, 2, 2, 2, 2, 2, 5, 2, 5, 2, 150, 5, 2},         /* bad numbers */
};

static unsigned weighted(mix *x, const uint8_t *row)
{
    unsigned total = 0, chosen = 0;
    for (unsigned i = 0; i < SEQUENCES; i++)
        total += row[i];
    unsigned at = mix_below(x, total);
    while (at >= row[chosen])
        at -= row[chosen++];
    return chosen;
}

static void plan(mix *x, const model *m)
{
    x->first = x->waiting = 0;
    if (x->left == 0) {
        x->mode = mix_below(x, MODES);
        x->left = (50 + mix_below(x, 200)) * (x->mode == BAD_NUMBERS ? 4 : 1); /* each of those is one call */
        if (one_in(x, 4)) /* seldom, so that the units fill up */
            restart(x, m);
    }
    x->left--;
    sequences[weighted(x, weights[x->mode])](x, m);
}

call mix_next(mix *x, const model *m)
{
    if (x->waiting == 0)
        plan(x, m);
    x->waiting--;
    return x->queue[x->first++];
}

call mix_single(mix *x, const model *m)
{
    plan(x, m);
    unsigned last = x->first + x->waiting - 1;
    x->waiting = 0;
    return x->queue[last];
}
