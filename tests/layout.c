#include <stdio.h>
#include <string.h>
#include "layout.h"

/* The block. */
#define AT_COUNT 0u
#define AT_GSR 1u
#define AT_IVR 2u
#define AT_TABLE 16u
#define AT_UNITS 32u
#define UNIT_BYTES 16u
#define AT_DESCRIPTORS 128u
#define DESCRIPTOR_BYTES 9u
#define AT_END 1856u

/* The bytes of a unit. */
#define UNIT_MARKS 9u
#define UNIT_DP 11u
#define UNIT_LSR 12u
#define UNIT_RDP 13u

/* ------------------------------------------------------------------ */
/* Writing                                                             */
/* ------------------------------------------------------------------ */

/* A word has its low byte first. */
static void put_word(uint8_t *at, unsigned word)
{
    at[0] = (uint8_t)(word % 256);
    at[1] = (uint8_t)(word / 256);
}

static void put_unit(uint8_t *at, const model_unit *u)
{
    unsigned marks = 0;
    for (unsigned n = 0; n < 9; n++)
        marks |= (u->mark[n] ? 1u : 0u) << n;
    memcpy(at, u->ac, 9);
    put_word(at + UNIT_MARKS, marks);
    at[UNIT_DP] = u->dp;
    at[UNIT_LSR] = u->lsr;
    at[UNIT_RDP] = u->rdp;
}

static void put_descriptor(uint8_t *at, const model_descriptor *d)
{
    put_word(at, d->lba);
    put_word(at + 2, d->lam);
    put_word(at + 4, d->pba);
    at[6] = d->asn;
    at[7] = d->ssr;
    at[8] = d->asm_;
}

/* Nothing is masked here: a bit that the model ought not to have shows. */
void layout_encode(const model *m, uint8_t *block)
{
    memset(block, 0, LAYOUT_BYTES);
    block[AT_COUNT] = (uint8_t)m->count;
    block[AT_GSR] = m->gsr;
    block[AT_IVR] = m->ivr;
    memcpy(block + AT_TABLE, m->table, 16);
    for (unsigned k = 0; k < m->count; k++) {
        put_unit(block + AT_UNITS + UNIT_BYTES * k, &m->unit[k]);
        for (unsigned e = 0; e < 32; e++)
            put_descriptor(block + AT_DESCRIPTORS + DESCRIPTOR_BYTES * (32 * k + e), &m->unit[k].d[e]);
    }
}

/* ------------------------------------------------------------------ */
/* Reading                                                             */
/* ------------------------------------------------------------------ */

static uint16_t get_word(const uint8_t *at)
{
    return (uint16_t)(at[0] + 256u * at[1]);
}

static void get_unit(const uint8_t *at, model_unit *u)
{
    unsigned marks = get_word(at + UNIT_MARKS);
    memcpy(u->ac, at, 9);
    for (unsigned n = 0; n < 9; n++)
        u->mark[n] = (marks >> n & 1) != 0;
    u->dp = at[UNIT_DP] & 0x1F;
    u->lsr = at[UNIT_LSR] & 0xF8;
    u->rdp = (at[UNIT_RDP] & 0x80) ? 0x80 : at[UNIT_RDP] & 0x1F;
}

static void get_descriptor(const uint8_t *at, model_descriptor *d)
{
    d->lba = get_word(at);
    d->lam = get_word(at + 2);
    d->pba = get_word(at + 4);
    d->asn = at[6];
    d->ssr = at[7] & ((at[7] & 0x01) ? 0x9F : 0x97); /* IP only where E is set */
    d->asm_ = at[8];
}

void layout_decode(const uint8_t *block, model *m)
{
    memset(m, 0, sizeof *m);
    m->count = block[AT_COUNT];
    if (m->count == 0 || m->count > 6)
        return;
    m->gsr = block[AT_GSR] & 0xC1;
    m->ivr = block[AT_IVR];
    memcpy(m->table, block + AT_TABLE, 16);
    for (unsigned k = 0; k < m->count; k++) {
        get_unit(block + AT_UNITS + UNIT_BYTES * k, &m->unit[k]);
        for (unsigned e = 0; e < 32; e++)
            get_descriptor(block + AT_DESCRIPTORS + DESCRIPTOR_BYTES * (32 * k + e), &m->unit[k].d[e]);
    }
}

/* ------------------------------------------------------------------ */
/* The answer, and places in words                                     */
/* ------------------------------------------------------------------ */

uint64_t layout_answer(model_answer a)
{
    uint64_t low = a.refusal + 256u * a.kind + 4096u * a.irq + 8192u * a.win + 16384u * a.near;
    uint64_t high = a.unit + 8u * a.descriptor + 256u * a.byte;
    return low + (high << 16) + ((uint64_t)a.address << 32);
}

static const char *unit_byte(size_t n)
{
    static const char *const names[UNIT_BYTES] = {
        "AC0", "AC1", "AC2", "AC3", "AC4", "AC5", "AC6", "AC7", "AC8", "marks of AC0 to AC7", "mark of AC8",
        "DP", "LSR", "RDP", "zero", "zero",
    };
    return names[n];
}

static const char *descriptor_byte(size_t n)
{
    static const char *const names[DESCRIPTOR_BYTES] = {
        "LBA low", "LBA high", "LAM low", "LAM high", "PBA low", "PBA high", "ASN", "SSR", "ASM",
    };
    return names[n];
}

void layout_place(size_t at, char place[LAYOUT_PLACE_LENGTH])
{
    size_t size = LAYOUT_PLACE_LENGTH;
    if (at >= AT_END || (at > AT_IVR && at < AT_TABLE)) {
        snprintf(place, size, "zero");
    } else if (at < AT_TABLE) {
        snprintf(place, size, "%s", at == AT_COUNT ? "the count" : at == AT_GSR ? "GSR" : "IVR");
    } else if (at < AT_UNITS) {
        snprintf(place, size, "table entry %zu", at - AT_TABLE);
    } else if (at < AT_DESCRIPTORS) {
        size_t n = at - AT_UNITS;
        snprintf(place, size, "%s of unit %zu", unit_byte(n % UNIT_BYTES), n / UNIT_BYTES);
    } else {
        size_t n = at - AT_DESCRIPTORS, i = n / DESCRIPTOR_BYTES;
        snprintf(place, size, "%s of descriptor %zu of unit %zu", descriptor_byte(n % DESCRIPTOR_BYTES), i % 32,
                 i / 32);
    }
}
