#include <string.h>
#include "model_image.h"

#define UNITS 6u
#define DESCRIPTORS 32u
#define TABLE_BYTES 16u
#define AC_BYTES 9u
#define DESCRIPTOR_BYTES 9u

/* The refusals of P2. */
#define BAD_COUNT 1u
#define BAD_LENGTH 8u
#define BAD_CHECK 9u
#define BAD_FIELDS 10u

/* The bits that a register has (3.1.6, 3.2.3 to 3.2.6); of the LSR those that
 * are not worked out. */
#define SSR_E 0x01u
#define SSR_IP 0x08u
#define SSR_RESERVED 0x60u
#define MARKS_RESERVED 0xFE00u
#define DP_RESERVED 0xE0u
#define GSR_RESERVED 0x3Eu
#define LSR_WORKED_OUT 0x07u
#define RDP_RESERVED 0x60u
#define RDP_NVR 0x80u
#define RDP_NUMBER 0x1Fu

/* ------------------------------------------------------------------ */
/* Words, and the check                                                */
/* ------------------------------------------------------------------ */

/* P2: big-endian words. */
static unsigned word_at(const uint8_t *bytes)
{
    return bytes[0] * 256u + bytes[1];
}

static void put_word(uint8_t *bytes, unsigned word)
{
    bytes[0] = (uint8_t)(word / 256);
    bytes[1] = (uint8_t)(word % 256);
}

/* P2: "carries beyond 16 bits dropped". */
static unsigned sum_of_words(const uint8_t *block)
{
    unsigned sum = 0;
    for (unsigned i = 0; i < IMAGE_BLOCK; i += 2)
        sum = (sum + word_at(block + i)) % 65536;
    return sum;
}

void model_mend(uint8_t *block)
{
    put_word(block + IMAGE_CHECK, 0);
    put_word(block + IMAGE_CHECK, 65536 - sum_of_words(block));
}

/* ------------------------------------------------------------------ */
/* Writing                                                             */
/* ------------------------------------------------------------------ */

/* 01: LBA high, low; LAM high, low; PBA high, low; ASN; SSR; ASM. */
static void write_descriptor(uint8_t *bytes, const model_descriptor *d)
{
    put_word(bytes, d->lba);
    put_word(bytes + 2, d->lam);
    put_word(bytes + 4, d->pba);
    bytes[6] = d->asn;
    bytes[7] = d->ssr;
    bytes[8] = d->asm_;
}

static unsigned marks_of(const model_unit *u)
{
    unsigned marks = 0;
    for (unsigned n = 0; n < AC_BYTES; n++)
        if (u->mark[n])
            marks |= 1u << n;
    return marks;
}

static void write_block(uint8_t *block, const model *m, unsigned k)
{
    const model_unit *u = &m->unit[k];
    memset(block, 0, IMAGE_BLOCK);
    block[IMAGE_UNIT] = (uint8_t)k;
    block[IMAGE_COUNT] = (uint8_t)m->count;
    memcpy(block + IMAGE_TABLE, m->table, TABLE_BYTES);
    memcpy(block + IMAGE_AC, u->ac, AC_BYTES);
    put_word(block + IMAGE_MARKS, marks_of(u));
    block[IMAGE_DP] = u->dp;
    block[IMAGE_IVR] = m->ivr;
    block[IMAGE_GSR] = m->gsr;
    block[IMAGE_LSR] = u->lsr;
    block[IMAGE_RDP] = u->rdp;
    for (unsigned e = 0; e < DESCRIPTORS; e++)
        write_descriptor(block + IMAGE_DESCRIPTORS + DESCRIPTOR_BYTES * e, &u->d[e]);
    model_mend(block);
}

static void write_image(uint8_t *image, const model *m)
{
    for (unsigned k = 0; k < m->count; k++)
        write_block(image + IMAGE_BLOCK * k, m, k);
}

/* ------------------------------------------------------------------ */
/* Reading                                                             */
/* ------------------------------------------------------------------ */

static void read_descriptor(const uint8_t *bytes, model_descriptor *d)
{
    d->lba = (uint16_t)word_at(bytes);
    d->lam = (uint16_t)word_at(bytes + 2);
    d->pba = (uint16_t)word_at(bytes + 4);
    d->asn = bytes[6];
    d->ssr = bytes[7];
    d->asm_ = bytes[8];
}

static void read_unit(const uint8_t *block, model_unit *u)
{
    unsigned marks = word_at(block + IMAGE_MARKS);
    memcpy(u->ac, block + IMAGE_AC, AC_BYTES);
    for (unsigned n = 0; n < AC_BYTES; n++)
        u->mark[n] = (marks >> n & 1) != 0;
    u->dp = block[IMAGE_DP];
    u->lsr = block[IMAGE_LSR];
    u->rdp = block[IMAGE_RDP];
    for (unsigned e = 0; e < DESCRIPTORS; e++)
        read_descriptor(block + IMAGE_DESCRIPTORS + DESCRIPTOR_BYTES * e, &u->d[e]);
}

/* Table, GSR and IVR are one for all units (01), and block 0 has them too. */
static void read_image(const uint8_t *image, unsigned count, model *m)
{
    memset(m, 0, sizeof *m);
    m->count = count;
    memcpy(m->table, image + IMAGE_TABLE, TABLE_BYTES);
    m->gsr = image[IMAGE_GSR];
    m->ivr = image[IMAGE_IVR];
    for (unsigned k = 0; k < count; k++)
        read_unit(image + IMAGE_BLOCK * k, &m->unit[k]);
}

/* ------------------------------------------------------------------ */
/* A block's own rules (ruling 13)                                     */
/* ------------------------------------------------------------------ */

static bool reserved_bits_zero(const uint8_t *block)
{
    if (word_at(block + IMAGE_MARKS) & MARKS_RESERVED)
        return false;
    if (block[IMAGE_DP] & DP_RESERVED)
        return false;
    if (block[IMAGE_GSR] & GSR_RESERVED)
        return false;
    if (block[IMAGE_LSR] & LSR_WORKED_OUT)
        return false;
    if (block[IMAGE_RDP] & RDP_RESERVED)
        return false;
    for (unsigned i = IMAGE_ZEROS; i < IMAGE_CHECK; i++)
        if (block[i] != 0)
            return false;
    return true;
}

/* "RDP's number zero under NVR". */
static bool number_zero_under_nvr(uint8_t rdp)
{
    return (rdp & RDP_NVR) == 0 || (rdp & RDP_NUMBER) == 0;
}

/* SSR 5 and 6 are reserved, and "IP only with E". */
static bool status_good(uint8_t ssr)
{
    if (ssr & SSR_RESERVED)
        return false;
    if ((ssr & SSR_IP) != 0 && (ssr & SSR_E) == 0)
        return false;
    return true;
}

static bool own_rules(const uint8_t *block, unsigned place, unsigned count)
{
    if (block[IMAGE_UNIT] != place)
        return false;
    if (block[IMAGE_COUNT] != count)
        return false;
    if (!reserved_bits_zero(block))
        return false;
    if (!number_zero_under_nvr(block[IMAGE_RDP]))
        return false;
    for (unsigned e = 0; e < DESCRIPTORS; e++)
        if (!status_good(block[IMAGE_DESCRIPTORS + DESCRIPTOR_BYTES * e + 7]))
            return false;
    return true;
}

/* ------------------------------------------------------------------ */
/* The rules across blocks (ruling 13)                                 */
/* ------------------------------------------------------------------ */

/* "Equal table, GSR and IVR". */
static bool shared_equal(const uint8_t *first, const uint8_t *block)
{
    if (memcmp(first + IMAGE_TABLE, block + IMAGE_TABLE, TABLE_BYTES) != 0)
        return false;
    if (first[IMAGE_GSR] != block[IMAGE_GSR])
        return false;
    if (first[IMAGE_IVR] != block[IMAGE_IVR])
        return false;
    return true;
}

/* "Bytes marked in two units equal"; ruling 15: AC4, 5 and 7 like the others. */
static bool marked_equal(const model_unit *a, const model_unit *b)
{
    for (unsigned n = 0; n < AC_BYTES; n++)
        if (a->mark[n] && b->mark[n] && a->ac[n] != b->ac[n])
            return false;
    return true;
}

/* "No clash", also within one block. */
static bool no_clash(const model *m)
{
    unsigned end = DESCRIPTORS * m->count;
    for (unsigned i = 0; i < end; i++)
        for (unsigned j = i + 1; j < end; j++) {
            const model_descriptor *a = &m->unit[i / DESCRIPTORS].d[i % DESCRIPTORS];
            const model_descriptor *b = &m->unit[j / DESCRIPTORS].d[j % DESCRIPTORS];
            if ((a->ssr & SSR_E) != 0 && (b->ssr & SSR_E) != 0 && model_clash(a, b))
                return false;
        }
    return true;
}

static bool rules_across(const uint8_t *image, const model *m)
{
    for (unsigned k = 0; k < m->count; k++) {
        if (!shared_equal(image, image + IMAGE_BLOCK * k))
            return false;
        for (unsigned j = 0; j < k; j++)
            if (!marked_equal(&m->unit[j], &m->unit[k]))
                return false;
    }
    return no_clash(m);
}

/* ------------------------------------------------------------------ */
/* The calls (rulings 14 and 15)                                       */
/* ------------------------------------------------------------------ */

static model_answer refused(unsigned number)
{
    model_answer a = {.refusal = number, .kind = MODEL_REFUSED};
    return a;
}

/* "First bad block decides, 9 before 10, clash and cross-unit rules last as
 * 10."  0 if the image is accepted; "m" is then its system. */
static unsigned read_back(const uint8_t *image, unsigned count, model *m)
{
    for (unsigned k = 0; k < count; k++) {
        const uint8_t *block = image + IMAGE_BLOCK * k;
        if (sum_of_words(block) != 0)
            return BAD_CHECK;
        if (!own_rules(block, k, count))
            return BAD_FIELDS;
    }
    read_image(image, count, m);
    if (!rules_across(image, m))
        return BAD_FIELDS;
    return 0;
}

/* A state that could not be read back is 10. */
model_answer model_save(model *m, uint8_t *image, size_t image_bytes)
{
    static uint8_t written[IMAGE_LONGEST];
    static model state, again;
    if (m->count == 0 || m->count > UNITS)
        return refused(BAD_COUNT);
    if (image_bytes != IMAGE_BLOCK * m->count)
        return refused(BAD_LENGTH);
    state = *m;
    model_read_as_state(&state);
    write_image(written, &state);
    unsigned refusal = read_back(written, state.count, &again);
    if (refusal != 0)
        return refused(refusal);
    *m = state;
    memcpy(image, written, image_bytes);
    return model_done(m);
}

/* Nothing that stands in the state is looked at. */
model_answer model_restore(model *m, const uint8_t *image, size_t image_bytes)
{
    static model read;
    if (image_bytes == 0 || image_bytes > IMAGE_LONGEST || image_bytes % IMAGE_BLOCK != 0)
        return refused(BAD_LENGTH);
    unsigned refusal = read_back(image, (unsigned)(image_bytes / IMAGE_BLOCK), &read);
    if (refusal != 0)
        return refused(refusal);
    *m = read;
    return model_done(m);
}
