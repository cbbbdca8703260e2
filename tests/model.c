#include <string.h>
#include "model.h"

/* 3.1.6, segment status register.  Ruling 1: U is bit 7, bits 5 and 6 are
 * reserved ("cannot be written and are zero when read", 3). */
#define SSR_E 0x01
#define SSR_WP 0x02
#define SSR_M 0x04
#define SSR_IP 0x08
#define SSR_I 0x10
#define SSR_U 0x80
#define SSR_BITS (SSR_U | SSR_I | SSR_IP | SSR_M | SSR_WP | SSR_E)

/* 3.2.3, global status register; bits 1 to 5 are reserved. */
#define GSR_F 0x80
#define GSR_DF 0x40
#define GSR_IE 0x01
#define GSR_BITS (GSR_F | GSR_DF | GSR_IE)

/* 3.2.4, local status register; the places of the low four bits are 01's (H). */
#define LSR_L 0xF0
#define LSR_RW 0x08
#define LSR_GAT 0x04
#define LSR_GAL 0x02
#define LSR_LIP 0x01

/* 3.2.4, the codes of L7-L4. */
#define L_NO 0x00  /* 0000: not the source of the last event */
#define L_DT 0x80  /* 1000: direct translation locally successful */
#define L_LD 0x90  /* 1001: load descriptor fault */
#define L_USA 0xA0 /* 1010: undefined segment access */
#define L_WV 0xC0  /* 1100: write violation */

/* 3.2.6 and 3.2.7: NVR of RDP and NVI of IDP are bit 7, with number 0 (01, H). */
#define NO_DESCRIPTOR 0x80
/* 3.2.5 to 3.2.7: five bits of descriptor number, the bits above are reserved. */
#define NUMBER_BITS 0x1F

#define DESCRIPTORS 32u
#define UNITS 6u

/* The bytes that GAT and GAL speak of (3.2.4). */
static const unsigned translate_bytes[] = {0, 1, 6};
static const unsigned load_bytes[] = {0, 1, 2, 3, 6, 8};
#define TRANSLATE_BYTES 3u
#define LOAD_BYTES 6u

/* ------------------------------------------------------------------ */
/* Matching, physical page, clash                                      */
/* ------------------------------------------------------------------ */

static bool enabled(const model_descriptor *d)
{
    return (d->ssr & SSR_E) != 0;
}

/* 3.1.2, 4.5.3.1: page and LBA agree wherever LAM has a one. */
static bool range_match(const model_descriptor *d, uint16_t page)
{
    return (page & d->lam) == (d->lba & d->lam);
}

/* 3.1.5, 4.5.3.1: number and ASN agree wherever ASM has a one. */
static bool space_match(const model_descriptor *d, uint8_t number)
{
    return (number & d->asm_) == (d->asn & d->asm_);
}

/* 4.5.3.2: "An address match occurs if there is a range match and a space
 * match"; 3.1.6: only an enabled segment takes part.  Where there is none, why
 * not (P4); "disabled" decides before the other three (ruling 16). */
typedef enum { MATCHES, DISABLED, RANGE_DIFFERS, SPACE_DIFFERS, BOTH_DIFFER } match_answer;

static match_answer address_match(const model_descriptor *d, uint16_t page, uint8_t number)
{
    if (!enabled(d))
        return DISABLED;
    if (range_match(d, page))
        return space_match(d, number) ? MATCHES : SPACE_DIFFERS;
    return space_match(d, number) ? RANGE_DIFFERS : BOTH_DIFFER;
}

/* 3.1.3: the page's bit where LAM has a zero, PBA's bit where it has a one. */
static uint16_t physical_page(const model_descriptor *d, uint16_t page)
{
    uint16_t physical = 0;
    for (unsigned bit = 0; bit < 16; bit++) {
        unsigned one = 1u << bit;
        unsigned source = (d->lam & one) ? d->pba : page;
        if (source & one)
            physical = (uint16_t)(physical | one);
    }
    return physical;
}

/* Is there a bit position where both masks have a one and the values differ?
 * Only there can no value agree with both. */
static bool kept_apart(unsigned value1, unsigned mask1, unsigned value2, unsigned mask2, unsigned width)
{
    for (unsigned bit = 0; bit < width; bit++) {
        unsigned m1 = (mask1 >> bit) & 1, m2 = (mask2 >> bit) & 1;
        unsigned v1 = (value1 >> bit) & 1, v2 = (value2 >> bit) & 1;
        if (m1 == 1 && m2 == 1 && v1 != v2)
            return true;
    }
    return false;
}

/* 4.6.3.2, 01: two descriptors clash when some page and some number exist
 * that both match, E taken as set. */
static bool clash(const model_descriptor *a, const model_descriptor *b)
{
    if (kept_apart(a->lba, a->lam, b->lba, b->lam, 16))
        return false;
    if (kept_apart(a->asn, a->asm_, b->asn, b->asm_, 8))
        return false;
    return true;
}

/* What a search of all units gives: the place that matches, or the one whose
 * space alone differs, or neither; then the place is zero. */
typedef struct {
    bool matches, near;
    unsigned unit, descriptor;
} found;

/* 01, rulings 6 and 16: the lowest unit and then the lowest descriptor answers;
 * and where nothing matches, P4 names the lowest whose space alone differs. */
static found search(const model *m, uint16_t page, uint8_t number)
{
    found best = {false, false, 0, 0};
    for (unsigned k = 0; k < m->count; k++)
        for (unsigned e = 0; e < DESCRIPTORS; e++) {
            match_answer is = address_match(&m->unit[k].d[e], page, number);
            if (is == MATCHES) {
                found match = {true, false, k, e};
                return match;
            }
            if (is == SPACE_DIFFERS && !best.near) {
                found near = {false, true, k, e};
                best = near;
            }
        }
    return best;
}

/* ------------------------------------------------------------------ */
/* Status worked out at each read                                      */
/* ------------------------------------------------------------------ */

/* 3.1.6: IP is "Cleared: c) E bit is a 0". */
static bool interrupt_pending(const model_descriptor *d)
{
    return enabled(d) && (d->ssr & SSR_IP) != 0;
}

/* 3.2.7: the highest-priority (lowest) descriptor with IP, or NVI. */
static uint8_t idp(const model_unit *u)
{
    for (unsigned e = 0; e < DESCRIPTORS; e++)
        if (interrupt_pending(&u->d[e]))
            return (uint8_t)e;
    return NO_DESCRIPTOR;
}

/* 3.2.4: LIP is set if one or more descriptors have IP set. */
static bool lip(const model_unit *u)
{
    return idp(u) != NO_DESCRIPTOR;
}

/* 2.14, 4.5: IRQ is asserted when IE is set and some unit has an IP bit set. */
static bool irq(const model *m)
{
    if ((m->gsr & GSR_IE) == 0)
        return false;
    for (unsigned k = 0; k < m->count; k++)
        if (lip(&m->unit[k]))
            return true;
    return false;
}

static bool marked(const model_unit *u, const unsigned *bytes, unsigned length)
{
    for (unsigned i = 0; i < length; i++)
        if (!u->mark[bytes[i]])
            return false;
    return true;
}

/* 3.2.4: GAT, "they were last modified as a result of a global write". */
static bool gat(const model_unit *u)
{
    return marked(u, translate_bytes, TRANSLATE_BYTES);
}

/* 3.2.4: GAL. */
static bool gal(const model_unit *u)
{
    return marked(u, load_bytes, LOAD_BYTES);
}

/* 3.2.4: the whole local status register. */
static uint8_t local_status(const model_unit *u)
{
    unsigned value = u->lsr;
    if (gat(u))
        value |= LSR_GAT;
    if (gal(u))
        value |= LSR_GAL;
    if (lip(u))
        value |= LSR_LIP;
    return (uint8_t)value;
}

/* ------------------------------------------------------------------ */
/* Small changes of state                                              */
/* ------------------------------------------------------------------ */

/* 01: bits that no register has, RDP's number under NVR, and IP where E is
 * zero, read as zero.  No call leaves such a bit set; this gives every other
 * state its one meaning too (ruling 6).  Units at or above the count are not
 * touched. */
static void read_as_state(model *m)
{
    m->gsr &= GSR_BITS;
    for (unsigned k = 0; k < m->count; k++) {
        model_unit *u = &m->unit[k];
        u->dp &= NUMBER_BITS;
        u->rdp = (u->rdp & NO_DESCRIPTOR) ? NO_DESCRIPTOR : (u->rdp & NUMBER_BITS);
        u->lsr &= LSR_L | LSR_RW;
        for (unsigned e = 0; e < DESCRIPTORS; e++) {
            model_descriptor *d = &u->d[e];
            d->ssr &= SSR_BITS;
            if (!enabled(d))
                d->ssr &= (uint8_t)~SSR_IP;
        }
    }
}

/* 3.2.4: L4-L7 "are encoded and changed as a unit"; RW stays. */
static void set_l(model_unit *u, uint8_t l)
{
    u->lsr = (uint8_t)((u->lsr & LSR_RW) | l);
}

/* A unit's part in the last event: L7-L4 and RDP (3.2.4, 3.2.6). */
static void event(model_unit *u, uint8_t l, unsigned rdp)
{
    set_l(u, l);
    u->rdp = (uint8_t)rdp;
}

/* The unit was not the source of the last event: L 0000, RDP $80. */
static void no_event(model_unit *u)
{
    event(u, L_NO, NO_DESCRIPTOR);
}

/* A byte that a unit fills by itself is no longer global. */
static void fill(model_unit *u, unsigned n, unsigned value)
{
    u->ac[n] = (uint8_t)value;
    u->mark[n] = false;
}

/* 4.6.3.1: a global write of an accumulator byte marks it in every unit. */
static void write_accumulator(model *m, unsigned n, uint8_t value)
{
    for (unsigned k = 0; k < m->count; k++) {
        m->unit[k].ac[n] = value;
        m->unit[k].mark[n] = true;
    }
}

/* 01 (H), rulings 2 and 3: the selected unit's bytes go to all units as by
 * global writes. */
static void send_to_all(model *m, unsigned unit, const unsigned *bytes, unsigned length)
{
    for (unsigned i = 0; i < length; i++)
        write_accumulator(m, bytes[i], m->unit[unit].ac[bytes[i]]);
}

static bool gat_everywhere(const model *m)
{
    for (unsigned k = 0; k < m->count; k++)
        if (!gat(&m->unit[k]))
            return false;
    return true;
}

static bool gal_everywhere(const model *m)
{
    for (unsigned k = 0; k < m->count; k++)
        if (!gal(&m->unit[k]))
            return false;
    return true;
}

/* ------------------------------------------------------------------ */
/* Answers                                                             */
/* ------------------------------------------------------------------ */

static model_answer refused(unsigned number)
{
    model_answer a;
    memset(&a, 0, sizeof a);
    a.refusal = number;
    a.kind = MODEL_REFUSED;
    return a;
}

/* Every answer gives IRQ as it stands after the call, so this comes last. */
static model_answer answer(const model *m, unsigned kind)
{
    model_answer a;
    memset(&a, 0, sizeof a);
    a.kind = kind;
    a.irq = irq(m) ? 1 : 0;
    return a;
}

static model_answer byte_answer(const model *m, uint8_t byte)
{
    model_answer a = answer(m, MODEL_BYTE);
    a.byte = byte;
    return a;
}

/* P4, ruling 16: an answer for want of a match passes the reason on. */
static model_answer with_reason(model_answer a, found at)
{
    a.near = at.near ? 1 : 0;
    a.unit = at.unit;
    a.descriptor = at.descriptor;
    return a;
}

static bool bad_count(uint64_t count)
{
    return count == 0 || count > UNITS;
}

/* At start and reset "none" is allowed. */
static bool bad_selection(uint64_t selected, uint64_t count)
{
    return selected != MODEL_NONE && selected >= count;
}

/* ------------------------------------------------------------------ */
/* Reset and start (4.5.1, 01; rulings 4 and 7)                        */
/* ------------------------------------------------------------------ */

static void reset_state(model *m, unsigned count, uint64_t selected)
{
    memset(m, 0, sizeof *m);
    m->count = count;
    m->ivr = 0x0F; /* 3.2.8 */
    for (unsigned k = 0; k < count; k++)
        m->unit[k].rdp = NO_DESCRIPTOR;
    if (selected != MODEL_NONE) {
        /* maps every address to itself for number 00 */
        m->unit[selected].d[0].asm_ = 0xFF;
        m->unit[selected].d[0].ssr = SSR_E;
    }
}

model_answer model_start(model *m, uint64_t units, uint64_t selected)
{
    if (bad_count(units))
        return refused(1);
    if (bad_selection(selected, units))
        return refused(2);
    reset_state(m, (unsigned)units, selected);
    return answer(m, MODEL_DONE);
}

model_answer model_reset(model *m, uint64_t selected)
{
    if (bad_count(m->count))
        return refused(1);
    if (bad_selection(selected, m->count))
        return refused(2);
    reset_state(m, m->count, selected);
    return answer(m, MODEL_DONE);
}

/* ------------------------------------------------------------------ */
/* A bus access (4.5.3)                                                */
/* ------------------------------------------------------------------ */

/* Table 3-1, 4.5.3.3, 4.5.3.7: logical address and number are latched, and
 * these registers are marked as non-global. */
static void latch(model_unit *u, uint16_t page, uint8_t number)
{
    fill(u, 0, page >> 8);
    fill(u, 1, page & 0xFF);
    fill(u, 6, number);
}

/* 4.5.3.3, 4.5.3.6, 4.5.3.7: every unit sets F, DF if F was set already, and
 * takes R/W as it stands then (one for a read). */
static void fault(model *m, bool write)
{
    if (m->gsr & GSR_F)
        m->gsr |= GSR_DF;
    m->gsr |= GSR_F;
    for (unsigned k = 0; k < m->count; k++) {
        model_unit *u = &m->unit[k];
        u->lsr = (uint8_t)((u->lsr & LSR_L) | (write ? 0 : LSR_RW));
    }
}

/* 4.5.3.7 */
static model_answer undefined_segment_access(model *m, bool write, uint16_t page, uint8_t number, found at)
{
    fault(m, write);
    for (unsigned k = 0; k < m->count; k++) {
        latch(&m->unit[k], page, number);
        event(&m->unit[k], L_USA, NO_DESCRIPTOR);
    }
    return with_reason(answer(m, MODEL_UNDEFINED), at);
}

/* 4.5.3.3 in the matching unit, 4.5.3.6 in the others.  U, M and IP stay.  The
 * others do so also after the read half of a read-modify-write, which 4.5.3.5
 * would have them pass over (decision 104). */
static model_answer write_violation(model *m, unsigned unit, unsigned descriptor, uint16_t page, uint8_t number)
{
    fault(m, true);
    for (unsigned k = 0; k < m->count; k++) {
        if (k == unit) {
            latch(&m->unit[k], page, number);
            event(&m->unit[k], L_WV, descriptor);
        } else {
            no_event(&m->unit[k]);
        }
    }
    model_answer a = answer(m, MODEL_VIOLATION);
    a.win = 1; /* 2.23 */
    a.unit = unit;
    a.descriptor = descriptor;
    return a;
}

/* 3.1.6, 4.5.3.2: a segment access sets U, and IP if I is set. */
static void segment_access(model_descriptor *d)
{
    d->ssr |= SSR_U;
    if (d->ssr & SSR_I)
        d->ssr |= SSR_IP;
}

/* 4.5.3.2; 3.1.6: M by a "successful write to the segment". */
static model_answer successful_translation(model *m, unsigned unit, unsigned descriptor, bool write, uint32_t address)
{
    model_descriptor *d = &m->unit[unit].d[descriptor];
    segment_access(d);
    if (write)
        d->ssr |= SSR_M;
    model_answer a = answer(m, MODEL_MAPPED);
    a.win = (d->ssr & SSR_WP) ? 1 : 0; /* 2.23 */
    a.unit = unit;
    a.descriptor = descriptor;
    a.address = ((uint32_t)physical_page(d, (uint16_t)(address >> 8)) << 8) | (address & 0xFF);
    return a;
}

/* The kinds of cycle.  A read-modify-write begins as a read; then R/W goes low
 * while AS stays asserted (4.5.3.2, item 3; P1). */
typedef enum { READ, WRITE, READ_MODIFY_WRITE } cycle;

static cycle cycle_of(uint64_t direction)
{
    if (direction == 0)
        return READ;
    if (direction == MODEL_MODIFY)
        return READ_MODIFY_WRITE;
    return WRITE;
}

model_answer model_access(model *m, uint64_t function_code, uint64_t direction, uint64_t address)
{
    if (bad_count(m->count))
        return refused(1);
    if (function_code > 15)
        return refused(4);
    if (address > 0xFFFFFF)
        return refused(5);
    read_as_state(m);

    cycle kind = cycle_of(direction);
    uint16_t page = (uint16_t)(address >> 8);
    uint8_t number = m->table[function_code]; /* 2.17, 3.2.1 */
    found at = search(m, page, number);
    if (!at.matches) /* R/W is still high in a read-modify-write */
        return undefined_segment_access(m, kind == WRITE, page, number, at);
    model_descriptor *d = &m->unit[at.unit].d[at.descriptor];
    if (kind == READ || (d->ssr & SSR_WP) == 0)
        return successful_translation(m, at.unit, at.descriptor, kind != READ, (uint32_t)address);
    if (kind == READ_MODIFY_WRITE)
        segment_access(d); /* its read half, which is no violation */
    return write_violation(m, at.unit, at.descriptor, page, number);
}

/* ------------------------------------------------------------------ */
/* Operations on descriptors (4.6.2.3, 4.6.2.4, 4.6.3.2, 4.6.3.3)      */
/* ------------------------------------------------------------------ */

/* 4.6.2.3, transfer descriptor (a read of $31), Table 3-1. */
static uint8_t transfer_descriptor(model *m, unsigned unit)
{
    model_unit *u = &m->unit[unit];
    const model_descriptor *d = &u->d[u->dp];
    fill(u, 0, d->lba >> 8);
    fill(u, 1, d->lba & 0xFF);
    fill(u, 2, d->lam >> 8);
    fill(u, 3, d->lam & 0xFF);
    fill(u, 4, d->pba >> 8);
    fill(u, 5, d->pba & 0xFF);
    fill(u, 6, d->asn);
    fill(u, 7, d->ssr);
    fill(u, 8, d->asm_);
    return d->ssr;
}

/* 4.6.2.4, write segment status (a write of $31): "Any bit may be written
 * except the E bit.  Enable may be cleared using this operation but it may
 * not be set." */
static void write_segment_status(model *m, unsigned unit, uint8_t value)
{
    model_unit *u = &m->unit[unit];
    model_descriptor *d = &u->d[u->dp];
    bool e = enabled(d) && (value & SSR_E) != 0;
    unsigned ssr = value & (SSR_U | SSR_I | SSR_M | SSR_WP);
    if (e)
        ssr |= SSR_E | (value & SSR_IP);
    d->ssr = (uint8_t)ssr;
}

/* Table 3-1: the accumulator read as a descriptor, with the SSR it would load:
 * no reserved bits, and IP zero where E is zero. */
static model_descriptor accumulator_as_descriptor(const model_unit *u)
{
    model_descriptor d;
    unsigned ssr = u->ac[7] & SSR_BITS;
    if ((ssr & SSR_E) == 0)
        ssr &= ~(unsigned)SSR_IP;
    d.lba = (uint16_t)(u->ac[0] << 8 | u->ac[1]);
    d.lam = (uint16_t)(u->ac[2] << 8 | u->ac[3]);
    d.pba = (uint16_t)(u->ac[4] << 8 | u->ac[5]);
    d.asn = u->ac[6];
    d.ssr = (uint8_t)ssr;
    d.asm_ = u->ac[8];
    return d;
}

/* 4.6.3.2, 3.2.6: unit k's lowest enabled descriptor that clashes with the one
 * to be loaded into descriptor "target" of the selected unit, or NVR. */
static unsigned collision(const model *m, unsigned k, const model_descriptor *wanted, unsigned unit, unsigned target)
{
    for (unsigned e = 0; e < DESCRIPTORS; e++) {
        if (k == unit && e == target)
            continue; /* "disabled ... so that it cannot cause a collision" */
        if (enabled(&m->unit[k].d[e]) && clash(&m->unit[k].d[e], wanted))
            return e;
    }
    return NO_DESCRIPTOR;
}

static void all_no_event(model *m)
{
    for (unsigned k = 0; k < m->count; k++)
        no_event(&m->unit[k]);
}

/* 4.6.3.2, load descriptor (a read of $3F), ruling 2. */
static uint8_t load_descriptor(model *m, unsigned unit)
{
    if (!gal_everywhere(m))
        send_to_all(m, unit, load_bytes, LOAD_BYTES);

    unsigned target = m->unit[unit].dp;
    model_descriptor *d = &m->unit[unit].d[target];
    model_descriptor wanted = accumulator_as_descriptor(&m->unit[unit]);

    bool any = false;
    unsigned collided[UNITS];
    for (unsigned k = 0; k < m->count; k++) {
        collided[k] = NO_DESCRIPTOR;
        if (enabled(&wanted)) /* 01 (H): with AC7 bit 0 clear nothing is compared */
            collided[k] = collision(m, k, &wanted, unit, target);
        if (collided[k] != NO_DESCRIPTOR)
            any = true;
    }

    if (any) {
        for (unsigned k = 0; k < m->count; k++) {
            if (collided[k] != NO_DESCRIPTOR)
                event(&m->unit[k], L_LD, collided[k]);
            else
                no_event(&m->unit[k]);
        }
        /* 3.1.6, E: "Unsuccessful load descriptor operation on this
         * descriptor"; and IP, where E is zero */
        d->ssr &= (uint8_t)~(SSR_E | SSR_IP);
        return 0xFF;
    }

    d->lba = wanted.lba;
    d->lam = wanted.lam;
    d->pba = wanted.pba;
    d->asn = wanted.asn;
    d->ssr = wanted.ssr;
    d->asm_ = wanted.asm_;
    all_no_event(m);
    return 0x00;
}

/* 4.6.3.3, direct translation (a read of $3D), ruling 3.  No SSR bit changes. */
static model_answer direct_translation(model *m, unsigned unit)
{
    if (!gat_everywhere(m))
        send_to_all(m, unit, translate_bytes, TRANSLATE_BYTES);

    const uint8_t *ac = m->unit[unit].ac;
    uint16_t page = (uint16_t)(ac[0] << 8 | ac[1]);
    found at = search(m, page, ac[6]);

    all_no_event(m);
    if (!at.matches)
        return with_reason(byte_answer(m, 0xFF), at);
    model_unit *u = &m->unit[at.unit];
    uint16_t physical = physical_page(&u->d[at.descriptor], page);
    fill(u, 4, physical >> 8);
    fill(u, 5, physical & 0xFF);
    u->dp = (uint8_t)at.descriptor;
    event(u, L_DT, at.descriptor);
    return byte_answer(m, 0x00);
}

/* ------------------------------------------------------------------ */
/* Register access (4.6.1, Table 4-3)                                  */
/* ------------------------------------------------------------------ */

static bool is_table_entry(uint64_t address)
{
    return address <= 0x1E && address % 2 == 0;
}

static bool is_accumulator(uint64_t address)
{
    return address >= 0x20 && address <= 0x28;
}

/* 4.6.2.2 and the operations that are reads, but for direct translation, whose
 * answer is more than a byte; reads are of the selected unit. */
static uint8_t read_register(model *m, unsigned unit, uint64_t address)
{
    model_unit *u = &m->unit[unit];
    if (is_table_entry(address))
        return m->table[address / 2];
    if (is_accumulator(address))
        return u->ac[address - 0x20];
    switch (address) {
    case 0x29:
        return u->dp;
    case 0x2B:
        return m->ivr;
    case 0x2D:
        return m->gsr;
    case 0x2F:
        return local_status(u);
    case 0x31:
        return transfer_descriptor(m, unit);
    case 0x39:
        return idp(u);
    case 0x3B:
        return u->rdp;
    case 0x3F:
        return load_descriptor(m, unit);
    default:
        return 0xFF; /* 4.6.2.5, null operation */
    }
}

/* 3.2.3, 4.6.3.1: "If F is cleared in the GSR, L4-L7 are also cleared." */
static void write_global_status(model *m, uint8_t value)
{
    m->gsr = value & GSR_BITS;
    if ((value & GSR_F) == 0)
        for (unsigned k = 0; k < m->count; k++)
            set_l(&m->unit[k], L_NO);
}

/* 4.6.3.1: a write of a system register goes to all units; 4.6.2.4: a write of
 * the segment status is local. */
static void write_register(model *m, unsigned unit, uint64_t address, uint8_t value)
{
    if (is_table_entry(address)) {
        m->table[address / 2] = value;
        return;
    }
    if (is_accumulator(address)) {
        write_accumulator(m, (unsigned)(address - 0x20), value);
        return;
    }
    switch (address) {
    case 0x29:
        for (unsigned k = 0; k < m->count; k++)
            m->unit[k].dp = value & NUMBER_BITS;
        return;
    case 0x2B:
        m->ivr = value;
        return;
    case 0x2D:
        write_global_status(m, value);
        return;
    case 0x2F: /* 3.2.4: GAL, GAT and LIP are not affected */
        for (unsigned k = 0; k < m->count; k++)
            m->unit[k].lsr = value & (LSR_L | LSR_RW);
        return;
    case 0x31:
        write_segment_status(m, unit, value);
        return;
    default:
        return; /* 4.6.2.5, null operation */
    }
}

model_answer model_register(model *m, uint64_t unit, uint64_t address, uint64_t direction, uint8_t value)
{
    if (bad_count(m->count))
        return refused(1);
    if (unit >= m->count)
        return refused(2);
    if (address > 0x3F)
        return refused(3);
    read_as_state(m);

    if (direction != 0) {
        write_register(m, (unsigned)unit, address, value);
        return answer(m, MODEL_DONE);
    }
    if (address == 0x3D)
        return direct_translation(m, (unsigned)unit);
    uint8_t byte = read_register(m, (unsigned)unit, address);
    return byte_answer(m, byte);
}

/* ------------------------------------------------------------------ */
/* Interrupt acknowledge (4.6.2.1, ruling 10)                          */
/* ------------------------------------------------------------------ */

model_answer model_acknowledge(model *m, uint64_t unit)
{
    if (bad_count(m->count))
        return refused(1);
    if (unit >= m->count)
        return refused(2);
    if (!irq(m))
        return refused(6);
    read_as_state(m);
    return byte_answer(m, m->ivr);
}

/* ------------------------------------------------------------------ */
/* For images                                                          */
/* ------------------------------------------------------------------ */

model_answer model_done(const model *m)
{
    return answer(m, MODEL_DONE);
}

void model_read_as_state(model *m)
{
    read_as_state(m);
}

bool model_clash(const model_descriptor *a, const model_descriptor *b)
{
    return clash(a, b);
}
