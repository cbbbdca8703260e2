/* Self-check of the model: document 01's twelve cases, the bench example, and
 * cases worked out by hand from the papers.  Prints 'ok' or the failing line. */
#include <stdio.h>
#include <stdlib.h>
#include <string.h>
#include "model.h"
#include "model_image.h"

#define CHECK(condition) check((condition), __LINE__, #condition)

static void check(bool good, int line, const char *text)
{
    if (good)
        return;
    printf("check.c:%d: %s\n", line, text);
    exit(1);
}

enum { READ = 0, WRITE = 1, MODIFY = MODEL_MODIFY };
enum { AC0 = 0x20, AC1, AC2, AC3, AC4, AC5, AC6, AC7, AC8, DP = 0x29, IVR = 0x2B, GSR = 0x2D, LSR = 0x2F,
       SSR = 0x31, IDP = 0x39, RDP = 0x3B, DT = 0x3D, LOAD = 0x3F };

static model m;

/* A register read and write that must be granted; the answer's irq is kept. */
static unsigned last_irq;

static uint8_t rd(unsigned unit, unsigned address)
{
    model_answer a = model_register(&m, unit, address, READ, 0xEE);
    CHECK(a.refusal == 0 && a.kind == MODEL_BYTE);
    CHECK(a.win == 0 && a.near == 0 && a.unit == 0 && a.descriptor == 0 && a.address == 0);
    last_irq = a.irq;
    return a.byte;
}

static void wr(unsigned unit, unsigned address, uint8_t value)
{
    model_answer a = model_register(&m, unit, address, WRITE, value);
    CHECK(a.refusal == 0 && a.kind == MODEL_DONE);
    CHECK(a.win == 0 && a.near == 0 && a.unit == 0 && a.descriptor == 0 && a.byte == 0 && a.address == 0);
    last_irq = a.irq;
}

static void start(uint64_t units, uint64_t selected)
{
    model_answer a = model_start(&m, units, selected);
    CHECK(a.refusal == 0 && a.kind == MODEL_DONE && a.irq == 0);
}

static bool is_mapped(model_answer a, uint32_t address, unsigned unit, unsigned descriptor, unsigned win, unsigned irq)
{
    return a.refusal == 0 && a.kind == MODEL_MAPPED && a.address == address && a.unit == unit &&
           a.descriptor == descriptor && a.win == win && a.near == 0 && a.irq == irq && a.byte == 0;
}

static bool is_violation(model_answer a, unsigned unit, unsigned descriptor, unsigned irq)
{
    return a.refusal == 0 && a.kind == MODEL_VIOLATION && a.address == 0 && a.unit == unit &&
           a.descriptor == descriptor && a.win == 1 && a.near == 0 && a.irq == irq && a.byte == 0;
}

/* P4, ruling 16: the place that an answer for want of a match names, or none. */
static bool names(model_answer a, unsigned unit, unsigned descriptor)
{
    return a.near == 1 && a.unit == unit && a.descriptor == descriptor;
}

static bool names_none(model_answer a)
{
    return a.near == 0 && a.unit == 0 && a.descriptor == 0;
}

static bool without_match(model_answer a, unsigned kind, unsigned irq, unsigned byte)
{
    return a.refusal == 0 && a.kind == kind && a.address == 0 && a.win == 0 && a.irq == irq && a.byte == byte;
}

static bool is_undefined(model_answer a, unsigned irq)
{
    return without_match(a, MODEL_UNDEFINED, irq, 0x00) && names_none(a);
}

static bool is_near(model_answer a, unsigned irq, unsigned unit, unsigned descriptor)
{
    return without_match(a, MODEL_UNDEFINED, irq, 0x00) && names(a, unit, descriptor);
}

static bool is_refused(model_answer a, unsigned number)
{
    return a.refusal == number && a.kind == MODEL_REFUSED && a.address == 0 && names_none(a) && a.win == 0 &&
           a.irq == 0 && a.byte == 0;
}

/* A direct translation that finds no match, with IRQ 0. */
static model_answer untranslated(unsigned unit)
{
    model_answer a = model_register(&m, unit, DT, READ, 0xEE);
    CHECK(without_match(a, MODEL_BYTE, 0, 0xFF));
    return a;
}

/* Globally write AC0 to AC8 through a unit. */
static void accumulate(unsigned unit, unsigned lba, unsigned lam, unsigned pba, unsigned asn, unsigned ssr, unsigned asmask)
{
    wr(unit, AC0, (uint8_t)(lba >> 8));
    wr(unit, AC1, (uint8_t)lba);
    wr(unit, AC2, (uint8_t)(lam >> 8));
    wr(unit, AC3, (uint8_t)lam);
    wr(unit, AC4, (uint8_t)(pba >> 8));
    wr(unit, AC5, (uint8_t)pba);
    wr(unit, AC6, (uint8_t)asn);
    wr(unit, AC7, (uint8_t)ssr);
    wr(unit, AC8, (uint8_t)asmask);
}

/* A whole load: accumulator, DP, read of $3F; the byte read. */
static uint8_t load(unsigned unit, unsigned d, unsigned lba, unsigned lam, unsigned pba, unsigned asn, unsigned ssr,
                    unsigned asmask)
{
    accumulate(unit, lba, lam, pba, asn, ssr, asmask);
    wr(unit, DP, (uint8_t)d);
    return rd(unit, LOAD);
}

static bool has(unsigned unit, unsigned d, unsigned lba, unsigned lam, unsigned pba, unsigned asn, unsigned ssr,
                unsigned asmask)
{
    const model_descriptor *x = &m.unit[unit].d[d];
    return x->lba == lba && x->lam == lam && x->pba == pba && x->asn == asn && x->ssr == ssr && x->asm_ == asmask;
}

/* An access for a given number, through function code 2. */
static model_answer access_number(uint8_t number, unsigned direction, uint32_t address)
{
    wr(0, 0x04, number);
    return model_access(&m, 2, direction, address);
}

/* ------------------------------------------------------------------ */

static const unsigned figure[9][5] = {
    /* LBA    LAM     PBA     ASN   ASM */
    {0x0000, 0x0000, 0x0000, 0x00, 0xFF}, /* R */
    {0x8000, 0xFFFC, 0x0000, 0x80, 0x80}, /* V */
    {0xF000, 0xF000, 0xF000, 0x80, 0x80}, /* O */
    {0x0000, 0xE000, 0x2000, 0x01, 0x7F}, /* 1A */
    {0x7FFF, 0xC000, 0xBFFF, 0x01, 0x7F}, /* 1B */
    {0x9000, 0xF000, 0xE000, 0x01, 0x7F}, /* 1C */
    {0x0000, 0xF000, 0x1000, 0x02, 0x7F}, /* 2A */
    {0x7FFF, 0xE000, 0x7FFF, 0x02, 0x7F}, /* 2B */
    {0xA000, 0xF000, 0xE000, 0x02, 0x7F}, /* 2C */
};

static void load_figure(void)
{
    start(1, 0);
    for (unsigned i = 0; i < 9; i++)
        CHECK(load(0, i, figure[i][0], figure[i][1], figure[i][2], figure[i][3], 0x01, figure[i][4]) == 0x00);
}

static void twelve_cases(void)
{
    load_figure(); /* 1 */
    CHECK(is_mapped(access_number(0x01, READ, 0x900012), 0xE00012, 0, 5, 0, 0));
    CHECK(is_mapped(access_number(0x02, READ, 0xA00012), 0xE00012, 0, 8, 0, 0));
    CHECK(is_mapped(access_number(0x01, READ, 0x7FFF12), 0xBFFF12, 0, 4, 0, 0)); /* 2 */
    CHECK(load(0, 4, 0x4000, 0xC000, 0x8000, 0x01, 0x01, 0x7F) == 0x00);         /* 3 */
    CHECK(is_mapped(access_number(0x01, READ, 0x7FFF12), 0xBFFF12, 0, 4, 0, 0));

    load_figure();
    CHECK(is_mapped(access_number(0x01, READ, 0x400000), 0x800000, 0, 4, 0, 0)); /* 4 */
    CHECK(is_near(access_number(0x01, READ, 0x3FFF00), 0, 0, 0)); /* R has every page, for number 00 */
    CHECK(is_mapped(access_number(0x81, READ, 0x010000), 0x210000, 0, 3, 0, 0)); /* 5 */
    CHECK(is_mapped(access_number(0x02, READ, 0x010000), 0x110000, 0, 6, 0, 0)); /* 6 */
    CHECK(is_mapped(access_number(0x00, READ, 0xABCDEF), 0xABCDEF, 0, 0, 0, 0)); /* 7 */

    load_figure();
    CHECK(load(0, 9, 0x5000, 0xF000, 0x0000, 0x01, 0x01, 0xFF) == 0xFF); /* 8 */
    CHECK(rd(0, RDP) == 0x04);
    CHECK(is_mapped(access_number(0x01, READ, 0x500000), 0x900000, 0, 4, 0, 0));
    CHECK(load(0, 9, 0x5000, 0xF000, 0x0000, 0x03, 0x01, 0xFF) == 0x00); /* 9 */
    CHECK(is_mapped(access_number(0x03, READ, 0x512345), 0x012345, 0, 9, 0, 0));

    start(1, MODEL_NONE); /* 10 */
    CHECK(load(0, 3, 0x0001, 0x0001, 0x0000, 0x07, 0x01, 0xFF) == 0x00);
    CHECK(load(0, 4, 0x8000, 0x8000, 0x0000, 0x07, 0x01, 0xFF) == 0xFF);
    CHECK(load(0, 4, 0x0000, 0x0001, 0x0000, 0x07, 0x01, 0xFF) == 0x00);
    wr(0, DP, 3);
    wr(0, SSR, 0x00);
    CHECK(load(0, 3, 0x0001, 0x0001, 0x0000, 0x07, 0x01, 0xFF) == 0x00);

    load_figure(); /* 11 */
    wr(0, DP, 10);
    wr(0, SSR, 0x01);
    CHECK(rd(0, SSR) == 0x00);
    wr(0, DP, 3);
    wr(0, SSR, 0x00);
    wr(0, SSR, 0x01);
    CHECK(rd(0, SSR) == 0x00);
    CHECK(is_near(access_number(0x01, READ, 0x010000), 0, 0, 0));

    load_figure(); /* 12 */
    for (unsigned i = 0; i < 9; i++) {
        wr(0, DP, (uint8_t)i);
        CHECK(rd(0, SSR) == 0x01); /* transfer, then load */
        CHECK(rd(0, LOAD) == 0x00);
        CHECK(has(0, i, figure[i][0], figure[i][1], figure[i][2], figure[i][3], 0x01, figure[i][4]));
    }
}

static void bench_example(void)
{
    memset(&m, 0, sizeof m);
    start(1, 0);
    CHECK(is_mapped(model_access(&m, 5, READ, 0x001234), 0x001234, 0, 0, 0, 0));
    CHECK(rd(0, GSR) == 0x00 && last_irq == 0);
    CHECK(is_mapped(model_access(&m, 5, WRITE, 0x000100), 0x000100, 0, 0, 0, 0));
    wr(0, IVR, 0x40);
    CHECK(last_irq == 0);
    CHECK(rd(0, IVR) == 0x40 && last_irq == 0);
    CHECK(is_refused(model_acknowledge(&m, 0), 6));
}

/* ------------------------------------------------------------------ */

static bool all_zero(const void *at, size_t length)
{
    const unsigned char *bytes = at;
    for (size_t i = 0; i < length; i++)
        if (bytes[i] != 0)
            return false;
    return true;
}

static void check_fresh(unsigned count, unsigned selected)
{
    CHECK(m.count == count && m.gsr == 0 && m.ivr == 0x0F && all_zero(m.table, 16));
    for (unsigned k = 0; k < 6; k++) {
        model_unit u = m.unit[k];
        if (k < count) {
            CHECK(u.rdp == 0x80);
            u.rdp = 0;
        }
        if (k == selected) {
            CHECK(u.d[0].ssr == 0x01 && u.d[0].asm_ == 0xFF);
            u.d[0].ssr = 0;
            u.d[0].asm_ = 0;
        }
        for (unsigned n = 0; n < 9; n++)
            CHECK(u.ac[n] == 0 && !u.mark[n]);
        CHECK(u.dp == 0 && u.rdp == 0 && u.lsr == 0);
        for (unsigned e = 0; e < 32; e++) {
            model_descriptor *d = &u.d[e];
            CHECK(d->lba == 0 && d->lam == 0 && d->pba == 0 && d->asn == 0 && d->ssr == 0 && d->asm_ == 0);
        }
    }
    for (unsigned k = count; k < 6; k++)
        CHECK(all_zero(&m.unit[k], sizeof m.unit[k]));
}

static void start_and_reset(void)
{
    for (unsigned count = 1; count <= 6; count++)
        for (unsigned selected = 0; selected <= count; selected++) {
            uint64_t s = selected < count ? selected : MODEL_NONE;
            memset(&m, 0xA5, sizeof m); /* start looks at nothing that stands there */
            start(count, s);
            check_fresh(count, (unsigned)s);
            CHECK(rd(count - 1, RDP) == 0x80 && rd(0, IVR) == 0x0F && rd(0, LSR) == 0x00 && rd(0, IDP) == 0x80);
            model_answer a = model_access(&m, 7, READ, 0xFFFFF7); /* FC 7 is a space like the others */
            if (s == MODEL_NONE)
                CHECK(is_undefined(a, 0));
            else
                CHECK(is_mapped(a, 0xFFFFF7, selected, 0, 0, 0));
            wr(0, 0x00, 0x12);
            accumulate(0, 1, 2, 3, 4, 5, 6);
            wr(0, GSR, 0xFF);
            wr(0, LSR, 0xFF);
            wr(0, IVR, 0x99);
            wr(0, DP, 0x1F);
            a = model_reset(&m, s);
            CHECK(a.refusal == 0 && a.kind == MODEL_DONE && a.irq == 0);
            check_fresh(count, (unsigned)s);
        }
    /* a reset may move the selection, and drops every descriptor */
    start(2, 0);
    model_reset(&m, 1);
    check_fresh(2, 1);
    model_reset(&m, MODEL_NONE);
    check_fresh(2, MODEL_NONE);
}

/* Violation in unit 1 of three, double fault, GSR write with F 0. */
static void violation(void)
{
    start(3, 1);
    wr(1, SSR, 0x03); /* DP is 0: WP on descriptor 0 of unit 1 */
    CHECK(is_mapped(model_access(&m, 0, READ, 0x123456), 0x123456, 1, 0, 1, 0));
    CHECK(m.unit[1].d[0].ssr == 0x83);

    accumulate(2, 0x1111, 0x2222, 0x3333, 0x44, 0x55, 0x66);
    wr(0, LSR, 0xFF);
    for (unsigned k = 0; k < 3; k++)
        CHECK(rd(k, LSR) == 0xFE); /* L and RW as written, GAT, GAL by the marks, LIP 0 */

    CHECK(is_violation(model_access(&m, 0, WRITE, 0x123456), 1, 0, 0));
    CHECK(m.unit[1].d[0].ssr == 0x83); /* U, M, IP stay */
    CHECK(rd(0, GSR) == 0x80 && rd(1, GSR) == 0x80);
    CHECK(rd(1, LSR) == 0xC0 && rd(1, RDP) == 0x00);
    CHECK(rd(1, AC0) == 0x12 && rd(1, AC1) == 0x34 && rd(1, AC6) == 0x00);
    CHECK(rd(1, AC2) == 0x22 && rd(1, AC4) == 0x33 && rd(1, AC7) == 0x55 && rd(1, AC8) == 0x66);
    for (unsigned k = 0; k < 3; k += 2) {
        CHECK(rd(k, LSR) == 0x06 && rd(k, RDP) == 0x80);
        CHECK(rd(k, AC0) == 0x11 && rd(k, AC1) == 0x11 && rd(k, AC6) == 0x44);
    }
    for (unsigned n = 0; n < 9; n++) {
        CHECK(m.unit[0].mark[n] && m.unit[2].mark[n]);
        CHECK(m.unit[1].mark[n] == (n != 0 && n != 1 && n != 6));
    }
    /* L, RDP and accumulators stay on a success */
    CHECK(is_mapped(model_access(&m, 0, READ, 0x777777), 0x777777, 1, 0, 1, 0));
    CHECK(rd(1, LSR) == 0xC0 && rd(1, RDP) == 0x00 && rd(1, AC0) == 0x12 && rd(0, RDP) == 0x80);

    CHECK(is_violation(model_access(&m, 0, (uint64_t)1 << 63, 0xFFFFFF), 1, 0, 0)); /* any other number writes */
    CHECK(rd(2, GSR) == 0xC0);
    wr(2, GSR, 0x40); /* F as 0: L cleared in every unit, DF as written, RDP stays */
    CHECK(rd(0, GSR) == 0x40 && rd(1, LSR) == 0x00 && rd(0, LSR) == 0x06 && rd(1, RDP) == 0x00);
    CHECK(is_violation(model_access(&m, 0, WRITE, 0), 1, 0, 0));
    CHECK(rd(0, GSR) == 0xC0); /* F was clear: DF only stays */
    wr(0, GSR, 0x00);
    CHECK(is_violation(model_access(&m, 0, WRITE, 0), 1, 0, 0));
    CHECK(rd(0, GSR) == 0x80);

    wr(0, LSR, 0xF8);
    wr(0, GSR, 0xBE); /* F as 1: L stays; reserved bits drop; IE 0 */
    CHECK(rd(0, GSR) == 0x80 && rd(0, LSR) == 0xFE && rd(1, LSR) == 0xF8);
    wr(0, GSR, 0x3F); /* F was 1, written 0 */
    CHECK(rd(0, GSR) == 0x01 && rd(0, LSR) == 0x0E && rd(1, LSR) == 0x08);
    wr(0, LSR, 0x50);
    wr(0, GSR, 0x01); /* F was 0 already, written 0: L cleared all the same */
    CHECK(rd(0, LSR) == 0x06 && rd(1, LSR) == 0x00);
}

static void undefined(void)
{
    start(3, 1);
    wr(0, 0x06, 0x55);
    CHECK(rd(1, 0x06) == 0x55 && rd(2, 0x06) == 0x55);
    accumulate(0, 0x1111, 0x2222, 0x3333, 0x44, 0x66, 0x77);
    CHECK(is_near(model_access(&m, 3, READ, 0xABCDEF), 0, 1, 0));
    for (unsigned k = 0; k < 3; k++) {
        CHECK(rd(k, LSR) == 0xA8 && rd(k, RDP) == 0x80 && rd(k, GSR) == 0x80);
        CHECK(rd(k, AC0) == 0xAB && rd(k, AC1) == 0xCD && rd(k, AC6) == 0x55 && rd(k, AC3) == 0x22);
        for (unsigned n = 0; n < 9; n++)
            CHECK(m.unit[k].mark[n] == (n != 0 && n != 1 && n != 6));
    }
    CHECK(is_near(model_access(&m, 3, WRITE, 0xABCDEF), 0, 1, 0));
    for (unsigned k = 0; k < 3; k++)
        CHECK(rd(k, LSR) == 0xA0 && rd(k, GSR) == 0xC0);

    /* marks come back byte by byte */
    wr(0, AC0, 1);
    wr(0, AC1, 1);
    CHECK(rd(1, LSR) == 0xA0);
    wr(0, AC6, 1);
    for (unsigned k = 0; k < 3; k++)
        CHECK(rd(k, LSR) == 0xA6);

    /* WP in a unit without a match plays no part: RDP is set to none */
    CHECK(load(2, 9, 0x1000, 0xF000, 0x1000, 0x55, 0x03, 0xFF) == 0x00);
    CHECK(is_violation(model_access(&m, 3, WRITE, 0x100000), 2, 9, 0));
    CHECK(rd(2, RDP) == 9 && rd(2, LSR) == 0xC0 && rd(0, RDP) == 0x80 && rd(0, LSR) == 0x06);
    CHECK(is_near(model_access(&m, 3, WRITE, 0x200000), 0, 1, 0));
    CHECK(rd(2, RDP) == 0x80 && rd(2, LSR) == 0xA0);

    /* a violation in one unit takes the earlier result from another */
    CHECK(load(0, 8, 0x3000, 0xF000, 0x1000, 0x55, 0x03, 0xFF) == 0x00);
    CHECK(is_violation(model_access(&m, 3, WRITE, 0x300000), 0, 8, 0));
    CHECK(rd(0, RDP) == 8 && rd(0, LSR) == 0xC0 && rd(2, RDP) == 0x80);
    CHECK(is_violation(model_access(&m, 3, WRITE, 0x100000), 2, 9, 0));
    CHECK(rd(0, RDP) == 0x80 && rd(0, LSR) == 0x00 && rd(2, RDP) == 9);
}

/* ------------------------------------------------------------------ */
/* Read-modify-write (4.5.3.2, item 3; document 02, P1; decision 104)  */
/* ------------------------------------------------------------------ */

/* Numbers that write in a bus access: 2 alone is a read-modify-write. */
static const uint64_t writes[] = {1, 3, 4, 255, 256, 258, 0x10002, (uint64_t)1 << 32, ((uint64_t)1 << 32) + 2,
                                  (uint64_t)1 << 63, ((uint64_t)1 << 63) + 2, UINT64_MAX};
#define WRITES (sizeof writes / sizeof writes[0])

/* U and M, and IP if I; nothing else of the state changes. */
static void modify_free(void)
{
    start(1, 0);
    model wanted = m;
    wanted.unit[0].d[0].ssr = 0x85;
    for (unsigned i = 0; i < 2; i++) {
        CHECK(is_mapped(model_access(&m, 5, MODIFY, 0x001234), 0x001234, 0, 0, 0, 0));
        CHECK(memcmp(&wanted, &m, sizeof m) == 0);
    }
    wr(0, SSR, 0x11); /* I; IE is clear */
    CHECK(is_mapped(model_access(&m, 5, MODIFY, 0x001234), 0x001234, 0, 0, 0, 0));
    CHECK(m.unit[0].d[0].ssr == 0x9D && rd(0, LSR) == 0x01);
    wr(0, SSR, 0x11);
    wr(0, GSR, 0x01);
    CHECK(last_irq == 0);
    CHECK(is_mapped(model_access(&m, 5, MODIFY, 0xFFFFFF), 0xFFFFFF, 0, 0, 0, 1));
    CHECK(m.unit[0].d[0].ssr == 0x9D);

    /* in the last of six units, after a fault: L, RDP, RW, accumulators and marks stay */
    start(6, MODEL_NONE);
    CHECK(load(5, 30, 0x4000, 0xC000, 0x8000, 0x07, 0x81, 0xFF) == 0x00);
    CHECK(load(5, 29, 0x0000, 0xC000, 0x8000, 0x07, 0x01, 0xFF) == 0x00);
    wr(0, 0x1E, 0x07);
    CHECK(is_undefined(model_access(&m, 15, READ, 0x812345), 0));
    wr(3, AC6, 0x77);
    wanted = m;
    wanted.unit[5].d[30].ssr = 0x85;
    CHECK(is_mapped(model_access(&m, 15, MODIFY, 0x7ABCDE), 0xBABCDE, 5, 30, 0, 0));
    CHECK(memcmp(&wanted, &m, sizeof m) == 0);
}

/* One fault, RW 1, and no write half: an undefined read. */
static void modify_undefined(void)
{
    start(1, MODEL_NONE);
    CHECK(is_undefined(model_access(&m, 3, MODIFY, 0xABCDEF), 0));
    CHECK(rd(0, GSR) == 0x80 && rd(0, LSR) == 0xA8 && rd(0, RDP) == 0x80); /* not DF */
    CHECK(rd(0, AC0) == 0xAB && rd(0, AC1) == 0xCD && rd(0, AC6) == 0x00);
    CHECK(is_undefined(model_access(&m, 3, MODIFY, 0x123456), 0));
    CHECK(rd(0, GSR) == 0xC0 && rd(0, LSR) == 0xA8 && rd(0, AC0) == 0x12);
    wr(0, GSR, 0x41); /* F clear, DF and IE stay set */
    CHECK(is_undefined(model_access(&m, 3, MODIFY, 0x123456), 0));
    CHECK(rd(0, GSR) == 0xC1 && rd(0, LSR) == 0xA8);
    wr(0, GSR, 0x01);
    CHECK(is_undefined(model_access(&m, 3, MODIFY, 0x123456), 0));
    CHECK(rd(0, GSR) == 0x81 && rd(0, LSR) == 0xA8);
    CHECK(is_undefined(model_access(&m, 3, WRITE, 0x123456), 0));
    CHECK(rd(0, GSR) == 0xC1 && rd(0, LSR) == 0xA0);
    CHECK(is_undefined(model_access(&m, 3, MODIFY, 0x123456), 0));
    CHECK(rd(0, GSR) == 0xC1 && rd(0, LSR) == 0xA8);

    /* two units and six: in every unit, with IRQ as it stands */
    for (unsigned count = 2; count <= 6; count += 4) {
        start(count, 1);
        CHECK(load(0, 4, 0x0000, 0xFF00, 0x0000, 0x55, 0x03, 0xFF) == 0x00);
        wr(0, 0x06, 0x55);
        CHECK(is_violation(model_access(&m, 3, WRITE, 0x001234), 0, 4, 0));
        wr(1, GSR, 0x01);
        wr(1, DP, 0);
        wr(1, SSR, 0x19); /* I, IP, E: IRQ */
        CHECK(last_irq == 1);
        accumulate(0, 0x1111, 0x2222, 0x3333, 0x44, 0x66, 0x77);
        model wanted = m;
        CHECK(is_near(model_access(&m, 3, MODIFY, 0xABCDEF), 1, 1, 0));
        wanted.gsr = 0x81;
        for (unsigned k = 0; k < count; k++) {
            model_unit *u = &wanted.unit[k];
            u->lsr = 0xA8;
            u->rdp = 0x80;
            u->ac[0] = 0xAB;
            u->ac[1] = 0xCD;
            u->ac[6] = 0x55;
            u->mark[0] = u->mark[1] = u->mark[6] = false;
        }
        CHECK(memcmp(&wanted, &m, sizeof m) == 0);
        CHECK(rd(0, LSR) == 0xA8 && rd(1, LSR) == 0xA9 && last_irq == 1);
    }
}

/* The read half sets U, and IP if I; then the violation, with RW 0. */
static void modify_protected(void)
{
    start(3, 1);
    wr(1, SSR, 0x03);
    accumulate(2, 0x1111, 0x2222, 0x3333, 0x44, 0x55, 0x66);
    wr(0, LSR, 0xFF);
    model wanted = m;
    CHECK(is_violation(model_access(&m, 0, MODIFY, 0x123456), 1, 0, 0));
    wanted.gsr = 0x80; /* one fault */
    wanted.unit[0].lsr = wanted.unit[2].lsr = 0x00;
    wanted.unit[1].lsr = 0xC0;
    wanted.unit[1].rdp = 0x00;
    wanted.unit[1].ac[0] = 0x12;
    wanted.unit[1].ac[1] = 0x34;
    wanted.unit[1].ac[6] = 0x00;
    wanted.unit[1].mark[0] = wanted.unit[1].mark[1] = wanted.unit[1].mark[6] = false;
    wanted.unit[1].d[0].ssr = 0x83; /* U, and M stays */
    CHECK(memcmp(&wanted, &m, sizeof m) == 0);
    CHECK(rd(1, LSR) == 0xC0 && rd(0, LSR) == 0x06 && rd(2, LSR) == 0x06 && rd(0, RDP) == 0x80 && rd(2, RDP) == 0x80);
    CHECK(is_violation(model_access(&m, 0, MODIFY, 0x123456), 1, 0, 0));
    CHECK(rd(0, GSR) == 0xC0 && m.unit[1].d[0].ssr == 0x83);
    wr(0, GSR, 0x40); /* F was clear: DF only stays */
    CHECK(is_violation(model_access(&m, 0, MODIFY, 0x123456), 1, 0, 0));
    CHECK(rd(0, GSR) == 0xC0);

    /* RW was 1 from an undefined access: 0 in every unit */
    wr(0, 0x02, 0x09);
    CHECK(is_near(model_access(&m, 1, MODIFY, 0x654321), 0, 1, 0));
    CHECK(rd(0, LSR) == 0xA8 && rd(1, LSR) == 0xA8 && rd(2, LSR) == 0xA8);
    CHECK(is_violation(model_access(&m, 0, MODIFY, 0x123456), 1, 0, 0));
    CHECK(rd(0, LSR) == 0x00 && rd(1, LSR) == 0xC0 && rd(2, LSR) == 0x00 && rd(0, AC0) == 0x65 && rd(1, AC0) == 0x12);
}

/* The status of a protected segment before a read-modify-write and after it. */
static void modify_status(void)
{
    static const struct {
        uint8_t before, after;
    } rows[] = {
        {0x03, 0x83}, {0x83, 0x83}, {0x07, 0x87}, {0x87, 0x87}, /* no I: U alone, M as it was */
        {0x0B, 0x8B}, {0x8F, 0x8F},                             /* IP that was written stays */
        {0x13, 0x9B}, {0x93, 0x9B}, {0x17, 0x9F}, {0x97, 0x9F}, /* I: U and IP */
        {0x1B, 0x9B}, {0x9B, 0x9B}, {0x9F, 0x9F},
    };
    start(1, 0);
    for (unsigned i = 0; i < sizeof rows / sizeof rows[0]; i++)
        for (unsigned ie = 0; ie < 2; ie++) {
            unsigned irq_before = ie && (rows[i].before & 0x08), irq_after = ie && (rows[i].after & 0x08);
            wr(0, GSR, (uint8_t)ie);
            wr(0, SSR, rows[i].before);
            CHECK(last_irq == irq_before);
            /* a plain write sets neither U nor M nor IP */
            CHECK(is_violation(model_access(&m, 0, WRITE, 0x00FF00), 0, 0, irq_before));
            CHECK(m.unit[0].d[0].ssr == rows[i].before);
            /* IRQ as it stands after the call */
            CHECK(is_violation(model_access(&m, 0, MODIFY, 0x00FF00), 0, 0, irq_after));
            CHECK(m.unit[0].d[0].ssr == rows[i].after && m.unit[0].lsr == 0xC0);
        }
}

/* Six units, one of which had the violation before; the others have none. */
static void modify_among_six(void)
{
    start(6, MODEL_NONE);
    CHECK(load(3, 17, 0x4000, 0xC000, 0x8000, 0x05, 0x13, 0xFF) == 0x00);
    CHECK(load(2, 9, 0x0000, 0xC000, 0x8000, 0x05, 0x13, 0xFF) == 0x00);
    wr(0, 0x04, 0x05);
    CHECK(is_violation(model_access(&m, 2, WRITE, 0x001234), 2, 9, 0));
    CHECK(rd(2, RDP) == 9 && rd(2, LSR) == 0xC0);
    accumulate(5, 0x1111, 0x2222, 0x3333, 0x44, 0x55, 0x66);
    CHECK(is_violation(model_access(&m, 2, MODIFY, 0x5ABCDE), 3, 17, 0));
    CHECK(m.unit[3].d[17].ssr == 0x9B && m.unit[2].d[9].ssr == 0x13 && m.gsr == 0xC0);
    for (unsigned k = 0; k < 6; k++) {
        bool hit = k == 3;
        CHECK(rd(k, LSR) == (hit ? 0xC1 : 0x06) && rd(k, RDP) == (hit ? 17 : 0x80));
        CHECK(rd(k, AC0) == (hit ? 0x5A : 0x11) && rd(k, AC1) == (hit ? 0xBC : 0x11));
        CHECK(rd(k, AC6) == (hit ? 0x05 : 0x44));
        CHECK(rd(k, AC2) == 0x22 && rd(k, AC4) == 0x33 && rd(k, AC7) == 0x55 && rd(k, AC8) == 0x66);
        for (unsigned n = 0; n < 9; n++)
            CHECK(m.unit[k].mark[n] == (!hit || (n != 0 && n != 1 && n != 6)));
    }
}

/* Every other number than 0 and 2 writes. */
static void other_directions(void)
{
    for (unsigned i = 0; i < WRITES; i++) {
        start(2, 1);
        CHECK(is_mapped(model_access(&m, 0, writes[i], 0x123456), 0x123456, 1, 0, 0, 0));
        CHECK(m.unit[1].d[0].ssr == 0x85);
        wr(1, SSR, 0x13);
        CHECK(is_violation(model_access(&m, 0, writes[i], 0x123456), 1, 0, 0));
        CHECK(m.unit[1].d[0].ssr == 0x13);
        wr(0, 0x00, 0x01);
        CHECK(is_near(model_access(&m, 0, writes[i], 0x123456), 0, 1, 0));
        CHECK(rd(0, LSR) == 0xA0 && rd(1, LSR) == 0xA0 && rd(0, GSR) == 0xC0);
    }
}

/* For a register 2 is a number like the others: it writes. */
static void modify_register(void)
{
    start(2, 1);
    CHECK(model_register(&m, 0, IVR, MODIFY, 0x77).kind == MODEL_DONE && m.ivr == 0x77);
    CHECK(model_register(&m, 0, AC7, MODIFY, 0x5A).kind == MODEL_DONE && m.unit[1].ac[7] == 0x5A && m.unit[1].mark[7]);
    CHECK(model_register(&m, 1, SSR, MODIFY, 0x13).kind == MODEL_DONE && m.unit[1].d[0].ssr == 0x13);
    CHECK(m.unit[1].ac[7] == 0x5A); /* no transfer */
    CHECK(model_register(&m, 0, GSR, ((uint64_t)1 << 32) + 2, 0x01).kind == MODEL_DONE && m.gsr == 0x01);
    CHECK(model_register(&m, 0, DP, 3, 0x04).kind == MODEL_DONE && m.unit[1].dp == 4);
    model before = m; /* what can only be read is not written */
    CHECK(model_register(&m, 1, LOAD, MODIFY, 0).kind == MODEL_DONE);
    CHECK(model_register(&m, 1, DT, MODIFY, 0).kind == MODEL_DONE);
    CHECK(model_register(&m, 1, RDP, MODIFY, 5).kind == MODEL_DONE);
    CHECK(memcmp(&before, &m, sizeof m) == 0);
}

static bool same_answer(model_answer a, model_answer b)
{
    return a.refusal == b.refusal && a.kind == b.kind && a.irq == b.irq && a.win == b.win && a.near == b.near &&
           a.unit == b.unit && a.descriptor == b.descriptor && a.byte == b.byte && a.address == b.address;
}

/* What 01 had in its place: a read, and then a write unless the read was
 * undefined, leave and answer the same. */
static void read_then_write(void)
{
    static const uint8_t statuses[] = {0x01, 0x03, 0x11, 0x13, 0x81, 0x83, 0x19, 0x1B, 0x00};
    for (unsigned i = 0; i < sizeof statuses; i++)
        for (unsigned gsr = 0; gsr < 256; gsr++) {
            start(2, 0);
            wr(0, GSR, (uint8_t)gsr);
            wr(0, SSR, statuses[i]);
            model once = m;
            model_answer a = model_access(&m, 0, READ, 0x123456), b = model_access(&once, 0, MODIFY, 0x123456);
            if (a.kind != MODEL_UNDEFINED)
                a = model_access(&m, 0, WRITE, 0x123456);
            CHECK(same_answer(a, b) && memcmp(&once, &m, sizeof m) == 0);
        }
}

static void read_modify_write(void)
{
    modify_free();
    modify_undefined();
    modify_protected();
    modify_status();
    modify_among_six();
    other_directions();
    modify_register();
    read_then_write();
}

/* ------------------------------------------------------------------ */
/* Why it was undefined (document 02, P4; ruling 16)                   */
/* ------------------------------------------------------------------ */

static const unsigned directions[] = {READ, WRITE, MODIFY};

static void ask_for(unsigned page, unsigned number)
{
    wr(0, AC0, (uint8_t)(page >> 8));
    wr(0, AC1, (uint8_t)page);
    wr(0, AC6, (uint8_t)number);
}

/* By an access of each kind and by a direct translation: nothing matches, and this
 * place is named, or none where the unit is MODEL_NONE. */
static void check_reason(unsigned page, unsigned number, unsigned unit, unsigned descriptor)
{
    for (unsigned i = 0; i < 3; i++) {
        model_answer a = access_number((uint8_t)number, directions[i], (uint32_t)page << 8 | 0xA5);
        CHECK(unit == MODEL_NONE ? is_undefined(a, 0) : is_near(a, 0, unit, descriptor));
    }
    ask_for(page, number);
    for (unsigned k = 0; k < m.count; k++) {
        model_answer a = untranslated(k);
        CHECK(unit == MODEL_NONE ? names_none(a) : names(a, unit, descriptor));
    }
}

static void disable(unsigned unit, unsigned descriptor)
{
    wr(0, DP, (uint8_t)descriptor);
    wr(unit, SSR, 0x00);
}

/* One descriptor, and each of the five answers of the match. */
static void five_answers(void)
{
    start(1, MODEL_NONE);
    CHECK(load(0, 7, 0x1200, 0xFF00, 0x3400, 0x05, 0x01, 0x0F) == 0x00);
    CHECK(is_mapped(access_number(0x05, READ, 0x12AB00), 0x34AB00, 0, 7, 0, 0));
    CHECK(is_mapped(access_number(0xF5, READ, 0x12AB00), 0x34AB00, 0, 7, 0, 0));
    check_reason(0x12AB, 0x04, 0, 7);          /* the space differs */
    check_reason(0x12AB, 0xF4, 0, 7);
    check_reason(0x12AB, 0x00, 0, 7);
    check_reason(0x13AB, 0x05, MODEL_NONE, 0); /* the range */
    check_reason(0x13AB, 0x04, MODEL_NONE, 0); /* both */
    disable(0, 7);
    check_reason(0x12AB, 0x05, MODEL_NONE, 0); /* disabled, and neither differs */
    check_reason(0x12AB, 0x04, MODEL_NONE, 0); /* disabled, and the space differs */

    /* a mask without ones: every number matches, so the space never differs; every page does */
    CHECK(load(0, 7, 0x1200, 0xFF00, 0x3400, 0x05, 0x01, 0x00) == 0x00);
    check_reason(0x13AB, 0x04, MODEL_NONE, 0);
    CHECK(load(0, 7, 0x1200, 0x0000, 0x3400, 0x05, 0x01, 0xFF) == 0x00);
    check_reason(0xFFFF, 0x04, 0, 7);
    check_reason(0x0000, 0x85, 0, 7);
}

/* The lowest unit and then the lowest descriptor, of those that are enabled. */
static void lowest_of_several(void)
{
    start(6, MODEL_NONE);
    CHECK(load(5, 0, 0x4000, 0xF000, 0x0000, 0x01, 0x01, 0xFF) == 0x00);
    CHECK(load(2, 31, 0x4000, 0xF000, 0x0000, 0x02, 0x01, 0xFF) == 0x00);
    CHECK(load(2, 30, 0x4500, 0xFF00, 0x0000, 0x03, 0x01, 0xFF) == 0x00);
    CHECK(load(0, 9, 0x4600, 0xFF00, 0x0000, 0x04, 0x01, 0xFF) == 0x00); /* its range differs below */
    CHECK(load(0, 8, 0x4600, 0xFF00, 0x0000, 0x07, 0x01, 0xFF) == 0x00); /* both differ */
    check_reason(0x4512, 0x04, 2, 30);
    check_reason(0x4412, 0x04, 2, 31);
    check_reason(0x4612, 0x03, 0, 8);
    CHECK(is_mapped(access_number(0x01, READ, 0x451200), 0x051200, 5, 0, 0, 0)); /* three have the page */
    disable(2, 30);
    check_reason(0x4512, 0x04, 2, 31);
    disable(2, 31);
    check_reason(0x4512, 0x04, 5, 0);
    disable(5, 0);
    check_reason(0x4512, 0x04, MODEL_NONE, 0);

    /* unit 0, descriptor 0 is a place like any other */
    start(2, 0);
    CHECK(load(1, 3, 0x4000, 0xF000, 0x0000, 0x01, 0x01, 0xFF) == 0x00);
    check_reason(0x4000, 0x02, 0, 0);
    check_reason(0x0000, 0xFF, 0, 0);
    disable(0, 0);
    check_reason(0x4000, 0x02, 1, 3);
    check_reason(0x0000, 0x00, MODEL_NONE, 0);
}

/* What is answered, or read otherwise, carries none. */
static void no_reason(void)
{
    start(2, 0); /* descriptor 0 of unit 0 has every page, for number 00 */
    CHECK(load(1, 5, 0x4000, 0xC000, 0x8000, 0x09, 0x01, 0xFF) == 0x00);
    for (unsigned i = 0; i < 3; i++)
        CHECK(is_mapped(access_number(0x09, directions[i], 0x4ABCDE), 0x8ABCDE, 1, 5, 0, 0));
    ask_for(0x4ABC, 0x09);
    CHECK(rd(0, DT) == 0x00);
    wr(1, SSR, 0x03);
    CHECK(is_mapped(access_number(0x09, READ, 0x4ABCDE), 0x8ABCDE, 1, 5, 1, 0));
    CHECK(is_violation(access_number(0x09, WRITE, 0x4ABCDE), 1, 5, 0));
    CHECK(is_violation(access_number(0x09, MODIFY, 0x4ABCDE), 1, 5, 0));

    /* other bytes $FF: a refused load, null operations, a register; rd looks at the place */
    CHECK(load(0, 6, 0x4000, 0xC000, 0x8000, 0x09, 0x01, 0xFF) == 0xFF);
    CHECK(rd(0, 0x3C) == 0xFF && rd(0, 0x3E) == 0xFF && rd(1, AC8) == 0xFF);
    check_reason(0x4ABC, 0x0A, 0, 0);
}

/* In states that no call leaves: clashing ones, IP without E, units that the count
 * does not have. */
static void reasons_unreachable(void)
{
    model_descriptor other = {0x0000, 0x0000, 0x0000, 0x33, 0x01, 0xFF};
    start(2, MODEL_NONE);
    m.unit[0].d[4] = other;
    m.unit[0].d[4].ssr = 0x9E; /* all but E */
    m.unit[2].d[0] = other;    /* at the count */
    check_reason(0x1234, 0x44, MODEL_NONE, 0);
    m.unit[1].d[9] = m.unit[1].d[8] = other;
    check_reason(0x1234, 0x44, 1, 8);
    m.count = 3;
    m.unit[1].d[9].ssr = m.unit[1].d[8].ssr = 0x00;
    check_reason(0x1234, 0x44, 2, 0);
}

static void why_undefined(void)
{
    five_answers();
    lowest_of_several();
    no_reason();
    reasons_unreachable();
}

static void transfer_marks(void)
{
    start(2, 0);
    CHECK(load(1, 5, 0x1234, 0xFFFF, 0x5678, 0x9A, 0x97, 0xBC) == 0x00); /* SSR: U, I, M, WP, E */
    CHECK(rd(0, LSR) == 0x06 && rd(1, LSR) == 0x06);
    accumulate(0, 0, 0, 0, 0, 0, 0);
    CHECK(rd(1, SSR) == 0x97); /* transfer in unit 1 */
    CHECK(rd(1, AC0) == 0x12 && rd(1, AC1) == 0x34 && rd(1, AC2) == 0xFF && rd(1, AC3) == 0xFF);
    CHECK(rd(1, AC4) == 0x56 && rd(1, AC5) == 0x78 && rd(1, AC6) == 0x9A && rd(1, AC7) == 0x97 && rd(1, AC8) == 0xBC);
    CHECK(rd(0, AC0) == 0x00 && rd(0, AC8) == 0x00);
    for (unsigned n = 0; n < 9; n++)
        CHECK(!m.unit[1].mark[n] && m.unit[0].mark[n]);
    CHECK(rd(0, LSR) == 0x06 && rd(1, LSR) == 0x00);
    wr(0, AC0, 0);
    wr(1, AC1, 0);
    CHECK(rd(1, LSR) == 0x00);
    wr(0, AC6, 0);
    CHECK(rd(1, LSR) == 0x04); /* GAT without GAL */
    wr(0, AC2, 0);
    wr(0, AC3, 0);
    CHECK(rd(1, LSR) == 0x04);
    wr(0, AC8, 0);
    CHECK(rd(1, LSR) == 0x06); /* AC4, AC5 and AC7 do not count */
    CHECK(!m.unit[1].mark[4] && !m.unit[1].mark[5] && !m.unit[1].mark[7]);
    /* an accumulator byte keeps all eight bits */
    wr(0, AC7, 0xFF);
    CHECK(rd(0, AC7) == 0xFF && rd(1, AC7) == 0xFF);
}

static void direct_translation(void)
{
    start(3, 0);
    CHECK(load(2, 7, 0x4000, 0xC000, 0x8000, 0x05, 0x17, 0xFF) == 0x00); /* I, M, WP, E */
    wr(0, DP, 3);
    wr(0, LSR, 0x58);
    wr(1, AC0, 0x7A);
    wr(1, AC1, 0xBC);
    wr(1, AC6, 0x05);
    CHECK(rd(0, DT) == 0x00); /* a match in unit 2, asked of unit 0 */
    CHECK(rd(2, AC4) == 0xBA && rd(2, AC5) == 0xBC && rd(2, DP) == 7 && rd(2, RDP) == 7 && rd(2, LSR) == 0x8E);
    for (unsigned k = 0; k < 2; k++) {
        CHECK(rd(k, AC4) == 0x80 && rd(k, AC5) == 0x00 && rd(k, DP) == 3 && rd(k, RDP) == 0x80);
        CHECK(rd(k, LSR) == 0x0E && m.unit[k].mark[4] && m.unit[k].mark[5]);
    }
    for (unsigned n = 0; n < 9; n++)
        CHECK(m.unit[2].mark[n] == (n != 4 && n != 5));
    CHECK(m.unit[2].d[7].ssr == 0x17); /* no SSR bit changes */
    CHECK(m.gsr == 0);                 /* and no fault */

    wr(0, AC6, 0x06); /* no match */
    CHECK(names(untranslated(2), 0, 0));
    for (unsigned k = 0; k < 3; k++)
        CHECK(rd(k, LSR) == 0x0E && rd(k, RDP) == 0x80);
    CHECK(rd(2, DP) == 7 && rd(0, DP) == 3 && rd(2, AC4) == 0xBA && m.gsr == 0);

    /* GAT clear in unit 2: unit 2's own bytes go to all when unit 2 is asked */
    CHECK(rd(2, SSR) == 0x17); /* transfer of descriptor 7: AC0, 1, 6 = 40 00 05 */
    CHECK(rd(2, LSR) == 0x08);
    CHECK(rd(2, DT) == 0x00);
    CHECK(rd(0, AC0) == 0x40 && rd(0, AC1) == 0x00 && rd(0, AC6) == 0x05);
    CHECK(rd(2, AC4) == 0x80 && rd(2, AC5) == 0x00 && rd(2, RDP) == 7);
    CHECK(rd(2, LSR) == 0x8C && rd(0, LSR) == 0x0E); /* GAT, but AC2, 3, 8 of unit 2 are not marked */
    CHECK(!m.unit[2].mark[2] && !m.unit[2].mark[7] && m.unit[2].mark[0]);

    /* GAT clear in unit 2, unit 1 asked: unit 1's bytes go to all */
    wr(0, AC6, 0x00);
    wr(0, AC0, 0x98);
    CHECK(rd(2, SSR) == 0x17);
    CHECK(rd(2, AC0) == 0x40);
    CHECK(rd(1, DT) == 0x00); /* number 00, page 9800: descriptor 0 of unit 0 */
    CHECK(rd(2, AC0) == 0x98 && rd(2, AC6) == 0x00 && rd(2, LSR) == 0x0C);
    CHECK(rd(0, AC4) == 0x98 && rd(0, AC5) == 0x00 && rd(0, DP) == 0 && rd(0, RDP) == 0 && rd(0, LSR) == 0x8E);
    CHECK(rd(1, RDP) == 0x80 && rd(1, AC4) == 0x80);

    /* after a fault, the latched address of the unit that saw it can be asked for at once */
    start(2, 0);
    CHECK(load(1, 6, 0x1000, 0xF000, 0xA000, 0x31, 0x03, 0xFF) == 0x00);
    wr(0, 0x02, 0x31);
    CHECK(is_violation(model_access(&m, 1, WRITE, 0x1ABCDE), 1, 6, 0));
    CHECK(rd(1, DT) == 0x00);
    CHECK(rd(1, AC4) == 0xAA && rd(1, AC5) == 0xBC && rd(1, LSR) == 0x86 && rd(0, AC1) == 0xBC && rd(0, LSR) == 0x06);
    CHECK(rd(0, GSR) == 0x80);
}

static void loads(void)
{
    start(3, 0);
    CHECK(load(0, 4, 0x2000, 0xF000, 0x0000, 0x01, 0x01, 0xFF) == 0x00);
    CHECK(load(1, 9, 0x3000, 0xF000, 0x0000, 0x01, 0x01, 0xFF) == 0x00);
    CHECK(load(1, 4, 0x1000, 0xF000, 0x0000, 0x01, 0x01, 0xFF) == 0x00);
    CHECK(load(2, 3, 0x0000, 0xF000, 0x0000, 0x01, 0x99, 0xFF) == 0x00); /* U, I, IP, E */
    CHECK(rd(2, LSR) == 0x07);

    /* clashes in units 1 (4 and 9) and 2 (3), none in unit 0, whose descriptor 4 is switched off first */
    wr(0, DP, 4);
    wr(0, SSR, 0x00);
    CHECK(load(2, 20, 0x0000, 0xC000, 0x7000, 0x01, 0x01, 0xFF) == 0xFF);
    CHECK(rd(0, LSR) == 0x06 && rd(0, RDP) == 0x80);
    CHECK(rd(1, LSR) == 0x96 && rd(1, RDP) == 4);
    CHECK(rd(2, LSR) == 0x97 && rd(2, RDP) == 3);
    CHECK(has(2, 20, 0, 0, 0, 0, 0, 0));
    CHECK(m.gsr == 0);

    /* into an enabled descriptor: it loses E and IP, its other fields stay */
    CHECK(load(2, 3, 0x0000, 0xC000, 0x7000, 0x01, 0x01, 0xFF) == 0xFF);
    CHECK(has(2, 3, 0x0000, 0xF000, 0x0000, 0x01, 0x90, 0xFF));
    CHECK(rd(1, LSR) == 0x96 && rd(1, RDP) == 4 && rd(2, LSR) == 0x06 && rd(2, RDP) == 0x80);

    /* AC7 bit 0 clear: nothing is compared, and IP and bits 5, 6 are dropped */
    CHECK(load(2, 20, 0x0000, 0xC000, 0x7000, 0x01, 0xFE, 0xFF) == 0x00);
    CHECK(has(2, 20, 0x0000, 0xC000, 0x7000, 0x01, 0x96, 0xFF));
    CHECK(rd(1, LSR) == 0x06 && rd(1, RDP) == 0x80);
    CHECK(rd(2, AC7) == 0xFE);
    /* it also disables an enabled one */
    CHECK(load(1, 4, 0x1000, 0xF000, 0x0000, 0x01, 0x00, 0xFF) == 0x00);
    CHECK(is_near(access_number(0x01, READ, 0x100000), 0, 0, 0));
    /* and with AC7 all ones: bits 5 and 6 alone drop */
    CHECK(load(1, 4, 0x1000, 0xF000, 0x0000, 0x01, 0xFF, 0xFF) == 0x00);
    CHECK(has(1, 4, 0x1000, 0xF000, 0x0000, 0x01, 0x9F, 0xFF));
    CHECK(rd(1, IDP) == 4);

    /* the same descriptor number in another unit is compared */
    CHECK(load(0, 4, 0x1F00, 0xFF00, 0x0000, 0x01, 0x01, 0xFF) == 0xFF);
    CHECK(rd(1, RDP) == 4 && rd(0, RDP) == 0x80);
    /* number 00 and page 0 are values like any other: unit 0's descriptor 0 */
    CHECK(load(2, 0, 0x0000, 0xFFFF, 0x0000, 0x00, 0x01, 0xFF) == 0xFF);
    CHECK(rd(0, RDP) == 0x00 && rd(0, LSR) == 0x9E); /* RW is still one from the undefined read above */
    CHECK(rd(2, LSR) == 0x0E);
}

static void load_without_gal(void)
{
    start(3, MODEL_NONE);
    CHECK(load(0, 1, 0x1000, 0xF000, 0xA000, 0x01, 0x01, 0xFF) == 0x00);
    CHECK(load(1, 2, 0x2000, 0xF000, 0xB000, 0x02, 0x01, 0xFF) == 0x00);

    /* unit 1's accumulator is its descriptor 2 again, GAL clear there only */
    accumulate(0, 0x3000, 0xF000, 0xC000, 0x03, 0x01, 0xFF);
    CHECK(rd(1, SSR) == 0x01); /* DP is 2 */
    CHECK(rd(0, LSR) == 0x06 && rd(1, LSR) == 0x00 && rd(1, AC0) == 0x20);
    wr(0, DP, 5);
    CHECK(rd(0, LOAD) == 0x00); /* by unit 0's accumulator */
    CHECK(has(0, 5, 0x3000, 0xF000, 0xC000, 0x03, 0x01, 0xFF));
    CHECK(rd(1, AC0) == 0x30 && rd(1, AC6) == 0x03 && rd(1, AC4) == 0xB0 && rd(1, AC7) == 0x01);
    CHECK(rd(1, LSR) == 0x06 && !m.unit[1].mark[4] && !m.unit[1].mark[5] && !m.unit[1].mark[7]);

    /* GAL clear in the selected unit: its own nine bytes count */
    accumulate(0, 0x4000, 0xF000, 0xD000, 0x04, 0x11, 0xFF);
    wr(0, DP, 2);
    CHECK(rd(1, SSR) == 0x01);
    wr(0, DP, 6);
    CHECK(rd(1, LOAD) == 0xFF); /* a second copy of unit 1's descriptor 2 */
    CHECK(rd(1, RDP) == 2 && rd(1, LSR) == 0x96 && rd(0, LSR) == 0x06 && rd(2, LSR) == 0x06);
    CHECK(rd(0, AC0) == 0x20 && rd(2, AC6) == 0x02 && rd(0, AC4) == 0xD0 && rd(0, AC7) == 0x11);
    wr(0, DP, 2);
    CHECK(rd(1, LOAD) == 0x00); /* onto itself: granted, by AC4, AC5, AC7 of unit 1 */
    CHECK(has(1, 2, 0x2000, 0xF000, 0xB000, 0x02, 0x01, 0xFF));

    /* the bytes are sent also when AC7 bit 0 is clear */
    accumulate(0, 0x5000, 0xF000, 0xE000, 0x05, 0x00, 0xFF);
    CHECK(rd(1, SSR) == 0x01);
    wr(0, DP, 7);
    CHECK(rd(2, LOAD) == 0x00);
    CHECK(has(2, 7, 0x5000, 0xF000, 0xE000, 0x05, 0x00, 0xFF) && rd(1, AC0) == 0x50 && rd(1, LSR) == 0x06);

    /* fresh after start: no byte is marked, a load sends zeros */
    start(2, MODEL_NONE);
    CHECK(rd(1, LOAD) == 0x00 && rd(0, LSR) == 0x06 && rd(1, LSR) == 0x06);
    CHECK(!m.unit[0].mark[4] && !m.unit[0].mark[5] && !m.unit[0].mark[7]);
    CHECK(names_none(untranslated(1)));
}

static void interrupts(void)
{
    start(2, 0);
    wr(0, IVR, 0x41);
    CHECK(load(1, 2, 0x1000, 0xF000, 0x1000, 0x05, 0x11, 0xFF) == 0x00); /* I, E */
    CHECK(load(1, 1, 0x2000, 0xF000, 0x1000, 0x05, 0x11, 0xFF) == 0x00);
    wr(0, 0x1E, 0x05);
    CHECK(is_mapped(model_access(&m, 15, WRITE, 0x1ABCDE), 0x1ABCDE, 1, 2, 0, 0));
    CHECK(m.unit[1].d[2].ssr == 0x9D); /* U, I, IP, M, E */
    CHECK(rd(1, LSR) == 0x07 && rd(0, LSR) == 0x06 && rd(1, IDP) == 2 && rd(0, IDP) == 0x80);
    CHECK(is_refused(model_acknowledge(&m, 0), 6)); /* IE is clear */
    wr(0, GSR, 0x01);
    CHECK(last_irq == 1 && rd(0, GSR) == 0x01 && last_irq == 1);

    model before = m;
    for (unsigned k = 0; k < 2; k++) {
        model_answer a = model_acknowledge(&m, k);
        CHECK(a.refusal == 0 && a.kind == MODEL_BYTE && a.byte == 0x41 && a.irq == 1);
        CHECK(a.win == 0 && a.near == 0 && a.unit == 0 && a.descriptor == 0 && a.address == 0);
        CHECK(memcmp(&before, &m, sizeof m) == 0);
    }

    CHECK(is_mapped(model_access(&m, 15, READ, 0x2ABCDE), 0x1ABCDE, 1, 1, 0, 1));
    CHECK(rd(1, IDP) == 1); /* the lowest */
    CHECK(is_near(model_access(&m, 15, READ, 0x3ABCDE), 1, 0, 0));
    wr(0, GSR, 0x00);
    CHECK(last_irq == 0);
    wr(0, GSR, 0x01);
    CHECK(last_irq == 1);

    wr(1, DP, 1);
    wr(1, SSR, 0x11); /* IP cleared */
    CHECK(last_irq == 1 && rd(1, IDP) == 2);
    wr(1, DP, 2);
    wr(1, SSR, 0x18); /* E cleared: IP can't stay */
    CHECK(last_irq == 0 && m.unit[1].d[2].ssr == 0x10 && rd(1, IDP) == 0x80);
    CHECK(rd(1, LSR) == 0x08); /* LIP gone; RW from the undefined read; its latch took GAT and GAL */
    CHECK(is_refused(model_acknowledge(&m, 1), 6));
    wr(1, DP, 1);
    wr(1, SSR, 0x09); /* IP may be written as one, also without I */
    CHECK(last_irq == 1 && m.unit[1].d[1].ssr == 0x09 && rd(1, LSR) == 0x09);
    CHECK(rd(0, DP) == 1);

    /* a refused load onto it takes IP away and with it IRQ */
    CHECK(load(0, 30, 0x5000, 0xF000, 0x1000, 0x05, 0x01, 0xFF) == 0x00 && last_irq == 1);
    CHECK(load(1, 1, 0x5000, 0xF000, 0x1000, 0x05, 0x01, 0xFF) == 0xFF && last_irq == 0);
    CHECK(m.unit[1].d[1].ssr == 0x00 && m.unit[1].d[1].lba == 0x2000 && rd(0, RDP) == 30);
    /* a load may bring IP */
    CHECK(load(1, 1, 0x2000, 0xF000, 0x1000, 0x05, 0x09, 0xFF) == 0x00 && last_irq == 1);

    /* a violation sets no IP; a direct translation sets none */
    start(1, MODEL_NONE);
    wr(0, GSR, 0x01);
    CHECK(load(0, 31, 0x0000, 0x0000, 0x0000, 0x00, 0x13, 0x00) == 0x00); /* I, WP, E: everything */
    CHECK(is_violation(model_access(&m, 9, WRITE, 0x000000), 0, 31, 0));
    CHECK(m.unit[0].d[31].ssr == 0x13 && rd(0, RDP) == 0x1F);
    CHECK(rd(0, DT) == 0x00 && last_irq == 0 && rd(0, DP) == 0x1F);
    CHECK(is_mapped(model_access(&m, 9, READ, 0xFFFFFF), 0xFFFFFF, 0, 31, 1, 1));
    CHECK(m.unit[0].d[31].ssr == 0x9B);
    CHECK(is_violation(model_access(&m, 9, WRITE, 0x000000), 0, 31, 1));
}

static void status_writes(void)
{
    start(2, 1);
    wr(0, DP, 0xE0); /* three reserved bits drop */
    CHECK(rd(0, DP) == 0x00 && rd(1, DP) == 0x00);
    wr(0, SSR, 0xFF); /* unit 0, descriptor 0 is disabled: U, I, M, WP only */
    CHECK(m.unit[0].d[0].ssr == 0x96 && m.unit[1].d[0].ssr == 0x01);
    wr(1, SSR, 0xFF); /* enabled: bits 5 and 6 drop */
    CHECK(m.unit[1].d[0].ssr == 0x9F && m.unit[0].d[0].ssr == 0x96);
    CHECK(rd(1, SSR) == 0x9F && rd(1, AC7) == 0x9F);
    wr(1, SSR, 0x60);
    CHECK(m.unit[1].d[0].ssr == 0x00);
    wr(1, SSR, 0x01);
    CHECK(m.unit[1].d[0].ssr == 0x00);
    CHECK(m.unit[1].d[0].asm_ == 0xFF);
    /* marks, L and RDP have no part in a status write */
    CHECK(rd(0, LSR) == 0x00 && rd(0, RDP) == 0x80);
}

static bool in_map(unsigned address)
{
    if (address < 0x20)
        return address % 2 == 0;
    if (address <= 0x29)
        return true;
    return address == 0x2B || address == 0x2D || address == 0x2F || address == 0x31 || address == 0x39 ||
           address == 0x3B || address == 0x3D || address == 0x3F;
}

static void map_and_null(void)
{
    unsigned nulls = 0;
    start(2, 0);
    accumulate(0, 0x1234, 0x5678, 0x9ABC, 0xDE, 0xF1, 0x23);
    wr(0, DP, 5);
    wr(0, LSR, 0xF8);
    for (unsigned address = 0; address <= 0x3F; address++) {
        model before = m;
        if (!in_map(address)) {
            nulls++;
            CHECK(rd(1, address) == 0xFF);
            CHECK(memcmp(&before, &m, sizeof m) == 0);
        }
        if (!in_map(address) || address == 0x39 || address == 0x3B || address == 0x3D || address == 0x3F) {
            wr(1, address, 0x55);
            CHECK(memcmp(&before, &m, sizeof m) == 0);
        }
    }
    CHECK(model_register(&m, 0, IVR, (uint64_t)1 << 32, 0x77).kind == MODEL_DONE); /* any other number writes */
    CHECK(m.ivr == 0x77);
    CHECK(nulls == 64 - 34); /* 16 entries, 9 bytes, DP, IVR, GSR, LSR, SSR, IDP, RDP, DT, LOAD */
    for (unsigned i = 0; i < 16; i++)
        wr(1, 2 * i, (uint8_t)(0x80 + i));
    for (unsigned i = 0; i < 16; i++) {
        CHECK(rd(0, 2 * i) == 0x80 + i && m.table[i] == 0x80 + i);
        CHECK(is_near(model_access(&m, i, READ, 0), 0, 0, 0));
        CHECK(rd(1, AC6) == 0x80 + i); /* each code takes its own entry */
    }
    for (unsigned n = 0; n < 9; n++) {
        wr(1, 0x20 + n, (uint8_t)(0x30 + n));
        CHECK(rd(0, 0x20 + n) == 0x30 + n && rd(1, 0x20 + n) == 0x30 + n);
        CHECK(m.unit[0].ac[n] == 0x30 + n && m.unit[0].mark[n]);
    }
}

/* ------------------------------------------------------------------ */

static void still(const model *before)
{
    CHECK(memcmp(before, &m, sizeof m) == 0);
}

static void refusals(void)
{
    static const uint64_t wide[] = {256, 257, (uint64_t)1 << 32, ((uint64_t)1 << 32) + 1, ((uint64_t)1 << 32) + 255,
                                    (uint64_t)1 << 63, UINT64_MAX};
    model before;

    start(2, 0);
    wr(0, GSR, 0x01);
    wr(0, SSR, 0x09); /* IRQ asserted */
    CHECK(last_irq == 1);
    before = m;

    CHECK(is_refused(model_start(&m, 0, 0), 1));
    CHECK(is_refused(model_start(&m, 7, 0), 1));
    CHECK(is_refused(model_start(&m, 7, 9), 1)); /* 1 comes before 2 */
    CHECK(is_refused(model_start(&m, 0, MODEL_NONE), 1));
    CHECK(is_refused(model_start(&m, 3, 3), 2));
    CHECK(is_refused(model_start(&m, 6, 254), 2));
    CHECK(is_refused(model_reset(&m, 2), 2));
    CHECK(is_refused(model_register(&m, 2, 0x40, READ, 0), 2)); /* 2 before 3 */
    CHECK(is_refused(model_register(&m, MODEL_NONE, 0x20, WRITE, 0), 2));
    CHECK(is_refused(model_register(&m, 1, 0x40, WRITE, 0), 3));
    CHECK(is_refused(model_access(&m, 16, READ, 0x1000000), 4)); /* 4 before 5 */
    CHECK(is_refused(model_access(&m, 0, READ, 0x1000000), 5));
    CHECK(is_refused(model_access(&m, 16, MODIFY, 0x1000000), 4));
    CHECK(is_refused(model_access(&m, 15, MODIFY, 0x1000000), 5));
    CHECK(is_refused(model_register(&m, 2, 0x40, MODIFY, 0), 2));
    CHECK(is_refused(model_register(&m, 1, 0x40, MODIFY, 0), 3));
    CHECK(is_refused(model_acknowledge(&m, 2), 2));
    CHECK(is_refused(model_acknowledge(&m, MODEL_NONE), 2));
    for (unsigned i = 0; i < sizeof wide / sizeof wide[0]; i++) {
        CHECK(is_refused(model_start(&m, wide[i], 0), 1));
        CHECK(is_refused(model_start(&m, 1, wide[i]), 2));
        CHECK(is_refused(model_reset(&m, wide[i]), 2));
        CHECK(is_refused(model_register(&m, wide[i], 0x20, WRITE, 1), 2));
        CHECK(is_refused(model_register(&m, 0, wide[i], WRITE, 1), 3));
        CHECK(is_refused(model_access(&m, wide[i], READ, 0), 4));
        CHECK(is_refused(model_access(&m, wide[i], MODIFY, 0), 4));
        CHECK(is_refused(model_acknowledge(&m, wide[i]), 2));
        if (wide[i] > 0xFFFFFF) {
            CHECK(is_refused(model_access(&m, 0, READ, wide[i]), 5));
            CHECK(is_refused(model_access(&m, 0, MODIFY, wide[i]), 5));
        }
    }
    still(&before);

    wr(0, GSR, 0x00); /* 2 before 6 */
    before = m;
    CHECK(is_refused(model_acknowledge(&m, 2), 2));
    CHECK(is_refused(model_acknowledge(&m, 1), 6));
    still(&before);

    static const unsigned bad[] = {0, 7, 256, 257, 0xFFFFFFFFu};
    for (unsigned i = 0; i < sizeof bad / sizeof bad[0]; i++) {
        memset(&m, 0xFF, sizeof m);
        m.count = bad[i];
        before = m;
        CHECK(is_refused(model_reset(&m, 9), 1));
        CHECK(is_refused(model_access(&m, 99, READ, UINT64_MAX), 1));
        CHECK(is_refused(model_access(&m, 99, MODIFY, UINT64_MAX), 1));
        CHECK(is_refused(model_access(&m, 0, MODIFY, 0), 1));
        CHECK(is_refused(model_register(&m, 99, 99, WRITE, 1), 1));
        CHECK(is_refused(model_acknowledge(&m, 99), 1));
        still(&before);
    }
    start(2, 1);
    CHECK(rd(0, 0x3E) == 0xFF); /* the highest good numbers */
    CHECK(is_mapped(model_access(&m, 15, READ, 0xFFFFFF), 0xFFFFFF, 1, 0, 0, 0));
}

/* States that no call leaves (ruling 6). */
static void unreachable(void)
{
    model_descriptor all = {0x0000, 0x0000, 0x0000, 0x00, 0x01, 0x00};

    /* clashing descriptors: the lowest unit, then the lowest descriptor */
    start(3, MODEL_NONE);
    m.unit[1].d[7] = all;
    m.unit[1].d[9] = all;
    m.unit[1].d[9].ssr = 0x03;
    m.unit[2].d[0] = all;
    m.unit[2].d[0].ssr = 0x03;
    CHECK(is_mapped(model_access(&m, 0, WRITE, 0x123456), 0x123456, 1, 7, 0, 0));
    CHECK(m.unit[1].d[7].ssr == 0x85 && m.unit[1].d[9].ssr == 0x03 && m.unit[2].d[0].ssr == 0x03);
    m.unit[0].d[31] = all;
    m.unit[0].d[31].ssr = 0x03;
    CHECK(is_violation(model_access(&m, 0, WRITE, 0x123456), 0, 31, 0));
    CHECK(rd(0, LSR) == 0xC0 && rd(1, LSR) == 0x00 && rd(1, RDP) == 0x80);
    CHECK(is_violation(model_access(&m, 0, MODIFY, 0x123456), 0, 31, 0));
    CHECK(m.unit[0].d[31].ssr == 0x83 && m.unit[1].d[7].ssr == 0x85 && m.unit[1].d[9].ssr == 0x03);
    wr(0, DP, 3);
    CHECK(rd(2, DT) == 0x00);
    CHECK(rd(0, DP) == 31 && rd(1, DP) == 3 && rd(2, DP) == 3 && rd(2, RDP) == 0x80);
    accumulate(0, 0, 0, 0, 0, 1, 0);
    CHECK(rd(1, LOAD) == 0xFF);
    CHECK(rd(0, RDP) == 31 && rd(1, RDP) == 7 && rd(2, RDP) == 0);

    /* marked bytes that differ: by the selected unit's accumulator, nothing is sent */
    start(2, 0);
    accumulate(0, 0x1000, 0xFFFF, 0x2000, 0x09, 0x01, 0xFF);
    m.unit[1].ac[0] = 0x30;
    m.unit[1].ac[6] = 0x0A;
    wr(0, DP, 8);
    CHECK(rd(1, LOAD) == 0x00);
    CHECK(has(1, 8, 0x3000, 0xFFFF, 0x2000, 0x0A, 0x01, 0xFF));
    CHECK(rd(0, AC0) == 0x10 && rd(1, AC0) == 0x30 && rd(0, LSR) == 0x06);
    CHECK(names(untranslated(0), 0, 0)); /* unit 0 asks for 1000, 09 */
    CHECK(rd(1, DT) == 0x00);
    CHECK(rd(1, AC4) == 0x20 && rd(1, RDP) == 8 && rd(0, AC0) == 0x10);

    /* bits that no register has, RDP's number under NVR, IP where E is zero: read as zero */
    start(2, MODEL_NONE);
    m.unit[0].dp = 0xFF;
    m.unit[0].rdp = 0x9F;
    m.unit[1].rdp = 0x7E;
    m.unit[0].lsr = 0xFF;
    m.gsr = 0xFF;
    m.unit[1].d[31].ssr = 0x6E; /* IP, but no E */
    CHECK(is_refused(model_acknowledge(&m, 0), 6));
    CHECK(m.unit[0].dp == 0xFF);
    CHECK(rd(0, DP) == 0x1F && last_irq == 0);
    CHECK(rd(0, RDP) == 0x80 && rd(1, RDP) == 0x1E && rd(0, LSR) == 0xF8 && rd(0, GSR) == 0xC1);
    CHECK(rd(1, IDP) == 0x80 && m.unit[1].d[31].ssr == 0x06);
}

/* ------------------------------------------------------------------ */

static uint32_t seed = 20451;

static uint32_t rnd(void)
{
    seed = seed * 1664525u + 1013904223u;
    return seed >> 8;
}

static unsigned sparse(void)
{
    return rnd() & rnd() & 0xFFFF;
}

/* Does some page (or number) agree with both?  By trying them all. */
static bool some_value(unsigned v1, unsigned m1, unsigned v2, unsigned m2, unsigned values)
{
    for (unsigned v = 0; v < values; v++)
        if (((v ^ v1) & m1) == 0 && ((v ^ v2) & m2) == 0)
            return true;
    return false;
}

static void clash_by_trying(void)
{
    unsigned granted = 0;
    for (unsigned i = 0; i < 400; i++) {
        unsigned lba1 = sparse(), lam1 = sparse(), asn1 = sparse() & 0xFF, asm1 = sparse() & 0x3F;
        unsigned lba2 = sparse(), lam2 = sparse(), asn2 = sparse() & 0xFF, asm2 = sparse() & 0x3F;
        bool both = some_value(lba1, lam1, lba2, lam2, 65536) && some_value(asn1, asm1, asn2, asm2, 256);
        start(2, MODEL_NONE);
        CHECK(load(0, i % 32, lba1, lam1, 0, asn1, 1, asm1) == 0x00);
        CHECK(load(1, i % 32, lba2, lam2, 0, asn2, 1, asm2) == (both ? 0xFF : 0x00));
        granted += !both;
    }
    CHECK(granted > 50 && granted < 350);
}

/* Demand 3 and the one written form, after random calls. */
static bool good_state(void)
{
    for (unsigned k = 0; k < 6; k++) {
        const model_unit *u = &m.unit[k];
        if (k >= m.count && !all_zero(u, sizeof *u))
            return false;
        if (u->dp > 31 || (u->rdp & 0x60) || ((u->rdp & 0x80) && u->rdp != 0x80) || (u->lsr & 0x07))
            return false;
        for (unsigned e = 0; e < 32; e++)
            if ((u->d[e].ssr & 0x60) || (u->d[e].ssr & 0x09) == 0x08)
                return false;
    }
    for (unsigned i = 0; i < 192; i++)
        for (unsigned j = 0; j < i; j++) {
            const model_descriptor *a = &m.unit[i / 32].d[i % 32], *b = &m.unit[j / 32].d[j % 32];
            if ((a->ssr & 1) == 0 || (b->ssr & 1) == 0)
                continue;
            if (((a->lba ^ b->lba) & a->lam & b->lam) == 0 && ((a->asn ^ b->asn) & a->asm_ & b->asm_) == 0)
                return false;
        }
    return (m.gsr & 0x3E) == 0;
}

static void random_calls(void)
{
    unsigned kinds[6] = {0}, modified[6] = {0}, loads_granted = 0, loads_refused = 0;
    start(3, 0);
    for (unsigned i = 0; i < 60000; i++) {
        unsigned more = rnd() % 16 == 0, unit = rnd() % (m.count + more), what = rnd() % 16;
        model_answer a;
        if (what == 0 && rnd() % 300 == 0) {
            unsigned units = 1 + rnd() % 6;
            a = model_start(&m, units, rnd() % 7);
        } else if (what < 5) {
            unsigned code = rnd() % 16, direction = rnd() % 4;
            a = model_access(&m, code, direction, rnd() & 0xFFFFFF);
            modified[a.kind] += direction == MODIFY;
        } else if (what == 5)
            a = model_acknowledge(&m, unit);
        else if (what < 8) {
            a = model_register(&m, unit, LOAD, READ, 0);
            loads_granted += a.kind == MODEL_BYTE && a.byte == 0x00;
            loads_refused += a.kind == MODEL_BYTE && a.byte == 0xFF;
        } else {
            uint8_t value = (uint8_t)(rnd() % 4 == 0 ? rnd() : sparse());
            if (rnd() % 4 == 0)
                value |= 1;
            unsigned above = rnd() % 4 != 0 ? 0x20 : 0, address = above + rnd() % 0x20;
            a = model_register(&m, unit, address, rnd() % 4, value);
        }
        CHECK(a.kind < 6 && a.near <= (a.kind == MODEL_UNDEFINED || (a.kind == MODEL_BYTE && a.byte == 0xFF)));
        kinds[a.kind]++;
        CHECK(good_state());
    }
    for (unsigned k = 0; k < 6; k++)
        CHECK(kinds[k] > 100);
    CHECK(loads_granted > 100 && loads_refused > 100);
    CHECK(modified[MODEL_MAPPED] > 100 && modified[MODEL_VIOLATION] > 100 && modified[MODEL_UNDEFINED] > 100);
}

/* ------------------------------------------------------------------ */
/* Document 02, P2: images                                             */
/* ------------------------------------------------------------------ */

static uint8_t image[3072];

static unsigned saved(size_t bytes)
{
    model_answer a = model_save(&m, image, bytes);
    CHECK(a.refusal != 0 || (a.kind == MODEL_DONE && a.byte == 0 && a.address == 0));
    last_irq = a.irq;
    return a.refusal;
}

static unsigned restored(size_t bytes)
{
    model_answer a = model_restore(&m, image, bytes);
    CHECK(a.refusal != 0 || (a.kind == MODEL_DONE && a.byte == 0 && a.address == 0));
    last_irq = a.irq;
    return a.refusal;
}

/* One unit after a start: IVR $0F, RDP $80, descriptor 0 with ASM $FF and E.
 * The words 0001, 0F00, 0080, 0001 and FF00 add up to 10E82, the check is
 * 10000 less 0E82. */
static void image_of_a_start(void)
{
    static const unsigned places[][2] = {{1, 0x01}, {30, 0x0F}, {33, 0x80}, {41, 0x01}, {42, 0xFF}, {510, 0xF1},
                                         {511, 0x7E}};
    uint8_t due[512] = {0};
    for (unsigned i = 0; i < sizeof places / sizeof places[0]; i++)
        due[places[i][0]] = (uint8_t)places[i][1];
    start(1, 0);
    CHECK(saved(512) == 0 && last_irq == 0);
    CHECK(memcmp(image, due, 512) == 0);
    start(3, 2);
    CHECK(restored(512) == 0);
    CHECK(m.count == 1 && m.ivr == 0x0F && m.unit[0].rdp == 0x80 && m.unit[0].d[0].ssr == 0x01);
    CHECK(is_mapped(model_access(&m, 7, READ, 0xABCDEF), 0xABCDEF, 0, 0, 0, 0));
}

/* Byte by byte, of the second of two units: the nine marks have their high byte
 * first, words theirs too, and the descriptors begin at 34. */
static void image_of_two(void)
{
    const uint8_t *b = image + 512;
    start(2, MODEL_NONE);
    wr(0, 0x1E, 0x5F); /* table entry 15 */
    wr(0, IVR, 0x40);
    CHECK(load(1, 31, 0x1234, 0xFFF0, 0xABCD, 0x02, 0x99, 0xFE) == 0x00);
    wr(0, GSR, 0x01);
    CHECK(rd(1, SSR) == 0x99); /* its marks are cleared */
    wr(0, AC1, 0x77);
    wr(0, AC8, 0x88);
    CHECK(saved(1024) == 0 && last_irq == 1);
    CHECK(b[0] == 1 && b[1] == 2 && b[2] == 0 && b[17] == 0x5F);
    CHECK(b[18] == 0x12 && b[19] == 0x77 && b[24] == 0x02 && b[25] == 0x99 && b[26] == 0x88);
    CHECK(b[27] == 0x01 && b[28] == 0x02 && image[27] == 0x01 && image[28] == 0xFF);
    CHECK(b[29] == 31 && b[30] == 0x40 && b[31] == 0x01 && b[32] == 0x00 && b[33] == 0x80);
    CHECK(b[313] == 0x12 && b[314] == 0x34 && b[315] == 0xFF && b[316] == 0xF0 && b[317] == 0xAB && b[318] == 0xCD);
    CHECK(b[319] == 0x02 && b[320] == 0x99 && b[321] == 0xFE && b[322] == 0);
    CHECK(image[0] == 0 && image[1] == 2 && image[17] == 0x5F && image[30] == 0x40 && image[320] == 0);
    start(1, MODEL_NONE);
    CHECK(restored(1024) == 0 && last_irq == 1);
    CHECK(m.count == 2 && m.unit[1].mark[8] && !m.unit[1].mark[0]);
    CHECK(m.unit[1].d[31].lba == 0x1234 && m.unit[1].d[31].pba == 0xABCD);
}

/* Ruling 14: a wrong count in block 0 and a bad check in block 1 is 10; the other
 * way about it is 9, and so it is with both in one block. */
static void image_orders(void)
{
    start(2, 0);
    CHECK(saved(512) == 8 && saved(0) == 8 && saved(1023) == 8 && saved(3072) == 8 && saved(1024) == 0);
    CHECK(restored(0) == 8 && restored(511) == 8 && restored(1000) == 8 && restored(3584) == 8);
    CHECK(restored(512) == 10); /* its count is 2 */
    image[1] = 3;
    model_mend(image);
    image[512 + 100] = 1;
    CHECK(restored(1024) == 10);
    image[510] ^= 1;
    CHECK(restored(1024) == 9);
    image[1] = 2;
    model_mend(image);
    CHECK(restored(1024) == 9);
    image[512 + 100] = 0;
    CHECK(restored(1024) == 0);
    image[512 + IMAGE_IVR] = 0x10; /* unlike block 0's, and there a bad check comes first */
    model_mend(image + 512);
    CHECK(restored(1024) == 10);
    image[511] ^= 1;
    CHECK(restored(1024) == 9);
    m.count = 0;
    CHECK(saved(0) == 1 && saved(512) == 1);
    m.count = 7;
    CHECK(saved(3584) == 1);
}

/* States that no call leaves are not saved: two that clash, marked bytes that
 * differ.  Bits that no register has read as zero, and are. */
static void image_of_no_history(void)
{
    start(2, 0);
    m.unit[1].d[5].ssr = 0x01;
    m.unit[1].d[5].lba = 0x8000; /* no mask: every page and number */
    CHECK(saved(1024) == 10);
    m.unit[1].d[5].ssr = 0x68;
    CHECK(saved(1024) == 0 && image[512 + 34 + 9 * 5 + 7] == 0);
    m.unit[0].mark[4] = m.unit[1].mark[4] = true;
    CHECK(saved(1024) == 0);
    m.unit[1].ac[4] = 1;
    CHECK(saved(1024) == 10);
    m.unit[0].mark[4] = false;
    CHECK(saved(1024) == 0 && image[28] == 0 && image[512 + 28] == 0x10);
}

int main(void)
{
    twelve_cases();
    bench_example();
    start_and_reset();
    violation();
    undefined();
    read_modify_write();
    why_undefined();
    transfer_marks();
    direct_translation();
    loads();
    load_without_gal();
    interrupts();
    status_writes();
    map_and_null();
    refusals();
    unreachable();
    clash_by_trying();
    image_of_a_start();
    image_of_two();
    image_orders();
    image_of_no_history();
    random_calls();
    printf("ok\n");
    return 0;
}
