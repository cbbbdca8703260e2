#include <stddef.h>
#include <stdio.h>
#include "cleftromi.h"
#include "reasons.h"

/* ------------------------------------------------------------------ */
/* What is asked                                                       */
/* ------------------------------------------------------------------ */

enum { READS, WRITES, MODIFIES, TRANSLATIONS };

static const char *const call_names[REASON_CALLS] = {"reads", "writes", "read-modify-writes", "direct translations"};

typedef struct {
    unsigned call, page, number;
} question;

static unsigned cycle_of(uint64_t direction)
{
    return direction == CLEFTROMI_READ ? READS : direction == CLEFTROMI_MODIFY ? MODIFIES : WRITES;
}

/* False for a call that asks for no page.  A direct translation goes by the
 * selected unit's accumulator. */
static bool asks(const model *m, call c, question *q)
{
    if (c.name == CALL_ACCESS) {
        q->call = cycle_of(c.number[1]);
        q->page = (unsigned)(c.number[2] >> 8);
        q->number = m->table[c.number[0]];
        return true;
    }
    if (c.name == CALL_REGISTER && c.number[1] == CLEFTROMI_TRANSLATE && c.number[2] == CLEFTROMI_READ) {
        const uint8_t *ac = m->unit[c.number[0]].ac;
        q->call = TRANSLATIONS;
        q->page = (unsigned)ac[0] << 8 | ac[1];
        q->number = ac[6];
        return true;
    }
    return false;
}

static bool is_enabled(const model_descriptor *d)
{
    return (d->ssr & CLEFTROMI_SSR_E) != 0;
}

static bool has_page(const model_descriptor *d, question q)
{
    return ((q.page ^ d->lba) & d->lam) == 0;
}

static bool has_number(const model_descriptor *d, question q)
{
    return ((q.number ^ d->asn) & d->asm_) == 0;
}

/* But for E. */
static bool space_alone(const model_descriptor *d, question q)
{
    return has_page(d, q) && !has_number(d, q);
}

bool reasons_near(const model *m, call c, unsigned unit)
{
    question q;
    if (!asks(m, c, &q))
        return false;
    for (unsigned i = 32 * unit; i < 32 * m->count; i++)
        if (is_enabled(&m->unit[i / 32].d[i % 32]) && space_alone(&m->unit[i / 32].d[i % 32], q))
            return true;
    return false;
}

/* ------------------------------------------------------------------ */
/* What a search comes upon                                            */
/* ------------------------------------------------------------------ */

enum {
    NONE,
    NAMED,
    FIRST,
    LATER_UNIT,
    SEVERAL,
    OTHER_ORDER,
    DISABLED_BELOW,
    DISABLED_ALONE,
    BOTH_BELOW,
    RANGE_BELOW,
    ANSWERED_ABOVE,
    VIOLATED_ABOVE
};

/* Those that go on speak of the one that is named. */
static const char *const case_names[REASON_CASES] = {
    "that find no match, and none whose space alone differs", "that find one whose space alone differs",
    "unit 0, descriptor 0", "of a unit above 0", "the lowest of several",
    "and of these one of a higher unit has a lower number", "with a disabled one below",
    "and where all such are disabled", "with one below where both differ", "with one below where the range differs",
    "that are answered by one above such a one", "that are violations above such a one",
};

/* What stands below the first match, or in all units; "disabled", "both" and
 * "range" what stands below the lowest whose space alone differs. */
typedef struct {
    const model_descriptor *match;
    unsigned nears, lowest;
    bool other_order, disabled, both, range;
} walk;

static void look_at(walk *w, const model_descriptor *d, question q, unsigned place)
{
    if (is_enabled(d) && space_alone(d, q)) {
        if (w->nears++ == 0)
            w->lowest = place;
        w->other_order |= place % 32 < w->lowest % 32;
    } else if (w->nears == 0) {
        w->disabled |= !is_enabled(d) && space_alone(d, q);
        w->both |= is_enabled(d) && !has_page(d, q) && !has_number(d, q);
        w->range |= is_enabled(d) && !has_page(d, q) && has_number(d, q);
    }
}

static walk walked(const model *m, question q)
{
    walk w = {NULL, 0, 0, false, false, false, false};
    for (unsigned i = 0; i < 32 * m->count && w.match == NULL; i++) {
        const model_descriptor *d = &m->unit[i / 32].d[i % 32];
        if (is_enabled(d) && has_page(d, q) && has_number(d, q))
            w.match = d;
        else
            look_at(&w, d, q, i);
    }
    return w;
}

static bool can_violate(unsigned call)
{
    return call == WRITES || call == MODIFIES;
}

void reasons_note(reasons *r, const model *m, call c)
{
    question q;
    if (!asks(m, c, &q))
        return;
    walk w = walked(m, q);
    unsigned long *seen = r->seen[q.call];
    if (w.match != NULL) {
        bool violated = can_violate(q.call) && (w.match->ssr & CLEFTROMI_SSR_WP) != 0;
        seen[violated ? VIOLATED_ABOVE : ANSWERED_ABOVE] += w.nears > 0;
    } else if (w.nears == 0) {
        seen[NONE]++;
        seen[DISABLED_ALONE] += w.disabled;
    } else {
        seen[NAMED]++;
        seen[FIRST] += w.lowest == 0;
        seen[LATER_UNIT] += w.lowest >= 32;
        seen[SEVERAL] += w.nears > 1;
        seen[OTHER_ORDER] += w.other_order;
        seen[DISABLED_BELOW] += w.disabled;
        seen[BOTH_BELOW] += w.both;
        seen[RANGE_BELOW] += w.range;
    }
}

const char *reasons_report(const reasons *r, const char *where, unsigned long least)
{
    const char *missing = NULL;
    for (unsigned call = 0; call < REASON_CALLS; call++) {
        printf("%s%s: ", call_names[call], where);
        for (unsigned i = 0; i < REASON_CASES; i++) {
            if (i == VIOLATED_ABOVE && !can_violate(call))
                continue;
            printf("%s%lu %s", i > 0 ? ", " : "", r->seen[call][i], case_names[i]);
            if (r->seen[call][i] < least)
                missing = case_names[i];
        }
        printf("\n");
    }
    return missing;
}
