/* demands SEED CALLS: the sentences of the demands, checked on the library.
 * Random histories: a start, reset or restore that is granted, then calls of all
 * seven functions.  After each call the block is read here, by docs/LAYOUTS.md:
 *
 *   1  no two enabled descriptors in any units match the same page and number;
 *   2  a load that asks to be enabled is refused exactly when some page and
 *      number exist that it and another enabled descriptor match;
 *   3  a load into a disabled descriptor, granted or refused, changes no
 *      physical address and no violation that an access had just before it;
 *   4  bytes that are marked in two units are equal, IP stands only beside E,
 *      and no bit is set that no register has;
 *   5  a refusal is given exactly when the header's table says, is nothing but
 *      its number, and leaves every byte;
 *   6  bytes past 4,096 are the host's own: between any two calls here it writes
 *      them, and lends more or fewer of them, and all the rest holds;
 *   7  after a fault, a load and a direct translation L7 to L4, RDP and RW of
 *      every unit are those of this event (docs/PROVED.md, "What an event
 *      leaves"), which is worked out from the block before the call;
 *   8  an access sets in the status of the segment that answers it what the table
 *      "sets" below says for its kind of cycle; every other bit of it and every
 *      other descriptor stay;
 *   9  a fault is counted once: F is set then, DF exactly if DF or F was set
 *      before, and IE stays; an access that is mapped leaves all three;
 *  10  RW after a fault is 1 for an undefined read or read-modify-write, and 0
 *      for an undefined write and for every violation;
 *  11  a read-modify-write that is not undefined answers and leaves what a read
 *      and then a write of the same address do, the answer being the write's;
 *      an undefined one what the read does;
 *  12  a save of a reached state with the right length is granted.  A save that is
 *      granted writes the state as document 02 lays it down, and restoring that
 *      into any block gives the same 4,096 bytes;
 *  13  a restore that is granted leaves the state that the image has, and a save
 *      then gives the image's bytes;
 *  14  a save is refused with 10 exactly when restoring the image that would be
 *      written is;
 *  15  an access is undefined, and a direct translation finds nothing, exactly when
 *      no enabled descriptor matches.  Such an answer names the lowest unit, and of
 *      that unit the lowest descriptor, that is enabled, has a range match and no
 *      space match, and it names none exactly when there is none (document 02, P4);
 *  16  no other answer names a descriptor so, and none has a field beside those of
 *      its kind, with IRQ as the block has it.
 *
 * 2, 3 and 5 to 16 are said of every block, and so is 4 but for the marks: they
 * are checked on noise too, random bytes in which descriptors clash.
 *
 * Nothing is compared with the model.  Only mix, which plans the calls, and the
 * counts of what was seen see the block as a state of the model. */
#include <inttypes.h>
#include <stdio.h>
#include <stdlib.h>
#include <string.h>
#include "block_image.h"
#include "cleftromi.h"
#include "layout.h"
#include "mix.h"
#include "pair.h"
#include "reasons.h"

#define BLOCK 4096u
#define ROOM 4800u
#define GUARD 32u
#define UNITS 6u
#define HISTORY 2500u /* calls: enough to fill a unit or two */
#define NOISES 120u   /* blocks of noise after each history */
#define IMAGES 40u    /* of as many plans one is a save, and one a restore */

/* The block stands somewhere in the room: "before" is the room as it was. */
static uint8_t room[ROOM], before[ROOM];
static size_t at, bytes;

/* So does the image. */
static uint8_t image_room[ROOM], image_before[ROOM];
static size_t image_at, image_bytes;

static mix calls;
static call now;               /* the call that is being checked, */
static const char *image_call; /* or "save" or "restore" where it is one of these */
static uint64_t seed;
static unsigned long made, histories;
static bool reached; /* from a granted start, reset or restore; else the block is noise */
static bool clashed; /* before the call that is being checked two enabled descriptors clashed */

/* ------------------------------------------------------------------ */
/* What has been seen                                                  */
/* ------------------------------------------------------------------ */

enum {
    SEEN_REFUSALS = 0, /* 1 to 7 at their own number */
    SEEN_UNITS = 7,    /* calls with 1 to 6 units at 8 to 13 */
    SEEN_LOAD = 14,
    SEEN_CLASH,
    SEEN_CLASH_ELSEWHERE,
    SEEN_UNASKED,
    SEEN_RELOAD,
    SEEN_STALE,
    SEEN_HIT_LOAD,
    SEEN_HIT_CLASH,
    SEEN_KEPT_MAPPED,
    SEEN_KEPT_VIOLATION,
    SEEN_KEPT_MODIFY,
    SEEN_KEPT_MODIFY_VIOLATION,
    SEEN_GIVEN,
    SEEN_MARKED,
    SEEN_MARKED_ONCE,
    SEEN_PENDING,
    SEEN_PAIRS,
    SEEN_TRIED,
    SEEN_MORE,
    SEEN_FEWER,
    SEEN_ALL,
    SEEN_TWO_CLASH,
    SEEN_TWO_VIOLATED,
    SEEN_TWO_TRANSLATED,
    SEEN_SAVED,
    SEEN_SAVED_NOISE,
    SEEN_NOT_SAVED,
    SEEN_RESTORED,
    SEEN_IMAGE_REFUSALS, /* 8 to 10 */
    SEEN_END = SEEN_IMAGE_REFUSALS + 3
};

static const char *const seen_names[SEEN_END] = {
    0, "refusals 1", "refusals 2", "refusals 3", "refusals 4", "refusals 5", "refusals 6", "refusals 7",
    "calls with 1 unit", "with 2", "with 3", "with 4", "with 5", "with 6",
    "loads granted", "loads refused", "loads refused by other units alone", "loads that ask for nothing",
    "loads into enabled descriptors", "loads while another unit's accumulator differs",
    "granted loads into disabled descriptors with accesses that hit",
    "refused loads into disabled descriptors with accesses that hit",
    "accesses that stayed mapped", "accesses that stayed violations", "read-modify-writes that stayed mapped",
    "read-modify-writes that stayed violations", "undefined accesses that got an answer",
    "bytes marked in two units", "bytes marked in one of two units", "descriptors with IP",
    "pairs compared", "pairs tried with every page and number",
    "calls lent more bytes than the call before", "calls lent fewer", "calls lent the whole room",
    "units with two descriptors or more that a refused load clashes with",
    "violations where two descriptors match or more", "direct translations where two match or more",
    "reached states saved", "states in noise saved", "states in noise not to be saved", "images restored",
    "refusals 8", "refusals 9", "refusals 10",
};

static unsigned long seen[SEEN_END];

/* What is seen of loads, from SEEN_LOAD to SEEN_GIVEN, is counted apart for
 * reached blocks and for noise in which descriptors clash. */
static unsigned long seen_clashed[SEEN_GIVEN + 1];

static void note(unsigned what, bool happened)
{
    if (reached)
        seen[what] += happened;
    else if (clashed)
        seen_clashed[what] += happened;
}

/* The kinds of cycle, and the answers of an access. */
enum { READ, WRITE, MODIFY, CYCLES };
enum { MAPPED, VIOLATED, UNDEFINED, ANSWERS };

static const char *const cycle_names[CYCLES] = {"reads", "writes", "read-modify-writes"};
static const char *const answer_names[ANSWERS] = {"mapped", "violations", "undefined"};

/* The rows of the table of events; faults by the kind of cycle. */
enum {
    WRITE_VIOLATION,
    MODIFY_VIOLATION,
    UNDEFINED_READ,
    UNDEFINED_WRITE,
    UNDEFINED_MODIFY,
    LOAD_REFUSED,
    LOAD_GRANTED,
    TRANSLATED,
    NOT_TRANSLATED,
    EVENTS
};

static const char *const event_names[EVENTS] = {
    "violations of writes", "violations of read-modify-writes", "undefined reads", "undefined writes",
    "undefined read-modify-writes", "refused loads", "granted loads", "direct translations",
    "direct translations without a match",
};

/* Of each how many, and how many units without a descriptor of the event had
 * something else before: what a stale neighbour would still have. */
enum { HAPPENED, OTHER_L, OTHER_RDP, OTHER_RW, NOTED };

static const char *const noted_names[NOTED] = {"", "units with another L before", "with another RDP",
                                               "with RW to be changed, or to be kept at 1"};

static unsigned long events[2][EVENTS][NOTED]; /* in noise, and in reached blocks */

/* Of each kind of cycle and answer how many, and what stood before: without
 * these a bit that is set too much, or not set, would not show. */
enum { ACCESSES, F_WAS_SET, NOTHING_WAS_SET, U_WAS_CLEAR, M_WAS_CLEAR, INTERRUPTS, STOOD };

static const char *const stood_names[STOOD] = {
    "accesses", "with F set before", "with neither F nor DF set", "with U clear", "with M clear",
    "with I set and IP clear",
};

static unsigned long accesses[2][CYCLES][ANSWERS][STOOD];

static unsigned long refused_modify[8]; /* read-modify-writes, by the refusal */

static reasons why[2]; /* in noise, and in reached blocks */
static unsigned long beyond; /* undefined in noise, where only units above the count have one to name */

/* Prints a count.  One that is zero is missing, the last of them is kept. */
static void print_count(unsigned long count, const char *name, const char *after, const char **missing)
{
    printf("%lu %s%s", count, name, after);
    if (count == 0)
        *missing = name;
}

static void report_events(const char **missing)
{
    for (unsigned where = 0; where < 2; where++)
        for (unsigned row = 0; row < EVENTS; row++) {
            const unsigned long *noted = events[where][row];
            print_count(noted[HAPPENED], event_names[row], where ? " in reached blocks: " : " in noise: ", missing);
            for (unsigned i = HAPPENED + 1; i < NOTED; i++)
                print_count(noted[i], noted_names[i], i + 1 < NOTED ? ", " : "\n", missing);
        }
}

/* A read is never a violation, and an undefined access has no segment. */
static void report_accesses(const char **missing)
{
    for (unsigned where = 0; where < 2; where++)
        for (unsigned row = 0; row < CYCLES * ANSWERS; row++) {
            unsigned cycle = row / ANSWERS, answer = row % ANSWERS;
            unsigned end = answer == UNDEFINED ? U_WAS_CLEAR : STOOD;
            if (cycle == READ && answer == VIOLATED)
                continue;
            printf("in %s, %s, %s: ", where ? "reached blocks" : "noise", cycle_names[cycle], answer_names[answer]);
            for (unsigned i = 0; i < end; i++)
                print_count(accesses[where][cycle][answer][i], stood_names[i], i + 1 < end ? ", " : "\n", missing);
        }
}

static void report_refused(const char **missing)
{
    static const char *const names[8] = {0, "with 1", 0, 0, "with 4", "with 5", 0, "with 7"};
    printf("read-modify-writes refused: ");
    for (unsigned i = 0; i < 8; i++)
        if (names[i] != NULL)
            print_count(refused_modify[i], names[i], i < 7 ? ", " : "\n", missing);
}

static void report_reasons(const char **missing)
{
    for (unsigned where = 0; where < 2; where++) {
        const char *seldom = reasons_report(&why[where], where ? " in reached blocks" : " in noise", 1);
        if (seldom != NULL)
            *missing = seldom;
    }
    print_count(beyond, "undefined where units above the count alone have one to name", "\n", missing);
}

static int report(void)
{
    const char *missing = NULL;
    report_reasons(&missing);
    report_events(&missing);
    report_accesses(&missing);
    report_refused(&missing);
    printf("in noise with clashes: ");
    for (unsigned i = SEEN_LOAD; i <= SEEN_GIVEN; i++)
        print_count(seen_clashed[i], seen_names[i], i < SEEN_GIVEN ? ", " : "\n", &missing);
    for (unsigned i = 1; i < SEEN_END; i++)
        print_count(seen[i], seen_names[i], i + 1 < SEEN_END ? ", " : "\n", &missing);
    printf("%lu calls in %lu histories", made, histories);
    if (missing == NULL)
        printf(", every sentence held\n");
    else
        printf(", but these were never seen: %s\n", missing);
    return missing == NULL ? 0 : 1;
}

static void must(bool good, const char *sentence)
{
    if (good)
        return;
    printf("seed %" PRIu64 ", call %lu, %zu bytes lent at %zu: %s: ", seed, made, bytes, at, sentence);
    if (image_call == NULL)
        call_print(now);
    else
        printf("%s: %zu bytes of image lent at %zu\n", image_call, image_bytes, image_at);
    exit(1);
}

/* ------------------------------------------------------------------ */
/* Reading a block (docs/LAYOUTS.md)                                   */
/* ------------------------------------------------------------------ */

#define AC7 7u
#define MARKS 9u
#define DP 11u
#define LSR 12u
#define RDP 13u
#define SSR 7u

/* For what is planned and counted. */
static const model *as_state(const uint8_t *block)
{
    static model m;
    layout_decode(block, &m);
    return &m;
}

static const uint8_t *unit_at(const uint8_t *block, unsigned m)
{
    return block + 32 + 16 * m;
}

/* "place" is 32 m + n for descriptor n of unit m. */
static const uint8_t *descriptor_at(const uint8_t *block, unsigned place)
{
    return block + 128 + 9 * place;
}

static unsigned places(const uint8_t *block)
{
    return 32u * block[0];
}

static bool enabled(const uint8_t *block, unsigned place)
{
    return (descriptor_at(block, place)[SSR] & CLEFTROMI_SSR_E) != 0;
}

static bool marked(const uint8_t *unit, unsigned n)
{
    return ((unit[MARKS] | unit[MARKS + 1] << 8) >> n & 1) != 0;
}

/* IP reads as zero where E is zero: noise may have it there. */
static bool irq(const uint8_t *block)
{
    const unsigned both = CLEFTROMI_SSR_E | CLEFTROMI_SSR_IP;
    if ((block[1] & CLEFTROMI_GSR_IE) == 0)
        return false;
    for (unsigned i = 0; i < places(block); i++)
        if ((descriptor_at(block, i)[SSR] & both) == both)
            return true;
    return false;
}

/* What a descriptor says of pages and of numbers. */
typedef struct {
    unsigned page, page_mask, number, number_mask;
} segment;

static segment segment_at(const uint8_t *block, unsigned place)
{
    const uint8_t *d = descriptor_at(block, place);
    segment s = {d[0] | (unsigned)d[1] << 8, d[2] | (unsigned)d[3] << 8, d[6], d[8]};
    return s;
}

static const segment everything = {0, 0, 0, 0};

/* The accumulator has the high byte of a word first. */
static segment segment_wanted(const uint8_t *unit)
{
    segment s = {(unsigned)unit[0] << 8 | unit[1], (unsigned)unit[2] << 8 | unit[3], unit[6], unit[8]};
    return s;
}

/* ------------------------------------------------------------------ */
/* Two segments                                                        */
/* ------------------------------------------------------------------ */

static bool agrees(unsigned tried, unsigned value, unsigned mask)
{
    return ((tried ^ value) & mask) == 0;
}

static bool matches(segment s, unsigned page, unsigned number)
{
    return agrees(page, s.page, s.page_mask) && agrees(number, s.number, s.number_mask);
}

/* Does some value agree with both?  Bit by bit: only where both masks have a
 * one can the two ask for different things. */
static bool meet(unsigned value1, unsigned mask1, unsigned value2, unsigned mask2, unsigned width)
{
    for (unsigned bit = 0; bit < width; bit++)
        if ((mask1 >> bit & 1) && (mask2 >> bit & 1) && (value1 >> bit & 1) != (value2 >> bit & 1))
            return false;
    return true;
}

/* The same by trying every value. */
static bool meet_somewhere(unsigned value1, unsigned mask1, unsigned value2, unsigned mask2, unsigned values)
{
    for (unsigned v = 0; v < values; v++)
        if (agrees(v, value1, mask1) && agrees(v, value2, mask2))
            return true;
    return false;
}

static void confirm_apart(segment a, segment b)
{
    bool page = meet_somewhere(a.page, a.page_mask, b.page, b.page_mask, 65536);
    bool number = meet_somewhere(a.number, a.number_mask, b.number, b.number_mask, 256);
    must(!(page && number), "this test is wrong: it took two segments to be apart");
    seen[SEEN_TRIED]++;
}

/* The page and the number that both match. */
static void confirm_clash(segment a, segment b)
{
    unsigned page = (a.page & a.page_mask) | (b.page & b.page_mask);
    unsigned number = (a.number & a.number_mask) | (b.number & b.number_mask);
    must(matches(a, page, number) && matches(b, page, number), "this test is wrong: it took two segments to clash");
}

static bool clash(segment a, segment b)
{
    bool both = meet(a.page, a.page_mask, b.page, b.page_mask, 16) &&
                meet(a.number, a.number_mask, b.number, b.number_mask, 8);
    seen[SEEN_PAIRS]++;
    if (both)
        confirm_clash(a, b);
    else if (seen[SEEN_PAIRS] % 1999 == 0) /* too slow for all of them */
        confirm_apart(a, b);
    return both;
}

/* An enabled descriptor from "from" up to "end" that clashes with a segment,
 * the one at "except" left out; "end" if there is none. */
static unsigned clashing(const uint8_t *block, segment s, unsigned except, unsigned from, unsigned end)
{
    for (unsigned i = from; i < end; i++)
        if (i != except && enabled(block, i) && clash(segment_at(block, i), s))
            return i;
    return end;
}

/* Noise may have two that clash. */
static bool some_clash(const uint8_t *block)
{
    unsigned end = places(block);
    for (unsigned i = 0; i < end; i++)
        if (enabled(block, i) && clashing(block, segment_at(block, i), i, i + 1, end) != end)
            return true;
    return false;
}

/* ------------------------------------------------------------------ */
/* Sentence 1                                                          */
/* ------------------------------------------------------------------ */

/* Two that stood before, and are as they were, need no second look: "old" is
 * the block before the call, or NULL to look at all. */
static void one_match(const uint8_t *old, const uint8_t *block)
{
    unsigned end = places(block);
    for (unsigned i = 0; i < end; i++) {
        if (!enabled(block, i))
            continue;
        if (old != NULL && memcmp(descriptor_at(old, i), descriptor_at(block, i), 9) == 0)
            continue;
        must(clashing(block, segment_at(block, i), i, 0, end) == end,
             "two enabled descriptors match the same page and number");
    }
}

/* ------------------------------------------------------------------ */
/* Sentence 3                                                          */
/* ------------------------------------------------------------------ */

static unsigned number_under(segment s)
{
    return (s.number & s.number_mask) | (mix_below(&calls, 256) & ~s.number_mask);
}

static unsigned page_under(segment s)
{
    return (s.page & s.page_mask) | (mix_below(&calls, 65536) & ~s.page_mask);
}

/* Some enabled descriptor; without one everything. */
static segment some_segment(const uint8_t *block)
{
    unsigned all = places(block), from = mix_below(&calls, all);
    for (unsigned i = 0; i < all; i++)
        if (enabled(block, (from + i) % all))
            return segment_at(block, (from + i) % all);
    return everything;
}

/* A page of the segment, and a function code whose entry of the table is one
 * of its numbers, if there is such a code. */
static call aimed_access(const uint8_t *block, segment s)
{
    unsigned page = page_under(s), code = mix_below(&calls, 16);
    for (unsigned i = 0; i < 16 && !agrees(block[16 + code], s.number, s.number_mask); i++)
        code = (code + 1) % 16;
    uint64_t direction = mix_direction(&calls);
    unsigned offset = mix_below(&calls, 256);
    call c = {CALL_ACCESS, {code, direction, (uint64_t)page << 8 | offset}, 0};
    return c;
}

static uint64_t answer_on_copy(call c, const uint8_t *block)
{
    static uint8_t copy[BLOCK];
    memcpy(copy, block, BLOCK);
    return call_library(c, copy, BLOCK);
}

static unsigned place_named(uint64_t answer)
{
    return 32 * cleftromi_unit(answer) + cleftromi_descriptor(answer);
}

/* IRQ alone may differ: a load may bring IP. */
static bool same_but_irq(call c, uint64_t was, uint64_t is)
{
    if (((was ^ is) & ~((uint64_t)1 << 12)) == 0)
        return true;
    printf("0x%016" PRIX64 " before the load below, 0x%016" PRIX64 " after it, of ", was, is);
    call_print(c);
    return false;
}

/* One access before the load into "place" and after it.  Returns whether it
 * hit something before. */
static bool access_kept(call c, const uint8_t *old, const uint8_t *block, unsigned place)
{
    uint64_t was = answer_on_copy(c, old), is = answer_on_copy(c, block);
    unsigned kind = cleftromi_kind(was);
    bool modify = c.number[1] == CLEFTROMI_MODIFY;
    note(SEEN_KEPT_MAPPED, kind == CLEFTROMI_MAPPED);
    note(SEEN_KEPT_VIOLATION, kind == CLEFTROMI_VIOLATION);
    note(SEEN_KEPT_MODIFY, modify && kind == CLEFTROMI_MAPPED);
    note(SEEN_KEPT_MODIFY_VIOLATION, modify && kind == CLEFTROMI_VIOLATION);
    if (kind == CLEFTROMI_MAPPED || kind == CLEFTROMI_VIOLATION) {
        must(same_but_irq(c, was, is), "a load into a disabled descriptor changes what an access had");
        return true;
    }
    must(kind == CLEFTROMI_UNDEFINED, "an access in range has no answer of its own");
    if (cleftromi_kind(is) != CLEFTROMI_UNDEFINED) {
        must(place_named(is) == place, "a load gives an access an answer that is not by the descriptor loaded");
        note(SEEN_GIVEN, true);
    }
    return false;
}

/* Accesses to what is enabled, to what was asked for, and to anything. */
static bool load_harmless(const uint8_t *old, const uint8_t *block, segment wanted, unsigned place)
{
    bool hit = false;
    for (unsigned i = 0; i < 6; i++) {
        segment s = i < 4 ? some_segment(old) : i == 4 ? wanted : everything;
        if (access_kept(aimed_access(old, s), old, block, place))
            hit = true;
    }
    return hit;
}

/* ------------------------------------------------------------------ */
/* Sentences 15 and 16                                                 */
/* ------------------------------------------------------------------ */

static bool space_alone_differs(const uint8_t *block, unsigned place, unsigned page, unsigned number)
{
    segment s = segment_at(block, place);
    return enabled(block, place) && agrees(page, s.page, s.page_mask) && !agrees(number, s.number, s.number_mask);
}

/* The first from "from" up to "end", by unit and then by descriptor; the end if
 * there is none. */
static unsigned first_near(const uint8_t *block, unsigned page, unsigned number, unsigned from, unsigned end)
{
    while (from < end && !space_alone_differs(block, from, page, number))
        from++;
    return from;
}

/* "answer" is for want of a match. */
static void reason_given(const uint8_t *old, unsigned page, unsigned number, uint64_t answer)
{
    const unsigned end = places(old), all = 32 * UNITS, due = first_near(old, page, number, 0, end);
    if (due == end) {
        must(cleftromi_near(answer) == 0, "an answer names a descriptor, and in none the space alone differs");
        must(place_named(answer) == 0, "an answer names no descriptor, and has a unit or a descriptor");
        beyond += first_near(old, page, number, end, all) != all;
        return;
    }
    must(cleftromi_near(answer) == 1, "an answer names none of the descriptors in which the space alone differs");
    must(place_named(answer) == due, "an answer names another than the lowest in which the space alone differs");
}

#define IRQ_BIT ((uint64_t)1 << 12)
#define WIN_BIT ((uint64_t)1 << 13)
#define NEAR_BIT ((uint64_t)1 << 14)
#define PLACE_BITS ((uint64_t)0xFF << 16)
#define BYTE_BITS ((uint64_t)0xFF << 24)
#define ADDRESS_BITS ((uint64_t)0xFFFFFF << 32)

/* The header's table, "Which kind has which field". */
static uint64_t fields_of(unsigned kind, bool translation)
{
    switch (kind) {
    case CLEFTROMI_BYTE:
        return BYTE_BITS | (translation ? NEAR_BIT | PLACE_BITS : 0);
    case CLEFTROMI_MAPPED:
        return WIN_BIT | PLACE_BITS | ADDRESS_BITS;
    case CLEFTROMI_VIOLATION:
        return WIN_BIT | PLACE_BITS;
    case CLEFTROMI_UNDEFINED:
        return NEAR_BIT | PLACE_BITS;
    default:
        return 0;
    }
}

/* "translation" says whether the answer is that of a direct translation without a
 * match. */
static void own_fields(const uint8_t *block, uint64_t answer, bool translation)
{
    unsigned kind = cleftromi_kind(answer);
    uint64_t rest = answer & ~fields_of(kind, translation);
    must((rest & NEAR_BIT) == 0, "an answer names a descriptor in which the space alone differs, and must not");
    must(rest == ((uint64_t)kind << 8 | (irq(block) ? IRQ_BIT : 0)), "an answer has a field that is not its kind's");
}

/* ------------------------------------------------------------------ */
/* Sentence 7                                                          */
/* ------------------------------------------------------------------ */

/* What each unit has of an event. */
typedef struct {
    unsigned row;
    uint8_t l[UNITS], rdp[UNITS], rw[UNITS];
} event;

/* No unit has a part in it, and RW is as before. */
static event nobodys_event(const uint8_t *old, unsigned row)
{
    event e = {row, {0}, {0}, {0}};
    memset(e.l, CLEFTROMI_L_NONE, UNITS);
    memset(e.rdp, CLEFTROMI_NO_DESCRIPTOR, UNITS);
    for (unsigned k = 0; k < old[0]; k++)
        e.rw[k] = unit_at(old, k)[LSR] & CLEFTROMI_LSR_RW;
    return e;
}

static void give_part(event *e, unsigned place, uint8_t l)
{
    e->l[place / 32] = l;
    e->rdp[place / 32] = (uint8_t)(place % 32);
}

static event undefined_event(const uint8_t *old, unsigned cycle)
{
    event e = nobodys_event(old, UNDEFINED_READ + cycle);
    memset(e.l, CLEFTROMI_L_UNDEFINED, UNITS);
    memset(e.rw, cycle == WRITE ? 0 : CLEFTROMI_LSR_RW, UNITS);
    return e;
}

static event violation_event(const uint8_t *old, unsigned cycle, unsigned place)
{
    event e = nobodys_event(old, cycle == MODIFY ? MODIFY_VIOLATION : WRITE_VIOLATION);
    give_part(&e, place, CLEFTROMI_L_VIOLATION);
    memset(e.rw, 0, UNITS);
    return e;
}

/* The segment is that of the selected unit's accumulator, "place" where it is
 * to go.  One that does not ask to be enabled clashes with nothing. */
static event load_event(const uint8_t *old, segment wanted, unsigned place, bool asks)
{
    event e = nobodys_event(old, LOAD_GRANTED);
    for (unsigned k = 0; asks && k < old[0]; k++) {
        unsigned end = 32 * k + 32, lowest = clashing(old, wanted, place, 32 * k, end);
        if (lowest == end)
            continue;
        e.row = LOAD_REFUSED;
        give_part(&e, lowest, CLEFTROMI_L_CLASH);
        seen[SEEN_TWO_CLASH] += clashing(old, wanted, place, lowest + 1, end) != end;
    }
    return e;
}

/* The first enabled descriptor from "from" up that matches, by unit and then by
 * descriptor; the end if there is none. */
static unsigned first_match(const uint8_t *block, unsigned from, unsigned page, unsigned number)
{
    unsigned end = places(block);
    for (unsigned i = from; i < end; i++)
        if (enabled(block, i) && matches(segment_at(block, i), page, number))
            return i;
    return end;
}

static event translation_event(const uint8_t *old, unsigned m)
{
    segment asked = segment_wanted(unit_at(old, m));
    unsigned place = first_match(old, 0, asked.page, asked.number);
    event e = nobodys_event(old, place == places(old) ? NOT_TRANSLATED : TRANSLATED);
    if (e.row == NOT_TRANSLATED)
        return e;
    give_part(&e, place, CLEFTROMI_L_TRANSLATED);
    seen[SEEN_TWO_TRANSLATED] += first_match(old, place + 1, asked.page, asked.number) != places(old);
    return e;
}

static bool is_fault(unsigned row)
{
    return row <= UNDEFINED_MODIFY;
}

static void note_event(event e, const uint8_t *old)
{
    unsigned long *noted = events[reached][e.row];
    noted[HAPPENED]++;
    for (unsigned k = 0; k < old[0]; k++) {
        uint8_t lsr = unit_at(old, k)[LSR], rw = lsr & CLEFTROMI_LSR_RW;
        if (e.rdp[k] != CLEFTROMI_NO_DESCRIPTOR)
            continue;
        noted[OTHER_L] += (lsr & CLEFTROMI_LSR_L) != e.l[k];
        noted[OTHER_RDP] += unit_at(old, k)[RDP] < CLEFTROMI_NO_DESCRIPTOR;
        noted[OTHER_RW] += is_fault(e.row) ? rw != e.rw[k] : rw != 0;
    }
}

static void event_left(event e, const uint8_t *old, const uint8_t *block)
{
    note_event(e, old);
    for (unsigned k = 0; k < old[0]; k++) {
        uint8_t lsr = unit_at(block, k)[LSR], rdp = unit_at(block, k)[RDP];
        if (lsr != (e.l[k] | e.rw[k]) || rdp != e.rdp[k])
            printf("%s: unit %u has LSR 0x%02X and RDP 0x%02X, due are 0x%02X and 0x%02X\n", event_names[e.row], k, lsr,
                   rdp, e.l[k] | e.rw[k], e.rdp[k]);
        must((lsr & CLEFTROMI_LSR_L) == e.l[k], "L7 to L4 of a unit are not those of this event");
        must(rdp == e.rdp[k], "RDP of a unit is not that of this event");
        must((lsr & CLEFTROMI_LSR_RW) == e.rw[k], "RW of a unit is not that of this event");
    }
}

static void translation_leaves(const uint8_t *old, const uint8_t *block, uint64_t answer)
{
    event e = translation_event(old, (unsigned)now.number[0]);
    must(cleftromi_byte(answer) == (e.row == TRANSLATED ? 0x00 : 0xFF),
         "a direct translation says that it found something, and has not, or the other way");
    event_left(e, old, block);
    reasons_note(&why[reached], as_state(old), now);
    if (e.row == TRANSLATED)
        return;
    segment asked = segment_wanted(unit_at(old, (unsigned)now.number[0]));
    reason_given(old, asked.page, asked.number, answer);
}

/* ------------------------------------------------------------------ */
/* Sentence 8                                                          */
/* ------------------------------------------------------------------ */

#define U CLEFTROMI_SSR_U
#define M CLEFTROMI_SSR_M
#define IP CLEFTROMI_SSR_IP /* only if I is set */

/* A violating read-modify-write has had its read half. */
static const uint8_t sets[CYCLES][ANSWERS] = {
    /* mapped    violation  undefined */
    {U | IP,     0,         0}, /* read, which is never a violation */
    {U | M | IP, 0,         0}, /* write */
    {U | M | IP, U | IP,    0}, /* read-modify-write */
};

/* As the status reads: noise may have bits that it does not have. */
static uint8_t status_at(const uint8_t *block, unsigned place)
{
    uint8_t status = descriptor_at(block, place)[SSR];
    return status & ((status & CLEFTROMI_SSR_E) ? 0x9F : 0x97);
}

static uint8_t status_with(uint8_t status, uint8_t set)
{
    return status | (set & ((status & CLEFTROMI_SSR_I) ? 0xFF : (uint8_t)~IP));
}

/* "place" is where the access was answered, or the end. */
static void status_left(const uint8_t *old, const uint8_t *block, unsigned place, uint8_t set)
{
    for (unsigned i = 0; i < places(old); i++) {
        const uint8_t *was = descriptor_at(old, i), *is = descriptor_at(block, i);
        must(memcmp(was, is, SSR) == 0 && was[SSR + 1] == is[SSR + 1], "an access changes a segment");
        if (i == place)
            must(is[SSR] == status_with(status_at(old, i), set), "an access leaves another status than its kind does");
        else
            must(is[SSR] == status_at(old, i), "an access changes the status of another segment");
    }
}

static void note_access(const uint8_t *old, unsigned cycle, unsigned answer, unsigned place)
{
    unsigned long *noted = accesses[reached][cycle][answer];
    uint8_t faults = old[1] & (CLEFTROMI_GSR_F | CLEFTROMI_GSR_DF);
    noted[ACCESSES]++;
    noted[F_WAS_SET] += (faults & CLEFTROMI_GSR_F) != 0;
    noted[NOTHING_WAS_SET] += faults == 0;
    if (answer == UNDEFINED)
        return;
    uint8_t status = status_at(old, place);
    noted[U_WAS_CLEAR] += (status & U) == 0;
    noted[M_WAS_CLEAR] += (status & M) == 0;
    noted[INTERRUPTS] += (status & CLEFTROMI_SSR_I) != 0 && (status & IP) == 0;
}

/* ------------------------------------------------------------------ */
/* Sentences 9 and 10                                                  */
/* ------------------------------------------------------------------ */

static void counted_once(const uint8_t *old, const uint8_t *block, bool fault)
{
    uint8_t due = old[1] & (CLEFTROMI_GSR_F | CLEFTROMI_GSR_DF | CLEFTROMI_GSR_IE);
    if (fault)
        due |= (due & CLEFTROMI_GSR_F) ? CLEFTROMI_GSR_DF : CLEFTROMI_GSR_F;
    must(block[1] == due, fault ? "a fault is not counted once" : "a mapped access changes the global status");
}

static void fault_direction(const uint8_t *block, unsigned cycle, unsigned answer)
{
    uint8_t due = answer == UNDEFINED && cycle != WRITE ? CLEFTROMI_LSR_RW : 0;
    for (unsigned k = 0; k < block[0]; k++)
        must((unit_at(block, k)[LSR] & CLEFTROMI_LSR_RW) == due,
             due ? "RW is 0 after an undefined read or read-modify-write"
                 : "RW is 1 after an undefined write or a violation");
}

/* ------------------------------------------------------------------ */
/* Sentence 11                                                         */
/* ------------------------------------------------------------------ */

/* The two calls are made on a copy of the block before. */
static void read_and_write(const uint8_t *old, const uint8_t *block, uint64_t answer)
{
    static uint8_t copy[BLOCK];
    call half = now;
    memcpy(copy, old, BLOCK);
    half.number[1] = CLEFTROMI_READ;
    uint64_t due = call_library(half, copy, BLOCK);
    if (cleftromi_kind(due) != CLEFTROMI_UNDEFINED) {
        half.number[1] = CLEFTROMI_WRITE;
        due = call_library(half, copy, BLOCK);
    }
    must(answer == due, "a read-modify-write has another answer than a read and then a write");
    must(memcmp(copy, block, BLOCK) == 0, "a read-modify-write leaves other bytes than a read and then a write");
}

/* ------------------------------------------------------------------ */
/* An access: sentences 7 to 11, and 15                                */
/* ------------------------------------------------------------------ */

static unsigned cycle_of(uint64_t direction)
{
    return direction == CLEFTROMI_READ ? READ : direction == CLEFTROMI_MODIFY ? MODIFY : WRITE;
}

static unsigned answer_due(const uint8_t *old, unsigned cycle, unsigned place)
{
    if (place == places(old))
        return UNDEFINED;
    return cycle != READ && (descriptor_at(old, place)[SSR] & CLEFTROMI_SSR_WP) ? VIOLATED : MAPPED;
}

static void access_leaves(const uint8_t *old, const uint8_t *block, uint64_t answer)
{
    static const unsigned kinds[ANSWERS] = {CLEFTROMI_MAPPED, CLEFTROMI_VIOLATION, CLEFTROMI_UNDEFINED};
    static const char *const wrong[ANSWERS] = {
        "an access is not mapped where it is first matched",
        "a write to a protected segment is no violation where it is first matched",
        "an access that nothing matches has another answer",
    };
    unsigned page = (unsigned)(now.number[2] >> 8), number = old[16 + now.number[0]];
    unsigned place = first_match(old, 0, page, number);
    unsigned cycle = cycle_of(now.number[1]), due = answer_due(old, cycle, place);

    note_access(old, cycle, due, place);
    reasons_note(&why[reached], as_state(old), now);
    must(cleftromi_kind(answer) == kinds[due] && (due == UNDEFINED || place_named(answer) == place), wrong[due]);
    if (due == UNDEFINED)
        reason_given(old, page, number, answer);
    status_left(old, block, place, sets[cycle][due]);
    counted_once(old, block, due != MAPPED);
    if (due != MAPPED) {
        fault_direction(block, cycle, due);
        event_left(due == UNDEFINED ? undefined_event(old, cycle) : violation_event(old, cycle, place), old, block);
    }
    if (due == VIOLATED)
        seen[SEEN_TWO_VIOLATED] += first_match(old, place + 1, page, number) != places(old);
    if (cycle == MODIFY)
        read_and_write(old, block, answer);
}

/* ------------------------------------------------------------------ */
/* Sentence 2                                                          */
/* ------------------------------------------------------------------ */

/* Bytes of the accumulator that a load compares: another unit's may be old. */
static bool stale_elsewhere(const uint8_t *block, unsigned m)
{
    static const uint8_t compared[] = {0, 1, 2, 3, 6, 8};
    for (unsigned k = 0; k < block[0]; k++)
        for (unsigned i = 0; i < sizeof compared; i++)
            if (unit_at(block, k)[compared[i]] != unit_at(block, m)[compared[i]])
                return true;
    return false;
}

/* The nine bytes of the accumulator, in the descriptor's own order. */
static bool loaded(const uint8_t *unit, const uint8_t *d)
{
    static const uint8_t order[] = {1, 0, 3, 2, 5, 4, 6, AC7, 8};
    for (unsigned i = 0; i < 9; i++)
        if (i != SSR && d[i] != unit[order[i]])
            return false;
    return d[SSR] == (unit[AC7] & 0x9F);
}

static void note_load(const uint8_t *old, unsigned m, event e, unsigned place, bool asks)
{
    bool clashes = e.row == LOAD_REFUSED;
    note(!asks ? SEEN_UNASKED : clashes ? SEEN_CLASH : SEEN_LOAD, true);
    note(SEEN_CLASH_ELSEWHERE, clashes && e.l[m] == CLEFTROMI_L_NONE);
    note(SEEN_RELOAD, enabled(old, place));
    note(SEEN_STALE, asks && stale_elsewhere(old, m));
}

static void load_exactly(const uint8_t *old, const uint8_t *block, uint64_t answer)
{
    unsigned m = (unsigned)now.number[0], place = 32 * m + (unit_at(old, m)[DP] & 0x1F);
    segment wanted = segment_wanted(unit_at(old, m));
    bool asks = (unit_at(old, m)[AC7] & CLEFTROMI_SSR_E) != 0;
    event e = load_event(old, wanted, place, asks);
    bool clashes = e.row == LOAD_REFUSED;

    clashed = !reached && some_clash(old);
    must(cleftromi_kind(answer) == CLEFTROMI_BYTE, "a load is no read of a byte");
    must(cleftromi_byte(answer) == (clashes ? 0xFF : 0x00),
         clashes ? "a load that clashes is granted" : "a load that does not clash is refused");
    must(enabled(block, place) == (asks && !clashes),
         clashes ? "a refused load leaves the descriptor enabled" : "a granted load does not enable as it asks");
    if (asks && !clashes)
        must(loaded(unit_at(old, m), descriptor_at(block, place)), "a granted load loads other bytes");
    event_left(e, old, block);

    note_load(old, m, e, place, asks);
    if (!enabled(old, place) && load_harmless(old, block, wanted, place) && asks)
        note(clashes ? SEEN_HIT_CLASH : SEEN_HIT_LOAD, true);
}

/* ------------------------------------------------------------------ */
/* Sentence 4                                                          */
/* ------------------------------------------------------------------ */

static void marks_alike(const uint8_t *block)
{
    for (unsigned k = 1; k < block[0]; k++)
        for (unsigned m = 0; m < k; m++)
            for (unsigned n = 0; n < 9; n++) {
                bool one = marked(unit_at(block, m), n), other = marked(unit_at(block, k), n);
                seen[SEEN_MARKED] += one && other;
                seen[SEEN_MARKED_ONCE] += one != other;
                if (one && other)
                    must(unit_at(block, m)[n] == unit_at(block, k)[n], "a byte marked in two units differs");
            }
}

static bool marked_unlike(const uint8_t *block)
{
    for (unsigned k = 1; k < block[0]; k++)
        for (unsigned m = 0; m < k; m++)
            for (unsigned n = 0; n < 9; n++)
                if (marked(unit_at(block, m), n) && marked(unit_at(block, k), n) &&
                    unit_at(block, m)[n] != unit_at(block, k)[n])
                    return true;
    return false;
}

/* The bits that a register has, for each byte of a block with this count. */
static void register_bits(uint8_t *bits, unsigned count)
{
    static const uint8_t unit[16] = {0xFF, 0xFF, 0xFF, 0xFF, 0xFF, 0xFF, 0xFF, 0xFF,
                                     0xFF, 0xFF, 0x01, 0x1F, 0xF8, 0x9F, 0,    0};
    static const uint8_t descriptor[9] = {0xFF, 0xFF, 0xFF, 0xFF, 0xFF, 0xFF, 0xFF, 0x9F, 0xFF};
    memset(bits, 0, BLOCK);
    bits[0] = 0x07;
    bits[1] = 0xC1;
    bits[2] = 0xFF;
    memset(bits + 16, 0xFF, 16);
    for (unsigned m = 0; m < count; m++)
        memcpy(bits + 32 + 16 * m, unit, 16);
    for (unsigned i = 0; i < 32 * count; i++)
        memcpy(bits + 128 + 9 * i, descriptor, 9);
}

static void no_stray_bit(const uint8_t *block)
{
    static uint8_t bits[UNITS + 1][BLOCK];
    unsigned count = block[0];
    must(count >= 1 && count <= UNITS, "a granted call leaves a count that is none");
    if (bits[count][0] == 0)
        register_bits(bits[count], count);
    unsigned stray = 0;
    for (unsigned i = 0; i < BLOCK; i++)
        stray |= block[i] & ~(unsigned)bits[count][i];
    must(stray == 0, "a bit is set that no register has");
    for (unsigned m = 0; m < count; m++) {
        uint8_t rdp = unit_at(block, m)[RDP];
        must(rdp < 0x80 || rdp == CLEFTROMI_NO_DESCRIPTOR, "RDP has a number beside NVR");
    }
    for (unsigned i = 0; i < places(block); i++) {
        uint8_t status = descriptor_at(block, i)[SSR] & (CLEFTROMI_SSR_IP | CLEFTROMI_SSR_E);
        must(status != CLEFTROMI_SSR_IP, "IP stands without E");
        seen[SEEN_PENDING] += status == (CLEFTROMI_SSR_IP | CLEFTROMI_SSR_E);
    }
}

/* ------------------------------------------------------------------ */
/* Sentence 5                                                          */
/* ------------------------------------------------------------------ */

/* Document 01's table, row by row. */
static bool applies(unsigned row, call c, const uint8_t *block)
{
    bool names_unit = c.name != CALL_ACCESS, may_be_none = c.name == CALL_START || c.name == CALL_RESET;
    uint64_t count = c.name == CALL_START ? c.number[0] : block[0];
    uint64_t unit = c.name == CALL_START ? c.number[1] : c.number[0];
    switch (row) {
    case CLEFTROMI_REFUSED_BLOCK:
        return bytes < BLOCK;
    case CLEFTROMI_REFUSED_COUNT:
        return count == 0 || count > UNITS;
    case CLEFTROMI_REFUSED_UNIT:
        return names_unit && unit >= count && !(may_be_none && unit == CLEFTROMI_NONE);
    case CLEFTROMI_REFUSED_REGISTER:
        return c.name == CALL_REGISTER && c.number[1] > 0x3F;
    case CLEFTROMI_REFUSED_FUNCTION_CODE:
        return c.name == CALL_ACCESS && c.number[0] > 15;
    case CLEFTROMI_REFUSED_ADDRESS:
        return c.name == CALL_ACCESS && c.number[2] > 0xFFFFFF;
    default:
        return c.name == CALL_ACKNOWLEDGE && !irq(block);
    }
}

static unsigned refusal_due(call c, const uint8_t *block)
{
    static const uint8_t order[] = {7, 1, 2, 3, 4, 5, 6};
    for (unsigned i = 0; i < sizeof order; i++)
        if (applies(order[i], c, block))
            return order[i];
    return 0;
}

/* Of each block of an image 9 and then its own fields, the rest last. */
static unsigned image_due(const uint8_t *image, size_t length)
{
    static uint8_t block[BLOCK], again[LONGEST_IMAGE];
    unsigned count = (unsigned)(length / PER_UNIT);
    if (length == 0 || length > LONGEST_IMAGE || length % PER_UNIT != 0)
        return CLEFTROMI_REFUSED_IMAGE_LENGTH;
    for (unsigned m = 0; m < count; m++) {
        if (!adds_up(image + PER_UNIT * m))
            return CLEFTROMI_REFUSED_IMAGE_CHECK;
        if (!is_some_unit(image + PER_UNIT * m, m, count))
            return CLEFTROMI_REFUSED_IMAGE_FIELDS;
    }
    block_of_image(image, count, block);
    image_of_block(block, again);
    bool good = memcmp(image, again, length) == 0 && !marked_unlike(block) && !some_clash(block);
    return good ? 0 : CLEFTROMI_REFUSED_IMAGE_FIELDS;
}

static unsigned restore_due(const uint8_t *image)
{
    return bytes < BLOCK ? CLEFTROMI_REFUSED_BLOCK : image_due(image, image_bytes);
}

static unsigned save_due(const uint8_t *block)
{
    static uint8_t image[LONGEST_IMAGE];
    if (bytes < BLOCK)
        return CLEFTROMI_REFUSED_BLOCK;
    if (block[0] == 0 || block[0] > UNITS)
        return CLEFTROMI_REFUSED_COUNT;
    if (image_bytes != PER_UNIT * block[0])
        return CLEFTROMI_REFUSED_IMAGE_LENGTH;
    image_of_block(block, image);
    return image_due(image, image_bytes);
}

static void note_refusal(unsigned due)
{
    if (due > CLEFTROMI_REFUSED_BLOCK)
        seen[SEEN_IMAGE_REFUSALS + due - CLEFTROMI_REFUSED_IMAGE_LENGTH]++;
    else
        seen[SEEN_REFUSALS + due]++;
    if (image_call == NULL && now.name == CALL_ACCESS && now.number[1] == CLEFTROMI_MODIFY)
        refused_modify[due]++;
}

static void refused_exactly(unsigned due, uint64_t answer)
{
    must(cleftromi_refusal(answer) == due, due == 0 ? "refused for no reason" : "not refused with the number due");
    if (due == 0) {
        must(cleftromi_kind(answer) != 0, "granted, and of no kind");
        must(memcmp(before, room, at) == 0, "a byte before the block has changed");
        must(memcmp(before + at + BLOCK, room + at + BLOCK, ROOM - at - BLOCK) == 0, "a byte past 4,096 has changed");
        return;
    }
    must(answer == due, "a refusal has another field");
    must(memcmp(before, room, ROOM) == 0, "a refused call has changed a byte");
    note_refusal(due);
}

/* ------------------------------------------------------------------ */
/* Sentence 6                                                          */
/* ------------------------------------------------------------------ */

static void random_bytes(uint8_t *to, size_t length)
{
    uint64_t some = 0;
    for (size_t i = 0; i < length; i++) {
        some = i % 8 == 0 ? mix_random(&calls) : some >> 8;
        to[i] = (uint8_t)some;
    }
}

/* Often no more than need be, seldom too few, and then often by one. */
static size_t some_length(size_t own)
{
    if (mix_below(&calls, 200) == 0)
        return mix_below(&calls, 2) ? BLOCK - 1 : mix_below(&calls, BLOCK);
    if (mix_below(&calls, 64) == 0)
        return BLOCK + own;
    return BLOCK + (mix_below(&calls, 2) ? 0 : mix_below(&calls, (unsigned)own + 1));
}

static void lend_anew(void)
{
    size_t own = ROOM - at - BLOCK, last = bytes;
    random_bytes(room + at + BLOCK, own);
    bytes = some_length(own);
    if (!reached || last < BLOCK || bytes < BLOCK)
        return;
    seen[SEEN_MORE] += bytes > last;
    seen[SEEN_FEWER] += bytes < last;
    seen[SEEN_ALL] += bytes == BLOCK + own;
}

/* ------------------------------------------------------------------ */
/* A call                                                              */
/* ------------------------------------------------------------------ */

static bool is_start(call c)
{
    return c.name == CALL_START || c.name == CALL_RESET;
}

static bool is_read(call c, unsigned address)
{
    return c.name == CALL_REGISTER && c.number[1] == address && c.number[2] == CLEFTROMI_READ;
}

static bool is_load(call c)
{
    return is_read(c, CLEFTROMI_LOAD);
}

/* Makes a call and checks all that is said of it.  Before a start or a reset
 * the block may have been anything. */
static void make(call c)
{
    uint8_t *block = room + at, *old = before + at;
    now = c;
    image_call = NULL;
    made++;
    lend_anew();
    memcpy(before, room, ROOM);
    unsigned due = refusal_due(c, old);
    uint64_t answer = call_library(c, block, bytes);
    refused_exactly(due, answer);
    if (due != 0)
        return;
    no_stray_bit(block);
    bool translation = is_read(c, CLEFTROMI_TRANSLATE);
    own_fields(block, answer, translation && cleftromi_byte(answer) == 0xFF);
    if (is_start(c))
        reached = true;
    if (is_load(c)) /* first, for else a load that must not be granted is seen by what it leaves */
        load_exactly(old, block, answer);
    if (translation)
        translation_leaves(old, block, answer);
    if (c.name == CALL_ACCESS)
        access_leaves(old, block, answer);
    if (!reached)
        return;
    one_match(is_start(c) || made % 64 == 0 ? NULL : old, block);
    marks_alike(block);
    seen[SEEN_UNITS + block[0]]++;
}

/* ------------------------------------------------------------------ */
/* Sentences 12 to 14                                                  */
/* ------------------------------------------------------------------ */

static uint8_t kept[LONGEST_IMAGE]; /* the image that was saved last, of a reached state */
static size_t kept_bytes;

/* "length" random bytes, or those of an image, are lent. */
static void lend_image(const char *name, const uint8_t *image, size_t length)
{
    image_call = name;
    made++;
    lend_anew();
    random_bytes(image_room, ROOM);
    image_at = GUARD + mix_below(&calls, 64);
    image_bytes = length;
    if (image != NULL && length > 0)
        memcpy(image_room + image_at, image, length);
    memcpy(before, room, ROOM);
    memcpy(image_before, image_room, ROOM);
}

static void done(uint64_t answer, const uint8_t *block)
{
    uint64_t due = (uint64_t)CLEFTROMI_DONE << 8 | (irq(block) ? 1u : 0u) << 12;
    must(answer == due, "the answer is not that it was done, with IRQ as it stands");
}

/* Into random bytes, of which a restore sees nothing. */
static void restores_to(const uint8_t *image, unsigned due, const uint8_t *block)
{
    static uint8_t other[BLOCK];
    random_bytes(other, BLOCK);
    uint64_t answer = cleftromi_restore(other, BLOCK, image, image_bytes);
    must(cleftromi_refusal(answer) == due, "what a save would write is restored, and not saved, or the other way");
    must(due != 0 || memcmp(other, block, BLOCK) == 0, "what was saved and restored is another state");
}

static void saves_to(uint8_t *block, const uint8_t *image)
{
    static uint8_t again[LONGEST_IMAGE];
    uint64_t answer = cleftromi_save(block, BLOCK, again, image_bytes);
    must(cleftromi_refusal(answer) == 0, "what was restored can't be saved");
    must(memcmp(again, image, image_bytes) == 0, "what was restored and saved has other bytes");
}

static void make_save(size_t length)
{
    static uint8_t due_image[LONGEST_IMAGE], due_block[BLOCK];
    uint8_t *block = room + at, *old = before + at, *image;
    lend_image("save", NULL, length);
    image = image_room + image_at;
    unsigned due = save_due(old);
    must(!reached || due != CLEFTROMI_REFUSED_IMAGE_FIELDS, "a reached state is not to be saved");
    uint64_t answer = cleftromi_save(block, bytes, image, image_bytes);
    refused_exactly(due, answer);
    seen[SEEN_NOT_SAVED] += due == CLEFTROMI_REFUSED_IMAGE_FIELDS;
    if (due == 0 || due == CLEFTROMI_REFUSED_IMAGE_FIELDS) {
        image_of_block(old, due_image);
        block_of_image(due_image, old[0], due_block);
        restores_to(due_image, due, due_block);
    }
    if (due == 0) {
        seen[reached ? SEEN_SAVED : SEEN_SAVED_NOISE]++;
        memcpy(image_before + image_at, due_image, length);
        must(memcmp(image, due_image, length) == 0, "a save writes other bytes");
        must(memcmp(block, due_block, BLOCK) == 0, "a save leaves another state, or not in its written form");
        done(answer, block);
        memcpy(kept, image, length);
        kept_bytes = length;
    }
    must(memcmp(image_before, image_room, ROOM) == 0, "a save has changed a byte that it must not");
}

static void make_restore(const uint8_t *bytes_of_image, size_t length)
{
    static uint8_t due_block[BLOCK];
    uint8_t *block = room + at, *image;
    lend_image("restore", bytes_of_image, length);
    image = image_room + image_at;
    unsigned due = restore_due(image);
    uint64_t answer = cleftromi_restore(block, bytes, image, image_bytes);
    refused_exactly(due, answer);
    must(memcmp(image_before, image_room, ROOM) == 0, "a restore has changed a byte of the image");
    if (due != 0)
        return;
    seen[SEEN_RESTORED]++;
    reached = true;
    block_of_image(image, (unsigned)(length / PER_UNIT), due_block);
    must(memcmp(block, due_block, BLOCK) == 0, "a restore leaves another state than the image has");
    done(answer, block);
    saves_to(block, image);
    no_stray_bit(block);
    one_match(NULL, block);
    marks_alike(block);
}

/* Mostly of the right length. */
static void some_save(void)
{
    unsigned units = mix_below(&calls, 8) ? room[at] % 8 : mix_below(&calls, 8);
    make_save(mix_below(&calls, 16) ? PER_UNIT * units : mix_below(&calls, LONGEST_IMAGE + 512));
}

/* A bit of the registers, of a status or of any byte; the check is mostly mended
 * then. */
static void damage(uint8_t *part)
{
    unsigned kind = mix_below(&calls, 4), status = 34 + 9 * mix_below(&calls, 32) + SSR;
    unsigned changed = kind == 0 ? status : mix_below(&calls, kind == 1 ? PER_UNIT : 34);
    part[changed] ^= (uint8_t)(1u << mix_below(&calls, 8));
    if (mix_below(&calls, 4))
        make_add_up(part);
}

/* The image that was saved last, or that with a bit or two changed. */
static void some_restore(void)
{
    static uint8_t image[LONGEST_IMAGE];
    memcpy(image, kept, kept_bytes);
    for (unsigned n = mix_below(&calls, 3); n > 0 && kept_bytes > 0; n--)
        damage(image + PER_UNIT * mix_below(&calls, (unsigned)(kept_bytes / PER_UNIT)));
    make_restore(image, mix_below(&calls, 16) ? kept_bytes : mix_below(&calls, (unsigned)kept_bytes + 1));
}

/* ------------------------------------------------------------------ */
/* Histories                                                           */
/* ------------------------------------------------------------------ */

/* Puts the numbers of some segments into the table, by calls: sentence 3 has
 * accesses that hit something before the load only if the table lets them. */
static void aim_table(const uint8_t *block, segment wanted)
{
    for (unsigned n = mix_below(&calls, 4); n > 0; n--) {
        uint8_t number = (uint8_t)number_under(n == 3 ? wanted : some_segment(block));
        call c = {CALL_REGISTER, {0, CLEFTROMI_AST(mix_below(&calls, 16)), CLEFTROMI_WRITE}, number};
        make(c);
    }
}

static void step(call c)
{
    const uint8_t *block = room + at;
    if (is_load(c) && c.number[0] < block[0])
        aim_table(block, segment_wanted(unit_at(block, (unsigned)c.number[0])));
    make(c);
}

/* Loads what some unit's accumulator has, but for one bit: just apart from what
 * stands, or just not.  A load of mix fills the accumulator first; this one has
 * three calls, so that there are many loads. */
static void load_neighbour(void)
{
    const uint8_t *block = room + at;
    unsigned m = mix_below(&calls, block[0]);
    unsigned n = (unit_at(block, m)[AC7] & CLEFTROMI_SSR_E) ? mix_below(&calls, 9) : AC7;
    uint8_t value = (uint8_t)(unit_at(block, m)[n] ^ 1u << mix_below(&calls, 8));
    if (n == AC7)
        value |= CLEFTROMI_SSR_E;
    call change = {CALL_REGISTER, {m, CLEFTROMI_AC0 + n, CLEFTROMI_WRITE}, value};
    call point = {CALL_REGISTER, {m, CLEFTROMI_DP, CLEFTROMI_WRITE}, (uint8_t)mix_below(&calls, 256)};
    call load = {CALL_REGISTER, {m, CLEFTROMI_LOAD, CLEFTROMI_READ}, 0};
    step(change);
    step(point);
    step(load);
}

/* mix needs the state only where no call is left of its last plan. */
static void next(void)
{
    if (calls.waiting > 0)
        step(mix_next(&calls, NULL));
    else if (mix_below(&calls, IMAGES) == 0)
        some_save();
    else if (mix_below(&calls, IMAGES) == 0)
        some_restore();
    else if (mix_below(&calls, 3) == 0)
        load_neighbour();
    else
        step(mix_next(&calls, as_state(room + at)));
}

/* Half of these with a number out of range, or at least another one. */
static call on_noise(void)
{
    call c = mix_below(&calls, 3) ? mix_single(&calls, as_state(room + at)) : aimed_access(room + at, everything);
    if (mix_below(&calls, 2)) {
        unsigned i = mix_below(&calls, 3);
        c.number[i] = (uint64_t)1 << mix_below(&calls, 64);
    }
    return c;
}

static void noise_block(void)
{
    reached = false;
    at = GUARD + mix_below(&calls, 64);
    random_bytes(room, ROOM);
}

/* 1 to 6: else no call but a start is granted. */
static void good_count(uint8_t *block)
{
    block[0] = (uint8_t)(1 + mix_below(&calls, UNITS));
}

/* Whatever stands in the block, also a count that is none. */
static void noise(void)
{
    noise_block();
    if (mix_below(&calls, 2))
        good_count(room + at);
    for (unsigned n = mix_below(&calls, 4); n > 0; n--)
        make(on_noise());
}

/* Fewer ones in the masks, so that many match the same. */
static void widen(uint8_t *block)
{
    static const uint8_t masks[] = {2, 3, 8};
    for (unsigned i = 0; i < places(block); i++)
        for (unsigned n = 0; n < sizeof masks; n++)
            block[128 + 9 * i + masks[n]] &= (uint8_t)mix_random(&calls);
}

/* Most of them disabled, so that a load has a chance. */
static void thin_out(uint8_t *block)
{
    for (unsigned i = 0; i < places(block); i++)
        if (mix_below(&calls, 8) != 0)
            block[128 + 9 * i + SSR] &= (uint8_t)~CLEFTROMI_SSR_E;
}

/* In noise the accumulator of a unit may be written here. */
static void ask_for(uint8_t *unit, unsigned page, unsigned number)
{
    unit[0] = (uint8_t)(page >> 8);
    unit[1] = (uint8_t)page;
    unit[6] = (uint8_t)number;
}

/* A load or a direct translation of some unit: it asks for what stands, or for
 * anything, and mostly for E. */
static call operation_on_noise(uint8_t *block)
{
    unsigned m = mix_below(&calls, block[0]), address = mix_below(&calls, 2) ? CLEFTROMI_LOAD : CLEFTROMI_TRANSLATE;
    uint8_t *unit = block + 32 + 16 * m;
    segment s = mix_below(&calls, 3) ? some_segment(block) : everything;
    unsigned page = page_under(s);
    ask_for(unit, page, number_under(s));
    if (mix_below(&calls, 8) != 0)
        unit[AC7] |= CLEFTROMI_SSR_E;
    call c = {CALL_REGISTER, {m, address, CLEFTROMI_READ}, 0};
    return c;
}

/* Random bytes, with a count of 1 to 6. */
static uint8_t *board_of_noise(void)
{
    noise_block();
    uint8_t *block = room + at;
    good_count(block);
    if (mix_below(&calls, 2))
        widen(block);
    if (mix_below(&calls, 2))
        thin_out(block);
    return block;
}

/* Events in blocks that no history reaches. */
static void events_in_noise(void)
{
    uint8_t *block = board_of_noise();
    for (unsigned n = 1 + mix_below(&calls, 4); n > 0; n--) {
        segment s = mix_below(&calls, 4) ? some_segment(block) : everything;
        make(mix_below(&calls, 3) ? operation_on_noise(block) : aimed_access(block, s));
    }
}

/* A page of some descriptor, which is often the first of all and mostly enabled, for
 * a number that is not its own: by an access, or by a direct translation. */
static void reasons_in_noise(void)
{
    uint8_t *block = board_of_noise();
    unsigned place = mix_below(&calls, 3) ? mix_below(&calls, places(block)) : 0, m = mix_below(&calls, block[0]);
    const model_descriptor *d = &as_state(block)->unit[place / 32].d[place % 32];
    unsigned page = mix_page(&calls, d);
    uint8_t number = mix_other_number(&calls, d);
    if (mix_below(&calls, 4))
        block[128 + 9 * place + SSR] |= CLEFTROMI_SSR_E;
    call access = {CALL_ACCESS, {mix_below(&calls, 16), 0, (uint64_t)page << 8}, 0};
    call translation = {CALL_REGISTER, {m, CLEFTROMI_TRANSLATE, CLEFTROMI_READ}, 0};
    access.number[1] = mix_direction(&calls);
    memset(block + 16, number, 16);
    ask_for(block + 32 + 16 * m, page, number);
    make(mix_below(&calls, 3) ? access : translation);
}

/* Few enabled and no marks, in some, so that there is something to save. */
static void images_in_noise(void)
{
    noise_block();
    uint8_t *block = room + at;
    good_count(block);
    for (unsigned n = mix_below(&calls, 3); n > 0; n--)
        thin_out(block);
    for (unsigned m = 0; m < UNITS && mix_below(&calls, 6); m++)
        block[32 + 16 * m + MARKS] = block[32 + 16 * m + MARKS + 1] = 0;
    if (mix_below(&calls, 16) == 0)
        block[0] = (uint8_t)mix_random(&calls);
    some_save();
    if (mix_below(&calls, 2))
        some_restore();
}

/* A start, a reset, or a restore of what was saved before. */
static void begin(call start, call reset)
{
    unsigned way = mix_below(&calls, kept_bytes > 0 ? 3 : 2);
    if (way == 1)
        room[at] = (uint8_t)start.number[0];
    for (reached = false; !reached;) /* it may be lent too short */
        if (way == 2)
            make_restore(kept, kept_bytes);
        else
            make(way == 1 ? reset : start);
}

static void history(void)
{
    unsigned count = 1 + (unsigned)(histories % UNITS);
    uint64_t selected = mix_below(&calls, 3) ? mix_below(&calls, count) : CLEFTROMI_NONE;
    call start = {CALL_START, {count, selected, 0}, 0}, reset = {CALL_RESET, {selected, 0, 0}, 0};
    for (unsigned n = 0; n < 10; n++)
        noise();
    begin(start, reset);
    histories++;
}

int main(int argc, char **argv)
{
    if (argc != 3) {
        fprintf(stderr, "demands SEED CALLS\n");
        return 2;
    }
    seed = strtoull(argv[1], NULL, 0);
    unsigned long wanted = strtoul(argv[2], NULL, 0), until = 0;
    mix_begin(&calls, seed);
    while (made < wanted) {
        history();
        for (until = made + HISTORY; made < until;)
            next();
        for (unsigned n = 0; n < NOISES; n++)
            events_in_noise();
        for (unsigned n = 0; n < NOISES; n++)
            reasons_in_noise();
        for (unsigned n = 0; n < NOISES / 3; n++)
            images_in_noise();
    }
    return report();
}
