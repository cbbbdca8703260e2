/* script SEED LINES: a random script for the bench.  Most lines are the calls
 * of mix.c, planned by the state that the model is in; about one in eight is
 * spoiled in one of many ways.
 * script SEED BYTES pieces: that many bytes, in pieces of good lines, line feeds
 * and strays.
 * script SEED BYTES noise: that many bytes, each as likely as any other. */
#include <stdio.h>
#include <stdlib.h>
#include <string.h>
#include "cleftromi.h"
#include "lines.h"
#include "mix.h"

#define LONGEST 5000u

/* A line that is being made, without its line feed. */
typedef struct {
    uint8_t bytes[LONGEST + 20]; /* sprintf ends it with a zero */
    size_t length;
} text;

static mix calls;
static lines board; /* what the bench has made of the lines so far */

static uint64_t any(void)
{
    return mix_random(&calls);
}

static unsigned below(unsigned n)
{
    return mix_below(&calls, n);
}

static bool one_in(unsigned n)
{
    return below(n) == 0;
}

/* Any byte but a line feed, which would make two lines of one. */
static uint8_t any_byte(void)
{
    uint8_t byte = (uint8_t)below(256);
    return byte == '\n' ? 0 : byte;
}

/* A byte that stands in good lines, or nearly does. */
static uint8_t likely_byte(void)
{
    static const char likely[] = "0123456789ABCDEFGMRSTWabcdefmrstw-  ";
    return (uint8_t)likely[below(sizeof likely - 1)];
}

/* ------------------------------------------------------------------ */
/* Good lines                                                          */
/* ------------------------------------------------------------------ */

/* Numbers that have no place in a line are cut to one that has: the units and
 * the registers that are not there are refused all the same. */
static unsigned as_digit(uint64_t number)
{
    return (unsigned)(number % 10);
}

static char selected(uint64_t unit)
{
    return unit == CLEFTROMI_NONE ? '-' : (char)('0' + as_digit(unit));
}

static void put_start(text *t, uint64_t units, uint64_t unit)
{
    t->length = (size_t)sprintf((char *)t->bytes, "S %u %c", as_digit(units), selected(unit));
}

static char direction(uint64_t number)
{
    return number == CLEFTROMI_READ ? 'R' : number == CLEFTROMI_MODIFY ? 'M' : 'W';
}

static void put_access(text *t, const uint64_t *number)
{
    t->length = (size_t)sprintf((char *)t->bytes, "T %X %c %06X", (unsigned)(number[0] % 16), direction(number[1]),
                                (unsigned)(number[2] % 0x1000000));
}

static void put_register(text *t, const uint64_t *number, uint8_t value)
{
    unsigned unit = as_digit(number[0]), address = (unsigned)(number[1] % 256);
    char *to = (char *)t->bytes;
    if (number[2] != 0)
        t->length = (size_t)sprintf(to, "W %u %02X %02X", unit, address, value);
    else
        t->length = (size_t)sprintf(to, "G %u %02X", unit, address);
}

/* The bench has no reset: it is a start with the count that is there. */
static void put_call(text *t, call c)
{
    switch (c.name) {
    case CALL_START:
        put_start(t, c.number[0], c.number[1]);
        break;
    case CALL_RESET:
        put_start(t, board.m.count, c.number[0]);
        break;
    case CALL_ACCESS:
        put_access(t, c.number);
        break;
    case CALL_REGISTER:
        put_register(t, c.number, c.value);
        break;
    default:
        t->length = (size_t)sprintf((char *)t->bytes, "A %u", as_digit(c.number[0]));
        break;
    }
}

/* Until there is a board all is refused, so a start comes soon. */
static void good_line(text *t)
{
    if (board.m.count == 0 && one_in(16))
        put_start(t, 1 + below(6), CLEFTROMI_NONE);
    else
        put_call(t, mix_next(&calls, &board.m));
}

/* ------------------------------------------------------------------ */
/* Spoiled lines                                                       */
/* ------------------------------------------------------------------ */

/* Makes room for bytes. */
static void open_at(text *t, size_t at, size_t more)
{
    memmove(t->bytes + at + more, t->bytes + at, t->length - at);
    t->length += more;
}

static void insert(text *t, size_t at, uint8_t byte)
{
    open_at(t, at, 1);
    t->bytes[at] = byte;
}

static void drop(text *t, size_t at)
{
    t->length--;
    memmove(t->bytes + at, t->bytes + at + 1, t->length - at);
}

static size_t any_place(const text *t)
{
    return below((unsigned)t->length);
}

/* A space of the line; every good line has one. */
static size_t any_space(const text *t)
{
    size_t at = any_place(t);
    while (t->bytes[at] != ' ')
        at = (at + 1) % t->length;
    return at;
}

static uint8_t stray_byte(void)
{
    return one_in(2) ? any_byte() : likely_byte();
}

static void change(text *t)
{
    size_t at = any_place(t);
    t->bytes[at] = stray_byte();
}

static void insert_byte(text *t)
{
    size_t at = below((unsigned)t->length + 1);
    insert(t, at, stray_byte());
}

static void drop_byte(text *t)
{
    drop(t, any_place(t));
}

static void two_spaces(text *t)
{
    insert(t, any_space(t), ' ');
}

static void no_space(text *t)
{
    drop(t, any_space(t));
}

static void tab(text *t)
{
    t->bytes[any_space(t)] = '\t';
}

static void space_before(text *t)
{
    insert(t, 0, ' ');
}

static void space_behind(text *t)
{
    insert(t, t->length, ' ');
}

static void carriage_return(text *t)
{
    insert(t, t->length, '\r');
}

/* The hexadecimal digits of a line, and now and then its letter. */
static void small_letters(text *t)
{
    t->bytes[t->length - 1] = (uint8_t)('A' + below(6));
    for (size_t i = one_in(4) ? 0 : 1; i < t->length; i++)
        if (t->bytes[i] >= 'A' && t->bytes[i] <= 'Z')
            t->bytes[i] = (uint8_t)(t->bytes[i] - 'A' + 'a');
}

/* A unit may lack only in a start. */
static void dash(text *t)
{
    t->bytes[one_in(4) ? any_place(t) : 2] = '-';
}

/* One too many, or one that has no such value: A for a unit, G anywhere. */
static void wrong_digit(text *t)
{
    size_t at = 2 + below((unsigned)t->length - 2);
    if (one_in(2))
        insert(t, t->length, '0');
    else
        t->bytes[at] = (uint8_t)('A' + below(8));
}

/* A letter that is no direction; M where no direction stands. */
static void wrong_letter(text *t)
{
    static const char letters[] = "mrwXxLNMS2 ";
    if (t->bytes[0] == 'T' && !one_in(4))
        t->bytes[4] = (uint8_t)letters[below(sizeof letters - 1)];
    else
        t->bytes[one_in(2) ? 0 : any_place(t)] = 'M';
}

static void zero_byte(text *t)
{
    insert(t, one_in(2) ? t->length : any_place(t), 0);
}

static void high_bit(text *t)
{
    t->bytes[any_place(t)] |= 0x80;
}

static void cut(text *t)
{
    t->length = any_place(t);
}

static void empty(text *t)
{
    t->length = 0;
}

/* Up to a length, before the good line or behind it. */
static void stretch(text *t, size_t length)
{
    size_t at = one_in(2) ? 0 : t->length, more = length - t->length;
    uint8_t filler = one_in(2) ? ' ' : likely_byte();
    open_at(t, at, more);
    for (size_t i = 0; i < more; i++)
        t->bytes[at + i] = one_in(8) ? any_byte() : filler;
}

/* Round about the longest that a line may be. */
static void edge(text *t)
{
    stretch(t, LINE_BYTES - 1 + below(4));
}

/* A good line begins where a piece of 16 or 17 bytes has ended. */
static void good_line_behind(text *t)
{
    size_t piece = LINE_BYTES + below(2);
    stretch(t, t->length + piece * (1 + below(3)));
}

static void long_line(text *t)
{
    stretch(t, one_in(8) ? 1000 + below(LONGEST - 1000) : 20 + below(80));
}

static void (*const spoils[])(text *) = {
    change,        insert_byte, drop_byte, cut,       empty,    wrong_digit, dash,
    small_letters, zero_byte,   high_bit,  tab,       no_space, two_spaces,  carriage_return,
    space_before,  edge,        long_line, good_line_behind,    space_behind, wrong_letter,
};
#define SPOILS (sizeof spoils / sizeof spoils[0])

/* A bus access has a letter more than the others. */
static void spoil(text *t)
{
    if (t->bytes[0] == 'T' && one_in(3))
        wrong_letter(t);
    else
        spoils[below(SPOILS)](t);
}

/* ------------------------------------------------------------------ */
/* Bytes                                                               */
/* ------------------------------------------------------------------ */

static void put_byte(uint8_t byte)
{
    char answer[LINE_ANSWER];
    putchar(byte);
    lines_byte(&board, byte, answer);
}

static void put_line(const text *t)
{
    for (size_t i = 0; i < t->length; i++)
        put_byte(t->bytes[i]);
    put_byte('\n');
}

/* A spoiled line comes beside the good one, so no sequence lacks a call. */
static void put_lines(unsigned long wanted)
{
    static text good, spoiled;
    for (unsigned long i = 0; i < wanted; i++) {
        if (i > 0 && one_in(8)) {
            spoiled = good;
            spoil(&spoiled);
            put_line(&spoiled);
        } else {
            good_line(&good);
            put_line(&good);
        }
    }
}

static call any_call(void)
{
    call c = {CALL_START, {0}, any_byte()};
    c.name = (call_name)below(5);
    for (unsigned i = 0; i < 3; i++) /* small ones too, so that all directions come */
        c.number[i] = one_in(2) ? below(4) : any();
    return c;
}

/* A line's bytes without a line feed, line feeds, strays. */
static void any_piece(text *t)
{
    switch (below(8)) {
    case 0:
        t->bytes[0] = any_byte();
        t->length = 1;
        break;
    case 1:
        t->bytes[0] = likely_byte();
        t->length = 1;
        break;
    case 2:
    case 3:
    case 4:
        t->bytes[0] = '\n';
        t->length = 1;
        break;
    default:
        put_call(t, any_call());
        break;
    }
}

static void put_pieces(unsigned long wanted)
{
    static text t;
    for (unsigned long made = 0; made < wanted;) {
        any_piece(&t);
        for (size_t i = 0; i < t.length && made < wanted; i++, made++)
            put_byte(t.bytes[i]);
    }
}

static void put_noise(unsigned long wanted)
{
    for (unsigned long i = 0; i < wanted; i++)
        putchar((int)below(256));
}

int main(int argc, char **argv)
{
    const char *kind = argc == 4 ? argv[3] : "";
    if (argc != 3 && strcmp(kind, "pieces") != 0 && strcmp(kind, "noise") != 0) {
        fprintf(stderr, "script SEED LINES, or script SEED BYTES pieces|noise\n");
        return 2;
    }
    unsigned long wanted = strtoul(argv[2], NULL, 0);
    mix_begin(&calls, strtoull(argv[1], NULL, 0));
    lines_begin(&board);
    if (argc == 3)
        put_lines(wanted);
    else if (strcmp(kind, "pieces") == 0)
        put_pieces(wanted);
    else
        put_noise(wanted);
    return ferror(stdout) || fflush(stdout) != 0;
}
