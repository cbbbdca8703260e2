#include <inttypes.h>
#include <stdio.h>
#include <string.h>
#include "lines.h"

/* ------------------------------------------------------------------ */
/* A line                                                              */
/* ------------------------------------------------------------------ */

/* n: a decimal digit.  m: a decimal digit or '-'.  x: a hexadecimal digit.
 * r: R, W or M.  A capital or a space stands for itself. */
static const char *const forms[] = {
    "S n m", "W n xx xx", "G n xx", "T x r xxxxxx", "A n",
};
#define FORMS (sizeof forms / sizeof forms[0])

#define NO_DIGIT UINT32_MAX

static uint32_t decimal(uint8_t byte)
{
    if (byte >= '0' && byte <= '9')
        return byte - (uint32_t)'0';
    return NO_DIGIT;
}

/* 01: "hex in capitals". */
static uint32_t hexadecimal(uint8_t byte)
{
    if (byte >= 'A' && byte <= 'F')
        return byte - (uint32_t)'A' + 10;
    return decimal(byte);
}

static uint32_t unit_or_none(uint8_t byte)
{
    if (byte == '-')
        return MODEL_NONE;
    return decimal(byte);
}

/* As the model has a direction: 0 reads, 1 writes; M is a read-modify-write. */
static uint32_t direction(uint8_t byte)
{
    if (byte == 'R')
        return 0;
    if (byte == 'W')
        return 1;
    if (byte == 'M')
        return MODEL_MODIFY;
    return NO_DIGIT;
}

static uint32_t digit(char kind, uint8_t byte)
{
    switch (kind) {
    case 'n':
        return decimal(byte);
    case 'm':
        return unit_or_none(byte);
    case 'x':
        return hexadecimal(byte);
    default:
        return direction(byte);
    }
}

static bool stands_for_itself(char kind)
{
    return kind == ' ' || (kind >= 'A' && kind <= 'Z');
}

/* A space begins the next number. */
static bool has_form(const char *form, line *l, const uint8_t *text, size_t length)
{
    int field = -1;
    if (length != strlen(form))
        return false;
    l->letter = form[0];
    for (size_t i = 0; i < length; i++) {
        if (stands_for_itself(form[i])) {
            if (text[i] != (uint8_t)form[i])
                return false;
            if (form[i] == ' ')
                l->number[++field] = 0;
            continue;
        }
        uint32_t value = digit(form[i], text[i]);
        if (value == NO_DIGIT)
            return false;
        l->number[field] = 16 * l->number[field] + value;
    }
    return true;
}

bool line_read(line *l, const uint8_t *text, size_t length)
{
    for (size_t i = 0; i < FORMS; i++)
        if (has_form(forms[i], l, text, length))
            return true;
    return false;
}

model_answer line_call(line l, model *m)
{
    switch (l.letter) {
    case 'S':
        return model_start(m, l.number[0], l.number[1]);
    case 'W':
        return model_register(m, l.number[0], l.number[1], 1, (uint8_t)l.number[2]);
    case 'G':
        return model_register(m, l.number[0], l.number[1], 0, 0);
    case 'T':
        return model_access(m, l.number[0], l.number[1], l.number[2]);
    default:
        return model_acknowledge(m, l.number[0]);
    }
}

/* ------------------------------------------------------------------ */
/* An answer                                                           */
/* ------------------------------------------------------------------ */

/* P4: unit and descriptor after U's IRQ. */
static void undefined_answer(char *out, model_answer a)
{
    if (a.near)
        sprintf(out, "U %u %u %02X\n", a.irq, a.unit, a.descriptor);
    else
        sprintf(out, "U %u - --\n", a.irq);
}

size_t line_answer(char *out, model_answer a)
{
    switch (a.kind) {
    case MODEL_DONE:
        sprintf(out, "ok %u\n", a.irq);
        break;
    case MODEL_BYTE:
        sprintf(out, "= %02X %u\n", a.byte, a.irq);
        break;
    case MODEL_MAPPED:
        sprintf(out, "P %06" PRIX32 " %u %02X %u %u\n", a.address, a.unit, a.descriptor, a.win, a.irq);
        break;
    case MODEL_VIOLATION:
        sprintf(out, "V %u %02X %u %u\n", a.unit, a.descriptor, a.win, a.irq);
        break;
    case MODEL_UNDEFINED:
        undefined_answer(out, a);
        break;
    default:
        sprintf(out, "no %u\n", a.refusal);
        break;
    }
    return strlen(out);
}

/* ------------------------------------------------------------------ */
/* The program                                                         */
/* ------------------------------------------------------------------ */

void lines_begin(lines *s)
{
    memset(s, 0, sizeof *s);
}

/* The line is complete; the next one begins. */
static size_t answer_line(lines *s, char *out)
{
    line l;
    size_t length = s->length;
    s->length = 0;
    if (length <= LINE_BYTES && line_read(&l, s->text, length))
        return line_answer(out, line_call(l, &s->m));
    strcpy(out, "bad\n");
    return strlen(out);
}

size_t lines_byte(lines *s, uint8_t byte, char *out)
{
    if (byte == '\n')
        return answer_line(s, out);
    if (s->length < LINE_BYTES)
        s->text[s->length] = byte;
    if (s->length <= LINE_BYTES)
        s->length++;
    return 0;
}

/* Ruling 11: the end of input after a line feed is no line. */
size_t lines_end(lines *s, char *out)
{
    if (s->length == 0)
        return 0;
    return answer_line(s, out);
}
