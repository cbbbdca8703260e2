/* The bench's lines, over the model: document 01, "The bench program", of document
 * 02 the M of P1 and the reason of P4, and ruling 11.  Written from the papers alone, as the model is. */
#ifndef LINES_H
#define LINES_H

#include <stdbool.h>
#include <stddef.h>
#include <stdint.h>
#include "model.h"

/* A line, without its line feed, is at most this long; a longer one is bad. */
#define LINE_BYTES 16u

/* An answer with its line feed, and a zero byte behind it. */
#define LINE_ANSWER 32u

/* A good line: its letter, and its numbers in their order. */
typedef struct {
    char letter;
    uint32_t number[3];
} line;

/* False for a line that has none of the forms. */
bool line_read(line *l, const uint8_t *text, size_t length);

model_answer line_call(line l, model *m);

/* Writes the text of an answer, with its line feed, and gives its length. */
size_t line_answer(char *out, model_answer a);

/* The whole program: its state, and the line that is coming in. */
typedef struct {
    model m;
    uint8_t text[LINE_BYTES];
    size_t length; /* LINE_BYTES + 1 for every longer line */
} lines;

/* Before a good S the count of units is 0. */
void lines_begin(lines *s);

/* One byte of input.  Writes the answer where the byte ends a line, and gives
 * its length, or 0. */
size_t lines_byte(lines *s, uint8_t byte, char *out);

/* The end of input, which ends a line that has begun. */
size_t lines_end(lines *s, char *out);

#endif
