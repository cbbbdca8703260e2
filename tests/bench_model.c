/* The bench program by the model: standard input to standard output, in
 * constant memory.  What a read brings is answered before the next read. */
#include <errno.h>
#include <unistd.h>
#include "lines.h"

#define PIECE 4096u

static lines state;
static uint8_t in[PIECE];
static char out[(PIECE + 1) * LINE_ANSWER];

/* The bytes read, 0 at the end; input that can't be read has ended. */
static size_t next_piece(void)
{
    ssize_t got;
    do
        got = read(STDIN_FILENO, in, sizeof in);
    while (got < 0 && errno == EINTR);
    return got < 0 ? 0 : (size_t)got;
}

/* False if the reader has gone away. */
static bool put(size_t length)
{
    for (size_t at = 0; at < length;) {
        ssize_t written = write(STDOUT_FILENO, out + at, length - at);
        if (written < 0 && errno == EINTR)
            continue;
        if (written < 0)
            return false;
        at += (size_t)written;
    }
    return true;
}

static size_t answer_piece(size_t got)
{
    size_t length = 0;
    for (size_t i = 0; i < got; i++)
        length += lines_byte(&state, in[i], out + length);
    return length;
}

int main(void)
{
    size_t got;
    lines_begin(&state);
    while ((got = next_piece()) > 0)
        if (!put(answer_piece(got)))
            return 1;
    return put(lines_end(&state, out)) ? 0 : 1;
}
