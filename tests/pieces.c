/* pieces 0: copies standard input to a pipe, a byte for each write.
 * pieces SEED: in pieces of random length.
 * A piece is written when the reader has taken the one before, so that each of
 * its reads brings one piece. */
#define _XOPEN_SOURCE 700
#include <stdbool.h>
#include <stdio.h>
#include <stdlib.h>
#include <sys/ioctl.h>
#include <time.h>
#include <unistd.h>
#include "mix.h"

#define LONGEST 40u
#define PAUSE 20000L /* nanoseconds */
#define PAUSES 500000u /* then the reader is taken for dead */

static bool taken(void)
{
    const struct timespec pause = {0, PAUSE};
    for (unsigned i = 0; i < PAUSES; i++) {
        int waiting;
        if (ioctl(STDOUT_FILENO, FIONREAD, &waiting) != 0)
            return false;
        if (waiting == 0)
            return true;
        nanosleep(&pause, NULL);
    }
    return false;
}

int main(int argc, char **argv)
{
    static mix random;
    static char piece[LONGEST];
    uint64_t seed = argc == 2 ? strtoull(argv[1], NULL, 0) : 0;
    size_t length;
    mix_begin(&random, seed);
    while ((length = fread(piece, 1, seed == 0 ? 1 : 1 + mix_below(&random, LONGEST), stdin)) > 0)
        if (write(STDOUT_FILENO, piece, length) != (ssize_t)length || !taken())
            return 1;
    return 0;
}
