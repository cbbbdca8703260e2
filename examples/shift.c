/* A host whose board outlives the night: at the end of a shift it saves the image
 * of its two MMUs in a file, and in the morning it takes the board up again.
 *
 *     shift evening FILE    a day's work, then the image goes into FILE
 *     shift morning FILE    the board of FILE, or in plain words why not
 *     shift                 shows both with a file of its own, and what becomes
 *                           of files that are cut off, damaged or missing
 *
 * A power cut at any moment leaves the old file or the new one whole: the image
 * is written into a file beside it, which takes its name only when all of it is
 * on the disk.
 *
 *     examples/run shift
 */
#define _XOPEN_SOURCE 700 /* for fsync, mkdtemp and P_tmpdir */
#include <errno.h>
#include <fcntl.h>
#include <inttypes.h>
#include <stdbool.h>
#include <stdio.h>
#include <stdlib.h>
#include <string.h>
#include <unistd.h>
#include "cleftromi.h"

enum { UNITS = 2 };
enum { USER_DATA = 1 }; /* a function code of the 68010 */

static uint8_t board[CLEFTROMI_STATE_BYTES];

/* ------------------------------------------------------------------ */
/* What a refusal means                                                */
/* ------------------------------------------------------------------ */

/* Of an image that was to be taken up. */
static const char *why_not_restored(unsigned refusal)
{
    switch (refusal) {
    case CLEFTROMI_REFUSED_BLOCK:
        return "this program lends too few bytes for a board (a mistake in it, not in the file)";
    case CLEFTROMI_REFUSED_IMAGE_LENGTH:
        return "it is no image by its length: it was cut off, or is some other file";
    case CLEFTROMI_REFUSED_IMAGE_CHECK:
        return "its bytes do not add up: some were damaged on the way";
    case CLEFTROMI_REFUSED_IMAGE_FIELDS:
        return "it adds up, but no board can be in such a state: it was changed, or put together wrongly";
    default:
        return "for a reason that this program does not know";
    }
}

/* Of a board that was to be saved. */
static const char *why_not_saved(unsigned refusal)
{
    switch (refusal) {
    case CLEFTROMI_REFUSED_BLOCK:
        return "this program lends too few bytes for a board (a mistake in it)";
    case CLEFTROMI_REFUSED_COUNT:
        return "there is no board in these bytes: none was started";
    case CLEFTROMI_REFUSED_IMAGE_LENGTH:
        return "the room for the image is that of another count of units (a mistake in this program)";
    case CLEFTROMI_REFUSED_IMAGE_FIELDS:
        return "it could not be taken up again: something else than the library has written into the board";
    default:
        return "for a reason that this program does not know";
    }
}

/* ------------------------------------------------------------------ */
/* Files                                                               */
/* ------------------------------------------------------------------ */

/* The file, and the name under which a new one is written beside it. */
typedef struct {
    char path[4096], beside[4096 + 8], directory[4096];
} place;

static bool find_place(place *p, const char *path)
{
    size_t length = strlen(path);
    if (length == 0 || length >= sizeof p->path) {
        fprintf(stderr, "the name of the file is too long, or empty\n");
        return false;
    }
    memcpy(p->path, path, length + 1);
    snprintf(p->beside, sizeof p->beside, "%s.new", path);
    memcpy(p->directory, path, length + 1);
    char *slash = strrchr(p->directory, '/');
    if (slash == NULL)
        memcpy(p->directory, ".", 2);
    else
        slash[slash == p->directory ? 1 : 0] = '\0';
    return true;
}

static bool failed(const char *what, const char *path)
{
    fprintf(stderr, "%s %s: %s\n", what, path, strerror(errno));
    return false;
}

/* All bytes, also where the system takes them a few at a time. */
static bool write_all(int file, const uint8_t *bytes, size_t length)
{
    while (length > 0) {
        ssize_t n = write(file, bytes, length);
        if (n < 0 && errno != EINTR)
            return false;
        if (n > 0) {
            bytes += n;
            length -= (size_t)n;
        }
    }
    return true;
}

/* Onto the disk, not only on its way there. */
static bool write_beside(const place *p, const uint8_t *bytes, size_t length)
{
    int file = open(p->beside, O_WRONLY | O_CREAT | O_TRUNC, 0666);
    if (file < 0)
        return failed("can't make", p->beside);
    bool good = write_all(file, bytes, length) && fsync(file) == 0;
    if (!good)
        failed("can't write", p->beside);
    if (close(file) != 0 && good)
        good = failed("can't write", p->beside);
    return good;
}

/* Even the name is on the disk only when the directory is. */
static bool keep_names(const place *p)
{
    int directory = open(p->directory, O_RDONLY);
    bool good = directory >= 0 && fsync(directory) == 0;
    if (!good)
        failed("can't be sure of the names in", p->directory);
    if (directory >= 0)
        close(directory);
    return good;
}

/* Where anything fails before the new file has the name, the old one is as it
 * was. */
static bool put_file(const place *p, const uint8_t *bytes, size_t length)
{
    bool written = write_beside(p, bytes, length);
    if (written && rename(p->beside, p->path) != 0)
        written = failed("can't replace", p->path);
    if (!written) {
        unlink(p->beside);
        printf("the image could not be written: what stood in the file still stands there.\n");
        return false;
    }
    if (keep_names(p))
        return true;
    printf("the image is written, but after a power cut the file may be the old one.\n");
    return false;
}

/* No more than one byte beyond the longest image: that is enough to see that a
 * file is none.  False where there is no file, or it can't be read. */
static bool get_file(const place *p, uint8_t *bytes, size_t room, size_t *length)
{
    int file = open(p->path, O_RDONLY);
    *length = 0;
    if (file < 0)
        return failed("can't open", p->path);
    while (*length < room) {
        ssize_t n = read(file, bytes + *length, room - *length);
        if (n < 0 && errno == EINTR)
            continue;
        if (n < 0) {
            failed("can't read", p->path);
            close(file);
            return false;
        }
        if (n == 0)
            break;
        *length += (size_t)n;
    }
    close(file);
    return true;
}

/* ------------------------------------------------------------------ */
/* The board                                                           */
/* ------------------------------------------------------------------ */

static uint64_t granted(const char *what, uint64_t answer)
{
    if (cleftromi_refusal(answer) == 0)
        return answer;
    fprintf(stderr, "%s: refused (%u)\n", what, cleftromi_refusal(answer));
    exit(1);
}

static void start(void)
{
    granted("start", cleftromi_start(board, sizeof board, UNITS, 0));
}

static void set(unsigned unit, unsigned address, uint8_t value)
{
    granted("register write", cleftromi_register(board, sizeof board, unit, address, CLEFTROMI_WRITE, value));
}

static uint8_t get(unsigned unit, unsigned address)
{
    return cleftromi_byte(
        granted("register read", cleftromi_register(board, sizeof board, unit, address, CLEFTROMI_READ, 0)));
}

static void load(unsigned unit, unsigned descriptor, const uint8_t segment[9])
{
    for (unsigned n = 0; n < 9; n++)
        set(unit, CLEFTROMI_AC0 + n, segment[n]);
    set(unit, CLEFTROMI_DP, (uint8_t)descriptor);
    if (get(unit, CLEFTROMI_LOAD) != 0)
        printf("  descriptor %u of unit %u clashes\n", descriptor, unit);
}

static void touch(unsigned function_code, unsigned direction, uint32_t address)
{
    uint64_t a = granted("access", cleftromi_access(board, sizeof board, function_code, direction, address));
    printf("  %s $%06" PRIX32 ": ", direction == CLEFTROMI_READ ? "read " : "write", address);
    if (cleftromi_kind(a) == CLEFTROMI_MAPPED)
        printf("$%06" PRIX32 " by descriptor %u of unit %u\n", cleftromi_address(a), cleftromi_descriptor(a),
               cleftromi_unit(a));
    else
        printf("%s\n", cleftromi_kind(a) == CLEFTROMI_VIOLATION ? "write violation" : "undefined");
}

/* Whether the segment was written to is not lost with the night. */
static void show_status(unsigned unit, unsigned descriptor)
{
    set(unit, CLEFTROMI_DP, (uint8_t)descriptor);
    uint8_t status = get(unit, CLEFTROMI_SSR);
    printf("  descriptor %u of unit %u has status $%02X:%s%s\n", descriptor, unit, status,
           status & CLEFTROMI_SSR_U ? " used" : " not used", status & CLEFTROMI_SSR_M ? ", written" : "");
}

/* The label program's segment in unit 0, the labels in unit 1. */
static void work_a_day(void)
{
    static const uint8_t program[9] = {0x40, 0x00, 0xC0, 0x00, 0x80, 0x00, 0x01, CLEFTROMI_SSR_E, 0x7F};
    static const uint8_t labels[9] = {0x90, 0x00, 0xF0, 0x00, 0xE0, 0x00, 0x01, CLEFTROMI_SSR_E, 0xFF};
    start();
    set(0, CLEFTROMI_AST(USER_DATA), 0x01);
    load(0, 4, program);
    load(1, 9, labels);
    touch(USER_DATA, CLEFTROMI_READ, 0x7FFF12);
    touch(USER_DATA, CLEFTROMI_WRITE, 0x912345);
}

/* ------------------------------------------------------------------ */
/* Evening and morning                                                 */
/* ------------------------------------------------------------------ */

static bool save(const place *p)
{
    uint8_t image[CLEFTROMI_IMAGE_BYTES(UNITS)];
    unsigned refusal = cleftromi_refusal(cleftromi_save(board, sizeof board, image, sizeof image));
    if (refusal != 0) {
        printf("the board is not saved (%u): %s.\n", refusal, why_not_saved(refusal));
        printf("  Board and file are as they were.\n");
        return false;
    }
    if (!put_file(p, image, sizeof image))
        return false;
    printf("the board is saved: %u bytes.\n", (unsigned)sizeof image);
    return true;
}

static bool evening(const char *path)
{
    place p;
    if (!find_place(&p, path))
        return false;
    printf("a day's work:\n");
    work_a_day();
    return save(&p);
}

/* The library takes any length and says whether it is one of an image.  How many
 * units the board has then, the image decides: it may be another host's. */
static bool restore(const place *p, unsigned *units)
{
    static uint8_t image[CLEFTROMI_IMAGE_BYTES(6) + 1];
    size_t length;
    if (!get_file(p, image, sizeof image, &length)) {
        printf("there is no image to take up.\n");
        return false;
    }
    unsigned refusal = cleftromi_refusal(cleftromi_restore(board, sizeof board, image, length));
    if (refusal != 0) {
        printf("the image is refused (%u): %s.\n", refusal, why_not_restored(refusal));
        return false;
    }
    *units = (unsigned)(length / CLEFTROMI_IMAGE_BYTES(1));
    printf("the board is taken up: %u unit%s.\n", *units, *units == 1 ? "" : "s");
    return true;
}

/* A board is started first, so that there is one whatever the file has: a refusal
 * leaves it as it is. */
static bool morning(const char *path)
{
    static uint8_t fresh[sizeof board];
    unsigned units;
    place p;
    if (!find_place(&p, path))
        return false;
    start();
    memcpy(fresh, board, sizeof board);
    if (!restore(&p, &units)) {
        printf("  %s\n", memcmp(fresh, board, sizeof board) == 0
                              ? "Nothing was changed: the board is the one that was started."
                              : "And the board was changed, which must not be.");
        return false;
    }
    if (units != UNITS) {
        printf("  But this host has %u: the image is another board's, and this one is started anew.\n",
               (unsigned)UNITS);
        start();
        return false;
    }
    touch(USER_DATA, CLEFTROMI_READ, 0x7FFF12);
    show_status(1, 9);
    return true;
}

/* ------------------------------------------------------------------ */
/* The demonstration                                                   */
/* ------------------------------------------------------------------ */

static char directory[] = P_tmpdir "/shift-XXXXXX";
static char path[sizeof directory + 8];

/* Not as put_file does it: these are files that went wrong. */
static void spoil(const uint8_t *bytes, size_t length)
{
    FILE *f = fopen(path, "wb");
    if (f == NULL || fwrite(bytes, 1, length, f) != length || fclose(f) != 0) {
        fprintf(stderr, "can't write %s: %s\n", path, strerror(errno));
        exit(1);
    }
}

static void try_morning(const char *what, const uint8_t *bytes, size_t length)
{
    printf("\nA morning with %s:\n", what);
    spoil(bytes, length);
    morning(path);
}

/* Takes one from the check where one was added before it. */
static void mend(uint8_t *block)
{
    unsigned check = block[510] * 256u + block[511] - 1;
    block[510] = (uint8_t)(check >> 8);
    block[511] = (uint8_t)check;
}

static void go_wrong(void)
{
    static uint8_t image[CLEFTROMI_IMAGE_BYTES(6) + 1];
    size_t length, whole = CLEFTROMI_IMAGE_BYTES(UNITS);
    place p;
    if (!find_place(&p, path) || !get_file(&p, image, whole, &length))
        exit(1);
    try_morning("a file that was cut off", image, 1000);
    try_morning("an empty file", image, 0);
    try_morning("a file that is too long", image, sizeof image);
    image[512 + 333] = 1; /* one of the bytes that are zero */
    try_morning("a damaged byte", image, whole);
    mend(image + 512);
    try_morning("a byte that no board has, and a check that fits it", image, whole);
    printf("\nA morning without a file:\n");
    unlink(path);
    morning(path);
}

/* What else can be refused is a mistake of the host. */
static void mistakes(void)
{
    uint8_t image[CLEFTROMI_IMAGE_BYTES(UNITS)];
    unsigned refusal = cleftromi_refusal(cleftromi_save(board, sizeof board, image, sizeof image - 1));
    printf("\nA room for the image that is too short: (%u) %s.\n", refusal, why_not_saved(refusal));
    refusal = cleftromi_refusal(cleftromi_restore(board, sizeof board - 1, image, sizeof image));
    printf("A block that is too short: (%u) %s.\n", refusal, why_not_restored(refusal));
    memset(board, 0xFF, sizeof board);
    refusal = cleftromi_refusal(cleftromi_save(board, sizeof board, image, sizeof image));
    printf("Bytes that are no board: (%u) %s.\n", refusal, why_not_saved(refusal));
    board[0] = UNITS;
    refusal = cleftromi_refusal(cleftromi_save(board, sizeof board, image, sizeof image));
    printf("A board that something else has written into: (%u) %s.\n", refusal, why_not_saved(refusal));
}

static bool demonstration(void)
{
    if (mkdtemp(directory) == NULL)
        return failed("can't make", directory);
    snprintf(path, sizeof path, "%s/image", directory);
    printf("Evening:\n");
    bool good = evening(path);
    printf("\nMorning, in a program that has just been started:\n");
    memset(board, 0, sizeof board);
    good = good && morning(path);
    if (good) {
        go_wrong();
        mistakes();
    }
    unlink(path);
    rmdir(directory);
    return good;
}

int main(int argc, char **argv)
{
    bool good;
    if (argc == 1)
        good = demonstration();
    else if (argc == 3 && strcmp(argv[1], "evening") == 0)
        good = evening(argv[2]);
    else if (argc == 3 && strcmp(argv[1], "morning") == 0)
        good = morning(argv[2]);
    else {
        fprintf(stderr, "shift evening FILE, shift morning FILE, or shift\n");
        return 2;
    }
    return good ? 0 : 1;
}
