/* terminal PROGRAM ARGS..: speaks with a program at a pseudo-terminal, as one
 * does by hand: sends a line of standard input, prints the line that answers it,
 * and only then sends the next.
 * terminal -p PROGRAM ARGS..: the same through two pipes.
 * A last line without its line feed is answered at the end of input. */
#define _DEFAULT_SOURCE
#define _XOPEN_SOURCE 700
#include <fcntl.h>
#include <poll.h>
#include <signal.h>
#include <stdbool.h>
#include <stdio.h>
#include <stdlib.h>
#include <string.h>
#include <sys/ioctl.h>
#include <sys/wait.h>
#include <termios.h>
#include <unistd.h>

#ifndef PATIENCE
#define PATIENCE 20000 /* milliseconds for an answer */
#endif
#define LONGEST 4096 /* what a terminal takes in one line */

static bool at_terminal;
static pid_t child;
static int to_program, from_program;
static unsigned long sent;

static void fail(const char *why)
{
    printf("\nafter %lu lines: %s\n", sent, why);
    if (child > 0)
        kill(child, SIGKILL);
    exit(1);
}

/* ------------------------------------------------------------------ */
/* The program                                                         */
/* ------------------------------------------------------------------ */

static void become(char **command, int in, int out)
{
    if (dup2(in, STDIN_FILENO) < 0 || dup2(out, STDOUT_FILENO) < 0)
        _exit(127);
    execvp(command[0], command);
    _exit(127);
}

static void start_at_pipes(char **command)
{
    int in[2], out[2];
    if (pipe(in) != 0 || pipe(out) != 0 || (child = fork()) < 0)
        fail("there are no pipes");
    if (child == 0) {
        close(in[1]);
        close(out[0]);
        become(command, in[0], out[1]);
    }
    close(in[0]);
    close(out[1]);
    to_program = in[1];
    from_program = out[0];
}

/* Lines as usual; without the echo all that comes back is the program's. */
static void set_up(int terminal)
{
    struct termios settings;
    if (tcgetattr(terminal, &settings) != 0)
        fail("the terminal has no settings");
    settings.c_lflag |= ICANON;
    settings.c_lflag &= ~(tcflag_t)ECHO;
    settings.c_oflag &= ~(tcflag_t)OPOST;
    settings.c_cc[VEOF] = 4;
    if (tcsetattr(terminal, TCSANOW, &settings) != 0)
        fail("the terminal can't be set up");
}

static void start_at_terminal(char **command)
{
    int own = posix_openpt(O_RDWR | O_NOCTTY);
    if (own < 0 || grantpt(own) != 0 || unlockpt(own) != 0)
        fail("there is no terminal");
    int terminal = open(ptsname(own), O_RDWR | O_NOCTTY);
    if (terminal < 0)
        fail("the terminal can't be opened");
    set_up(terminal);
    if ((child = fork()) < 0)
        fail("there is no process");
    if (child == 0) {
        close(own);
        setsid();
        ioctl(terminal, TIOCSCTTY, 0);
        become(command, terminal, terminal);
    }
    close(terminal);
    to_program = from_program = own;
}

/* ------------------------------------------------------------------ */
/* The talk                                                            */
/* ------------------------------------------------------------------ */

static void say(const char *text, size_t length)
{
    while (length > 0) {
        ssize_t written = write(to_program, text, length);
        if (written <= 0)
            fail("the program takes no more input");
        text += written;
        length -= (size_t)written;
    }
}

/* A byte, or EOF when the program has closed its output. */
static int hear(void)
{
    struct pollfd waiting = {from_program, POLLIN, 0};
    unsigned char byte;
    if (poll(&waiting, 1, PATIENCE) <= 0)
        fail("nothing came");
    return read(from_program, &byte, 1) == 1 ? byte : EOF;
}

static void hear_line(void)
{
    int byte;
    do {
        if ((byte = hear()) == EOF)
            fail("the program has ended");
        putchar(byte);
    } while (byte != '\n');
}

/* At a terminal the first end of input only sends a line that has begun. */
static void end_input(bool begun)
{
    if (!at_terminal)
        close(to_program);
    else
        say("\4\4", begun ? 2 : 1);
}

static int end(void)
{
    int byte, status;
    while ((byte = hear()) != EOF)
        putchar(byte);
    if (waitpid(child, &status, 0) != child || !WIFEXITED(status) || WEXITSTATUS(status) != 0)
        fail("the program ended with another status than 0");
    return ferror(stdout) || fflush(stdout) != 0;
}

int main(int argc, char **argv)
{
    static char text[LONGEST];
    bool begun = false;
    at_terminal = argc > 1 && strcmp(argv[1], "-p") != 0;
    if (argc < (at_terminal ? 2 : 3))
        return 2;
    signal(SIGPIPE, SIG_IGN);
    if (at_terminal)
        start_at_terminal(argv + 1);
    else
        start_at_pipes(argv + 2);
    while (fgets(text, sizeof text, stdin) != NULL) {
        size_t length = strlen(text);
        begun = text[length - 1] != '\n';
        say(text, length);
        sent++;
        if (!begun)
            hear_line();
    }
    end_input(begun);
    return end();
}
