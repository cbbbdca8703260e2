/* peak FILE PROGRAM ARGS..: runs a program, and writes to the file how many
 * kilobytes it had in memory at most. */
#define _XOPEN_SOURCE 700
#include <stdio.h>
#include <sys/resource.h>
#include <sys/wait.h>
#include <unistd.h>

static int write_peak(const char *name)
{
    struct rusage used;
    FILE *to = fopen(name, "w");
    if (to == NULL || getrusage(RUSAGE_CHILDREN, &used) != 0)
        return 1;
    fprintf(to, "%ld\n", used.ru_maxrss);
    return fclose(to) != 0;
}

int main(int argc, char **argv)
{
    int status;
    if (argc < 3)
        return 2;
    pid_t child = fork();
    if (child == 0) {
        execvp(argv[2], argv + 2);
        _exit(127);
    }
    if (child < 0 || waitpid(child, &status, 0) != child || write_peak(argv[1]) != 0)
        return 2;
    return WIFEXITED(status) ? WEXITSTATUS(status) : 128 + WTERMSIG(status);
}
