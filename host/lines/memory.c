/*
 * memory PROGRAM: runs a program and prints on standard error how many
 * kilobytes it had at most, and its seconds.
 */
#define _DEFAULT_SOURCE
#include <stdio.h>
#include <sys/resource.h>
#include <sys/wait.h>
#include <unistd.h>

int main(int argc, char **argv)
{
    struct rusage used;
    int status;
    if (argc != 2)
        return 2;
    pid_t child = fork();
    if (child == 0) {
        execl(argv[1], argv[1], (char *)NULL);
        _exit(2);
    }
    if (child < 0 || wait4(child, &status, 0, &used) != child)
        return 2;
    fprintf(stderr, "%ld %.2f\n", used.ru_maxrss,
            (double)(used.ru_utime.tv_sec + used.ru_stime.tv_sec)
            + (double)(used.ru_utime.tv_usec + used.ru_stime.tv_usec) / 1e6);
    return WIFEXITED(status) ? WEXITSTATUS(status) : 2;
}
