/*
 * dribble: copies its input to its output in pieces of odd sizes, with a pause
 * after each, so that who reads from the pipe gets short reads.
 */
#define _POSIX_C_SOURCE 199309L
#include <stdio.h>
#include <time.h>
#include <unistd.h>

int main(void)
{
    static const size_t sizes[] = {1, 43, 44, 45, 7, 4096, 13, 1000, 65535, 3};
    static char piece[65536];
    const struct timespec pause = {0, 100000};
    size_t bytes, turn = 0;
    do {
        bytes = fread(piece, 1, sizes[turn++ % 10], stdin);
        if (write(STDOUT_FILENO, piece, bytes) != (ssize_t)bytes)
            return 1;
        nanosleep(&pause, NULL);
    } while (bytes > 0);
    return ferror(stdin) != 0;
}
