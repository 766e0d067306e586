/*
 * breaks PROGRAM FILE: runs a program whose input gives the bytes of the file
 * and then fails: a pipe that stays open and does not wait. The file is no
 * longer than the pipe, which is made larger than the pieces that a program
 * reads.
 */
#define _GNU_SOURCE
#include <fcntl.h>
#include <stdio.h>
#include <unistd.h>

int main(int argc, char **argv)
{
    static char bytes[131072];
    int ends[2];
    if (argc != 3 || pipe(ends) != 0
        || fcntl(ends[0], F_SETFL, O_NONBLOCK) != 0
        || fcntl(ends[1], F_SETPIPE_SZ, (int)sizeof bytes) < (int)sizeof bytes)
        return 2;
    FILE *file = fopen(argv[2], "r");
    if (file == NULL)
        return 2;
    size_t length = fread(bytes, 1, sizeof bytes, file);
    if (write(ends[1], bytes, length) != (ssize_t)length
        || dup2(ends[0], STDIN_FILENO) < 0)
        return 2;
    execl(argv[1], argv[1], (char *)NULL);
    return 2;
}
