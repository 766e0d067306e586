/*
 * A plain C pricecheck written for speed: what the program is measured
 * against. It judges with quick.c, and has an output buffer of its own.
 */
#include <stdint.h>
#include <stdio.h>
#include <unistd.h>

#include "quick_piece.h"

enum { LINE = 48 };

static char text[LINE * MOST + 16];

static int write_all(const char *from, size_t bytes)
{
    while (bytes > 0) {
        ssize_t done = write(1, from, bytes);
        if (done <= 0)
            return 0;
        from += done;
        bytes -= (size_t)done;
    }
    return 1;
}

/* A number in decimal, and a character after it. */
static char *put(char *to, uint32_t number, char after)
{
    char digits[10];
    int k = 0;
    do {
        digits[k++] = (char)('0' + number % 10);
        number /= 10;
    } while (number != 0);
    while (k > 0)
        *to++ = digits[--k];
    *to++ = after;
    return to;
}

int main(void)
{
    uint32_t number = 0;
    size_t bytes;
    do {
        bytes = next_piece();
        size_t count = bytes / QUICK_QUESTION_BYTES;
        size_t left = bytes % QUICK_QUESTION_BYTES;
        char *to = text;
        for (size_t k = 0; k < count; k++) {
            const uint8_t *question = questions + QUICK_QUESTION_BYTES * k;
            to = put(to, ++number, ' ');
            to = put(to, get(answers + 12 * k), ' ');
            to = put(to, get(answers + 12 * k + 4), ' ');
            to = put(to, get(answers + 12 * k + 8), ' ');
            to = put(to, get(question + 40), '\n');
        }
        if (left > 0)
            to += sprintf(to, "left %zu\n", left);
        if (!write_all(text, (size_t)(to - text)))
            return 1;
    } while (bytes == sizeof questions);
    return 0;
}
