/*
 * A plain C dayreport written for speed: what the program is measured against.
 * It judges with quick.c, counts as it goes, and prints the page at the end.
 */
#include <inttypes.h>
#include <stdint.h>
#include <stdio.h>

#include "quick_piece.h"

enum { BUY, SELL, UNKNOWN, SIDES };
enum { NUMBERS = 16 };

/* By answer number and side. */
static uint64_t counts[NUMBERS][SIDES];

/* The widths of the ranges that are shown. */
static uint64_t ranges, sum;
static uint32_t smallest = UINT32_MAX, largest;

static void count(const uint8_t *question, const uint8_t *answer)
{
    uint32_t side = question[0] - 1U;
    uint32_t lowest = get(answer + 4), highest = get(answer + 8);
    uint32_t width = highest - lowest;
    counts[get(answer)][side < UNKNOWN ? side : UNKNOWN]++;
    if ((lowest | highest) != 0) {
        ranges++;
        sum += width;
        smallest = width < smallest ? width : smallest;
        largest = width > largest ? width : largest;
    }
}

static int print_page(void)
{
    static const unsigned numbers[] = {0, 2, 3, 4, 5, 6, 7, 8, 9, 10, 15};
    uint64_t total = 0;
    for (size_t k = 0; k < sizeof numbers / sizeof *numbers; k++) {
        const uint64_t *by = counts[numbers[k]];
        printf("%u %" PRIu64 " %" PRIu64 " %" PRIu64 "\n", numbers[k], by[BUY],
               by[SELL], by[UNKNOWN]);
        total += by[BUY] + by[SELL] + by[UNKNOWN];
    }
    printf("%" PRIu64 " %" PRIu64 " %" PRIu32 " %" PRIu32 "\n", ranges, sum,
           ranges != 0 ? smallest : 0, largest);
    printf("%" PRIu64 "\n", total);
    return fflush(stdout) == 0;
}

int main(void)
{
    size_t bytes;
    do {
        bytes = next_piece();
        for (size_t k = 0; k < bytes / QUICK_QUESTION_BYTES; k++)
            count(questions + QUICK_QUESTION_BYTES * k, answers + 12 * k);
    } while (bytes == sizeof questions);
    return print_page() ? 0 : 1;
}
