/*
 * plainreport: dayreport by the plain count: what the program is tested
 * against. It reads a question at a time, counts by answer number, and prints
 * with printf once all is read. A number that has no line is an error.
 */
#include <inttypes.h>
#include <stdbool.h>
#include <stdio.h>

#include "plain.h"

enum { BUY, SELL, UNKNOWN, SIDES };

/* The numbers that a question can get: a line each. */
static const uint32_t lines[] = {0, 2, 3, 4, 5, 6, 7, 8, 9, 10, 15};
enum { LINES = sizeof lines / sizeof *lines, NUMBERS = 16 };

static bool has_line(uint32_t number)
{
    for (size_t i = 0; i < LINES; i++)
        if (lines[i] == number)
            return true;
    return false;
}

static int side_of(const uint8_t question[PLAIN_QUESTION_BYTES])
{
    switch (question[0]) {
    case 1:
        return BUY;
    case 2:
        return SELL;
    default:
        return UNKNOWN;
    }
}

int main(void)
{
    static uint64_t counts[NUMBERS][SIDES];
    uint64_t total = 0, shown = 0, sum = 0, smallest = 0, largest = 0;
    uint8_t question[PLAIN_QUESTION_BYTES];
    plain_begin();
    while (fread(question, 1, sizeof question, stdin) == sizeof question) {
        struct plain_answer answer = plain_question(question);
        if (!has_line(answer.number)) {
            fprintf(stderr, "plainreport: answer %u\n", answer.number);
            return 2;
        }
        counts[answer.number][side_of(question)]++;
        total++;
        if (answer.lowest == 0 && answer.highest == 0)
            continue;
        uint64_t width = answer.highest - answer.lowest;
        if (shown == 0 || width < smallest)
            smallest = width;
        if (shown == 0 || width > largest)
            largest = width;
        sum += width;
        shown++;
    }
    if (ferror(stdin))
        return 1;
    for (size_t i = 0; i < LINES; i++) {
        const uint64_t *count = counts[lines[i]];
        printf("%" PRIu32 " %" PRIu64 " %" PRIu64 " %" PRIu64 "\n", lines[i],
               count[BUY], count[SELL], count[UNKNOWN]);
    }
    printf("%" PRIu64 " %" PRIu64 " %" PRIu64 " %" PRIu64 "\n", shown, sum,
           smallest, largest);
    printf("%" PRIu64 "\n", total);
    return ferror(stdout) || fclose(stdout) != 0;
}
