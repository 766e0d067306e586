/*
 * Judges the questions on standard input, at most a batch, so many times over:
 * judged library 10, or judged quick 10. The script bench/instructions counts
 * what that takes.
 */
#include <stdio.h>
#include <stdlib.h>
#include <string.h>

#include "hendovita.h"
#include "quick.h"

enum { MOST = 1000 };

static uint8_t questions[MOST * HENDOVITA_QUESTION_BYTES];
static uint8_t answers[MOST * 12];

int main(int count, char **words)
{
    size_t asked = fread(questions, HENDOVITA_QUESTION_BYTES, MOST, stdin);
    size_t bytes = asked * HENDOVITA_QUESTION_BYTES;
    size_t judged = 0;
    if (count != 3) {
        fprintf(stderr, "judged library|quick TIMES\n");
        return 2;
    }
    for (long left = atol(words[2]); left > 0; left--)
        judged = strcmp(words[1], "library") == 0
            ? hendovita_judge_batch(questions, bytes, answers,
                                    12 * asked).count
            : quick_judge_batch(questions, bytes, answers, 12 * asked).count;
    if (judged != asked) {
        fprintf(stderr, "a batch was refused\n");
        return 1;
    }
    return 0;
}
