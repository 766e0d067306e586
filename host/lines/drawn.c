/*
 * drawn N SEED [TABLE]: writes N questions that are drawn on table 1, 2 or 3,
 * or on 2.
 */
#include <stdio.h>
#include <stdlib.h>

#include "draw.h"
#include "plain.h"

int main(int argc, char **argv)
{
    plain_begin();
    if (argc < 3 || argc > 4
        || (argc == 4 && !plain_use((uint32_t)strtoul(argv[3], NULL, 10)))) {
        fprintf(stderr, "usage: drawn N SEED [TABLE]\n");
        return 2;
    }
    struct draw draw;
    draw_begin(&draw, strtoull(argv[2], NULL, 10));
    for (unsigned long n = strtoul(argv[1], NULL, 10); n > 0; n--) {
        uint8_t question[PLAIN_QUESTION_BYTES];
        draw_question(&draw, question);
        fwrite(question, 1, sizeof question, stdout);
    }
    return ferror(stdout) || fclose(stdout) != 0;
}
