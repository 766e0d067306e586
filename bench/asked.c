/*
 * Writes questions of a mix: asked usual 1000, or asked random 1000. They are
 * the same at every run.
 */
#include <stdio.h>
#include <stdlib.h>
#include <string.h>

#include "draw.h"
#include "hendovita.h"
#include "mixes.h"
#include "plain.h"

int main(int count, char **words)
{
    struct draw draw;
    if (count != 3
        || (strcmp(words[1], "usual") != 0 && strcmp(words[1], "random") != 0)) {
        fprintf(stderr, "asked usual|random COUNT\n");
        return 2;
    }
    plain_begin();
    draw_begin(&draw, 1);
    for (long left = atol(words[2]); left > 0; left--) {
        uint8_t question[HENDOVITA_QUESTION_BYTES];
        if (strcmp(words[1], "usual") == 0)
            mix_usual(&draw, question);
        else
            mix_random(&draw, question);
        fwrite(question, 1, sizeof question, stdout);
    }
    return fflush(stdout) == 0 ? 0 : 1;
}
