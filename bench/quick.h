/*
 * A plain C judge written for speed: what the library is measured against. It
 * uses band arithmetic, as the library does, over a constant table.
 */
#ifndef QUICK_H
#define QUICK_H

#include <stddef.h>
#include <stdint.h>

enum { QUICK_QUESTION_BYTES = 44 };

struct quick_outcome {
    uint32_t number, count;
};

/* A batch, as hendovita_judge_batch judges it. */
struct quick_outcome quick_judge_batch(const uint8_t *questions,
                                       size_t questions_len, uint8_t *answers,
                                       size_t answers_len);

#endif
