/*
 * What the plain C programs share: a piece of a file of questions, judged by
 * quick.c, and numbers from bytes.
 */
#ifndef QUICK_PIECE_H
#define QUICK_PIECE_H

#include <stddef.h>
#include <stdint.h>
#include <unistd.h>

#include "quick.h"

enum { MOST = 1000 };

static uint8_t questions[QUICK_QUESTION_BYTES * MOST];
static uint8_t answers[12 * MOST];

/* Reads until the piece is full or the input ends, and judges the whole
 * questions of it. Answers its bytes. */
static inline size_t next_piece(void)
{
    size_t bytes = 0;
    while (bytes < sizeof questions) {
        ssize_t got = read(0, questions + bytes, sizeof questions - bytes);
        if (got <= 0)
            break;
        bytes += (size_t)got;
    }
    quick_judge_batch(questions, bytes - bytes % QUICK_QUESTION_BYTES, answers,
                      sizeof answers);
    return bytes;
}

static inline uint32_t get(const uint8_t *bytes)
{
    return bytes[0] | (uint32_t)bytes[1] << 8 | (uint32_t)bytes[2] << 16
        | (uint32_t)bytes[3] << 24;
}

#endif
