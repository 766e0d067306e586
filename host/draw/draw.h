/*
 * Questions and trades drawn from a seed, on the table that the plain count has
 * in use. The same seed gives the same draws on the same table.
 *
 * The draws are weighted so that every answer number comes up often, and so
 * that prices fall at band edges, at the ends of the ladder, at the ends of
 * the permitted and shown ranges and at the edges of the nine-fold rule.
 * Previous closes and nominals fall on the ladder, between its prices, and
 * past its ends. Most security codes are good, whatever else is wrong.
 */
#ifndef DRAW_H
#define DRAW_H

#include <stdbool.h>
#include <stdint.h>

#include "plain.h"

struct draw {
    uint64_t state;
};

/* plain_begin must have been called before questions or trades are drawn. */
void draw_begin(struct draw *draw, uint64_t seed);
void draw_question(struct draw *draw,
                   uint8_t question[PLAIN_QUESTION_BYTES]);

/* Trade price, previous close, lowest bid, lowest ask, highest bid, highest
 * ask: the order in which plain_trade takes them. */
void draw_trade(struct draw *draw, uint32_t fields[6]);

/* Any 64-bit number. */
uint64_t draw_number(struct draw *draw);

/* A number from 0 to n - 1; 0 if n is 0. */
uint32_t draw_below(struct draw *draw, uint32_t n);

/* True once in n times. */
bool draw_one_in(struct draw *draw, uint32_t n);

#endif
