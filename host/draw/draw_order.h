/*
 * The price and the nominal of an order, drawn by the range of its question.
 */
#ifndef DRAW_ORDER_H
#define DRAW_ORDER_H

#include "draw.h"

/* A nominal that puts an edge of the nine-fold rule at the range; the one that
 * the question has where it has no range. */
uint32_t draw_far_nominal(struct draw *draw,
                          const uint8_t question[PLAIN_QUESTION_BYTES]);

/* An order price at or near an end of a range, inside it, or anywhere. */
uint32_t draw_order_price(struct draw *draw,
                          const uint8_t question[PLAIN_QUESTION_BYTES]);

#endif
