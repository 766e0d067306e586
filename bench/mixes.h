/*
 * The two mixes that are timed, of questions, and of events with orders between
 * them. The same seed gives the same mix.
 */
#ifndef MIXES_H
#define MIXES_H

#include <stdint.h>

#include "draw.h"
#include "hendovita.h"
#include "plain.h"

/*
 * An order as they mostly come in: a price over 0.50 to 50 with bid and ask a
 * few spreads apart, close, day low and high, last quotes and nominal within
 * some percent of them, the order price near the quotes. Most have both
 * queues, most are limit orders, nearly all are accepted.
 */
void mix_usual(struct draw *draw, uint8_t question[HENDOVITA_QUESTION_BYTES]);

/*
 * Anything: codes and references at random over the whole ladder, the order
 * price anywhere on it; a fifth of the questions is damaged in one byte.
 */
void mix_random(struct draw *draw, uint8_t question[HENDOVITA_QUESTION_BYTES]);

/* An order price against such a question: near the quotes; anywhere. */
uint32_t mix_usual_price(struct draw *draw,
                         const uint8_t question[HENDOVITA_QUESTION_BYTES]);
uint32_t mix_random_price(struct draw *draw,
                          const uint8_t question[HENDOVITA_QUESTION_BYTES]);

/*
 * An event as they mostly come: a bid or an ask a few spreads from the other
 * one, now and then a trade at one of them, seldom an empty queue. All are
 * accepted. An order is near the quotes, as those of mix_usual.
 */
struct plain_event mix_usual_event(struct draw *draw,
                                   const struct plain_kept *kept);
struct plain_asked mix_usual_order(struct draw *draw,
                                   const struct plain_kept *kept);

/* Anything: as in the host tests, over the whole ladder. */
struct plain_event mix_random_event(struct draw *draw,
                                    const struct plain_kept *kept);
struct plain_asked mix_random_order(struct draw *draw,
                                    const struct plain_kept *kept);

#endif
