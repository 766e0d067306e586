/*
 * Days drawn at random: a previous close, the events that follow, and orders
 * for questions that are filled from the day.
 *
 * Each draw is given what the day keeps, so that prices fall at and beside
 * the ones that decide. The span is where most prices of the day lie.
 */
#ifndef DRAW_EVENT_H
#define DRAW_EVENT_H

#include "draw_price.h"
#include "plain.h"

/* A previous close: none, a price on the ladder or between its prices, or one
 * that is turned away. */
uint32_t draw_close(struct draw *draw, struct draw_span span);

/* The next event. Each kind is accepted often and turned away often, with
 * every number that it can get. */
struct plain_event draw_event(struct draw *draw, struct draw_span span,
                              const struct plain_kept *kept);

/* A day of any eleven numbers. */
struct plain_kept draw_any_day(struct draw *draw, struct draw_span span);

/* draw_asked.c: an order, by the question that it gives. Codes are unknown,
 * and nominals and security codes bad, now and then. */
struct plain_asked draw_asked(struct draw *draw, struct draw_span span,
                              const struct plain_kept *kept);

#endif
