/*
 * Prices drawn at random: on the ladder, around another price, or bad.
 */
#ifndef DRAW_PRICE_H
#define DRAW_PRICE_H

#include "draw.h"

/* Two ladder prices, between which the references of one draw lie. */
struct draw_span {
    uint32_t low, high;
};

/* A ladder price, often at a band edge or near an end of the ladder. */
uint32_t draw_price(struct draw *draw);

/* A ladder price from low to high, both ladder prices. */
uint32_t draw_between(struct draw *draw, uint32_t low, uint32_t high);

/* A span around a price: none, a few spreads, some percent, or everything. */
struct draw_span draw_span(struct draw *draw);

/* A ladder price of the span; now and then any other ladder price. */
uint32_t draw_reference(struct draw *draw, struct draw_span span);

/* The same for a reference that need not be on the ladder: it often lies one
 * mil from such a price or between it and the next, or is an end of the
 * ladder. */
uint32_t draw_loose_reference(struct draw *draw, struct draw_span span);

/* The ladder price at or below a price, or one spread to either side of it. */
uint32_t draw_beside(struct draw *draw, uint32_t price);

/* The price itself, one mil away from it, or what draw_beside gives. */
uint32_t draw_shifted(struct draw *draw, uint32_t price);

/* The first or the last ladder price. */
uint32_t draw_end(struct draw *draw);

/* One mil past either end of the ladder. */
uint32_t draw_past_end(struct draw *draw);

/* A number that lies outside of the ladder or anywhere at all. */
uint32_t draw_odd_price(struct draw *draw);

#endif
