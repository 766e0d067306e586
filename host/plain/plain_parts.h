/*
 * What the files of the plain count use of one another.
 */
#ifndef PLAIN_PARTS_H
#define PLAIN_PARTS_H

#include "plain.h"

enum plain_side { PLAIN_BUY = 1, PLAIN_SELL };
enum plain_type { PLAIN_LIMIT = 1, PLAIN_ENHANCED, PLAIN_SPECIAL };
enum plain_queue {
    PLAIN_OPENING = 1,
    PLAIN_BOTH,
    PLAIN_BUY_ONLY,
    PLAIN_SELL_ONLY,
    PLAIN_NEITHER
};
enum plain_kind {
    PLAIN_BID = 1,
    PLAIN_ASK,
    PLAIN_NO_BUYERS,
    PLAIN_NO_SELLERS,
    PLAIN_TRADE
};

/* A question, read from its bytes. */
struct plain_order {
    uint8_t side, type, queue, zero;
    uint32_t price;
    uint32_t bid, ask, last_bid, last_ask;
    uint32_t previous_close, day_low, day_high, nominal;
    uint32_t security_code;
};

struct plain_range {
    uint32_t lowest, highest;
};

/* plain_ladder.c, plain_limits.c: the parts of plain_use, by the table counted
 * from 0, and of plain_begin, to be called in this order, for the table in
 * use. */
void plain_use_ladder(uint32_t table);
void plain_use_limits(uint32_t table);
void plain_begin_ladder(void);
void plain_begin_limits(void);

/* plain_ladder.c: is a price within the ends of the ladder, both included? */
bool plain_within_ends(uint32_t price);

/* Of any number: the place of the first entry that is not below it, one past
 * the list if each is; and of the last that is not above it, -1 if each is. */
int32_t plain_at_or_above(uint32_t price);
int32_t plain_at_or_below(uint32_t price);

/* plain_reference.c */
bool plain_missing(uint32_t reference);
bool plain_off_ladder(uint32_t reference);
bool plain_outside(uint32_t reference);
bool plain_bad_pair(uint32_t low, uint32_t high);
uint32_t plain_least(uint32_t a, uint32_t b, uint32_t c);
uint32_t plain_greatest(uint32_t a, uint32_t b, uint32_t c);

/* plain_nine_fold.c: these take any numbers at all. */
bool plain_passes(uint32_t price, uint32_t n);
struct plain_range plain_shown(struct plain_range range, uint32_t n);

/* plain_range.c */
bool plain_has_bid(const struct plain_order *order);
bool plain_has_ask(const struct plain_order *order);
bool plain_has_opposite(const struct plain_order *order);
struct plain_range plain_order_range(const struct plain_order *order);

/* plain_event.c */
uint32_t plain_turned_away(struct plain_event event, uint32_t current_bid,
                           uint32_t current_ask);

/* plain_fill.c */
uint8_t plain_queues(uint32_t current_bid, uint32_t current_ask);
void plain_write(const struct plain_kept *kept, uint8_t queue,
                 struct plain_asked asked,
                 uint8_t question[PLAIN_QUESTION_BYTES]);

#endif
