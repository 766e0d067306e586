/*
 * A plain C day book written for speed: what the library's is measured
 * against. Its calls are the library's: a day goes in and comes back by value.
 */
#ifndef QUICK_DAY_H
#define QUICK_DAY_H

#include <stddef.h>
#include <stdint.h>

/* The prices in the order of struct hendovita_day. */
struct quick_day {
    uint32_t close;
    uint32_t bid, ask, last_bid, last_ask;
    uint32_t lowest_bid, highest_bid, lowest_ask, highest_ask;
    uint32_t day_low, day_high;
};

struct quick_entered {
    uint32_t number;
    struct quick_day day;
};

/* Each answers what the library's call of this name answers. */
struct quick_entered quick_open_day(uint32_t close);
struct quick_entered quick_enter_event(struct quick_day day, uint32_t kind,
                                       uint32_t price);
uint32_t quick_fill_question(struct quick_day day, uint8_t side, uint8_t type,
                             uint32_t price, uint32_t nominal, uint32_t code,
                             uint8_t *question, size_t len);

#endif
