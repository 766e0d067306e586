/*
 * The judging of an off-System trade. The trade price need not be on the
 * ladder, nor need the previous close, and there is no nine-fold rule.
 */
#include "plain_parts.h"

static uint32_t judge_price(uint32_t price, uint32_t lowest, uint32_t highest)
{
    if (!plain_within_ends(price))
        return 6;
    if (price < lowest)
        return 8;
    if (price > highest)
        return 9;
    return 0;
}

struct plain_answer plain_trade(uint32_t price, uint32_t previous_close,
                                uint32_t lowest_bid, uint32_t lowest_ask,
                                uint32_t highest_bid, uint32_t highest_ask)
{
    if (plain_outside(previous_close)
        || plain_off_ladder(lowest_bid) || plain_off_ladder(lowest_ask)
        || plain_off_ladder(highest_bid) || plain_off_ladder(highest_ask))
        return (struct plain_answer){3, 0, 0};
    if (plain_bad_pair(lowest_bid, highest_bid)
        || plain_bad_pair(lowest_ask, highest_ask))
        return (struct plain_answer){4, 0, 0};

    /* A missing previous close has missing limits. */
    uint32_t lowest = plain_least(plain_lower_limit(previous_close),
                                  lowest_bid, lowest_ask);
    uint32_t highest = plain_greatest(plain_upper_limit(previous_close),
                                      highest_bid, highest_ask);
    if (plain_missing(lowest))
        lowest = PLAIN_FIRST;
    if (plain_missing(highest))
        highest = PLAIN_LAST;
    uint32_t number = judge_price(price, lowest, highest);
    return (struct plain_answer){number, lowest, highest};
}
