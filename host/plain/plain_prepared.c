/*
 * The judging of an order price, given a range and a price for the nine-fold
 * rule: the checks run in number order, and the first that applies is the
 * answer. Nothing is taken for granted of the numbers: the lowest may be above
 * the highest, and each may be off the ladder or past its ends.
 */
#include "plain_parts.h"

/* Checks 6 to 10; 0 is acceptance. */
static uint32_t verdict(uint32_t price, struct plain_range range,
                        uint32_t against)
{
    if (!plain_within_ends(price))
        return 6;
    if (plain_place(price) < 0)
        return 7;
    if (price < range.lowest)
        return 8;
    if (price > range.highest)
        return 9;
    if (!plain_passes(price, against))
        return 10;
    return 0;
}

struct plain_answer plain_judge_prepared(uint32_t lowest, uint32_t highest,
                                         uint32_t nine_fold, uint32_t price)
{
    struct plain_range range = {lowest, highest};
    struct plain_range shown = plain_shown(range, nine_fold);
    return (struct plain_answer){verdict(price, range, nine_fold),
                                 shown.lowest, shown.highest};
}
