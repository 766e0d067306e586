/*
 * The nine-fold rule and the range that is shown.
 */
#include "plain_parts.h"

/* A missing N passes all. The products have 64 bits. */
bool plain_passes(uint32_t price, uint32_t n)
{
    return plain_missing(n)
        || (price < 9 * (uint64_t)n && 9 * (uint64_t)price > n);
}

/* The place of the first price to look at. Those before it are below the
 * lowest, or below a ninth of N, and fail. */
static int32_t start_place(uint32_t lowest, uint32_t n)
{
    int32_t place = plain_at_or_above(lowest);
    int32_t ninth = plain_at_or_below(n / 9);
    return place > ninth ? place : ninth;
}

/* The place of the last price to look at. Those after it are above the
 * highest, or above nine times N, and fail. */
static int32_t end_place(uint32_t highest, uint32_t n)
{
    int32_t place = plain_at_or_below(highest);
    uint64_t nine_times = 9 * (uint64_t)n;
    if (plain_missing(n) || nine_times > PLAIN_LAST)
        return place;
    int32_t last = plain_at_or_above((uint32_t)nine_times);
    return place < last ? place : last;
}

/*
 * The lowest and highest ladder price that are in a range and pass the
 * nine-fold rule, 0 and 0 if there are none. The lowest is looked for from
 * below, the highest from above, each until one passes.
 */
struct plain_range plain_shown(struct plain_range range, uint32_t n)
{
    const uint32_t *list = plain_list();
    int32_t start = start_place(range.lowest, n);
    int32_t end = end_place(range.highest, n);

    int32_t low = start;
    while (low <= end && !plain_passes(list[low], n))
        low++;
    int32_t high = end;
    while (high >= start && !plain_passes(list[high], n))
        high--;
    if (low > high)
        return (struct plain_range){0, 0};
    return (struct plain_range){list[low], list[high]};
}
