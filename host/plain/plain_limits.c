/*
 * The limits of a reference: 5 percent or 24 spreads, whichever is farther.
 *
 * The 5 percent limits of every ladder price of a table are found once, at the
 * start, by trying every ladder price of it. For a reference between two ladder
 * prices the trial goes on from the limits of the lower one: those of a higher
 * reference are no lower.
 */
#include "plain_parts.h"

/* Both by the place of the reference, and both are the place of the limit. */
struct limits {
    uint32_t lower_place[PLAIN_MOST];
    uint32_t upper_place[PLAIN_MOST];
};

/* By the table counted from 0; those of the table in use. */
static struct limits all[PLAIN_TABLES];
static struct limits *limits = all;

void plain_use_limits(uint32_t table)
{
    limits = &all[table];
}

/* The products below stay under 2^32: 105 times the last ladder price is
 * 1,049,475,000. */

/* Is 100 times a price at least 95 times the reference? */
static bool is_at_least_95(uint32_t price, uint32_t reference)
{
    return 100 * price >= 95 * reference;
}

/* Is 100 times a price at most 105 times the reference? */
static bool is_at_most_105(uint32_t price, uint32_t reference)
{
    return 100 * price <= 105 * reference;
}

/* The place of the first ladder price that is 95 percent or more. */
static uint32_t try_lower(uint32_t reference)
{
    const uint32_t *list = plain_list();
    uint32_t place = 0;
    while (!is_at_least_95(list[place], reference))
        place++;
    return place;
}

/* The place of the latest ladder price that is 105 percent or less. */
static uint32_t try_upper(uint32_t reference)
{
    const uint32_t *list = plain_list();
    uint32_t kept = 0;
    for (uint32_t place = 0; place < plain_count(); place++) {
        if (is_at_most_105(list[place], reference))
            kept = place;
    }
    return kept;
}

void plain_begin_limits(void)
{
    for (uint32_t place = 0; place < plain_count(); place++) {
        limits->lower_place[place] = try_lower(plain_price(place));
        limits->upper_place[place] = try_upper(plain_price(place));
    }
}

uint32_t plain_five_percent_lower(uint32_t reference)
{
    if (!plain_within_ends(reference))
        return 0;
    const uint32_t *list = plain_list();
    uint32_t place = limits->lower_place[plain_at_or_below(reference)];
    while (!is_at_least_95(list[place], reference))
        place++;
    return list[place];
}

uint32_t plain_five_percent_upper(uint32_t reference)
{
    if (!plain_within_ends(reference))
        return 0;
    const uint32_t *list = plain_list();
    uint32_t place = limits->upper_place[plain_at_or_below(reference)];
    while (place + 1 < plain_count()
           && is_at_most_105(list[place + 1], reference))
        place++;
    return list[place];
}

/* Outside the ends there is neither of the two, and no limit. */
uint32_t plain_lower_limit(uint32_t reference)
{
    uint32_t percent = plain_five_percent_lower(reference);
    uint32_t spreads = plain_down(reference, 24);
    return percent < spreads ? percent : spreads;
}

uint32_t plain_upper_limit(uint32_t reference)
{
    uint32_t percent = plain_five_percent_upper(reference);
    uint32_t spreads = plain_up(reference, 24);
    return percent > spreads ? percent : spreads;
}
