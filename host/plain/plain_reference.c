/*
 * A reference is a price or is missing, and 0 means missing.
 */
#include "plain_parts.h"

bool plain_missing(uint32_t reference)
{
    return reference == 0;
}

/* Present, but no ladder price. */
bool plain_off_ladder(uint32_t reference)
{
    return !plain_missing(reference) && plain_place(reference) < 0;
}

/* Present, but under the first ladder price or over the last. */
bool plain_outside(uint32_t reference)
{
    return !plain_missing(reference) && !plain_within_ends(reference);
}

/* One of the two without the other, or the low above the high. */
bool plain_bad_pair(uint32_t low, uint32_t high)
{
    if (plain_missing(low) || plain_missing(high))
        return plain_missing(low) != plain_missing(high);
    return low > high;
}

static uint32_t lesser(uint32_t a, uint32_t b)
{
    if (plain_missing(a))
        return b;
    if (plain_missing(b))
        return a;
    return a < b ? a : b;
}

static uint32_t greater(uint32_t a, uint32_t b)
{
    if (plain_missing(a))
        return b;
    if (plain_missing(b))
        return a;
    return a > b ? a : b;
}

/* The least of those present; missing if all are. */
uint32_t plain_least(uint32_t a, uint32_t b, uint32_t c)
{
    return lesser(lesser(a, b), c);
}

/* The greatest of those present; missing if all are. */
uint32_t plain_greatest(uint32_t a, uint32_t b, uint32_t c)
{
    return greater(greater(a, b), c);
}
