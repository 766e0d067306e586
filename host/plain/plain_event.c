/*
 * Why an event of a day is turned away: the checks 11 to 13 in number order,
 * and the first that applies gives the number.
 */
#include "plain_parts.h"

static bool has_price(uint32_t kind)
{
    return kind == PLAIN_BID || kind == PLAIN_ASK || kind == PLAIN_TRADE;
}

static bool is_emptying(uint32_t kind)
{
    return kind == PLAIN_NO_BUYERS || kind == PLAIN_NO_SELLERS;
}

/* Check 11. */
static bool unknown_event(struct plain_event event)
{
    if (is_emptying(event.kind))
        return event.price != 0;
    return !has_price(event.kind);
}

/* Check 12. An event that has a price cannot do without it. */
static bool event_off_ladder(struct plain_event event)
{
    return has_price(event.kind) && plain_place(event.price) < 0;
}

/* Check 13. Only the current price of the other side counts, if any. */
static bool quotes_cross(struct plain_event event, uint32_t current_bid,
                         uint32_t current_ask)
{
    if (event.kind == PLAIN_BID && !plain_missing(current_ask))
        return event.price >= current_ask;
    if (event.kind == PLAIN_ASK && !plain_missing(current_bid))
        return event.price <= current_bid;
    return false;
}

uint32_t plain_turned_away(struct plain_event event, uint32_t current_bid,
                           uint32_t current_ask)
{
    if (unknown_event(event))
        return 11;
    if (event_off_ladder(event))
        return 12;
    if (quotes_cross(event, current_bid, current_ask))
        return 13;
    return 0;
}
