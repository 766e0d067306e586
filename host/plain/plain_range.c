/*
 * The permitted range of an order, chosen by side, order type and queue code.
 *
 * The order has passed the checks 2, 15 and 3 to 5: its codes are known, its
 * references fit the queue code, and a special order has an opposite queue.
 */
#include "plain_parts.h"

bool plain_has_bid(const struct plain_order *order)
{
    return order->queue == PLAIN_BOTH || order->queue == PLAIN_BUY_ONLY;
}

bool plain_has_ask(const struct plain_order *order)
{
    return order->queue == PLAIN_BOTH || order->queue == PLAIN_SELL_ONLY;
}

/* Is there a queue on the other side? */
bool plain_has_opposite(const struct plain_order *order)
{
    return order->side == PLAIN_BUY ? plain_has_ask(order)
                                    : plain_has_bid(order);
}

static uint32_t lower_limit_or_bottom(uint32_t reference)
{
    return plain_missing(reference) ? PLAIN_FIRST
                                    : plain_lower_limit(reference);
}

static uint32_t upper_limit_or_top(uint32_t reference)
{
    return plain_missing(reference) ? PLAIN_LAST
                                    : plain_upper_limit(reference);
}

/* The reference of the lowest price to buy at; missing stands for bottom. */
static uint32_t buy_reference(const struct plain_order *order)
{
    uint32_t close = order->previous_close, low = order->day_low;
    switch (order->queue) {
    case PLAIN_OPENING:
        return close;
    case PLAIN_BOTH:
    case PLAIN_BUY_ONLY:
        return order->bid;
    case PLAIN_SELL_ONLY:
        return plain_least(order->ask, close, low);
    default:
        if (plain_missing(close) && plain_missing(low))
            return 0;
        return plain_least(order->last_ask, close, low);
    }
}

/* The reference of the highest price to sell at; missing stands for top. */
static uint32_t sell_reference(const struct plain_order *order)
{
    uint32_t close = order->previous_close, high = order->day_high;
    switch (order->queue) {
    case PLAIN_OPENING:
        return close;
    case PLAIN_BOTH:
    case PLAIN_SELL_ONLY:
        return order->ask;
    case PLAIN_BUY_ONLY:
        return plain_greatest(order->bid, close, high);
    default:
        if (plain_missing(close) && plain_missing(high))
            return 0;
        return plain_greatest(order->last_bid, close, high);
    }
}

static uint32_t buy_highest(const struct plain_order *order)
{
    if (!plain_has_ask(order))
        return PLAIN_LAST;
    if (order->type == PLAIN_ENHANCED)
        return plain_up(order->ask, 9);
    return order->ask;
}

static uint32_t sell_lowest(const struct plain_order *order)
{
    if (!plain_has_bid(order))
        return PLAIN_FIRST;
    if (order->type == PLAIN_ENHANCED)
        return plain_down(order->bid, 9);
    return order->bid;
}

static struct plain_range buy_range(const struct plain_order *order)
{
    if (order->type == PLAIN_SPECIAL)
        return (struct plain_range){order->ask, PLAIN_LAST};
    return (struct plain_range){
        lower_limit_or_bottom(buy_reference(order)), buy_highest(order)};
}

static struct plain_range sell_range(const struct plain_order *order)
{
    if (order->type == PLAIN_SPECIAL)
        return (struct plain_range){PLAIN_FIRST, order->bid};
    return (struct plain_range){
        sell_lowest(order), upper_limit_or_top(sell_reference(order))};
}

struct plain_range plain_order_range(const struct plain_order *order)
{
    return order->side == PLAIN_BUY ? buy_range(order) : sell_range(order);
}
