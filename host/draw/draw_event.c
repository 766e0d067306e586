/*
 * The draw of a day: its close, its events, or any eleven numbers.
 */
#include "draw_event.h"

enum { BID = 1, ASK, NO_BUYERS, NO_SELLERS, TRADE };

/* What a day keeps of one side. */
struct side {
    uint32_t current, last, lowest, highest;
};

/* A price that cannot go with a bid, an ask or a trade; beside a ladder price
 * it may happen to be another. */
static uint32_t bad_price(struct draw *draw, struct draw_span span)
{
    uint32_t price = draw_reference(draw, span);
    switch (draw_below(draw, 4)) {
    case 0:
        return 0;
    case 1:
        return draw_odd_price(draw);
    case 2:
        return price - 1;
    default:
        return price + 1;
    }
}

uint32_t draw_close(struct draw *draw, struct draw_span span)
{
    switch (draw_below(draw, 8)) {
    case 0:
    case 1:
        return 0;
    case 2:
        return draw_one_in(draw, 2) ? draw_past_end(draw)
                                    : draw_odd_price(draw);
    case 3:
        return draw_price(draw);
    default:
        return draw_loose_reference(draw, span);
    }
}

/* At a kept price or one spread beside it; one of the span if it is none. */
static uint32_t beside(struct draw *draw, struct draw_span span, uint32_t kept)
{
    return kept == 0 ? draw_reference(draw, span) : draw_beside(draw, kept);
}

/* A bid or an ask: at the current or the last price of the other side, near
 * the prices of its own side, or elsewhere. */
static uint32_t quote(struct draw *draw, struct draw_span span,
                      struct side own, struct side other)
{
    switch (draw_below(draw, 8)) {
    case 0:
        return beside(draw, span, other.current);
    case 1:
        return beside(draw, span, other.last);
    case 2:
    case 3:
        return beside(draw, span, own.current);
    case 4:
        return beside(draw, span, own.lowest);
    case 5:
        return beside(draw, span, own.highest);
    case 6:
        return draw_one_in(draw, 4) ? draw_end(draw) : draw_price(draw);
    default:
        return draw_reference(draw, span);
    }
}

/* A trade: at a quote, near the other trades, or elsewhere. */
static uint32_t trade(struct draw *draw, struct draw_span span,
                      const struct plain_kept *kept)
{
    switch (draw_below(draw, 8)) {
    case 0:
        return beside(draw, span, kept->current_bid);
    case 1:
        return beside(draw, span, kept->current_ask);
    case 2:
        return beside(draw, span, kept->day_low);
    case 3:
        return beside(draw, span, kept->day_high);
    case 4:
        return draw_one_in(draw, 4) ? draw_end(draw) : draw_price(draw);
    default:
        return draw_reference(draw, span);
    }
}

static uint32_t price_for(struct draw *draw, struct draw_span span,
                          const struct plain_kept *kept, uint32_t kind)
{
    struct side bids = {kept->current_bid, kept->last_bid, kept->lowest_bid,
                        kept->highest_bid};
    struct side asks = {kept->current_ask, kept->last_ask, kept->lowest_ask,
                        kept->highest_ask};
    switch (kind) {
    case BID:
        return quote(draw, span, bids, asks);
    case ASK:
        return quote(draw, span, asks, bids);
    case TRADE:
        return trade(draw, span, kept);
    default:
        return 0;
    }
}

static uint32_t known_kind(struct draw *draw)
{
    static const uint32_t kinds[16] = {
        BID, BID, BID, BID, BID, ASK, ASK, ASK, ASK, ASK,
        NO_BUYERS, NO_BUYERS, NO_SELLERS, NO_SELLERS, TRADE, TRADE,
    };
    return kinds[draw_below(draw, 16)];
}

static uint32_t unknown_kind(struct draw *draw)
{
    static const uint32_t kinds[8] = {
        0, 6, 7, 255, 256 + BID, 65536 + ASK, INT32_MAX, UINT32_MAX,
    };
    if (draw_one_in(draw, 4))
        return (uint32_t)draw_number(draw);
    return kinds[draw_below(draw, 8)];
}

/* A price with an empty queue: that of the queue, a ladder price, any. */
static uint32_t needless_price(struct draw *draw, struct draw_span span,
                               const struct plain_kept *kept)
{
    switch (draw_below(draw, 4)) {
    case 0:
        return kept->current_bid;
    case 1:
        return kept->current_ask;
    case 2:
        return draw_odd_price(draw);
    default:
        return draw_reference(draw, span);
    }
}

/* The event with a fault in its kind or in its price. */
static struct plain_event damaged(struct draw *draw, struct draw_span span,
                                  const struct plain_kept *kept,
                                  struct plain_event event)
{
    if (draw_one_in(draw, 4))
        event.kind = unknown_kind(draw);
    else if (event.kind == NO_BUYERS || event.kind == NO_SELLERS)
        event.price = needless_price(draw, span, kept);
    else
        event.price = bad_price(draw, span);
    return event;
}

struct plain_event draw_event(struct draw *draw, struct draw_span span,
                              const struct plain_kept *kept)
{
    struct plain_event event = {known_kind(draw), 0};
    event.price = price_for(draw, span, kept, event.kind);
    return draw_one_in(draw, 5) ? damaged(draw, span, kept, event) : event;
}

/* None, a small or a large number, a ladder price, or near one. */
static uint32_t any_number(struct draw *draw, struct draw_span span)
{
    switch (draw_below(draw, 8)) {
    case 0:
    case 1:
        return 0;
    case 2:
        return draw_below(draw, 16);
    case 3:
        return (uint32_t)draw_number(draw);
    case 4:
        return draw_odd_price(draw);
    case 5:
        return draw_shifted(draw, draw_price(draw));
    default:
        return draw_reference(draw, span);
    }
}

struct plain_kept draw_any_day(struct draw *draw, struct draw_span span)
{
    struct plain_kept kept;
    kept.previous_close = any_number(draw, span);
    kept.current_bid = any_number(draw, span);
    kept.current_ask = any_number(draw, span);
    kept.last_bid = any_number(draw, span);
    kept.last_ask = any_number(draw, span);
    kept.lowest_bid = any_number(draw, span);
    kept.highest_bid = any_number(draw, span);
    kept.lowest_ask = any_number(draw, span);
    kept.highest_ask = any_number(draw, span);
    kept.day_low = any_number(draw, span);
    kept.day_high = any_number(draw, span);
    return kept;
}
