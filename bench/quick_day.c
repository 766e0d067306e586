/*
 * A plain C day book written for speed. An event looks at no more of the day
 * than it concerns.
 */
#include "quick_day.h"

#include "quick.h"
#include "quick_parts.h"

enum { BEST_BID = 1, BEST_ASK, BUY_EMPTY, SELL_EMPTY, TRADE };

struct quick_entered quick_open_day(uint32_t close)
{
    bool out = close != 0 && !within(close);
    return (struct quick_entered){out ? 12 : 0, {.close = out ? 0 : close}};
}

static inline uint32_t enter_bid(struct quick_day *day, uint32_t price)
{
    if (!on_ladder(price))
        return 12;
    if (day->ask != 0 && price >= day->ask)
        return 13;
    day->bid = day->last_bid = price;
    day->lowest_bid = least(day->lowest_bid, price);
    day->highest_bid = larger(day->highest_bid, price);
    return 0;
}

static inline uint32_t enter_ask(struct quick_day *day, uint32_t price)
{
    if (!on_ladder(price))
        return 12;
    if (price <= day->bid)
        return 13;
    day->ask = day->last_ask = price;
    day->lowest_ask = least(day->lowest_ask, price);
    day->highest_ask = larger(day->highest_ask, price);
    return 0;
}

static inline uint32_t enter_trade(struct quick_day *day, uint32_t price)
{
    if (!on_ladder(price))
        return 12;
    day->day_low = least(day->day_low, price);
    day->day_high = larger(day->day_high, price);
    return 0;
}

/* A current price that goes, with no price beside it. */
static inline uint32_t empty(uint32_t *current, uint32_t price)
{
    if (price != 0)
        return 11;
    *current = 0;
    return 0;
}

static inline uint32_t enter(struct quick_day *day, uint32_t kind,
                             uint32_t price)
{
    switch (kind) {
    case BEST_BID:
        return enter_bid(day, price);
    case BEST_ASK:
        return enter_ask(day, price);
    case BUY_EMPTY:
        return empty(&day->bid, price);
    case SELL_EMPTY:
        return empty(&day->ask, price);
    case TRADE:
        return enter_trade(day, price);
    default:
        return 11;
    }
}

struct quick_entered quick_enter_event(struct quick_day day, uint32_t kind,
                                       uint32_t price)
{
    struct quick_entered after = {0, day};
    after.number = enter(&after.day, kind, price);
    return after;
}

static inline uint8_t queue_code(const struct quick_day *day)
{
    if ((day->last_bid | day->last_ask) == 0)
        return OPENING;
    if (day->bid != 0)
        return day->ask != 0 ? BOTH : BUY_ONLY;
    return day->ask != 0 ? SELL_ONLY : NEITHER;
}

uint32_t quick_fill_question(struct quick_day day, uint8_t side, uint8_t type,
                             uint32_t price, uint32_t nominal, uint32_t code,
                             uint8_t *question, size_t len)
{
    if (len != QUICK_QUESTION_BYTES)
        return 1;
    question[0] = side;
    question[1] = type;
    question[2] = queue_code(&day);
    question[3] = 0;
    put(question + 4, price);
    put(question + 8, day.bid);
    put(question + 12, day.ask);
    put(question + 16, day.last_bid);
    put(question + 20, day.last_ask);
    put(question + 24, day.close);
    put(question + 28, day.day_low);
    put(question + 32, day.day_high);
    put(question + 36, nominal);
    put(question + 40, code);
    return 0;
}
