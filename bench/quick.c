/*
 * A plain C judge written for speed. The band of a price is sought from the
 * first on, and the search is left as soon as it is found. What a question
 * does not need is not worked out: the shown range is rounded only where the
 * nine-fold rule cuts it.
 */
#include "quick.h"

#include "quick_parts.h"

enum { BUY = 1, SELL };
enum { LIMIT = 1, ENHANCED, SPECIAL };
enum { LAST_CODE = 99999 };

/* A question: 0 is a missing reference. */
struct order {
    uint32_t side, type, queue, zero, price;
    uint32_t bid, ask, last_bid, last_ask, close, day_low, day_high, nominal;
    uint32_t code;
};

struct answer {
    uint32_t number, lowest, highest;
};

/* ---- the ladder ----------------------------------------------------- */

/* n spreads, not 0 of them. From between two ladder prices the first ends
 * where it would from the one behind. */
static inline uint32_t up(uint32_t price, uint32_t n)
{
    uint32_t k = band_of(price);
    for (price -= price % bands[k].spread; k < BANDS; k++) {
        uint32_t room = bands[k].top - price, spread = bands[k].spread;
        if (n * spread <= room)
            return price + n * spread;
        n -= room / spread;
        price = bands[k].top;
    }
    return price;
}

static inline uint32_t down(uint32_t price, uint32_t n)
{
    uint32_t k = band_of(price);
    price += (bands[k].top - price) % bands[k].spread;
    for (k++; k-- > 0;) {
        uint32_t room = price - bands[k].bottom, spread = bands[k].spread;
        if (n * spread <= room)
            return price - n * spread;
        n -= room / spread;
        price = bands[k].bottom;
    }
    return price;
}

static inline uint32_t round_up(uint32_t price)
{
    if (price < FIRST)
        return FIRST;
    uint32_t spread = bands[band_of(price)].spread;
    return (price + spread - 1) / spread * spread;
}

static inline uint32_t round_down(uint32_t price)
{
    if (price > LAST)
        return LAST;
    uint32_t spread = bands[band_of(price)].spread;
    return price / spread * spread;
}

/* ---- the limits ----------------------------------------------------- */

/* 95 hundredths of a price, rounded up to whole mils, is it less a 20th. */
static inline uint32_t lower_limit(uint32_t price)
{
    return smaller(down(price, 24), round_up(price - price / 20));
}

static inline uint32_t upper_limit(uint32_t price)
{
    return larger(up(price, 24), round_down(price + price / 20));
}

/* ---- a question ----------------------------------------------------- */

static inline uint32_t get(const uint8_t *bytes)
{
    return bytes[0] | (uint32_t)bytes[1] << 8 | (uint32_t)bytes[2] << 16
        | (uint32_t)bytes[3] << 24;
}

static inline struct order read_order(const uint8_t *q)
{
    return (struct order){
        q[0], q[1], q[2], q[3], get(q + 4),
        get(q + 8), get(q + 12), get(q + 16), get(q + 20),
        get(q + 24), get(q + 28), get(q + 32), get(q + 36),
        get(q + 40),
    };
}

static inline bool off(uint32_t reference)
{
    return reference != 0 && !on_ladder(reference);
}

static inline bool outside(uint32_t reference)
{
    return reference != 0 && !within(reference);
}

static inline bool has_bid(const struct order *o)
{
    return o->queue == BOTH || o->queue == BUY_ONLY;
}

static inline bool has_ask(const struct order *o)
{
    return o->queue == BOTH || o->queue == SELL_ONLY;
}

/* Checks 2 to 5, with that of the security code after 2: a code of 0 less 1
 * wraps to a large number. */
static inline uint32_t refusal(const struct order *o)
{
    if (o->side - 1 > 1 || o->type - 1 > 2 || o->queue - 1 > 4 || o->zero != 0)
        return 2;
    if (o->code - 1 >= LAST_CODE)
        return 15;
    if (off(o->bid) || off(o->ask) || off(o->last_bid) || off(o->last_ask)
        || outside(o->close) || off(o->day_low) || off(o->day_high)
        || outside(o->nominal))
        return 3;
    if ((o->bid != 0) != has_bid(o) || (o->ask != 0) != has_ask(o)
        || (o->queue == BOTH && o->bid >= o->ask)
        || (o->queue == OPENING && (o->last_bid | o->last_ask) != 0)
        || (o->day_low != 0) != (o->day_high != 0)
        || o->day_low > o->day_high)
        return 4;
    if (o->type == SPECIAL && !(o->side == BUY ? has_ask(o) : has_bid(o)))
        return 5;
    return 0;
}

static inline uint32_t buy_lowest(const struct order *o)
{
    uint32_t reference = 0;
    switch (o->queue) {
    case OPENING:
        reference = o->close;
        break;
    case BOTH:
    case BUY_ONLY:
        reference = o->bid;
        break;
    case SELL_ONLY:
        reference = least(least(o->ask, o->close), o->day_low);
        break;
    default:
        if ((o->close | o->day_low) != 0)
            reference = least(least(o->last_ask, o->close), o->day_low);
    }
    return reference != 0 ? lower_limit(reference) : FIRST;
}

static inline uint32_t sell_highest(const struct order *o)
{
    uint32_t reference = 0;
    switch (o->queue) {
    case OPENING:
        reference = o->close;
        break;
    case BOTH:
    case SELL_ONLY:
        reference = o->ask;
        break;
    case BUY_ONLY:
        reference = larger(larger(o->bid, o->close), o->day_high);
        break;
    default:
        if ((o->close | o->day_high) != 0)
            reference = larger(larger(o->last_bid, o->close), o->day_high);
    }
    return reference != 0 ? upper_limit(reference) : LAST;
}

/* The permitted range. */
static inline struct answer permitted(const struct order *o)
{
    struct answer range = {0, FIRST, LAST};
    if (o->side == BUY && o->type == SPECIAL) {
        range.lowest = o->ask;
    } else if (o->side == BUY) {
        range.lowest = buy_lowest(o);
        if (has_ask(o))
            range.highest = o->type == ENHANCED ? up(o->ask, 9) : o->ask;
    } else if (o->type == SPECIAL) {
        range.highest = o->bid;
    } else {
        range.highest = sell_highest(o);
        if (has_bid(o))
            range.lowest = o->type == ENHANCED ? down(o->bid, 9) : o->bid;
    }
    return range;
}

/* Checks 6 to 10. Nine times a price within the ends has 32 bits. */
static inline uint32_t verdict(uint32_t price, struct answer range, uint32_t n)
{
    if (!within(price))
        return 6;
    if (!on_ladder(price))
        return 7;
    if (price < range.lowest)
        return 8;
    if (price > range.highest)
        return 9;
    if (n != 0 && (price >= 9 * n || 9 * price <= n))
        return 10;
    return 0;
}

/* The permitted range, cut by the nine-fold rule against n. */
static inline struct answer shown(struct answer range, uint32_t n)
{
    if (n != 0 && 9 * range.lowest <= n)
        range.lowest = round_up(n / 9 + 1);
    if (n != 0 && range.highest >= 9 * n)
        range.highest = round_down(9 * n - 1);
    if (range.lowest > range.highest)
        range.lowest = range.highest = 0;
    return range;
}

static inline struct answer judge(const uint8_t *question)
{
    struct order order = read_order(question);
    struct answer answer = {refusal(&order), 0, 0};
    if (answer.number != 0)
        return answer;
    struct answer range = permitted(&order);
    uint32_t n = order.queue == OPENING ? order.close : order.nominal;
    answer = shown(range, n);
    answer.number = verdict(order.price, range, n);
    return answer;
}

struct quick_outcome quick_judge_batch(const uint8_t *questions,
                                       size_t questions_len, uint8_t *answers,
                                       size_t answers_len)
{
    size_t count = questions_len / QUICK_QUESTION_BYTES;
    if (questions_len % QUICK_QUESTION_BYTES != 0 || count > 1000
        || answers_len < 12 * count)
        return (struct quick_outcome){1, 0};
    for (size_t k = 0; k < count; k++) {
        struct answer answer = judge(questions + QUICK_QUESTION_BYTES * k);
        put(answers + 12 * k, answer.number);
        put(answers + 12 * k + 4, answer.lowest);
        put(answers + 12 * k + 8, answer.highest);
    }
    return (struct quick_outcome){0, (uint32_t)count};
}
