/*
 * The two mixes that are timed.
 */
#include "mixes.h"

#include "draw_event.h"

/* A ladder price at most so many spreads away. */
static uint32_t near(struct draw *draw, uint32_t price, uint32_t spreads)
{
    uint32_t n = draw_below(draw, spreads + 1);
    return draw_one_in(draw, 2) ? plain_up(price, n) : plain_down(price, n);
}

static void set_day(struct draw *draw, struct hendovita_question *q,
                    uint32_t price)
{
    q->last_bid = near(draw, price, 5);
    q->last_ask = near(draw, price, 5);
    q->previous_close = near(draw, price, 30);
    q->day_low = plain_down(price, draw_below(draw, 20));
    q->day_high = plain_up(price, draw_below(draw, 20));
    q->nominal = near(draw, price, 2);
}

static uint32_t near_quotes(struct draw *draw, uint8_t side, uint32_t bid,
                            uint32_t ask)
{
    return side == HENDOVITA_BUY ? plain_down(ask, draw_below(draw, 26))
                                 : plain_up(bid, draw_below(draw, 26));
}

static uint32_t any_code(struct draw *draw)
{
    return 1 + draw_below(draw, HENDOVITA_LAST_SECURITY_CODE);
}

void mix_usual(struct draw *draw, uint8_t question[HENDOVITA_QUESTION_BYTES])
{
    uint32_t bid = draw_between(draw, 510, 50000);
    struct hendovita_question q = {0};
    q.side = (uint8_t)(1 + draw_below(draw, 2));
    q.order_type = draw_one_in(draw, 4) ? HENDOVITA_ENHANCED_LIMIT
                                        : HENDOVITA_LIMIT;
    q.queue = HENDOVITA_BOTH_QUEUES;
    q.current_bid = bid;
    q.current_ask = plain_up(bid, 1 + draw_below(draw, 3));
    set_day(draw, &q, bid);
    q.price = near_quotes(draw, q.side, q.current_bid, q.current_ask);
    if (draw_one_in(draw, 10)) {
        q.queue = HENDOVITA_BUY_QUEUE_ONLY;
        q.current_ask = 0;
    }
    q.security_code = any_code(draw);
    hendovita_put_question(question, &q);
}

static uint32_t anywhere(struct draw *draw)
{
    return draw_between(draw, PLAIN_FIRST, PLAIN_LAST);
}

static uint32_t maybe(struct draw *draw)
{
    return draw_one_in(draw, 3) ? 0 : anywhere(draw);
}

uint32_t mix_usual_price(struct draw *draw,
                         const uint8_t question[HENDOVITA_QUESTION_BYTES])
{
    uint32_t bid = hendovita_get_number(question + 8);
    uint32_t ask = hendovita_get_number(question + 12);
    return near_quotes(draw, question[0], bid, ask != 0 ? ask : bid);
}

uint32_t mix_random_price(struct draw *draw,
                          const uint8_t question[HENDOVITA_QUESTION_BYTES])
{
    (void)question;
    return anywhere(draw);
}

static void set_quotes(struct draw *draw, struct hendovita_question *q)
{
    uint32_t bid = draw_between(draw, PLAIN_FIRST, plain_down(PLAIN_LAST, 1));
    if (q->queue == HENDOVITA_BOTH_QUEUES
        || q->queue == HENDOVITA_BUY_QUEUE_ONLY)
        q->current_bid = bid;
    if (q->queue == HENDOVITA_BOTH_QUEUES
        || q->queue == HENDOVITA_SELL_QUEUE_ONLY)
        q->current_ask = draw_between(draw, plain_up(bid, 1), PLAIN_LAST);
    if (q->queue != HENDOVITA_OPENING) {
        q->last_bid = maybe(draw);
        q->last_ask = maybe(draw);
    }
}

void mix_random(struct draw *draw, uint8_t question[HENDOVITA_QUESTION_BYTES])
{
    struct hendovita_question q = {0};
    q.side = (uint8_t)(1 + draw_below(draw, 2));
    q.order_type = (uint8_t)(1 + draw_below(draw, 3));
    q.queue = (uint8_t)(1 + draw_below(draw, 5));
    q.price = anywhere(draw);
    set_quotes(draw, &q);
    q.previous_close = maybe(draw);
    q.day_low = maybe(draw);
    if (q.day_low != 0)
        q.day_high = draw_between(draw, q.day_low, PLAIN_LAST);
    q.nominal = maybe(draw);
    q.security_code = any_code(draw);
    hendovita_put_question(question, &q);
    if (draw_one_in(draw, 5))
        question[draw_below(draw, HENDOVITA_QUESTION_BYTES)] ^=
            (uint8_t)(1 + draw_below(draw, 255));
}

/* A price of the day, from which the next ones are not far. */
static uint32_t where(const struct plain_kept *kept)
{
    if (kept->current_bid != 0)
        return kept->current_bid;
    return kept->current_ask != 0 ? kept->current_ask : kept->previous_close;
}

static uint32_t usual_bid(struct draw *draw, const struct plain_kept *kept)
{
    if (kept->current_ask != 0)
        return plain_down(kept->current_ask, 1 + draw_below(draw, 3));
    return near(draw, where(kept), 2);
}

static uint32_t usual_ask(struct draw *draw, const struct plain_kept *kept)
{
    if (kept->current_bid != 0)
        return plain_up(kept->current_bid, 1 + draw_below(draw, 3));
    return near(draw, where(kept), 2);
}

struct plain_event mix_usual_event(struct draw *draw,
                                   const struct plain_kept *kept)
{
    struct plain_event event = {HENDOVITA_SYSTEM_TRADE, where(kept)};
    if (draw_one_in(draw, 10))
        return event;
    event.kind = 1 + draw_below(draw, 2);
    event.price = event.kind == HENDOVITA_BEST_BID ? usual_bid(draw, kept)
                                                   : usual_ask(draw, kept);
    if (draw_one_in(draw, 50)) {
        event.kind = 3 + draw_below(draw, 2);
        event.price = 0;
    }
    return event;
}

struct plain_asked mix_usual_order(struct draw *draw,
                                   const struct plain_kept *kept)
{
    struct plain_asked asked = {0};
    asked.side = (uint8_t)(1 + draw_below(draw, 2));
    asked.type = draw_one_in(draw, 4) ? HENDOVITA_ENHANCED_LIMIT
                                      : HENDOVITA_LIMIT;
    asked.price = asked.side == HENDOVITA_BUY
        ? plain_down(where(kept), draw_below(draw, 26))
        : plain_up(where(kept), draw_below(draw, 26));
    asked.nominal = near(draw, where(kept), 2);
    return asked;
}

static const struct draw_span everywhere = {PLAIN_FIRST, PLAIN_LAST};

struct plain_event mix_random_event(struct draw *draw,
                                    const struct plain_kept *kept)
{
    return draw_event(draw, everywhere, kept);
}

struct plain_asked mix_random_order(struct draw *draw,
                                    const struct plain_kept *kept)
{
    return draw_asked(draw, everywhere, kept);
}
