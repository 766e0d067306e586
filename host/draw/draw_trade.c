/*
 * The draw of an off-System trade.
 */
#include "draw_price.h"
#include "plain.h"

enum {
    PRICE, CLOSE, LOWEST_BID, LOWEST_ASK, HIGHEST_BID, HIGHEST_ASK, FIELDS
};

/* A pair of the day so far, the lowest and the highest, or both missing. */
static void set_pair(struct draw *draw, struct draw_span span,
                     uint32_t *lowest, uint32_t *highest)
{
    *lowest = *highest = 0;
    if (draw_one_in(draw, 3))
        return;
    uint32_t a = draw_reference(draw, span), b = draw_reference(draw, span);
    *lowest = a < b ? a : b;
    *highest = a < b ? b : a;
}

static void set_references(struct draw *draw, uint32_t fields[FIELDS])
{
    struct draw_span span = draw_span(draw);
    fields[CLOSE] = draw_one_in(draw, 3) ? 0
                                         : draw_loose_reference(draw, span);
    set_pair(draw, span, &fields[LOWEST_BID], &fields[HIGHEST_BID]);
    set_pair(draw, span, &fields[LOWEST_ASK], &fields[HIGHEST_ASK]);
}

static void exchange(uint32_t *a, uint32_t *b)
{
    uint32_t kept = *a;
    *a = *b;
    *b = kept;
}

/* Changes one reference, or two, so that the trade is likely refused. */
static void put_fault(struct draw *draw, uint32_t fields[FIELDS])
{
    uint32_t *any = &fields[1 + draw_below(draw, FIELDS - 1)];
    switch (draw_below(draw, 7)) {
    case 0:
        *any = draw_one_in(draw, 2) ? *any + 1 : *any - 1;
        break;
    case 1:
        *any = draw_odd_price(draw);
        break;
    case 2:
        *any = 0;
        break;
    case 3:
        *any = draw_price(draw);
        break;
    case 4:
        fields[CLOSE] = draw_past_end(draw);
        break;
    case 5:
        exchange(&fields[LOWEST_BID], &fields[HIGHEST_BID]);
        break;
    default:
        exchange(&fields[LOWEST_ASK], &fields[HIGHEST_ASK]);
        break;
    }
}

static struct plain_answer judge(const uint32_t fields[FIELDS])
{
    return plain_trade(fields[PRICE], fields[CLOSE],
                       fields[LOWEST_BID], fields[LOWEST_ASK],
                       fields[HIGHEST_BID], fields[HIGHEST_ASK]);
}

/* A trade price at or near an end of the range, inside it, or anywhere. */
static uint32_t trade_price(struct draw *draw, const uint32_t fields[FIELDS])
{
    struct plain_answer range = judge(fields);
    if (draw_one_in(draw, 16))
        return draw_odd_price(draw);
    if (range.lowest == 0 || draw_one_in(draw, 10))
        return draw_shifted(draw, draw_price(draw));
    switch (draw_below(draw, 4)) {
    case 0:
        return draw_shifted(draw, range.lowest);
    case 1:
        return draw_shifted(draw, range.highest);
    case 2:
        return range.lowest
             + draw_below(draw, range.highest - range.lowest + 1);
    default:
        return draw_shifted(draw, fields[1 + draw_below(draw, FIELDS - 1)]);
    }
}

void draw_trade(struct draw *draw, uint32_t fields[6])
{
    fields[PRICE] = 0;
    set_references(draw, fields);
    if (draw_one_in(draw, 4))
        put_fault(draw, fields);
    if (draw_one_in(draw, 12))
        put_fault(draw, fields);
    fields[PRICE] = trade_price(draw, fields);
}
