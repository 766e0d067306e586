/*
 * Prices drawn at random: on the ladder, around another price, or bad.
 */
#include "draw_price.h"

#include "plain.h"

/* At most so many spreads up or down from a ladder price. */
static uint32_t around(struct draw *draw, uint32_t price, uint32_t spreads)
{
    uint32_t n = draw_below(draw, spreads + 1);
    return draw_one_in(draw, 2) ? plain_up(price, n) : plain_down(price, n);
}

static uint32_t in_a_band(struct draw *draw)
{
    uint32_t band = draw_below(draw, PLAIN_BANDS);
    uint32_t bottom = band == 0 ? PLAIN_FIRST : plain_band_top(band - 1);
    return draw_between(draw, bottom, plain_band_top(band));
}

/* 1, 2 or 5 times a power of ten: from 0.010 to 5,000. */
static uint32_t round_price(struct draw *draw)
{
    static const uint32_t first_digit[3] = {1, 2, 5};
    uint32_t price = 10 * first_digit[draw_below(draw, 3)];
    for (uint32_t zeros = draw_below(draw, 6); zeros > 0; zeros--)
        price *= 10;
    return price;
}

uint32_t draw_price(struct draw *draw)
{
    uint32_t band = draw_below(draw, PLAIN_BANDS);
    switch (draw_below(draw, 8)) {
    case 0:
        return draw_between(draw, PLAIN_FIRST, plain_up(PLAIN_FIRST, 60));
    case 1:
        return draw_between(draw, plain_down(PLAIN_LAST, 60), PLAIN_LAST);
    case 2:
        return around(draw, plain_band_top(band), 1);
    case 3:
        return around(draw, plain_band_top(band), 30);
    case 4:
        return round_price(draw);
    case 5:
        return draw_between(draw, PLAIN_FIRST, PLAIN_LAST);
    default:
        return in_a_band(draw);
    }
}

uint32_t draw_between(struct draw *draw, uint32_t low, uint32_t high)
{
    uint32_t from = (uint32_t)plain_place(low);
    uint32_t to = (uint32_t)plain_place(high);
    return plain_price(from + draw_below(draw, to - from + 1));
}

struct draw_span draw_span(struct draw *draw)
{
    uint32_t centre = draw_price(draw);
    switch (draw_below(draw, 8)) {
    case 0:
        return (struct draw_span){PLAIN_FIRST, PLAIN_LAST};
    case 1:
        return (struct draw_span){centre, centre};
    case 2:
    case 3:
        return (struct draw_span){plain_down(centre, 2), plain_up(centre, 2)};
    case 4:
        return (struct draw_span){plain_lower_limit(centre),
                                  plain_upper_limit(centre)};
    default:
        return (struct draw_span){plain_five_percent_lower(centre),
                                  plain_five_percent_upper(centre)};
    }
}

uint32_t draw_reference(struct draw *draw, struct draw_span span)
{
    if (draw_one_in(draw, 25))
        return draw_price(draw);
    return draw_between(draw, span.low, span.high);
}

/* Any price from a ladder price to the next. */
static uint32_t up_to_next(struct draw *draw, uint32_t price)
{
    return price + draw_below(draw, plain_up(price, 1) - price + 1);
}

uint32_t draw_loose_reference(struct draw *draw, struct draw_span span)
{
    uint32_t price = draw_reference(draw, span);
    switch (draw_below(draw, 16)) {
    case 0:
        return draw_end(draw);
    case 1:
    case 2:
        return price > PLAIN_FIRST ? price - 1 : price;
    case 3:
    case 4:
        return price < PLAIN_LAST ? price + 1 : price;
    case 5:
    case 6:
    case 7:
    case 8:
        return up_to_next(draw, price);
    default:
        return price;
    }
}

/* The largest ladder price that is not above a price, or the first. */
static uint32_t ladder_below(uint32_t price)
{
    if (price < PLAIN_FIRST)
        return PLAIN_FIRST;
    return price < PLAIN_LAST ? plain_down(price + 1, 1) : PLAIN_LAST;
}

uint32_t draw_beside(struct draw *draw, uint32_t price)
{
    uint32_t ladder = ladder_below(price);
    switch (draw_below(draw, 3)) {
    case 0:
        return plain_down(ladder, 1);
    case 1:
        return plain_up(ladder, 1);
    default:
        return ladder;
    }
}

uint32_t draw_shifted(struct draw *draw, uint32_t price)
{
    switch (draw_below(draw, 8)) {
    case 0:
        return price - 1;
    case 1:
        return price + 1;
    case 2:
    case 3:
    case 4:
        return draw_beside(draw, price);
    default:
        return price;
    }
}

uint32_t draw_end(struct draw *draw)
{
    return draw_one_in(draw, 2) ? PLAIN_FIRST : PLAIN_LAST;
}

uint32_t draw_past_end(struct draw *draw)
{
    return draw_one_in(draw, 2) ? PLAIN_FIRST - 1 : PLAIN_LAST + 1;
}

uint32_t draw_odd_price(struct draw *draw)
{
    static const uint32_t odd[8] = {
        0, 1, 9, PLAIN_LAST + 1, PLAIN_LAST + 5000,
        INT32_MAX, UINT32_MAX - 1, UINT32_MAX,
    };
    if (draw_one_in(draw, 4))
        return (uint32_t)draw_number(draw);
    if (draw_one_in(draw, 4))
        return draw_below(draw, PLAIN_LAST + 2);
    return odd[draw_below(draw, 8)];
}
