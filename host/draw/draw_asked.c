/*
 * The draw of an order for a question that is filled from a day.
 */
#include "draw_event.h"
#include "draw_order.h"
#include "draw_security.h"

static uint32_t nominal(struct draw *draw, struct draw_span span)
{
    switch (draw_below(draw, 16)) {
    case 0:
    case 1:
    case 2:
    case 3:
        return 0;
    case 4:
        return draw_shifted(draw, draw_price(draw));
    case 5:
        return draw_one_in(draw, 2) ? draw_past_end(draw)
                                    : draw_odd_price(draw);
    default:
        return draw_loose_reference(draw, span);
    }
}

static void put_code_fault(struct draw *draw, struct plain_asked *asked)
{
    static const uint8_t unknown[4] = {0, 4, 128, UINT8_MAX};
    uint8_t code = unknown[draw_below(draw, 4)];
    if (draw_one_in(draw, 2))
        asked->side = draw_one_in(draw, 4) ? 3 : code;
    else
        asked->type = code;
}

struct plain_asked draw_asked(struct draw *draw, struct draw_span span,
                              const struct plain_kept *kept)
{
    struct plain_asked asked = {0};
    uint8_t question[PLAIN_QUESTION_BYTES];
    asked.side = (uint8_t)(1 + draw_below(draw, 2));
    asked.type = (uint8_t)(1 + draw_below(draw, 3));
    asked.nominal = nominal(draw, span);
    asked.security_code = draw_good_security(draw);
    if (draw_one_in(draw, 12))
        put_code_fault(draw, &asked);
    plain_fill_any(kept, asked, question);
    if (draw_one_in(draw, 3)) {
        asked.nominal = draw_far_nominal(draw, question);
        plain_fill_any(kept, asked, question);
    }
    asked.price = draw_order_price(draw, question);
    if (draw_one_in(draw, 16))
        asked.security_code = draw_bad_security(draw);
    return asked;
}
