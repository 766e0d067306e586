/*
 * A day of any eleven numbers. 0 is none, and each number stands for itself.
 */
#include "plain_parts.h"

/* Each end by itself: none becomes the price. */
static void widen(uint32_t *lowest, uint32_t *highest, uint32_t price)
{
    if (plain_missing(*lowest) || price < *lowest)
        *lowest = price;
    if (plain_missing(*highest) || price > *highest)
        *highest = price;
}

static void follow(struct plain_kept *kept, struct plain_event event)
{
    switch (event.kind) {
    case PLAIN_BID:
        kept->current_bid = event.price;
        kept->last_bid = event.price;
        widen(&kept->lowest_bid, &kept->highest_bid, event.price);
        break;
    case PLAIN_ASK:
        kept->current_ask = event.price;
        kept->last_ask = event.price;
        widen(&kept->lowest_ask, &kept->highest_ask, event.price);
        break;
    case PLAIN_NO_BUYERS:
        kept->current_bid = 0;
        break;
    case PLAIN_NO_SELLERS:
        kept->current_ask = 0;
        break;
    default:
        widen(&kept->day_low, &kept->day_high, event.price);
        break;
    }
}

uint32_t plain_enter_any(struct plain_kept *kept, struct plain_event event)
{
    uint32_t number =
        plain_turned_away(event, kept->current_bid, kept->current_ask);
    if (number == 0)
        follow(kept, event);
    return number;
}

void plain_fill_any(const struct plain_kept *kept, struct plain_asked asked,
                    uint8_t question[PLAIN_QUESTION_BYTES])
{
    bool opening = plain_missing(kept->last_bid)
                && plain_missing(kept->last_ask);
    uint8_t queue = opening
        ? PLAIN_OPENING
        : plain_queues(kept->current_bid, kept->current_ask);
    plain_write(kept, queue, asked, question);
}
