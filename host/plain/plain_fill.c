/*
 * The bytes of a question that is filled from a day.
 */
#include "plain_parts.h"

/* The queue code by the current prices, once there was a bid or an ask. */
uint8_t plain_queues(uint32_t current_bid, uint32_t current_ask)
{
    if (plain_missing(current_bid))
        return plain_missing(current_ask) ? PLAIN_NEITHER : PLAIN_SELL_ONLY;
    return plain_missing(current_ask) ? PLAIN_BUY_ONLY : PLAIN_BOTH;
}

/* A number as four bytes, the least significant first. */
static void write_number(uint8_t *byte, uint32_t number)
{
    for (uint32_t i = 0; i < 4; i++)
        byte[i] = (uint8_t)(number >> 8 * i);
}

void plain_write(const struct plain_kept *kept, uint8_t queue,
                 struct plain_asked asked,
                 uint8_t question[PLAIN_QUESTION_BYTES])
{
    const uint32_t numbers[10] = {
        asked.price, kept->current_bid, kept->current_ask, kept->last_bid,
        kept->last_ask, kept->previous_close, kept->day_low, kept->day_high,
        asked.nominal, asked.security_code,
    };
    question[0] = asked.side;
    question[1] = asked.type;
    question[2] = queue;
    question[3] = 0;
    for (uint32_t i = 0; i < 10; i++)
        write_number(question + 4 + 4 * i, numbers[i]);
}
