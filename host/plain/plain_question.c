/*
 * The judging of a question: its bytes are read, the checks run in number
 * order, with 15 after 2, and the first that applies is the answer. Up to 5
 * they do not look at the order price; plain_prepared.c has the rest.
 */
#include "plain_parts.h"

/* The number that starts at a byte, least significant byte first. */
static uint32_t number_at(const uint8_t *byte)
{
    return (uint32_t)byte[0] | (uint32_t)byte[1] << 8
         | (uint32_t)byte[2] << 16 | (uint32_t)byte[3] << 24;
}

static struct plain_order
read_order(const uint8_t question[PLAIN_QUESTION_BYTES])
{
    return (struct plain_order){
        .side = question[0],
        .type = question[1],
        .queue = question[2],
        .zero = question[3],
        .price = number_at(question + 4),
        .bid = number_at(question + 8),
        .ask = number_at(question + 12),
        .last_bid = number_at(question + 16),
        .last_ask = number_at(question + 20),
        .previous_close = number_at(question + 24),
        .day_low = number_at(question + 28),
        .day_high = number_at(question + 32),
        .nominal = number_at(question + 36),
        .security_code = number_at(question + 40),
    };
}

uint32_t plain_security_code(const uint8_t question[PLAIN_QUESTION_BYTES])
{
    return read_order(question).security_code;
}

/* Check 2. */
static bool unknown_code(const struct plain_order *order)
{
    return order->side < PLAIN_BUY || order->side > PLAIN_SELL
        || order->type < PLAIN_LIMIT || order->type > PLAIN_SPECIAL
        || order->queue < PLAIN_OPENING || order->queue > PLAIN_NEITHER
        || order->zero != 0;
}

/* Check 15. */
static bool bad_security_code(const struct plain_order *order)
{
    return order->security_code < 1 || order->security_code > PLAIN_LAST_CODE;
}

/* Check 3. All eight references are looked at, used or not. The previous close
 * and the nominal may lie between ladder prices, the others may not. */
static bool bad_reference(const struct plain_order *order)
{
    return plain_off_ladder(order->bid)
        || plain_off_ladder(order->ask)
        || plain_off_ladder(order->last_bid)
        || plain_off_ladder(order->last_ask)
        || plain_outside(order->previous_close)
        || plain_off_ladder(order->day_low)
        || plain_off_ladder(order->day_high)
        || plain_outside(order->nominal);
}

/* Check 4. */
static bool references_disagree(const struct plain_order *order)
{
    if (plain_missing(order->bid) == plain_has_bid(order))
        return true;
    if (plain_missing(order->ask) == plain_has_ask(order))
        return true;
    if (order->queue == PLAIN_BOTH && order->bid >= order->ask)
        return true;
    if (order->queue == PLAIN_OPENING
        && !(plain_missing(order->last_bid) && plain_missing(order->last_ask)))
        return true;
    return plain_bad_pair(order->day_low, order->day_high);
}

/* Checks 2, 15 and 3 to 5; 0 if none applies. */
static uint32_t refusal(const struct plain_order *order)
{
    if (unknown_code(order))
        return 2;
    if (bad_security_code(order))
        return 15;
    if (bad_reference(order))
        return 3;
    if (references_disagree(order))
        return 4;
    if (order->type == PLAIN_SPECIAL && !plain_has_opposite(order))
        return 5;
    return 0;
}

/* The price against which the nine-fold rule is held. */
static uint32_t nine_fold_against(const struct plain_order *order)
{
    return order->queue == PLAIN_OPENING ? order->previous_close
                                         : order->nominal;
}

struct plain_prepared
plain_prepare(const uint8_t question[PLAIN_QUESTION_BYTES])
{
    struct plain_order order = read_order(question);
    uint32_t refused = refusal(&order);
    if (refused != 0)
        return (struct plain_prepared){refused, 0, 0, 0};
    struct plain_range permitted = plain_order_range(&order);
    return (struct plain_prepared){0, permitted.lowest, permitted.highest,
                                   nine_fold_against(&order)};
}

struct plain_answer
plain_question(const uint8_t question[PLAIN_QUESTION_BYTES])
{
    struct plain_prepared prepared = plain_prepare(question);
    if (prepared.number != 0)
        return (struct plain_answer){prepared.number, 0, 0};
    struct plain_order order = read_order(question);
    return plain_judge_prepared(prepared.lowest, prepared.highest,
                                prepared.nine_fold, order.price);
}
