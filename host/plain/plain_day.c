/*
 * A day by the list of its accepted events. Every kept price, the number of
 * the next event and the queue code are found by going through the list.
 */
#include <stdlib.h>

#include "plain_parts.h"

/* The current price of a side: the latest event of its queue decides, which
 * gave it a price or emptied it. */
static uint32_t current_price(const struct plain_day *day, uint32_t quoted,
                              uint32_t emptied)
{
    uint32_t current = 0;
    for (uint32_t k = 0; k < day->count; k++) {
        if (day->accepted[k].kind == quoted)
            current = day->accepted[k].price;
        if (day->accepted[k].kind == emptied)
            current = 0;
    }
    return current;
}

/* The latest price of a kind of event. */
static uint32_t last_price(const struct plain_day *day, uint32_t kind)
{
    uint32_t last = 0;
    for (uint32_t k = 0; k < day->count; k++) {
        if (day->accepted[k].kind == kind)
            last = day->accepted[k].price;
    }
    return last;
}

static uint32_t lowest_price(const struct plain_day *day, uint32_t kind)
{
    uint32_t lowest = 0;
    for (uint32_t k = 0; k < day->count; k++) {
        uint32_t price = day->accepted[k].price;
        if (day->accepted[k].kind != kind)
            continue;
        if (plain_missing(lowest) || price < lowest)
            lowest = price;
    }
    return lowest;
}

static uint32_t highest_price(const struct plain_day *day, uint32_t kind)
{
    uint32_t highest = 0;
    for (uint32_t k = 0; k < day->count; k++) {
        uint32_t price = day->accepted[k].price;
        if (day->accepted[k].kind == kind && price > highest)
            highest = price;
    }
    return highest;
}

struct plain_kept plain_kept(const struct plain_day *day)
{
    return (struct plain_kept){
        .previous_close = day->previous_close,
        .current_bid = current_price(day, PLAIN_BID, PLAIN_NO_BUYERS),
        .current_ask = current_price(day, PLAIN_ASK, PLAIN_NO_SELLERS),
        .last_bid = last_price(day, PLAIN_BID),
        .last_ask = last_price(day, PLAIN_ASK),
        .lowest_bid = lowest_price(day, PLAIN_BID),
        .highest_bid = highest_price(day, PLAIN_BID),
        .lowest_ask = lowest_price(day, PLAIN_ASK),
        .highest_ask = highest_price(day, PLAIN_ASK),
        .day_low = lowest_price(day, PLAIN_TRADE),
        .day_high = highest_price(day, PLAIN_TRADE),
    };
}

/* A close may lie between ladder prices. One that is turned away leaves a day
 * that has none. */
uint32_t plain_open_day(struct plain_day *day, uint32_t previous_close)
{
    bool refused = plain_outside(previous_close);
    day->previous_close = refused ? 0 : previous_close;
    day->count = 0;
    return refused ? 12 : 0;
}

uint32_t plain_enter_event(struct plain_day *day, struct plain_event event)
{
    uint32_t bid = current_price(day, PLAIN_BID, PLAIN_NO_BUYERS);
    uint32_t ask = current_price(day, PLAIN_ASK, PLAIN_NO_SELLERS);
    uint32_t number = plain_turned_away(event, bid, ask);
    if (number != 0)
        return number;
    if (day->count == PLAIN_EVENTS)
        abort();    /* the caller's fault: too many events */
    day->accepted[day->count] = event;
    day->count++;
    return 0;
}

/* Was a bid or an ask accepted? */
static bool was_quoted(const struct plain_day *day)
{
    for (uint32_t k = 0; k < day->count; k++) {
        if (day->accepted[k].kind == PLAIN_BID
            || day->accepted[k].kind == PLAIN_ASK)
            return true;
    }
    return false;
}

uint8_t plain_queue_code(const struct plain_day *day)
{
    if (!was_quoted(day))
        return PLAIN_OPENING;
    return plain_queues(current_price(day, PLAIN_BID, PLAIN_NO_BUYERS),
                        current_price(day, PLAIN_ASK, PLAIN_NO_SELLERS));
}

void plain_fill(const struct plain_day *day, struct plain_asked asked,
                uint8_t question[PLAIN_QUESTION_BYTES])
{
    struct plain_kept kept = plain_kept(day);
    plain_write(&kept, plain_queue_code(day), asked, question);
}
