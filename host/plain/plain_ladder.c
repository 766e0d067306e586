/*
 * The price ladder: the bands of the three tables, the search for the band of a
 * price, the list of all ladder prices of each table, and single spreads up and
 * down the list in use, from an entry or from between two.
 */
#include <stdlib.h>

#include "plain_parts.h"

struct band {
    uint32_t bottom, top;
    uint32_t spread[PLAIN_TABLES];
};

/* The edges are those of all tables; the spreads are before Phase 1, in Phase
 * 1, in Phase 2. A band holds its top, not its bottom; only the first holds
 * both. */
static const struct band bands[PLAIN_BANDS] = {
    {     10,     250, {   1,    1,    1}},
    {    250,     500, {   5,    5,    5}},
    {    500,   10000, {  10,   10,    5}},
    {  10000,   20000, {  20,   10,   10}},
    {  20000,   50000, {  50,   20,   20}},
    {  50000,  100000, {  50,   50,   50}},
    { 100000,  200000, { 100,  100,  100}},
    { 200000,  500000, { 200,  200,  200}},
    { 500000, 1000000, { 500,  500,  500}},
    {1000000, 2000000, {1000, 1000, 1000}},
    {2000000, 5000000, {2000, 2000, 2000}},
    {5000000, 9995000, {5000, 5000, 5000}},
};

/* The bands in the order in which they are looked at: first those that lie over
 * 0.50 to 50. */
static const uint32_t order[PLAIN_BANDS] = {
    2, 3, 4, 0, 1, 5, 6, 7, 8, 9, 10, 11,
};

/* How many ladder prices there are to be. */
static const uint32_t prices[PLAIN_TABLES] = {10340, 11740, PLAIN_MOST};

struct ladder {
    uint32_t list[PLAIN_MOST];              /* place to price */
    uint32_t count;
    uint16_t at_or_above[PLAIN_LAST + 1];   /* price to the place of the first
                                             * entry not below it */
};

static struct ladder ladders[PLAIN_TABLES];

/* The table in use, counted from 0, and its ladder. */
static uint32_t used;
static struct ladder *ladder = ladders;

void plain_use_ladder(uint32_t table)
{
    used = table;
    ladder = &ladders[table];
}

static bool is_in_band(uint32_t price, uint32_t k)
{
    if (price == PLAIN_FIRST)
        return k == 0;
    return bands[k].bottom < price && price <= bands[k].top;
}

/* A ladder price is 10, or a price in a band that exceeds the band's bottom
 * by a multiple of its spread. */
static bool is_ladder_price(uint32_t price)
{
    if (price == PLAIN_FIRST)
        return true;
    for (uint32_t k = 0; k < PLAIN_BANDS; k++) {
        if (is_in_band(price, k))
            return (price - bands[k].bottom) % bands[k].spread[used] == 0;
    }
    return false;
}

static void append(uint32_t price)
{
    if (ladder->count == prices[used])
        abort();    /* the table is wrong: too many prices */
    ladder->list[ladder->count] = price;
    ladder->count++;
}

/* Goes through every price in mils and keeps the ladder prices. All that are
 * kept before a price is reached are below it. */
void plain_begin_ladder(void)
{
    ladder->count = 0;
    for (uint32_t price = 0; price <= PLAIN_LAST; price++) {
        ladder->at_or_above[price] = (uint16_t)ladder->count;
        if (is_ladder_price(price))
            append(price);
    }
    if (ladder->count != prices[used])
        abort();    /* the table is wrong: too few prices */
}

uint32_t plain_count(void)
{
    return ladder->count;
}

uint32_t plain_price(uint32_t place)
{
    return place < ladder->count ? ladder->list[place] : 0;
}

int32_t plain_place(uint32_t price)
{
    if (price > PLAIN_LAST)
        return -1;
    uint32_t place = ladder->at_or_above[price];
    return ladder->list[place] == price ? (int32_t)place : -1;
}

const uint32_t *plain_list(void)
{
    return ladder->list;
}

uint32_t plain_band_bottom(uint32_t band)
{
    return band < PLAIN_BANDS ? bands[band].bottom : 0;
}

uint32_t plain_band_top(uint32_t band)
{
    return band < PLAIN_BANDS ? bands[band].top : 0;
}

int32_t plain_band_of(uint32_t price, uint32_t allowed)
{
    for (uint32_t look = 0; look < PLAIN_BANDS && look < allowed; look++) {
        if (is_in_band(price, order[look]))
            return (int32_t)order[look];
    }
    return -1;
}

bool plain_within_ends(uint32_t price)
{
    return PLAIN_FIRST <= price && price <= PLAIN_LAST;
}

int32_t plain_at_or_above(uint32_t price)
{
    return price <= PLAIN_LAST ? (int32_t)ladder->at_or_above[price]
                               : (int32_t)ladder->count;
}

int32_t plain_at_or_below(uint32_t price)
{
    int32_t place = plain_place(price);
    return place >= 0 ? place : plain_at_or_above(price) - 1;
}

/* The place of the first entry above a price. The last price has none above
 * it and stays. */
static uint32_t place_above(uint32_t price)
{
    return price < PLAIN_LAST ? ladder->at_or_above[price + 1]
                              : ladder->count - 1;
}

/* The place of the last entry below a price. The first price has none below it
 * and stays. */
static uint32_t place_below(uint32_t price)
{
    return price > PLAIN_FIRST ? ladder->at_or_above[price] - 1u : 0;
}

/* The first spread leads to an entry, whether from an entry or from between
 * two; each other one leads to the next. Once one changes nothing, no further
 * one would. */
uint32_t plain_up(uint32_t price, uint64_t n)
{
    if (!plain_within_ends(price))
        return 0;
    if (n == 0)
        return price;
    uint32_t place = place_above(price);
    for (uint64_t taken = 1; taken < n && place < ladder->count - 1; taken++)
        place++;
    return ladder->list[place];
}

uint32_t plain_down(uint32_t price, uint64_t n)
{
    if (!plain_within_ends(price))
        return 0;
    if (n == 0)
        return price;
    uint32_t place = place_below(price);
    for (uint64_t taken = 1; taken < n && place > 0; taken++)
        place--;
    return ladder->list[place];
}
