/*
 * What the plain C judge and the plain C day share: the queue codes, the table
 * of bands, whether a price is on the ladder, numbers as bytes.
 */
#ifndef QUICK_PARTS_H
#define QUICK_PARTS_H

#include <stdbool.h>
#include <stdint.h>

enum { FIRST = 10, LAST = 9995000, BANDS = 12 };
enum { OPENING = 1, BOTH, BUY_ONLY, SELL_ONLY, NEITHER };

struct band {
    uint32_t bottom, top, spread;
};

static const struct band bands[BANDS] = {
    {10, 250, 1},
    {250, 500, 5},
    {500, 10000, 10},
    {10000, 20000, 10},
    {20000, 50000, 20},
    {50000, 100000, 50},
    {100000, 200000, 100},
    {200000, 500000, 200},
    {500000, 1000000, 500},
    {1000000, 2000000, 1000},
    {2000000, 5000000, 2000},
    {5000000, 9995000, 5000},
};

static inline uint32_t smaller(uint32_t a, uint32_t b)
{
    return a < b ? a : b;
}

static inline uint32_t larger(uint32_t a, uint32_t b)
{
    return a > b ? a : b;
}

/* The smaller of those that are present: a missing one, less 1, is large. */
static inline uint32_t least(uint32_t a, uint32_t b)
{
    return smaller(a - 1, b - 1) + 1;
}

/* The band of a price, or the last band above the ladder. */
static inline uint32_t band_of(uint32_t price)
{
    uint32_t k = 0;
    while (k < BANDS - 1 && price > bands[k].top)
        k++;
    return k;
}

/* Within the ends of the ladder: 0 less 10 is large. */
static inline bool within(uint32_t price)
{
    return price - FIRST <= LAST - FIRST;
}

/* Every bottom is a multiple of its band's spread. */
static inline bool on_ladder(uint32_t price)
{
    return within(price) && price % bands[band_of(price)].spread == 0;
}

static inline void put(uint8_t *bytes, uint32_t number)
{
    bytes[0] = (uint8_t)number;
    bytes[1] = (uint8_t)(number >> 8);
    bytes[2] = (uint8_t)(number >> 16);
    bytes[3] = (uint8_t)(number >> 24);
}

#endif
