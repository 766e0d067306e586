/*
 * The numbers behind the draws: the generator splitmix64, which adds a fixed
 * odd constant to its state and mixes the bits of the sum.
 */
#include "draw.h"

void draw_begin(struct draw *draw, uint64_t seed)
{
    draw->state = seed;
}

uint64_t draw_number(struct draw *draw)
{
    draw->state += UINT64_C(0x9e3779b97f4a7c15);
    uint64_t z = draw->state;
    z = (z ^ (z >> 30)) * UINT64_C(0xbf58476d1ce4e5b9);
    z = (z ^ (z >> 27)) * UINT64_C(0x94d049bb133111eb);
    return z ^ (z >> 31);
}

/* The upper 32 bits, taken as a fraction of 2^32, times n. */
uint32_t draw_below(struct draw *draw, uint32_t n)
{
    return (uint32_t)(((draw_number(draw) >> 32) * n) >> 32);
}

bool draw_one_in(struct draw *draw, uint32_t n)
{
    return draw_below(draw, n) == 0;
}
