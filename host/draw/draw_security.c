/*
 * Security codes drawn at random.
 */
#include "draw_security.h"

#include "plain.h"

uint32_t draw_good_security(struct draw *draw)
{
    static const uint32_t edges[8] = {
        2, 255, 256, 257, 65535, 65536, 65537, PLAIN_LAST_CODE - 1,
    };
    switch (draw_below(draw, 8)) {
    case 0:
        return 1;
    case 1:
        return PLAIN_LAST_CODE;
    case 2:
        return edges[draw_below(draw, 8)];
    default:
        return 1 + draw_below(draw, PLAIN_LAST_CODE);
    }
}

/* The four bytes the other way round. */
static uint32_t turned_round(uint32_t number)
{
    return number << 24 | (number << 8 & 0xff0000) | (number >> 8 & 0xff00)
         | number >> 24;
}

/* A number that is not a good code, or seldom. */
static uint32_t strange_security(struct draw *draw)
{
    static const uint32_t strange[8] = {
        0, 0, PLAIN_LAST_CODE + 1, PLAIN_LAST_CODE + 1, UINT32_MAX,
        INT32_MAX, UINT32_C(0x80000000), UINT32_C(0x01000001),
    };
    uint32_t good = draw_good_security(draw);
    switch (draw_below(draw, 8)) {
    case 0:
        return (uint32_t)draw_number(draw);
    case 1:
        return turned_round(good);
    case 2:
        return good + (draw_below(draw, 65535) + 1) * 65536;
    case 3:
        return good + (draw_below(draw, 255) + 1) * 16777216;
    case 4:
        return PLAIN_LAST_CODE + 1 + draw_below(draw, 131072);
    default:
        return strange[draw_below(draw, 8)];
    }
}

uint32_t draw_bad_security(struct draw *draw)
{
    uint32_t code;
    do
        code = strange_security(draw);
    while (code >= 1 && code <= PLAIN_LAST_CODE);
    return code;
}
