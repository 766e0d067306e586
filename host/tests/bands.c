/*
 * The band of a price, where so many bands may be looked at and no more, on
 * each table: against the plain count, by hand, and by the edges of the bands.
 */
#include <stdbool.h>

#include "draw.h"
#include "draw_price.h"
#include "on.h"
#include "report.h"
#include "tests.h"

/* The prices up to this, which is past the ladder; so many bands allowed, one
 * more than there are. */
enum { HIGHEST = 10000000, MOST = PLAIN_BANDS + 1 };

/* More than that, and numbers of which a part, a byte or two, would be less. */
static const uint32_t large[] = {
    14, 15, 16, 24, 255, 256, 257, 260, 65535, 65536, 65539, 16777216,
    INT32_MAX, UINT32_C(0x80000000), UINT32_C(0x80000003), UINT32_MAX - 1,
    UINT32_MAX,
};

enum { LARGE = sizeof large / sizeof *large };

/* ---- against the plain count ------------------------------------------ */

static void same(uint32_t price, uint32_t allowed)
{
    struct hendovita_band found = on_band_of(price, allowed);
    int32_t due = plain_band_of(price, allowed);
    uint32_t index = due < 0 ? 0 : (uint32_t)due;
    if (found.index != index || found.found != (due >= 0))
        report_say("  band of %u, %u allowed: found %u %u, due %d", price,
                   allowed, found.found, found.index, (int)due);
}

static void same_few(uint32_t price)
{
    for (uint32_t allowed = 0; allowed <= MOST; allowed++)
        same(price, allowed);
}

static void same_large(uint32_t price)
{
    for (uint32_t i = 0; i < LARGE; i++)
        same(price, large[i]);
}

static void test_every_price(void)
{
    on_begin("every price up to 10,000.000: its band, with 0 to 13 allowed");
    for (uint32_t allowed = 0; allowed <= MOST; allowed++)
        for (uint32_t price = 0; price <= HIGHEST; price++)
            same(price, allowed);
}

/* Every edge of a band is a ladder price. */
static void test_large(void)
{
    on_begin("at and beside ladder prices: the band, 14 to 2^32 - 1 allowed");
    for (uint32_t place = 0; place < plain_count(); place++) {
        same_large(plain_price(place) - 1);
        same_large(plain_price(place));
        same_large(plain_price(place) + 1);
    }

    on_begin("no band of prices up to 2^32 - 1, however many are allowed");
    for (uint32_t price = UINT32_MAX; price > HIGHEST; price -= price / 999) {
        same_few(price);
        same_large(price);
    }
}

/* At and beside a ladder price, or anywhere at all. */
static uint32_t any_price(struct draw *draw)
{
    return draw_one_in(draw, 2) ? draw_shifted(draw, draw_price(draw))
                                : draw_odd_price(draw);
}

static void test_drawn(void)
{
    struct draw draw;
    on_begin("drawn prices: the band, with any number allowed");
    draw_begin(&draw, 26);
    for (uint32_t i = 0; i < 1000000; i++) {
        uint32_t price = any_price(&draw);
        same(price, draw_below(&draw, MOST + 1));
        same(price, (uint32_t)draw_number(&draw));
    }
}

/* ---- by hand ---------------------------------------------------------- */

/* A price, its band, and how many are to be allowed for it to be found: the top
 * of each band, the mil after it, and some others. */
static const struct {
    uint32_t price;
    int32_t band;
    uint32_t allowed;
} placed[] = {
    {10, 0, 4}, {11, 0, 4}, {250, 0, 4}, {251, 1, 5}, {500, 1, 5},
    {501, 2, 1}, {505, 2, 1}, {10000, 2, 1}, {10001, 3, 2}, {20000, 3, 2},
    {20001, 4, 3}, {20050, 4, 3}, {50000, 4, 3}, {50001, 5, 6},
    {100000, 5, 6}, {100001, 6, 7}, {200000, 6, 7}, {200001, 7, 8},
    {500000, 7, 8}, {500001, 8, 9}, {1000000, 8, 9}, {1000001, 9, 10},
    {2000000, 9, 10}, {2000001, 10, 11}, {5000000, 10, 11}, {5000001, 11, 12},
    {9995000, 11, 12},
};

static const uint32_t outside[] = {
    0, 1, 9, 9995001, 10000000, UINT32_C(0x80000000), UINT32_MAX,
};

/* By the library and by the plain count; -1 for none. */
static void is_due(uint32_t price, uint32_t allowed, int32_t band)
{
    struct hendovita_band found = on_band_of(price, allowed);
    int32_t counted = plain_band_of(price, allowed);
    uint32_t index = band < 0 ? 0 : (uint32_t)band;
    if (found.index != index || found.found != (band >= 0) || counted != band)
        report_say("  band of %u, %u allowed: found %u %u, by the plain count "
                   "%d, due %d", price, allowed, found.found, found.index,
                   (int)counted, (int)band);
}

static void test_by_hand(void)
{
    on_begin("bands by hand, and how many are to be allowed for each");
    for (size_t i = 0; i < sizeof placed / sizeof *placed; i++) {
        is_due(placed[i].price, 0, -1);
        is_due(placed[i].price, placed[i].allowed - 1, -1);
        is_due(placed[i].price, placed[i].allowed, placed[i].band);
        is_due(placed[i].price, UINT32_MAX, placed[i].band);
    }
    for (size_t i = 0; i < sizeof outside / sizeof *outside; i++) {
        is_due(outside[i], 3, -1);
        is_due(outside[i], 12, -1);
        is_due(outside[i], UINT32_MAX, -1);
    }
}

/* ---- which prices are found ------------------------------------------- */

/* Those from one price to another, both included, and no other. */
static void found_within(uint32_t allowed, uint32_t low, uint32_t high)
{
    for (uint32_t price = 0; price <= HIGHEST; price++) {
        uint32_t found = on_band_of(price, allowed).found;
        uint32_t due = low <= price && price <= high;
        if (found != due)
            report_say("  band of %u, %u allowed: found %u, due %u", price,
                       allowed, found, due);
    }
}

static void test_found(void)
{
    on_begin("three allowed: every price over 0.50 to 50 is found, no other");
    found_within(3, 501, 50000);

    on_begin("twelve allowed: every price within the ends is found, no other");
    found_within(12, 10, 9995000);
}

/* What is found with so many allowed is found with one more. */
static void same_with_more(uint32_t price)
{
    struct hendovita_band before = {0};
    for (uint32_t allowed = 0; allowed <= MOST; allowed++) {
        struct hendovita_band found = on_band_of(price, allowed);
        if (before.found != 0 && (found.found != before.found
                                  || found.index != before.index))
            report_say("  band of %u, %u allowed: found %u %u, before %u %u",
                       price, allowed, found.found, found.index, before.found,
                       before.index);
        before = found;
    }
}

static void test_more(void)
{
    on_begin("what is found stays, mil by mil to 1,000, then every 97th");
    for (uint32_t price = 0; price < 1000000; price++)
        same_with_more(price);
    for (uint32_t price = 1000000; price <= HIGHEST; price += 97)
        same_with_more(price);
    for (uint32_t price = 9994000; price <= 9996000; price++)
        same_with_more(price);
}

/* ---- by the edges ----------------------------------------------------- */

/* How many bands hold a price, and the last that does; 0 if none does. */
struct holders {
    uint32_t count, last;
};

/* A band holds its top, not its bottom; only the first holds both. */
static bool holds(uint32_t band, uint32_t price)
{
    return (plain_band_bottom(band) < price && price <= plain_band_top(band))
        || (band == 0 && price == plain_band_bottom(band));
}

static struct holders holders(uint32_t price)
{
    struct holders holders = {0};
    for (uint32_t band = 0; band < PLAIN_BANDS; band++)
        if (holds(band, price)) {
            holders.count++;
            holders.last = band;
        }
    return holders;
}

static void test_held(void)
{
    on_begin("the band that is found holds the price, and no other does");
    for (uint32_t price = 0; price <= HIGHEST; price++) {
        struct holders due = holders(price);
        struct hendovita_band found = on_band_of(price, PLAIN_BANDS);
        if (found.found != due.count || found.index != due.last)
            report_say("  band of %u: found %u %u, %u hold it, the last %u",
                       price, found.found, found.index, due.count, due.last);
    }
}

void test_bands(void)
{
    on_each_named(test_every_price);
    on_each_named(test_large);
    on_each_named(test_drawn);
    on_each_named(test_by_hand);
    on_each_named(test_found);
    on_each_named(test_more);
    on_each_named(test_held);
}
