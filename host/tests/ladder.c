/*
 * Every ladder price of each table: its place, and steps from it and from
 * between, against the list.
 */
#include <inttypes.h>

#include "on.h"
#include "report.h"
#include "tests.h"

/* A price of the plain count is 0 where there is none. */
static void same_price(const char *what, uint32_t from,
                       struct hendovita_price found, uint32_t due)
{
    if (found.price != due || found.found != (due != 0))
        report_say("  %s %u: found %u %u, due %u", what, from, found.found,
                   found.price, due);
}

static void same_place(uint32_t price)
{
    struct hendovita_place found = on_place_of(price);
    int32_t due = plain_place(price);
    uint32_t place = due < 0 ? 0 : (uint32_t)due;
    if (found.place != place || found.found != (due >= 0))
        report_say("  place of %u: found %u %u, due %d", price, found.found,
                   found.place, (int)due);
}

static void test_places(void)
{
    on_begin("every place has its price, and none above the last");
    for (uint32_t place = 0; place < 20000; place++)
        same_price("place", place, on_price_at(place),
                   plain_price(place));
    for (uint32_t place = UINT32_MAX; place > 20000; place -= place / 3)
        same_price("place", place, on_price_at(place), 0);

    on_begin("every price up to 10,000.000 has its place, or none");
    for (uint32_t price = 0; price <= 10000000; price++)
        same_place(price);
    for (uint32_t price = UINT32_MAX; price > 10000000; price -= price / 999)
        same_place(price);
}

static void same_step(const char *way, uint32_t price, uint64_t n,
                      struct hendovita_price found, uint32_t due)
{
    if (found.price != due || found.found != (due != 0))
        report_say("  %" PRIu64 " spreads %s from %u: found %u %u, due %u", n,
                   way, price, found.found, found.price, due);
}

static void same_steps(uint32_t price, uint64_t n)
{
    same_step("up", price, n, on_up(price, n), plain_up(price, n));
    same_step("down", price, n, on_down(price, n), plain_down(price, n));
}

/* A price between a ladder price and the next, another from pair to pair; the
 * ladder price itself where there is none. */
static uint32_t price_after(uint32_t place)
{
    uint32_t price = plain_price(place);
    uint32_t gap = plain_up(price, 1) - price;
    return gap < 2 ? price : price + 1 + place % (gap - 1);
}

static void test_steps(void)
{
    static const uint64_t large[] = {
        100, 1000, 10338, 10339, 10340, 11738, 11739, 11740, 12688, 12689,
        12690, UINT32_MAX, UINT64_C(1) << 32, UINT64_C(1) << 63, UINT64_MAX,
    };
    on_begin("every ladder price and one after it, 0 to 30 spreads");
    for (uint32_t place = 0; place < plain_count(); place++)
        for (uint64_t n = 0; n <= 30; n++) {
            same_steps(plain_price(place), n);
            same_steps(price_after(place), n);
        }

    on_begin("every ladder price and one after it, up to 2^64 - 1");
    for (uint32_t place = 0; place < plain_count(); place++)
        for (uint32_t i = 0; i < sizeof large / sizeof *large; i++) {
            same_steps(plain_price(place), large[i]);
            same_steps(price_after(place), large[i]);
        }
}

void test_ladder(void)
{
    on_each(test_places);
    on_each(test_steps);
}
