/*
 * Every price, on the ladder or not: steps and limits on each table, against a
 * count of the list's entries.
 *
 * The prices are gone through in rising order, and how many entries are below
 * each, and so on, is counted on from one price to the next. No function of
 * the plain count is used but the list, and those functions are held against
 * the same counts.
 */
#include "on.h"
#include "report.h"
#include "tests.h"

enum { HIGHEST = 10000000 };

/* How many entries of the list are .. */
struct passed {
    uint32_t below;         /* below the price */
    uint32_t not_above;     /* at or below it */
    uint32_t under_95;      /* less than 95 percent of it */
    uint32_t not_over_105;  /* 105 percent of it or less */
};

/* What is due at a price; 0 for none. */
struct due {
    uint32_t itself, up_1, up_24, down_1, down_24;
    uint32_t five_lower, five_upper, lower, upper;
};

/* The list of the table in use, and its length. */
static const uint32_t *list;
static uint32_t count;

static void pass(struct passed *passed, uint32_t price)
{
    while (passed->below < count && list[passed->below] < price)
        passed->below++;
    while (passed->not_above < count && list[passed->not_above] <= price)
        passed->not_above++;
    while (passed->under_95 < count
           && 100 * list[passed->under_95] < 95 * price)
        passed->under_95++;
    while (passed->not_over_105 < count
           && 100 * list[passed->not_over_105] <= 105 * price)
        passed->not_over_105++;
}

/* n entries on from those not above the price, n back from those below it; the
 * last or the first where there are not so many. */
static uint32_t up(const struct passed *passed, uint32_t n)
{
    uint32_t place = passed->not_above + n - 1;
    return list[place < count ? place : count - 1];
}

static uint32_t down(const struct passed *passed, uint32_t n)
{
    return list[passed->below > n ? passed->below - n : 0];
}

static struct due due_at(const struct passed *passed, uint32_t price)
{
    if (passed->not_above == 0 || passed->below == count)
        return (struct due){0};
    struct due due = {
        .itself = price,
        .up_1 = up(passed, 1),
        .up_24 = up(passed, 24),
        .down_1 = down(passed, 1),
        .down_24 = down(passed, 24),
        .five_lower = list[passed->under_95],
        .five_upper = list[passed->not_over_105 - 1],
    };
    due.lower = due.five_lower < due.down_24 ? due.five_lower : due.down_24;
    due.upper = due.five_upper > due.up_24 ? due.five_upper : due.up_24;
    return due;
}

/* The same by the library and by the plain count. */
static void same(const char *what, uint32_t price,
                 struct hendovita_price found, uint32_t counted, uint32_t due)
{
    if (found.price != due || found.found != (due != 0))
        report_say("  %s %u: found %u %u, due %u", what, price, found.found,
                   found.price, due);
    if (counted != due)
        report_say("  %s %u: by the plain count %u, due %u", what, price,
                   counted, due);
}

static void same_steps(uint32_t price, const struct due *due)
{
    same("up by 0", price, on_up(price, 0), plain_up(price, 0),
         due->itself);
    same("up by 1", price, on_up(price, 1), plain_up(price, 1),
         due->up_1);
    same("up by 24", price, on_up(price, 24), plain_up(price, 24),
         due->up_24);
    same("down by 0", price, on_down(price, 0), plain_down(price, 0),
         due->itself);
    same("down by 1", price, on_down(price, 1), plain_down(price, 1),
         due->down_1);
    same("down by 24", price, on_down(price, 24), plain_down(price, 24),
         due->down_24);
}

static void same_limits(uint32_t price, const struct due *due)
{
    same("5 percent below", price, on_five_percent_lower(price),
         plain_five_percent_lower(price), due->five_lower);
    same("5 percent above", price, on_five_percent_upper(price),
         plain_five_percent_upper(price), due->five_upper);
    same("lower limit", price, on_lower_limit(price),
         plain_lower_limit(price), due->lower);
    same("upper limit", price, on_upper_limit(price),
         plain_upper_limit(price), due->upper);
}

static void test_every_price(void)
{
    struct passed passed = {0};
    list = plain_list();
    count = plain_count();
    on_begin("every price up to 10,000.000: 0, 1 and 24 spreads, limits");
    for (uint32_t price = 0; price <= HIGHEST; price++) {
        pass(&passed, price);
        struct due due = due_at(&passed, price);
        same_steps(price, &due);
        same_limits(price, &due);
    }

    on_begin("no step and no limit from prices up to 2^32 - 1");
    const struct due none = {0};
    for (uint32_t price = UINT32_MAX; price > HIGHEST; price -= price / 9999) {
        same_steps(price, &none);
        same_limits(price, &none);
    }
}

/* Neither limit falls from one price to the next. */
static void test_order(void)
{
    uint32_t lower = 0, upper = 0;
    on_begin("a higher price within the ends has no smaller limit");
    for (uint32_t price = PLAIN_FIRST; price <= PLAIN_LAST; price++) {
        uint32_t next_lower = on_lower_limit(price).price;
        uint32_t next_upper = on_upper_limit(price).price;
        if (next_lower < lower || next_upper < upper)
            report_say("  the limits of %u are %u and %u, after %u and %u",
                       price, next_lower, next_upper, lower, upper);
        lower = next_lower;
        upper = next_upper;
    }
}

void test_prices(void)
{
    on_each(test_every_price);
    on_each(test_order);
}
