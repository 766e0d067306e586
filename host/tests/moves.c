/*
 * How far a limit moves when its reference goes up by one spread: from every
 * ladder price of each table to the next, and from prices between two.
 *
 * The library takes single spreads, one after another, from the limit of the
 * one reference to that of the other. The plain count says how many places
 * apart in the list its own limits of the two are. At the last price the next
 * is the price itself.
 */
#include "on.h"
#include "report.h"
#include "tests.h"

enum {
    LOWER_MOST = 3, /* the most spreads that a lower limit moves by */
    UPPER_MOST = 2, /* the same of an upper limit */
    FAR = 8,        /* where counting stops: more than any limit moves by */
    NONE,           /* in place of a count: down, or not counted */
    COUNTS          /* how many such numbers there are */
};

/* A limit by the library and by the plain count. */
struct limit {
    struct hendovita_price (*found)(uint32_t reference);
    uint32_t (*counted)(uint32_t reference);
};

static const struct limit lower = {on_lower_limit, plain_lower_limit};
static const struct limit upper = {on_upper_limit, plain_upper_limit};
static const struct limit five_lower = {on_five_percent_lower,
                                        plain_five_percent_lower};

/* ---- two counts ------------------------------------------------------- */

/* How many single spreads of the library lead up from one price to another.
 * NONE if that one is lower, or is passed, or is farther. */
static uint32_t spreads_between(uint32_t from, uint32_t to)
{
    uint32_t price = from, taken = 0;
    while (price < to && taken < FAR) {
        price = on_up(price, 1).price;
        taken++;
    }
    return price == to ? taken : NONE;
}

/* By how many spreads a limit moves from a reference to the next, by the
 * library. */
static uint32_t found_moves(const struct limit *limit, uint32_t reference)
{
    uint32_t next = on_up(reference, 1).price;
    struct hendovita_price from = limit->found(reference);
    struct hendovita_price to = limit->found(next);
    uint32_t spreads = spreads_between(from.price, to.price);
    if (from.found != 1 || to.found != 1)
        report_say("  %u to %u: no limit", reference, next);
    else if (to.price < from.price)
        report_say("  %u to %u: the limit goes down, from %u to %u",
                   reference, next, from.price, to.price);
    else if (spreads == NONE)
        report_say("  %u to %u: up to %d spreads from %u never end at %u",
                   reference, next, FAR, from.price, to.price);
    return spreads;
}

/* The same by the plain count. */
static uint32_t counted_moves(const struct limit *limit, uint32_t reference)
{
    uint32_t next = plain_up(reference, 1);
    int32_t places = plain_place(limit->counted(next))
        - plain_place(limit->counted(reference));
    return 0 <= places && places <= FAR ? (uint32_t)places : NONE;
}

/* ---- how far ---------------------------------------------------------- */

/* From a ladder price the limit moves by the same number by both counts, and
 * by no more than the most. */
static void same_moves(const struct limit *limit, uint32_t most,
                       uint32_t reference)
{
    uint32_t found = found_moves(limit, reference);
    uint32_t counted = counted_moves(limit, reference);
    if (found == NONE)
        return; /* which is a fault already */
    if (found != counted)
        report_say("  from %u: the limit moves by %u, by the plain count "
                   "by %u", reference, found, counted);
    if (found > most)
        report_say("  from %u: the limit moves by %u, at most by %u",
                   reference, found, most);
}

/* The same from every ladder price, and the next is the one of the list. */
static void at_most(const struct limit *limit, uint32_t most)
{
    for (uint32_t place = 0; place < plain_count(); place++) {
        uint32_t reference = plain_price(place);
        uint32_t next = on_up(reference, 1).price;
        uint32_t due = plain_price(place + 1);
        if (reference == PLAIN_LAST)
            due = reference;
        if (next != due)
            report_say("  %u: the next price is %u, due %u", reference, next,
                       due);
        same_moves(limit, most, reference);
    }
}

static void test_lower(void)
{
    on_begin("lower limits move by at most three spreads, and never down");
    at_most(&lower, LOWER_MOST);
}

static void test_upper(void)
{
    on_begin("upper limits move by at most two spreads, and never down");
    at_most(&upper, UPPER_MOST);
}

static void test_last(void)
{
    on_begin("at the last price the next is itself, and no limit moves");
    report_same("the last price", plain_price(plain_count() - 1), 9995000);
    report_same("the next price", on_up(9995000, 1).price, 9995000);
    report_same("spreads of the lower", found_moves(&lower, 9995000), 0);
    report_same("spreads of the upper", found_moves(&upper, 9995000), 0);
    report_same("places of the lower", counted_moves(&lower, 9995000), 0);
    report_same("places of the upper", counted_moves(&upper, 9995000), 0);
}

/* From a price between two ladder prices one spread leads to the one above:
 * each such price up to 20.00, and fewer and fewer of the higher ones. */
static void test_between(void)
{
    on_begin("from prices between two the limits move no farther");
    for (uint32_t price = PLAIN_FIRST; price < PLAIN_LAST;
         price += 1 + price / 20000) {
        uint32_t lower_moves = found_moves(&lower, price);
        uint32_t upper_moves = found_moves(&upper, price);
        if (lower_moves > LOWER_MOST || upper_moves > UPPER_MOST)
            report_say("  from %u: the lower limit moves by %u, the upper by "
                       "%u", price, lower_moves, upper_moves);
    }
}

/* ---- how often -------------------------------------------------------- */

/* From how many prices of tables 1, 2 and 3 a limit moves by 0, 1, 2 and so on.
 * By any other number it moves from none. */
static const uint32_t lower_often[PLAIN_TABLES][COUNTS] = {
    {488, 9511, 294, 47}, {559, 10782, 339, 60}, {607, 11636, 387, 60},
};
static const uint32_t upper_often[PLAIN_TABLES][COUNTS] = {
    {459, 9447, 434}, {528, 10709, 503}, {573, 11569, 548},
};
static const uint32_t five_lower_often[PLAIN_TABLES][COUNTS] = {
    {504, 9487, 298, 48, 2, 1}, {572, 10763, 342, 60, 2, 1},
    {617, 11623, 387, 60, 2, 1},
};

static void same_often(const struct limit *limit, const uint32_t due[COUNTS])
{
    uint32_t found[COUNTS] = {0}, counted[COUNTS] = {0};
    for (uint32_t place = 0; place < plain_count(); place++) {
        found[found_moves(limit, plain_price(place))]++;
        counted[counted_moves(limit, plain_price(place))]++;
    }
    for (uint32_t n = 0; n < COUNTS; n++)
        if (found[n] != due[n] || counted[n] != due[n])
            report_say("  by %u spreads %u times, by the plain count %u, "
                       "due %u", n, found[n], counted[n], due[n]);
}

static void test_lower_often(void)
{
    on_begin("how often lower limits move by 0, 1, 2 and 3 spreads");
    same_often(&lower, lower_often[on_which() - 1]);
}

static void test_upper_often(void)
{
    on_begin("how often upper limits move by 0, 1 and 2 spreads");
    same_often(&upper, upper_often[on_which() - 1]);
}

/* ---- by hand ---------------------------------------------------------- */

/* A reference and the next, the limit of the one, and single spreads up from it
 * that end at the limit of the other. */
struct way {
    uint32_t reference, next;
    uint32_t spreads;
    uint32_t prices[FAR];
};

static void same_ends(const struct limit *limit, const struct way *way)
{
    uint32_t from = way->prices[0], to = way->prices[way->spreads];
    report_same("the next price", on_up(way->reference, 1).price, way->next);
    report_same("the limit", limit->found(way->reference).price, from);
    report_same("the next limit", limit->found(way->next).price, to);
    report_same("the limit counted", limit->counted(way->reference), from);
    report_same("the next limit counted", limit->counted(way->next), to);
}

static void same_way(const struct limit *limit, const struct way *way)
{
    const uint32_t *prices = way->prices;
    uint32_t n = way->spreads;
    same_ends(limit, way);
    for (uint32_t i = 0; i < n; i++)
        report_same("a spread up", on_up(prices[i], 1).price, prices[i + 1]);
    report_same("all spreads at once", on_up(prices[0], n).price, prices[n]);
    if (on_up(prices[0], n - 1).price >= limit->found(way->next).price)
        report_say("  from %u: one spread fewer than %u does not end lower",
                   prices[0], n);
    report_same("moves", found_moves(limit, way->reference), n);
    report_same("moves counted", counted_moves(limit, way->reference), n);
}

/* 95 percent of 50.00 is 47.50, of 50.05 is 47.5475; 24 spreads below them are
 * 49.52 and 49.54. */
static void test_lower_by_hand(void)
{
    static const struct way way = {
        50000, 50050, 3, {47500, 47520, 47540, 47560},
    };
    on_begin("the lower limit moves by three from 50.00 to 50.05, by hand");
    same_way(&lower, &way);
}

/* 105 percent of 10.19 is 10.6995, of 10.20 is 10.71; 24 spreads above them are
 * 10.43 and 10.44. */
static void test_upper_by_hand(void)
{
    static const struct way way = {10190, 10200, 2, {10690, 10700, 10710}};
    on_begin("the upper limit moves by two from 10.19 to 10.20, by hand");
    same_way(&upper, &way);
}

/* ---- the 5 percent limit alone ---------------------------------------- */

static void test_five_lower_often(void)
{
    on_begin("how often 5 percent lower limits alone move by 0 to 5");
    same_often(&five_lower, five_lower_often[on_which() - 1]);
}

/* Where that moves farther than a lower limit may, 24 spreads down are lower,
 * and make the limit. */
static void test_farther(void)
{
    on_begin("where 5 percent alone moves by 4 or 5, 24 spreads are lower");
    for (uint32_t place = 0; place < plain_count(); place++) {
        uint32_t reference = plain_price(place);
        if (found_moves(&five_lower, reference) <= LOWER_MOST)
            continue;
        uint32_t five = on_five_percent_lower(reference).price;
        uint32_t spreads = on_down(reference, 24).price;
        report_same("the lower limit", on_lower_limit(reference).price,
                    spreads);
        if (spreads >= five)
            report_say("  from %u: 24 spreads end at %u, 5 percent at %u",
                       reference, spreads, five);
    }
}

/* Over 0.250 a spread is 0.005, and below it 0.001. 95 percent of the four
 * references is 0.2375, 0.24225, 0.247 and 0.25175; 24 spreads below them are
 * 0.226, 0.227, 0.228 and 0.229. */
static void test_five_lower_by_hand(void)
{
    static const struct way alone[] = {
        {250, 255, 5, {238, 239, 240, 241, 242, 243}},
        {255, 260, 4, {243, 244, 245, 246, 247}},
        {260, 265, 4, {247, 248, 249, 250, 255}},
    };
    static const struct way with_24[] = {
        {250, 255, 1, {226, 227}}, {255, 260, 1, {227, 228}},
        {260, 265, 1, {228, 229}},
    };
    on_begin("5 percent alone moves by 5, 4 and 4 from 0.250, by hand");
    for (size_t i = 0; i < 3; i++) {
        same_way(&five_lower, &alone[i]);
        same_way(&lower, &with_24[i]);
    }
}

void test_moves(void)
{
    on_each(test_lower);
    on_each(test_upper);
    on_each(test_last);
    on_each(test_between);
    on_each(test_lower_often);
    on_each(test_upper_often);
    on_phase_1(test_lower_by_hand);
    on_phase_1(test_upper_by_hand);
    on_each(test_five_lower_often);
    on_each(test_farther);
    on_each(test_five_lower_by_hand);
}
