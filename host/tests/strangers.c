/*
 * Order prices judged by a range and a nine-fold reference that no question
 * gave: any numbers, on each table, against the plain count and by hand.
 */
#include <stdbool.h>

#include "draw.h"
#include "draw_price.h"
#include "on.h"
#include "report.h"
#include "seen.h"
#include "tests.h"

enum { LOWEST, HIGHEST, NINE_FOLD, PRICE, NUMBERS };

static struct hendovita_answer judge(const uint32_t n[NUMBERS])
{
    return on_judge_prepared(n[LOWEST], n[HIGHEST], n[NINE_FOLD], n[PRICE]);
}

static struct plain_answer by_count(const uint32_t n[NUMBERS])
{
    return plain_judge_prepared(n[LOWEST], n[HIGHEST], n[NINE_FOLD], n[PRICE]);
}

/* ---- by hand ---------------------------------------------------------- */

/* The numbers, and the answer, which is the same on each table. */
static const struct {
    uint32_t numbers[NUMBERS];
    struct plain_answer due;
} judged[] = {
    /* All prices, and the ends. */
    {{0, UINT32_MAX, 0, 250}, {0, 10, 9995000}},
    {{10, 9995000, 0, 10}, {0, 10, 9995000}},
    {{10, 9995000, 0, 9995000}, {0, 10, 9995000}},
    {{10, 9995000, 0, 9}, {6, 10, 9995000}},
    {{10, 9995000, 0, 9995001}, {6, 10, 9995000}},
    {{0, UINT32_MAX, 0, 0}, {6, 10, 9995000}},
    {{0, UINT32_MAX, 0, UINT32_MAX}, {6, 10, 9995000}},
    /* Bounds between ladder prices: 0.250, 0.255 and 0.260 are neighbours. */
    {{251, 259, 0, 255}, {0, 255, 255}},
    {{251, 259, 0, 250}, {8, 255, 255}},
    {{251, 259, 0, 260}, {9, 255, 255}},
    {{251, 259, 0, 251}, {7, 255, 255}},
    {{251, 254, 0, 255}, {9, 0, 0}},
    {{251, 254, 0, 250}, {8, 0, 0}},
    {{250, 254, 0, 250}, {0, 250, 250}},
    {{251, 255, 0, 255}, {0, 255, 255}},
    /* The lowest above the highest: none is shown, and 8 comes first. */
    {{300, 260, 0, 255}, {8, 0, 0}},
    {{300, 260, 0, 280}, {8, 0, 0}},
    {{300, 260, 0, 300}, {9, 0, 0}},
    {{300, 260, 0, 305}, {9, 0, 0}},
    {{UINT32_MAX, 0, 0, 300}, {8, 0, 0}},
    /* Bounds below the ladder, and above it. */
    {{0, 0, 0, 10}, {9, 0, 0}},
    {{0, 9, 0, 10}, {9, 0, 0}},
    {{0, 10, 0, 10}, {0, 10, 10}},
    {{9995000, UINT32_MAX, 0, 9995000}, {0, 9995000, 9995000}},
    {{9995001, UINT32_MAX, 0, 9995000}, {8, 0, 0}},
    {{UINT32_MAX, UINT32_MAX, 0, 9995000}, {8, 0, 0}},
    /* Nine times this lowest is 5 more than 2^32. */
    {{477218589, UINT32_MAX, 1000, 255}, {8, 0, 0}},
    /* Nine times 0.020 is 0.180, nine times 0.012 is 0.108. */
    {{0, UINT32_MAX, 20, 179}, {0, 10, 179}},
    {{0, UINT32_MAX, 20, 180}, {10, 10, 179}},
    {{0, UINT32_MAX, 107, 12}, {0, 12, 960}},
    {{0, UINT32_MAX, 108, 12}, {10, 13, 970}},
    {{13, 970, 108, 12}, {8, 13, 970}},
    {{0, 970, 108, 971}, {7, 13, 970}},
    {{0, 970, 108, 980}, {9, 13, 970}},
    /* Nine times 0.001 is 0.009, below every price. */
    {{0, UINT32_MAX, 1, 10}, {10, 0, 0}},
    {{0, UINT32_MAX, 2, 17}, {0, 10, 17}},
    {{0, UINT32_MAX, 2, 18}, {10, 10, 17}},
    /* Nine times the last price is 89,955. */
    {{0, UINT32_MAX, 89954999, 9995000}, {0, 9995000, 9995000}},
    {{0, UINT32_MAX, 89955000, 9995000}, {10, 0, 0}},
    {{0, UINT32_MAX, 89909999, 9990000}, {0, 9990000, 9995000}},
    {{0, UINT32_MAX, 89910000, 9990000}, {10, 9995000, 9995000}},
    /* Nine times these is just under 2^32, and just over. */
    {{0, UINT32_MAX, 477218588, 9995000}, {10, 0, 0}},
    {{0, UINT32_MAX, 477218589, 9995000}, {10, 0, 0}},
    {{0, UINT32_MAX, UINT32_MAX, 10}, {10, 0, 0}},
    /* 6 and 7 come before all others, 8 and 9 before 10. */
    {{300, 200, 1, 9}, {6, 0, 0}},
    {{300, 200, 1, 251}, {7, 0, 0}},
    {{300, 200, 1, 250}, {8, 0, 0}},
    {{100, 200, 1, 250}, {9, 0, 0}},
    {{100, 300, 1, 250}, {10, 0, 0}},
};

/* The numbers, and the answer on each table. */
static const struct {
    uint32_t numbers[NUMBERS];
    struct plain_answer due[PLAIN_TABLES];
} told_apart[] = {
    {{501, 509, 0, 505}, {{7, 0, 0}, {7, 0, 0}, {0, 505, 505}}},
    {{10001, 10019, 0, 10010},
     {{7, 0, 0}, {0, 10010, 10010}, {0, 10010, 10010}}},
    {{20001, 20059, 0, 20050},
     {{0, 20050, 20050}, {7, 20020, 20040}, {7, 20020, 20040}}},
    /* Nine times 2.225 is 20.025, nine times 2.23 is 20.07. */
    {{0, 3000, 20024, 2225}, {{7, 2230, 3000}, {7, 2230, 3000},
                              {0, 2225, 3000}}},
    {{0, 3000, 20025, 2230}, {{0, 2230, 3000}, {0, 2230, 3000},
                              {0, 2230, 3000}}},
};

static void same_by_hand(const uint32_t numbers[NUMBERS],
                         struct plain_answer due)
{
    struct plain_answer count = by_count(numbers);
    struct hendovita_answer counted = {count.number, count.lowest,
                                       count.highest};
    report_judged(numbers, judge(numbers), due);
    report_judged(numbers, counted, due);
}

static void test_by_hand(void)
{
    on_begin("order prices by any four numbers, by hand");
    for (size_t i = 0; i < sizeof judged / sizeof *judged; i++)
        same_by_hand(judged[i].numbers, judged[i].due);
    for (size_t i = 0; i < sizeof told_apart / sizeof *told_apart; i++)
        same_by_hand(told_apart[i].numbers,
                     told_apart[i].due[on_which() - 1]);
}

/* ---- chosen numbers --------------------------------------------------- */

/* Small ones; the edges of the bands, and what lies beside them; prices that
 * are on some of the ladders only; nine times the ends and a ninth of them;
 * powers of two and a ninth of one. */
static const uint32_t chosen[] = {
    0, 1, 2, 9, 10, 11, 89, 90, 249, 250, 251, 499, 500, 501, 505, 9995,
    10000, 10001, 10010, 19999, 20000, 20001, 20020, 20050, 50000, 50001,
    100000, 100001, 200001, 500001, 999999, 1000000, 1110555, 1110556,
    2000001, 4999999, 5000000, 5000001, 9994999, 9995000, 9995001, 89954999,
    89955000, 477218588, 477218589, INT32_MAX, UINT32_C(0x80000000),
    UINT32_C(0x80000001), UINT32_MAX,
};

enum { CHOSEN = sizeof chosen / sizeof *chosen };

/* One call, and the number that is due. */
static uint32_t same(uint32_t lowest, uint32_t highest, uint32_t nine_fold,
                     uint32_t price)
{
    const uint32_t numbers[NUMBERS] = {lowest, highest, nine_fold, price};
    struct plain_answer due = by_count(numbers);
    report_judged(numbers, judge(numbers), due);
    return due.number;
}

/* Order prices at and beside what may decide. */
static void same_few(uint32_t lowest, uint32_t highest, uint32_t nine_fold,
                     uint32_t counts[SEEN_ANSWERS])
{
    struct plain_answer shown =
        plain_judge_prepared(lowest, highest, nine_fold, 0);
    const uint32_t prices[] = {
        9, 10, 255, 20060, 9995000, UINT32_MAX,
        lowest - 1, lowest, lowest + 1, highest - 1, highest, highest + 1,
        plain_down(shown.lowest, 1), shown.lowest,
        shown.highest, plain_up(shown.highest, 1),
        nine_fold / 9, nine_fold / 9 + 1, nine_fold * 9 - 1, nine_fold * 9,
    };
    for (size_t i = 0; i < sizeof prices / sizeof *prices; i++)
        counts[same(lowest, highest, nine_fold, prices[i])]++;
}

static const uint32_t verdicts[] = {0, 6, 7, 8, 9, 10};

enum { VERDICTS = sizeof verdicts / sizeof *verdicts };

static void test_chosen(void)
{
    uint32_t counts[SEEN_ANSWERS] = {0};
    on_begin("chosen numbers for range and reference, all with each other");
    for (size_t i = 0; i < CHOSEN; i++)
        for (size_t j = 0; j < CHOSEN; j++)
            for (size_t k = 0; k < CHOSEN; k++)
                same_few(chosen[i], chosen[j], chosen[k], counts);
    seen_numbers(counts, verdicts, VERDICTS, 50000);
}

/* ---- drawn numbers ---------------------------------------------------- */

enum { DRAWN = 500000 };

/* Small and large numbers alike. */
static uint32_t any_size(struct draw *draw)
{
    return (uint32_t)draw_number(draw) >> draw_below(draw, 32);
}

static uint32_t any_number(struct draw *draw)
{
    switch (draw_below(draw, 4)) {
    case 0:
        return any_size(draw);
    case 1:
        return draw_odd_price(draw);
    default:
        return draw_shifted(draw, draw_price(draw));
    }
}

/* At or beside another number, nine times it or a ninth of it; or any. */
static uint32_t beside(struct draw *draw, uint32_t number)
{
    switch (draw_below(draw, 6)) {
    case 0:
        return number * 9 - 1 + draw_below(draw, 3);
    case 1:
        return number / 9 - 1 + draw_below(draw, 3);
    case 2:
        return number - 1 + draw_below(draw, 3);
    case 3:
        return number + any_size(draw);
    case 4:
        return draw_beside(draw, number);
    default:
        return any_number(draw);
    }
}

/* Each number by itself, or most of them by those before. */
static void test_drawn(void)
{
    uint32_t counts[SEEN_ANSWERS] = {0};
    struct draw draw;
    on_begin("1,000,000 drawn numbers for range, reference and order price");
    draw_begin(&draw, 34);
    for (uint32_t i = 0; i < DRAWN; i++) {
        uint32_t n[NUMBERS];
        for (int k = 0; k < NUMBERS; k++)
            n[k] = any_size(&draw);
        counts[same(n[LOWEST], n[HIGHEST], n[NINE_FOLD], n[PRICE])]++;
        n[LOWEST] = any_number(&draw);
        for (int k = 1; k < NUMBERS; k++)
            n[k] = beside(&draw, n[draw_below(&draw, (uint32_t)k)]);
        counts[same(n[LOWEST], n[HIGHEST], n[NINE_FOLD], n[PRICE])]++;
    }
    seen_numbers(counts, verdicts, VERDICTS, 20000);
}

/* ---- every ladder price ----------------------------------------------- */

enum { RANGES = 200 };

/* Is the price in the range, and does it pass the nine-fold rule? By the paper,
 * and in 64 bits. */
static bool is_permitted(const uint32_t n[NUMBERS])
{
    uint64_t price = n[PRICE], fold = n[NINE_FOLD];
    return n[LOWEST] <= price && price <= n[HIGHEST]
        && (fold == 0 || (price < 9 * fold && 9 * price > fold));
}

/* One ladder price: it is accepted where it is permitted, which is where it
 * is in the range shown, and it shows that range. */
static void same_accepted(const uint32_t n[NUMBERS],
                          struct hendovita_answer shown)
{
    struct hendovita_answer found = judge(n);
    bool is_shown = shown.lowest != 0 && shown.lowest <= n[PRICE]
                 && n[PRICE] <= shown.highest;
    bool accepted = found.number == 0;
    if (accepted != is_permitted(n) || accepted != is_shown
        || found.lowest != shown.lowest || found.highest != shown.highest)
        report_say("  %u to %u, nine-fold %u: %u gets %u with %u to %u, not "
                   "%u to %u", n[LOWEST], n[HIGHEST], n[NINE_FOLD], n[PRICE],
                   found.number, found.lowest, found.highest, shown.lowest,
                   shown.highest);
}

/* One price beside it, which is accepted only where it is on the ladder. */
static void same_beside(const uint32_t n[NUMBERS])
{
    if (plain_place(n[PRICE]) < 0 && judge(n).number == 0)
        report_say("  %u to %u, nine-fold %u: %u is accepted", n[LOWEST],
                   n[HIGHEST], n[NINE_FOLD], n[PRICE]);
}

/* Goes through the list. True where a range is shown, and its ends are then
 * accepted. */
static bool through_the_list(uint32_t n[NUMBERS])
{
    struct hendovita_answer shown = judge(n);
    for (uint32_t place = 0; place < plain_count(); place++) {
        n[PRICE] = plain_price(place);
        same_accepted(n, shown);
        n[PRICE]++;
        same_beside(n);
    }
    if (shown.lowest == 0 && shown.highest == 0)
        return false;
    n[PRICE] = shown.lowest;
    report_same("number of the lowest shown", judge(n).number, 0);
    n[PRICE] = shown.highest;
    report_same("number of the highest shown", judge(n).number, 0);
    return true;
}

static void test_every_price(void)
{
    uint32_t shown = 0;
    struct draw draw;
    on_begin("by 200 drawn ranges, every ladder price: accepted where shown");
    draw_begin(&draw, 35);
    for (uint32_t i = 0; i < RANGES; i++) {
        uint32_t n[NUMBERS] = {any_number(&draw)};
        n[HIGHEST] = beside(&draw, n[LOWEST]);
        n[NINE_FOLD] = draw_one_in(&draw, 3) ? 0 : beside(&draw, n[HIGHEST]);
        shown += through_the_list(n);
    }
    if (shown < RANGES / 5 || shown > RANGES - RANGES / 5)
        report_say("  %u of the ranges show something", shown);
}

void test_strangers(void)
{
    on_each(test_by_hand);
    on_each(test_chosen);
    on_each(test_drawn);
    on_each(test_every_price);
}
