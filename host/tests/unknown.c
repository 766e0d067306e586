/*
 * Numbers that name no table: every call that takes one gives 14, or finds
 * none.
 */
#include <stdbool.h>
#include <string.h>

#include "draw.h"
#include "draw_price.h"
#include "report.h"
#include "seen.h"
#include "tests.h"

/* The neighbours of the numbers that do, and numbers of which a part, a byte or
 * two, would. */
static const uint32_t unknown[] = {
    0, 4, 5, 255, 256, 257, 258, 259, 65537, 65538, 16777218, INT32_MAX,
    UINT32_C(0x80000001), UINT32_C(0x80000002), UINT32_MAX - 1, UINT32_MAX,
};

enum { UNKNOWN = sizeof unknown / sizeof *unknown };

/* Any number that names no table. */
static uint32_t any_unknown(struct draw *draw)
{
    uint32_t table = (uint32_t)draw_number(draw);
    return table >= 1 && table <= 3 ? 0 : table;
}

/* ---- ladder and limits ------------------------------------------------ */

static void none(const char *call, uint32_t table, uint32_t from,
                 struct hendovita_price found)
{
    if (found.found != 0 || found.price != 0)
        report_say("  table %u, %s %u: found %u %u, due none", table, call,
                   from, found.found, found.price);
}

static void no_steps(uint32_t table, uint32_t price)
{
    static const uint64_t n[] = {
        0, 1, 24, 11739, UINT32_MAX, UINT64_C(1) << 32, UINT64_MAX,
    };
    for (size_t i = 0; i < sizeof n / sizeof *n; i++) {
        none("up from", table, price, hendovita_up_on(table, price, n[i]));
        none("down from", table, price,
             hendovita_down_on(table, price, n[i]));
    }
}

/* The price stands for a place, too. */
static void no_others(uint32_t table, uint32_t price)
{
    struct hendovita_place place = hendovita_place_of_on(table, price);
    if (place.found != 0 || place.place != 0)
        report_say("  table %u, place of %u: found %u %u, due none", table,
                   price, place.found, place.place);
    none("place", table, price, hendovita_price_at_on(table, price));
    none("lower limit of", table, price,
         hendovita_lower_limit_on(table, price));
    none("upper limit of", table, price,
         hendovita_upper_limit_on(table, price));
    none("5 percent below", table, price,
         hendovita_five_percent_lower_on(table, price));
    none("5 percent above", table, price,
         hendovita_five_percent_upper_on(table, price));
}

static void test_ladder_calls(void)
{
    struct draw draw;
    report_begin("no table: no price and no place, from any price or place");
    draw_begin(&draw, 21);
    for (size_t i = 0; i < UNKNOWN; i++) {
        for (uint32_t price = 0; price <= 60000; price++) {
            no_steps(unknown[i], price);
            no_others(unknown[i], price);
        }
        for (uint32_t price = UINT32_MAX; price > 60000;
             price -= price / 999) {
            no_steps(unknown[i], price);
            no_others(unknown[i], price);
        }
    }
    for (uint32_t i = 0; i < 300000; i++) {
        uint32_t table = any_unknown(&draw);
        no_steps(table, draw_price(&draw));
        no_others(table, draw_price(&draw));
    }
}

static void no_band(uint32_t table, uint32_t price, uint32_t allowed)
{
    struct hendovita_band band = hendovita_band_of_on(table, price, allowed);
    if (band.found != 0 || band.index != 0)
        report_say("  table %u, band of %u, %u allowed: found %u %u, due none",
                   table, price, allowed, band.found, band.index);
}

static void no_bands(uint32_t table, uint32_t price)
{
    for (uint32_t allowed = 0; allowed <= 13; allowed++)
        no_band(table, price, allowed);
    no_band(table, price, 256);
    no_band(table, price, UINT32_MAX);
}

static void test_band_calls(void)
{
    struct draw draw;
    report_begin("no table: no band of any price, however many are allowed");
    draw_begin(&draw, 25);
    for (size_t i = 0; i < UNKNOWN; i++) {
        for (uint32_t price = 0; price <= 60000; price++)
            no_bands(unknown[i], price);
        for (uint32_t price = UINT32_MAX; price > 60000; price -= price / 999)
            no_bands(unknown[i], price);
    }
    for (uint32_t i = 0; i < 300000; i++)
        no_bands(any_unknown(&draw), draw_price(&draw));
}

/* ---- questions -------------------------------------------------------- */

static void refused(const char *what, uint32_t table,
                    struct hendovita_answer found, uint32_t number)
{
    if (found.number != number || found.lowest != 0 || found.highest != 0)
        report_say("  table %u, %s: found %u %u %u, due %u 0 0", table, what,
                   found.number, found.lowest, found.highest, number);
}

/* On a table, the questions would get every number that there is. */
static void test_questions(void)
{
    static const uint32_t numbers[] = {0, 2, 3, 4, 5, 6, 7, 8, 9, 10, 15};
    uint32_t counts[SEEN_ANSWERS] = {0};
    uint8_t bytes[PLAIN_QUESTION_BYTES];
    struct draw draw;
    report_begin("no table: 14 for a question, good or bad");
    draw_begin(&draw, 22);
    for (uint32_t i = 0; i < 300000; i++) {
        uint32_t table = i % 2 == 0 ? unknown[i / 2 % UNKNOWN]
                                    : any_unknown(&draw);
        draw_question(&draw, bytes);
        counts[plain_question(bytes).number]++;
        refused("question", table,
                hendovita_judge_question_on(table, bytes, sizeof bytes), 14);
    }
    seen_numbers(counts, numbers, sizeof numbers / sizeof *numbers, 1000);
}

static void test_lengths(void)
{
    static const uint8_t filling[] = {0, 1, 2, 255};
    uint8_t bytes[200];
    report_begin("no table: 1 before it, for a question not of 44 bytes");
    for (size_t f = 0; f < sizeof filling; f++) {
        memset(bytes, filling[f], sizeof bytes);
        for (size_t i = 0; i < UNKNOWN; i++)
            for (size_t len = 0; len <= sizeof bytes; len++)
                refused("length", unknown[i],
                        hendovita_judge_question_on(unknown[i], bytes, len),
                        len == PLAIN_QUESTION_BYTES ? 14 : 1);
    }
    for (size_t i = 0; i < UNKNOWN; i++)
        refused("no question", unknown[i],
                hendovita_judge_question_on(unknown[i], NULL, 0), 1);
}

/* ---- questions in two parts ------------------------------------------- */

static void not_prepared(const char *what, uint32_t table,
                         struct hendovita_prepared found, uint32_t number)
{
    if (found.number != number || found.lowest != 0 || found.highest != 0
        || found.nine_fold != 0)
        report_say("  table %u, %s: found %u %u %u %u, due %u 0 0 0", table,
                   what, found.number, found.lowest, found.highest,
                   found.nine_fold, number);
}

/* On a table, they would be prepared or get 2, 3, 4, 5 or 15. */
static void test_prepared_questions(void)
{
    static const uint32_t numbers[] = {0, 2, 3, 4, 5, 15};
    uint32_t counts[SEEN_ANSWERS] = {0};
    uint8_t bytes[PLAIN_QUESTION_BYTES];
    struct draw draw;
    report_begin("no table: 14 with zeros for a question to be prepared");
    draw_begin(&draw, 26);
    for (uint32_t i = 0; i < 300000; i++) {
        uint32_t table = i % 2 == 0 ? unknown[i / 2 % UNKNOWN]
                                    : any_unknown(&draw);
        draw_question(&draw, bytes);
        counts[plain_prepare(bytes).number]++;
        not_prepared("question", table,
                     hendovita_prepare_on(table, bytes, sizeof bytes), 14);
    }
    seen_numbers(counts, numbers, sizeof numbers / sizeof *numbers, 5000);
}

static void test_prepared_lengths(void)
{
    static const uint8_t filling[] = {0, 1, 2, 255};
    uint8_t bytes[200];
    report_begin("no table: 1 before it, to be prepared from not 44 bytes");
    for (size_t f = 0; f < sizeof filling; f++) {
        memset(bytes, filling[f], sizeof bytes);
        for (size_t i = 0; i < UNKNOWN; i++)
            for (size_t len = 0; len <= sizeof bytes; len++)
                not_prepared("length", unknown[i],
                             hendovita_prepare_on(unknown[i], bytes, len),
                             len == PLAIN_QUESTION_BYTES ? 14 : 1);
    }
    for (size_t i = 0; i < UNKNOWN; i++)
        not_prepared("no question", unknown[i],
                     hendovita_prepare_on(unknown[i], NULL, 0), 1);
}

static uint32_t any_price(struct draw *draw)
{
    return draw_one_in(draw, 3) ? draw_odd_price(draw) : draw_price(draw);
}

/* On a table, they would get every number from 6 to 10, and 0. */
static void test_prepared_prices(void)
{
    static const uint32_t numbers[] = {0, 6, 7, 8, 9, 10};
    uint32_t counts[SEEN_ANSWERS] = {0};
    struct draw draw;
    report_begin("no table: 14 with 0 and 0 for an order price, by any range");
    draw_begin(&draw, 27);
    for (uint32_t i = 0; i < 300000; i++) {
        uint32_t table = i % 2 == 0 ? unknown[i / 2 % UNKNOWN]
                                    : any_unknown(&draw);
        uint32_t low = any_price(&draw), high = any_price(&draw);
        uint32_t fold = draw_one_in(&draw, 2) ? 0 : any_price(&draw);
        uint32_t price = any_price(&draw);
        counts[plain_judge_prepared(low, high, fold, price).number]++;
        refused("order price", table,
                hendovita_judge_prepared_on(table, low, high, fold, price),
                14);
    }
    seen_numbers(counts, numbers, sizeof numbers / sizeof *numbers, 5000);
}

/* ---- trades ----------------------------------------------------------- */

static void test_trades(void)
{
    struct draw draw;
    report_begin("no table: 14 for a trade, good or bad");
    draw_begin(&draw, 23);
    for (uint32_t i = 0; i < 300000; i++) {
        uint32_t table = i % 2 == 0 ? unknown[i / 2 % UNKNOWN]
                                    : any_unknown(&draw);
        uint32_t f[6];
        draw_trade(&draw, f);
        refused("trade", table,
                hendovita_judge_trade_on(table, f[0], f[1], f[2], f[3], f[4],
                                         f[5]), 14);
    }
}

/* ---- batches ---------------------------------------------------------- */

enum { MOST = 1001, SPARE = 64 };

static uint8_t questions[MOST * PLAIN_QUESTION_BYTES + SPARE];
static uint8_t answers[MOST * 12 + SPARE];

static uint8_t pattern(size_t i)
{
    return (uint8_t)(i * 11 + 5);
}

/* One call: 14, or 1 where that comes first, and every byte as it was. */
static void judge(uint32_t table, size_t asked, size_t room)
{
    size_t whole = asked / PLAIN_QUESTION_BYTES;
    bool taken = asked % PLAIN_QUESTION_BYTES == 0 && whole <= 1000
              && room >= whole * 12;
    uint32_t due = taken ? 14 : 1;
    for (size_t i = 0; i < sizeof answers; i++)
        answers[i] = pattern(i);
    struct hendovita_outcome outcome =
        hendovita_judge_batch_on(table, questions, asked, answers, room);
    if (outcome.number != due || outcome.count != 0)
        report_say("  table %u, %zu bytes into %zu: found %u %u, due %u 0",
                   table, asked, room, outcome.number, outcome.count, due);
    for (size_t i = 0; i < sizeof answers; i++)
        if (answers[i] != pattern(i))
            report_say("  table %u, %zu bytes into %zu: byte %zu is %u",
                       table, asked, room, i, answers[i]);
}

static void every_size(uint32_t table)
{
    static const size_t sizes[] = {0, 1, 2, 3, 25, 999, 1000, 1001};
    for (size_t i = 0; i < sizeof sizes / sizeof *sizes; i++) {
        size_t n = sizes[i];
        judge(table, PLAIN_QUESTION_BYTES * n, 0);
        judge(table, PLAIN_QUESTION_BYTES * n, 12 * n);
        judge(table, PLAIN_QUESTION_BYTES * n, 12 * n + 1);
        judge(table, PLAIN_QUESTION_BYTES * n, sizeof answers);
        judge(table, PLAIN_QUESTION_BYTES * n + 1, sizeof answers);
        if (n > 0) {
            judge(table, PLAIN_QUESTION_BYTES * n, 12 * n - 1);
            judge(table, PLAIN_QUESTION_BYTES * n - 1, sizeof answers);
        }
    }
    for (size_t asked = 0; asked <= 300; asked++)
        judge(table, asked, sizeof answers);
}

/* With NULL, and with one byte that is to stay. */
static void empty(uint32_t table)
{
    uint8_t byte = 77;
    struct hendovita_outcome found[3] = {
        hendovita_judge_batch_on(table, NULL, 0, NULL, 0),
        hendovita_judge_batch_on(table, NULL, 0, &byte, 1),
        hendovita_judge_batch_on(table, questions, 0, NULL, 0),
    };
    for (int i = 0; i < 3; i++) {
        report_same("number of an empty batch", found[i].number, 14);
        report_same("count of an empty batch", found[i].count, 0);
    }
    report_same("the byte", byte, 77);
    report_same("number without a buffer",
                hendovita_judge_batch_on(table, questions,
                                         PLAIN_QUESTION_BYTES, NULL, 0).number,
                1);
}

static void test_whole_batches(void)
{
    struct draw draw;
    report_begin("no table: 14 for a batch, 1 before it, and no byte changed");
    draw_begin(&draw, 24);
    for (size_t k = 0; k < MOST; k++)
        draw_question(&draw, questions + PLAIN_QUESTION_BYTES * k);
    for (size_t i = 0; i < UNKNOWN; i++) {
        every_size(unknown[i]);
        empty(unknown[i]);
    }
    for (uint32_t i = 0; i < 200; i++)
        judge(any_unknown(&draw),
              PLAIN_QUESTION_BYTES * draw_below(&draw, MOST), sizeof answers);
}

void test_unknown(void)
{
    test_ladder_calls();
    test_band_calls();
    test_questions();
    test_lengths();
    test_prepared_questions();
    test_prepared_lengths();
    test_prepared_prices();
    test_trades();
    test_whole_batches();
}
