/*
 * What tells the three tables apart: values worked out by hand, and how many
 * prices each has.
 *
 * Each value is held against the library and against the plain count.
 */
#include "coded.h"
#include "on.h"
#include "report.h"
#include "tests.h"

/* The codes of the paper. */
enum { BUY = 1, SELL };
enum { LIMIT = 1, ENHANCED };
enum { OPENING = 1, BOTH, BUY_ONLY };

/* ---- counts ----------------------------------------------------------- */

static const uint32_t counts[PLAIN_TABLES] = {10340, 11740, 12690};

/* How many prices have a place, how many single spreads from the first lead to
 * the last, and the same back. */
static uint32_t places(void)
{
    uint32_t count = 0;
    for (uint32_t price = 0; price <= 10000000; price++)
        count += on_place_of(price).found;
    return count;
}

static uint32_t spreads(struct hendovita_price step(uint32_t, uint64_t),
                        uint32_t from, uint32_t to)
{
    uint32_t taken = 0;
    for (uint32_t price = from; price != to && taken < 20000; taken++)
        price = step(price, 1).price;
    return taken;
}

static void test_counts(void)
{
    uint32_t due = counts[on_which() - 1];
    on_begin("how many prices the table has, by the calls alone");
    report_same("places", places(), due);
    report_same("spreads up", spreads(on_up, 10, 9995000), due - 1);
    report_same("spreads down", spreads(on_down, 9995000, 10), due - 1);
    report_same("the last price", on_price_at(due - 1).price, 9995000);
    report_same("a price after it", on_price_at(due).found, 0);
    report_same("the last place", on_place_of(9995000).place, due - 1);
    report_same("by the plain count", plain_count(), due);
}

/* ---- places ----------------------------------------------------------- */

/* The places of a price on tables 1, 2 and 3, -1 for none: 241 prices up to
 * 0.250, then 50 up to 0.500. */
static const struct {
    uint32_t price;
    int32_t due[PLAIN_TABLES];
} placed[] = {
    {10, {0, 0, 0}}, {250, {240, 240, 240}}, {500, {290, 290, 290}},
    {505, {-1, -1, 291}}, {510, {291, 291, 292}}, {9995, {-1, -1, 2189}},
    {10000, {1240, 1240, 2190}}, {10010, {-1, 1241, 2191}},
    {10020, {1241, 1242, 2192}}, {20000, {1740, 2240, 3190}},
    {20020, {-1, 2241, 3191}}, {20050, {1741, -1, -1}},
    {20100, {1742, 2245, 3195}}, {50000, {2340, 3740, 4690}},
    {9995000, {10339, 11739, 12689}}, {9, {-1, -1, -1}},
    {9995001, {-1, -1, -1}},
};

static void test_places(void)
{
    on_begin("places that tell the tables apart, by hand");
    for (size_t i = 0; i < sizeof placed / sizeof *placed; i++) {
        uint32_t price = placed[i].price;
        int32_t due = placed[i].due[on_which() - 1];
        struct hendovita_place found = on_place_of(price);
        if (found.found != (due >= 0)
            || found.place != (due < 0 ? 0 : (uint32_t)due)
            || plain_place(price) != due)
            report_say("  place of %u: found %u %u, by the plain count %d, "
                       "due %d", price, found.found, found.place,
                       (int)plain_place(price), (int)due);
        if (due >= 0)
            report_same("price", on_price_at((uint32_t)due).price, price);
    }
}

/* ---- spreads and limits ----------------------------------------------- */

enum call { UP, DOWN, UP_24, DOWN_24, FIVE_LOWER, FIVE_UPPER, LOWER, UPPER };

static const struct {
    enum call call;
    uint32_t price;
    uint32_t due[PLAIN_TABLES];
} prices[] = {
    /* A spread from where the tables part, to either side. */
    {UP, 500, {510, 510, 505}}, {DOWN, 500, {495, 495, 495}},
    {UP, 10000, {10020, 10010, 10010}}, {DOWN, 10000, {9990, 9990, 9995}},
    {UP, 20000, {20050, 20020, 20020}}, {DOWN, 20000, {19980, 19990, 19990}},
    {UP, 50000, {50050, 50050, 50050}}, {DOWN, 50000, {49950, 49980, 49980}},
    /* From between two prices, on one table or another. */
    {UP, 20050, {20100, 20060, 20060}}, {DOWN, 20050, {20000, 20040, 20040}},
    {UP, 505, {510, 510, 510}}, {DOWN, 505, {500, 500, 500}},
    {UP, 10010, {10020, 10020, 10020}}, {DOWN, 10010, {10000, 10000, 10000}},
    /* 4 of 0.05 and 20 of 0.02; 10 of 0.02 and 14 of 0.01. */
    {DOWN_24, 20200, {19600, 19860, 19860}},
    {UP_24, 20000, {21200, 20480, 20480}}, {UP_24, 500, {740, 740, 620}},
    {UP_24, 9990, {10460, 10230, 10220}},
    /* 5 percent of 20.20 is 19.19, of 0.51 is 0.4845 and 0.5355. */
    {FIVE_LOWER, 20200, {19200, 19190, 19190}},
    {FIVE_LOWER, 510, {485, 485, 485}}, {FIVE_UPPER, 510, {530, 530, 535}},
    {LOWER, 20200, {19200, 19190, 19190}}, {LOWER, 510, {385, 385, 390}},
    {UPPER, 20000, {21200, 21000, 21000}}, {UPPER, 510, {750, 750, 630}},
    {LOWER, 1000, {760, 760, 880}}, {UPPER, 1000, {1240, 1240, 1120}},
};

static struct hendovita_price called(enum call call, uint32_t price)
{
    switch (call) {
    case UP: return on_up(price, 1);
    case DOWN: return on_down(price, 1);
    case UP_24: return on_up(price, 24);
    case DOWN_24: return on_down(price, 24);
    case FIVE_LOWER: return on_five_percent_lower(price);
    case FIVE_UPPER: return on_five_percent_upper(price);
    case LOWER: return on_lower_limit(price);
    default: return on_upper_limit(price);
    }
}

static uint32_t by_count(enum call call, uint32_t price)
{
    switch (call) {
    case UP: return plain_up(price, 1);
    case DOWN: return plain_down(price, 1);
    case UP_24: return plain_up(price, 24);
    case DOWN_24: return plain_down(price, 24);
    case FIVE_LOWER: return plain_five_percent_lower(price);
    case FIVE_UPPER: return plain_five_percent_upper(price);
    case LOWER: return plain_lower_limit(price);
    default: return plain_upper_limit(price);
    }
}

static void test_prices_by_hand(void)
{
    on_begin("spreads and limits that tell the tables apart, by hand");
    for (size_t i = 0; i < sizeof prices / sizeof *prices; i++) {
        uint32_t price = prices[i].price;
        uint32_t due = prices[i].due[on_which() - 1];
        struct hendovita_price found = called(prices[i].call, price);
        uint32_t counted = by_count(prices[i].call, price);
        if (found.found != 1 || found.price != due || counted != due)
            report_say("  line %zu, from %u: found %u %u, by the plain count "
                       "%u, due %u", i, price, found.found, found.price,
                       counted, due);
    }
}

/* ---- questions and trades --------------------------------------------- */

static struct hendovita_answer as_answer(struct plain_answer answer)
{
    return (struct hendovita_answer){answer.number, answer.lowest,
                                     answer.highest};
}

/* Each has security code 1. */
static const struct {
    struct hendovita_question question;
    struct plain_answer due[PLAIN_TABLES];
} questions[] = {
    /* Close 20.20: nine times it is 181.80. */
    {{BUY, LIMIT, OPENING, 19190, .previous_close = 20200},
     {{7, 19200, 181700}, {0, 19190, 181700}, {0, 19190, 181700}}},
    {{BUY, LIMIT, OPENING, 19180, .previous_close = 20200},
     {{8, 19200, 181700}, {8, 19190, 181700}, {8, 19190, 181700}}},
    /* A bid that is a ladder price of table 3 alone: 0.500, and 23 of 0.005. */
    {{BUY, LIMIT, BUY_ONLY, 505, .current_bid = 505},
     {{3, 0, 0}, {3, 0, 0}, {0, 385, 9995000}}},
    /* One of table 1 alone: 95 percent of 20.05 is 19.0475. */
    {{BUY, LIMIT, BUY_ONLY, 20050, .current_bid = 20050},
     {{0, 19060, 9995000}, {3, 0, 0}, {3, 0, 0}}},
    /* Nine spreads from 20.00 and from 19.98; 5 percent of 19.98 is 18.981, of
     * 20.00 is 21.00, and 24 of 0.05 lead to 21.20. */
    {{BUY, ENHANCED, BOTH, 20450, .current_bid = 19980, .current_ask = 20000},
     {{0, 19000, 20450}, {7, 18990, 20180}, {7, 18990, 20180}}},
    {{BUY, ENHANCED, BOTH, 20200, .current_bid = 19980, .current_ask = 20000},
     {{0, 19000, 20450}, {9, 18990, 20180}, {9, 18990, 20180}}},
    {{SELL, ENHANCED, BOTH, 19800, .current_bid = 19980,
      .current_ask = 20000},
     {{0, 19800, 21200}, {8, 19890, 21000}, {8, 19890, 21000}}},
    /* An unknown side comes first, whatever the table. */
    {{3, LIMIT, BUY_ONLY, 505, .current_bid = 505},
     {{2, 0, 0}, {2, 0, 0}, {2, 0, 0}}},
};

/* Price, close, lowest bid, lowest ask, highest bid, highest ask. */
static const struct {
    uint32_t fields[6];
    struct plain_answer due[PLAIN_TABLES];
} trades[] = {
    {{387, 510, 0, 0, 0, 0}, {{0, 385, 750}, {0, 385, 750}, {8, 390, 630}}},
    {{630, 510, 0, 0, 0, 0}, {{0, 385, 750}, {0, 385, 750}, {0, 390, 630}}},
    {{631, 510, 0, 0, 0, 0}, {{0, 385, 750}, {0, 385, 750}, {9, 390, 630}}},
    {{20050, 0, 20050, 0, 20050, 0},
     {{0, 20050, 20050}, {3, 0, 0}, {3, 0, 0}}},
    {{20050, 0, 0, 20020, 0, 20060},
     {{3, 0, 0}, {0, 20020, 20060}, {0, 20020, 20060}}},
    {{9995, 0, 9995, 9995, 9995, 9995},
     {{3, 0, 0}, {3, 0, 0}, {0, 9995, 9995}}},
};

static void test_questions(void)
{
    on_begin("questions and trades that tell the tables apart, by hand");
    for (size_t i = 0; i < sizeof questions / sizeof *questions; i++) {
        struct plain_answer due = questions[i].due[on_which() - 1];
        uint8_t bytes[PLAIN_QUESTION_BYTES], answer[12];
        coded(bytes, &questions[i].question, 1);
        report_question("alone", bytes, on_question(bytes, sizeof bytes),
                        due);
        report_question("in two parts", bytes, on_two_parts(bytes), due);
        report_same("count",
                    on_batch(bytes, sizeof bytes, answer, 12).count, 1);
        report_question("in a batch", bytes, hendovita_get_answer(answer),
                        due);
        report_question("by the plain count", bytes,
                        as_answer(plain_question(bytes)), due);
    }
    for (size_t i = 0; i < sizeof trades / sizeof *trades; i++) {
        const uint32_t *f = trades[i].fields;
        struct plain_answer due = trades[i].due[on_which() - 1];
        report_trade(f, on_trade(f), due);
        report_trade(f, as_answer(plain_trade(f[0], f[1], f[2], f[3], f[4],
                                              f[5])), due);
    }
}

/* A day is on table 2. Its bid of 20.02 is no ladder price of table 1. */
static void test_day(void)
{
    static const struct plain_answer due[PLAIN_TABLES] = {
        {3, 0, 0}, {0, 19020, 9995000}, {0, 19020, 9995000},
    };
    uint8_t bytes[PLAIN_QUESTION_BYTES];
    struct hendovita_entered entered = hendovita_enter_event(
        hendovita_open_day(0).day, HENDOVITA_BEST_BID, 20020);
    on_begin("a question from a day, by hand");
    report_same("number of the event", entered.number, 0);
    report_same("number of the fill",
                hendovita_fill_question(entered.day, BUY, LIMIT, 20020, 0, 1,
                                        bytes, sizeof bytes), 0);
    report_question("from a day", bytes, on_question(bytes, sizeof bytes),
                    due[on_which() - 1]);
    report_question("by the plain count", bytes,
                    as_answer(plain_question(bytes)), due[on_which() - 1]);
}

static void test_no_other(void)
{
    report_begin("the plain count has no table but 1, 2 and 3");
    plain_use(3);
    report_same("table 0", plain_use(0), 0);
    report_same("table 4", plain_use(4), 0);
    report_same("table 2^32 - 1", plain_use(UINT32_MAX), 0);
    report_same("the table that stays", plain_count(), 12690);
    plain_use(PLAIN_PHASE_1);
}

void test_tables(void)
{
    on_each(test_counts);
    on_each(test_places);
    on_each(test_prices_by_hand);
    on_each(test_questions);
    on_each(test_day);
    test_no_other();
}
