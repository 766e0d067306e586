/*
 * Previous closes and nominals that need not be ladder prices: values worked
 * out by hand, on table 2.
 *
 * Each value is held against the library and against the plain count.
 */
#include "coded.h"
#include "on.h"
#include "report.h"
#include "tests.h"

/* The codes of the paper. */
enum { BUY = 1, SELL };
enum { LIMIT = 1 };
enum { OPENING = 1, BOTH, BUY_ONLY, SELL_ONLY, NEITHER };

static struct hendovita_answer counted(struct plain_answer answer)
{
    return (struct hendovita_answer){answer.number, answer.lowest,
                                     answer.highest};
}

/* ---- limits ----------------------------------------------------------- */

/* A price, the ladder prices beside it, and its four limits; 0 for none. */
static const struct {
    uint32_t price, down, up, five_lower, five_upper, lower, upper;
} limits[] = {
    /* 5 percent is 19.0475 and 21.0525. */
    {20050, 20040, 20060, 19050, 21040, 19050, 21040},
    /* Down: 0.250, then 23 of 0.001. Up: 0.255, then 23 of 0.005. */
    {252, 250, 255, 240, 260, 227, 370},
    /* On either side of a band's edge: 23 of 0.005 down from 0.495 and from
     * 0.500, 23 of 0.010 up from 0.500 and from 0.510. */
    {499, 495, 500, 475, 520, 380, 730},
    {501, 500, 510, 480, 520, 385, 740},
    /* 5 percent is 9.50095 and 10.50105, and 47.50095 and 52.50105. */
    {10001, 10000, 10010, 9510, 10500, 9510, 10500},
    {50001, 50000, 50050, 47520, 52500, 47520, 52500},
    /* The ends, and one mil within: 95 percent of 9,994.999 is 9,495.24905. */
    {10, 10, 11, 10, 10, 10, 34},
    {9994999, 9990000, 9995000, 9500000, 9995000, 9500000, 9995000},
    {9995000, 9990000, 9995000, 9500000, 9995000, 9500000, 9995000},
    /* One mil past the ends. */
    {9, 0, 0, 0, 0, 0, 0},
    {9995001, 0, 0, 0, 0, 0, 0},
};

static void same(const char *what, uint32_t price,
                 struct hendovita_price found, uint32_t by_count, uint32_t due)
{
    if (found.price != due || found.found != (due != 0) || by_count != due)
        report_say("  %s %u: found %u %u, by the plain count %u, due %u", what,
                   price, found.found, found.price, by_count, due);
}

static void test_limits(void)
{
    on_begin("spreads and limits between ladder prices, by hand");
    for (size_t i = 0; i < sizeof limits / sizeof *limits; i++) {
        uint32_t price = limits[i].price;
        same("down", price, on_down(price, 1), plain_down(price, 1),
             limits[i].down);
        same("up", price, on_up(price, 1), plain_up(price, 1),
             limits[i].up);
        same("5 percent below", price, on_five_percent_lower(price),
             plain_five_percent_lower(price), limits[i].five_lower);
        same("5 percent above", price, on_five_percent_upper(price),
             plain_five_percent_upper(price), limits[i].five_upper);
        same("lower limit", price, on_lower_limit(price),
             plain_lower_limit(price), limits[i].lower);
        same("upper limit", price, on_upper_limit(price),
             plain_upper_limit(price), limits[i].upper);
    }
}

/* ---- questions -------------------------------------------------------- */

/* Each has security code 1. */
static const struct {
    struct hendovita_question question;
    struct plain_answer due;
} questions[] = {
    /* Close 20.05: 19.05 is the lower limit; nine times the close is
     * 180.45. */
    {{BUY, LIMIT, OPENING, 19050, .previous_close = 20050},
     {0, 19050, 180400}},
    {{BUY, LIMIT, OPENING, 19040, .previous_close = 20050},
     {8, 19050, 180400}},
    {{BUY, LIMIT, OPENING, 180400, .previous_close = 20050},
     {0, 19050, 180400}},
    {{BUY, LIMIT, OPENING, 180500, .previous_close = 20050},
     {10, 19050, 180400}},
    {{BUY, LIMIT, OPENING, 20050, .previous_close = 20050},
     {7, 19050, 180400}},
    /* 21.04 is the upper limit; nine times 2.22 is 19.98. */
    {{SELL, LIMIT, OPENING, 21040, .previous_close = 20050},
     {0, 2230, 21040}},
    {{SELL, LIMIT, OPENING, 21060, .previous_close = 20050},
     {9, 2230, 21040}},
    {{SELL, LIMIT, OPENING, 2220, .previous_close = 20050},
     {10, 2230, 21040}},
    /* Close 2.503 is the least or the greatest: 2.50 less 23 of 0.01 is 2.27,
     * 2.51 and 23 of 0.01 is 2.74. */
    {{BUY, LIMIT, SELL_ONLY, 2270, .current_ask = 3000,
      .previous_close = 2503, .day_low = 2800, .day_high = 2800},
     {0, 2270, 3000}},
    {{SELL, LIMIT, BUY_ONLY, 2740, .current_bid = 2400,
      .previous_close = 2503, .day_low = 2450, .day_high = 2450},
     {0, 2400, 2740}},
    {{BUY, LIMIT, NEITHER, 2260, .last_ask = 3000, .previous_close = 2503},
     {8, 2270, 9995000}},
    {{SELL, LIMIT, NEITHER, 2750, .last_bid = 2400, .previous_close = 2503},
     {9, 10, 2740}},
    /* The day low, 2.50, is less: 2.50 less 24 of 0.01 is 2.26. */
    {{BUY, LIMIT, SELL_ONLY, 2250, .current_ask = 3000,
      .previous_close = 2503, .day_low = 2500, .day_high = 2800},
     {8, 2260, 3000}},
    /* Nine times a nominal of 1.001 is 9.009. */
    {{BUY, LIMIT, BUY_ONLY, 9000, .current_bid = 1000, .nominal = 1001},
     {0, 760, 9000}},
    {{BUY, LIMIT, BUY_ONLY, 9010, .current_bid = 1000, .nominal = 1001},
     {10, 760, 9000}},
    /* Nine times 0.112 is 1.008, nine times 0.255 is 2.295. */
    {{SELL, LIMIT, SELL_ONLY, 112, .current_ask = 1000, .nominal = 1007},
     {0, 112, 1240}},
    {{SELL, LIMIT, SELL_ONLY, 112, .current_ask = 1000, .nominal = 1008},
     {10, 113, 1240}},
    {{BUY, LIMIT, SELL_ONLY, 255, .current_ask = 255, .nominal = 2294},
     {0, 255, 255}},
    {{BUY, LIMIT, SELL_ONLY, 255, .current_ask = 255, .nominal = 2295},
     {10, 0, 0}},
    /* The ends, one mil within and one mil past. */
    {{SELL, LIMIT, OPENING, 34, .previous_close = 10}, {0, 10, 34}},
    {{BUY, LIMIT, OPENING, 9995000, .previous_close = 9994999},
     {0, 9500000, 9995000}},
    {{BUY, LIMIT, OPENING, 9995000, .previous_close = 9995001}, {3, 0, 0}},
    {{SELL, LIMIT, OPENING, 10, .previous_close = 9}, {3, 0, 0}},
    {{BUY, LIMIT, BUY_ONLY, 10, .current_bid = 10, .nominal = 9}, {3, 0, 0}},
    {{BUY, LIMIT, BUY_ONLY, 9995000, .current_bid = 9995000,
      .nominal = 9995001},
     {3, 0, 0}},
    /* At the opening the nominal is not used, and is looked at all the
     * same. */
    {{BUY, LIMIT, OPENING, 20000, .nominal = 20050}, {0, 10, 9995000}},
    {{BUY, LIMIT, OPENING, 20000, .nominal = 9995001}, {3, 0, 0}},
    /* A bid is a ladder price. */
    {{BUY, LIMIT, BUY_ONLY, 20000, .current_bid = 20050}, {3, 0, 0}},
    /* An unknown side comes before a bad close, a bid that is not there after
     * a good one. */
    {{3, LIMIT, OPENING, 20000, .previous_close = 9995001}, {2, 0, 0}},
    {{BUY, LIMIT, BOTH, 20000, .previous_close = 20050}, {4, 0, 0}},
};

static void same_question(const struct hendovita_question *question,
                          struct plain_answer due)
{
    uint8_t bytes[PLAIN_QUESTION_BYTES];
    coded(bytes, question, 1);
    report_question("alone", bytes, on_question(bytes, sizeof bytes), due);
    report_question("in two parts", bytes, on_two_parts(bytes), due);
    report_question("by the plain count", bytes,
                    counted(plain_question(bytes)), due);
}

static void test_questions(void)
{
    on_begin("closes and nominals of questions, by hand");
    for (size_t i = 0; i < sizeof questions / sizeof *questions; i++)
        same_question(&questions[i].question, questions[i].due);
}

/* ---- trades ----------------------------------------------------------- */

/* Price, close, lowest bid, lowest ask, highest bid, highest ask. */
static const struct {
    uint32_t fields[6];
    struct plain_answer due;
} trades[] = {
    {{19050, 20050, 0, 0, 0, 0}, {0, 19050, 21040}},
    {{19049, 20050, 0, 0, 0, 0}, {8, 19050, 21040}},
    {{21040, 20050, 0, 0, 0, 0}, {0, 19050, 21040}},
    {{21041, 20050, 0, 0, 0, 0}, {9, 19050, 21040}},
    {{9, 20050, 0, 0, 0, 0}, {6, 19050, 21040}},
    {{22000, 20050, 19000, 20000, 20060, 22000}, {0, 19000, 22000}},
    {{19049, 20050, 19060, 20000, 20060, 20060}, {8, 19050, 21040}},
    {{227, 252, 0, 0, 0, 0}, {0, 227, 370}},
    {{20000, 9, 0, 0, 0, 0}, {3, 0, 0}},
    {{20000, 9995001, 0, 0, 0, 0}, {3, 0, 0}},
    {{20000, 20050, 20050, 0, 20060, 0}, {3, 0, 0}},
    {{20000, 20050, 0, 20040, 0, 20050}, {3, 0, 0}},
    {{20000, 20050, 20060, 0, 20040, 0}, {4, 0, 0}},
};

static void same_trade(const uint32_t f[6], struct plain_answer due)
{
    report_trade(f, on_trade(f), due);
    report_trade(f, counted(plain_trade(f[0], f[1], f[2], f[3], f[4], f[5])),
                 due);
}

static void test_trades(void)
{
    on_begin("closes of trades, by hand");
    for (size_t i = 0; i < sizeof trades / sizeof *trades; i++)
        same_trade(trades[i].fields, trades[i].due);
}

/* ---- days ------------------------------------------------------------- */

/* A fresh day with a close, and what is due. */
static struct hendovita_day same_fresh(uint32_t close, uint32_t number,
                                       uint32_t kept)
{
    struct plain_event none = {0, close};
    struct plain_kept due = {.previous_close = kept};
    struct plain_day list;
    struct hendovita_entered found = hendovita_open_day(close);
    report_entered("fresh", none, found, number, &due);
    report_same("number by the plain count", plain_open_day(&list, close),
                number);
    report_same("close by the plain count", plain_kept(&list).previous_close,
                kept);
    return found.day;
}

/* An event whose price lies between ladder prices leaves the day as it was. */
static void same_day(struct hendovita_day day, uint32_t kind, uint32_t close)
{
    struct plain_event event = {kind, 20050};
    struct plain_kept due = {.previous_close = close};
    report_entered("between ladder prices", event,
                   hendovita_enter_event(day, kind, event.price), 12, &due);
}

static void test_days_by_hand(void)
{
    static const uint32_t taken[] = {0, 10, 251, 20050, 9994999, 9995000};
    static const uint32_t refused[] = {1, 9, 9995001, 10000000, UINT32_MAX};
    const struct hendovita_question due = {
        BUY, LIMIT, OPENING, 19050, .previous_close = 20050, .nominal = 20055,
    };
    uint8_t found[PLAIN_QUESTION_BYTES], bytes[PLAIN_QUESTION_BYTES];
    report_begin("closes of fresh days, and a question from one, by hand");
    for (size_t i = 0; i < sizeof taken / sizeof *taken; i++)
        same_fresh(taken[i], 0, taken[i]);
    for (size_t i = 0; i < sizeof refused / sizeof *refused; i++)
        same_fresh(refused[i], 12, 0);

    struct hendovita_day day = same_fresh(20050, 0, 20050);
    same_day(day, HENDOVITA_BEST_BID, 20050);
    same_day(day, HENDOVITA_BEST_ASK, 20050);
    same_day(day, HENDOVITA_SYSTEM_TRADE, 20050);
    report_same("number of a fill",
                hendovita_fill_question(day, BUY, LIMIT, 19050, 20055, 1,
                                        found, sizeof found), 0);
    coded(bytes, &due, 1);
    report_filled("filled", found, bytes);
    same_question(&due, (struct plain_answer){0, 19050, 180400});
}

void test_closes(void)
{
    on_phase_1(test_limits);
    on_phase_1(test_questions);
    on_phase_1(test_trades);
    test_days_by_hand();
}
