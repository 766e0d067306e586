/*
 * A walk through the prices, on the ladder and between: each as the order
 * price, and as a close, a nominal or a bid, on each table.
 */
#include "coded.h"
#include "on.h"
#include "report.h"
#include "tests.h"

/* The codes of the paper. */
enum { BUY = 1, SELL };
enum { LIMIT = 1 };
enum { OPENING = 1, BUY_ONLY = 3 };

/* The security code goes round. */
static void same_asked(const struct hendovita_question *question)
{
    uint8_t bytes[PLAIN_QUESTION_BYTES];
    coded(bytes, question, 1 + question->price % PLAIN_LAST_CODE);
    report_question("alone", bytes, on_question(bytes, sizeof bytes),
                    plain_question(bytes));
}

/* A price as the close of a buy and a sell at the opening, as the nominal of a
 * buy that nothing but the nine-fold rule bounds, as a bid, and as the close
 * and the bid of a trade. */
static void same_walk(uint32_t price)
{
    const struct hendovita_question asked[4] = {
        {BUY, LIMIT, OPENING, price, .previous_close = price},
        {SELL, LIMIT, OPENING, price, .previous_close = price},
        {BUY, LIMIT, BUY_ONLY, price, .current_bid = 10, .nominal = price},
        {BUY, LIMIT, BUY_ONLY, price, .current_bid = price},
    };
    const uint32_t by_close[6] = {price, price};
    const uint32_t by_bid[6] = {price, 0, price, 0, price, 0};
    for (int i = 0; i < 4; i++)
        same_asked(&asked[i]);
    report_trade(by_close, on_trade(by_close),
                 plain_trade(price, price, 0, 0, 0, 0));
    report_trade(by_bid, on_trade(by_bid),
                 plain_trade(price, 0, price, 0, price, 0));
}

static void test_every_price(void)
{
    on_begin("closes, nominals, bids mil by mil to 1,000, then every 97th");
    for (uint32_t price = 0; price < 1000000; price++)
        same_walk(price);
    for (uint32_t price = 1000000; price <= 10000000; price += 97)
        same_walk(price);
    for (uint32_t price = 9994000; price <= 9996000; price++)
        same_walk(price);
}

void test_walk(void)
{
    on_each(test_every_price);
}
