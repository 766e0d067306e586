/*
 * A feed handler: it enters what happens to a security into its day book, and
 * judges each order with the references that the day has by then.
 */
#include <stdio.h>

#include "hendovita.h"

enum { SECURITY_CODE = 700 };

/* A price in currency units; 0 is none. */
static void print_price(uint32_t mils)
{
    if (mils == 0)
        printf("none");
    else
        printf("%u.%03u", (unsigned)(mils / 1000), (unsigned)(mils % 1000));
}

/* Why, and the permitted range where there is one. */
static void print_verdict(struct hendovita_answer answer)
{
    printf(": %s", hendovita_text(answer.number));
    if (answer.lowest != 0) {
        printf("; permitted ");
        print_price(answer.lowest);
        printf(" to ");
        print_price(answer.highest);
    }
    printf("\n");
}

/* An event of the feed. One that is turned away leaves the day as it was. */
static struct hendovita_day event(struct hendovita_day day, const char *name,
                                  uint32_t kind, uint32_t price)
{
    struct hendovita_entered entered = hendovita_enter_event(day, kind, price);

    printf("%s", name);
    if (price != 0) {
        printf(" ");
        print_price(price);
    }
    printf(": %s; bid ", hendovita_text(entered.number));
    print_price(entered.day.current_bid);
    printf(", ask ");
    print_price(entered.day.current_ask);
    printf("\n");
    return entered.day;
}

/* An order, judged by the day as it is. The caller knows the nominal price. */
static void order(struct hendovita_day day, const char *name, uint8_t side,
                  uint8_t order_type, uint32_t price, uint32_t nominal)
{
    uint8_t question[HENDOVITA_QUESTION_BYTES];
    uint32_t number = hendovita_fill_question(
        day, side, order_type, price, nominal, SECURITY_CODE, question,
        sizeof question);
    if (number != HENDOVITA_ACCEPTED) {
        fprintf(stderr, "not filled: %s\n", hendovita_text(number));
        return;
    }
    printf("  %s at ", name);
    print_price(price);
    print_verdict(hendovita_judge_question(question, sizeof question));
}

/* A trade made outside the System, judged by what the day has kept. */
static void trade(struct hendovita_day day, uint32_t price)
{
    printf("  off-System trade at ");
    print_price(price);
    print_verdict(hendovita_judge_trade(price, day.previous_close,
                                        day.lowest_bid, day.lowest_ask,
                                        day.highest_bid, day.highest_ask));
}

int main(void)
{
    struct hendovita_entered opened = hendovita_open_day(20400);
    struct hendovita_day day = opened.day;
    printf("security %d, previous close 20.400: %s\n", SECURITY_CODE,
           hendovita_text(opened.number));
    order(day, "buy limit", HENDOVITA_BUY, HENDOVITA_LIMIT, 20400, 0);

    day = event(day, "best bid", HENDOVITA_BEST_BID, 19900);
    day = event(day, "best ask", HENDOVITA_BEST_ASK, 20000);
    order(day, "buy enhanced limit", HENDOVITA_BUY, HENDOVITA_ENHANCED_LIMIT,
          20100, 0);

    day = event(day, "best bid", HENDOVITA_BEST_BID, 20000);
    day = event(day, "System trade", HENDOVITA_SYSTEM_TRADE, 20000);
    day = event(day, "best ask", HENDOVITA_BEST_ASK, 19950);
    day = event(day, "sell queue empty", HENDOVITA_SELL_QUEUE_EMPTY, 0);
    order(day, "buy special limit", HENDOVITA_BUY, HENDOVITA_SPECIAL_LIMIT,
          19950, 20000);
    order(day, "sell limit", HENDOVITA_SELL, HENDOVITA_LIMIT, 21500, 20000);

    /* Once both queues are empty, the last bid and the last ask count. */
    day = event(day, "best bid", HENDOVITA_BEST_BID, 20500);
    day = event(day, "buy queue empty", HENDOVITA_BUY_QUEUE_EMPTY, 0);
    order(day, "sell limit", HENDOVITA_SELL, HENDOVITA_LIMIT, 21500, 20000);
    order(day, "buy limit", HENDOVITA_BUY, HENDOVITA_LIMIT, 18950, 20000);

    trade(day, 19385);
    return 0;
}
