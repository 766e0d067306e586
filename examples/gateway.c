/*
 * A small order gateway: it fills questions by name, hands them over as one
 * batch, and prints each verdict in words, with the security that it is for.
 * Its argument is the number of the spread table, 1 to 3; without one it is
 * that of Phase 1.
 */
#include <stdio.h>
#include <string.h>

#include "hendovita.h"

enum { ORDERS = 6 };

/* The orders of a morning, each with what the feed said when it came in. */
static const struct hendovita_question orders[ORDERS] = {
    {.side = HENDOVITA_BUY, .order_type = HENDOVITA_LIMIT,
     .queue = HENDOVITA_BOTH_QUEUES, .price = 19890,
     .current_bid = 19890, .current_ask = 19900, .security_code = 5},
    {.side = HENDOVITA_BUY, .order_type = HENDOVITA_LIMIT,
     .queue = HENDOVITA_BOTH_QUEUES, .price = 18890,
     .current_bid = 19890, .current_ask = 19900, .security_code = 5},
    {.side = HENDOVITA_SELL, .order_type = HENDOVITA_ENHANCED_LIMIT,
     .queue = HENDOVITA_BOTH_QUEUES, .price = 450,
     .current_bid = 495, .current_ask = 500, .security_code = 8},
    {.side = HENDOVITA_BUY, .order_type = HENDOVITA_LIMIT,
     .queue = HENDOVITA_BUY_QUEUE_ONLY, .price = 9000,
     .current_bid = 1000, .nominal = 1000, .security_code = 17},
    {.side = HENDOVITA_BUY, .order_type = HENDOVITA_SPECIAL_LIMIT,
     .queue = HENDOVITA_NEITHER_QUEUE, .price = 2500,
     .previous_close = 2500, .security_code = 700},
    {.side = HENDOVITA_SELL, .order_type = HENDOVITA_LIMIT,
     .queue = HENDOVITA_OPENING, .price = 20050,
     .previous_close = 20000, .security_code = 99999},
};

/* A price in currency units. */
static void print_price(uint32_t mils)
{
    printf("%u.%03u", (unsigned)(mils / 1000), (unsigned)(mils % 1000));
}

static void print_verdict(const struct hendovita_question *order,
                          struct hendovita_answer answer)
{
    printf("security %u, %s at ", (unsigned)order->security_code,
           order->side == HENDOVITA_BUY ? "buy" : "sell");
    print_price(order->price);
    printf(": %s", hendovita_text(answer.number));
    if (answer.lowest != 0) {
        printf("; permitted ");
        print_price(answer.lowest);
        printf(" to ");
        print_price(answer.highest);
    }
    printf("\n");
}

/* The number of the table: one digit, or nothing. 0 names none. */
static uint32_t table_of(int argc, char **argv)
{
    if (argc < 2)
        return HENDOVITA_PHASE_1;
    if (argc > 2 || strlen(argv[1]) != 1)
        return 0;
    return (uint32_t)(argv[1][0] - '0');
}

int main(int argc, char **argv)
{
    uint8_t questions[ORDERS * HENDOVITA_QUESTION_BYTES];
    uint8_t answers[ORDERS * HENDOVITA_ANSWER_BYTES];

    for (size_t k = 0; k < ORDERS; k++)
        hendovita_put_question(questions + k * HENDOVITA_QUESTION_BYTES,
                               &orders[k]);

    struct hendovita_outcome outcome = hendovita_judge_batch_on(
        table_of(argc, argv), questions, sizeof questions, answers,
        sizeof answers);
    if (outcome.number != HENDOVITA_ACCEPTED) {
        fprintf(stderr, "batch refused: %s\n", hendovita_text(outcome.number));
        return 1;
    }

    for (size_t k = 0; k < outcome.count; k++)
        print_verdict(&orders[k], hendovita_get_answer(
                                      answers + k * HENDOVITA_ANSWER_BYTES));
    return 0;
}
