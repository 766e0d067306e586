/*
 * The price slider of an order ticket: the question is prepared once, and each
 * price that the slider halts at is judged by what that gave.
 */
#include <stdio.h>

#include "hendovita.h"

/* Prices in currency units. */
static void print_range(uint32_t lowest, uint32_t highest)
{
    printf("%u.%03u to %u.%03u\n", (unsigned)(lowest / 1000),
           (unsigned)(lowest % 1000), (unsigned)(highest / 1000),
           (unsigned)(highest % 1000));
}

static void slide(struct hendovita_prepared ticket, uint32_t price)
{
    struct hendovita_answer answer = hendovita_judge_prepared(
        ticket.lowest, ticket.highest, ticket.nine_fold, price);

    printf("  %u.%03u: %u, %s; shown ", (unsigned)(price / 1000),
           (unsigned)(price % 1000), (unsigned)answer.number,
           hendovita_text(answer.number));
    if (answer.lowest == 0)
        printf("none\n");
    else
        print_range(answer.lowest, answer.highest);
}

/* A ticket of its own: prepared, then slid through some prices, up to a 0. */
static void open_ticket(const char *name, struct hendovita_question question,
                        const uint32_t *prices)
{
    uint8_t bytes[HENDOVITA_QUESTION_BYTES];
    hendovita_put_question(bytes, &question);
    struct hendovita_prepared ticket = hendovita_prepare(bytes, sizeof bytes);

    printf("%s: ", name);
    if (ticket.number != 0) {
        printf("refused, %s\n", hendovita_text(ticket.number));
        return;
    }
    printf("permitted ");
    print_range(ticket.lowest, ticket.highest);
    while (*prices != 0)
        slide(ticket, *prices++);
}

int main(void)
{
    struct hendovita_question ticket = {
        .side = HENDOVITA_BUY, .order_type = HENDOVITA_ENHANCED_LIMIT,
        .queue = HENDOVITA_BOTH_QUEUES, .current_bid = 19890,
        .current_ask = 19900, .nominal = 20000, .security_code = 700,
    };
    open_ticket("enhanced limit buy", ticket,
                (const uint32_t[]){18890, 18900, 19895, 19990, 20000, 0});

    ticket = (struct hendovita_question){
        .side = HENDOVITA_BUY, .order_type = HENDOVITA_LIMIT,
        .queue = HENDOVITA_BUY_QUEUE_ONLY, .current_bid = 1000,
        .nominal = 1000, .security_code = 17,
    };
    open_ticket("limit buy", ticket,
                (const uint32_t[]){750, 760, 8990, 9000, 9995005, 0});

    ticket.order_type = HENDOVITA_SPECIAL_LIMIT;
    open_ticket("special limit buy", ticket, (const uint32_t[]){1000, 0});

    ticket.security_code = 0;
    open_ticket("buy of no security", ticket, (const uint32_t[]){1000, 0});
    return 0;
}
