/*
 * The calls of the library on a table that they name, or on none.
 */
#include "on.h"

#include <stdio.h>

#include "report.h"

enum { NONE = 0 };

static uint32_t table = NONE;

void on_table(uint32_t named)
{
    table = named;
    plain_use(on_which());
}

void on_each_named(void test(void))
{
    for (uint32_t named = 1; named <= PLAIN_TABLES; named++) {
        on_table(named);
        test();
    }
    on_table(NONE);
}

void on_each(void test(void))
{
    on_each_named(test);
    test();
}

void on_phase_1(void test(void))
{
    on_table(PLAIN_PHASE_1);
    test();
    on_table(NONE);
    test();
}

uint32_t on_which(void)
{
    return table == NONE ? PLAIN_PHASE_1 : table;
}

void on_begin(const char *name)
{
    char full[REPORT_NAME];
    if (table == NONE) {
        report_begin(name);
        return;
    }
    snprintf(full, sizeof full, "table %u: %s", (unsigned)table, name);
    report_begin(full);
}

struct hendovita_price on_up(uint32_t price, uint64_t n)
{
    return table == NONE ? hendovita_up(price, n)
                         : hendovita_up_on(table, price, n);
}

struct hendovita_price on_down(uint32_t price, uint64_t n)
{
    return table == NONE ? hendovita_down(price, n)
                         : hendovita_down_on(table, price, n);
}

struct hendovita_price on_price_at(uint32_t place)
{
    return table == NONE ? hendovita_price_at(place)
                         : hendovita_price_at_on(table, place);
}

struct hendovita_place on_place_of(uint32_t price)
{
    return table == NONE ? hendovita_place_of(price)
                         : hendovita_place_of_on(table, price);
}

struct hendovita_band on_band_of(uint32_t price, uint32_t allowed)
{
    return hendovita_band_of_on(on_which(), price, allowed);
}

struct hendovita_price on_lower_limit(uint32_t reference)
{
    return table == NONE ? hendovita_lower_limit(reference)
                         : hendovita_lower_limit_on(table, reference);
}

struct hendovita_price on_upper_limit(uint32_t reference)
{
    return table == NONE ? hendovita_upper_limit(reference)
                         : hendovita_upper_limit_on(table, reference);
}

struct hendovita_price on_five_percent_lower(uint32_t reference)
{
    return table == NONE ? hendovita_five_percent_lower(reference)
                         : hendovita_five_percent_lower_on(table, reference);
}

struct hendovita_price on_five_percent_upper(uint32_t reference)
{
    return table == NONE ? hendovita_five_percent_upper(reference)
                         : hendovita_five_percent_upper_on(table, reference);
}

struct hendovita_answer on_question(const uint8_t *question, size_t len)
{
    return table == NONE ? hendovita_judge_question(question, len)
                         : hendovita_judge_question_on(table, question, len);
}

struct hendovita_prepared on_prepare(const uint8_t *question, size_t len)
{
    return table == NONE ? hendovita_prepare(question, len)
                         : hendovita_prepare_on(table, question, len);
}

struct hendovita_answer on_judge_prepared(uint32_t lowest, uint32_t highest,
                                          uint32_t nine_fold, uint32_t price)
{
    return table == NONE
        ? hendovita_judge_prepared(lowest, highest, nine_fold, price)
        : hendovita_judge_prepared_on(table, lowest, highest, nine_fold,
                                      price);
}

struct hendovita_answer on_trade(const uint32_t f[6])
{
    return table == NONE
        ? hendovita_judge_trade(f[0], f[1], f[2], f[3], f[4], f[5])
        : hendovita_judge_trade_on(table, f[0], f[1], f[2], f[3], f[4], f[5]);
}

struct hendovita_outcome on_batch(const uint8_t *questions,
                                  size_t questions_len, uint8_t *answers,
                                  size_t answers_len)
{
    return table == NONE
        ? hendovita_judge_batch(questions, questions_len, answers,
                                answers_len)
        : hendovita_judge_batch_on(table, questions, questions_len, answers,
                                   answers_len);
}

struct hendovita_answer
on_two_parts(const uint8_t question[PLAIN_QUESTION_BYTES])
{
    struct hendovita_prepared first =
        on_prepare(question, PLAIN_QUESTION_BYTES);
    if (first.number != 0)
        return (struct hendovita_answer){first.number, 0, 0};
    return on_judge_prepared(first.lowest, first.highest, first.nine_fold,
                             hendovita_get_number(question + 4));
}
