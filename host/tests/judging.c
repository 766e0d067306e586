/*
 * Questions and trades on each table: the library against the plain count.
 */
#include "coded.h"
#include "draw.h"
#include "every.h"
#include "on.h"
#include "report.h"
#include "seen.h"
#include "tests.h"

enum { BATCH = 1000, BATCHES = 2000, TRADES = 500000 };
enum { CROSSED = 200000 }; /* drawn on each other table */

static void same_answer(const uint8_t question[PLAIN_QUESTION_BYTES])
{
    report_question("alone", question,
                    on_question(question, PLAIN_QUESTION_BYTES),
                    plain_question(question));
}

static void test_every_code(void)
{
    on_begin("every code with every set of missing references");
    every_question(same_answer);
}

/* Of a reference that may lie between ladder prices, and of one that may not,
 * the draw is to reach each kind often. */
static void seen_loose(const struct seen *seen, uint32_t reference)
{
    seen_often(seen, reference, SEEN_OUTSIDE_REFUSED, SEEN_AT_END, 10000);
}

static void seen_strict(const struct seen *seen, uint32_t reference)
{
    seen_often(seen, reference, SEEN_BETWEEN_REFUSED, SEEN_OUTSIDE_REFUSED,
               2000);
}

/* A batch as the library judges it, question by question. */
static void same_batch(const uint8_t *questions, uint32_t counts[SEEN_ANSWERS],
                       struct seen *seen)
{
    static uint8_t answers[BATCH * 12];
    struct hendovita_outcome outcome =
        on_batch(questions, BATCH * PLAIN_QUESTION_BYTES, answers,
                 sizeof answers);
    report_same("number", outcome.number, 0);
    report_same("count", outcome.count, BATCH);
    for (uint32_t k = 0; k < BATCH; k++) {
        const uint8_t *question = questions + PLAIN_QUESTION_BYTES * k;
        struct plain_answer due = plain_question(question);
        counts[due.number]++;
        seen_question(seen, question, due);
        report_question("in a batch", question,
                        hendovita_get_answer(answers + 12 * k), due);
        report_question("alone", question,
                        on_question(question, PLAIN_QUESTION_BYTES), due);
    }
}

static void test_drawn_questions(void)
{
    static const uint32_t numbers[] = {0, 2, 3, 4, 5, 6, 7, 8, 9, 10, 15};
    static uint8_t questions[BATCH * PLAIN_QUESTION_BYTES];
    uint32_t counts[SEEN_ANSWERS] = {0};
    struct seen seen = {0};
    struct draw draw;
    on_begin("2,000,000 drawn questions, in batches and alone");
    draw_begin(&draw, 1);
    for (uint32_t b = 0; b < BATCHES; b++) {
        for (uint32_t k = 0; k < BATCH; k++)
            draw_question(&draw, questions + PLAIN_QUESTION_BYTES * k);
        same_batch(questions, counts, &seen);
    }
    seen_numbers(counts, numbers, sizeof numbers / sizeof *numbers, 50000);
    seen_loose(&seen, SEEN_CLOSE);
    seen_loose(&seen, SEEN_NOMINAL);
    for (uint32_t i = SEEN_BID; i <= SEEN_LAST_ASK; i++)
        seen_strict(&seen, i);
    seen_strict(&seen, SEEN_DAY_LOW);
    seen_strict(&seen, SEEN_DAY_HIGH);
}

/* Good questions end to end, of which so many bytes are handed over. */
static void test_other_lengths(void)
{
    uint8_t bytes[10 * PLAIN_QUESTION_BYTES];
    on_begin("one question of another length gets 1 with 0 and 0");
    coded_good(bytes, 10);
    for (size_t len = 0; len <= sizeof bytes; len++) {
        struct hendovita_answer found = on_question(bytes, len);
        if (len == PLAIN_QUESTION_BYTES)
            report_same("number of 44 bytes", found.number, 0);
        else if (found.number != 1 || found.lowest != 0 || found.highest != 0)
            report_say("  %zu bytes: found %u %u %u", len, found.number,
                       found.lowest, found.highest);
    }
}

static void test_drawn_trades(void)
{
    static const uint32_t numbers[] = {0, 3, 4, 6, 8, 9};
    uint32_t counts[SEEN_ANSWERS] = {0};
    struct seen seen = {0};
    struct draw draw;
    on_begin("500,000 drawn trades");
    draw_begin(&draw, 2);
    for (uint32_t i = 0; i < TRADES; i++) {
        uint32_t f[6];
        draw_trade(&draw, f);
        struct plain_answer due =
            plain_trade(f[0], f[1], f[2], f[3], f[4], f[5]);
        counts[due.number]++;
        seen_trade(&seen, f, due);
        report_trade(f, on_trade(f), due);
    }
    seen_numbers(counts, numbers, sizeof numbers / sizeof *numbers, 20000);
    seen_loose(&seen, SEEN_TRADE_CLOSE);
    for (uint32_t i = SEEN_LOWEST_BID; i <= SEEN_HIGHEST_ASK; i++)
        seen_strict(&seen, i);
}

/* Questions and trades that are drawn on one table and judged on another, on
 * whose ladder many of their prices are not. */
static void drawn_on(uint32_t other, uint32_t counts[SEEN_ANSWERS])
{
    struct draw draw;
    draw_begin(&draw, 10 + other);
    for (uint32_t i = 0; i < CROSSED; i++) {
        uint8_t question[PLAIN_QUESTION_BYTES];
        uint32_t f[6];
        plain_use(other);
        draw_question(&draw, question);
        draw_trade(&draw, f);
        plain_use(on_which());
        counts[plain_question(question).number]++;
        same_answer(question);
        report_trade(f, on_trade(f),
                     plain_trade(f[0], f[1], f[2], f[3], f[4], f[5]));
    }
}

static void test_drawn_on_others(void)
{
    static const uint32_t numbers[] = {0, 3, 7};
    uint32_t counts[SEEN_ANSWERS] = {0};
    on_begin("400,000 questions and trades drawn on the other tables");
    for (uint32_t other = 1; other <= PLAIN_TABLES; other++)
        if (other != on_which())
            drawn_on(other, counts);
    seen_numbers(counts, numbers, sizeof numbers / sizeof *numbers, 10000);
}

void test_judging(void)
{
    on_each(test_every_code);
    on_each(test_other_lengths);
    on_each(test_drawn_questions);
    on_each(test_drawn_trades);
    on_each(test_drawn_on_others);
}
