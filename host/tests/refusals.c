/*
 * Which references get 3, on each table: any that lies outside the ends of the
 * ladder, and any but the previous close and the nominal that lies between its
 * prices.
 */
#include <stdbool.h>

#include "coded.h"
#include "draw.h"
#include "on.h"
#include "report.h"
#include "tests.h"

enum { DRAWN = 1000000, REFERENCES = 8, CLOSE = 4, NOMINAL = 7 };

/* May this reference of a question lie between ladder prices? */
static bool is_loose(uint32_t k)
{
    return k == CLOSE || k == NOMINAL;
}

/* ---- one reference ---------------------------------------------------- */

enum { ON_EACH = 7, ON_1 = 1, ON_3 = 4, ON_2_AND_3 = 6 };

/* A price, and the tables on whose ladder it is: a bit for each. */
static const struct {
    uint32_t price, on;
} tried[] = {
    {1, 0}, {9, 0}, {10, ON_EACH}, {250, ON_EACH}, {251, 0}, {254, 0},
    {255, ON_EACH}, {501, 0}, {505, ON_3}, {510, ON_EACH}, {9995, ON_3},
    {10000, ON_EACH}, {10010, ON_2_AND_3}, {10020, ON_EACH}, {19995, 0},
    {20000, ON_EACH}, {20020, ON_2_AND_3}, {20050, ON_1},
    {20060, ON_2_AND_3}, {20100, ON_EACH}, {49950, ON_1},
    {9990000, ON_EACH}, {9994999, 0}, {9995000, ON_EACH}, {9995001, 0},
    {10000000, 0}, {UINT32_MAX, 0},
};

static bool is_within(uint32_t price)
{
    return price >= 10 && price <= 9995000;
}

/* Is the price tried a good reference: a loose one, or one that is to be a
 * ladder price? */
static bool is_good(size_t i, bool loose)
{
    return loose ? is_within(tried[i].price)
                 : (tried[i].on >> (on_which() - 1) & 1) != 0;
}

static void same_number(const uint8_t question[PLAIN_QUESTION_BYTES],
                        bool refused)
{
    struct hendovita_answer found = on_question(question, PLAIN_QUESTION_BYTES);
    struct plain_answer due = plain_question(question);
    report_question("alone", question, found, due);
    if ((found.number == 3) != refused)
        report_say("  found %u where 3 is %s", found.number,
                   refused ? "due" : "not due");
}

/* Every known code, with one reference and no other. 3 comes before 4, so it
 * does not matter that others are missing. */
static void every_code(uint32_t reference, uint32_t price, bool refused)
{
    uint8_t question[PLAIN_QUESTION_BYTES] = {0};
    hendovita_put_number(question + 4, 20000);
    recode(question, 1);
    hendovita_put_number(question + 8 + 4 * reference, price);
    for (uint8_t side = 1; side <= 2; side++)
        for (uint8_t type = 1; type <= 3; type++)
            for (uint8_t queue = 1; queue <= 5; queue++) {
                question[0] = side;
                question[1] = type;
                question[2] = queue;
                same_number(question, refused);
            }
}

static void test_questions(void)
{
    on_begin("each reference of a question on the ladder, between, past");
    for (size_t i = 0; i < sizeof tried / sizeof *tried; i++)
        for (uint32_t k = 0; k < REFERENCES; k++)
            every_code(k, tried[i].price, !is_good(i, is_loose(k)));
}

static void test_trades(void)
{
    on_begin("each reference of a trade on the ladder, between, past");
    for (size_t i = 0; i < sizeof tried / sizeof *tried; i++)
        for (uint32_t k = 1; k < 6; k++) {
            uint32_t f[6] = {20000};
            f[k] = tried[i].price;
            struct hendovita_answer found = on_trade(f);
            bool good = is_good(i, k == 1);
            report_trade(f, found,
                         plain_trade(f[0], f[1], f[2], f[3], f[4], f[5]));
            if ((found.number == 3) == good)
                report_say("  found %u where 3 is %s", found.number,
                           good ? "not due" : "due");
        }
}

/* ---- drawn questions -------------------------------------------------- */

static uint32_t reference_of(const uint8_t question[PLAIN_QUESTION_BYTES],
                             uint32_t k)
{
    return hendovita_get_number(question + 8 + 4 * k);
}

static bool is_outside(uint32_t reference)
{
    return reference != 0 && !is_within(reference);
}

static bool is_off_ladder(uint32_t reference)
{
    return reference != 0 && plain_place(reference) < 0;
}

/* Is there a reference off the ladder? */
static bool is_any_off(const uint8_t question[PLAIN_QUESTION_BYTES])
{
    for (uint32_t k = 0; k < REFERENCES; k++)
        if (is_off_ladder(reference_of(question, k)))
            return true;
    return false;
}

/* Is there one that gets 3? */
static bool is_any_bad(const uint8_t question[PLAIN_QUESTION_BYTES])
{
    for (uint32_t k = 0; k < REFERENCES; k++) {
        uint32_t reference = reference_of(question, k);
        if (is_loose(k) ? is_outside(reference) : is_off_ladder(reference))
            return true;
    }
    return false;
}

/* The answer by a stricter rule, by which every reference must be a ladder
 * price. 2 and 15 come before it. */
static struct plain_answer
strict_answer(const uint8_t question[PLAIN_QUESTION_BYTES])
{
    struct plain_answer answer = plain_question(question);
    if (answer.number != 2 && answer.number != 15 && is_any_off(question))
        return (struct plain_answer){3, 0, 0};
    return answer;
}

enum outcome { SAME, SAME_3, LATER, OUTCOMES };

/* How the answer differs from the one by the stricter rule: not at all, unless
 * that one is 3 for a close or a nominal between ladder prices and for nothing
 * else; then it is a later number, or 0. */
static enum outcome compare(const uint8_t question[PLAIN_QUESTION_BYTES])
{
    struct hendovita_answer found = on_question(question, PLAIN_QUESTION_BYTES);
    struct plain_answer strict = strict_answer(question);
    if (strict.number == 3 && !is_any_bad(question)) {
        if ((found.number >= 1 && found.number <= 3) || found.number > 10)
            report_say("  found %u for a close or nominal between prices",
                       found.number);
        return LATER;
    }
    report_question("by the stricter rule", question, found, strict);
    return strict.number == 3 ? SAME_3 : SAME;
}

static void test_drawn(void)
{
    uint32_t counts[OUTCOMES] = {0};
    struct draw draw;
    on_begin("1,000,000 drawn questions against a stricter rule");
    draw_begin(&draw, 9);
    for (uint32_t i = 0; i < DRAWN; i++) {
        uint8_t question[PLAIN_QUESTION_BYTES];
        draw_question(&draw, question);
        counts[compare(question)]++;
    }
    for (int i = 0; i < OUTCOMES; i++)
        if (counts[i] < 50000)
            report_say("  only %u of outcome %d", counts[i], i);
}

void test_refusals(void)
{
    on_each(test_questions);
    on_each(test_trades);
    on_each(test_drawn);
}
