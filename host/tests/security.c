/*
 * The security code of a question, on each table: which codes get 15, what
 * comes before it and after it, and that a code that is good alters nothing.
 */
#include <stdbool.h>
#include <string.h>

#include "coded.h"
#include "draw.h"
#include "draw_event.h"
#include "draw_security.h"
#include "every.h"
#include "on.h"
#include "report.h"
#include "seen.h"
#include "tests.h"

/* The codes of the paper. */
enum { BUY = 1, SELL };
enum { LIMIT = 1, ENHANCED, SPECIAL };
enum { OPENING = 1, BOTH, BUY_ONLY };

/* The codes at and beside the ends, at the edges of the bytes, and such of
 * which a part would be good: a byte, two, three, or all turned round. */
static const struct {
    uint32_t code;
    bool good;
} tried[] = {
    {0, false}, {1, true}, {2, true}, {127, true}, {128, true}, {255, true},
    {256, true}, {32767, true}, {32768, true}, {34463, true}, {65535, true},
    {65536, true}, {65537, true}, {99998, true}, {99999, true},
    {100000, false}, {100001, false}, {131071, false}, {131072, false},
    {131073, false}, {165535, false}, {196609, false}, {99999 * 2, false},
    {999999, false}, {16777215, false}, {16777216, false}, {16777217, false},
    {16777216 + 99999, false}, {33554433, false}, {INT32_MAX, false},
    {UINT32_C(0x80000000), false}, {UINT32_C(0x80000001), false},
    {UINT32_C(0x9f860100), false}, {UINT32_C(0xff000001), false},
    {UINT32_MAX - 99999, false}, {UINT32_MAX - 1, false}, {UINT32_MAX, false},
};

enum { TRIED = sizeof tried / sizeof *tried };

static bool is_good(uint32_t code)
{
    return code >= 1 && code <= 99999;
}

/* ---- one question ----------------------------------------------------- */

static const struct plain_answer answer_15 = {15, 0, 0};
static const struct plain_prepared prepared_15 = {15, 0, 0, 0};

/* In all ways that there are, a question gets this answer. */
static void same_answer(const uint8_t question[PLAIN_QUESTION_BYTES],
                        struct plain_answer due)
{
    uint8_t answer[12] = {0};
    report_question("alone", question,
                    on_question(question, PLAIN_QUESTION_BYTES), due);
    report_question("in two parts", question, on_two_parts(question), due);
    report_same("count of a batch",
                on_batch(question, PLAIN_QUESTION_BYTES, answer, 12).count,
                1);
    report_question("in a batch", question, hendovita_get_answer(answer), due);
}

static void same_prepared(const uint8_t question[PLAIN_QUESTION_BYTES],
                          struct plain_prepared due)
{
    report_prepared("prepared", question,
                    on_prepare(question, PLAIN_QUESTION_BYTES), due);
}

/* ---- by hand ---------------------------------------------------------- */

/* A question without its code, and what it gets on each table with a good one
 * and with a bad one. */
static const struct {
    struct hendovita_question question;
    uint32_t with_good, with_bad;
} asked[] = {
    /* Accepted, and all that comes after 15. */
    {{BUY, LIMIT, OPENING, 20000, .previous_close = 20000}, 0, 15},
    {{BUY, LIMIT, OPENING, 20000, .previous_close = 9}, 3, 15},
    {{BUY, LIMIT, BUY_ONLY, 20000, .current_bid = 251}, 3, 15},
    {{BUY, LIMIT, OPENING, 20000, .nominal = 9995001}, 3, 15},
    {{BUY, LIMIT, BOTH, 20000, .nominal = 20000}, 4, 15},
    {{BUY, LIMIT, BOTH, 20000, .current_bid = 20000, .current_ask = 20000},
     4, 15},
    {{SELL, LIMIT, OPENING, 20000, .day_low = 20000}, 4, 15},
    {{BUY, SPECIAL, OPENING, 20000, .previous_close = 20000}, 5, 15},
    {{BUY, LIMIT, OPENING, 9, .previous_close = 20000}, 6, 15},
    {{BUY, LIMIT, OPENING, 0, .previous_close = 20000}, 6, 15},
    {{BUY, LIMIT, OPENING, 251, .previous_close = 20000}, 7, 15},
    {{BUY, LIMIT, OPENING, 10000, .previous_close = 20000}, 8, 15},
    {{SELL, LIMIT, OPENING, 30000, .previous_close = 20000}, 9, 15},
    {{BUY, LIMIT, OPENING, 200000, .previous_close = 20000}, 10, 15},
    /* All that comes before it. */
    {{0, LIMIT, OPENING, 20000, .previous_close = 20000}, 2, 2},
    {{3, LIMIT, OPENING, 20000, .previous_close = 20000}, 2, 2},
    {{BUY, 0, OPENING, 20000, .previous_close = 20000}, 2, 2},
    {{BUY, 4, OPENING, 20000, .previous_close = 20000}, 2, 2},
    {{BUY, LIMIT, 0, 20000, .previous_close = 20000}, 2, 2},
    {{BUY, LIMIT, 6, 20000, .previous_close = 20000}, 2, 2},
    {{SELL, 255, 255, 0, .current_bid = 251}, 2, 2},
};

static void same_number(const uint8_t question[PLAIN_QUESTION_BYTES],
                        uint32_t number)
{
    struct hendovita_answer found =
        on_question(question, PLAIN_QUESTION_BYTES);
    struct plain_answer due = plain_question(question);
    same_answer(question, due);
    same_prepared(question, plain_prepare(question));
    if (found.number != number || due.number != number)
        report_say("  security code %u: found %u, by the plain count %u, due "
                   "%u", hendovita_get_number(question + 40), found.number,
                   due.number, number);
}

static void test_by_hand(void)
{
    on_begin("security codes of questions of every number, by hand");
    for (size_t i = 0; i < sizeof asked / sizeof *asked; i++)
        for (size_t k = 0; k < TRIED; k++) {
            uint8_t question[PLAIN_QUESTION_BYTES];
            coded(question, &asked[i].question, tried[k].code);
            same_number(question, tried[k].good ? asked[i].with_good
                                                : asked[i].with_bad);
        }
}

/* Byte 3 is one of the codes, too. */
static void test_byte_3(void)
{
    on_begin("security codes beside a byte 3 that is not zero, by hand");
    for (size_t k = 0; k < TRIED; k++)
        for (uint32_t byte = 1; byte <= UINT8_MAX; byte++) {
            uint8_t question[PLAIN_QUESTION_BYTES];
            coded(question, &asked[0].question, tried[k].code);
            question[3] = (uint8_t)byte;
            same_number(question, 2);
        }
}

/* By their bytes, the first of which is the lowest. */
static void test_bytes(void)
{
    static const struct {
        uint8_t byte[4];
        uint32_t number;
    } bytes[] = {
        {{0, 0, 0, 0}, 15}, {{1, 0, 0, 0}, 0}, {{0, 1, 0, 0}, 0},
        {{0, 0, 1, 0}, 0}, {{0, 0, 0, 1}, 15}, {{0, 0, 2, 0}, 15},
        {{0x9f, 0x86, 1, 0}, 0}, {{0xa0, 0x86, 1, 0}, 15},
        {{0x9f, 0x87, 1, 0}, 15}, {{0x9f, 0x86, 1, 1}, 15},
        {{0, 1, 0x86, 0x9f}, 15}, {{1, 0x86, 0x9f, 0}, 15},
        {{0x86, 0x9f, 0, 1}, 15}, {{0x9f, 0x86, 0, 1}, 15},
        {{255, 255, 0, 0}, 0}, {{255, 255, 1, 0}, 15},
    };
    on_begin("the four bytes of a security code, by hand");
    for (size_t i = 0; i < sizeof bytes / sizeof *bytes; i++) {
        uint8_t question[PLAIN_QUESTION_BYTES];
        coded(question, &asked[0].question, 1);
        memcpy(question + 40, bytes[i].byte, 4);
        same_number(question, bytes[i].number);
    }
}

/* ---- bad codes -------------------------------------------------------- */

/* A question with a bad code gets 2 where it gets 2 with a good one, or 15,
 * in two parts, too. */
static void same_bad(const uint8_t question[PLAIN_QUESTION_BYTES],
                     uint32_t code)
{
    uint8_t bad[PLAIN_QUESTION_BYTES];
    memcpy(bad, question, sizeof bad);
    recode(bad, 1);
    bool unknown = plain_question(bad).number == 2;
    recode(bad, code);
    same_answer(bad, unknown ? (struct plain_answer){2, 0, 0} : answer_15);
    same_prepared(bad, unknown ? (struct plain_prepared){2, 0, 0, 0}
                               : prepared_15);
}

static void same_few_bad(const uint8_t question[PLAIN_QUESTION_BYTES])
{
    same_bad(question, 0);
    same_bad(question, 100000);
    same_bad(question, UINT32_C(0x01000001));
    same_bad(question, UINT32_MAX);
}

static void test_every_code(void)
{
    on_begin("every code and set of references, with bad security codes");
    every_question(same_few_bad);
}

enum { DRAWN = 200000 };

/* With a good code, the questions would get every number that there is. */
static void test_drawn_bad(void)
{
    static const uint32_t numbers[] = {0, 2, 3, 4, 5, 6, 7, 8, 9, 10};
    uint32_t counts[SEEN_ANSWERS] = {0};
    struct draw draw;
    on_begin("200,000 drawn questions with bad security codes, 15 or 2");
    draw_begin(&draw, 41);
    for (uint32_t i = 0; i < DRAWN; i++) {
        uint8_t question[PLAIN_QUESTION_BYTES];
        draw_question(&draw, question);
        same_bad(question, draw_bad_security(&draw));
        recode(question, 1);
        counts[plain_question(question).number]++;
    }
    seen_numbers(counts, numbers, sizeof numbers / sizeof *numbers, 5000);
}

/* The same where the draw gave the bad code itself: it comes beside every other
 * fault. */
static void test_drawn_together(void)
{
    static const uint32_t numbers[] = {0, 2, 3, 4, 5, 6, 7, 8, 9, 10};
    uint32_t counts[SEEN_ANSWERS] = {0};
    struct draw draw;
    on_begin("1,000,000 drawn questions, bad security codes beside all else");
    draw_begin(&draw, 42);
    for (uint32_t i = 0; i < 5 * DRAWN; i++) {
        uint8_t question[PLAIN_QUESTION_BYTES];
        draw_question(&draw, question);
        if (is_good(hendovita_get_number(question + 40)))
            continue;
        same_answer(question, plain_question(question));
        recode(question, 1);
        counts[plain_question(question).number]++;
    }
    seen_numbers(counts, numbers, sizeof numbers / sizeof *numbers, 1000);
}

/* ---- good codes ------------------------------------------------------- */

/* Every code that is good, with questions of some numbers. */
static void test_every_good(void)
{
    on_begin("every security code from 1 to 99999, and around");
    for (size_t i = 0; i < sizeof asked / sizeof *asked; i += 5) {
        uint8_t question[PLAIN_QUESTION_BYTES];
        coded(question, &asked[i].question, 1);
        struct plain_answer due = plain_question(question);
        struct plain_prepared first = plain_prepare(question);
        for (uint32_t code = 1; code <= 99999; code++) {
            recode(question, code);
            same_answer(question, due);
            same_prepared(question, first);
        }
        for (uint32_t code = 100000; code <= 300000; code++)
            same_bad(question, code);
        for (uint32_t code = UINT32_MAX; code > 300000; code -= code / 999)
            same_bad(question, code);
    }
}

/* The library gives what it gave with another code. */
static void same_as_before(const uint8_t question[PLAIN_QUESTION_BYTES],
                           struct hendovita_answer answer,
                           struct hendovita_prepared first)
{
    same_answer(question, (struct plain_answer){answer.number, answer.lowest,
                                                answer.highest});
    same_prepared(question,
                  (struct plain_prepared){first.number, first.lowest,
                                          first.highest, first.nine_fold});
}

static void test_drawn_good(void)
{
    static const uint32_t numbers[] = {0, 2, 3, 4, 5, 6, 7, 8, 9, 10};
    uint32_t counts[SEEN_ANSWERS] = {0};
    struct draw draw;
    on_begin("200,000 drawn questions, each with other good security codes");
    draw_begin(&draw, 43);
    for (uint32_t i = 0; i < DRAWN; i++) {
        uint8_t question[PLAIN_QUESTION_BYTES];
        draw_question(&draw, question);
        recode(question, draw_good_security(&draw));
        struct hendovita_answer answer =
            on_question(question, sizeof question);
        struct hendovita_prepared first =
            on_prepare(question, sizeof question);
        for (uint32_t k = 0; k < 3; k++) {
            recode(question, draw_good_security(&draw));
            same_as_before(question, answer, first);
        }
        report_question("alone", question, answer, plain_question(question));
        counts[answer.number < SEEN_ANSWERS ? answer.number : 1]++;
    }
    seen_numbers(counts, numbers, sizeof numbers / sizeof *numbers, 5000);
}

/* ---- batches ---------------------------------------------------------- */

enum { FEW = 44, ROUNDS = 300 };

static uint8_t questions[FEW * PLAIN_QUESTION_BYTES];

static void judge_few(uint8_t answers[12 * FEW])
{
    struct hendovita_outcome outcome =
        on_batch(questions, sizeof questions, answers, 12 * FEW);
    report_same("number", outcome.number, 0);
    report_same("count", outcome.count, FEW);
}

/* The code of question j becomes another one. Answer j is due by the plain
 * count, and no other answer changes. */
static void change_code(size_t j, uint32_t code)
{
    uint8_t before[12 * FEW] = {0}, after[12 * FEW] = {0};
    uint8_t *question = questions + PLAIN_QUESTION_BYTES * j;
    uint32_t kept = hendovita_get_number(question + 40);
    judge_few(before);
    recode(question, code);
    judge_few(after);
    for (size_t k = 0; k < FEW; k++)
        if (k != j && memcmp(before + 12 * k, after + 12 * k, 12) != 0)
            report_say("  security code %u of question %zu changed answer %zu",
                       code, j, k);
    report_question("in a batch", question,
                    hendovita_get_answer(after + 12 * j),
                    plain_question(question));
    if (is_good(code) && is_good(kept)
        && memcmp(before + 12 * j, after + 12 * j, 12) != 0)
        report_say("  from %u to %u changed answer %zu", kept, code, j);
    recode(question, kept);
}

static void test_batch(void)
{
    struct draw draw;
    on_begin("a security code changed in a batch changes that answer alone");
    draw_begin(&draw, 44);
    for (uint32_t round = 0; round < ROUNDS; round++) {
        for (size_t k = 0; k < FEW; k++)
            draw_question(&draw, questions + PLAIN_QUESTION_BYTES * k);
        for (size_t j = 0; j < FEW; j++) {
            change_code(j, draw_good_security(&draw));
            change_code(j, draw_bad_security(&draw));
        }
    }
}

/* Each its own: accepted or 15 in turn, by its own code. */
static void test_own_code(void)
{
    uint8_t answers[12 * FEW] = {0};
    on_begin("each question of a batch has its own security code");
    for (size_t first = 0; first < TRIED; first++) {
        for (size_t k = 0; k < FEW; k++)
            coded(questions + PLAIN_QUESTION_BYTES * k, &asked[0].question,
                  tried[(first + k) % TRIED].code);
        judge_few(answers);
        for (size_t k = 0; k < FEW; k++)
            report_same("number", hendovita_get_number(answers + 12 * k),
                        tried[(first + k) % TRIED].good ? 0 : 15);
    }
}

/* ---- other lengths and tables ----------------------------------------- */

/* 1 comes before 15 at every length but one. */
static void test_lengths(void)
{
    enum { MANY = 10 };
    static const uint32_t codes[] = {0, 1, 100000, UINT32_MAX};
    uint8_t bytes[MANY * PLAIN_QUESTION_BYTES];
    on_begin("1 before 15 for a question of another length");
    for (size_t i = 0; i < sizeof codes / sizeof *codes; i++) {
        coded_good(bytes, MANY);
        for (size_t k = 0; k < MANY; k++)
            recode(bytes + PLAIN_QUESTION_BYTES * k, codes[i]);
        for (size_t len = 0; len <= sizeof bytes; len++) {
            uint32_t due = len != PLAIN_QUESTION_BYTES ? 1
                         : is_good(codes[i]) ? 0 : 15;
            report_same("number", on_question(bytes, len).number, due);
            report_same("number, prepared", on_prepare(bytes, len).number,
                        due);
        }
    }
}

/* 14 comes before 15, and with a length that is wrong, 1 before both. */
static void test_no_table(void)
{
    static const uint32_t tables[] = {0, 4, 258, UINT32_MAX};
    report_begin("14 before 15 by a number that names no table");
    for (size_t i = 0; i < sizeof tables / sizeof *tables; i++)
        for (size_t k = 0; k < TRIED; k++) {
            uint32_t table = tables[i];
            uint8_t bytes[PLAIN_QUESTION_BYTES], answer[12];
            coded(bytes, &asked[0].question, tried[k].code);
            report_same("number",
                        hendovita_judge_question_on(table, bytes, 44).number,
                        14);
            report_same("number, prepared",
                        hendovita_prepare_on(table, bytes, 44).number, 14);
            report_same("number of a batch",
                        hendovita_judge_batch_on(table, bytes, 44, answer, 12)
                            .number, 14);
            report_same("number of 43 bytes",
                        hendovita_judge_question_on(table, bytes, 43).number,
                        1);
            report_same("number of 43 bytes, prepared",
                        hendovita_prepare_on(table, bytes, 43).number, 1);
        }
}

/* ---- filled questions ------------------------------------------------- */

/* A day with a bid and an ask, and the question of an order: it is filled
 * whatever the code, and gets 15 by that alone. */
static void test_filled_by_hand(void)
{
    struct hendovita_day day = hendovita_enter_event(
        hendovita_open_day(20000).day, HENDOVITA_BEST_BID, 19980).day;
    struct hendovita_question due = {
        BUY, LIMIT, BUY_ONLY, 20000, .current_bid = 19980, .last_bid = 19980,
        .previous_close = 20000, .nominal = 20000,
    };
    report_begin("a filled question has the security code that is given");
    for (size_t k = 0; k < TRIED; k++) {
        uint8_t found[PLAIN_QUESTION_BYTES], bytes[PLAIN_QUESTION_BYTES];
        report_same("number of a fill",
                    hendovita_fill_question(day, BUY, LIMIT, 20000, 20000,
                                            tried[k].code, found,
                                            sizeof found), 0);
        coded(bytes, &due, tried[k].code);
        report_filled("filled", found, bytes);
        report_same("number",
                    hendovita_judge_question(found, sizeof found).number,
                    tried[k].good ? 0 : 15);
    }
}

/* A day as the library has it, and as a list. */
struct both {
    struct hendovita_day day;
    struct plain_day list;
};

static struct both draw_day(struct draw *draw, struct draw_span span)
{
    struct both both;
    uint32_t close = draw_close(draw, span);
    both.day = hendovita_open_day(close).day;
    plain_open_day(&both.list, close);
    for (uint32_t n = draw_below(draw, 12); n > 0; n--) {
        struct plain_kept kept = plain_kept(&both.list);
        struct plain_event event = draw_event(draw, span, &kept);
        plain_enter_event(&both.list, event);
        both.day =
            hendovita_enter_event(both.day, event.kind, event.price).day;
    }
    return both;
}

/* 15 exactly where the code is bad, if side and order type are known; never
 * 4. */
static void same_filled(const struct both *both, struct plain_asked order)
{
    uint8_t found[PLAIN_QUESTION_BYTES], due[PLAIN_QUESTION_BYTES];
    uint32_t number = hendovita_fill_question(
        both->day, order.side, order.type, order.price, order.nominal,
        order.security_code, found, sizeof found);
    plain_fill(&both->list, order, due);
    report_same("number of a fill", number, 0);
    report_filled("filled", found, due);

    struct hendovita_answer answer =
        hendovita_judge_question(found, sizeof found);
    bool known = (order.side == BUY || order.side == SELL)
              && order.type >= LIMIT && order.type <= SPECIAL;
    report_question("filled", due, answer, plain_question(due));
    if ((answer.number == 15) != (known && !is_good(order.security_code))
        || answer.number == 4)
        report_say("  a filled question with security code %u gets %u",
                   order.security_code, answer.number);
}

static void test_filled(void)
{
    struct draw draw;
    report_begin("200,000 filled questions: 15 by their security code alone");
    draw_begin(&draw, 45);
    for (uint32_t i = 0; i < DRAWN; i++) {
        struct draw_span span = draw_span(&draw);
        struct both both = draw_day(&draw, span);
        struct plain_kept kept = plain_kept(&both.list);
        struct plain_asked order = draw_asked(&draw, span, &kept);
        if (draw_one_in(&draw, 2))
            order.security_code = draw_bad_security(&draw);
        same_filled(&both, order);
    }
}

void test_security(void)
{
    on_each(test_by_hand);
    on_each(test_byte_3);
    on_each(test_bytes);
    on_each(test_every_code);
    on_each(test_drawn_bad);
    on_each(test_drawn_together);
    on_each(test_every_good);
    on_each(test_drawn_good);
    on_each(test_batch);
    on_each(test_own_code);
    on_each(test_lengths);
    test_no_table();
    test_filled_by_hand();
    test_filled();
}
