/*
 * Questions judged in two parts, on each table: the first part against the
 * plain count, and both parts against the whole question.
 */
#include <string.h>

#include "coded.h"
#include "draw.h"
#include "draw_price.h"
#include "every.h"
#include "on.h"
#include "report.h"
#include "seen.h"
#include "tests.h"

/* The codes of the paper. */
enum { BUY = 1, SELL };
enum { LIMIT = 1, ENHANCED, SPECIAL };
enum { OPENING = 1, BOTH, BUY_ONLY, SELL_ONLY, NEITHER };

/* ---- by hand ---------------------------------------------------------- */

static struct hendovita_prepared counted(struct plain_prepared prepared)
{
    return (struct hendovita_prepared){prepared.number, prepared.lowest,
                                       prepared.highest, prepared.nine_fold};
}

/* Each has security code 1. */
static const struct {
    struct hendovita_question question;
    struct plain_prepared due[PLAIN_TABLES];
} prepared[] = {
    /* 24 spreads below and above 1.00. The nine-fold rule cuts nothing, though
     * 9.00 fails it, and so does 0.111. */
    {{BUY, LIMIT, BUY_ONLY, .current_bid = 1000, .nominal = 1000},
     {{0, 760, 9995000, 1000}, {0, 760, 9995000, 1000},
      {0, 880, 9995000, 1000}}},
    {{SELL, LIMIT, SELL_ONLY, .current_ask = 1000, .nominal = 1000},
     {{0, 10, 1240, 1000}, {0, 10, 1240, 1000}, {0, 10, 1120, 1000}}},
    /* 4.75 to 5.01, where every price fails it. */
    {{BUY, LIMIT, BOTH, .current_bid = 5000, .current_ask = 5010,
      .nominal = 500000},
     {{0, 4750, 5010, 500000}, {0, 4750, 5010, 500000},
      {0, 4750, 5010, 500000}}},
    /* At the opening it goes by the close, here one between ladder prices of
     * tables 2 and 3. 95 percent of it is 19.0475. */
    {{BUY, LIMIT, OPENING, .previous_close = 20050, .nominal = 30},
     {{0, 19060, 9995000, 20050}, {0, 19050, 9995000, 20050},
      {0, 19050, 9995000, 20050}}},
    {{SELL, LIMIT, OPENING, .nominal = 20000},
     {{0, 10, 9995000, 0}, {0, 10, 9995000, 0}, {0, 10, 9995000, 0}}},
    /* Later by the nominal alone. 95 percent of 2.50 is 2.375. */
    {{BUY, LIMIT, NEITHER, .previous_close = 2500},
     {{0, 2260, 9995000, 0}, {0, 2260, 9995000, 0}, {0, 2375, 9995000, 0}}},
    {{BUY, LIMIT, NEITHER, .previous_close = 2500, .nominal = 9994999},
     {{0, 2260, 9995000, 9994999}, {0, 2260, 9995000, 9994999},
      {0, 2375, 9995000, 9994999}}},
    /* Nine spreads from 20.00 and from 19.98; 95 percent of 19.98 is 18.981,
     * 105 percent of 20.00 is 21.00, and 24 of 0.05 lead to 21.20. */
    {{BUY, ENHANCED, BOTH, .current_bid = 19980, .current_ask = 20000},
     {{0, 19000, 20450, 0}, {0, 18990, 20180, 0}, {0, 18990, 20180, 0}}},
    {{SELL, ENHANCED, BOTH, .current_bid = 19980, .current_ask = 20000},
     {{0, 19800, 21200, 0}, {0, 19890, 21000, 0}, {0, 19890, 21000, 0}}},
    /* The other side of the market. */
    {{BUY, SPECIAL, BOTH, .current_bid = 19980, .current_ask = 20000},
     {{0, 20000, 9995000, 0}, {0, 20000, 9995000, 0},
      {0, 20000, 9995000, 0}}},
    {{SELL, SPECIAL, BOTH, .current_bid = 19980, .current_ask = 20000},
     {{0, 10, 19980, 0}, {0, 10, 19980, 0}, {0, 10, 19980, 0}}},
    /* An unknown type; a bid that is a price of table 1 alone; a bid above the
     * ask; no buy queue to sell to. */
    {{BUY, 4, BOTH, .current_bid = 5000, .current_ask = 5010},
     {{2, 0, 0, 0}, {2, 0, 0, 0}, {2, 0, 0, 0}}},
    {{BUY, LIMIT, BUY_ONLY, .current_bid = 20050, .nominal = 20000},
     {{0, 19060, 9995000, 20000}, {3, 0, 0, 0}, {3, 0, 0, 0}}},
    {{BUY, LIMIT, BOTH, .current_bid = 5010, .current_ask = 5000,
      .nominal = 5000},
     {{4, 0, 0, 0}, {4, 0, 0, 0}, {4, 0, 0, 0}}},
    {{SELL, SPECIAL, SELL_ONLY, .current_ask = 5000, .nominal = 5000},
     {{5, 0, 0, 0}, {5, 0, 0, 0}, {5, 0, 0, 0}}},
};

static void test_by_hand(void)
{
    on_begin("ranges of questions and nine-fold references, by hand");
    for (size_t i = 0; i < sizeof prepared / sizeof *prepared; i++) {
        struct plain_prepared due = prepared[i].due[on_which() - 1];
        uint8_t bytes[PLAIN_QUESTION_BYTES];
        coded(bytes, &prepared[i].question, 1);
        report_prepared("prepared", bytes, on_prepare(bytes, sizeof bytes),
                        due);
        report_prepared("by the plain count", bytes,
                        counted(plain_prepare(bytes)), due);
    }
}

/* ---- the first part --------------------------------------------------- */

enum { DRAWN = 100000 };

static void same_prepared(const uint8_t question[PLAIN_QUESTION_BYTES])
{
    report_prepared("prepared", question,
                    on_prepare(question, PLAIN_QUESTION_BYTES),
                    plain_prepare(question));
}

static void test_every_code(void)
{
    on_begin("every code with every set of missing references is prepared");
    every_question(same_prepared);
}

/* With other order prices the question gives the same, and the price that it
 * has comes back. */
static void same_with_any_price(struct draw *draw,
                                uint8_t question[PLAIN_QUESTION_BYTES],
                                struct plain_prepared due)
{
    uint32_t price = hendovita_get_number(question + 4);
    const uint32_t others[] = {0, 10, 9995000, UINT32_MAX, ~price,
                               (uint32_t)draw_number(draw)};
    for (size_t i = 0; i < sizeof others / sizeof *others; i++) {
        hendovita_put_number(question + 4, others[i]);
        report_prepared("with another price", question,
                        on_prepare(question, PLAIN_QUESTION_BYTES), due);
    }
    hendovita_put_number(question + 4, price);
}

/* Which nine-fold references were seen, at the opening and later. */
enum { MISSING, PRESENT, KINDS };

static void test_drawn(void)
{
    static const uint32_t numbers[] = {0, 2, 3, 4, 5, 15};
    uint32_t counts[SEEN_ANSWERS] = {0}, seen[2][KINDS] = {{0}};
    struct draw draw;
    on_begin("100,000 drawn questions are prepared, whatever the order price");
    draw_begin(&draw, 31);
    for (uint32_t i = 0; i < DRAWN; i++) {
        uint8_t question[PLAIN_QUESTION_BYTES];
        draw_question(&draw, question);
        struct plain_prepared due = plain_prepare(question);
        report_prepared("prepared", question,
                        on_prepare(question, sizeof question), due);
        same_with_any_price(&draw, question, due);
        counts[due.number]++;
        if (due.number == 0)
            seen[question[2] == OPENING][due.nine_fold != 0]++;
    }
    seen_numbers(counts, numbers, sizeof numbers / sizeof *numbers, 2500);
    for (int opening = 0; opening < 2; opening++)
        for (int kind = 0; kind < KINDS; kind++)
            if (seen[opening][kind] < 1000)
                report_say("  only %u: opening %d, nine-fold reference %d",
                           seen[opening][kind], opening, kind);
}

/* Good questions end to end, of which so many bytes are handed over. */
static void test_other_lengths(void)
{
    uint8_t bytes[10 * PLAIN_QUESTION_BYTES];
    on_begin("a question of another length is prepared as 1 with zeros");
    coded_good(bytes, 10);
    for (size_t len = 0; len <= sizeof bytes; len++) {
        struct hendovita_prepared found = on_prepare(bytes, len);
        if (len == PLAIN_QUESTION_BYTES)
            report_same("number of 44 bytes", found.number, 0);
        else if (found.number != 1 || found.lowest != 0 || found.highest != 0
                 || found.nine_fold != 0)
            report_say("  %zu bytes: found %u %u %u %u", len, found.number,
                       found.lowest, found.highest, found.nine_fold);
    }
}

/* ---- both parts ------------------------------------------------------- */

enum { QUESTIONS = 2000, PRICES = 500, AROUND = 6 };

/* Order prices of one question. */
struct prices {
    uint32_t price[PRICES];
    uint32_t count;
};

static void add(struct prices *to, uint32_t price)
{
    if (to->count < PRICES)
        to->price[to->count++] = price;
}

/* A number and those beside it; ladder prices around it, and one mil above
 * each. */
static void add_around(struct prices *to, uint32_t edge)
{
    uint32_t within = edge < PLAIN_FIRST ? PLAIN_FIRST
                    : edge > PLAIN_LAST ? PLAIN_LAST : edge;
    uint32_t price = plain_down(within, AROUND);
    for (uint32_t n = 0; n < 3; n++)
        add(to, edge - 1 + n);
    for (uint32_t n = 0; n <= 2 * AROUND; n++) {
        add(to, price);
        add(to, price + 1);
        price = plain_up(price, 1);
    }
}

static uint32_t any_price(struct draw *draw, struct plain_prepared permitted,
                          struct plain_answer shown)
{
    switch (draw_below(draw, 5)) {
    case 0:
        return draw_between(draw, permitted.lowest, permitted.highest);
    case 1:
        if (shown.lowest != 0)
            return draw_between(draw, shown.lowest, shown.highest);
        return draw_price(draw);
    case 2:
        return draw_odd_price(draw);
    default:
        return draw_shifted(draw, draw_price(draw));
    }
}

/* At and around whatever decides, then any. */
static void set_prices(struct draw *draw,
                       const uint8_t question[PLAIN_QUESTION_BYTES],
                       struct prices *to)
{
    static const uint32_t ends[] = {
        0, 1, 9, 10, 11, 9994999, 9995000, 9995001, INT32_MAX, UINT32_MAX,
    };
    struct plain_prepared permitted = plain_prepare(question);
    struct plain_answer shown = plain_question(question);
    to->count = 0;
    for (size_t i = 0; i < sizeof ends / sizeof *ends; i++)
        add(to, ends[i]);
    add_around(to, permitted.lowest);
    add_around(to, permitted.highest);
    add_around(to, shown.lowest);
    add_around(to, shown.highest);
    add_around(to, permitted.nine_fold);
    add_around(to, permitted.nine_fold * 9);
    add_around(to, permitted.nine_fold / 9);
    while (to->count < PRICES)
        add(to, any_price(draw, permitted, shown));
}

/* The question once with each price, end to end. */
static void write_each(const uint8_t question[PLAIN_QUESTION_BYTES],
                       const struct prices *prices,
                       uint8_t whole[PRICES * PLAIN_QUESTION_BYTES])
{
    for (uint32_t k = 0; k < PRICES; k++) {
        uint8_t *one = whole + PLAIN_QUESTION_BYTES * k;
        memcpy(one, question, PLAIN_QUESTION_BYTES);
        hendovita_put_number(one + 4, prices->price[k]);
    }
}

/* Prepared once, and each price judged by that: as the question with that
 * price, alone, in a batch and by the plain count. */
static void judge_many(const uint8_t question[PLAIN_QUESTION_BYTES],
                       const struct prices *prices,
                       uint32_t counts[SEEN_ANSWERS])
{
    static uint8_t whole[PRICES * PLAIN_QUESTION_BYTES], answers[PRICES * 12];
    struct hendovita_prepared once = on_prepare(question, PLAIN_QUESTION_BYTES);
    write_each(question, prices, whole);
    report_same("number when prepared", once.number, 0);
    report_same("count of the batch",
                on_batch(whole, sizeof whole, answers, sizeof answers).count,
                PRICES);
    for (uint32_t k = 0; k < PRICES; k++) {
        const uint8_t *one = whole + PLAIN_QUESTION_BYTES * k;
        const uint32_t numbers[4] = {once.lowest, once.highest,
                                     once.nine_fold, prices->price[k]};
        struct plain_answer due = plain_question(one);
        counts[due.number]++;
        report_judged(numbers,
                      on_judge_prepared(numbers[0], numbers[1], numbers[2],
                                        numbers[3]), due);
        report_question("alone", one,
                        on_question(one, PLAIN_QUESTION_BYTES), due);
        report_question("in a batch", one,
                        hendovita_get_answer(answers + 12 * k), due);
    }
}

static void draw_prepared(struct draw *draw,
                          uint8_t question[PLAIN_QUESTION_BYTES])
{
    do
        draw_question(draw, question);
    while (plain_prepare(question).number != 0);
}

/* Which questions were prepared: by codes, and by what the nine-fold rule cuts
 * off their range. */
struct prepared_seen {
    uint32_t codes[SELL + 1][SPECIAL + 1][NEITHER + 1];
    uint32_t below, above, all;
};

static void see(struct prepared_seen *seen,
                const uint8_t question[PLAIN_QUESTION_BYTES])
{
    struct plain_prepared permitted = plain_prepare(question);
    struct plain_answer shown = plain_question(question);
    seen->codes[question[0]][question[1]][question[2]]++;
    if (shown.lowest == 0) {
        seen->all++;
    } else {
        seen->below += shown.lowest > permitted.lowest;
        seen->above += shown.highest < permitted.highest;
    }
}

/* Is there a queue on the other side, for a special order? */
static int can_be_prepared(uint32_t side, uint32_t type, uint32_t queue)
{
    uint32_t one_sided = side == BUY ? SELL_ONLY : BUY_ONLY;
    return type != SPECIAL || queue == BOTH || queue == one_sided;
}

static void seen_enough(const struct prepared_seen *seen)
{
    for (uint32_t side = BUY; side <= SELL; side++)
        for (uint32_t type = LIMIT; type <= SPECIAL; type++)
            for (uint32_t queue = OPENING; queue <= NEITHER; queue++)
                if (can_be_prepared(side, type, queue)
                    && seen->codes[side][type][queue] < 40)
                    report_say("  only %u of side %u, type %u, queue %u",
                               seen->codes[side][type][queue], side, type,
                               queue);
    if (seen->below < 50 || seen->above < 50 || seen->all < 50)
        report_say("  only %u, %u, %u cut below, above, whole", seen->below,
                   seen->above, seen->all);
}

static void test_both_parts(void)
{
    static const uint32_t numbers[] = {0, 6, 7, 8, 9, 10};
    uint32_t counts[SEEN_ANSWERS] = {0};
    struct prepared_seen seen = {0};
    struct draw draw;
    on_begin("2,000 questions prepared once, 500 order prices judged by each");
    draw_begin(&draw, 32);
    for (uint32_t i = 0; i < QUESTIONS; i++) {
        uint8_t question[PLAIN_QUESTION_BYTES];
        struct prices prices;
        draw_prepared(&draw, question);
        set_prices(&draw, question, &prices);
        see(&seen, question);
        judge_many(question, &prices, counts);
    }
    seen_numbers(counts, numbers, sizeof numbers / sizeof *numbers, 40000);
    seen_enough(&seen);
}

/* Refused ones too: the number of the first part is then the answer. */
static void test_as_the_whole(void)
{
    static const uint32_t numbers[] = {0, 2, 3, 4, 5, 6, 7, 8, 9, 10, 15};
    uint32_t counts[SEEN_ANSWERS] = {0};
    struct draw draw;
    on_begin("100,000 drawn questions in two parts, as the whole question");
    draw_begin(&draw, 33);
    for (uint32_t i = 0; i < DRAWN; i++) {
        uint8_t question[PLAIN_QUESTION_BYTES];
        draw_question(&draw, question);
        struct plain_answer due = plain_question(question);
        counts[due.number]++;
        report_question("in two parts", question, on_two_parts(question),
                        due);
        report_question("alone", question,
                        on_question(question, sizeof question), due);
    }
    seen_numbers(counts, numbers, sizeof numbers / sizeof *numbers, 2500);
}

void test_prepared(void)
{
    on_each(test_by_hand);
    on_each(test_every_code);
    on_each(test_drawn);
    on_each(test_other_lengths);
    on_each(test_both_parts);
    on_each(test_as_the_whole);
}
