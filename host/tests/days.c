/*
 * The day book: what a day keeps after every event, against the list of its
 * accepted events; questions and trades that take their references from it.
 */
#include "draw_event.h"
#include "report.h"
#include "seen.h"
#include "tests.h"

enum { LISTS = 200000, MOST_EVENTS = 40, ANY_DAYS = 500000 };

/* What the draw must not miss. */
enum situation {
    EMPTIED_AGAIN, EQUAL_QUOTES, ONE_SPREAD, PAST_LAST, QUOTED_AGAIN,
    FALLING_BID, RISING_ASK, EARLY_TRADE, SITUATIONS
};

static const char *const situations[SITUATIONS] = {
    "an empty queue emptied",
    "a quote equal to the current one of the other side",
    "a quote one spread from the current one of the other side",
    "a quote at or past the last one of the other side, now empty",
    "a quote after its queue was empty",
    "a bid that falls",
    "an ask that rises",
    "a trade before any quote",
};

enum close { NO_CLOSE, ON_LADDER, BETWEEN, TURNED_AWAY, CLOSES };

/* How often each came up: the numbers by kind of event, with 0 for a kind that
 * is unknown; the closes; and of filled questions and of trades the queue
 * codes, the answers, and what there was of closes and nominals. */
struct counts {
    uint32_t number[6][14];
    uint32_t close[CLOSES];
    uint32_t situation[SITUATIONS];
    uint32_t queue[6];
    uint32_t answer[SEEN_ANSWERS];
    uint32_t trade[SEEN_ANSWERS];
    struct seen asked, traded;
};

/* A day as the library has it, as a list, and what the list says. */
struct both {
    struct hendovita_day day;
    struct plain_day list;
    struct plain_kept kept;
};

/* ---- events ----------------------------------------------------------- */

static enum close kind_of_close(uint32_t close, uint32_t number)
{
    if (number != 0)
        return TURNED_AWAY;
    if (close == 0)
        return NO_CLOSE;
    return plain_place(close) < 0 ? BETWEEN : ON_LADDER;
}

static void open_both(struct both *both, uint32_t close, struct counts *counts)
{
    struct plain_event none = {0, close};
    struct hendovita_entered found = hendovita_open_day(close);
    uint32_t number = plain_open_day(&both->list, close);
    both->kept = plain_kept(&both->list);
    report_entered("fresh", none, found, number, &both->kept);
    both->day = found.day;
    counts->close[kind_of_close(close, number)]++;
}

/* What a bid or an ask meets on its own side and on the other. */
struct sides {
    uint32_t current, last, other_current, other_last;
};

static void count_quote(struct counts *counts, struct sides sides,
                        uint32_t price, uint32_t number, bool past_last)
{
    uint32_t *situation = counts->situation;
    uint32_t other = sides.other_current;
    situation[EQUAL_QUOTES] += number == 13 && price == other;
    if (number != 0)
        return;
    situation[ONE_SPREAD] += other != 0 && (plain_up(price, 1) == other
                                            || plain_down(price, 1) == other);
    situation[PAST_LAST] += other == 0 && sides.other_last != 0 && past_last;
    situation[QUOTED_AGAIN] += sides.current == 0 && sides.last != 0;
}

static void count_bid(struct counts *counts, const struct plain_kept *before,
                      uint32_t price, uint32_t number)
{
    struct sides sides = {before->current_bid, before->last_bid,
                          before->current_ask, before->last_ask};
    count_quote(counts, sides, price, number, price >= before->last_ask);
    if (number == 0)
        counts->situation[FALLING_BID] += price < before->current_bid;
}

static void count_ask(struct counts *counts, const struct plain_kept *before,
                      uint32_t price, uint32_t number)
{
    struct sides sides = {before->current_ask, before->last_ask,
                          before->current_bid, before->last_bid};
    count_quote(counts, sides, price, number, price <= before->last_bid);
    if (number == 0 && before->current_ask != 0)
        counts->situation[RISING_ASK] += price > before->current_ask;
}

static void count_event(struct counts *counts, const struct plain_kept *before,
                        struct plain_event event, uint32_t number)
{
    uint32_t known = event.kind <= 5 ? event.kind : 0;
    uint32_t *situation = counts->situation;
    counts->number[known][number]++;
    switch (event.kind) {
    case HENDOVITA_BEST_BID:
        count_bid(counts, before, event.price, number);
        break;
    case HENDOVITA_BEST_ASK:
        count_ask(counts, before, event.price, number);
        break;
    case HENDOVITA_BUY_QUEUE_EMPTY:
        situation[EMPTIED_AGAIN] += number == 0 && before->current_bid == 0;
        break;
    case HENDOVITA_SELL_QUEUE_EMPTY:
        situation[EMPTIED_AGAIN] += number == 0 && before->current_ask == 0;
        break;
    case HENDOVITA_SYSTEM_TRADE:
        situation[EARLY_TRADE] += number == 0 && before->last_bid == 0
                               && before->last_ask == 0;
        break;
    }
}

static void enter_both(struct both *both, struct plain_event event,
                       struct counts *counts)
{
    struct hendovita_entered found =
        hendovita_enter_event(both->day, event.kind, event.price);
    uint32_t number = plain_enter_event(&both->list, event);
    count_event(counts, &both->kept, event, number);
    both->kept = plain_kept(&both->list);
    report_entered("in a list", event, found, number, &both->kept);
    both->day = found.day;
}

/* ---- questions and trades --------------------------------------------- */

/* No day of accepted events gives 4; 3 is the caller's nominal, which lies
 * outside the ends of the ladder, and 15 the caller's security code. */
static void not_by_the_day(struct hendovita_answer found,
                           struct plain_asked asked)
{
    uint32_t nominal = asked.nominal, code = asked.security_code;
    bool bad_nominal =
        nominal != 0 && (nominal < PLAIN_FIRST || nominal > PLAIN_LAST);
    bool bad_code = code < 1 || code > PLAIN_LAST_CODE;
    if (found.number == 4 || (found.number == 3 && !bad_nominal)
        || (found.number == 15 && !bad_code))
        report_say("  a filled question with nominal %u and security code %u "
                   "gets %u", nominal, code, found.number);
}

static void ask_both(struct draw *draw, struct draw_span span,
                     const struct both *both, struct counts *counts)
{
    struct plain_asked asked = draw_asked(draw, span, &both->kept);
    uint8_t found[PLAIN_QUESTION_BYTES], due[PLAIN_QUESTION_BYTES];
    uint32_t number = hendovita_fill_question(
        both->day, asked.side, asked.type, asked.price, asked.nominal,
        asked.security_code, found, sizeof found);
    plain_fill(&both->list, asked, due);
    report_same("number of a fill", number, 0);
    report_filled("filled from a list", found, due);

    struct hendovita_answer answer =
        hendovita_judge_question(found, sizeof found);
    struct plain_answer due_answer = plain_question(due);
    report_question("filled", due, answer, due_answer);
    not_by_the_day(answer, asked);
    counts->queue[due[2]]++;
    counts->answer[due_answer.number]++;
    seen_question(&counts->asked, due, due_answer);
}

/* An off-System trade by what the day keeps: 3 and 4 cannot come. */
static void trade_both(struct draw *draw, struct draw_span span,
                       const struct both *both, struct counts *counts)
{
    const struct hendovita_day *day = &both->day;
    const struct plain_kept *kept = &both->kept;
    uint32_t price = draw_one_in(draw, 8)
        ? draw_odd_price(draw)
        : draw_shifted(draw, draw_reference(draw, span));
    const uint32_t fields[6] = {
        price, kept->previous_close, kept->lowest_bid, kept->lowest_ask,
        kept->highest_bid, kept->highest_ask,
    };
    struct hendovita_answer found = hendovita_judge_trade(
        price, day->previous_close, day->lowest_bid, day->lowest_ask,
        day->highest_bid, day->highest_ask);
    struct plain_answer due =
        plain_trade(fields[0], fields[1], fields[2], fields[3], fields[4],
                    fields[5]);
    report_trade(fields, found, due);
    if (found.number == 3 || found.number == 4)
        report_say("  a trade by a day's own prices gets %u", found.number);
    counts->trade[due.number]++;
    seen_trade(&counts->traded, fields, due);
}

/* ---- drawn lists ------------------------------------------------------ */

static void play_list(struct draw *draw, struct counts *counts)
{
    struct draw_span span = draw_span(draw);
    struct both both;
    open_both(&both, draw_close(draw, span), counts);
    for (uint32_t n = 1 + draw_below(draw, MOST_EVENTS); n > 0; n--) {
        if (draw_one_in(draw, 8))
            ask_both(draw, span, &both, counts);
        if (draw_one_in(draw, 16))
            trade_both(draw, span, &both, counts);
        enter_both(&both, draw_event(draw, span, &both.kept), counts);
    }
    ask_both(draw, span, &both, counts);
}

/* The draw is to reach each of these numbers often. */
static void often(const char *what, const uint32_t *counts,
                  const uint32_t *numbers, size_t many, uint32_t least)
{
    for (size_t i = 0; i < many; i++)
        if (counts[numbers[i]] < least)
            report_say("  only %u of %s %u", counts[numbers[i]], what,
                       numbers[i]);
}

static void all_often(const struct counts *counts)
{
    static const uint32_t quotes[] = {0, 12, 13}, emptied[] = {0, 11};
    static const uint32_t trades[] = {0, 12}, unknown[] = {11};
    static const uint32_t closes[] = {
        NO_CLOSE, ON_LADDER, BETWEEN, TURNED_AWAY,
    };
    static const uint32_t queues[] = {1, 2, 3, 4, 5};
    static const uint32_t answers[] = {0, 2, 3, 5, 6, 7, 8, 9, 10, 15};
    static const uint32_t judged[] = {0, 6, 8, 9};
    often("an unknown event", counts->number[0], unknown, 1, 50000);
    often("a bid", counts->number[1], quotes, 3, 50000);
    often("an ask", counts->number[2], quotes, 3, 50000);
    often("an empty buy queue", counts->number[3], emptied, 2, 30000);
    often("an empty sell queue", counts->number[4], emptied, 2, 30000);
    often("a System trade", counts->number[5], trades, 2, 30000);
    often("closes", counts->close, closes, CLOSES, 10000);
    often("queue code", counts->queue, queues, 5, 20000);
    often("answer", counts->answer, answers, 10, 10000);
    often("a trade's answer", counts->trade, judged, 4, 5000);
    seen_often(&counts->asked, SEEN_CLOSE, SEEN_BETWEEN, SEEN_AT_END, 5000);
    seen_often(&counts->asked, SEEN_NOMINAL, SEEN_OUTSIDE_REFUSED,
               SEEN_AT_END, 5000);
    seen_often(&counts->traded, SEEN_TRADE_CLOSE, SEEN_BETWEEN, SEEN_AT_END,
               5000);
    for (int i = 0; i < SITUATIONS; i++)
        if (counts->situation[i] < 10000)
            report_say("  only %u times %s", counts->situation[i],
                       situations[i]);
}

static void test_lists(void)
{
    struct counts counts = {0};
    struct draw draw;
    report_begin("200,000 drawn lists of events, the day after each event");
    draw_begin(&draw, 6);
    for (uint32_t i = 0; i < LISTS; i++)
        play_list(&draw, &counts);
    all_often(&counts);
}

/* ---- days of any numbers ---------------------------------------------- */

static struct hendovita_day day_of(const struct plain_kept *kept)
{
    return (struct hendovita_day){
        .previous_close = kept->previous_close,
        .current_bid = kept->current_bid,
        .current_ask = kept->current_ask,
        .last_bid = kept->last_bid,
        .last_ask = kept->last_ask,
        .lowest_bid = kept->lowest_bid,
        .highest_bid = kept->highest_bid,
        .lowest_ask = kept->lowest_ask,
        .highest_ask = kept->highest_ask,
        .day_low = kept->day_low,
        .day_high = kept->day_high,
    };
}

static void ask_any(struct draw *draw, struct draw_span span,
                    const struct plain_kept *kept)
{
    struct plain_asked asked = draw_asked(draw, span, kept);
    uint8_t found[PLAIN_QUESTION_BYTES], due[PLAIN_QUESTION_BYTES];
    uint32_t number = hendovita_fill_question(
        day_of(kept), asked.side, asked.type, asked.price, asked.nominal,
        asked.security_code, found, sizeof found);
    plain_fill_any(kept, asked, due);
    report_same("number of a fill", number, 0);
    report_filled("filled from any day", found, due);
    report_question("filled", due,
                    hendovita_judge_question(found, sizeof found),
                    plain_question(due));
}

static void test_any_days(void)
{
    static const uint32_t numbers[] = {0, 11, 12, 13};
    uint32_t counts[14] = {0};
    struct draw draw;
    report_begin("500,000 days of any eleven numbers, each with an event");
    draw_begin(&draw, 7);
    for (uint32_t i = 0; i < ANY_DAYS; i++) {
        struct draw_span span = draw_span(&draw);
        struct plain_kept kept = draw_any_day(&draw, span);
        struct plain_event event = draw_event(&draw, span, &kept);
        struct hendovita_entered found =
            hendovita_enter_event(day_of(&kept), event.kind, event.price);
        uint32_t number = plain_enter_any(&kept, event);
        report_entered("any day", event, found, number, &kept);
        counts[number]++;
        if (draw_one_in(&draw, 4))
            ask_any(&draw, span, &kept);
    }
    often("an event", counts, numbers, 4, 10000);
}

/* ---- every price ------------------------------------------------------ */

/* A price as the previous close, and as the first event of each kind that has
 * one. */
static void same_first(uint32_t price, struct hendovita_day fresh)
{
    static const uint32_t kinds[3] = {
        HENDOVITA_BEST_BID, HENDOVITA_BEST_ASK, HENDOVITA_SYSTEM_TRADE,
    };
    struct plain_day list;
    uint32_t number = plain_open_day(&list, price);
    struct plain_kept kept = plain_kept(&list);
    report_entered("as a close", (struct plain_event){0, price},
                   hendovita_open_day(price), number, &kept);
    for (int i = 0; i < 3; i++) {
        struct plain_event event = {kinds[i], price};
        plain_open_day(&list, 0);
        number = plain_enter_event(&list, event);
        kept = plain_kept(&list);
        report_entered("first", event,
                       hendovita_enter_event(fresh, event.kind, event.price),
                       number, &kept);
    }
}

static void test_every_price(void)
{
    struct hendovita_day fresh = hendovita_open_day(0).day;
    report_begin("every price up to 10,000.000 as a close and a first event");
    for (uint32_t price = 0; price <= 10000000; price++)
        same_first(price, fresh);
    for (uint32_t price = UINT32_MAX; price > 10000000; price -= price / 999)
        same_first(price, fresh);
}

void test_days(void)
{
    test_lists();
    test_any_days();
    test_every_price();
}
