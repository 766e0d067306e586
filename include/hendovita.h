/*
 * Hendovita: price checks for the Hong Kong continuous trading session.
 *
 * Link with libhendovita.a, for Linux on x86-64-v2 or later; nothing else is
 * needed. Each function of the archive is proved in Rattle to meet its
 * contract, never to trap and to return, whatever its arguments; the comments
 * below are these contracts in words. The compiler that turns it into the
 * archive is trusted.
 * Tested and not proved: NULL with length 0, that this header declares what
 * the archive has, and the `static inline` functions, which are plain C.
 *
 * No function keeps a state or allocates memory. All may be called from
 * several threads at once.
 *
 * A price is a whole number of mils (0.001 of the currency unit). The
 * percentage is 5, and the spread table that of Phase 1, or the one that a call
 * names. That is right for all securities but exchange traded products,
 * exchange traded options, structured products and debt, in the Continuous
 * Trading Session.
 *
 * What stays with the caller, as everywhere in C:
 *   - a pointer has as many bytes behind it as the length beside it says;
 *     NULL goes with length 0 only, and is then no fault;
 *   - the question bytes and the answer buffer of a batch do not overlap.
 *
 * Calls that name a table by number end in _on. Those that name a table and a
 * rate will end in _at, those that are given a table of one's own in _own. They
 * come beside the calls below, which keep their names and signatures.
 */
#ifndef HENDOVITA_H
#define HENDOVITA_H

#include <stddef.h>
#include <stdint.h>

#ifdef __cplusplus
extern "C" {
#endif

/* Stands before a function whose result must be looked at: gcc and clang warn
 * where it is not. */
#if defined(__GNUC__) || defined(__clang__)
#define HENDOVITA_CHECK_RESULT __attribute__((warn_unused_result))
#else
#define HENDOVITA_CHECK_RESULT
#endif

/* ---- sizes ---------------------------------------------------------- */

enum {
    HENDOVITA_QUESTION_BYTES = 44,
    HENDOVITA_ANSWER_BYTES = 12,
    HENDOVITA_MOST_QUESTIONS = 1000, /* in a batch */
    HENDOVITA_LAST_SECURITY_CODE = 99999 /* the first is 1 */
};

/* ---- spread tables --------------------------------------------------- */

/*
 * The tables that a call whose name ends in _on may name, and any other number
 * names none. All three go from 0.010 to 9,995.000, over the same bands; two
 * neighbours differ in the spreads that are named here.
 *
 * A call that names none uses that of Phase 1.
 */
enum hendovita_table {
    HENDOVITA_BEFORE_PHASE_1 = 1, /* 10,340 prices: 0.020 over 10 to 20, 0.050
                                   * over 20 to 50 */
    HENDOVITA_PHASE_1 = 2, /* 11,740 prices: 0.010 over 10 to 20, 0.020 over 20
                            * to 50 */
    HENDOVITA_PHASE_2 = 3  /* 12,690 prices: 0.005 over 0.50 to 10, where it is
                            * 0.010 before */
};

/* ---- answer numbers, by who can cause them -------------------------- */

/* The checks run in the order of their numbers, with 14 after 1 and before 2,
 * and 15 after 2 and before 3, and the first that applies gives the number.
 * Each call below says which numbers it returns. */
enum hendovita_number {
    HENDOVITA_ACCEPTED = 0,

    /* the calling program */
    HENDOVITA_BAD_LENGTH = 1,     /* see each call */
    HENDOVITA_UNKNOWN_TABLE = 14, /* a table number that is not 1 to 3 */
    HENDOVITA_UNKNOWN_CODE = 2,   /* side, order type, queue code or byte 3 */
    HENDOVITA_BAD_SECURITY_CODE = 15, /* a security code not 1 to 99999 */

    /* the reference feed */
    HENDOVITA_REFERENCE_OFF_LADDER = 3, /* present, and no ladder price; of
                                         * close and nominal: present, and
                                         * under 0.010 or over 9,995.000 */
    HENDOVITA_REFERENCES_DISAGREE = 4, /* with the queue code, or each other */

    /* the client who enters the order */
    HENDOVITA_NO_OPPOSITE_QUEUE = 5, /* for a special limit order */
    HENDOVITA_OUTSIDE_LADDER = 6,    /* under 0.010 or over 9,995.000 */
    HENDOVITA_BETWEEN_PRICES = 7,    /* between two ladder prices */
    HENDOVITA_BELOW_LOWEST = 8,      /* below the permitted lowest */
    HENDOVITA_ABOVE_HIGHEST = 9,     /* above the permitted highest */
    HENDOVITA_NINE_FOLD = 10, /* nine times its reference or more, or a ninth
                               * or less */

    /* the reference feed, in a day book */
    HENDOVITA_UNKNOWN_EVENT = 11, /* or a price with an emptied queue */
    HENDOVITA_OFF_LADDER = 12, /* a price of an event that is no ladder price;
                                * a close under 0.010 or over 9,995.000 */
    HENDOVITA_QUOTES_CROSS = 13 /* a bid not below the current ask, or an ask
                                 * not above the current bid */
};

/* A line of text for an answer number; "no answer number" for any other. The
 * text is constant and need not be freed. */
static inline const char *hendovita_text(uint32_t number)
{
    switch (number) {
    case HENDOVITA_ACCEPTED:
        return "accepted";
    case HENDOVITA_BAD_LENGTH:
        return "question bytes or answer buffer of a wrong length";
    case HENDOVITA_UNKNOWN_TABLE:
        return "table number not 1 to 3";
    case HENDOVITA_UNKNOWN_CODE:
        return "side, order type or queue code unknown, or byte 3 not zero";
    case HENDOVITA_BAD_SECURITY_CODE:
        return "security code not 1 to 99999";
    case HENDOVITA_REFERENCE_OFF_LADDER:
        return "bid, ask or day price off the ladder, or close or nominal "
               "outside its ends";
    case HENDOVITA_REFERENCES_DISAGREE:
        return "references disagree with the queue code or with each other";
    case HENDOVITA_NO_OPPOSITE_QUEUE:
        return "special limit order with no opposite queue";
    case HENDOVITA_OUTSIDE_LADDER:
        return "price under 0.010 or over 9,995.000";
    case HENDOVITA_BETWEEN_PRICES:
        return "price between two ladder prices";
    case HENDOVITA_BELOW_LOWEST:
        return "price below the permitted lowest";
    case HENDOVITA_ABOVE_HIGHEST:
        return "price above the permitted highest";
    case HENDOVITA_NINE_FOLD:
        return "price nine times its reference or more, or a ninth or less";
    case HENDOVITA_UNKNOWN_EVENT:
        return "event kind unknown, or a price with an emptied queue";
    case HENDOVITA_OFF_LADDER:
        return "price of an event off the ladder, or close outside its ends";
    case HENDOVITA_QUOTES_CROSS:
        return "bid not below current ask, or ask not above current bid";
    default:
        return "no answer number";
    }
}

/* ---- numbers as bytes ----------------------------------------------- */

/* Writes 4 bytes, the lowest first. Reads them. */
static inline void hendovita_put_number(uint8_t *bytes, uint32_t number)
{
    bytes[0] = (uint8_t)(number & 255);
    bytes[1] = (uint8_t)(number >> 8 & 255);
    bytes[2] = (uint8_t)(number >> 16 & 255);
    bytes[3] = (uint8_t)(number >> 24 & 255);
}

static inline uint32_t hendovita_get_number(const uint8_t *bytes)
{
    return (uint32_t)bytes[0] | (uint32_t)bytes[1] << 8
        | (uint32_t)bytes[2] << 16 | (uint32_t)bytes[3] << 24;
}

/* ---- questions ------------------------------------------------------ */

enum hendovita_side {
    HENDOVITA_BUY = 1,
    HENDOVITA_SELL = 2
};

enum hendovita_order_type {
    HENDOVITA_LIMIT = 1,
    HENDOVITA_ENHANCED_LIMIT = 2,
    HENDOVITA_SPECIAL_LIMIT = 3
};

enum hendovita_queue {
    HENDOVITA_OPENING = 1, /* no bid and no ask yet today */
    HENDOVITA_BOTH_QUEUES = 2,
    HENDOVITA_BUY_QUEUE_ONLY = 3,
    HENDOVITA_SELL_QUEUE_ONLY = 4,
    HENDOVITA_NEITHER_QUEUE = 5
};

/*
 * A question is 44 bytes: the side, the order type, the queue code and 0, a
 * byte each; then ten numbers of 4 bytes, the lowest first: order price,
 * current bid, current ask, last bid, last ask, previous close, day low, day
 * high, nominal price, security code. A missing reference is 0; an order price
 * of 0 is a bad price. The security code, 1 to 99999, says whose question it is
 * and alters no answer; any other number there, as a 0 that was never set, gets
 * 15. Here with its fields by name.
 */
struct hendovita_question {
    uint8_t side, order_type, queue;
    uint32_t price;
    uint32_t current_bid, current_ask;
    uint32_t last_bid, last_ask;
    uint32_t previous_close;
    uint32_t day_low, day_high;
    uint32_t nominal;
    uint32_t security_code;
};

/* Writes the 44 bytes of a question. */
static inline void hendovita_put_question(uint8_t *bytes,
                                          const struct hendovita_question *q)
{
    bytes[0] = q->side;
    bytes[1] = q->order_type;
    bytes[2] = q->queue;
    bytes[3] = 0;
    hendovita_put_number(bytes + 4, q->price);
    hendovita_put_number(bytes + 8, q->current_bid);
    hendovita_put_number(bytes + 12, q->current_ask);
    hendovita_put_number(bytes + 16, q->last_bid);
    hendovita_put_number(bytes + 20, q->last_ask);
    hendovita_put_number(bytes + 24, q->previous_close);
    hendovita_put_number(bytes + 28, q->day_low);
    hendovita_put_number(bytes + 32, q->day_high);
    hendovita_put_number(bytes + 36, q->nominal);
    hendovita_put_number(bytes + 40, q->security_code);
}

/* ---- answers -------------------------------------------------------- */

/*
 * An answer: an answer number, and the range that is shown. 1 to 5, 14 and 15
 * show 0 and 0. 0 and 6 to 10 show a range: to a question, the lowest and the
 * highest ladder price that are permitted and pass the nine-fold rule, or 0 and
 * 0 where there is none; to a trade, the permitted range.
 *
 * In an answer buffer it is 12 bytes, these three numbers of 4 bytes each, the
 * lowest first.
 */
struct hendovita_answer {
    uint32_t number, lowest, highest;
};

/* Reads the 12 bytes of an answer. */
static inline struct hendovita_answer hendovita_get_answer(const uint8_t *bytes)
{
    struct hendovita_answer answer;
    answer.number = hendovita_get_number(bytes);
    answer.lowest = hendovita_get_number(bytes + 4);
    answer.highest = hendovita_get_number(bytes + 8);
    return answer;
}

/* ---- judging -------------------------------------------------------- */

/* The outcome of a batch: 0 and how many questions, or 1 or 14, and 0. */
struct hendovita_outcome {
    uint32_t number, count;
};

/*
 * Judges up to 1,000 questions of 44 bytes, end to end, and returns one of two
 * numbers.
 *
 * 0 (HENDOVITA_ACCEPTED): every question is judged, and count is
 * questions_len / 44. The 12 bytes of the answer to question k, from 0, stand
 * in bytes 12k to 12k+11 of answers, and are what hendovita_judge_question
 * returns for it: each has its own number, 0, 2 to 10 or 15. The bytes after
 * the last answer keep their content. An empty batch is judged, with count 0.
 *
 * 1 (HENDOVITA_BAD_LENGTH): questions_len is no multiple of 44 or over 44,000,
 * or answers_len is under 12 bytes a question. Nothing is judged: count is 0,
 * and no byte of answers is changed.
 */
HENDOVITA_CHECK_RESULT
struct hendovita_outcome hendovita_judge_batch(const uint8_t *questions,
                                               size_t questions_len,
                                               uint8_t *answers,
                                               size_t answers_len);

/*
 * The same on the table that a number names, one for all questions of the
 * batch: each answer is what hendovita_judge_question_on returns for it. There
 * is one number more, where 1 does not apply; an empty batch gets it too:
 *
 * 14 (HENDOVITA_UNKNOWN_TABLE): the number names no table. Nothing is judged:
 * count is 0, and no byte of answers is changed.
 */
HENDOVITA_CHECK_RESULT
struct hendovita_outcome hendovita_judge_batch_on(uint32_t table,
                                                  const uint8_t *questions,
                                                  size_t questions_len,
                                                  uint8_t *answers,
                                                  size_t answers_len);

/*
 * The answer to one question.
 *
 * 1 (HENDOVITA_BAD_LENGTH) with 0 and 0: len is not 44. With len 44, 0, 2 to 10
 * and 15: 2 to 5 and 15 with 0 and 0, the others with the range.
 */
HENDOVITA_CHECK_RESULT
struct hendovita_answer hendovita_judge_question(const uint8_t *question,
                                                 size_t len);

/* The same on the table that a number names. With len 44, and a number that
 * names none: 14 (HENDOVITA_UNKNOWN_TABLE) with 0 and 0. */
HENDOVITA_CHECK_RESULT
struct hendovita_answer hendovita_judge_question_on(uint32_t table,
                                                    const uint8_t *question,
                                                    size_t len);

/*
 * Judging in two parts, for many order prices against the same references: the
 * first part takes the question, once, and the second each price. Together
 * they give what hendovita_judge_question gives.
 *
 * What the first part gives: 0, the range that the rules permit, from one
 * ladder price to another, and the reference of the nine-fold rule, 0 where it
 * is missing. That rule has not cut the range yet. 0 says that there is a
 * range; it accepts no price. Or a number that says why there is no range, and
 * three zeros.
 */
struct hendovita_prepared {
    uint32_t number, lowest, highest, nine_fold;
};

/*
 * The first part. The order price, bytes 4 to 7, is not looked at.
 *
 * 1 (HENDOVITA_BAD_LENGTH): question_len is not 44. With 44 bytes, 0 with the
 * range, or 2 to 5 or 15 with three zeros.
 */
HENDOVITA_CHECK_RESULT
struct hendovita_prepared hendovita_prepare(const uint8_t *question,
                                            size_t question_len);

/* The same on the table that a number names. With 44 bytes, and a number that
 * names none: 14 (HENDOVITA_UNKNOWN_TABLE). */
HENDOVITA_CHECK_RESULT
struct hendovita_prepared hendovita_prepare_on(uint32_t table,
                                               const uint8_t *question,
                                               size_t question_len);

/*
 * The second part: the answer to an order price against what the first part
 * gave, on the same table. It answers 0 or 6 to 10, with the range that is
 * shown.
 *
 * The three numbers may be any, whoever made them: the lowest above the
 * highest, off the ladder, beyond its ends. After 6 and 7, 8 is a price below
 * the lowest, 9 one above the highest, 10 one that fails against the nine-fold
 * reference, of which 0 is missing and lets all pass. So a price is accepted
 * where it is a ladder price from the lowest to the highest given that passes;
 * shown are the first and the last of these, or 0 and 0 where there is none.
 *
 * A first part that gave another number than 0 is not to be handed on: its
 * zeros are judged as a range, and every price on the ladder gets 9.
 */
HENDOVITA_CHECK_RESULT
struct hendovita_answer hendovita_judge_prepared(uint32_t lowest,
                                                 uint32_t highest,
                                                 uint32_t nine_fold,
                                                 uint32_t price);

/* The same on the table that a number names. By a number that names none: 14
 * (HENDOVITA_UNKNOWN_TABLE) with 0 and 0. */
HENDOVITA_CHECK_RESULT
struct hendovita_answer hendovita_judge_prepared_on(uint32_t table,
                                                    uint32_t lowest,
                                                    uint32_t highest,
                                                    uint32_t nine_fold,
                                                    uint32_t price);

/*
 * The answer to an off-System trade, given the previous close and the lowest
 * and highest bid and ask of the day so far. After the trade price, 0 means
 * missing. The trade price need not be a ladder price, and the nine-fold rule
 * is for orders.
 *
 * 3 with 0 and 0: a bid or an ask is present but no ladder price, or the
 *   previous close is present but under 0.010 or over 9,995.000.
 * 4 with 0 and 0: of the lowest and highest bid one is missing, or the lowest
 *   is above the highest; or so of the asks.
 * 6, 8, 9 with the permitted range: the trade price is under 0.010 or over
 *   9,995.000; below the lowest; above the highest.
 * 0 with the permitted range: accepted. No other number.
 */
HENDOVITA_CHECK_RESULT
struct hendovita_answer hendovita_judge_trade(uint32_t price,
                                              uint32_t previous_close,
                                              uint32_t lowest_bid,
                                              uint32_t lowest_ask,
                                              uint32_t highest_bid,
                                              uint32_t highest_ask);

/* The same on the table that a number names. By a number that names none: 14
 * (HENDOVITA_UNKNOWN_TABLE) with 0 and 0. */
HENDOVITA_CHECK_RESULT
struct hendovita_answer hendovita_judge_trade_on(uint32_t table,
                                                 uint32_t price,
                                                 uint32_t previous_close,
                                                 uint32_t lowest_bid,
                                                 uint32_t lowest_ask,
                                                 uint32_t highest_bid,
                                                 uint32_t highest_ask);

/* ---- the day book ---------------------------------------------------- */

/* Its ladder is that of Phase 1. */

/* What can happen to a security. With 1, 2 and 5 goes a price; with 3 and 4
 * the price is 0. */
enum hendovita_event {
    HENDOVITA_BEST_BID = 1, /* the best bid is now this price */
    HENDOVITA_BEST_ASK = 2, /* the best ask is now this price */
    HENDOVITA_BUY_QUEUE_EMPTY = 3,
    HENDOVITA_SELL_QUEUE_EMPTY = 4,
    HENDOVITA_SYSTEM_TRADE = 5 /* a trade on the System at this price */
};

/*
 * What a day keeps for one security; 0 where there is none. The previous
 * close. Of the bids and of the asks that were accepted so far: the current
 * one, which is none where the queue is empty; the last one, which is the
 * current one where there is one; the lowest and the highest. Of the System
 * trades that were accepted so far: the lowest and the highest.
 *
 * Days that hendovita_open_day and then hendovita_enter_event return are
 * right by the events. Every other day is taken by its numbers all the same:
 * 0 is none, and each of them stands for itself.
 */
struct hendovita_day {
    uint32_t previous_close;
    uint32_t current_bid, current_ask;
    uint32_t last_bid, last_ask;
    uint32_t lowest_bid, highest_bid;
    uint32_t lowest_ask, highest_ask;
    uint32_t day_low, day_high;
};

/* A number, and the day from now on. */
struct hendovita_entered {
    uint32_t number;
    struct hendovita_day day;
};

/*
 * A fresh day with this previous close; 0 is none. All else is none.
 *
 * 0: taken. 12 (HENDOVITA_OFF_LADDER): the close is neither 0 nor a price from
 * 0.010 to 9,995.000, and the day has none.
 */
HENDOVITA_CHECK_RESULT
struct hendovita_entered hendovita_open_day(uint32_t previous_close);

/*
 * The day after an event.
 *
 * 0: accepted. Each kept price that the event concerns has followed, and no
 * other. Emptying an empty queue is accepted and changes nothing.
 *
 * Turned away, and the day comes back as it was, by the first of these that
 * applies:
 * 11 (HENDOVITA_UNKNOWN_EVENT): the kind is not 1 to 5, or it is 3 or 4 and
 *   the price is not 0.
 * 12 (HENDOVITA_OFF_LADDER): the price is no ladder price, with 1, 2 and 5;
 *   0 is not one.
 * 13 (HENDOVITA_QUOTES_CROSS): a bid that is not below the current ask, or
 *   an ask that is not above the current bid. Where there is no current one,
 *   this does not apply.
 */
HENDOVITA_CHECK_RESULT
struct hendovita_entered hendovita_enter_event(struct hendovita_day day,
                                               uint32_t kind, uint32_t price);

/*
 * Writes the 44 bytes of a question: side, order type, order price, nominal
 * price and security code as given, byte 3 zero, the references and the queue
 * code from the day. The queue code is 1 (opening) where the day has no last
 * bid and no last ask; else 2, 3, 4 or 5 by which of current bid and current
 * ask there are.
 *
 * 0: all 44 bytes are written. 1 (HENDOVITA_BAD_LENGTH): question_len is not
 * 44, and no byte is changed.
 *
 * Whatever side, order type, price, nominal and security code are given: judged
 * on the table of Phase 1, a question from a day that hendovita_open_day and
 * then hendovita_enter_event have returned never gets 1 or 4. It gets 2 only
 * where the side or the order type given is unknown, 15 only where the security
 * code given is not 1 to 99999, and 3 only where the nominal given is neither 0
 * nor a price from 0.010 to 9,995.000.
 */
HENDOVITA_CHECK_RESULT
uint32_t hendovita_fill_question(struct hendovita_day day, uint8_t side,
                                 uint8_t order_type, uint32_t price,
                                 uint32_t nominal, uint32_t security_code,
                                 uint8_t *question, size_t question_len);

/* ---- the ladder and the limits -------------------------------------- */

/* A price: found is 1; or none: found is 0, and price is 0. */
struct hendovita_price {
    uint32_t found, price;
};

/* A place: found is 1; or none: found is 0, and place is 0, which is a proper
 * place where found is 1. */
struct hendovita_place {
    uint32_t found, place;
};

/* A band: found is 1, and index counts the bands of the table from 0; or none:
 * found is 0, and index is 0, which is a proper index where found is 1. */
struct hendovita_band {
    uint32_t found, index;
};

/* Each call comes twice, but for that of a band, which always names a table.
 * Of the two, that which ends in _on takes the number of a table first and
 * finds on that table what the other finds on its own; by a number that names
 * no table it finds none, and so does that of a band. What is said below of
 * none is said of the tables that there are. */

/* The price n spreads up or down, any n, halting at the ends of the ladder;
 * with n = 0 the price itself. From a price between two ladder prices the
 * first spread goes to the nearest one that way, and is one of the n. None from
 * a price under 0.010 or over 9,995.000, and only then. */
HENDOVITA_CHECK_RESULT
struct hendovita_price hendovita_up(uint32_t price, uint64_t n);
HENDOVITA_CHECK_RESULT
struct hendovita_price hendovita_down(uint32_t price, uint64_t n);
HENDOVITA_CHECK_RESULT
struct hendovita_price hendovita_up_on(uint32_t table, uint32_t price,
                                       uint64_t n);
HENDOVITA_CHECK_RESULT
struct hendovita_price hendovita_down_on(uint32_t table, uint32_t price,
                                         uint64_t n);

/* The price at a place, 0 (0.010) to 11,739 (9,995.000); on table 1 to 10,339,
 * on table 3 to 12,689. None above, and only there. */
HENDOVITA_CHECK_RESULT
struct hendovita_price hendovita_price_at(uint32_t place);
HENDOVITA_CHECK_RESULT
struct hendovita_price hendovita_price_at_on(uint32_t table, uint32_t place);

/* The place of a price. None for a price off the ladder, and only then. */
HENDOVITA_CHECK_RESULT
struct hendovita_place hendovita_place_of(uint32_t price);
HENDOVITA_CHECK_RESULT
struct hendovita_place hendovita_place_of_on(uint32_t table, uint32_t price);

/* The band of a price: the one whose bottom it is above and whose top it does
 * not exceed; that of 0.010, the first bottom, is the first. Each table has
 * twelve, 0 to 11, which begin at 0.010, 0.25, 0.50, 10, 20, 50, 100, 200, 500,
 * 1,000, 2,000 and 5,000; the last ends at 9,995.
 *
 * The answer is that of looking at `allowed` of them at the most, in this
 * order: 2, 3 and 4, which lie over 0.50 to 50, then 0, 1 and 5 to 11. With 0
 * none is looked at, with 12 or more all are. None for a price that is in none
 * of those looked at, and only then. */
HENDOVITA_CHECK_RESULT
struct hendovita_band hendovita_band_of_on(uint32_t table, uint32_t price,
                                           uint32_t allowed);

/* The limits of a reference, a ladder price or not: 5 percent of it or 24
 * spreads, whichever is further, both halting at the ends of the ladder. The
 * lower 5 percent limit is rounded up to the ladder, the upper one down. None
 * from a reference under 0.010 or over 9,995.000, and only then. */
HENDOVITA_CHECK_RESULT
struct hendovita_price hendovita_lower_limit(uint32_t reference);
HENDOVITA_CHECK_RESULT
struct hendovita_price hendovita_upper_limit(uint32_t reference);
HENDOVITA_CHECK_RESULT
struct hendovita_price hendovita_lower_limit_on(uint32_t table,
                                                uint32_t reference);
HENDOVITA_CHECK_RESULT
struct hendovita_price hendovita_upper_limit_on(uint32_t table,
                                                uint32_t reference);

/* The 5 percent limits by themselves, before 24 spreads are looked at, rounded
 * likewise. None from a reference under 0.010 or over 9,995.000, and only
 * then. */
HENDOVITA_CHECK_RESULT
struct hendovita_price hendovita_five_percent_lower(uint32_t reference);
HENDOVITA_CHECK_RESULT
struct hendovita_price hendovita_five_percent_upper(uint32_t reference);
HENDOVITA_CHECK_RESULT
struct hendovita_price hendovita_five_percent_lower_on(uint32_t table,
                                                       uint32_t reference);
HENDOVITA_CHECK_RESULT
struct hendovita_price hendovita_five_percent_upper_on(uint32_t table,
                                                       uint32_t reference);

#ifdef __cplusplus
}
#endif

#endif
