/*
 * The price checks by the plain count.
 *
 * There are three spread tables, and of each all ladder prices stand in one
 * list, in rising order. One table is in use, and everything goes by its list.
 * A spread is a move to the next entry; from a price between two entries it is
 * a move to the one that lies that way. A limit is found by trying one entry
 * after another: from the first, or for a reference between two entries from
 * the limit of the lower one. No place, step or limit is computed from the
 * width of a band.
 *
 * A day is the list of its accepted events. What it keeps is found by going
 * through that list, each time from its beginning. It is a day on table 2: that
 * one is to be in use.
 *
 * A price is a whole number of mils (0.001 of the currency unit). As a
 * reference, 0 means missing. Where a function returns a price, 0 means that
 * there is none.
 */
#ifndef PLAIN_H
#define PLAIN_H

#include <stdbool.h>
#include <stdint.h>

enum {
    PLAIN_TABLES = 3,
    PLAIN_PHASE_1 = 2,      /* the table that is in use after plain_begin */
    PLAIN_BANDS = 12,
    PLAIN_FIRST = 10,       /* the lowest ladder price of each table */
    PLAIN_LAST = 9995000,   /* the highest ladder price of each table */
    PLAIN_MOST = 12690,     /* the most ladder prices that a table has */
    PLAIN_QUESTION_BYTES = 44,
    PLAIN_LAST_CODE = 99999, /* the security codes are 1 to this */
    PLAIN_EVENTS = 64       /* the most events that a day can hold */
};

/* The answer number and the range shown with it. */
struct plain_answer {
    uint32_t number, lowest, highest;
};

/* Builds the lists. Call it once, before anything else. Table 2 is in use. */
void plain_begin(void);

/* From here on a table is in use: 1 is that before Phase 1, 2 that of Phase 1,
 * 3 that of Phase 2. Any other number names none: false, and the table in use
 * stays. */
bool plain_use(uint32_t table);

/* The list: its length, the price at a place, the place of a price (-1 if the
 * price is off the ladder), and the whole list from the first price on. */
uint32_t plain_count(void);
uint32_t plain_price(uint32_t place);
int32_t plain_place(uint32_t price);
const uint32_t *plain_list(void);

/* The bottom and the top price of a band, counted from 0, and the band of a
 * price, with so many bands looked at and no more (-1 if the price is in none
 * of those): the same on each table. */
uint32_t plain_band_bottom(uint32_t band);
uint32_t plain_band_top(uint32_t band);
int32_t plain_band_of(uint32_t price, uint32_t allowed);

/* n single spreads, one after another, halting at the ends of the ladder; with
 * n = 0 the price itself. None from a price outside the ends. */
uint32_t plain_up(uint32_t price, uint64_t n);
uint32_t plain_down(uint32_t price, uint64_t n);

/* The 5 percent limits of a reference, before 24 spreads are looked at. None
 * of a reference outside the ends. */
uint32_t plain_five_percent_lower(uint32_t reference);
uint32_t plain_five_percent_upper(uint32_t reference);

/* The two limits of a reference, or none likewise. */
uint32_t plain_lower_limit(uint32_t reference);
uint32_t plain_upper_limit(uint32_t reference);

/* The security code of a question as it stands there, good or bad. */
uint32_t plain_security_code(const uint8_t question[PLAIN_QUESTION_BYTES]);

/* A question without its order price: 2 to 5 or 15 and three times 0 if it is
 * refused, or else 0, the permitted range, not cut by the nine-fold rule, and
 * the price against which that rule is held, which may be missing. */
struct plain_prepared {
    uint32_t number, lowest, highest, nine_fold;
};

struct plain_prepared
plain_prepare(const uint8_t question[PLAIN_QUESTION_BYTES]);

/* The answer to an order price, given a range and a price for the nine-fold
 * rule. They may be any numbers, and each is taken as it is. */
struct plain_answer plain_judge_prepared(uint32_t lowest, uint32_t highest,
                                         uint32_t nine_fold, uint32_t price);

/* The answer to a question: it is prepared, then its order price is judged. */
struct plain_answer
plain_question(const uint8_t question[PLAIN_QUESTION_BYTES]);

/* The answer to an off-System trade. */
struct plain_answer plain_trade(uint32_t price, uint32_t previous_close,
                                uint32_t lowest_bid, uint32_t lowest_ask,
                                uint32_t highest_bid, uint32_t highest_ask);

/* What happened to a security, and at which price. */
struct plain_event {
    uint32_t kind, price;
};

/* A day: its previous close, and the accepted events from the first on. */
struct plain_day {
    uint32_t previous_close;
    uint32_t count;
    struct plain_event accepted[PLAIN_EVENTS];
};

/* What a day keeps. */
struct plain_kept {
    uint32_t previous_close;
    uint32_t current_bid, current_ask;
    uint32_t last_bid, last_ask;
    uint32_t lowest_bid, highest_bid;
    uint32_t lowest_ask, highest_ask;
    uint32_t day_low, day_high;
};

/* What a caller gives of a question that is filled from a day. */
struct plain_asked {
    uint8_t side, type;
    uint32_t price, nominal;
    uint32_t security_code;
};

/* A fresh day, and its next event: 0, or the number that turns it away. */
uint32_t plain_open_day(struct plain_day *day, uint32_t previous_close);
uint32_t plain_enter_event(struct plain_day *day, struct plain_event event);

/* What the list says: the kept prices, the queue code, and the question that
 * is filled from them. */
struct plain_kept plain_kept(const struct plain_day *day);
uint8_t plain_queue_code(const struct plain_day *day);
void plain_fill(const struct plain_day *day, struct plain_asked asked,
                uint8_t question[PLAIN_QUESTION_BYTES]);

/* The same for a day of any eleven numbers, which has no list: it is taken by
 * its numbers. */
uint32_t plain_enter_any(struct plain_kept *kept, struct plain_event event);
void plain_fill_any(const struct plain_kept *kept, struct plain_asked asked,
                    uint8_t question[PLAIN_QUESTION_BYTES]);

#endif
