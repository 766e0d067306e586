/*
 * The calls of the library on a table that they name, or on none, so that a
 * test runs on each.
 */
#ifndef ON_H
#define ON_H

#include <stddef.h>
#include <stdint.h>

#include "hendovita.h"
#include "plain.h"

/* Runs a test four times: on each table, which its calls name, and on table 2
 * with calls that name none. The plain count has the same table in use. */
void on_each(void test(void));

/* The same three times: on each table, named. */
void on_each_named(void test(void));

/* The same twice: on table 2, named and not. */
void on_phase_1(void test(void));

/* From here on 1, 2 or 3 is the table that the calls name, and with 0 they name
 * none. So it is from the start, and after each of the three above. */
void on_table(uint32_t named);

/* The table that the calls go by, named or not. */
uint32_t on_which(void);

/* Begins a test, with a name that says which table its calls name. */
void on_begin(const char *name);

/* The calls. That for a band always names its table, which is on_which(). */
struct hendovita_price on_up(uint32_t price, uint64_t n);
struct hendovita_price on_down(uint32_t price, uint64_t n);
struct hendovita_price on_price_at(uint32_t place);
struct hendovita_place on_place_of(uint32_t price);
struct hendovita_band on_band_of(uint32_t price, uint32_t allowed);
struct hendovita_price on_lower_limit(uint32_t reference);
struct hendovita_price on_upper_limit(uint32_t reference);
struct hendovita_price on_five_percent_lower(uint32_t reference);
struct hendovita_price on_five_percent_upper(uint32_t reference);
struct hendovita_answer on_question(const uint8_t *question, size_t len);
struct hendovita_prepared on_prepare(const uint8_t *question, size_t len);
struct hendovita_answer on_judge_prepared(uint32_t lowest, uint32_t highest,
                                          uint32_t nine_fold, uint32_t price);
struct hendovita_answer on_trade(const uint32_t fields[6]);
struct hendovita_outcome on_batch(const uint8_t *questions,
                                  size_t questions_len, uint8_t *answers,
                                  size_t answers_len);

/* A question judged in two parts: it is prepared and, where it is not refused,
 * its order price is judged by what that gave. */
struct hendovita_answer
on_two_parts(const uint8_t question[PLAIN_QUESTION_BYTES]);

#endif
