/*
 * The tests of a run: a line for each, and what differed where one fails.
 */
#ifndef REPORT_H
#define REPORT_H

#include <stdint.h>

#include "hendovita.h"
#include "plain.h"

/* The room of a test's name. */
enum { REPORT_NAME = 128 };

/* Begins a test. Its name, which is copied, is printed before it runs. */
void report_begin(const char *name);

/* A fault with a line that says what is wrong, as printf would print it. */
void report_say(const char *format, ...);

/* A fault unless two numbers are the same. */
void report_same(const char *what, uint64_t found, uint64_t due);

/* Faults unless the answer is the one that is due: they print the question's
 * or the trade's fields and both answers, and how the question was asked. */
void report_question(const char *how,
                     const uint8_t question[PLAIN_QUESTION_BYTES],
                     struct hendovita_answer found, struct plain_answer due);
void report_trade(const uint32_t fields[6], struct hendovita_answer found,
                  struct plain_answer due);

/* Faults unless a question is prepared as is due, and unless the order price is
 * judged as is due, by what was prepared or by any numbers: they print what was
 * given and both outcomes. The four numbers are lowest, highest, nine-fold
 * reference and order price. */
void report_prepared(const char *how,
                     const uint8_t question[PLAIN_QUESTION_BYTES],
                     struct hendovita_prepared found,
                     struct plain_prepared due);
void report_judged(const uint32_t numbers[4], struct hendovita_answer found,
                   struct plain_answer due);

/* A fault unless number and day are those that are due: it prints the event,
 * how it came, and each number that differs. */
void report_entered(const char *how, struct plain_event event,
                    struct hendovita_entered found, uint32_t number,
                    const struct plain_kept *due);

/* A fault unless the 44 bytes are those that are due. */
void report_filled(const char *how, const uint8_t found[PLAIN_QUESTION_BYTES],
                   const uint8_t due[PLAIN_QUESTION_BYTES]);

/* Ends the run: prints how many passed and failed. 0 if none failed. */
int report_finish(void);

#endif
