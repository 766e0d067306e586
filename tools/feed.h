/*
 * A day in readable form: a line for each thing that happens to a security,
 * and for each order.
 */
#ifndef FEED_H
#define FEED_H

#include "fields.h"

/* Reads the next line of a day. The day follows a close or an event; an order
 * becomes a question, filled from the day as it is. Where the line is wrong, or
 * what it says is turned away, a message says why; a close that is turned away
 * opens a day with none. */
enum fields_found feed_read(const struct text_lines *lines,
                            struct hendovita_day *day,
                            uint8_t record[HENDOVITA_QUESTION_BYTES]);

#endif
