/*
 * Which answer numbers were seen, and which questions and trades with a
 * reference off the ladder, or at an end of it: so a test can tell what its
 * draw has missed.
 */
#ifndef SEEN_H
#define SEEN_H

#include <stddef.h>

#include "plain.h"

/* The answer numbers are below this. */
enum { SEEN_ANSWERS = 16 };

/* Faults unless each of these answer numbers was counted so often. */
void seen_numbers(const uint32_t counts[SEEN_ANSWERS], const uint32_t *numbers,
                  size_t many, uint32_t least);

/* The references of a question, and of a trade. */
enum {
    SEEN_BID, SEEN_ASK, SEEN_LAST_BID, SEEN_LAST_ASK, SEEN_CLOSE,
    SEEN_DAY_LOW, SEEN_DAY_HIGH, SEEN_NOMINAL, SEEN_REFERENCES
};
enum {
    SEEN_TRADE_CLOSE, SEEN_LOWEST_BID, SEEN_LOWEST_ASK, SEEN_HIGHEST_BID,
    SEEN_HIGHEST_ASK, SEEN_TRADE_REFERENCES
};

/* What was seen of a reference. */
enum seen_kind {
    SEEN_BETWEEN_REFUSED, /* between ladder prices, the only reason for a 3 */
    SEEN_OUTSIDE_REFUSED, /* outside the ends, the only reason for a 3 */
    SEEN_BETWEEN,         /* between ladder prices, and accepted */
    SEEN_NOT_AS_BELOW,    /* the ladder price below gives another answer */
    SEEN_NOT_AS_ABOVE,    /* the ladder price above gives another answer */
    SEEN_AT_END,          /* the first or last ladder price, and accepted */
    SEEN_KINDS
};

struct seen {
    uint32_t count[SEEN_REFERENCES][SEEN_KINDS];
};

/* Counts a question or a trade, given its answer. */
void seen_question(struct seen *seen,
                   const uint8_t question[PLAIN_QUESTION_BYTES],
                   struct plain_answer answer);
void seen_trade(struct seen *seen, const uint32_t fields[6],
                struct plain_answer answer);

/* Faults unless each kind from the first to the last was seen so often. */
void seen_often(const struct seen *seen, uint32_t reference,
                enum seen_kind first, enum seen_kind last, uint32_t least);

#endif
