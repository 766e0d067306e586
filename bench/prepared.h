/*
 * Speed of a prepared question: one first part and many order prices, against
 * as many whole questions.
 */
#ifndef PREPARED_H
#define PREPARED_H

#include "draw.h"

/* A mix of questions, and of order prices against one of them. */
struct price_mix {
    const char *name;
    void (*question)(struct draw *, uint8_t *question);
    uint32_t (*price)(struct draw *, const uint8_t *question);
};

/* Times both on questions of a mix that have a range, and prints a line. */
void time_prepared(struct price_mix mix);

#endif
