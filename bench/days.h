/*
 * Speed of the day book: the library's against a plain C one.
 */
#ifndef DAYS_H
#define DAYS_H

#include "draw.h"
#include "plain.h"

/* A mix of events, and of the orders between them. */
struct day_mix {
    const char *name;
    struct plain_event (*event)(struct draw *, const struct plain_kept *);
    struct plain_asked (*order)(struct draw *, const struct plain_kept *);
};

/* Times both on a day of a mix, and prints a line: event after event; then a
 * question filled from the day after each event, and judged. */
void time_events(struct day_mix mix);
void time_fills(struct day_mix mix);

#endif
