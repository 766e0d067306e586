/*
 * Speed of the programs: build/pricecheck and build/dayreport against plain C
 * programs, and the one against the other.
 */
#ifndef PROGRAMS_H
#define PROGRAMS_H

#include "draw.h"

/* Times all on a file of questions of a mix, and prints a line for pricecheck
 * and one for dayreport. That one ends with the ratio of its time to that of
 * pricecheck, which should be 1.05 at most: nothing checks it, the reader of
 * the line judges it. */
void time_programs(const char *name,
                   void (*mix)(struct draw *, uint8_t *question));

#endif
