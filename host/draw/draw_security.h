/*
 * Security codes drawn at random.
 */
#ifndef DRAW_SECURITY_H
#define DRAW_SECURITY_H

#include "draw.h"

/* A code from 1 to 99999, often an end or an edge of its bytes. */
uint32_t draw_good_security(struct draw *draw);

/* Any other number. Of many a part, a byte or more, looks like a code. */
uint32_t draw_bad_security(struct draw *draw);

#endif
