/*
 * Memory between two pages that fault when touched.
 */
#ifndef GUARDED_H
#define GUARDED_H

#include <stdint.h>

enum { GUARDED_BYTES = 1 << 16 }; /* a multiple of the size of a page */

/* GUARDED_BYTES bytes between two such pages, all 0. */
uint8_t *guarded(void);

#endif
