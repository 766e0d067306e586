/*
 * Questions with every code and every set of missing references.
 */
#ifndef EVERY_H
#define EVERY_H

#include "plain.h"

typedef void every_use(const uint8_t question[PLAIN_QUESTION_BYTES]);

/* Gives each to a function: the codes around the known ones, byte 3 zero and
 * not, with some sets of prices of which any may be missing. The security codes
 * are good. */
void every_question(every_use *use);

#endif
