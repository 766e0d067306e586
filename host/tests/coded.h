/*
 * Questions by name, with a security code that is given apart.
 */
#ifndef CODED_H
#define CODED_H

#include "hendovita.h"
#include "plain.h"

/* Writes the bytes of a question, with this code in place of its own. */
void coded(uint8_t bytes[PLAIN_QUESTION_BYTES],
           const struct hendovita_question *question, uint32_t security_code);

/* Writes n questions that are accepted on each table, end to end. */
void coded_good(uint8_t *bytes, size_t n);

/* The code that stands in the bytes of a question becomes this one. */
void recode(uint8_t bytes[PLAIN_QUESTION_BYTES], uint32_t security_code);

#endif
