/*
 * A question in readable form: a line of words, each the name of a field, '='
 * and its value.
 */
#ifndef FIELDS_H
#define FIELDS_H

#include "hendovita.h"
#include "text.h"

/* What a line holds: no question, a question, or something wrong. */
enum fields_found { FIELDS_NONE, FIELDS_QUESTION, FIELDS_WRONG };

/* Reads the question of a line into its 44 bytes. Where the line is wrong, a
 * message says what the first fault is. */
enum fields_found fields_read(const struct text_lines *lines,
                              uint8_t record[HENDOVITA_QUESTION_BYTES]);

/* What an order has of its own; a day gives the rest of its question. */
struct fields_order {
    uint8_t side, type;
    uint32_t price, nominal, security_code;
};

/* Reads the order of a line in the same way: it has no other fields. */
enum fields_found fields_read_order(const struct text_lines *lines,
                                    struct fields_order *order);

/* Reads a price in currency units. Answers what is wrong, or NULL. */
const char *fields_read_price(struct text value, uint32_t *price);

/* Whether there is a value behind the '=' of a word; a message if not. */
bool fields_has_value(const struct text_lines *lines, struct text word,
                      struct text value);

/* Prints the line of a question, without what is missing. */
void fields_print(const uint8_t record[HENDOVITA_QUESTION_BYTES]);

/* Prints a price in currency units, with three decimals. */
void fields_print_price(uint32_t mils);

#endif
