/*
 * A text line by line, its parts, and messages that say where they stand.
 */
#ifndef TEXT_H
#define TEXT_H

#include <stdbool.h>
#include <stddef.h>
#include <stdint.h>
#include <stdio.h>

enum { TEXT_LONGEST = 1000 }; /* bytes of a line, without its end */

/* A part of a line. It may hold any byte, 0 too. */
struct text {
    const char *bytes;
    size_t length;
};

/* A file that is read line by line, and the line last read. */
struct text_lines {
    FILE *file;
    const char *name;             /* as messages call it */
    unsigned long number;         /* of the line, from 1 */
    size_t length;                /* of the line, even where it is too long */
    char bytes[TEXT_LONGEST + 1]; /* room for a CR before the line's end */
};

/* Reads the next line, which ends in LF, CR LF or with the file. False where
 * there is none, or where the file cannot be read. */
bool text_next(struct text_lines *lines);

/* Whether the line is no longer than it may be; a message if it is. */
bool text_fits(const struct text_lines *lines);

/* The line, where it fits. */
struct text text_line(const struct text_lines *lines);

/* The same up to the first '#'. */
struct text text_before_comment(const struct text_lines *lines);

/* Begins a message on the line, which the caller ends: before, and then the
 * word in quotes, its unprintable bytes as \xNN. */
void text_quote(const struct text_lines *lines, const char *before,
                struct text word);

/* Says what is wrong with the line: the word stands in quotes between before
 * and after. Always false. */
bool text_wrong(const struct text_lines *lines, const char *before,
                struct text word, const char *after);

/* Splits at the first such byte. Where there is none, before is the whole and
 * after is empty, and the answer is false. */
bool text_split(struct text whole, char byte, struct text *before,
                struct text *after);

/* Takes the first word off. False where nothing but blanks is left. */
bool text_word(struct text *rest, struct text *word);

bool text_is(struct text text, const char *string);

/* One digit or more, and nothing else. */
bool text_is_digits(struct text text);

/* The number that digits stand for, or most + 1 if it is over most. */
uint64_t text_number(struct text digits, uint32_t most);

#endif
