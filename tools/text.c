/*
 * A text line by line, its parts, and messages that say where they stand.
 */
#include "text.h"

#include <string.h>

bool text_next(struct text_lines *lines)
{
    int byte = getc(lines->file);
    if (byte == EOF)
        return false;

    lines->number++;
    lines->length = 0;
    for (; byte != EOF && byte != '\n'; byte = getc(lines->file)) {
        if (lines->length < sizeof lines->bytes)
            lines->bytes[lines->length] = (char)byte;
        lines->length++;
    }
    if (byte == EOF && ferror(lines->file))
        return false;

    if (lines->length > 0 && lines->length <= sizeof lines->bytes
        && lines->bytes[lines->length - 1] == '\r')
        lines->length--;
    return true;
}

/* What was printed before a message comes out before it. */
static void print_place(const struct text_lines *lines)
{
    fflush(stdout);
    fprintf(stderr, "%s:%lu: ", lines->name, lines->number);
}

bool text_fits(const struct text_lines *lines)
{
    if (lines->length <= TEXT_LONGEST)
        return true;
    print_place(lines);
    fprintf(stderr, "the line is longer than %d bytes\n", TEXT_LONGEST);
    return false;
}

struct text text_line(const struct text_lines *lines)
{
    return (struct text){lines->bytes, lines->length};
}

struct text text_before_comment(const struct text_lines *lines)
{
    struct text before, comment;
    text_split(text_line(lines), '#', &before, &comment);
    return before;
}

void text_quote(const struct text_lines *lines, const char *before,
                struct text word)
{
    print_place(lines);
    fprintf(stderr, "%s'", before);
    for (size_t i = 0; i < word.length; i++) {
        unsigned char byte = (unsigned char)word.bytes[i];
        if (byte >= ' ' && byte <= '~')
            putc(byte, stderr);
        else
            fprintf(stderr, "\\x%02x", byte);
    }
    putc('\'', stderr);
}

bool text_wrong(const struct text_lines *lines, const char *before,
                struct text word, const char *after)
{
    text_quote(lines, before, word);
    fprintf(stderr, "%s\n", after);
    return false;
}

static bool is_blank(char byte)
{
    return byte == ' ' || byte == '\t';
}

bool text_word(struct text *rest, struct text *word)
{
    size_t start = 0;
    while (start < rest->length && is_blank(rest->bytes[start]))
        start++;
    size_t end = start;
    while (end < rest->length && !is_blank(rest->bytes[end]))
        end++;
    *word = (struct text){rest->bytes + start, end - start};
    *rest = (struct text){rest->bytes + end, rest->length - end};
    return word->length > 0;
}

bool text_split(struct text whole, char byte, struct text *before,
                struct text *after)
{
    size_t length = 0;
    while (length < whole.length && whole.bytes[length] != byte)
        length++;

    bool found = length < whole.length;
    size_t rest = found ? length + 1 : length;
    *before = (struct text){whole.bytes, length};
    *after = (struct text){whole.bytes + rest, whole.length - rest};
    return found;
}

bool text_is(struct text text, const char *string)
{
    return text.length == strlen(string)
        && memcmp(text.bytes, string, text.length) == 0;
}

bool text_is_digits(struct text text)
{
    for (size_t i = 0; i < text.length; i++)
        if (text.bytes[i] < '0' || text.bytes[i] > '9')
            return false;
    return text.length > 0;
}

uint64_t text_number(struct text digits, uint32_t most)
{
    uint64_t number = 0;
    for (size_t i = 0; i < digits.length; i++) {
        number = 10 * number + (uint64_t)(digits.bytes[i] - '0');
        if (number > most)
            return (uint64_t)most + 1;
    }
    return number;
}
