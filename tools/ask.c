/*
 * Questions and answers in words: readable questions into records and back,
 * readable days into the records of their orders, and the lines of pricecheck
 * into sentences.
 */
#include <errno.h>
#include <stdlib.h>
#include <string.h>

#include "feed.h"
#include "fields.h"
#include "text.h"

static const char *const input = "standard input";
static const char *const output = "standard output";

/* Says what failed, and why. Always false. */
static bool failed(const char *name, const char *what)
{
    fprintf(stderr, "%s: %s: %s\n", name, what, strerror(errno));
    return false;
}

/* Whether a file was read to its end. */
static bool ended(FILE *file, const char *name)
{
    return !ferror(file) || failed(name, "cannot be read");
}

/* Ends the output. Whether all of it was written. */
static bool written(void)
{
    return (!ferror(stdout) && fclose(stdout) == 0)
        || failed(output, "cannot be written");
}

static void print_left(FILE *to, unsigned left)
{
    fprintf(to, "%u %s left over: the last question is cut off\n", left,
            left == 1 ? "byte is" : "bytes are");
}

/* ---- write and feed -------------------------------------------------- */

/* The records of the questions so far; the output gets all of them or none. */
struct records {
    uint8_t *bytes;
    size_t length, room;
};

static bool add(struct records *records,
                const uint8_t record[HENDOVITA_QUESTION_BYTES])
{
    if (records->room - records->length < HENDOVITA_QUESTION_BYTES) {
        size_t room = 2 * records->room + 100 * HENDOVITA_QUESTION_BYTES;
        uint8_t *bytes = realloc(records->bytes, room);
        if (bytes == NULL)
            return failed("questions", "cannot be kept");
        records->bytes = bytes;
        records->room = room;
    }
    memcpy(records->bytes + records->length, record, HENDOVITA_QUESTION_BYTES);
    records->length += HENDOVITA_QUESTION_BYTES;
    return true;
}

/* Every line is read, so that each that is wrong gets its message. The lines
 * are those of a day, or questions where that is NULL. */
static bool gather(struct text_lines *lines, struct hendovita_day *day,
                   struct records *records)
{
    uint8_t record[HENDOVITA_QUESTION_BYTES];
    bool good = true;
    while (text_next(lines)) {
        enum fields_found found = day == NULL ? fields_read(lines, record)
                                              : feed_read(lines, day, record);
        if (found == FIELDS_WRONG)
            good = false;
        if (found == FIELDS_QUESTION && !add(records, record))
            return false;
    }
    return ended(lines->file, lines->name) && good;
}

static bool write_records(const char *path, struct hendovita_day *day)
{
    struct text_lines lines = {.file = stdin, .name = input};
    struct records records = {NULL, 0, 0};
    if (path != NULL) {
        lines.name = path;
        lines.file = fopen(path, "r");
        if (lines.file == NULL)
            return failed(path, "cannot be opened");
    }
    bool good = gather(&lines, day, &records);
    if (path != NULL)
        fclose(lines.file);
    if (good && records.length > 0)
        fwrite(records.bytes, 1, records.length, stdout);
    good = good && written();
    free(records.bytes);
    return good;
}

static bool write_questions(const char *path)
{
    return write_records(path, NULL);
}

static bool write_orders(const char *path)
{
    struct hendovita_day day = hendovita_open_day(0).day;
    return write_records(path, &day);
}

/* ---- show ------------------------------------------------------------ */

/* A number as pricecheck prints it: no zero in front. */
static bool read_number(struct text text, uint32_t *number)
{
    if (!text_is_digits(text) || (text.length > 1 && text.bytes[0] == '0')
        || text_number(text, UINT32_MAX) > UINT32_MAX)
        return false;
    *number = (uint32_t)text_number(text, UINT32_MAX);
    return true;
}

/* A line on a question: which one it is, from 1, and what it is answered. */
struct judged {
    uint32_t question;
    struct hendovita_answer answer;
    uint32_t security_code;
};

/* Five numbers, a blank between each two. */
static bool read_judged(struct text line, struct judged *judged)
{
    struct text part[5];
    for (int i = 0; i < 5; i++)
        if (text_split(line, ' ', &part[i], &line) != (i < 4))
            return false;
    return read_number(part[0], &judged->question)
        && read_number(part[1], &judged->answer.number)
        && read_number(part[2], &judged->answer.lowest)
        && read_number(part[3], &judged->answer.highest)
        && read_number(part[4], &judged->security_code);
}

static bool has_range(uint32_t number)
{
    return number == HENDOVITA_ACCEPTED
        || (number >= HENDOVITA_OUTSIDE_LADDER
            && number <= HENDOVITA_NINE_FOLD);
}

static bool is_known(uint32_t number)
{
    return number <= HENDOVITA_NINE_FOLD
        || number == HENDOVITA_BAD_SECURITY_CODE;
}

/* Whether a number may go with a security code. Number 2 may go with any, since
 * its check comes before that of the code. */
static bool fits_code(uint32_t number, uint32_t security_code)
{
    bool bad = security_code < 1
        || security_code > HENDOVITA_LAST_SECURITY_CODE;
    return number == HENDOVITA_UNKNOWN_CODE
        || (number == HENDOVITA_BAD_SECURITY_CODE) == bad;
}

/* Whether a range may go with a number. */
static bool fits_range(struct hendovita_answer answer)
{
    if (answer.lowest == 0 || !has_range(answer.number))
        return answer.lowest == 0 && answer.highest == 0;
    return answer.lowest <= answer.highest;
}

/* Whether a line is one that there is. */
static bool is_possible(struct judged judged)
{
    return judged.question > 0 && is_known(judged.answer.number)
        && fits_code(judged.answer.number, judged.security_code)
        && fits_range(judged.answer);
}

static void print_judged(struct judged judged)
{
    struct hendovita_answer answer = judged.answer;
    printf("%u  security %u  %s (%u)", (unsigned)judged.question,
           (unsigned)judged.security_code, hendovita_text(answer.number),
           (unsigned)answer.number);
    if (answer.lowest != 0) {
        printf(": ");
        fields_print_price(answer.lowest);
        printf(" to ");
        fields_print_price(answer.highest);
    } else if (has_range(answer.number)) {
        printf(": no price is permitted");
    }
    printf("\n");
}

/* Whether a line is 'left' and a number of bytes that is no question. */
static bool read_left(struct text line, uint32_t *left)
{
    struct text word, number;
    return text_split(line, ' ', &word, &number) && text_is(word, "left")
        && read_number(number, left) && *left > 0
        && *left < HENDOVITA_QUESTION_BYTES;
}

/* Whether a line is the one that is printed where the arguments of pricecheck
 * name no table: its number alone. */
static bool is_unknown_table(struct text line)
{
    uint32_t number;
    return read_number(line, &number) && number == HENDOVITA_UNKNOWN_TABLE;
}

static bool show_line(const struct text_lines *lines)
{
    struct judged judged;
    uint32_t left;
    if (!text_fits(lines))
        return false;
    struct text line = text_line(lines);
    if (is_unknown_table(line))
        printf("%s (14)\n", hendovita_text(HENDOVITA_UNKNOWN_TABLE));
    else if (read_judged(line, &judged) && is_possible(judged))
        print_judged(judged);
    else if (read_left(line, &left))
        print_left(stdout, left);
    else
        return text_wrong(lines, "", line, " is no line of pricecheck");
    return true;
}

static bool show_answers(void)
{
    struct text_lines lines = {.file = stdin, .name = input};
    bool good = true;
    while (!ferror(stdout) && text_next(&lines))
        good = show_line(&lines) && good;
    good = ended(stdin, input) && good;
    return written() && good;
}

/* ---- read ------------------------------------------------------------ */

static bool read_records(void)
{
    uint8_t record[HENDOVITA_QUESTION_BYTES];
    size_t length;
    do {
        length = fread(record, 1, sizeof record, stdin);
        if (length == sizeof record)
            fields_print(record);
    } while (length == sizeof record && !ferror(stdout));

    bool good = ended(stdin, input);
    good = written() && good;
    if (good && length > 0) {
        fprintf(stderr, "%s: ", input);
        print_left(stderr, (unsigned)length);
        good = false;
    }
    return good;
}

int main(int argc, char **argv)
{
    const char *command = argc > 1 ? argv[1] : "";
    bool good;
    setvbuf(stderr, NULL, _IOLBF, BUFSIZ); /* a message in one piece */
    if (strcmp(command, "write") == 0 && argc <= 3) {
        good = write_questions(argc == 3 ? argv[2] : NULL);
    } else if (strcmp(command, "feed") == 0 && argc <= 3) {
        good = write_orders(argc == 3 ? argv[2] : NULL);
    } else if (strcmp(command, "show") == 0 && argc == 2) {
        good = show_answers();
    } else if (strcmp(command, "read") == 0 && argc == 2) {
        good = read_records();
    } else {
        fputs("usage:\n"
              "  ask write [FILE]  readable questions into 44-byte records\n"
              "  ask feed [FILE]   a day, line by line, into the records of "
              "its orders\n"
              "  ask show          lines of pricecheck into words\n"
              "  ask read          44-byte records into readable questions\n",
              stderr);
        return 2;
    }
    return good ? 0 : 1;
}
