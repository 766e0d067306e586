/*
 * The tests of a run: a line for each, and what differed where one fails.
 */
#include "report.h"

#include <inttypes.h>
#include <stdarg.h>
#include <stdbool.h>
#include <stdio.h>
#include <string.h>

enum { PRINTED = 5 }; /* faults of a test that are printed */

static char running[REPORT_NAME]; /* the name; empty between two tests */
static uint64_t faults;
static unsigned passed, failed;

static void end(void)
{
    if (running[0] == '\0')
        return;
    if (faults == 0) {
        printf("ok\n");
        passed++;
    } else {
        printf("FAILED %s: %" PRIu64 " faults\n", running, faults);
        failed++;
    }
    running[0] = '\0';
}

void report_begin(const char *name)
{
    end();
    snprintf(running, sizeof running, "%s", name);
    faults = 0;
    printf("%s ... ", name);
    fflush(stdout);
}

/* Counts a fault. The first few of a test are worth printing. */
static bool is_printed(void)
{
    faults++;
    if (faults == 1)
        printf("\n");
    return faults <= PRINTED;
}

void report_say(const char *format, ...)
{
    if (!is_printed())
        return;
    va_list arguments;
    va_start(arguments, format);
    vprintf(format, arguments);
    va_end(arguments);
    printf("\n");
    fflush(stdout);
}

void report_same(const char *what, uint64_t found, uint64_t due)
{
    if (found != due)
        report_say("  %s: found %" PRIu64 ", due %" PRIu64, what, found, due);
}

static bool same(struct hendovita_answer found, struct plain_answer due)
{
    return found.number == due.number && found.lowest == due.lowest
        && found.highest == due.highest;
}

static void print_answers(struct hendovita_answer found,
                          struct plain_answer due)
{
    printf("  found %" PRIu32 " %" PRIu32 " %" PRIu32 "\n",
           found.number, found.lowest, found.highest);
    printf("  due   %" PRIu32 " %" PRIu32 " %" PRIu32 "\n",
           due.number, due.lowest, due.highest);
    fflush(stdout);
}

static void print_question(const char *how,
                           const uint8_t question[PLAIN_QUESTION_BYTES])
{
    static const char *const names[10] = {
        "price", "current bid", "current ask", "last bid", "last ask",
        "previous close", "day low", "day high", "nominal", "security code",
    };
    printf("  %s: side %u, order type %u, queue %u, byte 3 %u", how,
           question[0], question[1], question[2], question[3]);
    for (int i = 0; i < 10; i++)
        printf(", %s %" PRIu32, names[i],
               hendovita_get_number(question + 4 + 4 * i));
    printf("\n");
}

void report_question(const char *how,
                     const uint8_t question[PLAIN_QUESTION_BYTES],
                     struct hendovita_answer found, struct plain_answer due)
{
    if (same(found, due) || !is_printed())
        return;
    print_question(how, question);
    print_answers(found, due);
}

void report_trade(const uint32_t fields[6], struct hendovita_answer found,
                  struct plain_answer due)
{
    static const char *const names[6] = {
        "price", "previous close", "lowest bid", "lowest ask", "highest bid",
        "highest ask",
    };
    if (same(found, due) || !is_printed())
        return;
    printf("  trade");
    for (int i = 0; i < 6; i++)
        printf(", %s %" PRIu32, names[i], fields[i]);
    printf("\n");
    print_answers(found, due);
}

void report_prepared(const char *how,
                     const uint8_t question[PLAIN_QUESTION_BYTES],
                     struct hendovita_prepared found,
                     struct plain_prepared due)
{
    if (found.number == due.number && found.lowest == due.lowest
        && found.highest == due.highest && found.nine_fold == due.nine_fold)
        return;
    if (!is_printed())
        return;
    print_question(how, question);
    printf("  found %" PRIu32 " %" PRIu32 " %" PRIu32 " %" PRIu32 "\n",
           found.number, found.lowest, found.highest, found.nine_fold);
    printf("  due   %" PRIu32 " %" PRIu32 " %" PRIu32 " %" PRIu32 "\n",
           due.number, due.lowest, due.highest, due.nine_fold);
    fflush(stdout);
}

void report_judged(const uint32_t numbers[4], struct hendovita_answer found,
                   struct plain_answer due)
{
    if (same(found, due) || !is_printed())
        return;
    printf("  lowest %" PRIu32 ", highest %" PRIu32 ", nine-fold %" PRIu32
           ", price %" PRIu32 "\n", numbers[0], numbers[1], numbers[2],
           numbers[3]);
    print_answers(found, due);
}

enum { KEPT = 11 };

static void numbers_found(const struct hendovita_day *day, uint32_t to[KEPT])
{
    to[0] = day->previous_close;
    to[1] = day->current_bid;
    to[2] = day->current_ask;
    to[3] = day->last_bid;
    to[4] = day->last_ask;
    to[5] = day->lowest_bid;
    to[6] = day->highest_bid;
    to[7] = day->lowest_ask;
    to[8] = day->highest_ask;
    to[9] = day->day_low;
    to[10] = day->day_high;
}

static void numbers_due(const struct plain_kept *kept, uint32_t to[KEPT])
{
    to[0] = kept->previous_close;
    to[1] = kept->current_bid;
    to[2] = kept->current_ask;
    to[3] = kept->last_bid;
    to[4] = kept->last_ask;
    to[5] = kept->lowest_bid;
    to[6] = kept->highest_bid;
    to[7] = kept->lowest_ask;
    to[8] = kept->highest_ask;
    to[9] = kept->day_low;
    to[10] = kept->day_high;
}

static void print_kept(const uint32_t found[KEPT], const uint32_t due[KEPT])
{
    static const char *const names[KEPT] = {
        "previous close", "current bid", "current ask", "last bid",
        "last ask", "lowest bid", "highest bid", "lowest ask", "highest ask",
        "day low", "day high",
    };
    for (int i = 0; i < KEPT; i++)
        if (found[i] != due[i])
            printf("  %s: found %" PRIu32 ", due %" PRIu32 "\n", names[i],
                   found[i], due[i]);
}

void report_entered(const char *how, struct plain_event event,
                    struct hendovita_entered found, uint32_t number,
                    const struct plain_kept *due)
{
    uint32_t kept[2][KEPT];
    numbers_found(&found.day, kept[0]);
    numbers_due(due, kept[1]);
    if (found.number == number && memcmp(kept[0], kept[1], sizeof *kept) == 0)
        return;
    if (!is_printed())
        return;
    printf("  %s: kind %" PRIu32 ", price %" PRIu32 ": found %" PRIu32
           ", due %" PRIu32 "\n", how, event.kind, event.price, found.number,
           number);
    print_kept(kept[0], kept[1]);
    fflush(stdout);
}

void report_filled(const char *how, const uint8_t found[PLAIN_QUESTION_BYTES],
                   const uint8_t due[PLAIN_QUESTION_BYTES])
{
    if (memcmp(found, due, PLAIN_QUESTION_BYTES) == 0 || !is_printed())
        return;
    for (int i = 0; i < PLAIN_QUESTION_BYTES; i++)
        if (found[i] != due[i])
            printf("  %s: byte %d is %u, due %u\n", how, i, found[i], due[i]);
    fflush(stdout);
}

int report_finish(void)
{
    end();
    printf("%u passed, %u failed\n", passed, failed);
    return failed == 0 ? 0 : 1;
}
