/*
 * Speed: the library's batch against a plain C judge written for speed, on the
 * same questions, turn by turn in one run, of each the best round; and the day
 * book and the programs likewise. Batches that name a table are timed beside
 * those that name none, and a prepared question beside whole questions.
 */
#define _POSIX_C_SOURCE 199309L
#include <stdio.h>
#include <stdlib.h>
#include <string.h>

#include "clock.h"
#include "days.h"
#include "hendovita.h"
#include "mixes.h"
#include "plain.h"
#include "prepared.h"
#include "programs.h"
#include "quick.h"

enum { QUESTIONS = 100000, ROUNDS = 15, MOST = 1000 };

/* Both read the same bytes. */
_Static_assert((int)QUICK_QUESTION_BYTES == HENDOVITA_QUESTION_BYTES,
               "a question to the one is a question to the other");

static uint8_t questions[QUESTIONS][HENDOVITA_QUESTION_BYTES];
static uint8_t answers[2][QUESTIONS * 12];

/* Ends the run where a batch was refused: its time means nothing. */
static void all_judged(size_t judged)
{
    if (judged != QUESTIONS) {
        printf("a batch was refused\n");
        exit(1);
    }
}

/* Seconds for all questions in batches of n, by the library. */
static double time_library(size_t n)
{
    size_t judged = 0;
    double begin = now();
    for (size_t k = 0; k < QUESTIONS; k += n)
        judged += hendovita_judge_batch(questions[k], n * sizeof *questions,
                                        answers[0] + 12 * k, 12 * n).count;
    double seconds = now() - begin;
    all_judged(judged);
    return seconds;
}

/* The same by the plain C judge. */
static double time_quick(size_t n)
{
    size_t judged = 0;
    double begin = now();
    for (size_t k = 0; k < QUESTIONS; k += n)
        judged += quick_judge_batch(questions[k], n * sizeof *questions,
                                    answers[1] + 12 * k, 12 * n).count;
    double seconds = now() - begin;
    all_judged(judged);
    return seconds;
}

struct best {
    double library, quick;
};

static struct best best_of(size_t n)
{
    struct best best = {1e9, 1e9};
    for (int round = 0; round < ROUNDS; round++) {
        double library = time_library(n), quick = time_quick(n);
        if (library < best.library)
            best.library = library;
        if (quick < best.quick)
            best.quick = quick;
    }
    return best;
}

/* Both must give the same answers, or their times mean nothing. */
static void compare(void)
{
    time_library(1000);
    time_quick(1000);
    if (memcmp(answers[0], answers[1], sizeof answers[0]) != 0) {
        printf("the two judges differ\n");
        exit(1);
    }
}

static void run(const char *name,
                void (*mix)(struct draw *, uint8_t *question))
{
    static const size_t sizes[] = {1, 10, 100, 1000};
    struct draw draw;
    draw_begin(&draw, 5);
    for (size_t k = 0; k < QUESTIONS; k++)
        mix(&draw, questions[k]);
    compare();
    printf("%s: million questions a second, ns a question\n"
           "  questions     library      plain C   ratio\n"
           "    a batch    M/s    ns    M/s    ns\n", name);
    for (size_t i = 0; i < sizeof sizes / sizeof *sizes; i++) {
        struct best best = best_of(sizes[i]);
        printf("%11zu %6.1f %5.0f %6.1f %5.0f   %5.2f\n", sizes[i],
               QUESTIONS / best.library / 1e6, best.library / QUESTIONS * 1e9,
               QUESTIONS / best.quick / 1e6, best.quick / QUESTIONS * 1e9,
               best.library / best.quick);
    }
}

/* Seconds for all questions in batches of the most that one may have, on the
 * table that a number names; with 0 by the call that names none. */
static double time_table(uint32_t table)
{
    size_t judged = 0;
    double begin = now();
    for (size_t k = 0; k < QUESTIONS; k += MOST) {
        const uint8_t *asked = questions[k];
        size_t bytes = MOST * sizeof *questions;
        uint8_t *room = answers[0] + 12 * k;
        judged += table == 0
            ? hendovita_judge_batch(asked, bytes, room, 12 * MOST).count
            : hendovita_judge_batch_on(table, asked, bytes, room,
                                       12 * MOST).count;
    }
    double seconds = now() - begin;
    all_judged(judged);
    return seconds;
}

/* The best time for a mix that is drawn on that table, ns a question. */
static double best_on(uint32_t table,
                      void (*mix)(struct draw *, uint8_t *question))
{
    double best = 1e9;
    struct draw draw;
    draw_begin(&draw, 5);
    plain_use(table == 0 ? PLAIN_PHASE_1 : table);
    for (size_t k = 0; k < QUESTIONS; k++)
        mix(&draw, questions[k]);
    plain_use(PLAIN_PHASE_1);
    for (int round = 0; round < ROUNDS; round++) {
        double seconds = time_table(table);
        best = seconds < best ? seconds : best;
    }
    return best / QUESTIONS * 1e9;
}

static void run_tables(void)
{
    printf("batches of 1,000 on each table, ns a question\n"
           "      table  usual random\n");
    for (uint32_t table = 0; table <= PLAIN_TABLES; table++) {
        double usual = best_on(table, mix_usual);
        double random = best_on(table, mix_random);
        if (table == 0)
            printf("       none");
        else
            printf("%11u", (unsigned)table);
        printf(" %6.0f %6.0f\n", usual, random);
    }
}

static void run_days(void)
{
    static const char head[] = "                library      plain C   ratio\n"
                               "               M/s    ns    M/s    ns\n";
    const struct day_mix usual = {"usual", mix_usual_event, mix_usual_order};
    const struct day_mix any = {"random", mix_random_event, mix_random_order};
    printf("events of a day, one after another\n%s", head);
    time_events(usual);
    time_events(any);
    printf("a question filled from a day and judged\n%s", head);
    time_fills(usual);
    time_fills(any);
}

static void run_prepared(void)
{
    printf("a question prepared once and judged at 500 order prices, against "
           "500 questions, ns\n"
           "              first second  whole  second     both\n"
           "               part   part         to whole to whole\n");
    time_prepared((struct price_mix){"usual", mix_usual, mix_usual_price});
    time_prepared((struct price_mix){"random", mix_random, mix_random_price});
}

int main(void)
{
    plain_begin();
    run("usual orders over 0.50 to 50", mix_usual);
    run("random over the whole ladder, a fifth damaged", mix_random);
    run_tables();
    run_prepared();
    run_days();
    printf("pricecheck, from a file of questions to lines, and dayreport on "
           "that file\n"
           "                program      plain C   ratio   to pricecheck\n"
           "               M/s    ns    M/s    ns\n");
    time_programs("usual", mix_usual);
    time_programs("random", mix_random);
    return 0;
}
