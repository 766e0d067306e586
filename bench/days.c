/*
 * Speed of the day book: the library's against a plain C one (quick_day.c), on
 * the same events, turn by turn in one run. Of each the best round counts.
 */
#define _POSIX_C_SOURCE 199309L
#include "days.h"

#include <stdio.h>
#include <stdlib.h>
#include <string.h>

#include "clock.h"
#include "hendovita.h"
#include "quick.h"
#include "quick_day.h"

enum { EVENTS = 100000, ROUNDS = 15, CLOSE = 20000, SECURITY_CODE = 700 };

/* The two days are compared as bytes. */
_Static_assert(sizeof(struct quick_day) == sizeof(struct hendovita_day),
               "a day of the one is a day of the other");

static struct plain_event events[EVENTS];
static struct plain_asked orders[EVENTS];

/* Of the library and of plain C: the number of each event; the day after each
 * event; the answer to the order that comes then. */
static uint32_t numbers[2][EVENTS];
static struct hendovita_day days[EVENTS];
static struct quick_day quick_days[EVENTS];
static uint8_t answers[2][EVENTS * 12];

static void draw_day(struct day_mix mix)
{
    struct plain_kept kept = {.previous_close = CLOSE};
    struct draw draw;
    draw_begin(&draw, 5);
    for (size_t k = 0; k < EVENTS; k++) {
        events[k] = mix.event(&draw, &kept);
        plain_enter_any(&kept, events[k]);
        orders[k] = mix.order(&draw, &kept);
    }
}

/* ---- rounds: seconds for all events, for all questions --------------- */

static double events_library(void)
{
    double begin = now();
    struct hendovita_entered after = hendovita_open_day(CLOSE);
    for (size_t k = 0; k < EVENTS; k++) {
        after = hendovita_enter_event(after.day, events[k].kind,
                                      events[k].price);
        numbers[0][k] = after.number;
    }
    return now() - begin;
}

static double events_quick(void)
{
    double begin = now();
    struct quick_entered after = quick_open_day(CLOSE);
    for (size_t k = 0; k < EVENTS; k++) {
        after = quick_enter_event(after.day, events[k].kind, events[k].price);
        numbers[1][k] = after.number;
    }
    return now() - begin;
}

/* Ends the run where a question was refused: its time means nothing. */
static void all_judged(size_t judged)
{
    if (judged != EVENTS) {
        printf("a question was refused\n");
        exit(1);
    }
}

static double fills_library(void)
{
    size_t judged = 0;
    double begin = now();
    for (size_t k = 0; k < EVENTS; k++) {
        struct plain_asked order = orders[k];
        uint8_t question[HENDOVITA_QUESTION_BYTES];
        if (hendovita_fill_question(days[k], order.side, order.type,
                                    order.price, order.nominal, SECURITY_CODE,
                                    question, sizeof question) == 0)
            judged += hendovita_judge_batch(question, sizeof question,
                                            answers[0] + 12 * k, 12).count;
    }
    double seconds = now() - begin;
    all_judged(judged);
    return seconds;
}

static double fills_quick(void)
{
    size_t judged = 0;
    double begin = now();
    for (size_t k = 0; k < EVENTS; k++) {
        struct plain_asked order = orders[k];
        uint8_t question[HENDOVITA_QUESTION_BYTES];
        if (quick_fill_question(quick_days[k], order.side, order.type,
                                order.price, order.nominal, SECURITY_CODE,
                                question, sizeof question) == 0)
            judged += quick_judge_batch(question, sizeof question,
                                        answers[1] + 12 * k, 12).count;
    }
    double seconds = now() - begin;
    all_judged(judged);
    return seconds;
}

/* ---- both the same ---------------------------------------------------- */

static void same(const void *library, const void *quick, size_t bytes)
{
    if (memcmp(library, quick, bytes) != 0) {
        printf("the two day books differ\n");
        exit(1);
    }
}

/* Both must keep the same, or their times mean nothing. */
static void compare(void)
{
    struct hendovita_entered after = hendovita_open_day(CLOSE);
    struct quick_entered quick = quick_open_day(CLOSE);
    same(&after, &quick, sizeof after);
    for (size_t k = 0; k < EVENTS; k++) {
        after = hendovita_enter_event(after.day, events[k].kind,
                                      events[k].price);
        quick = quick_enter_event(quick.day, events[k].kind, events[k].price);
        same(&after, &quick, sizeof after);
        days[k] = after.day;
        quick_days[k] = quick.day;
    }
    fills_library();
    fills_quick();
    same(answers[0], answers[1], sizeof answers[0]);
}

/* ---- times ------------------------------------------------------------ */

static void time_both(struct day_mix mix, double (*library)(void),
                      double (*quick)(void))
{
    double ours = 1e9, plain = 1e9;
    draw_day(mix);
    compare();
    for (int round = 0; round < ROUNDS; round++) {
        double seconds = library();
        ours = seconds < ours ? seconds : ours;
        seconds = quick();
        plain = seconds < plain ? seconds : plain;
    }
    printf("%11s %6.1f %5.0f %6.1f %5.0f   %5.2f\n", mix.name,
           EVENTS / ours / 1e6, ours / EVENTS * 1e9, EVENTS / plain / 1e6,
           plain / EVENTS * 1e9, ours / plain);
}

void time_events(struct day_mix mix)
{
    time_both(mix, events_library, events_quick);
}

void time_fills(struct day_mix mix)
{
    time_both(mix, fills_library, fills_quick);
}
