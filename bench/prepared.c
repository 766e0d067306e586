/*
 * Speed of a prepared question: it is prepared once and judged at 500 order
 * prices; the same prices stand in 500 whole questions, judged as a batch. Of
 * each the best round counts. Both give the same answers.
 */
#define _POSIX_C_SOURCE 199309L
#include "prepared.h"

#include <stdio.h>
#include <stdlib.h>
#include <string.h>

#include "clock.h"
#include "hendovita.h"
#include "mixes.h"

enum { TICKETS = 200, PRICES = 500, ROUNDS = 15 };

static uint8_t tickets[TICKETS][HENDOVITA_QUESTION_BYTES];
static uint32_t prices[TICKETS][PRICES];
static uint8_t questions[TICKETS][PRICES][HENDOVITA_QUESTION_BYTES];
static struct hendovita_prepared prepared[TICKETS];
static struct hendovita_answer answers[TICKETS][PRICES];
static uint8_t answer_bytes[TICKETS][PRICES * 12];

static void draw_tickets(struct price_mix mix)
{
    struct draw draw;
    draw_begin(&draw, 5);
    for (int t = 0; t < TICKETS; t++) {
        do
            mix.question(&draw, tickets[t]);
        while (hendovita_prepare(tickets[t], sizeof *tickets).number != 0);
        for (int p = 0; p < PRICES; p++) {
            prices[t][p] = mix.price(&draw, tickets[t]);
            memcpy(questions[t][p], tickets[t], sizeof *tickets);
            hendovita_put_number(questions[t][p] + 4, prices[t][p]);
        }
    }
}

static double first_parts(void)
{
    double begin = now();
    for (int t = 0; t < TICKETS; t++)
        prepared[t] = hendovita_prepare(tickets[t], sizeof *tickets);
    return now() - begin;
}

static double second_parts(void)
{
    double begin = now();
    for (int t = 0; t < TICKETS; t++) {
        struct hendovita_prepared with = prepared[t];
        for (int p = 0; p < PRICES; p++)
            answers[t][p] = hendovita_judge_prepared(
                with.lowest, with.highest, with.nine_fold, prices[t][p]);
    }
    return now() - begin;
}

static double whole_questions(void)
{
    size_t judged = 0;
    double begin = now();
    for (int t = 0; t < TICKETS; t++)
        judged += hendovita_judge_batch(questions[t][0], sizeof questions[t],
                                        answer_bytes[t], PRICES * 12).count;
    double seconds = now() - begin;
    if (judged != (size_t)TICKETS * PRICES) {
        printf("a batch was refused\n");
        exit(1);
    }
    return seconds;
}

/* Both must give the same answers, or their times mean nothing. */
static void compare(void)
{
    first_parts();
    second_parts();
    whole_questions();
    for (int t = 0; t < TICKETS; t++)
        for (int p = 0; p < PRICES; p++) {
            struct hendovita_answer whole =
                hendovita_get_answer(answer_bytes[t] + 12 * p);
            if (memcmp(&whole, &answers[t][p], sizeof whole) != 0) {
                printf("the two parts and the whole differ\n");
                exit(1);
            }
        }
}

static double best_of(double (*time)(void), double best)
{
    double seconds = time();
    return seconds < best ? seconds : best;
}

void time_prepared(struct price_mix mix)
{
    double first = 1e9, second = 1e9, whole = 1e9;
    draw_tickets(mix);
    compare();
    for (int round = 0; round < ROUNDS; round++) {
        first = best_of(first_parts, first);
        second = best_of(second_parts, second);
        whole = best_of(whole_questions, whole);
    }
    printf("%11s %6.0f %6.1f %6.1f   %5.2f    %5.2f\n", mix.name,
           first / TICKETS * 1e9, second / TICKETS / PRICES * 1e9,
           whole / TICKETS / PRICES * 1e9, second / whole,
           (first + second) / whole);
}
