/*
 * Batches on each table: which lengths are judged, and every byte of the answer
 * buffer.
 */
#include <stdbool.h>
#include <string.h>

#include "draw.h"
#include "on.h"
#include "report.h"
#include "tests.h"

enum { DRAWN = 1001, SPARE = 64 };

static uint8_t questions[DRAWN * PLAIN_QUESTION_BYTES + SPARE];
static uint8_t answers[DRAWN * 12 + SPARE];

/* What byte i of the buffer holds before a call. */
static uint8_t pattern(size_t i)
{
    return (uint8_t)(i * 7 + 3);
}

static void set_pattern(uint8_t *buffer, size_t len)
{
    for (size_t i = 0; i < len; i++)
        buffer[i] = pattern(i);
}

/* The first n answers are those due, and every other byte is as it was. */
static void same_buffer(size_t n)
{
    for (size_t k = 0; k < n; k++)
        report_question("in a batch", questions + PLAIN_QUESTION_BYTES * k,
                        hendovita_get_answer(answers + 12 * k),
                        plain_question(questions + PLAIN_QUESTION_BYTES * k));
    for (size_t i = 12 * n; i < sizeof answers; i++)
        if (answers[i] != pattern(i))
            report_say("  byte %zu is %u, due %u", i, answers[i], pattern(i));
}

/* One call: its outcome, and every byte of the buffer and after it. */
static void judge(size_t asked, size_t room)
{
    size_t whole = asked / PLAIN_QUESTION_BYTES;
    bool judged = asked % PLAIN_QUESTION_BYTES == 0 && whole <= 1000
               && room >= whole * 12;
    size_t n = judged ? whole : 0;
    set_pattern(answers, sizeof answers);
    struct hendovita_outcome outcome =
        on_batch(questions, asked, answers, room);
    if (outcome.number != !judged || outcome.count != n)
        report_say("  %zu bytes into %zu: found %u %u, due %u %zu", asked,
                   room, outcome.number, outcome.count, !judged, n);
    same_buffer(n);
}

static void draw_questions(uint64_t seed)
{
    struct draw draw;
    draw_begin(&draw, seed);
    for (size_t k = 0; k < DRAWN; k++)
        draw_question(&draw, questions + PLAIN_QUESTION_BYTES * k);
}

static void test_sizes(void)
{
    static const size_t sizes[] = {0, 1, 2, 3, 25, 998, 999, 1000, 1001};
    on_begin("batches of 0 to 1,001 questions, every byte");
    for (size_t i = 0; i < sizeof sizes / sizeof *sizes; i++) {
        size_t n = sizes[i];
        for (size_t spare = 0; spare <= 13; spare++)
            judge(PLAIN_QUESTION_BYTES * n, 12 * n + spare);
        for (size_t less = 1; less <= 13 && less <= 12 * n; less++)
            judge(PLAIN_QUESTION_BYTES * n, 12 * n - less);
        judge(PLAIN_QUESTION_BYTES * n, 0);
        judge(PLAIN_QUESTION_BYTES * n, sizeof answers);
    }
}

/* Lengths, and how many questions they are; NONE where they are no batch. */
enum { NONE = -1 };

static const struct {
    size_t asked;
    int questions;
} lengths[] = {
    {0, 0}, {1, NONE}, {12, NONE}, {40, NONE}, {43, NONE}, {44, 1},
    {45, NONE}, {80, NONE}, {88, 2}, {120, NONE}, {132, 3}, {400, NONE},
    {440, 10}, {880, 20}, {1000, NONE}, {1100, 25}, {4000, NONE},
    {4400, 100}, {39996, 909}, {40000, NONE}, {40040, 910}, {43956, 999},
    {43960, NONE}, {43999, NONE}, {44000, 1000}, {44001, NONE},
    {44040, NONE}, {44044, NONE},
};

static void test_lengths_by_hand(void)
{
    on_begin("how many questions a length is, by hand");
    for (size_t i = 0; i < sizeof lengths / sizeof *lengths; i++) {
        bool judged = lengths[i].questions != NONE;
        struct hendovita_outcome outcome =
            on_batch(questions, lengths[i].asked, answers, sizeof answers);
        report_same("number", outcome.number, judged ? 0 : 1);
        report_same("count", outcome.count,
                    judged ? (uint64_t)lengths[i].questions : 0);
    }
}

static void test_lengths(void)
{
    on_begin("every length to 1,100 and from 39,900 on, every byte");
    for (size_t asked = 0; asked <= 1100; asked++)
        judge(asked, sizeof answers);
    for (size_t asked = 39900; asked <= sizeof questions; asked++)
        judge(asked, sizeof answers);
}

enum { FEW = 40 };

static void judge_few(uint8_t buffer[12 * FEW])
{
    set_pattern(buffer, 12 * FEW);
    struct hendovita_outcome outcome =
        on_batch(questions, PLAIN_QUESTION_BYTES * FEW, buffer, 12 * FEW);
    report_same("number", outcome.number, 0);
    report_same("count", outcome.count, FEW);
}

/* The batch with one bit of question j changed: answer j alone may differ. */
static void change_bit(size_t j, size_t byte, uint8_t bit)
{
    uint8_t before[12 * FEW], after[12 * FEW];
    judge_few(before);
    questions[PLAIN_QUESTION_BYTES * j + byte] ^= bit;
    judge_few(after);
    for (size_t k = 0; k < FEW; k++)
        if (k != j && memcmp(before + 12 * k, after + 12 * k, 12) != 0)
            report_say("  byte %zu of question %zu changed answer %zu", byte,
                       j, k);
    report_question("changed", questions + PLAIN_QUESTION_BYTES * j,
                    hendovita_get_answer(after + 12 * j),
                    plain_question(questions + PLAIN_QUESTION_BYTES * j));
    questions[PLAIN_QUESTION_BYTES * j + byte] ^= bit;
}

static void test_one_changed(void)
{
    on_begin("one question changed changes that answer alone");
    for (size_t j = 0; j < FEW; j++)
        for (size_t byte = 0; byte < PLAIN_QUESTION_BYTES; byte++)
            for (uint8_t bit = 0; bit < 8; bit++)
                change_bit(j, byte, (uint8_t)(1 << bit));
}

static void test_each(void)
{
    draw_questions(3);
    test_sizes();
    test_lengths_by_hand();
    test_lengths();
    test_one_changed();
}

void test_batches(void)
{
    on_each(test_each);
}
