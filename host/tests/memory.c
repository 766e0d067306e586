/*
 * Memory: no byte is read or written beside those that are handed over, at any
 * alignment, and none at all where the length is 0; on each table.
 */
#include <string.h>

#include "draw.h"
#include "guarded.h"
#include "on.h"
#include "report.h"
#include "tests.h"

enum { BYTES = GUARDED_BYTES };

/* Judges n questions that stand there, into a buffer of just their size. */
static void judge(const uint8_t *questions, size_t n, uint8_t *answers)
{
    memset(answers, 0xa5, 12 * n);
    struct hendovita_outcome outcome =
        on_batch(questions, PLAIN_QUESTION_BYTES * n, answers, 12 * n);
    report_same("number", outcome.number, 0);
    report_same("count", outcome.count, n);
    for (size_t k = 0; k < n; k++)
        report_question("in a batch", questions + PLAIN_QUESTION_BYTES * k,
                        hendovita_get_answer(answers + 12 * k),
                        plain_question(questions + PLAIN_QUESTION_BYTES * k));
}

/* The same into a buffer that is one byte short: no byte is changed. */
static void refuse(const uint8_t *questions, size_t n, uint8_t *answers)
{
    memset(answers, 0xa5, 12 * n - 1);
    struct hendovita_outcome outcome =
        on_batch(questions, PLAIN_QUESTION_BYTES * n, answers, 12 * n - 1);
    report_same("number", outcome.number, 1);
    report_same("count", outcome.count, 0);
    for (size_t i = 0; i < 12 * n - 1; i++)
        report_same("byte", answers[i], 0xa5);
}

/* Prepares the 44 bytes that stand there, and refuses fewer of them. */
static void prepare(const uint8_t *begin, const uint8_t *end)
{
    static const struct plain_prepared refused = {1, 0, 0, 0};
    report_prepared("prepared", begin, on_prepare(begin, PLAIN_QUESTION_BYTES),
                    plain_prepare(begin));
    for (size_t len = 0; len < PLAIN_QUESTION_BYTES; len++)
        report_prepared("a part of it", begin, on_prepare(end - len, len),
                        refused);
}

static void test_guard_pages(uint8_t *questions, uint8_t *answers,
                             const uint8_t drawn[1000 * PLAIN_QUESTION_BYTES])
{
    static const size_t sizes[] = {1, 2, 3, 100, 999, 1000};
    on_begin("questions and answers that end, or begin, at a guard page");
    for (size_t i = 0; i < sizeof sizes / sizeof *sizes; i++) {
        size_t n = sizes[i];
        uint8_t *last = questions + BYTES - PLAIN_QUESTION_BYTES * n;
        memcpy(last, drawn, PLAIN_QUESTION_BYTES * n);
        judge(last, n, answers + BYTES - 12 * n);
        refuse(last, n, answers + BYTES - 12 * n + 1);
        memcpy(questions, drawn, PLAIN_QUESTION_BYTES * n);
        judge(questions, n, answers);
        last = questions + BYTES - PLAIN_QUESTION_BYTES;
        report_question("alone", last,
                        on_question(last, PLAIN_QUESTION_BYTES),
                        plain_question(last));
        prepare(questions, questions + BYTES);
        prepare(last, questions + BYTES);
    }
}

static void test_alignment(uint8_t *questions, uint8_t *answers,
                           const uint8_t drawn[1000 * PLAIN_QUESTION_BYTES])
{
    on_begin("questions and answers at every alignment");
    for (size_t i = 0; i < 16; i++) {
        memcpy(questions + i, drawn, PLAIN_QUESTION_BYTES * 50);
        for (size_t k = 0; k < 50; k++) {
            uint8_t *one = questions + i + PLAIN_QUESTION_BYTES * k;
            report_prepared("prepared", one,
                            on_prepare(one, PLAIN_QUESTION_BYTES),
                            plain_prepare(drawn + PLAIN_QUESTION_BYTES * k));
        }
        for (size_t j = 0; j < 16; j++)
            judge(questions + i, 50, answers + j);
    }
}

static void empty(const uint8_t *questions, uint8_t *answers, size_t room)
{
    struct hendovita_outcome outcome =
        on_batch(questions, 0, answers, room);
    report_same("number", outcome.number, 0);
    report_same("count", outcome.count, 0);
}

static void test_no_bytes(uint8_t *questions, uint8_t *answers)
{
    on_begin("an empty batch, with NULL or at a guard page");
    answers[0] = 77;
    empty(NULL, NULL, 0);
    empty(NULL, answers, 1);
    empty(questions + BYTES, answers + BYTES, 0);
    report_same("first byte", answers[0], 77);
    struct hendovita_outcome outcome =
        on_batch(questions, PLAIN_QUESTION_BYTES, NULL, 0);
    report_same("number without a buffer", outcome.number, 1);
    report_same("number of no question",
                on_question(NULL, 0).number, 1);
    report_same("number of no question, prepared",
                on_prepare(NULL, 0).number, 1);
    report_same("number of no question at a guard page, prepared",
                on_prepare(questions + BYTES, 0).number, 1);
}

static uint8_t *questions, *answers;

static void test_each(void)
{
    static uint8_t drawn[1000 * PLAIN_QUESTION_BYTES];
    struct draw draw;
    draw_begin(&draw, 4);
    for (size_t k = 0; k < 1000; k++)
        draw_question(&draw, drawn + PLAIN_QUESTION_BYTES * k);
    test_guard_pages(questions, answers, drawn);
    test_alignment(questions, answers, drawn);
    test_no_bytes(questions, answers);
}

void test_memory(void)
{
    questions = guarded();
    answers = guarded();
    on_each(test_each);
}
