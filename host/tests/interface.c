/*
 * The header by itself: constants, texts, questions and answers as bytes, what
 * a prepared question has.
 */
#include <string.h>

#include "report.h"
#include "tests.h"

/* Each number of the answer list: its constant and its text. */
static const struct {
    uint32_t number, constant;
    const char *text;
} numbers[] = {
    {0, HENDOVITA_ACCEPTED, "accepted"},
    {1, HENDOVITA_BAD_LENGTH,
     "question bytes or answer buffer of a wrong length"},
    {2, HENDOVITA_UNKNOWN_CODE,
     "side, order type or queue code unknown, or byte 3 not zero"},
    {3, HENDOVITA_REFERENCE_OFF_LADDER,
     "bid, ask or day price off the ladder, or close or nominal "
     "outside its ends"},
    {4, HENDOVITA_REFERENCES_DISAGREE,
     "references disagree with the queue code or with each other"},
    {5, HENDOVITA_NO_OPPOSITE_QUEUE,
     "special limit order with no opposite queue"},
    {6, HENDOVITA_OUTSIDE_LADDER, "price under 0.010 or over 9,995.000"},
    {7, HENDOVITA_BETWEEN_PRICES, "price between two ladder prices"},
    {8, HENDOVITA_BELOW_LOWEST, "price below the permitted lowest"},
    {9, HENDOVITA_ABOVE_HIGHEST, "price above the permitted highest"},
    {10, HENDOVITA_NINE_FOLD,
     "price nine times its reference or more, or a ninth or less"},
    {11, HENDOVITA_UNKNOWN_EVENT,
     "event kind unknown, or a price with an emptied queue"},
    {12, HENDOVITA_OFF_LADDER,
     "price of an event off the ladder, or close outside its ends"},
    {13, HENDOVITA_QUOTES_CROSS,
     "bid not below current ask, or ask not above current bid"},
    {14, HENDOVITA_UNKNOWN_TABLE, "table number not 1 to 3"},
    {15, HENDOVITA_BAD_SECURITY_CODE, "security code not 1 to 99999"},
    {16, 16, "no answer number"},
    {UINT32_MAX, UINT32_MAX, "no answer number"},
};

static void test_numbers(void)
{
    report_begin("each answer number has its constant and its text");
    for (size_t i = 0; i < sizeof numbers / sizeof *numbers; i++) {
        const char *text = hendovita_text(numbers[i].number);
        report_same("constant", numbers[i].constant, numbers[i].number);
        if (strcmp(text, numbers[i].text) != 0)
            report_say("  %u: %s", numbers[i].number, text);
    }
}

static void test_codes(void)
{
    report_begin("codes, tables, kinds of events, sizes are as in the paper");
    report_same("buy", HENDOVITA_BUY, 1);
    report_same("sell", HENDOVITA_SELL, 2);
    report_same("limit", HENDOVITA_LIMIT, 1);
    report_same("enhanced limit", HENDOVITA_ENHANCED_LIMIT, 2);
    report_same("special limit", HENDOVITA_SPECIAL_LIMIT, 3);
    report_same("opening", HENDOVITA_OPENING, 1);
    report_same("both queues", HENDOVITA_BOTH_QUEUES, 2);
    report_same("buy queue only", HENDOVITA_BUY_QUEUE_ONLY, 3);
    report_same("sell queue only", HENDOVITA_SELL_QUEUE_ONLY, 4);
    report_same("neither queue", HENDOVITA_NEITHER_QUEUE, 5);
    report_same("before Phase 1", HENDOVITA_BEFORE_PHASE_1, 1);
    report_same("Phase 1", HENDOVITA_PHASE_1, 2);
    report_same("Phase 2", HENDOVITA_PHASE_2, 3);
    report_same("best bid", HENDOVITA_BEST_BID, 1);
    report_same("best ask", HENDOVITA_BEST_ASK, 2);
    report_same("buy queue empty", HENDOVITA_BUY_QUEUE_EMPTY, 3);
    report_same("sell queue empty", HENDOVITA_SELL_QUEUE_EMPTY, 4);
    report_same("System trade", HENDOVITA_SYSTEM_TRADE, 5);
    report_same("question bytes", HENDOVITA_QUESTION_BYTES, 44);
    report_same("answer bytes", HENDOVITA_ANSWER_BYTES, 12);
    report_same("most questions", HENDOVITA_MOST_QUESTIONS, 1000);
    report_same("last security code", HENDOVITA_LAST_SECURITY_CODE, 99999);
}

static void test_question_bytes(void)
{
    static const uint8_t due[PLAIN_QUESTION_BYTES] = {
        1, 2, 3, 0,
        4, 3, 2, 1, 8, 7, 6, 5, 12, 11, 10, 9, 16, 15, 14, 13, 20, 19, 18, 17,
        24, 23, 22, 21, 28, 27, 26, 25, 32, 31, 30, 29, 36, 35, 34, 33,
        40, 39, 38, 37,
    };
    const struct hendovita_question question = {
        1, 2, 3, 0x01020304, 0x05060708, 0x090a0b0c, 0x0d0e0f10, 0x11121314,
        0x15161718, 0x191a1b1c, 0x1d1e1f20, 0x21222324, 0x25262728,
    };
    uint8_t bytes[PLAIN_QUESTION_BYTES];
    report_begin("a question by name is these 44 bytes");
    hendovita_put_question(bytes, &question);
    for (uint32_t i = 0; i < sizeof bytes; i++)
        report_same("byte", bytes[i], due[i]);
}

static void test_answer_bytes(void)
{
    static const uint8_t bytes[12] = {4, 3, 2, 1, 8, 7, 6, 5, 255, 0, 0, 255};
    struct hendovita_answer answer = hendovita_get_answer(bytes);
    report_begin("the numbers of an answer's 12 bytes");
    report_same("number", answer.number, 0x01020304);
    report_same("lowest", answer.lowest, 0x05060708);
    report_same("highest", answer.highest, 0xff0000ff);
}

static void test_prepared_numbers(void)
{
    const struct hendovita_prepared prepared = {
        .number = 1, .lowest = 2, .highest = 3, .nine_fold = 4,
    };
    uint32_t numbers[4];
    report_begin("a prepared question is four numbers, in this order");
    report_same("bytes", sizeof prepared, sizeof numbers);
    memcpy(numbers, &prepared, sizeof numbers);
    for (uint32_t i = 0; i < 4; i++)
        report_same("number", numbers[i], i + 1);
}

void test_interface(void)
{
    test_numbers();
    test_codes();
    test_question_bytes();
    test_answer_bytes();
    test_prepared_numbers();
}
