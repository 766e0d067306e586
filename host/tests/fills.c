/*
 * The bytes of a question that is filled from a day: which lengths are taken,
 * and that no byte is read or written beside those that are handed over.
 */
#include <stdbool.h>
#include <string.h>

#include "guarded.h"
#include "report.h"
#include "tests.h"

enum { MOST = 300, AROUND = 64, KEPT = 0xa5 };

/* A day and an order of which each byte is another. */
static const struct hendovita_day day = {
    .previous_close = 0x15161718,
    .current_bid = 0x05060708, .current_ask = 0x090a0b0c,
    .last_bid = 0x0d0e0f10, .last_ask = 0x11121314,
    .lowest_bid = 0x31323334, .highest_bid = 0x35363738,
    .lowest_ask = 0x393a3b3c, .highest_ask = 0x3d3e3f40,
    .day_low = 0x191a1b1c, .day_high = 0x1d1e1f20,
};

static const uint8_t filled[PLAIN_QUESTION_BYTES] = {
    1, 3, 2, 0,
    4, 3, 2, 1, 8, 7, 6, 5, 12, 11, 10, 9, 16, 15, 14, 13, 20, 19, 18, 17,
    24, 23, 22, 21, 28, 27, 26, 25, 32, 31, 30, 29, 36, 35, 34, 33,
    40, 39, 38, 37,
};

static uint32_t fill(uint8_t *question, size_t len)
{
    return hendovita_fill_question(day, 1, 3, 0x01020304, 0x21222324,
                                   0x25262728, question, len);
}

/* Fills the first len bytes: 44 are written, of any other number none. */
static void fill_there(uint8_t *question, size_t len)
{
    bool whole = len == PLAIN_QUESTION_BYTES;
    memset(question, KEPT, len);
    report_same("number", fill(question, len), whole ? 0 : 1);
    for (size_t i = 0; i < len; i++)
        if (question[i] != (whole ? filled[i] : KEPT))
            report_say("  of %zu bytes, byte %zu is %u", len, i, question[i]);
}

static void test_lengths(void)
{
    uint8_t bytes[AROUND + MOST + AROUND];
    report_begin("a question of 0 to 300 bytes is filled where it has 44");
    for (size_t len = 0; len <= MOST; len++) {
        memset(bytes, KEPT, sizeof bytes);
        fill_there(bytes + AROUND, len);
        for (size_t i = 0; i < sizeof bytes; i++)
            if ((i < AROUND || i >= AROUND + len) && bytes[i] != KEPT)
                report_say("  of %zu bytes, %zu of those around is %u", len,
                           i, bytes[i]);
    }
}

static void test_guard_pages(uint8_t *bytes)
{
    report_begin("a question that ends, or begins, at a guard page is filled");
    for (size_t len = 0; len <= MOST; len++) {
        fill_there(bytes + GUARDED_BYTES - len, len);
        fill_there(bytes, len);
    }
    report_same("number of no question", fill(NULL, 0), 1);
}

static void test_alignment(uint8_t *bytes)
{
    report_begin("a question at every alignment is filled");
    for (size_t i = 0; i < 64; i++) {
        fill_there(bytes + i, 44);
        fill_there(bytes + i, 43);
        fill_there(bytes + i, 45);
        fill_there(bytes + i, 40);
    }
}

void test_fills(void)
{
    uint8_t *bytes = guarded();
    test_lengths();
    test_guard_pages(bytes);
    test_alignment(bytes);
}
