/*
 * Which answer numbers were seen, and which questions and trades with a
 * reference off the ladder, or at an end of it.
 */
#include "seen.h"

#include <stdbool.h>
#include <string.h>

#include "report.h"

void seen_numbers(const uint32_t counts[SEEN_ANSWERS], const uint32_t *numbers,
                  size_t many, uint32_t least)
{
    for (size_t i = 0; i < many; i++)
        if (counts[numbers[i]] < least)
            report_say("  only %u answered %u", counts[numbers[i]],
                       numbers[i]);
}

/* The answer with another price for one reference. */
typedef struct plain_answer answer_with(const void *asked, uint32_t reference,
                                        uint32_t price);

static struct plain_answer question_with(const void *asked, uint32_t reference,
                                         uint32_t price)
{
    uint8_t question[PLAIN_QUESTION_BYTES];
    memcpy(question, asked, sizeof question);
    hendovita_put_number(question + 8 + 4 * reference, price);
    return plain_question(question);
}

static struct plain_answer trade_with(const void *asked, uint32_t reference,
                                      uint32_t price)
{
    uint32_t f[6];
    memcpy(f, asked, sizeof f);
    f[1 + reference] = price;
    return plain_trade(f[0], f[1], f[2], f[3], f[4], f[5]);
}

static bool differ(struct plain_answer a, struct plain_answer b)
{
    return a.number != b.number || a.lowest != b.lowest
        || a.highest != b.highest;
}

static void count_one(uint32_t count[SEEN_KINDS], const void *asked,
                      uint32_t reference, uint32_t price,
                      struct plain_answer answer, answer_with *with)
{
    uint32_t below = plain_down(price, 1), above = plain_up(price, 1);
    bool outside = price != 0 && below == 0;
    bool between = price != 0 && below != 0 && plain_place(price) < 0;
    if ((outside || between) && answer.number == 3
        && with(asked, reference, 0).number != 3)
        count[between ? SEEN_BETWEEN_REFUSED : SEEN_OUTSIDE_REFUSED]++;
    if (between && answer.number != 3) {
        count[SEEN_BETWEEN] += answer.number == 0;
        count[SEEN_NOT_AS_BELOW] +=
            differ(answer, with(asked, reference, below));
        count[SEEN_NOT_AS_ABOVE] +=
            differ(answer, with(asked, reference, above));
    }
    count[SEEN_AT_END] += (price == PLAIN_FIRST || price == PLAIN_LAST)
                       && answer.number == 0;
}

void seen_question(struct seen *seen,
                   const uint8_t question[PLAIN_QUESTION_BYTES],
                   struct plain_answer answer)
{
    for (uint32_t i = 0; i < SEEN_REFERENCES; i++)
        count_one(seen->count[i], question, i,
                  hendovita_get_number(question + 8 + 4 * i), answer,
                  question_with);
}

void seen_trade(struct seen *seen, const uint32_t fields[6],
                struct plain_answer answer)
{
    for (uint32_t i = 0; i < SEEN_TRADE_REFERENCES; i++)
        count_one(seen->count[i], fields, i, fields[1 + i], answer,
                  trade_with);
}

void seen_often(const struct seen *seen, uint32_t reference,
                enum seen_kind first, enum seen_kind last, uint32_t least)
{
    static const char *const kinds[SEEN_KINDS] = {
        "refused between ladder prices", "refused outside the ends",
        "accepted between ladder prices", "not as the ladder price below",
        "not as the ladder price above", "accepted at an end",
    };
    for (uint32_t kind = first; kind <= last; kind++)
        if (seen->count[reference][kind] < least)
            report_say("  reference %u: only %u %s", reference,
                       seen->count[reference][kind], kinds[kind]);
}
