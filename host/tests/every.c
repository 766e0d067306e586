/*
 * Questions with every code and every set of missing references.
 */
#include "every.h"

#include "coded.h"

enum { SETS = 5 };

/* Order price, then the eight references where they are present; the last two
 * sets have ladder prices of table 3 alone, and of table 1 alone. */
static const uint32_t fields[SETS][9] = {
    {2500, 2480, 2490, 2470, 2510, 2500, 2400, 2600, 2500},
    {500, 490, 500, 480, 510, 495, 450, 550, 60},
    {10, 10, 11, 12, 9995000, 20000, 250, 10000, 9995000},
    {2505, 2495, 2505, 2485, 2510, 2501, 2405, 2600, 2504},
    {25050, 25000, 25050, 24950, 25100, 25020, 24000, 25150, 25010},
};

/* A security code for each set. */
static const uint32_t security[SETS] = {1, PLAIN_LAST_CODE, 256, 65536, 7000};

/* Every code around the known ones, with one set of references. */
static void every_code(uint8_t question[PLAIN_QUESTION_BYTES], every_use *use)
{
    for (uint8_t side = 0; side <= 3; side++)
        for (uint8_t type = 0; type <= 4; type++)
            for (uint8_t queue = 0; queue <= 6; queue++)
                for (uint8_t zero = 0; zero <= 1; zero++) {
                    question[0] = side;
                    question[1] = type;
                    question[2] = queue;
                    question[3] = zero;
                    use(question);
                }
}

void every_question(every_use *use)
{
    uint8_t question[PLAIN_QUESTION_BYTES];
    for (uint32_t i = 0; i < SETS; i++) {
        recode(question, security[i]);
        for (uint32_t present = 0; present < 256; present++) {
            for (uint32_t f = 0; f < 9; f++) {
                uint32_t given = f == 0 || (present >> (f - 1) & 1) != 0;
                hendovita_put_number(question + 4 + 4 * f,
                                     given ? fields[i][f] : 0);
            }
            every_code(question, use);
        }
    }
}
