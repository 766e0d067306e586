/*
 * Questions by name, with a security code that is given apart.
 */
#include "coded.h"

void coded(uint8_t bytes[PLAIN_QUESTION_BYTES],
           const struct hendovita_question *question, uint32_t security_code)
{
    hendovita_put_question(bytes, question);
    recode(bytes, security_code);
}

/* Byte by byte, the lowest first. */
void recode(uint8_t bytes[PLAIN_QUESTION_BYTES], uint32_t security_code)
{
    for (uint32_t i = 0; i < 4; i++)
        bytes[40 + i] = (uint8_t)(security_code >> 8 * i);
}

void coded_good(uint8_t *bytes, size_t n)
{
    static const struct hendovita_question good = {
        HENDOVITA_BUY, HENDOVITA_LIMIT, HENDOVITA_BOTH_QUEUES, .price = 19900,
        .current_bid = 19900, .current_ask = 20000, .nominal = 20000,
    };
    for (size_t k = 0; k < n; k++)
        coded(bytes + PLAIN_QUESTION_BYTES * k, &good, 1);
}
