/*
 * plaincheck [TABLE]: pricecheck by the plain count, on table 1, 2 or 3, or on
 * 2: what the program is tested against. It reads a question at a time and
 * prints with printf.
 */
#include <stdio.h>
#include <stdlib.h>

#include "plain.h"

int main(int argc, char **argv)
{
    uint8_t question[PLAIN_QUESTION_BYTES];
    size_t bytes;
    plain_begin();
    if (argc > 2
        || (argc == 2 && !plain_use((uint32_t)strtoul(argv[1], NULL, 10)))) {
        fprintf(stderr, "usage: plaincheck [TABLE]\n");
        return 2;
    }
    for (unsigned long number = 1;
         (bytes = fread(question, 1, sizeof question, stdin))
         == sizeof question;
         number++) {
        struct plain_answer answer = plain_question(question);
        printf("%lu %u %u %u %u\n", number, answer.number, answer.lowest,
               answer.highest, plain_security_code(question));
    }
    if (bytes > 0)
        printf("left %zu\n", bytes);
    return ferror(stdin) || ferror(stdout) || fclose(stdout) != 0;
}
