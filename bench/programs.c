/*
 * Speed of the programs: build/pricecheck and build/dayreport, each against a
 * plain C program that does the same work (quickcheck.c, quickreport.c), all
 * on the same file, turn by turn in one run. Of each the best round counts.
 */
#define _DEFAULT_SOURCE
#include "programs.h"

#include <fcntl.h>
#include <stdio.h>
#include <stdlib.h>
#include <string.h>
#include <sys/wait.h>
#include <unistd.h>

#include "clock.h"
#include "hendovita.h"

enum { QUESTIONS = 2000000, ROUNDS = 11 };

/* A program, the plain C program that does the same work, and the fewest
 * seconds that each has taken. */
struct pair {
    const char *program[2];
    double best[2];
};

static void give_up(const char *what)
{
    perror(what);
    exit(1);
}

/* The questions of a mix, in a file that has no name. */
static FILE *questions_of(void (*mix)(struct draw *, uint8_t *question))
{
    FILE *file = tmpfile();
    struct draw draw;
    if (file == NULL)
        give_up("a file of questions");
    draw_begin(&draw, 5);
    for (int k = 0; k < QUESTIONS; k++) {
        uint8_t question[HENDOVITA_QUESTION_BYTES];
        mix(&draw, question);
        fwrite(question, 1, sizeof question, file);
    }
    if (fflush(file) != 0)
        give_up("a file of questions");
    return file;
}

/* Runs a program from one file into another. Answers the seconds. */
static double run(const char *program, FILE *from, int to)
{
    int status;
    double begin = now();
    pid_t child = fork();
    if (child == 0) {
        if (lseek(fileno(from), 0, SEEK_SET) == 0
            && dup2(fileno(from), STDIN_FILENO) >= 0
            && dup2(to, STDOUT_FILENO) >= 0)
            execl(program, program, (char *)NULL);
        _exit(2);
    }
    if (child < 0 || waitpid(child, &status, 0) != child || status != 0) {
        printf("%s does not run\n", program);
        exit(1);
    }
    return now() - begin;
}

/* Both must print the same, or their times mean nothing. */
static void compare(const struct pair *pair, FILE *questions)
{
    static char text[2][65536];
    FILE *out[2] = {tmpfile(), tmpfile()};
    size_t bytes;
    for (int k = 0; k < 2; k++) {
        if (out[k] == NULL)
            give_up("a file of lines");
        run(pair->program[k], questions, fileno(out[k]));
        rewind(out[k]);
    }
    do {
        bytes = fread(text[0], 1, sizeof text[0], out[0]);
        if (fread(text[1], 1, sizeof text[1], out[1]) != bytes
            || memcmp(text[0], text[1], bytes) != 0) {
            printf("%s and %s differ\n", pair->program[0], pair->program[1]);
            exit(1);
        }
    } while (bytes > 0);
    fclose(out[0]);
    fclose(out[1]);
}

static void time_pair(struct pair *pair, FILE *questions, int nowhere)
{
    for (int k = 0; k < 2; k++) {
        double seconds = run(pair->program[k], questions, nowhere);
        if (seconds < pair->best[k])
            pair->best[k] = seconds;
    }
}

/* The columns of a pair, in a line that is not ended. */
static void print_pair(const char *name, const struct pair *pair)
{
    double ours = pair->best[0], plain = pair->best[1];
    printf("%11s %6.1f %5.0f %6.1f %5.0f   %5.2f", name,
           QUESTIONS / ours / 1e6, ours / QUESTIONS * 1e9,
           QUESTIONS / plain / 1e6, plain / QUESTIONS * 1e9, ours / plain);
}

void time_programs(const char *name,
                   void (*mix)(struct draw *, uint8_t *question))
{
    struct pair lines = {{"build/pricecheck", "build/quickcheck"}, {1e9, 1e9}};
    struct pair page = {{"build/dayreport", "build/quickreport"}, {1e9, 1e9}};
    FILE *questions = questions_of(mix);
    int nowhere = open("/dev/null", O_WRONLY);
    if (nowhere < 0)
        give_up("/dev/null");
    compare(&lines, questions);
    compare(&page, questions);
    for (int round = 0; round < ROUNDS; round++) {
        time_pair(&lines, questions, nowhere);
        time_pair(&page, questions, nowhere);
    }
    print_pair(name, &lines);
    printf("\n");
    print_pair("its report", &page);
    printf("   %5.2f\n", page.best[0] / lines.best[0]);
    close(nowhere);
    fclose(questions);
}
