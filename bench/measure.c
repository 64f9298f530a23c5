/* Times two programs on one workload. Each program is run with the workload's
   numbers and a number of turns after them; the time of a turn is the
   difference between a long and a short run, so that starting the program and
   building its panel are not counted. Processor time, not time on the wall.
   Rounds alternate between the programs, and each round runs another layout of
   them: the file of round k has ".k" after its name. Prints, for each program,
   the median in nanoseconds and half the distance between the quartiles in per
   cent of it.

   usage: measure ROUNDS MILLISECONDS WORDS FIRST.. SECOND.. WORKLOAD..
   FIRST and SECOND are commands of WORDS words each, the program last. */

#define _GNU_SOURCE
#include <stdio.h>
#include <stdlib.h>
#include <string.h>
#include <fcntl.h>
#include <sys/resource.h>
#include <sys/wait.h>
#include <unistd.h>

enum { MOST_ROUNDS = 99, MOST_WORDS = 40, LONGEST_PATH = 4096 };

/* A measure whose spread is wider, in per cent, was disturbed: it is taken
   again, and made so often at most. */
enum { WIDEST_SPREAD = 15, MOST_ATTEMPTS = 3 };

struct program {
    const char *name;
    char path[LONGEST_PATH];
    char turns[24];
    char *words[MOST_WORDS];
    unsigned long few;
    double samples[MOST_ROUNDS];
};

/* ---- One run --------------------------------------------------------- */

/* The processor time of one run in nanoseconds. */
static double run(char **words)
{
    pid_t child = fork();
    if (child == 0) {
        int nowhere = open("/dev/null", O_WRONLY);
        dup2(nowhere, 1);
        execv(words[0], words);
        _exit(127);
    }
    int status;
    struct rusage used;
    if (child < 0 || wait4(child, &status, 0, &used) < 0 || status != 0) {
        fprintf(stderr, "measure: %s failed\n", words[0]);
        exit(2);
    }
    return 1e9 * (used.ru_utime.tv_sec + used.ru_stime.tv_sec)
         + 1e3 * (used.ru_utime.tv_usec + used.ru_stime.tv_usec);
}

static double run_turns(struct program *program, unsigned long turns)
{
    snprintf(program->turns, sizeof program->turns, "%lu", turns);
    return run(program->words);
}

static void choose_layout(struct program *program, int round)
{
    snprintf(program->path, sizeof program->path, "%s.%d", program->name, round);
}

/* ---- How many turns -------------------------------------------------- */

/* The quicker of two runs: what disturbs a run only adds to it. */
static double quickest(struct program *program, unsigned long turns)
{
    double one = run_turns(program, turns), other = run_turns(program, turns);
    return one < other ? one : other;
}

/* So many turns that they take the wanted time, found in steps of at most 16
   times as many. */
static void choose_turns(struct program *program, double wanted)
{
    choose_layout(program, 0);
    double none = quickest(program, 0), spent = 0;
    program->few = 1;
    while ((spent = quickest(program, program->few) - none) < wanted)
        program->few *= spent < wanted / 16 ? 16 : 1 + (unsigned long)(wanted / spent);
}

/* ---- Samples --------------------------------------------------------- */

static void sample(struct program *program, int round)
{
    choose_layout(program, round);
    double few = run_turns(program, program->few);
    double many = run_turns(program, 3 * program->few);
    program->samples[round] = (many - few) / (2.0 * program->few);
}

static int ascending(const void *a, const void *b)
{
    double x = *(const double *)a, y = *(const double *)b;
    return (x > y) - (x < y);
}

static double median(const struct program *program, int rounds)
{
    return program->samples[rounds / 2];
}

static double spread(const struct program *program, int rounds)
{
    double quartiles = program->samples[rounds * 3 / 4] - program->samples[rounds / 4];
    return 50 * quartiles / median(program, rounds);
}

static int is_steady(const struct program *program, int rounds)
{
    return median(program, rounds) > 0 && spread(program, rounds) <= WIDEST_SPREAD;
}

/* All rounds of both programs. */
static void measure(struct program programs[2], int rounds, double wanted)
{
    for (int i = 0; i < 2; i++)
        choose_turns(&programs[i], wanted);
    for (int round = 0; round < rounds; round++)
        for (int i = 0; i < 2; i++)
            sample(&programs[i], round);
    for (int i = 0; i < 2; i++)
        qsort(programs[i].samples, rounds, sizeof(double), ascending);
}

/* ---- The command line ------------------------------------------------ */

/* The words of a run: the command, the workload and the turns. */
static void prepare(struct program *program, char **command, int words, char **workload, int numbers)
{
    memcpy(program->words, command, words * sizeof(char *));
    memcpy(program->words + words, workload, numbers * sizeof(char *));
    program->name = command[words - 1];
    program->words[words - 1] = program->path;
    program->words[words + numbers] = program->turns;
}

int main(int argc, char **argv)
{
    static struct program programs[2];
    int rounds = argc > 1 ? atoi(argv[1]) : 0;
    double wanted = argc > 2 ? 1e6 * atof(argv[2]) : 0;
    int words = argc > 3 ? atoi(argv[3]) : 0;
    int numbers = argc - 4 - 2 * words;
    if (rounds < 1 || rounds > MOST_ROUNDS || words < 1 || numbers < 1 || words + numbers + 2 > MOST_WORDS)
        return 2;
    for (int i = 0; i < 2; i++)
        prepare(&programs[i], argv + 4 + i * words, words, argv + 4 + 2 * words, numbers);
    int attempts = 0;
    do
        measure(programs, rounds, wanted);
    while (++attempts < MOST_ATTEMPTS && !(is_steady(&programs[0], rounds) && is_steady(&programs[1], rounds)));
    for (int i = 0; i < 2; i++)
        printf("%.2f %.1f ", median(&programs[i], rounds), spread(&programs[i], rounds));
    printf("\n");
    return 0;
}
