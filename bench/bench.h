/* Programs that do the same work, timed by turns in one run: the middle of many rounds' ratios, and the middle half of them. */
#ifndef BENCH_H
#define BENCH_H
#define _POSIX_C_SOURCE 200809L
#include <stdio.h>
#include <stdlib.h>
#include <time.h>

enum { ROUNDS = 101, MOST_RIVALS = 4, LIBRARY = 0 };

/* Does the case's whole work once. */
typedef void (*work)(void);

struct ratio {
    double low, middle, high; /* the quarters of the rounds */
};

struct timing {
    double least[MOST_RIVALS]; /* nanoseconds for the case's work */
    struct ratio to[MOST_RIVALS]; /* the library's time over this rival's */
};

/* The time that this process had the processor: other work on the machine counts only by what it does to the caches. */
static double nanoseconds(void)
{
    struct timespec t;
    clock_gettime(CLOCK_PROCESS_CPUTIME_ID, &t);
    return 1e9 * (double)t.tv_sec + (double)t.tv_nsec;
}

static double time_of(work rival, int repeats)
{
    double began = nanoseconds();
    for (int k = 0; k < repeats; k++)
        rival();
    return (nanoseconds() - began) / repeats;
}

static int by_value(const void *a, const void *b)
{
    double x = *(const double *)a, y = *(const double *)b;
    return (x > y) - (x < y);
}

/* How often the work is done between two looks at the clock: for some 200 microseconds. */
static int repeats_for(work rival)
{
    double once = time_of(rival, 3);
    return once > 200e3 ? 1 : (int)(200e3 / once) + 1;
}

/* The library is the first rival. Each round times all of them, beginning with another one than the round before. */
static struct timing compare(const work *rivals, int count)
{
    static double ratio[MOST_RIVALS][ROUNDS];
    struct timing t = {{0}, {{0, 0, 0}}};
    int repeats = repeats_for(rivals[LIBRARY]);
    for (int round = 0; round < ROUNDS; round++) {
        double took[MOST_RIVALS];
        for (int k = 0; k < count; k++) {
            int which = (round + k) % count;
            took[which] = time_of(rivals[which], repeats);
            if (round == 0 || took[which] < t.least[which])
                t.least[which] = took[which];
        }
        for (int k = 0; k < count; k++)
            ratio[k][round] = took[LIBRARY] / took[k];
    }
    for (int k = 0; k < count; k++) {
        qsort(ratio[k], ROUNDS, sizeof(double), by_value);
        t.to[k] = (struct ratio){ratio[k][ROUNDS / 4], ratio[k][ROUNDS / 2], ratio[k][ROUNDS - 1 - ROUNDS / 4]};
    }
    return t;
}

static void begin_table(const char *what, const char *unit, double wanted)
{
    printf("\n%-30s %10s   over plain C at -O2          over plain C at -O3\n", what, unit);
    printf("%-30s %10s   wanted: at most %.2f\n", "", "", wanted);
}

/* A case: the library's time, and its ratio to plain C at both levels; a ratio over the wanted one, if any (0: none), is marked. The line
 * is not ended. */
static void print_row(const char *name, double library, struct timing t, double wanted)
{
    struct ratio a = t.to[1], b = t.to[2];
    printf("%-30s %10.1f   %.2f (%.2f to %.2f) %-8s %.2f (%.2f to %.2f)", name, library, a.middle, a.low, a.high,
        wanted > 0 && a.middle > wanted ? "OVER" : "", b.middle, b.low, b.high);
    fflush(stdout);
}
#endif
