#include "timing.h"

#include <stdio.h>
#include <stdlib.h>
#include <sys/resource.h>
#include <time.h>

enum { FEWEST_ROUNDS = 9, MOST_ROUNDS = 4000 };
static const double LINE_SECONDS = 0.9, LONG_LINE_SECONDS = 5, BATCH_SECONDS = 0.0003;

static double seconds_by(clockid_t clock)
{
    struct timespec t;
    clock_gettime(clock, &t);
    return (double)t.tv_sec + 1e-9 * (double)t.tv_nsec;
}

double seconds_of_thread(void) { return seconds_by(CLOCK_THREAD_CPUTIME_ID); }

/* Of the processes that were waited for. */
static double seconds_of_children(void)
{
    struct rusage used;
    getrusage(RUSAGE_CHILDREN, &used);
    return (double)(used.ru_utime.tv_sec + used.ru_stime.tv_sec) + 1e-6 * (double)(used.ru_utime.tv_usec + used.ru_stime.tv_usec);
}

/* Seconds of one asking, over a batch of `times`. The processor's seconds: turns that other programs take on it would fall on
 * the slower of the contestants more often. */
static double batch(asked *ask, const void *line, uint32_t contestant, uint32_t times)
{
    volatile uint64_t answers = 0; /* so that no call can be left out */
    double of_children = seconds_of_children(), start = seconds_of_thread();
    for (uint32_t n = 0; n < times; n++)
        answers += ask(line, contestant);
    double of_thread = seconds_of_thread() - start;
    return (of_thread + seconds_of_children() - of_children) / times;
}

/* So many that a batch has its seconds. An asking that the clock does not see counts as a hundredth of a microsecond. */
static uint32_t times_in_batch(asked *ask, const void *line, uint32_t contestant)
{
    double seconds = batch(ask, line, contestant, 1);
    return 1 + (uint32_t)(BATCH_SECONDS / (seconds > 1e-8 ? seconds : 1e-8));
}

static int compare(const void *x, const void *y)
{
    double a = *(const double *)x, b = *(const double *)y;
    return (a > b) - (a < b);
}

/* Whether a line that has taken so many seconds needs another round. */
static bool goes_on(uint32_t rounds, double seconds)
{
    if (rounds < FEWEST_ROUNDS)
        return rounds == 0 || seconds < LONG_LINE_SECONDS;
    return rounds < MOST_ROUNDS && seconds < LINE_SECONDS;
}

/* Short batches in turn: those of a round meet much the same machine, so the median of the rounds' ratios holds on a busy one
 * too. */
struct timing measure(asked *ask, const void *line, uint32_t contestants)
{
    static double ratios[MOST_CONTESTANTS][MOST_ROUNDS];
    struct timing timing;
    uint32_t rounds = 0, times[MOST_CONTESTANTS];
    for (uint32_t e = 0; e < contestants; e++) {
        times[e] = times_in_batch(ask, line, e);
        timing.best[e] = 1e9;
    }
    double start = seconds_by(CLOCK_MONOTONIC);
    while (goes_on(rounds, seconds_by(CLOCK_MONOTONIC) - start)) {
        double seconds[MOST_CONTESTANTS];
        for (uint32_t n = 0; n < contestants; n++) {
            uint32_t e = (rounds + n) % contestants; /* none always goes first */
            seconds[e] = batch(ask, line, e, times[e]);
            if (seconds[e] < timing.best[e])
                timing.best[e] = seconds[e];
        }
        for (uint32_t e = 0; e < contestants; e++)
            ratios[e][rounds] = seconds[ENGINE] / seconds[e];
        rounds++;
    }
    for (uint32_t e = 0; e < contestants; e++) {
        qsort(ratios[e], rounds, sizeof(double), compare);
        timing.ratio[e] = ratios[e][rounds / 2];
    }
    return timing;
}

bool misses(struct goal *goal, double ratio, const char *line, uint32_t k)
{
    bool is_missed = ratio > goal->most;
    goal->lines++;
    goal->missed += is_missed;
    if (ratio > goal->worst) {
        goal->worst = ratio;
        goal->line = line;
        goal->k = k;
    }
    return is_missed;
}

void report(const struct goal *goal)
{
    printf("worst %s: %.3g (%s, k %u); goal: at most %.3g, ", goal->name, goal->worst, goal->line, goal->k, goal->most);
    if (goal->missed == 0)
        puts("met");
    else
        printf("missed by %u of %u lines\n", goal->missed, goal->lines);
}
