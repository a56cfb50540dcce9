/* How the benchmarks time: contestants in turn, and the engine's time beside each of the others'. */
#ifndef TIMING_H
#define TIMING_H

#include <stdbool.h>
#include <stdint.h>

enum { ENGINE, PLAIN, MOST_CONTESTANTS = 5 };

/* Asks one contestant, once, all that a line of the table asks. */
typedef uint64_t asked(const void *line, uint32_t contestant);

struct timing {
    double best[MOST_CONTESTANTS];  /* seconds of one asking, in the best batch */
    double ratio[MOST_CONTESTANTS]; /* the engine's time to this one's, the median over rounds */
};

/* Processor seconds of this thread so far. */
double seconds_of_thread(void);

/* In processor seconds, those of processes included that a contestant starts and waits for. */
struct timing measure(asked *ask, const void *line, uint32_t contestants);

/* Lines that share a goal: a ratio that none of them should pass. */
struct goal {
    const char *name;
    double most, worst;
    const char *line;
    uint32_t k, lines, missed;
};

/* Whether a line misses its goal. */
bool misses(struct goal *goal, double ratio, const char *line, uint32_t k);

void report(const struct goal *goal);

#endif
