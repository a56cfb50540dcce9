/* Times the engine's extension of a recording and its check of an assignment beside the plain ones, and prints one table. Before
 * a line is timed, both must write the same assignment and give it the answer that evaluation calls for; the status is 1 where
 * they do not. */
#include "lines.h"
#include "plain/plain.h"
#include "timing.h"
#include "tuvenikar.h"
#include "waves.h"

#include <stdbool.h>
#include <stdio.h>
#include <stdlib.h>
#include <string.h>

enum { STEPS = 32, DRAWS = 1000, UNTOUCHED = 0xa5 };
static const double GOAL = 1.5;

struct engine {
    __typeof__(tuv_extend) *extend;
    __typeof__(tuv_check) *check;
};

static const struct engine ENGINES[2] = {{tuv_extend, tuv_check}, {plain_extend, plain_check}};

/* What one of them answers and writes. */
struct result {
    uint64_t extended, checked;
    uint8_t assignment[TUV_MOST_VARIABLES], recording[STEPS];
};

static uint32_t sizes[TUV_SIZES];
static uint8_t recording[STEPS];
static struct result results[2];

static uint64_t extend(const void *asked, uint32_t contestant)
{
    const struct line *line = asked;
    const char *text = line->exercise.text;
    return ENGINES[contestant].extend((const uint8_t *)text, strlen(text), line->c, line->k, recording, line->k,
                                      results[contestant].assignment, TUV_MOST_VARIABLES);
}

static uint64_t check(const void *asked, uint32_t contestant)
{
    const struct line *line = asked;
    const char *text = line->exercise.text;
    return ENGINES[contestant].check((const uint8_t *)text, strlen(text), line->c, line->k, results[contestant].assignment,
                                     sizes[TUV_V], results[contestant].recording, STEPS);
}

static void find_sizes(const struct line *line)
{
    static uint32_t variables[TUV_MOST_LITERALS];
    static uint8_t marks[TUV_MOST_LITERALS];
    const char *text = line->exercise.text;
    plain_table((const uint8_t *)text, strlen(text), line->c, line->k, sizes, TUV_SIZES, variables, TUV_MOST_LITERALS, marks,
                TUV_MOST_LITERALS);
}

static bool holds(const struct line *line)
{
    const char *text = line->exercise.text;
    return plain_evaluate((const uint8_t *)text, strlen(text), line->c, line->k, 0, line->k, recording, line->k) == TUV_YES;
}

/* Draws recordings until the formula holds of one, or any where it holds of none: all clauses but the last are met then, too. */
static void record(const struct line *line)
{
    for (uint32_t n = 0; n < DRAWS; n++) {
        draw_waves(recording, line->k, n % 4);
        for (uint32_t t = 0; t < line->k; t++)
            recording[t] &= (uint8_t)((1u << line->c) - 1);
        if (holds(line))
            return;
    }
}

/* All that either has written is compared, so also that nothing else was touched. */
static void compare(const struct line *line)
{
    uint64_t wanted = holds(line) ? TUV_ACCEPTED : TUV_CLAUSE + ((uint64_t)(sizes[TUV_M] - 1) << 32);
    memset(results, UNTOUCHED, sizeof results);
    for (uint32_t e = 0; e < 2; e++) {
        results[e].extended = extend(line, e);
        results[e].checked = check(line, e);
    }
    const struct result *engine = &results[ENGINE], *plain = &results[PLAIN];
    bool same = memcmp(engine, plain, sizeof *engine) == 0;
    if (same && engine->extended == TUV_WRITTEN && engine->checked == wanted)
        return;
    fprintf(stderr, "bench: assignments of %s at k %u: the engine answers %llx and %llx, the plain one %llx and %llx; %s\n",
            line->exercise.name, line->k, (unsigned long long)engine->extended, (unsigned long long)engine->checked,
            (unsigned long long)plain->extended, (unsigned long long)plain->checked,
            same ? "evaluation calls for others" : "they differ");
    exit(1);
}

/* One half of a line: nanoseconds a variable or a literal, of which there are so many. */
static void show(asked *ask, const struct line *line, uint32_t count, struct goal *goal)
{
    struct timing timing = measure(ask, line, 2);
    bool is_missed = misses(goal, timing.ratio[PLAIN], line->exercise.name, line->k);
    printf("  %9u  %6.2f  %6.2f  %5.2f%s", count, 1e9 * timing.best[ENGINE] / count, 1e9 * timing.best[PLAIN] / count,
           timing.ratio[PLAIN], is_missed ? " *" : "  ");
}

int main(void)
{
    struct goal extension = {.name = "extension", .most = GOAL}, checking = {.name = "check", .most = GOAL};
    puts("Nanoseconds a variable of an extension and a literal of a check, each in its best batch, reading included. Ratios: the");
    puts("engine's time to the plain one's, the medians over pairs of batches timed in turn; * where one misses its goal.");
    printf("%-18s  %2s  %9s  %6s  %6s  %5s    %9s  %6s  %6s  %5s\n", "formula", "k", "variables", "engine", "plain", "ratio",
           "literals", "engine", "plain", "ratio");
    for (size_t x = 0; x < sizeof LINES / sizeof *LINES; x++) {
        const struct line *line = &LINES[x];
        find_sizes(line);
        record(line);
        compare(line);
        printf("%-18s  %2u", line->exercise.name, line->k);
        show(extend, line, sizes[TUV_V], &extension);
        show(check, line, sizes[TUV_L], &checking);
        puts("");
        fflush(stdout);
    }
    report(&extension);
    report(&checking);
    return 0;
}
