/* Times the engine's clause tables beside memcpy of the same bytes and beside the plain writer, and prints one table. Before a
 * line is timed, engine and plain writer must give the same sizes and literals; the status is 1 where they do not. */
#include "lines.h"
#include "plain/plain.h"
#include "timing.h"
#include "tuvenikar.h"

#include <stdbool.h>
#include <stdio.h>
#include <stdlib.h>
#include <string.h>

enum { SIZES = 5, MOST_LITERALS = 5326414 /* of any table */, MANY_LITERALS = 500000 };
enum { MEMCPY = PLAIN + 1, CONTESTANTS };
enum { WRITTEN = 66, UNTOUCHED = 0xa5 };
static const double GOAL_BESIDE_MEMCPY = 2.5, GOAL_BESIDE_PLAIN = 1.0;

struct table {
    uint32_t sizes[SIZES], variables[MOST_LITERALS];
    uint8_t marks[MOST_LITERALS];
};

static struct table written, expected;

static uint64_t write_by(__typeof__(tuv_table) *writer, const struct line *line, struct table *table)
{
    const char *text = line->exercise.text;
    return writer((const uint8_t *)text, strlen(text), line->c, line->k, table->sizes, SIZES, table->variables, MOST_LITERALS,
                  table->marks, MOST_LITERALS);
}

static uint64_t copy(void)
{
    uint32_t literals = expected.sizes[SIZES - 1];
    memcpy(written.variables, expected.variables, literals * sizeof *expected.variables);
    memcpy(written.marks, expected.marks, literals);
    return written.variables[literals - 1];
}

static uint64_t ask(const void *line, uint32_t contestant)
{
    if (contestant == MEMCPY)
        return copy();
    return write_by(contestant == ENGINE ? tuv_table : plain_table, line, &written);
}

/* The whole of both tables is compared, so also that nothing else was touched. */
static void check(const struct line *line)
{
    memset(&written, UNTOUCHED, sizeof written);
    memset(&expected, UNTOUCHED, sizeof expected);
    uint64_t engine = write_by(tuv_table, line, &written), plain = write_by(plain_table, line, &expected);
    if (engine == WRITTEN && plain == WRITTEN && memcmp(&written, &expected, sizeof written) == 0)
        return;
    fprintf(stderr, "bench: the table of %s at k %u: the engine answers %llx, the plain writer %llx; they differ\n",
            line->exercise.name, line->k, (unsigned long long)engine, (unsigned long long)plain);
    exit(1);
}

static void show(const struct line *line, struct goal *beside_memcpy, struct goal *beside_plain)
{
    check(line);
    struct timing timing = measure(ask, line, CONTESTANTS);
    uint32_t literals = expected.sizes[SIZES - 1];
    const char *name = line->exercise.name;
    bool misses_memcpy = literals > MANY_LITERALS && misses(beside_memcpy, timing.ratio[MEMCPY], name, line->k);
    bool misses_plain = misses(beside_plain, timing.ratio[PLAIN], name, line->k);
    printf("%-18s  %2u  %8u", name, line->k, literals);
    for (uint32_t e = 0; e < CONTESTANTS; e++)
        printf("  %6.0f", 1e-6 * literals / timing.best[e]);
    printf("  %5.2f%s  %5.2f%s\n", timing.ratio[MEMCPY], misses_memcpy ? " *" : "  ", timing.ratio[PLAIN],
           misses_plain ? " *" : "");
    fflush(stdout);
}

int main(void)
{
    struct goal beside_memcpy = {.name = "beside memcpy, above 500,000 literals", .most = GOAL_BESIDE_MEMCPY};
    struct goal beside_plain = {.name = "beside the plain writer", .most = GOAL_BESIDE_PLAIN};
    puts("Millions of literals a second, each in its best batch, reading included. Ratios: the engine's time to memcpy's of");
    puts("the same bytes and to the plain writer's, the medians over batches timed in turn; * where it misses a goal.");
    printf("%-18s  %2s  %8s  %6s  %6s  %6s  %7s  %6s\n", "formula", "k", "literals", "engine", "plain", "memcpy", "/memcpy",
           "/plain");
    for (size_t x = 0; x < sizeof LINES / sizeof *LINES; x++)
        show(&LINES[x], &beside_memcpy, &beside_plain);
    report(&beside_memcpy);
    report(&beside_plain);
    return 0;
}
