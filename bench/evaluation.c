/* Times the engine's evaluation and reading beside the plain evaluator's and prints one table. Before a line is timed, both
 * must give the same answers; the status is 1 where they do not. */
#include "exercises.h"
#include "plain/plain.h"
#include "timing.h"
#include "tuvenikar.h"
#include "waves.h"

#include <stdbool.h>
#include <stdio.h>
#include <stdlib.h>
#include <string.h>

enum { CHANNELS = 8, STEPS = 32, ASKED = 64 /* recordings of a formula, or nodes of a text that is read */ };
static const double GOAL_OF_CHOP = 1.0 / 3, GOAL_ELSEWHERE = 1.0;

static const struct exercise EXERCISES[] = {
    {"duration", "#a>=4"},
    {"throughout", "[a]"},
    {"long state", "[" NINEFOLD("(a|!(b&!") "c" NINEFOLD("))") "]"},
    {"deep not", TWENTY_ONE("!") TWENTY_ONE("!") TWENTY_ONE("!") "T"},
    {"wide and, or", "(((#a>=1&#b>=2)|(#c>=3&#d>=4))&((#e>=5&#f>=6)|([g]&[h])))"},
    {"a then b", "(#a>=2;[b])"},
    {"somewhere", "(T;([a];T))"},
    {"everywhere", "!(T;(!(#a>=1|!#b>=2);T))"},
    {"stretches", "([a];([b];([c];[d])))"},
    {"chops to the right", "(#a>=1;(#b>=1;(#c>=1;(#d>=1;[a]))))"},
    {"chops to the left", "(((([a];#b>=1);#c>=1);#d>=1);#a>=1)"},
    {"64 nodes", TWENTY_ONE("(#a>=1;") "T" TWENTY_ONE(")")},
};
static const struct exercise LONG_TEXT = {"reading 190 bytes", TWENTY_ONE("(#a>=32;") "T" TWENTY_ONE(")")};
static const uint32_t WIDTHS[] = {8, 16, 32};

struct engine {
    __typeof__(tuv_evaluate) *evaluate;
    __typeof__(tuv_node_text) *node_text;
};

static const struct engine ENGINES[2] = {{tuv_evaluate, tuv_node_text}, {plain_evaluate, plain_node_text}};

/* A line of the table: an exercise evaluated at k, or only read. */
struct line {
    struct exercise exercise;
    uint32_t k;
    bool is_reading;
};

static uint8_t recordings[ASKED][STEPS];

static uint64_t evaluate(const struct engine *e, const struct line *line, uint32_t r, uint32_t i, uint32_t j)
{
    const char *text = line->exercise.text;
    return e->evaluate((const uint8_t *)text, strlen(text), CHANNELS, line->k, i, j, recordings[r], line->k);
}

static uint64_t ask(const struct engine *e, const struct line *line, uint32_t r)
{
    const char *text = line->exercise.text;
    if (line->is_reading)
        return e->node_text((const uint8_t *)text, strlen(text), CHANNELS, line->k, r + 1);
    return evaluate(e, line, r, 0, line->k);
}

static void record(void)
{
    for (uint32_t r = 0; r < ASKED; r++)
        draw_waves(recordings[r], STEPS, r % 4);
}

static void agree(const struct line *line, uint64_t engine, uint64_t plain)
{
    if (engine == plain && (uint32_t)plain >= 64)
        return;
    fprintf(stderr, "bench: %s at k %u: the engine answers %llx, the plain evaluator %llx\n", line->exercise.name, line->k,
            (unsigned long long)engine, (unsigned long long)plain);
    exit(1);
}

/* Beside what is timed, the intervals that begin at one i, another for each recording. */
static void check(const struct line *line)
{
    for (uint32_t r = 0; r < ASKED; r++) {
        agree(line, ask(&ENGINES[ENGINE], line, r), ask(&ENGINES[PLAIN], line, r));
        uint32_t i = r % (line->k + 1);
        for (uint32_t j = i; !line->is_reading && j <= line->k; j++)
            agree(line, evaluate(&ENGINES[ENGINE], line, r, i, j), evaluate(&ENGINES[PLAIN], line, r, i, j));
    }
}

/* Each of the line's questions, once. */
static uint64_t ask_all(const void *line, uint32_t contestant)
{
    uint64_t answers = 0;
    for (uint32_t r = 0; r < ASKED; r++)
        answers += ask(&ENGINES[contestant], line, r);
    return answers;
}

static void show(const struct line *line, struct goal *goal)
{
    check(line);
    struct timing timing = measure(ask_all, line, 2);
    bool is_missed = misses(goal, timing.ratio[PLAIN], line->exercise.name, line->k);
    printf("%-18s  %2u  %10.0f  %10.0f  %5.2f%s\n", line->exercise.name, line->k, ASKED / timing.best[ENGINE],
           ASKED / timing.best[PLAIN], timing.ratio[PLAIN], is_missed ? " *" : "");
    fflush(stdout);
}

int main(void)
{
    struct goal chop = {.name = "with chop at k 32", .most = GOAL_OF_CHOP};
    struct goal others = {.name = "everywhere else", .most = GOAL_ELSEWHERE};
    record();
    puts("Questions a second, each in its best batch. Ratio: the engine's time to the plain evaluator's, the median over");
    puts("pairs of batches timed in turn; * where it misses its goal.");
    printf("%-18s  %2s  %10s  %10s  %5s\n", "formula", "k", "engine", "plain", "ratio");
    for (size_t x = 0; x < sizeof EXERCISES / sizeof *EXERCISES; x++)
        for (size_t w = 0; w < sizeof WIDTHS / sizeof *WIDTHS; w++) {
            struct line line = {EXERCISES[x], WIDTHS[w], false};
            show(&line, line.k == STEPS && strchr(line.exercise.text, ';') ? &chop : &others);
        }
    show(&(struct line){LONG_TEXT, STEPS, true}, &others);
    report(&chop);
    report(&others);
    return 0;
}
