/* Times the engine's strips beside plain C and beside what one would write with snprintf, and prints one table. Before a line is timed,
 * all three must write the same bytes; the status is 1 where they do not. */
#include "plain/plain.h"
#include "timing.h"
#include "tuvenikar.h"
#include "waves.h"

#include <stdbool.h>
#include <stdio.h>
#include <stdlib.h>
#include <string.h>

enum { CHANNELS = 8, STEPS = 32, ASKED = 64, UNTOUCHED = 0xa5 };
enum { SNPRINTF = PLAIN + 1, CONTESTANTS };
static const double GOAL_BESIDE_PLAIN = 2.0, GOAL_BESIDE_SNPRINTF = 1.0;

struct line {
    const char *name;
    uint32_t c, k;
};

static const struct line LINES[] = {
    {"one channel", 1, 1},   {"one channel", 1, 8},    {"one channel", 1, 32},    {"two channels", 2, 8},    {"two channels", 2, 32},
    {"four channels", 4, 16}, {"eight channels", 8, 1}, {"eight channels", 8, 8}, {"eight channels", 8, 32},
};

static uint8_t recordings[ASKED][STEPS];

/* Without questions. */
static uint64_t print_strip(const struct line *line, const uint8_t *recording, uint8_t *strip)
{
    char columns[STEPS + 1] = "", text[TUV_STRIP_LINE + 1];
    for (uint32_t t = 0; t < line->k; t++)
        columns[t] = (char)('0' + t % 10);
    for (uint32_t at = 0; at <= line->c; at++) {
        uint32_t count = 0;
        for (uint32_t t = 0; at > 0 && t < line->k; t++) {
            const uint32_t high = recording[t] >> (at - 1) & 1;
            columns[t] = high ? '#' : '_';
            count += high;
        }
        if (at == 0)
            snprintf(text, sizeof text, "  %-36s\n", columns);
        else
            snprintf(text, sizeof text, "%c %-32s %3u\n", (char)('a' + at - 1), columns, count);
        memcpy(strip + at * TUV_STRIP_LINE, text, TUV_STRIP_LINE);
    }
    return TUV_WRITTEN + (TUV_STRIP_BYTES(line->c) << 32);
}

static uint64_t strip_by(uint32_t contestant, const struct line *line, uint32_t r, uint8_t *strip, size_t room)
{
    uint8_t recording[STEPS];
    for (uint32_t t = 0; t < line->k; t++)
        recording[t] = recordings[r][t] & ((1u << line->c) - 1);
    if (contestant == SNPRINTF)
        return print_strip(line, recording, strip);
    return (contestant == ENGINE ? tuv_strip : plain_strip)(line->c, line->k, recording, line->k, strip, room);
}

static uint64_t ask(const void *line, uint32_t contestant)
{
    static uint8_t strip[TUV_STRIP_BYTES(CHANNELS)];
    uint64_t sum = 0;
    for (uint32_t r = 0; r < ASKED; r++)
        sum += strip_by(contestant, line, r, strip, sizeof strip) + strip[sizeof strip / 2];
    return sum;
}

/* The whole of each array is compared, so also that nothing else was touched. */
static void check(const struct line *line)
{
    static uint8_t strips[CONTESTANTS][TUV_STRIP_BYTES(CHANNELS)];
    for (uint32_t r = 0; r < ASKED; r++) {
        uint64_t answers[CONTESTANTS];
        memset(strips, UNTOUCHED, sizeof strips);
        for (uint32_t e = 0; e < CONTESTANTS; e++)
            answers[e] = strip_by(e, line, r, strips[e], sizeof strips[e]);
        for (uint32_t e = 1; e < CONTESTANTS; e++)
            if (answers[e] != answers[ENGINE] || memcmp(strips[e], strips[ENGINE], sizeof strips[e]) != 0) {
                fprintf(stderr, "bench: strip %u of c %u, k %u: contestant %u differs from the engine\n", r, line->c, line->k, e);
                exit(1);
            }
    }
}

int main(void)
{
    struct goal beside_plain = {.name = "beside plain C", .most = GOAL_BESIDE_PLAIN};
    struct goal beside_snprintf = {.name = "beside snprintf", .most = GOAL_BESIDE_SNPRINTF};
    for (uint32_t r = 0; r < ASKED; r++)
        draw_waves(recordings[r], STEPS, r % 4);
    puts("Nanoseconds a strip, each in its best batch. Ratios: the engine's time to plain C's and to snprintf's, the medians over");
    puts("batches timed in turn; * where it misses a goal.");
    printf("%-14s  %2s  %5s  %6s  %6s  %8s  %7s  %9s\n", "recording of", "k", "bytes", "engine", "plain", "snprintf", "/plain", "/snprintf");
    for (size_t x = 0; x < sizeof LINES / sizeof *LINES; x++) {
        const struct line *line = &LINES[x];
        check(line);
        struct timing timing = measure(ask, line, CONTESTANTS);
        const bool misses_plain = misses(&beside_plain, timing.ratio[PLAIN], line->name, line->k);
        const bool misses_snprintf = misses(&beside_snprintf, timing.ratio[SNPRINTF], line->name, line->k);
        printf("%-14s  %2u  %5u", line->name, line->k, (uint32_t)TUV_STRIP_BYTES(line->c));
        for (uint32_t e = 0; e < CONTESTANTS; e++)
            printf("  %*.0f", e == SNPRINTF ? 8 : 6, 1e9 * timing.best[e] / ASKED);
        printf("  %5.2f%s  %7.2f%s\n", timing.ratio[PLAIN], misses_plain ? " *" : "  ", timing.ratio[SNPRINTF],
               misses_snprintf ? " *" : "");
        fflush(stdout);
    }
    report(&beside_plain);
    report(&beside_snprintf);
    return 0;
}
