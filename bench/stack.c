/* Measures what each call takes of the stack, on a thread whose stack is painted, beyond what a thread takes that makes none. The
 * texts are the deepest that are read, that are accepted and that have as many tries one below another as there can be; the figures
 * in include/tuvenikar.h are the most of each call. */
#include "tuvenikar.h"

#include <pthread.h>
#include <stdio.h>
#include <stdlib.h>
#include <string.h>

enum { CHANNELS = 8, STEPS = 32, LIMIT = 1000, LONGEST = 255, STACK = 1 << 20, PAINT = 0xa5 };

/* A text of something, so many times, then a formula, then its end as many times. */
struct exercise {
    const char *name, *repeated, *formula, *end;
    uint32_t times;
};

static const struct exercise EXERCISES[] = {
    {"T", "", "T", "", 0},
    {"62 ! and T", "!", "T", "", 62},
    {"63 ! and T", "!", "T", "", 63},
    {"31 chops to the right", "(T;", "T", ")", 31},
    {"31 chops to the left", "(", "T", ";T)", 31},
    {"20 chops, durations", "(", "#a>=1", ";#a>=1)", 20},
    {"21 chops, largest", "(#a>=32;", "T", ")", 21},
    {"60 ! in [S]", "!", "[a]", "", 60},
    {"a then b and not", "", "((#a>=2;#b>=1)&!(#a>=2;#b>=1))", "", 0},
    {"254 ! and T", "!", "T", "", 254},
    {"255 (", "(", "", "", 255},
};

/* What is lent. */
static uint32_t sizes[TUV_SIZES], variables[TUV_MOST_LITERALS], trail[TUV_MOST_VARIABLES];
static uint8_t marks[TUV_MOST_LITERALS], values[TUV_MOST_VARIABLES], recording[STEPS], stack[STACK] __attribute__((aligned(4096)));

typedef uint64_t call(const uint8_t *text, size_t length);

static uint64_t none(const uint8_t *text, size_t length) { return length == 0 ? 0 : *text; }

static uint64_t evaluate(const uint8_t *text, size_t length)
{
    return tuv_evaluate(text, length, CHANNELS, STEPS, 0, STEPS, recording, STEPS);
}

static uint64_t node_text(const uint8_t *text, size_t length) { return tuv_node_text(text, length, CHANNELS, STEPS, 1); }

static uint64_t table(const uint8_t *text, size_t length)
{
    return tuv_table(text, length, CHANNELS, STEPS, sizes, TUV_SIZES, variables, TUV_MOST_LITERALS, marks, TUV_MOST_LITERALS);
}

static uint64_t extend(const uint8_t *text, size_t length)
{
    return tuv_extend(text, length, CHANNELS, STEPS, recording, STEPS, values, TUV_MOST_VARIABLES);
}

/* Of what the table before had as sizes and the extension before wrote. */
static uint64_t check(const uint8_t *text, size_t length)
{
    return tuv_check(text, length, CHANNELS, STEPS, values, sizes[TUV_V], recording, STEPS);
}

static uint64_t search(const uint8_t *text, size_t length)
{
    return tuv_search(text, length, CHANNELS, STEPS, LIMIT, variables, TUV_MOST_LITERALS, marks, TUV_MOST_LITERALS, values,
                      TUV_MOST_VARIABLES, trail, TUV_MOST_VARIABLES, recording, STEPS);
}

/* Of the recording; it has no text. */
static uint64_t strip(const uint8_t *text, size_t length)
{
    static uint8_t lines[TUV_STRIP_BYTES(CHANNELS)];
    (void)text, (void)length;
    return tuv_strip(CHANNELS, STEPS, recording, STEPS, lines, sizeof lines);
}

/* The search last, since it overwrites what was extended. */
static const struct {
    const char *name;
    call *make;
} CALLS[] = {{"evaluate", evaluate}, {"node_text", node_text}, {"table", table}, {"extend", extend},
             {"check", check},       {"strip", strip},         {"search", search}};

enum { COUNT = sizeof CALLS / sizeof *CALLS };

/* A call to be made by a thread. */
struct made {
    call *make;
    const char *text;
};

static void *make(void *argument)
{
    const struct made *made = argument;
    made->make((const uint8_t *)made->text, strlen(made->text));
    return NULL;
}

/* How many bytes of its stack a thread changes that makes the call. */
static size_t changed(call *call, const char *text)
{
    struct made made = {call, text};
    pthread_attr_t on_stack;
    pthread_t thread;
    size_t unchanged = 0;
    memset(stack, PAINT, STACK);
    pthread_attr_init(&on_stack);
    if (pthread_attr_setstack(&on_stack, stack, STACK) != 0 || pthread_create(&thread, &on_stack, make, &made) != 0) {
        fprintf(stderr, "bench: no thread\n");
        exit(1);
    }
    pthread_join(thread, NULL);
    pthread_attr_destroy(&on_stack);
    while (unchanged < STACK && stack[unchanged] == PAINT)
        unchanged++;
    return STACK - unchanged;
}

static void write_text(const struct exercise *exercise, char text[LONGEST + 1])
{
    *text = '\0';
    for (uint32_t n = 0; n < exercise->times; n++)
        strcat(text, exercise->repeated);
    strcat(text, exercise->formula);
    for (uint32_t n = 0; n < exercise->times; n++)
        strcat(text, exercise->end);
}

static void show(const struct exercise *exercise, size_t most[COUNT])
{
    char text[LONGEST + 1];
    write_text(exercise, text);
    memset(recording, 0, sizeof recording);
    printf("%-22s", exercise->name);
    for (size_t c = 0; c < COUNT; c++) {
        size_t bytes = changed(CALLS[c].make, text) - changed(none, text);
        most[c] = bytes > most[c] ? bytes : most[c];
        printf("  %9zu", bytes);
    }
    puts("");
}

int main(void)
{
    size_t most[COUNT] = {0};
    printf("Bytes of the stack, c %d, k %d, at most %d tries.\n%-22s", CHANNELS, STEPS, LIMIT, "formula");
    for (size_t c = 0; c < COUNT; c++)
        printf("  %9s", CALLS[c].name);
    puts("");
    for (size_t x = 0; x < sizeof EXERCISES / sizeof *EXERCISES; x++)
        show(&EXERCISES[x], most);
    printf("%-22s", "most");
    for (size_t c = 0; c < COUNT; c++)
        printf("  %9zu", most[c]);
    puts("");
    return 0;
}
