/* A solver, which knows nothing of this engine, solves the tables of random formulas; its models come back through the check.
   Arguments: a seed, and a command that reads table.cnf, writes what it finds to the file model, and ends with a solver's status.
   A claim about formulas is one check for each family of them. */
#include "tuvenikar.h"

#include <stdio.h>
#include <stdlib.h>
#include <string.h>
#include <sys/wait.h>

enum { STEPS = 32, MOST_TRIED = 12 /* channel variables, where every recording is tried */, CHANGES = 8 /* of one assignment */ };
enum { UNWRITTEN = 0xa5 };

enum claim { TABLED, EXTENDED, CHECKED, NAMED, SOLVED, AGREED, TAKEN, SATISFIED, EXTENDED_BACK, CLAIMS };

static const char *const CLAIM[CLAIMS] = {
    [TABLED] = "a table is written",
    [EXTENDED] = "a recording's extension has its levels, and meets every clause but the last",
    [CHECKED] = "an extension is accepted where the formula holds, and elsewhere its last clause is unmet",
    [NAMED] = "where one value is changed, the first unmet clause is named",
    [SOLVED] = "the solver has a model, or says that there is none",
    [AGREED] = "it has one exactly where some recording satisfies the formula",
    [TAKEN] = "the model is accepted",
    [SATISFIED] = "the recording that is read from it satisfies the formula",
    [EXTENDED_BACK] = "that recording extends to this very model",
};

/* Both ends of a range are included; k goes only as far as its product with C is not too large. */
static const struct family {
    const char *name;
    uint32_t formulas, least_c, most_c, least_k, most_k, most_product, most_nodes;
} FAMILIES[] = {
    {"every recording tried", 140, 1, 8, 0, 12, MOST_TRIED, 24},
    {"many channels", 60, 5, 8, 3, 8, 64, 30},
    {"many steps", 60, 1, 3, 13, 20, 60, 24},
    {"many nodes", 40, 2, 4, 4, 10, 40, 40},
    {"most steps", 20, 1, 8, 28, 32, 256, 12},
};

static char text[256];
static size_t length;
static uint32_t c, k, sizes[TUV_SIZES], variables[TUV_MOST_LITERALS];
static uint8_t marks[TUV_MOST_LITERALS];
static uint32_t tried[CLAIMS], failures[CLAIMS];
static unsigned passed, failed;

static void count(int is_so, const char *what)
{
    if (is_so) {
        passed++;
    } else {
        failed++;
        printf("FAILED: %s\n", what);
    }
}

/* Of the formula at hand. The first that fails in a family is shown. */
static void claim(enum claim what, int is_so)
{
    tried[what]++;
    if (!is_so && failures[what]++ == 0)
        printf("not so: %s: '%.*s', C %u, k %u\n", CLAIM[what], (int)length, text, c, k);
}

/* splitmix64: a few lines, and the same on every machine. */
static uint64_t state;

static uint64_t draw(void)
{
    uint64_t x = state += 0x9e3779b97f4a7c15u;
    x = (x ^ x >> 30) * 0xbf58476d1ce4e5b9u;
    x = (x ^ x >> 27) * 0x94d049bb133111ebu;
    return x ^ x >> 31;
}

static uint32_t from(uint32_t low, uint32_t high) { return low + (uint32_t)(draw() % (high - low + 1)); }

static void put(char byte) { text[length++] = byte; }

static void put_number(uint32_t n)
{
    if (n >= 10)
        put((char)('0' + n / 10));
    put((char)('0' + n % 10));
}

/* A pair of so many nodes, given the fewest of a part, how a part is put, and the signs. */
static void put_pair(uint32_t nodes, uint32_t fewest, void put_part(uint32_t), const char *signs)
{
    uint32_t left = from(fewest, nodes - 1 - fewest);
    put('(');
    put_part(left);
    put(signs[from(0, (uint32_t)strlen(signs) - 1)]);
    put_part(nodes - 1 - left);
    put(')');
}

static void put_state(uint32_t nodes)
{
    if (nodes == 1) {
        put(from(1, 10) == 1 ? "TF"[from(0, 1)] : (char)('a' + from(0, c - 1)));
    } else if (nodes == 2 || from(1, 4) == 1) {
        put('!');
        put_state(nodes - 1);
    } else {
        put_pair(nodes, 1, put_state, "&|");
    }
}

static void put_duration(uint32_t nodes)
{
    put('#');
    put_state(nodes - 1);
    put('>');
    put('=');
    put_number(from(0, (k + 3) / 2));
}

static void put_throughout(uint32_t nodes)
{
    put('[');
    put_state(nodes - 1);
    put(']');
}

static void put_formula(uint32_t nodes)
{
    uint32_t kind = from(1, 8);
    if (nodes == 1) {
        put("TF"[from(0, 1)]);
    } else if (kind == 1) {
        put('!');
        put_formula(nodes - 1);
    } else if (nodes > 4 && kind > 2) {
        put_pair(nodes, from(1, 6) == 1 ? 1 : 2, put_formula, "&|;;");
    } else if (kind % 2 == 0) {
        put_duration(nodes);
    } else {
        put_throughout(nodes);
    }
}

/* Several formulas that must all hold, so that often none can. */
static void put_all(uint32_t formulas, uint32_t nodes)
{
    if (formulas == 1) {
        put_formula(nodes);
        return;
    }
    uint32_t first = nodes / formulas;
    put('(');
    put_formula(first);
    put('&');
    put_all(formulas - 1, nodes - 1 - first);
    put(')');
}

static void draw_formula(const struct family *family)
{
    c = from(family->least_c, family->most_c);
    uint32_t most_k = family->most_product / c;
    k = from(family->least_k, most_k < family->most_k ? most_k : family->most_k);
    uint32_t formulas = from(1, 4);
    length = 0;
    put_all(formulas, from(8, family->most_nodes));
}

static const uint8_t *bytes(void) { return (const uint8_t *)text; }

static int satisfies(const uint8_t *recording) { return tuv_evaluate(bytes(), length, c, k, 0, k, recording, k) == TUV_YES; }

/* Does any recording satisfy the formula? Each has its number: the channel variables as bits. */
static int any_satisfies(void)
{
    for (uint32_t number = 0; number < 1u << c * k; number++) {
        uint8_t recording[STEPS];
        for (uint32_t t = 0; t < k; t++)
            recording[t] = number >> t * c & ((1u << c) - 1);
        if (satisfies(recording))
            return 1;
    }
    return 0;
}

/* How many clauses an assignment meets before the first that it does not. */
static uint32_t first_unmet(const uint8_t *assignment)
{
    uint32_t clause = 0;
    int is_met = 0;
    for (uint32_t x = 0; x < sizes[TUV_L]; x++) {
        is_met |= assignment[variables[x] - 1] == (marks[x] & TUV_PLAIN);
        if (marks[x] & TUV_CLOSING) {
            if (!is_met)
                return clause;
            clause++;
            is_met = 0;
        }
    }
    return clause;
}

static int has_levels(const uint8_t *assignment, const uint8_t *recording)
{
    for (uint32_t x = 0; x < c * k; x++)
        if (assignment[x] != (recording[x / c] >> x % c & 1))
            return 0;
    return 1;
}

static int extends(const uint8_t *recording, uint8_t *assignment)
{
    memset(assignment, UNWRITTEN, sizes[TUV_V]);
    return tuv_extend(bytes(), length, c, k, recording, k, assignment, sizes[TUV_V]) == TUV_WRITTEN;
}

static uint64_t check(const uint8_t *assignment, uint8_t *recording)
{
    memset(recording, UNWRITTEN, STEPS);
    return tuv_check(bytes(), length, c, k, assignment, sizes[TUV_V], recording, k);
}

/* The answer to an assignment whose first unmet clause is this one. */
static uint64_t answer_for(uint32_t unmet) { return unmet == sizes[TUV_M] ? TUV_ACCEPTED : TUV_CLAUSE + ((uint64_t)unmet << 32); }

/* What needs no solver: a random recording, its extension, and this with one value changed. */
static void try_extension(void)
{
    static uint8_t assignment[TUV_MOST_VARIABLES];
    uint8_t recording[STEPS], read[STEPS];
    uint32_t last = sizes[TUV_M] - 1;
    for (uint32_t t = 0; t < k; t++)
        recording[t] = (uint8_t)from(0, (1u << c) - 1);
    int is_written = extends(recording, assignment);
    claim(EXTENDED, is_written && has_levels(assignment, recording) && first_unmet(assignment) >= last);
    int holds = satisfies(recording);
    uint64_t answer = check(assignment, read);
    claim(CHECKED, answer == answer_for(holds ? last + 1 : last) && (!holds || memcmp(read, recording, k) == 0));
    for (uint32_t n = 0; n < CHANGES; n++) {
        uint8_t *value = &assignment[from(0, sizes[TUV_V] - 1)];
        *value ^= 1;
        claim(NAMED, check(assignment, read) == answer_for(first_unmet(assignment)));
        *value ^= 1;
    }
}

static void try_model(const uint8_t *model)
{
    static uint8_t assignment[TUV_MOST_VARIABLES];
    uint8_t recording[STEPS];
    claim(TAKEN, check(model, recording) == TUV_ACCEPTED);
    claim(SATISFIED, satisfies(recording));
    claim(EXTENDED_BACK, extends(recording, assignment) && memcmp(assignment, model, sizes[TUV_V]) == 0);
}

static void write_table(void)
{
    FILE *file = fopen("table.cnf", "w");
    if (file == NULL)
        abort();
    fprintf(file, "p cnf %u %u\n", sizes[TUV_V], sizes[TUV_M]);
    for (uint32_t x = 0; x < sizes[TUV_L]; x++)
        fprintf(file, "%s%u%s", marks[x] & TUV_PLAIN ? "" : "-", variables[x], marks[x] & TUV_CLOSING ? " 0\n" : " ");
    if (fclose(file) != 0)
        abort();
}

enum verdict { NONSENSE, SATISFIABLE = 10, UNSATISFIABLE = 20 /* a solver's own status */ };

/* The next word, but for those that only announce others. */
static int next_word(FILE *file, char word[32])
{
    while (fscanf(file, "%31s", word) == 1)
        if (strcmp(word, "s") != 0 && strcmp(word, "v") != 0)
            return 1;
    return 0;
}

/* Each variable's value, once, and then 0. */
static int read_values(FILE *file, uint8_t *model)
{
    char word[32], *end;
    memset(model, UNWRITTEN, sizes[TUV_V]);
    for (uint32_t n = 0; n <= sizes[TUV_V]; n++) {
        if (!next_word(file, word))
            return 0;
        long value = strtol(word, &end, 10), variable = labs(value);
        if (*end != 0 || variable > (long)sizes[TUV_V] || (variable == 0) != (n == sizes[TUV_V]))
            return 0;
        if (variable > 0)
            model[variable - 1] = value > 0;
    }
    return memchr(model, UNWRITTEN, sizes[TUV_V]) == NULL;
}

/* minisat writes `SAT` and the values, or `UNSAT`; cadical `s SATISFIABLE` and lines of `v` and values, or `s UNSATISFIABLE`. */
static enum verdict read_model(FILE *file, uint8_t *model)
{
    char word[32];
    if (!next_word(file, word))
        return NONSENSE;
    enum verdict verdict = NONSENSE;
    if (strcmp(word, "UNSAT") == 0 || strcmp(word, "UNSATISFIABLE") == 0)
        verdict = UNSATISFIABLE;
    else if ((strcmp(word, "SAT") == 0 || strcmp(word, "SATISFIABLE") == 0) && read_values(file, model))
        verdict = SATISFIABLE;
    return next_word(file, word) ? NONSENSE : verdict;
}

static enum verdict solve(const char *command, uint8_t *model)
{
    write_table();
    remove("model");
    fflush(stdout);
    int status = system(command);
    FILE *file = fopen("model", "r");
    if (file == NULL)
        return NONSENSE;
    enum verdict verdict = read_model(file, model);
    fclose(file);
    return WIFEXITED(status) && WEXITSTATUS(status) == (int)verdict ? verdict : NONSENSE;
}

static uint32_t satisfiable, unsatisfiable, all_tried;

static void try_formula(const char *command)
{
    static uint8_t model[TUV_MOST_VARIABLES];
    uint64_t answer = tuv_table(bytes(), length, c, k, sizes, TUV_SIZES, variables, TUV_MOST_LITERALS, marks, TUV_MOST_LITERALS);
    claim(TABLED, answer == TUV_WRITTEN);
    if (answer != TUV_WRITTEN)
        return;
    try_extension();
    enum verdict verdict = solve(command, model);
    claim(SOLVED, verdict != NONSENSE);
    if (verdict == NONSENSE)
        return;
    satisfiable += verdict == SATISFIABLE;
    unsatisfiable += verdict == UNSATISFIABLE;
    if (verdict == SATISFIABLE)
        try_model(model);
    if (c * k <= MOST_TRIED) {
        all_tried++;
        claim(AGREED, any_satisfies() == (verdict == SATISFIABLE));
    }
}

/* A claim that was never made of a family is no check of it. */
static void count_claims(const struct family *family)
{
    char what[256];
    for (int x = 0; x < CLAIMS; x++) {
        snprintf(what, sizeof what, "%s: %s: not for %u of %u", family->name, CLAIM[x], failures[x], tried[x]);
        if (tried[x] > 0)
            count(failures[x] == 0, what);
        tried[x] = failures[x] = 0;
    }
}

int main(int arguments, char **argument)
{
    if (arguments != 3)
        return 2;
    state = strtoull(argument[1], NULL, 10);
    for (size_t x = 0; x < sizeof FAMILIES / sizeof *FAMILIES; x++) {
        for (uint32_t n = 0; n < FAMILIES[x].formulas; n++) {
            draw_formula(&FAMILIES[x]);
            try_formula(argument[2]);
        }
        count_claims(&FAMILIES[x]);
    }
    printf("%u satisfiable, %u unsatisfiable; every recording tried for %u\n", satisfiable, unsatisfiable, all_tried);
    count(satisfiable > 0 && unsatisfiable > 0, "some formulas are satisfiable and some are not");
    printf("%u passed, %u failed\n", passed, failed);
    return failed != 0;
}
