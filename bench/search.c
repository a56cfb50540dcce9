/* Times the engine's search beside a plain queue in C and beside solvers on the same tables, and prints one table and the goals.
 * Before a line is timed, engine and queue must answer the same, with the same count and recording, and the solvers have a model
 * exactly where a recording is found, which must satisfy the formula; the status is 1 where that is not so. */
#include "exercises.h"
#include "plain/plain.h"
#include "timing.h"
#include "tuvenikar.h"

#include <errno.h>
#include <fcntl.h>
#include <math.h>
#include <spawn.h>
#include <stdbool.h>
#include <stdio.h>
#include <stdlib.h>
#include <string.h>
#include <sys/wait.h>
#include <unistd.h>

/* Where a table stands for the solvers. */
#define CNF "target/bench/search.cnf"

/* The limit of a line that is ended by none. */
#define MOST_TRIES UINT32_MAX

/* The gas burner of document 000, section 9.1.1: a leak is stopped within one step (STOPPED), between two there are 30 steps
 * without (APART), and yet it leaks so many times or more within some 30 steps (LEAKS)? The unsafe one has the first alone. */
#define STOPPED(leak) "!(T;((#" leak ">=2&!#!" leak ">=1);T))"
#define APART(leak) "!(T;(((#" leak ">=1;(#!" leak ">=1;#" leak ">=1))&!#T>=32);T))"
#define LEAKS(leak, times) "(T;((!#T>=31&#" leak ">=" times ");T))"
#define SAFE(leak, times) "((" STOPPED(leak) "&" APART(leak) ")&" LEAKS(leak, times) ")"
#define UNSAFE(leak, times) "(" STOPPED(leak) "&" LEAKS(leak, times) ")"
/* Gas and no flame; or a channel that says so itself, so that there is no flame to be tried where there is no gas. */
#define GAS_NO_FLAME "(a&!b)"
#define LEAK "a"

/* What a line counts for beside the goals of all. */
enum { CLASS = 1, MANY_TRIES = 2 };

/* `before` has the microseconds a try of the search that wrote the table and went through the whole of it in each try (the archive
 * of commit 3b02f64), by this benchmark, the best round of two runs, on the machine that docs/PERFORMANCE.md tells of. */
struct line {
    struct exercise exercise;
    uint32_t c, k, limit;
    double before;
    uint32_t counts_for;
};

static const struct line LINES[] = {
    {{"a then b", "(#a>=2;[b])"}, 2, 8, MOST_TRIES, 11.1, CLASS},
    {{"a then b", "(#a>=2;[b])"}, 2, 16, MOST_TRIES, 48.9, CLASS},
    {{"a then b", "(#a>=2;[b])"}, 2, 32, MOST_TRIES, 274.5, CLASS},
    {{"a, b, a again", "((#a>=1;#b>=1);#a>=1)"}, 2, 8, MOST_TRIES, 22.0, CLASS},
    {{"a, b, a again", "((#a>=1;#b>=1);#a>=1)"}, 2, 16, MOST_TRIES, 98.1, CLASS},
    {{"a, b, a again", "((#a>=1;#b>=1);#a>=1)"}, 2, 32, MOST_TRIES, 571.4, CLASS},
    {{"a, b, then a alone", "((#a>=1;#b>=1);(#a>=1&!#b>=1))"}, 2, 16, MOST_TRIES, 125.7, CLASS},
    {{"a, b, then a alone", "((#a>=1;#b>=1);(#a>=1&!#b>=1))"}, 2, 32, MOST_TRIES, 712.1, CLASS},
    {{"never both", "(!#(a&b)>=1&(#a>=3&#b>=3))"}, 2, 8, MOST_TRIES, 22.3, CLASS},
    {{"never both", "(!#(a&b)>=1&(#a>=3&#b>=3))"}, 2, 16, MOST_TRIES, 70.8, CLASS},
    {{"never both", "(!#(a&b)>=1&(#a>=3&#b>=3))"}, 2, 32, MOST_TRIES, 244.2, CLASS},
    {{"as many, and more", "(#a>=4&#!a>=5)"}, 1, 8, MOST_TRIES, 23.3, 0},
    {{"as many, and more", "(#a>=6&#!a>=7)"}, 1, 12, MOST_TRIES, 69.5, 0},
    {{"as many, and more", "(#a>=8&#!a>=9)"}, 1, 16, MOST_TRIES, 153.9, MANY_TRIES},
    {{"as many, and more", "(#a>=16&#!a>=17)"}, 1, 32, 4096, 1363, 0},
    {{"thrice and not", "(#a>=3&!#a>=3)"}, 1, 32, MOST_TRIES, 154.4, 0},
    {{"three in turn, not 3", "(((#a>=1;#a>=1);#a>=1)&!#a>=3)"}, 1, 16, MOST_TRIES, 163.1, 0},
    {{"three in turn, not 3", "(((#a>=1;#a>=1);#a>=1)&!#a>=3)"}, 1, 32, MOST_TRIES, 923.9, 0},
    {{"a then b and not", "((#a>=2;#b>=1)&!(#a>=2;#b>=1))"}, 2, 8, MOST_TRIES, 31.0, 0},
    {{"a then b and not", "((#a>=2;#b>=1)&!(#a>=2;#b>=1))"}, 2, 16, 16384, 152.6, 0},
    {{"safe burner, n 1", SAFE(GAS_NO_FLAME, "2")}, 2, 32, 1024, 5390, 0},
    {{"safe burner, n 6", SAFE(GAS_NO_FLAME, "7")}, 2, 32, 1024, 5559, 0},
    {{"unsafe burner, n 1", UNSAFE(GAS_NO_FLAME, "2")}, 2, 32, MOST_TRIES, 2569, 0},
    {{"unsafe burner, n 6", UNSAFE(GAS_NO_FLAME, "7")}, 2, 32, 1024, 2519, 0},
    {{"safe burner, n 1", SAFE(LEAK, "2")}, 1, 32, MOST_TRIES, 5143, 0},
    {{"safe burner, n 6", SAFE(LEAK, "7")}, 1, 32, MOST_TRIES, 5477, 0},
    {{"unsafe burner, n 1", UNSAFE(LEAK, "2")}, 1, 32, MOST_TRIES, 3177, 0},
    {{"unsafe burner, n 6", UNSAFE(LEAK, "7")}, 1, 32, MOST_TRIES, 2457, 0},
};

/* The goals: each a ratio that no line passes which counts for it. */
enum { BESIDE_SOLVERS, BESIDE_SOLVERS_LONG, BESIDE_BEFORE, BESIDE_QUEUE, GROWTH, GOALS };

static struct goal goals[GOALS] = {
    {.name = "beside the quickest solver, class exercises that have a recording, k 32", .most = 0.1},
    {.name = "beside the quickest solver, 12,868 tries", .most = 8},
    {.name = "time of a try beside that of before", .most = 0.04},
    {.name = "time of a try beside the plain queue's", .most = 2},
    {.name = "power of k by which the time of a try grows from k 16 to k 32", .most = 2.3},
};

/* How each solves the table. Its status says whether there is a model. */
struct solver {
    const char *name, *command[5];
};

enum { STEPS = 32 };
enum { SATISFIABLE = 10, UNSATISFIABLE = 20, NOT_INSTALLED = 127 };

static const struct solver SOLVERS[] = {
    {"minisat", {"minisat", "-verb=0", CNF, "/dev/null"}},
    {"cadical", {"cadical", "-q", CNF}},
    {"picosat", {"picosat", CNF}},
};

/* Those that are on this machine; as contestants they come after the plain queue. */
static const struct solver *installed[MOST_CONTESTANTS];
static uint32_t contestants = PLAIN + 1;

/* What the searches are lent. */
static uint32_t variables[TUV_MOST_LITERALS], trail[TUV_MOST_VARIABLES];
static uint8_t marks[TUV_MOST_LITERALS], values[TUV_MOST_VARIABLES];

static uint64_t search(const struct line *line, uint32_t contestant, uint8_t recording[STEPS])
{
    const uint8_t *text = (const uint8_t *)line->exercise.text;
    size_t length = strlen(line->exercise.text);
    if (contestant == PLAIN)
        return plain_search(text, length, line->c, line->k, line->limit, values, TUV_MOST_VARIABLES, trail, TUV_MOST_VARIABLES,
                            recording, STEPS);
    return tuv_search(text, length, line->c, line->k, line->limit, variables, TUV_MOST_LITERALS, marks, TUV_MOST_LITERALS,
                      values, TUV_MOST_VARIABLES, trail, TUV_MOST_VARIABLES, recording, STEPS);
}

/* The status with which a solver ends. What it writes is left unread. It is spawned, since a fork would copy this process, at the
 * solver's expense. */
static uint64_t solve(const struct solver *solver)
{
    extern char **environ;
    posix_spawn_file_actions_t quietly;
    pid_t process;
    int status;
    posix_spawn_file_actions_init(&quietly);
    posix_spawn_file_actions_addopen(&quietly, STDOUT_FILENO, "/dev/null", O_WRONLY, 0);
    int failure = posix_spawnp(&process, solver->name, &quietly, NULL, (char *const *)solver->command, environ);
    posix_spawn_file_actions_destroy(&quietly);
    if (failure == ENOENT)
        return NOT_INSTALLED;
    if (failure != 0 || waitpid(process, &status, 0) != process || !WIFEXITED(status)) {
        fprintf(stderr, "bench: %s did not run to its end\n", solver->name);
        exit(1);
    }
    return (uint64_t)WEXITSTATUS(status);
}

static uint64_t ask(const void *line, uint32_t contestant)
{
    uint8_t recording[STEPS];
    return contestant <= PLAIN ? search(line, contestant, recording) : solve(installed[contestant]);
}

/* Puts the table where the solvers read it, and gives the number of its literals. */
static uint32_t write_table(const struct line *line)
{
    const char *text = line->exercise.text;
    uint32_t sizes[TUV_SIZES];
    FILE *file = fopen(CNF, "w");
    uint64_t answer = tuv_table((const uint8_t *)text, strlen(text), line->c, line->k, sizes, TUV_SIZES, variables,
                                TUV_MOST_LITERALS, marks, TUV_MOST_LITERALS);
    if (file == NULL || answer != TUV_WRITTEN) {
        fprintf(stderr, "bench: no table of %s at k %u in " CNF ": %llx\n", line->exercise.name, line->k,
                (unsigned long long)answer);
        exit(1);
    }
    fprintf(file, "p cnf %u %u\n", sizes[TUV_V], sizes[TUV_M]);
    for (uint32_t x = 0; x < sizes[TUV_L]; x++)
        fprintf(file, "%s%u%s", marks[x] & TUV_PLAIN ? "" : "-", variables[x], marks[x] & TUV_CLOSING ? " 0\n" : " ");
    fclose(file);
    return sizes[TUV_L];
}

static bool satisfies(const struct line *line, const uint8_t *recording)
{
    const char *text = line->exercise.text;
    return plain_evaluate((const uint8_t *)text, strlen(text), line->c, line->k, 0, line->k, recording, line->k) == TUV_YES;
}

/* The engine's answer, if the plain queue's is the same and the solvers' are. A search that is spent says nothing that a solver
 * could contradict. */
static uint64_t agreed(const struct line *line)
{
    uint8_t recording[2][STEPS] = {{0}};
    uint64_t answer = search(line, ENGINE, recording[ENGINE]);
    uint32_t code = tuv_code(answer);
    bool same = search(line, PLAIN, recording[PLAIN]) == answer && memcmp(recording[ENGINE], recording[PLAIN], STEPS) == 0;
    same &= code == TUV_NONE || code == TUV_SPENT || (code == TUV_FOUND && satisfies(line, recording[ENGINE]));
    for (uint32_t e = PLAIN + 1; e < contestants; e++) {
        uint64_t status = solve(installed[e]);
        same &= code == TUV_SPENT || status == (code == TUV_FOUND ? SATISFIABLE : UNSATISFIABLE);
    }
    if (same)
        return answer;
    fprintf(stderr, "bench: search for %s at k %u: the engine answers %u, %u tries, and that is not so\n", line->exercise.name,
            line->k, code, tuv_value(answer));
    exit(1);
}

/* The engine's time beside that of the solver that is quickest. */
static double beside_solvers(const struct timing *timing)
{
    double ratio = 0;
    for (uint32_t e = PLAIN + 1; e < contestants; e++)
        if (timing->ratio[e] > ratio)
            ratio = timing->ratio[e];
    return ratio;
}

static void weigh(const struct line *line, uint32_t code, const struct timing *timing, double micros)
{
    const char *name = line->exercise.name;
    if (line->counts_for & CLASS && line->k == STEPS && code == TUV_FOUND)
        misses(&goals[BESIDE_SOLVERS], beside_solvers(timing), name, line->k);
    if (line->counts_for & MANY_TRIES)
        misses(&goals[BESIDE_SOLVERS_LONG], beside_solvers(timing), name, line->k);
    misses(&goals[BESIDE_BEFORE], micros / line->before, name, line->k);
    misses(&goals[BESIDE_QUEUE], timing->ratio[PLAIN], name, line->k);
}

static const char *name_of(uint32_t code) { return code == TUV_FOUND ? "found" : code == TUV_NONE ? "none" : "spent"; }

/* Times a line, prints it, and gives the engine's microseconds a try. */
static double show(const struct line *line)
{
    uint32_t literals = write_table(line);
    uint64_t answer = agreed(line);
    uint32_t code = tuv_code(answer), tries = tuv_value(answer);
    struct timing timing = measure(ask, line, contestants);
    double micros = 1e6 * timing.best[ENGINE] / tries;
    printf("%-20s  %u  %2u  %8u  %-5s  %6u  %8.3f  %8.2f  %8.2f  %8.2f  %6.1f  %6.2f", line->exercise.name, line->c, line->k,
           literals, name_of(code), tries, 1e3 * timing.best[ENGINE], micros, 1e6 * timing.best[PLAIN] / tries, line->before,
           line->before / micros, timing.ratio[PLAIN]);
    for (uint32_t e = PLAIN + 1; e < contestants; e++)
        printf("  %7.3f%s", timing.ratio[e], code == TUV_SPENT ? "+" : " ");
    puts("");
    fflush(stdout);
    weigh(line, code, &timing, micros);
    return micros;
}

static bool is_at(const struct line *line, const char *text, uint32_t k)
{
    return line->k == k && strcmp(line->exercise.text, text) == 0;
}

/* Of each formula that is timed at k 16 and, in the line after it, at k 32. */
static void show_growth(const double *micros, size_t lines)
{
    for (size_t x = 1; x < lines; x++) {
        const struct exercise *exercise = &LINES[x].exercise;
        if (!is_at(&LINES[x - 1], exercise->text, STEPS / 2) || !is_at(&LINES[x], exercise->text, STEPS))
            continue;
        double power = log2(micros[x] / micros[x - 1]);
        printf("%-20s  a try's time grows with k to the power %.2f\n", exercise->name, power);
        misses(&goals[GROWTH], power, exercise->name, STEPS);
    }
}

static void find_solvers(void)
{
    write_table(&LINES[0]);
    for (size_t s = 0; s < sizeof SOLVERS / sizeof *SOLVERS; s++)
        if (solve(&SOLVERS[s]) != NOT_INSTALLED)
            installed[contestants++] = &SOLVERS[s];
        else
            printf("%s is not on this machine, and left out.\n", SOLVERS[s].name);
}

static void show_head(void)
{
    puts("Milliseconds of one call of the engine in the best round, in which it finds the first recording and counts the tries;");
    puts("spent where a limit ended it. Microseconds a try of the engine, of the plain queue in C and of the search of before,");
    puts("which went through the table (on the machine of docs/PERFORMANCE.md); how many times quicker than that the engine is.");
    puts("Ratios: the engine's time to the plain queue's and to a solver's, the medians over rounds in turn, + where the");
    puts("engine's would be longer. A solver's time is its process's, from start to end: it reads the same table as a file,");
    puts("which is written before, and finds any model, not the first, and no count. All times are the processor's.");
    printf("%-20s  %s  %2s  %8s  %-5s  %6s  %8s  %8s  %8s  %8s  %6s  %6s", "formula", "C", "k", "literals", "", "tries", "ms",
           "engine", "queue", "before", "times", "/queue");
    for (uint32_t e = PLAIN + 1; e < contestants; e++)
        printf("  %7s ", installed[e]->name);
    puts("");
}

int main(void)
{
    enum { COUNT = sizeof LINES / sizeof *LINES };
    double micros[COUNT];
    find_solvers();
    show_head();
    for (size_t x = 0; x < COUNT; x++)
        micros[x] = show(&LINES[x]);
    show_growth(micros, COUNT);
    for (size_t g = contestants > PLAIN + 1 ? 0 : BESIDE_BEFORE; g < GOALS; g++)
        report(&goals[g]);
    return 0;
}
