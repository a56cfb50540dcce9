/* The calls as the firmware of an oscilloscope uses them, and then each edge of tests/edges.txt, whose path is the argument. The answers
   are worked out by hand from document 01. */
#include "firmware.h"

#include <stdio.h>
#include <stdlib.h>
#include <string.h>

_Static_assert(TUV_NO == 64 && TUV_YES == 65 && TUV_WRITTEN == 66 && TUV_ACCEPTED == 67 && TUV_FOUND == 68 && TUV_NONE == 69 &&
                   TUV_SPENT == 70 && TUV_NODE_TEXT == 71 && TUV_ASSIGNMENT_LENGTH == 12 && TUV_ASSIGNMENT == 13 &&
                   TUV_CLAUSE == 14 && TUV_FILE_LENGTH == 15 && TUV_FILE_NUMBERS == 16 && TUV_FILE_CLAUSES == 17 &&
                   TUV_ROOM == 18 && TUV_SIZES == 5 && TUV_PLAIN == 1 && TUV_CLOSING == 2,
               "the numbers that firmware in the field is built with");
_Static_assert(TUV_STRIP_LINE == 39 && TUV_STRIP_BYTES(1) == 78 && TUV_STRIP_BYTES(8) == 351, "the bytes of a strip and its lines");
_Static_assert(TUV_FILE_BYTES(21) == 125 && TUV_FILE_BYTES(UINT32_MAX) == 21474836495, "the bytes of a file, of the longest too");

static unsigned passed, failed;

void count(int is_so, const char *what)
{
    if (is_so) {
        passed++;
    } else {
        failed++;
        printf("FAILED: %s\n", what);
    }
}

void trying(const char *what)
{
    printf("trying %s\n", what);
    fflush(stdout);
}

void check(const char *name, uint64_t answer, int same, uint32_t code, uint32_t value)
{
    char what[4096];
    snprintf(what, sizeof what, "%s: answered %u at %u, wanted %u at %u%s", name, tuv_code(answer), tuv_value(answer), code, value,
             same ? "" : "; what was lent has changed");
    count(same && tuv_code(answer) == code && tuv_value(answer) == value, what);
}

void *lend_output(size_t size)
{
    if (size == 0)
        return NULL;
    void *block = malloc(size);
    if (block == NULL)
        abort();
    return memset(block, UNWRITTEN, size);
}

/* The Exercise key: the student's formula on what was recorded, and then its parts, one by one. */
static void exercise(void)
{
    static const char text[] = "(#a>=2;#b>=1)";
    static const char *const parts[] = {text, "#a>=2", "a", "#b>=1", "b"};
    static const uint8_t recording[8] = {0, 0, 0, 0, 0, 1, 1, 2};
    const uint8_t *bytes = (const uint8_t *)text;
    const size_t length = sizeof text - 1;
    uint32_t node = 1;
    uint64_t answer;

    trying("evaluation and nodes of an exercise");
    answer = tuv_evaluate(bytes, length, 2, 8, 0, 8, recording, sizeof recording);
    count(tuv_code(answer) == TUV_YES, "a twice and then b once is satisfied");
    answer = tuv_evaluate(bytes, length, 2, 8, 0, 7, recording, sizeof recording);
    count(tuv_code(answer) == TUV_NO, "without the last sample it is not");

    for (; tuv_code(answer = tuv_node_text(bytes, length, 2, 8, node)) == TUV_NODE_TEXT; node++) {
        uint32_t start = tuv_node_first(answer), size = tuv_node_length(answer);
        int is_so = node <= 5 && size == strlen(parts[node - 1]) && memcmp(text + start, parts[node - 1], size) == 0;
        count(is_so, "each part has its own text");
    }
    count(node == 6 && tuv_code(answer) == 8, "there are five parts");
}

/* Of `#a>=1`, c 1, k 1: channel a at its one instant; level 0 on the three intervals; level 1 on them; the node `a`. */
static const uint8_t LOW_EXTENDED[8] = {0, 1, 1, 1, 0, 0, 0, 0}, HIGH_EXTENDED[8] = {1, 1, 1, 1, 0, 1, 0, 1};

/* Whether an assignment of eight variables meets every clause of a table, as a reader of it goes about it. */
static int meets(const uint32_t *sizes, const uint32_t *variables, const uint8_t *marks, const uint8_t *assignment)
{
    uint32_t clauses = 0;
    int met = 0, all = 1;
    for (uint32_t x = 0; x < sizes[TUV_L]; x++) {
        if (variables[x] < 1 || variables[x] > 8)
            return 0;
        met |= assignment[variables[x] - 1] == (marks[x] & TUV_PLAIN);
        if (marks[x] & TUV_CLOSING) {
            all &= met;
            met = 0;
            clauses++;
        }
    }
    return all && clauses == sizes[TUV_M];
}

/* Tables of one formula after another, in arrays that firmware has once and for all. */
static void tables_in_turn(void)
{
    enum { ROOM = 64 };
    static uint32_t sizes[TUV_SIZES], variables[ROOM];
    static uint8_t marks[ROOM];
    const uint8_t *long_one = (const uint8_t *)"(#a>=1;!#a>=1)", *short_one = (const uint8_t *)"#a>=1";

    trying("one table after another");
    for (int turn = 0; turn < 2; turn++) {
        uint64_t answer = tuv_table(short_one, 5, 1, 1, sizes, TUV_SIZES, variables, ROOM, marks, ROOM);
        int is_so = answer == TUV_WRITTEN && sizes[TUV_V] == 8 && sizes[TUV_L] == 21;
        count(is_so, "a table is written, whatever came before");
        if (!is_so)
            return;
        count(meets(sizes, variables, marks, HIGH_EXTENDED), "a high recording meets its clauses");
        count(!meets(sizes, variables, marks, LOW_EXTENDED), "a low recording does not");
        answer = tuv_table(long_one, 14, 1, 1, sizes, TUV_SIZES, variables, ROOM, marks, ROOM);
        count(answer == TUV_ROOM && sizes[TUV_L] == 21, "a longer table has no room, and the other still stands");
        count(meets(sizes, variables, marks, HIGH_EXTENDED), "with every literal");
    }
}

/* What one oscilloscope recorded reaches another as an assignment, and is accepted there or not. */
static void recording_to_assignment_to_recording(void)
{
    static const uint8_t text[] = {'(', '#', 'a', '>', '=', '2', ';', '#', 'b', '>', '=', '1', ')'};
    /* The channels; the chop on 10 intervals and 20 triples; three levels and `a`; two levels and `b`. */
    enum { K = 3, V = 2 * K + 10 + 20 + 3 * 10 + K + 2 * 10 + K };
    static const uint8_t satisfies[K] = {1, 1, 2}, does_not[K] = {1, 2, 1};
    static uint8_t assignment[V], recording[K];
    uint64_t answer;

    trying("an extension and its check");
    answer = tuv_extend(text, sizeof text, 2, K, satisfies, K, assignment, V);
    count(answer == TUV_WRITTEN, "a recording is extended");
    answer = tuv_check(text, sizeof text, 2, K, assignment, V, recording, K);
    count(answer == TUV_ACCEPTED && memcmp(recording, satisfies, K) == 0, "and is accepted as it was");
    answer = tuv_extend(text, sizeof text, 2, K, does_not, K, assignment, V);
    count(answer == TUV_WRITTEN, "so is one that does not satisfy the formula");
    answer = tuv_check(text, sizeof text, 2, K, assignment, V, recording, K);
    count(tuv_code(answer) == TUV_CLAUSE && memcmp(recording, satisfies, K) == 0, "and is not accepted");
}

/* The key that draws: one search after another in arrays that firmware has once and for all, and what is drawn is judged. */
static void searches_in_turn(void)
{
    enum { K = 8, LITERALS = 4000, VARIABLES = 600 };
    static uint32_t variables[LITERALS], trail[VARIABLES];
    static uint8_t marks[LITERALS], values[VARIABLES], recording[K];
    static const struct {
        const char *text;
        uint32_t limit;
        uint64_t answer;
        uint8_t recording[K];
    } drawn[] = {
        {"(#a>=2;#b>=1)", 100, TUV_FOUND + (13ull << 32), {0, 0, 0, 0, 0, 1, 1, 2}},
        {"(#a>=2;#b>=1)", 12, TUV_SPENT + (12ull << 32), {0, 0, 0, 0, 0, 1, 1, 2}},
        {"[(a&!b)]", 0, TUV_FOUND, {1, 1, 1, 1, 1, 1, 1, 1}},
        {"([a]&#!a>=1)", 100, TUV_NONE, {1, 1, 1, 1, 1, 1, 1, 1}},
        {"T", 100, TUV_FOUND + (16ull << 32), {0}},
    };

    for (size_t x = 0; x < sizeof drawn / sizeof *drawn; x++) {
        const uint8_t *text = (const uint8_t *)drawn[x].text;
        const size_t length = strlen(drawn[x].text);
        trying(drawn[x].text);
        uint64_t answer = tuv_search(text, length, 2, K, drawn[x].limit, variables, LITERALS, marks, LITERALS, values, VARIABLES,
                                     trail, VARIABLES, recording, K);
        check(drawn[x].text, answer, memcmp(recording, drawn[x].recording, K) == 0, tuv_code(drawn[x].answer),
              tuv_value(drawn[x].answer));
        if (tuv_code(answer) == TUV_FOUND)
            count(tuv_evaluate(text, length, 2, K, 0, K, recording, K) == TUV_YES, "what is drawn satisfies the formula");
    }
}

/* What was drawn is printed for the notebook, one strip after another in a buffer that firmware has once and for all. */
static void strips_in_turn(void)
{
    static const uint8_t drawn[8] = {0, 0, 0, 0, 0, 1, 1, 2}, longer[12] = {1, 1, 1, 1, 1, 1, 1, 1, 1, 1, 0, 1};
    static const char first[] = "  01234567                            \n"
                                "a _____##_                           2\n"
                                "b _______#                           1\n";
    static const char then[] = "  012345678901                        \n"
                               "a ##########_#                      11\n"
                               "b _______#                           1\n";
    static uint8_t strip[TUV_STRIP_BYTES(8)];
    static const uint8_t untouched[sizeof strip - TUV_STRIP_BYTES(2)];
    enum { BYTES = sizeof first - 1 };
    uint64_t answer;

    trying("strips one after another");
    answer = tuv_strip(2, 8, drawn, 8, strip, sizeof strip);
    check("two channels", answer, memcmp(strip, first, BYTES) == 0, TUV_WRITTEN, BYTES);
    answer = tuv_strip(1, 8, drawn, 8, strip, sizeof strip);
    check("one channel, and a sample of b", answer, memcmp(strip, first, BYTES) == 0, TUV_RECORDING, 7);
    answer = tuv_strip(2, 12, longer, 8, strip, sizeof strip);
    check("12 steps, and 8 samples", answer, memcmp(strip, first, BYTES) == 0, TUV_RECORDING_LENGTH, 0);
    answer = tuv_strip(3, 12, longer, 12, strip, BYTES);
    check("three channels, and no room", answer, memcmp(strip, first, BYTES) == 0, TUV_ROOM, 0);
    answer = tuv_strip(1, 12, longer, 12, strip, sizeof strip);
    check("one channel, and the line of b still there", answer, memcmp(strip, then, BYTES) == 0, TUV_WRITTEN, 78);
    count(memcmp(strip + BYTES, untouched, sizeof untouched) == 0, "what is beyond a strip is as it was");
}

/* The header's numbers for a firmware that has room for every formula. */
static void largest_table(void)
{
    char text[21 * 8 + 1 + 21 + 1] = "";
    uint32_t sizes[TUV_SIZES], *variables = lend_output(4 * (size_t)TUV_MOST_LITERALS);
    uint32_t *trail = lend_output(4 * (size_t)TUV_MOST_VARIABLES);
    uint8_t *marks = lend_output(TUV_MOST_LITERALS), *assignment = lend_output(TUV_MOST_VARIABLES);
    uint8_t recording[32] = {0};
    uint64_t answer;

    for (int i = 0; i < 21; i++)
        strcat(text, "(#a>=32;");
    strcat(text, "T");
    for (int i = 0; i < 21; i++)
        strcat(text, ")");
    trying("the largest table");
    answer = tuv_table((const uint8_t *)text, strlen(text), 8, 32, sizes, TUV_SIZES, variables, TUV_MOST_LITERALS, marks,
                       TUV_MOST_LITERALS);
    count(answer == TUV_WRITTEN && sizes[TUV_C] == 8 && sizes[TUV_K] == 32 && sizes[TUV_V] == TUV_MOST_VARIABLES &&
              sizes[TUV_M] == TUV_MOST_CLAUSES && sizes[TUV_L] == TUV_MOST_LITERALS,
          "the largest table is as large as the header says");
    answer = tuv_table((const uint8_t *)text, strlen(text), 8, 32, sizes, TUV_SIZES, variables, TUV_MOST_LITERALS - 1, marks,
                       TUV_MOST_LITERALS);
    count(answer == TUV_ROOM, "and no smaller");

    trying("the largest assignment");
    answer = tuv_extend((const uint8_t *)text, strlen(text), 8, 32, recording, 32, assignment, TUV_MOST_VARIABLES - 1);
    count(answer == TUV_ROOM && assignment[0] == UNWRITTEN, "the largest assignment is no smaller either");
    answer = tuv_extend((const uint8_t *)text, strlen(text), 8, 32, recording, 32, assignment, TUV_MOST_VARIABLES);
    count(answer == TUV_WRITTEN, "and has as many variables as the header says");
    answer = tuv_check((const uint8_t *)text, strlen(text), 8, 32, assignment, TUV_MOST_VARIABLES, recording, 32);
    count(tuv_code(answer) == TUV_CLAUSE && tuv_value(answer) == TUV_MOST_CLAUSES - 1, "and misses the last clause alone");

    trying("the longest trail");
    answer = tuv_search((const uint8_t *)text, strlen(text), 8, 32, 0, variables, TUV_MOST_LITERALS, marks, TUV_MOST_LITERALS,
                        assignment, TUV_MOST_VARIABLES, trail, TUV_MOST_VARIABLES - 1, recording, 32);
    count(answer == TUV_ROOM, "the longest trail is no shorter");
    answer = tuv_search((const uint8_t *)text, strlen(text), 8, 32, 0, variables, TUV_MOST_LITERALS, marks, TUV_MOST_LITERALS,
                        assignment, TUV_MOST_VARIABLES, trail, TUV_MOST_VARIABLES, recording, 32);
    count(answer == TUV_NONE, "there is room for every search, and no recording of this formula");
    free(variables);
    free(trail);
    free(marks);
    free(assignment);
}

/* An exercise leaves one oscilloscope as a file, and another reads it, in arrays that firmware has once and for all. */
static void table_to_file_to_table(void)
{
    enum { ROOM = 64 };
    static uint32_t sizes[TUV_SIZES], variables[ROOM], read_sizes[TUV_SIZES], read_variables[ROOM];
    static uint8_t marks[ROOM], read_marks[ROOM], file[TUV_FILE_BYTES(ROOM)];

    trying("a file of (T;F)");
    uint64_t answer = tuv_table((const uint8_t *)"(T;F)", 5, 2, 1, sizes, TUV_SIZES, variables, ROOM, marks, ROOM);
    const uint32_t c = sizes[TUV_C], k = sizes[TUV_K], v = sizes[TUV_V], m = sizes[TUV_M], l = sizes[TUV_L];
    count(answer == TUV_WRITTEN, "there is a table");
    if (answer != TUV_WRITTEN)
        return;
    answer = tuv_write_file(c, k, v, m, l, variables, l, marks, l, file, sizeof file);
    count(answer == TUV_WRITTEN, "a table is written to a file");
    answer = tuv_read_file(file, TUV_FILE_BYTES(l), read_sizes, TUV_SIZES, read_variables, ROOM, read_marks, ROOM);
    count(answer == TUV_WRITTEN && memcmp(read_sizes, sizes, sizeof sizes) == 0 &&
              memcmp(read_variables, variables, sizeof variables) == 0 && memcmp(read_marks, marks, sizeof marks) == 0,
          "and read from it as it was");
    answer = tuv_read_file(file, sizeof file, read_sizes, TUV_SIZES, read_variables, ROOM, read_marks, ROOM);
    count(answer == TUV_FILE_LENGTH, "the buffer is longer than the file");
    answer = tuv_write_file(c, k, v, m, l, variables, ROOM, marks, ROOM, file, sizeof file);
    count(answer == TUV_FILE_LENGTH, "and the arrays are longer than the table");
}

int main(int arguments, char **argument)
{
    if (arguments != 2)
        return 2;
    exercise();
    tables_in_turn();
    recording_to_assignment_to_recording();
    searches_in_turn();
    strips_in_turn();
    largest_table();
    table_to_file_to_table();
    edges(argument[1]);
    printf("%u passed, %u failed\n", passed, failed);
    return failed != 0;
}
