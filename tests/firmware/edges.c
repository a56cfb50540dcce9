/* Tries the lines of tests/edges.txt, which says itself how they are written. What is lent are heap blocks of exact size, null where
   empty, and compared after every call. A new call is a function below, and a line in KINDS. */
#include "firmware.h"

#include <ctype.h>
#include <stdio.h>
#include <stdlib.h>
#include <string.h>

enum { LONGEST_LINE = 2048, MOST = 512 };

/* What a call is lent, and what it should have written. */

static uint8_t *lend(const void *bytes, size_t length)
{
    return length == 0 ? NULL : memcpy(lend_output(length), bytes, length);
}

/* Is the block as it was lent? It is freed. */
static int unchanged(void *block, const void *bytes, size_t length)
{
    int same = length == 0 || memcmp(block, bytes, length) == 0;
    free(block);
    return same;
}

/* Does the block have these bytes first, and is it beyond them as it was lent? It is freed. */
static int written(void *block, const void *bytes, size_t length, size_t size)
{
    const uint8_t *at = block;
    int same = length == 0 || memcmp(at, bytes, length) == 0;
    for (size_t x = length; x < size; x++)
        same &= at[x] == UNWRITTEN;
    free(block);
    return same;
}

/* A line's columns, one after the other. */

static const char *line;
static char *rest;

static void malformed(const char *why)
{
    printf("FAILED: tests/edges.txt: %s: %s\n", why, line);
    exit(2);
}

/* What stands before the next such sign or the end, cut off. */
static char *cut(char **from, const char *sign)
{
    char *first = *from, *end = first + strcspn(first, sign);
    *from = *end == '\0' ? NULL : end + 1;
    *end = '\0';
    return first;
}

static char *column(void)
{
    if (rest == NULL)
        malformed("a column is missing");
    return cut(&rest, " ");
}

static uint32_t number(const char *word)
{
    char *end;
    unsigned long n = strtoul(word, &end, 10);
    if (!isdigit((unsigned char)*word) || *end != '\0' || n > UINT32_MAX)
        malformed("no number");
    return (uint32_t)n;
}

/* As many as there are, with commas between them. */
static size_t numbers(char *word, uint32_t *to)
{
    size_t n = 0;
    if (strcmp(word, "-") == 0)
        return 0;
    while (word != NULL && n < MOST)
        to[n++] = number(cut(&word, ","));
    if (word != NULL)
        malformed("too many numbers");
    return n;
}

static void exactly(char *word, uint32_t *to, size_t many)
{
    uint32_t all[MOST];
    if (numbers(word, all) != many)
        malformed("more or fewer numbers");
    memcpy(to, all, many * sizeof *to);
}

struct bytes {
    size_t length;
    uint8_t bytes[MOST];
};

static void put(struct bytes *to, uint32_t byte)
{
    if (to->length == MOST)
        malformed("too many bytes");
    to->bytes[to->length++] = (uint8_t)byte;
}

static void put_pair(struct bytes *to, const char *word)
{
    char pair[3] = {word[0], word[0] == '\0' ? '\0' : word[1], '\0'}, *end;
    unsigned long byte = strtoul(pair, &end, 16);
    if (end != pair + 2)
        malformed("no two digits");
    put(to, (uint32_t)byte);
}

/* How a byte is written. */
enum unit { CHARACTER, DIGIT, PAIR, DRAWN };

/* One byte, the bytes of numbers, or a dot; and what follows. */
static const char *spell(const char *word, enum unit unit, struct bytes *to)
{
    if (word[0] == '\\' && word[1] == 'x') {
        put_pair(to, word + 2);
        return word + 4;
    }
    if (unit == CHARACTER) {
        put(to, (uint8_t)*word);
        return word + 1;
    }
    if (unit == DRAWN) {
        put(to, *word == '.' ? ' ' : *word == '|' ? '\n' : (uint8_t)*word);
        return word + 1;
    }
    if (*word == '.')
        return word + 1;
    if (*word == '<') {
        do {
            char *end;
            unsigned long n = strtoul(word + 1, &end, 10);
            for (int bits = 0; bits < 32; bits += 8)
                put(to, n >> bits & 255);
            word = end;
        } while (*word == ',');
        if (*word != '>')
            malformed("no end of numbers");
        return word + 1;
    }
    if (unit == PAIR) {
        put_pair(to, word);
        return word + 2;
    }
    if (!isdigit((unsigned char)*word))
        malformed("no digit");
    put(to, (uint32_t)(*word - '0'));
    return word + 1;
}

static struct bytes spelt(const char *word, enum unit unit)
{
    struct bytes to = {0};
    while (*word != '\0' && strcmp(word, "-") != 0) {
        if (*word != '{') {
            word = spell(word, unit, &to);
            continue;
        }
        char *star;
        unsigned long times = strtoul(word + 1, &star, 10);
        if (*star != '*' || times == 0 || strchr(star, '}') == NULL)
            malformed("nothing is repeated");
        for (; times > 0; times--)
            for (word = star + 1; *word != '}';)
                word = spell(word, unit, &to);
        word++;
    }
    return to;
}

/* Sizes and arrays, whether they are a table's or not. */
struct table {
    uint32_t sizes[TUV_SIZES], variables[MOST];
    size_t count;
    struct bytes marks;
};

/* Clauses, (-2,1)(2,-1), as variables and marks. */
static void read_clauses(char *word, struct table *table)
{
    while (word != NULL && *word == '(') {
        char *clause = cut(&word, ")") + 1;
        while (clause != NULL) {
            char *literal = cut(&clause, ",");
            const int is_plain = *literal != '-';
            if (table->count == MOST)
                malformed("too many literals");
            table->variables[table->count++] = number(is_plain ? literal : literal + 1);
            put(&table->marks, (is_plain ? TUV_PLAIN : 0) + (clause == NULL ? TUV_CLOSING : 0));
        }
    }
    if (word != NULL && *word != '\0')
        malformed("no clauses");
}

static struct table read_table(void)
{
    struct table table = {0};
    exactly(column(), table.sizes, TUV_SIZES);
    char *word = column();
    if (*word == '(') {
        read_clauses(word, &table);
    } else if (strcmp(word, "-") != 0) {
        table.count = numbers(cut(&word, "/"), table.variables);
        if (word == NULL)
            malformed("no marks");
        table.marks = spelt(word, DIGIT);
    }
    return table;
}

/* What a text is asked with. */
struct text {
    uint32_t c, k;
    struct bytes bytes;
};

static struct text read_text(void)
{
    struct text text = {.c = number(column())};
    text.k = number(column());
    text.bytes = spelt(column(), CHARACTER);
    return text;
}

struct answer {
    uint32_t code, value;
};

static struct answer read_answer(void)
{
    static const struct {
        const char *name;
        uint32_t code;
    } ANSWERS[] = {{"no", TUV_NO},       {"yes", TUV_YES},   {"written", TUV_WRITTEN}, {"accepted", TUV_ACCEPTED},
                   {"found", TUV_FOUND}, {"none", TUV_NONE}, {"spent", TUV_SPENT},     {"part", TUV_NODE_TEXT}};
    char *value = column(), *name = cut(&value, ":");
    struct answer answer = {0, 0};
    for (size_t x = 0; x < sizeof ANSWERS / sizeof *ANSWERS; x++)
        if (strcmp(name, ANSWERS[x].name) == 0)
            answer.code = ANSWERS[x].code;
    if (answer.code == 0)
        answer.code = number(name);
    if (value != NULL)
        answer.value = number(cut(&value, "+"));
    if (value != NULL)
        answer.value += 256 * number(value);
    return answer;
}

/* The columns after it are what is written. */
static int is_written(struct answer answer)
{
    return answer.code == TUV_WRITTEN || answer.code == TUV_ACCEPTED || answer.code == TUV_FOUND;
}

static const struct bytes NOTHING;
static const struct table NO_TABLE;

/* The calls. */

static void evaluate(const struct text *text, uint32_t i, uint32_t j, const struct bytes *recording, struct answer wanted)
{
    const struct bytes *t = &text->bytes;
    uint8_t *lent_text = lend(t->bytes, t->length), *lent = lend(recording->bytes, recording->length);
    uint64_t answer = tuv_evaluate(lent_text, t->length, text->c, text->k, i, j, lent, recording->length);
    int same = unchanged(lent_text, t->bytes, t->length) & unchanged(lent, recording->bytes, recording->length);
    check(line, answer, same, wanted.code, wanted.value);
}

static void node_text(const struct text *text, uint32_t node, struct answer wanted)
{
    const struct bytes *t = &text->bytes;
    uint8_t *lent_text = lend(t->bytes, t->length);
    uint64_t answer = tuv_node_text(lent_text, t->length, text->c, text->k, node);
    check(line, answer, unchanged(lent_text, t->bytes, t->length), wanted.code, wanted.value);
}

/* The three arrays of a table, to be written. */
struct lent_table {
    const uint32_t *lengths;
    uint32_t *sizes, *variables;
    uint8_t *marks;
};

static struct lent_table lend_table(const uint32_t lengths[3])
{
    return (struct lent_table){lengths, lend_output(4 * (size_t)lengths[0]), lend_output(4 * (size_t)lengths[1]),
                               lend_output(lengths[2])};
}

static int table_written(struct lent_table *lent, const struct table *wanted)
{
    const uint32_t *lengths = lent->lengths;
    const size_t sizes = wanted == &NO_TABLE ? 0 : sizeof wanted->sizes;
    return written(lent->sizes, wanted->sizes, sizes, 4 * (size_t)lengths[0]) &
           written(lent->variables, wanted->variables, 4 * wanted->count, 4 * (size_t)lengths[1]) &
           written(lent->marks, wanted->marks.bytes, wanted->marks.length, lengths[2]);
}

static void table(const struct text *text, const uint32_t room[3], struct answer wanted, const struct table *table)
{
    const struct bytes *t = &text->bytes;
    uint8_t *lent_text = lend(t->bytes, t->length);
    struct lent_table lent = lend_table(room);
    uint64_t answer = tuv_table(lent_text, t->length, text->c, text->k, lent.sizes, room[0], lent.variables, room[1], lent.marks,
                                room[2]);
    int same = unchanged(lent_text, t->bytes, t->length) & table_written(&lent, table);
    check(line, answer, same, wanted.code, wanted.value);
}

/* Either call between recordings and assignments, to an array that has so many places. */
typedef uint64_t bytes_to_bytes(const uint8_t *, size_t, uint32_t, uint32_t, const uint8_t *, size_t, uint8_t *, size_t);

static void convert(bytes_to_bytes *call, const struct text *text, const struct bytes *bytes, size_t room, struct answer wanted,
                    const struct bytes *converted)
{
    const struct bytes *t = &text->bytes;
    uint8_t *lent_text = lend(t->bytes, t->length), *lent = lend(bytes->bytes, bytes->length), *output = lend_output(room);
    uint64_t answer = call(lent_text, t->length, text->c, text->k, lent, bytes->length, output, room);
    int same = unchanged(lent_text, t->bytes, t->length) & unchanged(lent, bytes->bytes, bytes->length) &
               written(output, converted->bytes, converted->length, room);
    check(line, answer, same, wanted.code, wanted.value);
}

static void search(const struct text *text, uint32_t limit, const uint32_t room[5], struct answer wanted,
                   const struct bytes *found)
{
    const struct bytes *t = &text->bytes;
    uint8_t *lent_text = lend(t->bytes, t->length), *marks = lend_output(room[1]), *values = lend_output(room[2]);
    uint32_t *variables = lend_output(4 * (size_t)room[0]), *trail = lend_output(4 * (size_t)room[3]);
    uint8_t *recording = lend_output(room[4]);
    uint64_t answer = tuv_search(lent_text, t->length, text->c, text->k, limit, variables, room[0], marks, room[1], values, room[2],
                                 trail, room[3], recording, room[4]);
    /* What was worked in is anything after a search, and as it was after a refusal. */
    const int is_refused = wanted.code <= TUV_ROOM;
    int same = unchanged(lent_text, t->bytes, t->length) & written(recording, found->bytes, found->length, room[4]);
    same &= (written(variables, NULL, 0, 4 * (size_t)room[0]) & written(marks, NULL, 0, room[1]) &
             written(values, NULL, 0, room[2]) & written(trail, NULL, 0, 4 * (size_t)room[3])) |
            !is_refused;
    check(line, answer, same, wanted.code, wanted.value);
}

static void strip(uint32_t c, uint32_t k, const struct bytes *recording, size_t room, struct answer wanted,
                  const struct bytes *drawn)
{
    uint8_t *lent = lend(recording->bytes, recording->length), *output = lend_output(room);
    uint64_t answer = tuv_strip(c, k, lent, recording->length, output, room);
    int same = unchanged(lent, recording->bytes, recording->length) & written(output, drawn->bytes, drawn->length, room);
    check(line, answer, same, wanted.code, wanted.value);
}

static void write_file(const struct table *table, size_t room, struct answer wanted, const struct bytes *file)
{
    const uint32_t *sizes = table->sizes;
    uint8_t *variables = lend(table->variables, 4 * table->count), *marks = lend(table->marks.bytes, table->marks.length);
    uint8_t *output = lend_output(room);
    uint64_t answer = tuv_write_file(sizes[TUV_C], sizes[TUV_K], sizes[TUV_V], sizes[TUV_M], sizes[TUV_L],
                                     (const uint32_t *)variables, table->count, marks, table->marks.length, output, room);
    int same = unchanged(variables, table->variables, 4 * table->count) &
               unchanged(marks, table->marks.bytes, table->marks.length) & written(output, file->bytes, file->length, room);
    check(line, answer, same, wanted.code, wanted.value);
}

static void read_file(const struct bytes *file, const uint32_t room[3], struct answer wanted, const struct table *table)
{
    uint8_t *lent_file = lend(file->bytes, file->length);
    struct lent_table lent = lend_table(room);
    uint64_t answer = tuv_read_file(lent_file, file->length, lent.sizes, room[0], lent.variables, room[1], lent.marks, room[2]);
    int same = unchanged(lent_file, file->bytes, file->length) & table_written(&lent, table);
    check(line, answer, same, wanted.code, wanted.value);
}

/* The lines of one call. */

static void evaluate_line(void)
{
    const struct text text = read_text();
    uint32_t ends[2];
    exactly(column(), ends, 2);
    const struct bytes recording = spelt(column(), PAIR);
    evaluate(&text, ends[0], ends[1], &recording, read_answer());
}

static void node_line(void)
{
    const struct text text = read_text();
    const uint32_t node = number(column());
    node_text(&text, node, read_answer());
}

static void table_line(void)
{
    const struct text text = read_text();
    char *rooms = column();
    const struct answer answer = read_answer();
    const struct table wanted = is_written(answer) ? read_table() : NO_TABLE;
    while (rooms != NULL) {
        uint32_t room[3];
        exactly(cut(&rooms, "|"), room, 3);
        table(&text, room, answer, is_written(answer) ? &wanted : &NO_TABLE);
    }
}

static void convert_line(bytes_to_bytes *call, enum unit from, enum unit to)
{
    const struct text text = read_text();
    const struct bytes bytes = spelt(column(), from);
    char *rooms = column();
    const struct answer answer = read_answer();
    const struct bytes wanted = is_written(answer) ? spelt(column(), to) : NOTHING;
    while (rooms != NULL)
        convert(call, &text, &bytes, number(cut(&rooms, "|")), answer, &wanted);
}

static void extend_line(void) { convert_line(tuv_extend, PAIR, DIGIT); }

static void check_line(void) { convert_line(tuv_check, DIGIT, PAIR); }

static void search_line(void)
{
    const struct text text = read_text();
    char *limits = column(), *rooms = column();
    const struct answer answer = read_answer();
    const struct bytes wanted = is_written(answer) ? spelt(column(), PAIR) : NOTHING;
    uint32_t limit[MOST], room[5];
    size_t many = 0;
    while (limits != NULL && many < MOST)
        limit[many++] = number(cut(&limits, "|"));
    if (limits != NULL)
        malformed("too many limits");
    while (rooms != NULL) {
        exactly(cut(&rooms, "|"), room, 5);
        for (size_t x = 0; x < many; x++)
            search(&text, limit[x], room, answer, &wanted);
    }
}

static void strip_line(void)
{
    const uint32_t c = number(column()), k = number(column());
    const struct bytes recording = spelt(column(), PAIR);
    char *rooms = column();
    const struct answer answer = read_answer();
    const struct bytes wanted = is_written(answer) ? spelt(column(), DRAWN) : NOTHING;
    while (rooms != NULL)
        strip(c, k, &recording, number(cut(&rooms, "|")), answer, &wanted);
}

static void write_line(void)
{
    const struct table table = read_table();
    char *rooms = column();
    const struct answer answer = read_answer();
    const struct bytes wanted = is_written(answer) ? spelt(column(), PAIR) : NOTHING;
    while (rooms != NULL)
        write_file(&table, number(cut(&rooms, "|")), answer, &wanted);
}

static void read_line(void)
{
    const struct bytes file = spelt(column(), PAIR);
    char *rooms = column();
    const struct answer answer = read_answer();
    const struct table wanted = is_written(answer) ? read_table() : NO_TABLE;
    while (rooms != NULL) {
        uint32_t room[3];
        exactly(cut(&rooms, "|"), room, 3);
        read_file(&file, room, answer, is_written(answer) ? &wanted : &NO_TABLE);
    }
}

/* The lines of several calls. */

/* A refused text: whatever else is wrong, where there is no room and where there is. */
static void text_line(void)
{
    static const uint32_t none[5], room[5] = {50, 50, 50, 50, 50};
    static const struct bytes odd = {1, {255}};
    const struct text text = read_text();
    const struct answer answer = read_answer();

    node_text(&text, 0, answer);
    node_text(&text, 1, answer);
    evaluate(&text, 0, 0, &NOTHING, answer);
    evaluate(&text, 1, 0, &odd, answer);
    table(&text, none, answer, &NO_TABLE);
    table(&text, room, answer, &NO_TABLE);
    convert(tuv_extend, &text, &odd, 0, answer, &NOTHING);
    convert(tuv_extend, &text, &NOTHING, 50, answer, &NOTHING);
    convert(tuv_check, &text, &odd, 0, answer, &NOTHING);
    convert(tuv_check, &text, &NOTHING, 50, answer, &NOTHING);
    search(&text, 0, none, answer, &NOTHING);
    search(&text, UINT32_MAX, room, answer, &NOTHING);
}

static void extends_line(void)
{
    static const struct answer is_extended = {TUV_WRITTEN, 0}, no = {TUV_NO, 0}, yes = {TUV_YES, 0};
    const struct text text = read_text();
    const struct bytes recording = spelt(column(), PAIR), assignment = spelt(column(), DIGIT);
    const struct answer answer = read_answer();
    const int holds = is_written(answer);

    convert(tuv_extend, &text, &recording, assignment.length, is_extended, &assignment);
    convert(tuv_check, &text, &assignment, recording.length, answer, holds ? &recording : &NOTHING);
    evaluate(&text, 0, text.k, &recording, holds ? yes : no);
}

static void file_line(void)
{
    const struct table table = read_table();
    const struct bytes file = spelt(column(), PAIR);
    const struct answer answer = read_answer();
    const uint32_t l = (uint32_t)table.count;

    if (is_written(answer)) {
        for (uint32_t more = 0; more <= 3; more += 3) {
            write_file(&table, file.length + more, answer, &file);
            read_file(&file, (uint32_t[]){TUV_SIZES + more, l + more, l + more}, answer, &table);
        }
    } else {
        for (uint32_t room = 0; room <= 99; room += 99) {
            write_file(&table, room, answer, &NOTHING);
            read_file(&file, (uint32_t[]){room, room, room}, answer, &NO_TABLE);
        }
    }
}

static const struct {
    const char *name;
    void (*try)(void);
} KINDS[] = {{"evaluate", evaluate_line}, {"node", node_line},     {"table", table_line},     {"extend", extend_line},
             {"check", check_line},       {"search", search_line}, {"strip", strip_line},     {"write", write_line},
             {"read", read_line},         {"text", text_line},     {"extends", extends_line}, {"file", file_line}};

enum { COUNT = sizeof KINDS / sizeof *KINDS };

void edges(const char *path)
{
    static char whole[LONGEST_LINE], columns[LONGEST_LINE];
    size_t lines[COUNT] = {0};
    FILE *file = fopen(path, "r");

    line = whole;
    if (file == NULL)
        malformed("it is not there");
    while (fgets(whole, sizeof whole, file) != NULL) {
        size_t kind = 0;
        whole[strcspn(whole, "\n")] = '\0';
        if (*whole == '/' || *whole == '\0')
            continue;
        rest = strcpy(columns, whole);
        trying(whole);
        const char *name = column();
        while (kind < COUNT && strcmp(name, KINDS[kind].name) != 0)
            kind++;
        if (kind == COUNT)
            malformed("no such call");
        KINDS[kind].try();
        if (rest != NULL)
            malformed("a column too many");
        lines[kind]++;
    }
    fclose(file);
    for (size_t kind = 0; kind < COUNT; kind++) {
        snprintf(whole, sizeof whole, "tests/edges.txt has a line of %s", KINDS[kind].name);
        count(lines[kind] > 0, whole);
    }
}
