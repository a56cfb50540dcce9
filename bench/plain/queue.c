/* What a competent engineer would write in a week from document 01: a search that never makes the table. The trail is a queue:
 * for each variable that is taken from it, the gates that mention the variable are settled, by the kind of node. */
#include "layout.h"
#include "plain.h"

#include <string.h>

enum { SHORT = 18, FOUND = 68, NONE = 69, SPENT = 70 };

/* A variable's value. */
enum { OPEN, LOW, HIGH };

struct pair {
    uint8_t first, second;
};

/* ends[p] are i and j of the interval at place p. The triples of i begin at start[i]; after d (d + 1) / 2 + e others comes that of
 * j = i + d and m = i + e, and steps[d (d + 1) / 2 + e] are d and e. */
struct search {
    struct formula f;
    uint32_t first[NODES], left[NODES], right[NODES], letters[CHANNELS][NODES], letter_count[CHANNELS], start[STEPS + 1], top;
    uint8_t parent[NODES], *values;
    uint32_t *trail;
    struct pair ends[INTERVALS], steps[INTERVALS];
};

/* Which of n rising numbers is the last that is not above this one? The first is not. */
static inline uint32_t last_up_to(const uint32_t *numbers, uint32_t n, uint32_t number)
{
    uint32_t at = 0, end = n;
    while (at + 1 < end) {
        uint32_t middle = (at + end) / 2;
        if (numbers[middle] <= number)
            at = middle;
        else
            end = middle;
    }
    return at;
}

static inline uint8_t value_of(const struct search *s, uint32_t v) { return s->values[v - 1]; }

/* Says no where the variable has the other value. */
static inline bool put(struct search *s, uint32_t v, uint8_t value)
{
    uint8_t *held = &s->values[v - 1];
    if (*held != OPEN)
        return *held == value;
    *held = value;
    s->trail[s->top++] = v;
    return true;
}

/* Gates: what follows from a gate's clauses is put in. They say no where it clashes. */

static inline uint8_t opposite(uint8_t value) { return LOW + HIGH - value; }

static inline bool settle_equal(struct search *s, uint32_t v, uint32_t x)
{
    uint8_t of_v = value_of(s, v), of_x = value_of(s, x);
    if (of_v != OPEN)
        return put(s, x, of_v);
    return of_x == OPEN || put(s, v, of_x);
}

static inline bool settle_opposite(struct search *s, uint32_t v, uint32_t x)
{
    uint8_t of_v = value_of(s, v), of_x = value_of(s, x);
    if (of_v != OPEN)
        return put(s, x, opposite(of_v));
    return of_x == OPEN || put(s, v, opposite(of_x));
}

/* v is `all` exactly where x and y are: `&` with HIGH, `|` with LOW. */
static inline bool settle_pair(struct search *s, uint8_t all, uint32_t v, uint32_t x, uint32_t y)
{
    uint8_t other = opposite(all), of_v = value_of(s, v), of_x = value_of(s, x), of_y = value_of(s, y);
    if (of_v == all)
        return put(s, x, all) && put(s, y, all);
    if (of_x == other || of_y == other)
        return put(s, v, other);
    if (of_x == all && of_y == all)
        return put(s, v, all);
    if (of_v == OPEN || of_x == of_y)
        return true;
    return of_x == all ? put(s, y, other) : put(s, x, other);
}

static inline bool settle_both(struct search *s, uint32_t v, uint32_t x, uint32_t y) { return settle_pair(s, HIGH, v, x, y); }

/* v is p, or q and t. */
static inline bool settle_step(struct search *s, uint32_t v, uint32_t p, uint32_t q, uint32_t t)
{
    if (value_of(s, p) == HIGH)
        return put(s, v, HIGH);
    if (value_of(s, v) == LOW && !put(s, p, LOW))
        return false;
    if (value_of(s, p) == LOW)
        return settle_both(s, v, q, t);
    uint8_t of_q = value_of(s, q), of_t = value_of(s, t);
    if (of_q == HIGH && of_t == HIGH)
        return put(s, v, HIGH);
    return value_of(s, v) == OPEN || (of_q != LOW && of_t != LOW) || put(s, p, HIGH);
}

/* (-v w ... w), n of w: all but one of the literals may be opposed. */
static inline bool settle_some(struct search *s, uint32_t v, uint32_t w, uint32_t n)
{
    if (value_of(s, v) == LOW)
        return true;
    uint32_t last = 0;
    for (uint32_t e = 0; e < n; e++)
        if (value_of(s, w + e) != LOW) {
            if (last != 0 || value_of(s, v) == OPEN)
                return true;
            last = w + e;
        }
    return last != 0 ? put(s, last, HIGH) : put(s, v, LOW);
}

/* Nodes: the gates of a node's own block that mention its variable at a position or place, or one of a part's. */

static inline bool settle_level(struct search *s, uint32_t x, uint32_t level, uint32_t place)
{
    const struct formula *f = &s->f;
    struct pair ends = s->ends[place];
    uint32_t v = s->first[x] + level * f->intervals + place, p = v - 1;
    if (level == 0 || ends.first == ends.second)
        return true;
    return settle_step(s, v, p, p - f->intervals, s->left[x] + ends.second - 1);
}

static bool duration_own(struct search *s, uint32_t x, uint32_t position)
{
    const struct formula *f = &s->f;
    uint32_t level = position / f->intervals, place = position % f->intervals;
    if (!settle_level(s, x, level, place))
        return false;
    if (s->ends[place].second == f->k)
        return true;
    return settle_level(s, x, level, place + 1) && (level == f->nodes[x].number || settle_level(s, x, level + 1, place + 1));
}

static bool duration_part(struct search *s, uint32_t x, uint32_t instant)
{
    const struct formula *f = &s->f;
    for (uint32_t i = 0; i <= instant; i++)
        for (uint32_t level = 1; level <= f->nodes[x].number; level++)
            if (!settle_level(s, x, level, f->row[i] + instant + 1))
                return false;
    return true;
}

static inline bool settle_throughout(struct search *s, uint32_t x, uint32_t place)
{
    struct pair ends = s->ends[place];
    uint32_t steps = ends.second - ends.first, v = s->first[x] + place, t = s->left[x] + ends.second - 1;
    if (steps <= 1)
        return steps == 0 || settle_equal(s, v, t);
    return settle_both(s, v, v - 1, t);
}

static bool throughout_own(struct search *s, uint32_t x, uint32_t place)
{
    return settle_throughout(s, x, place) && (s->ends[place].second == s->f.k || settle_throughout(s, x, place + 1));
}

static bool throughout_part(struct search *s, uint32_t x, uint32_t instant)
{
    for (uint32_t i = 0; i <= instant; i++)
        if (!settle_throughout(s, x, s->f.row[i] + instant + 1))
            return false;
    return true;
}

/* The first variable of [i, i + d]'s triples. */
static inline uint32_t triples_of(const struct search *s, uint32_t x, uint32_t i, uint32_t d)
{
    return s->first[x] + s->f.intervals + s->start[i] + d * (d + 1) / 2;
}

static inline bool settle_triple(struct search *s, uint32_t x, uint32_t i, uint32_t m, uint32_t j)
{
    const struct formula *f = &s->f;
    uint32_t l = s->left[x] + f->row[i] + m, r = s->right[x] + f->row[m] + j;
    return settle_both(s, triples_of(s, x, i, j - i) + m - i, l, r);
}

static bool chop_interval(struct search *s, uint32_t x, uint32_t place)
{
    struct pair ends = s->ends[place];
    uint32_t d = ends.second - ends.first, v = s->first[x] + place, w = triples_of(s, x, ends.first, d);
    if (value_of(s, v) == HIGH)
        return settle_some(s, v, w, d + 1);
    for (uint32_t e = 0; e <= d; e++)
        if (!put(s, w + e, LOW))
            return false;
    return true;
}

static bool chop_triple(struct search *s, uint32_t x, uint32_t number)
{
    const struct formula *f = &s->f;
    uint32_t i = last_up_to(s->start, f->k + 1, number);
    struct pair steps = s->steps[number - s->start[i]];
    uint32_t d = steps.first, e = steps.second, v = s->first[x] + f->row[i] + i + d, w = triples_of(s, x, i, d);
    if (!settle_triple(s, x, i, i + e, i + d))
        return false;
    return value_of(s, w + e) == HIGH ? put(s, v, HIGH) : settle_some(s, v, w, d + 1);
}

static bool chop_left(struct search *s, uint32_t x, struct pair ends)
{
    for (uint32_t j = ends.second; j <= s->f.k; j++)
        if (!settle_triple(s, x, ends.first, ends.second, j))
            return false;
    return true;
}

static bool chop_right(struct search *s, uint32_t x, struct pair ends)
{
    for (uint32_t i = 0; i <= ends.first; i++)
        if (!settle_triple(s, x, i, ends.first, ends.second))
            return false;
    return true;
}

static inline bool settle_place(struct search *s, uint32_t x, uint32_t place)
{
    const struct formula *f = &s->f;
    uint32_t v = s->first[x] + place;
    switch (f->nodes[x].kind) {
    case LETTER:
        return settle_equal(s, v, 1 + place * f->c + f->nodes[x].number);
    case NOT:
        return settle_opposite(s, v, s->left[x] + place);
    case AND:
        return settle_pair(s, HIGH, v, s->left[x] + place, s->right[x] + place);
    case OR:
        return settle_pair(s, LOW, v, s->left[x] + place, s->right[x] + place);
    default: /* a constant, which was put in at the start */
        return true;
    }
}

static bool settle_own(struct search *s, uint32_t x, uint32_t position)
{
    uint32_t intervals = s->f.intervals;
    switch (s->f.nodes[x].kind) {
    case CHOP:
        return position < intervals ? chop_interval(s, x, position) : chop_triple(s, x, position - intervals);
    case DURATION:
        return duration_own(s, x, position);
    case THROUGHOUT:
        return throughout_own(s, x, position);
    default:
        return settle_place(s, x, position);
    }
}

/* Of node x, whose part has `part` as its number. */
static bool settle_part(struct search *s, uint32_t x, uint32_t part, uint32_t place)
{
    switch (s->f.nodes[x].kind) {
    case CHOP:
        return part == left_of(x) ? chop_left(s, x, s->ends[place]) : chop_right(s, x, s->ends[place]);
    case DURATION:
        return duration_part(s, x, place);
    case THROUGHOUT:
        return throughout_part(s, x, place);
    default:
        return settle_place(s, x, place);
    }
}

static bool settle_channel(struct search *s, uint32_t v)
{
    uint32_t instant = (v - 1) / s->f.c, channel = (v - 1) % s->f.c;
    for (uint32_t n = 0; n < s->letter_count[channel]; n++)
        if (!settle_place(s, s->letters[channel][n], instant))
            return false;
    return true;
}

static bool settle_variable(struct search *s, uint32_t v)
{
    const struct formula *f = &s->f;
    if (v < s->first[0])
        return settle_channel(s, v);
    uint32_t x = last_up_to(s->first, f->count, v), truth = f->blocks[x].truth;
    if (!settle_own(s, x, v - s->first[x]))
        return false;
    if (x == 0 || v < truth || v >= truth + places_of(f, x))
        return true;
    return settle_part(s, s->parent[x], x, v - truth);
}

/* The closure of what the trail holds, given that nothing more follows from what it holds before `head`. */
static bool close_from(struct search *s, uint32_t head)
{
    for (; head < s->top; head++)
        if (!settle_variable(s, s->trail[head]))
            return false;
    return true;
}

static void undo(struct search *s, uint32_t top)
{
    while (s->top > top)
        s->values[s->trail[--s->top] - 1] = OPEN;
}

/* The start: clauses of one literal, and what follows from them. */

static void put_constants(struct search *s, uint32_t v, uint32_t n, uint8_t value)
{
    for (uint32_t place = 0; place < n; place++)
        put(s, v + place, value);
}

static void put_empty_intervals(struct search *s, uint32_t v, uint8_t value)
{
    for (uint32_t i = 0; i <= s->f.k; i++)
        put(s, v + s->f.row[i] + i, value);
}

static void put_node(struct search *s, uint32_t x)
{
    const struct formula *f = &s->f;
    uint32_t v = s->first[x];
    switch (f->nodes[x].kind) {
    case ALWAYS:
        put_constants(s, v, places_of(f, x), HIGH);
        return;
    case NEVER:
        put_constants(s, v, places_of(f, x), LOW);
        return;
    case DURATION:
        put_constants(s, v, f->intervals, HIGH);
        for (uint32_t level = 1; level <= f->nodes[x].number; level++)
            put_empty_intervals(s, v + level * f->intervals, LOW);
        return;
    case THROUGHOUT:
        put_empty_intervals(s, v, LOW);
        return;
    default:
        return;
    }
}

/* Each constant is its own variable's only such clause, so of these only the root can clash. */
static bool start(struct search *s)
{
    for (uint32_t x = 0; x < s->f.count; x++)
        put_node(s, x);
    return put(s, s->f.blocks[0].truth + s->f.k, HIGH) && close_from(s, 0);
}

/* The tries: the trail's length before each that is low and may yet be high. */
static uint32_t first_recording(struct search *s, uint32_t limit, uint32_t *tries)
{
    uint32_t channels = s->f.c * s->f.k, low[CHANNELS * STEPS], depth = 0, tried = 1;
    bool is_alive = start(s);
    for (*tries = 0;; ++*tries) {
        uint8_t value = is_alive ? LOW : HIGH;
        if (is_alive) {
            while (tried <= channels && value_of(s, tried) != OPEN)
                tried++;
            if (tried > channels)
                return FOUND;
            low[depth++] = s->top;
        } else {
            if (depth == 0)
                return NONE;
            undo(s, low[--depth]);
            tried = s->trail[s->top];
        }
        if (*tries == limit)
            return SPENT;
        put(s, tried, value);
        is_alive = close_from(s, s->top - 1);
    }
}

static void prepare_places(struct search *s)
{
    const struct formula *f = &s->f;
    uint32_t place = 0, number = 0;
    for (uint32_t i = 0; i <= f->k; i++) {
        uint32_t lengths = f->k + 1 - i;
        s->start[i] = number;
        number += lengths * (lengths + 1) / 2;
        for (uint32_t j = i; j <= f->k; j++)
            s->ends[place++] = (struct pair){(uint8_t)i, (uint8_t)j};
    }
    place = 0;
    for (uint32_t d = 0; d <= f->k; d++)
        for (uint32_t e = 0; e <= d; e++)
            s->steps[place++] = (struct pair){(uint8_t)d, (uint8_t)e};
}

static void prepare_nodes(struct search *s)
{
    const struct formula *f = &s->f;
    memset(s->letter_count, 0, sizeof s->letter_count);
    for (uint32_t x = 0; x < f->count; x++) {
        const struct node *node = &f->nodes[x];
        s->first[x] = f->blocks[x].first;
        s->left[x] = left_truth(f, x);
        s->right[x] = right_truth(f, x);
        if (node->kind == LETTER)
            s->letters[node->number][s->letter_count[node->number]++] = x;
        if (parts_of(node) >= 1)
            s->parent[left_of(x)] = (uint8_t)x;
        if (parts_of(node) == 2)
            s->parent[right_of(f->nodes, x)] = (uint8_t)x;
    }
}

static void write_recording(const struct search *s, uint8_t *recording)
{
    uint32_t v = 1;
    for (uint32_t t = 0; t < s->f.k; t++) {
        recording[t] = 0;
        for (uint32_t channel = 0; channel < s->f.c; channel++, v++)
            recording[t] |= (uint8_t)((value_of(s, v) == HIGH) << channel);
    }
}

uint64_t plain_search(const uint8_t *text, size_t text_length, uint32_t c, uint32_t k, uint32_t limit, uint8_t *values,
                      size_t values_length, uint32_t *trail, size_t trail_length, uint8_t *recording, size_t recording_length)
{
    struct search s;
    uint32_t tries, refusal = lay_out(text, text_length, c, k, &s.f);
    if (refusal != ACCEPTED)
        return refusal;
    if (values_length < s.f.variables || trail_length < s.f.variables || recording_length < k)
        return SHORT;
    s.values = values;
    s.trail = trail;
    s.top = 0;
    memset(values, OPEN, s.f.variables);
    prepare_places(&s);
    prepare_nodes(&s);
    uint32_t answer = first_recording(&s, limit, &tries);
    if (answer == FOUND)
        write_recording(&s, recording);
    return answer | (uint64_t)tries << 32;
}
