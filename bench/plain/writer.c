/* What a competent engineer would write in an afternoon from document 01: a writer of clause tables that goes by the kind of
 * node and stores one literal after another, in loops over i, j and m. */
#include "layout.h"
#include "plain.h"

enum { SHORT = 18, WRITTEN = 66 };
enum { NEGATED = 0, PLAIN = 1, LAST = 2 };

struct sizes {
    uint32_t clauses, literals;
};

struct table {
    uint32_t *variables;
    uint8_t *marks;
};

static struct sizes sizes_of(const struct formula *f)
{
    uint32_t empty = f->k + 1, one_step = f->k, longer = f->intervals - empty;
    struct sizes s = {1, 1};
    for (uint32_t x = 0; x < f->count; x++) {
        uint32_t places = places_of(f, x), n = f->nodes[x].number;
        switch (f->nodes[x].kind) {
        case ALWAYS:
        case NEVER:
            s.clauses += places;
            s.literals += places;
            break;
        case LETTER:
        case NOT:
            s.clauses += 2 * places;
            s.literals += 4 * places;
            break;
        case AND:
        case OR:
            s.clauses += 3 * places;
            s.literals += 7 * places;
            break;
        case CHOP:
            s.clauses += 4 * f->triples + f->intervals;
            s.literals += 10 * f->triples + f->intervals;
            break;
        case DURATION:
            s.clauses += f->intervals + n * (empty + 4 * longer);
            s.literals += f->intervals + n * (empty + 11 * longer);
            break;
        default:
            s.clauses += empty + 2 * one_step + 3 * (longer - one_step);
            s.literals += empty + 4 * one_step + 7 * (longer - one_step);
        }
    }
    return s;
}

static inline size_t put(struct table t, size_t at, uint32_t variable, uint8_t mark)
{
    t.variables[at] = variable;
    t.marks[at] = mark;
    return at + 1;
}

static inline size_t put_one(struct table t, size_t at, uint32_t x, uint8_t mark_of_x)
{
    return put(t, at, x, mark_of_x | LAST);
}

static inline size_t put_two(struct table t, size_t at, uint32_t x, uint8_t mark_of_x, uint32_t y, uint8_t mark_of_y)
{
    return put_one(t, put(t, at, x, mark_of_x), y, mark_of_y);
}

static inline size_t put_three(struct table t, size_t at, uint32_t x, uint8_t mark_of_x, uint32_t y, uint8_t mark_of_y,
                               uint32_t z, uint8_t mark_of_z)
{
    return put_two(t, put(t, at, x, mark_of_x), y, mark_of_y, z, mark_of_z);
}

static inline size_t put_equal(struct table t, size_t at, uint32_t v, uint32_t x)
{
    at = put_two(t, at, v, NEGATED, x, PLAIN);
    return put_two(t, at, v, PLAIN, x, NEGATED);
}

static inline size_t put_opposite(struct table t, size_t at, uint32_t v, uint32_t x)
{
    at = put_two(t, at, v, PLAIN, x, PLAIN);
    return put_two(t, at, v, NEGATED, x, NEGATED);
}

static inline size_t put_both(struct table t, size_t at, uint32_t v, uint32_t x, uint32_t y)
{
    at = put_two(t, at, v, NEGATED, x, PLAIN);
    at = put_two(t, at, v, NEGATED, y, PLAIN);
    return put_three(t, at, v, PLAIN, x, NEGATED, y, NEGATED);
}

static inline size_t put_either(struct table t, size_t at, uint32_t v, uint32_t x, uint32_t y)
{
    at = put_two(t, at, v, PLAIN, x, NEGATED);
    at = put_two(t, at, v, PLAIN, y, NEGATED);
    return put_three(t, at, v, NEGATED, x, PLAIN, y, PLAIN);
}

static inline size_t put_step(struct table t, size_t at, uint32_t v, uint32_t p, uint32_t q, uint32_t s)
{
    at = put_three(t, at, v, NEGATED, p, PLAIN, q, PLAIN);
    at = put_three(t, at, v, NEGATED, p, PLAIN, s, PLAIN);
    at = put_two(t, at, v, PLAIN, p, NEGATED);
    return put_three(t, at, v, PLAIN, q, NEGATED, s, NEGATED);
}

static size_t put_duration(struct table t, size_t at, const struct formula *f, uint32_t v, uint32_t s, uint32_t n)
{
    for (uint32_t place = 0; place < f->intervals; place++)
        at = put_one(t, at, v++, PLAIN);
    for (uint32_t level = 1; level <= n; level++)
        for (uint32_t i = 0; i <= f->k; i++) {
            at = put_one(t, at, v++, NEGATED);
            for (uint32_t j = i + 1; j <= f->k; j++, v++)
                at = put_step(t, at, v, v - 1, v - 1 - f->intervals, s + j - 1);
        }
    return at;
}

static size_t put_throughout(struct table t, size_t at, const struct formula *f, uint32_t v, uint32_t s)
{
    for (uint32_t i = 0; i <= f->k; i++) {
        at = put_one(t, at, v++, NEGATED);
        if (i < f->k)
            at = put_equal(t, at, v++, s + i);
        for (uint32_t j = i + 2; j <= f->k; j++, v++)
            at = put_both(t, at, v, v - 1, s + j - 1);
    }
    return at;
}

static size_t put_triples(struct table t, size_t at, const struct formula *f, uint32_t w, uint32_t left, uint32_t right)
{
    for (uint32_t i = 0; i <= f->k; i++)
        for (uint32_t j = i; j <= f->k; j++)
            for (uint32_t m = i; m <= j; m++)
                at = put_both(t, at, w++, left + f->row[i] + m, right + f->row[m] + j);
    return at;
}

static size_t put_chop(struct table t, size_t at, const struct formula *f, uint32_t v, uint32_t left, uint32_t right)
{
    uint32_t w = v + f->intervals;
    at = put_triples(t, at, f, w, left, right);
    for (uint32_t i = 0; i <= f->k; i++)
        for (uint32_t j = i; j <= f->k; j++, v++) {
            for (uint32_t m = i; m <= j; m++)
                at = put_two(t, at, v, PLAIN, w + m - i, NEGATED);
            at = put(t, at, v, NEGATED);
            for (uint32_t m = i; m < j; m++)
                at = put(t, at, w++, PLAIN);
            at = put_one(t, at, w++, PLAIN);
        }
    return at;
}

static size_t put_node(struct table t, size_t at, const struct formula *f, uint32_t x)
{
    const struct node *node = &f->nodes[x];
    uint32_t v = f->blocks[x].first, left = left_truth(f, x), right = right_truth(f, x), places = places_of(f, x);
    switch (node->kind) {
    case ALWAYS:
        for (uint32_t place = 0; place < places; place++)
            at = put_one(t, at, v + place, PLAIN);
        return at;
    case NEVER:
        for (uint32_t place = 0; place < places; place++)
            at = put_one(t, at, v + place, NEGATED);
        return at;
    case LETTER:
        for (uint32_t instant = 0; instant < places; instant++)
            at = put_equal(t, at, v + instant, 1 + instant * f->c + node->number);
        return at;
    case NOT:
        for (uint32_t place = 0; place < places; place++)
            at = put_opposite(t, at, v + place, left + place);
        return at;
    case AND:
        for (uint32_t place = 0; place < places; place++)
            at = put_both(t, at, v + place, left + place, right + place);
        return at;
    case OR:
        for (uint32_t place = 0; place < places; place++)
            at = put_either(t, at, v + place, left + place, right + place);
        return at;
    case CHOP:
        return put_chop(t, at, f, v, left, right);
    case DURATION:
        return put_duration(t, at, f, v, left, node->number);
    default:
        return put_throughout(t, at, f, v, left);
    }
}

uint64_t plain_table(const uint8_t *text, size_t text_length, uint32_t c, uint32_t k, uint32_t *sizes, size_t sizes_length,
                     uint32_t *variables, size_t variables_length, uint8_t *marks, size_t marks_length)
{
    struct formula f;
    struct sizes s;
    struct table t = {variables, marks};
    size_t at = 0;
    uint32_t refusal = lay_out(text, text_length, c, k, &f);
    if (refusal != ACCEPTED)
        return refusal;
    s = sizes_of(&f);
    if (sizes_length < 5 || variables_length < s.literals || marks_length < s.literals)
        return SHORT;
    for (uint32_t x = 0; x < f.count; x++)
        at = put_node(t, at, &f, x);
    put_one(t, at, f.blocks[0].truth + k, PLAIN);
    sizes[0] = c;
    sizes[1] = k;
    sizes[2] = f.variables;
    sizes[3] = s.clauses;
    sizes[4] = s.literals;
    return WRITTEN;
}
