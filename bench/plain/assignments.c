/* What a competent engineer would write in an afternoon from document 01: the assignment that extends a recording, and the check
 * of a proposed one, each by the kind of node, in loops over i, j and m. No table is written for either. */
#include "layout.h"
#include "plain.h"

#include <string.h>

enum { UNMET = 14, SHORT = 18, WRITTEN = 66, MET = 67 };

/* None where there is no such variable: of a part that a node has not. */
static inline const uint8_t *values_from(const uint8_t *assignment, uint32_t variable)
{
    return variable > 0 ? assignment + variable - 1 : NULL;
}

static void extend_channels(const struct formula *f, const uint8_t *recording, uint8_t *v)
{
    for (uint32_t t = 0; t < f->k; t++)
        for (uint32_t channel = 0; channel < f->c; channel++)
            *v++ = recording[t] >> channel & 1;
}

static void extend_duration(const struct formula *f, uint32_t n, uint8_t *v, const uint8_t *s)
{
    memset(v, 1, f->intervals);
    v += f->intervals;
    for (uint32_t level = 1; level <= n; level++)
        for (uint32_t i = 0; i <= f->k; i++) {
            *v++ = 0;
            for (uint32_t j = i + 1; j <= f->k; j++, v++) {
                const uint8_t *p = v - 1, *q = p - f->intervals;
                *v = *p | (*q & s[j - 1]);
            }
        }
}

static void extend_throughout(const struct formula *f, uint8_t *v, const uint8_t *s)
{
    for (uint32_t i = 0; i <= f->k; i++) {
        uint8_t all = 1;
        *v++ = 0;
        for (uint32_t j = i + 1; j <= f->k; j++)
            *v++ = all &= s[j - 1];
    }
}

static void extend_chop(const struct formula *f, uint8_t *v, const uint8_t *left, const uint8_t *right)
{
    uint8_t *w = v + f->intervals;
    for (uint32_t i = 0; i <= f->k; i++)
        for (uint32_t j = i; j <= f->k; j++) {
            uint8_t any = 0;
            for (uint32_t m = i; m <= j; m++, w++) {
                *w = left[f->row[i] + m] & right[f->row[m] + j];
                any |= *w;
            }
            *v++ = any;
        }
}

static void extend_node(const struct formula *f, uint32_t x, uint8_t *assignment)
{
    const struct node *node = &f->nodes[x];
    uint32_t places = places_of(f, x);
    uint8_t *v = assignment + f->blocks[x].first - 1;
    const uint8_t *left = values_from(assignment, left_truth(f, x)), *right = values_from(assignment, right_truth(f, x));
    switch (node->kind) {
    case ALWAYS:
    case NEVER:
        memset(v, node->kind == ALWAYS, places);
        break;
    case LETTER:
        for (uint32_t t = 0; t < places; t++)
            v[t] = assignment[t * f->c + node->number];
        break;
    case NOT:
        for (uint32_t place = 0; place < places; place++)
            v[place] = !left[place];
        break;
    case AND:
        for (uint32_t place = 0; place < places; place++)
            v[place] = left[place] & right[place];
        break;
    case OR:
        for (uint32_t place = 0; place < places; place++)
            v[place] = left[place] | right[place];
        break;
    case CHOP:
        extend_chop(f, v, left, right);
        break;
    case DURATION:
        extend_duration(f, node->number, v, left);
        break;
    default:
        extend_throughout(f, v, left);
    }
}

uint64_t plain_extend(const uint8_t *text, size_t text_length, uint32_t c, uint32_t k, const uint8_t *recording,
                      size_t recording_length, uint8_t *assignment, size_t assignment_length)
{
    struct formula f;
    uint32_t refusal = lay_out(text, text_length, c, k, &f);
    if (refusal != ACCEPTED)
        return refusal;
    if (recording_length != k)
        return 10;
    for (uint32_t t = 0; t < k; t++)
        if (recording[t] >> c)
            return 11;
    if (assignment_length < f.variables)
        return SHORT;
    extend_channels(&f, recording, assignment);
    for (uint32_t x = f.count; x > 0; x--) /* parts come after their node */
        extend_node(&f, x - 1, assignment);
    return WRITTEN;
}

/* Counts a clause that is met. */
static inline bool met(uint32_t *clauses, bool is_met)
{
    *clauses += is_met;
    return is_met;
}

static inline bool met_equal(uint32_t *clauses, bool v, bool x) { return met(clauses, !v || x) && met(clauses, v || !x); }

static inline bool met_opposite(uint32_t *clauses, bool v, bool x) { return met(clauses, v || x) && met(clauses, !v || !x); }

static inline bool met_both(uint32_t *clauses, bool v, bool x, bool y)
{
    return met(clauses, !v || x) && met(clauses, !v || y) && met(clauses, v || !x || !y);
}

static inline bool met_either(uint32_t *clauses, bool v, bool x, bool y)
{
    return met(clauses, v || !x) && met(clauses, v || !y) && met(clauses, !v || x || y);
}

static inline bool met_step(uint32_t *clauses, bool v, bool p, bool q, bool s)
{
    return met(clauses, !v || p || q) && met(clauses, !v || p || s) && met(clauses, v || !p) && met(clauses, v || !q || !s);
}

static bool met_duration(uint32_t *clauses, const struct formula *f, uint32_t n, const uint8_t *v, const uint8_t *s)
{
    for (uint32_t place = 0; place < f->intervals; place++)
        if (!met(clauses, *v++))
            return false;
    for (uint32_t level = 1; level <= n; level++)
        for (uint32_t i = 0; i <= f->k; i++) {
            if (!met(clauses, !*v++))
                return false;
            for (uint32_t j = i + 1; j <= f->k; j++, v++) {
                const uint8_t *p = v - 1, *q = p - f->intervals;
                if (!met_step(clauses, *v, *p, *q, s[j - 1]))
                    return false;
            }
        }
    return true;
}

static bool met_throughout(uint32_t *clauses, const struct formula *f, const uint8_t *v, const uint8_t *s)
{
    for (uint32_t i = 0; i <= f->k; i++) {
        if (!met(clauses, !*v++) || (i < f->k && !met_equal(clauses, *v++, s[i])))
            return false;
        for (uint32_t j = i + 2; j <= f->k; j++, v++)
            if (!met_both(clauses, *v, v[-1], s[j - 1]))
                return false;
    }
    return true;
}

static bool met_triples(uint32_t *clauses, const struct formula *f, const uint8_t *w, const uint8_t *left, const uint8_t *right)
{
    for (uint32_t i = 0; i <= f->k; i++)
        for (uint32_t j = i; j <= f->k; j++)
            for (uint32_t m = i; m <= j; m++)
                if (!met_both(clauses, *w++, left[f->row[i] + m], right[f->row[m] + j]))
                    return false;
    return true;
}

static bool met_any(uint32_t *clauses, bool v, const uint8_t *w, uint32_t count)
{
    bool any = false;
    for (uint32_t m = 0; m < count; m++) {
        if (!met(clauses, v || !w[m]))
            return false;
        any |= w[m];
    }
    return met(clauses, !v || any);
}

static bool met_chop(uint32_t *clauses, const struct formula *f, const uint8_t *v, const uint8_t *left, const uint8_t *right)
{
    const uint8_t *w = v + f->intervals;
    if (!met_triples(clauses, f, w, left, right))
        return false;
    for (uint32_t i = 0; i <= f->k; i++)
        for (uint32_t j = i; j <= f->k; j++) {
            uint32_t count = j - i + 1;
            if (!met_any(clauses, *v++, w, count))
                return false;
            w += count;
        }
    return true;
}

static bool met_node(uint32_t *clauses, const struct formula *f, uint32_t x, const uint8_t *assignment)
{
    const struct node *node = &f->nodes[x];
    uint32_t places = places_of(f, x);
    const uint8_t *v = assignment + f->blocks[x].first - 1;
    const uint8_t *left = values_from(assignment, left_truth(f, x)), *right = values_from(assignment, right_truth(f, x));
    bool is_met = true;
    switch (node->kind) {
    case ALWAYS:
        for (uint32_t place = 0; is_met && place < places; place++)
            is_met = met(clauses, v[place]);
        return is_met;
    case NEVER:
        for (uint32_t place = 0; is_met && place < places; place++)
            is_met = met(clauses, !v[place]);
        return is_met;
    case LETTER:
        for (uint32_t t = 0; is_met && t < places; t++)
            is_met = met_equal(clauses, v[t], assignment[t * f->c + node->number]);
        return is_met;
    case NOT:
        for (uint32_t place = 0; is_met && place < places; place++)
            is_met = met_opposite(clauses, v[place], left[place]);
        return is_met;
    case AND:
        for (uint32_t place = 0; is_met && place < places; place++)
            is_met = met_both(clauses, v[place], left[place], right[place]);
        return is_met;
    case OR:
        for (uint32_t place = 0; is_met && place < places; place++)
            is_met = met_either(clauses, v[place], left[place], right[place]);
        return is_met;
    case CHOP:
        return met_chop(clauses, f, v, left, right);
    case DURATION:
        return met_duration(clauses, f, node->number, v, left);
    default:
        return met_throughout(clauses, f, v, left);
    }
}

static bool met_all(uint32_t *clauses, const struct formula *f, const uint8_t *assignment)
{
    for (uint32_t x = 0; x < f->count; x++)
        if (!met_node(clauses, f, x, assignment))
            return false;
    return met(clauses, assignment[f->blocks[0].truth + f->k - 1]);
}

static void read_channels(const struct formula *f, const uint8_t *v, uint8_t *recording)
{
    for (uint32_t t = 0; t < f->k; t++) {
        recording[t] = 0;
        for (uint32_t channel = 0; channel < f->c; channel++)
            recording[t] |= (uint8_t)(*v++ << channel);
    }
}

uint64_t plain_check(const uint8_t *text, size_t text_length, uint32_t c, uint32_t k, const uint8_t *assignment,
                     size_t assignment_length, uint8_t *recording, size_t recording_length)
{
    struct formula f;
    uint32_t clauses = 0, refusal = lay_out(text, text_length, c, k, &f);
    if (refusal != ACCEPTED)
        return refusal;
    if (assignment_length != f.variables)
        return 12;
    for (size_t v = 0; v < assignment_length; v++)
        if (assignment[v] > 1)
            return 13;
    if (!met_all(&clauses, &f, assignment))
        return UNMET + ((uint64_t)clauses << 32);
    if (recording_length < k)
        return SHORT;
    read_channels(&f, assignment, recording);
    return MET;
}
