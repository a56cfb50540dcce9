/* Where a formula's variables stand: what the plain writer and the plain assignments know of it. */
#ifndef LAYOUT_H
#define LAYOUT_H

#include "reader.h"

/* A node's first variable, and the first of those that say whether it holds. */
struct block {
    uint32_t first, truth;
};

/* [i, j] stands at row[i] + j. */
struct formula {
    struct node nodes[NODES];
    bool is_state[NODES];
    struct block blocks[NODES];
    uint32_t count, c, k, intervals, triples, variables, row[STEPS + 1];
};

static inline uint32_t parts_of(const struct node *node)
{
    switch (node->kind) {
    case ALWAYS:
    case NEVER:
    case LETTER:
        return 0;
    case AND:
    case OR:
    case CHOP:
        return 2;
    default:
        return 1;
    }
}

/* The first variable of a part's truth; 0 where there is no such part. */
static inline uint32_t left_truth(const struct formula *f, uint32_t x)
{
    return parts_of(&f->nodes[x]) >= 1 ? f->blocks[left_of(x)].truth : 0;
}

static inline uint32_t right_truth(const struct formula *f, uint32_t x)
{
    return parts_of(&f->nodes[x]) == 2 ? f->blocks[right_of(f->nodes, x)].truth : 0;
}

/* How many instants or intervals a node has. */
static inline uint32_t places_of(const struct formula *f, uint32_t x) { return f->is_state[x] ? f->k : f->intervals; }

/* Questions 1 to 7. Where all say yes, the formula is read and laid out. */
uint32_t lay_out(const uint8_t *text, size_t length, uint32_t c, uint32_t k, struct formula *f);

#endif
