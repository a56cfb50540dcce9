/* The plain reader: what the plain evaluator and the plain writer know of a formula. */
#ifndef READER_H
#define READER_H

#include <stdbool.h>
#include <stddef.h>
#include <stdint.h>

enum { STEPS = 32, INTERVALS = (STEPS + 1) * (STEPS + 2) / 2, NODES = 64, CHANNELS = 8, NUMBER = 32, TEXT = 255 };
enum { ACCEPTED = 0 };

enum kind { ALWAYS, NEVER, LETTER, NOT, AND, OR, CHOP, DURATION, THROUGHOUT };

/* In preorder: a node's left part follows it, and its right part follows the left part's nodes. */
struct node {
    uint8_t kind, number /* n, or the channel */, size, first, length;
};

static inline uint32_t left_of(uint32_t x) { return x + 1; }
static inline uint32_t right_of(const struct node *nodes, uint32_t x) { return x + 1 + nodes[x + 1].size; }

/* Questions 1 to 7. Where all say yes, the node table is filled and its count given. */
uint32_t read_formula(const uint8_t *text, size_t length, uint32_t c, uint32_t k, struct node nodes[NODES], uint32_t *count);

#endif
