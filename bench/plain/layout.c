/* What a competent engineer would write in an afternoon from document 01: blocks of variables, node after node. */
#include "layout.h"

static void sort(struct formula *f)
{
    f->is_state[0] = false;
    for (uint32_t x = 0; x < f->count; x++) {
        const struct node *node = &f->nodes[x];
        bool is_state = f->is_state[x] || node->kind == DURATION || node->kind == THROUGHOUT;
        if (parts_of(node) >= 1)
            f->is_state[left_of(x)] = is_state;
        if (parts_of(node) == 2)
            f->is_state[right_of(f->nodes, x)] = is_state;
    }
}

static void place(struct formula *f)
{
    uint32_t next = 1 + f->k * f->c;
    for (uint32_t x = 0; x < f->count; x++) {
        const struct node *node = &f->nodes[x];
        uint32_t levels = node->kind == DURATION ? node->number : 0;
        f->blocks[x] = (struct block){next, next + levels * f->intervals};
        next = f->blocks[x].truth + places_of(f, x) + (node->kind == CHOP ? f->triples : 0);
    }
    f->variables = next - 1;
}

uint32_t lay_out(const uint8_t *text, size_t length, uint32_t c, uint32_t k, struct formula *f)
{
    uint32_t refusal = read_formula(text, length, c, k, f->nodes, &f->count);
    if (refusal != ACCEPTED)
        return refusal;
    f->c = c;
    f->k = k;
    f->intervals = (k + 1) * (k + 2) / 2;
    f->triples = f->intervals * (k + 3) / 3;
    f->row[0] = 0;
    for (uint32_t i = 1; i <= k; i++)
        f->row[i] = f->row[i - 1] + k + 1 - i;
    sort(f);
    place(f);
    return ACCEPTED;
}
