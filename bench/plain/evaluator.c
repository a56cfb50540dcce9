/* What a competent engineer would write in an afternoon from document 01: an evaluator that keeps a word for each state node
 * and a byte an interval for each formula node. */
#include "plain.h"
#include "reader.h"

enum { NO = 64, YES = 65, NODE_TEXT = 71 };

/* [i, j] stands at row[i] + j. */
struct question {
    const struct node *nodes;
    const uint8_t *recording;
    uint32_t k, row[STEPS + 1];
};

/* Bit t is the state's truth at instant t; bits k and above are free, since no window reaches them. */
static uint32_t word_of(const struct question *q, uint32_t x)
{
    uint32_t word = 0;
    switch (q->nodes[x].kind) {
    case ALWAYS:
        return ~0u;
    case NEVER:
        return 0;
    case NOT:
        return ~word_of(q, left_of(x));
    case AND:
        return word_of(q, left_of(x)) & word_of(q, right_of(q->nodes, x));
    case OR:
        return word_of(q, left_of(x)) | word_of(q, right_of(q->nodes, x));
    default:
        for (uint32_t t = 0; t < q->k; t++)
            word |= (uint32_t)(q->recording[t] >> q->nodes[x].number & 1) << t;
        return word;
    }
}

static uint32_t highs(uint32_t word, uint32_t i, uint32_t j)
{
    uint32_t window = (uint32_t)((1ull << j) - (1ull << i)); /* j may be 32 */
    return (uint32_t)__builtin_popcount(word & window);
}

static bool chopped(const struct question *q, const uint8_t *left, const uint8_t *right, uint32_t i, uint32_t j)
{
    for (uint32_t m = i; m <= j; m++)
        if (left[q->row[i] + m] && right[q->row[m] + j])
            return true;
    return false;
}

static void fill(const struct question *q, uint32_t x, uint8_t holds[INTERVALS])
{
    const struct node *node = &q->nodes[x];
    uint32_t k = q->k, count = q->row[k] + k + 1, word;
    uint8_t left[INTERVALS], right[INTERVALS];
    switch (node->kind) {
    case ALWAYS:
    case NEVER:
        for (uint32_t p = 0; p < count; p++)
            holds[p] = node->kind == ALWAYS;
        break;
    case NOT:
        fill(q, left_of(x), holds);
        for (uint32_t p = 0; p < count; p++)
            holds[p] = !holds[p];
        break;
    case AND:
        fill(q, left_of(x), holds);
        fill(q, right_of(q->nodes, x), right);
        for (uint32_t p = 0; p < count; p++)
            holds[p] &= right[p];
        break;
    case OR:
        fill(q, left_of(x), holds);
        fill(q, right_of(q->nodes, x), right);
        for (uint32_t p = 0; p < count; p++)
            holds[p] |= right[p];
        break;
    case CHOP:
        fill(q, left_of(x), left);
        fill(q, right_of(q->nodes, x), right);
        for (uint32_t i = 0; i <= k; i++)
            for (uint32_t j = i; j <= k; j++)
                holds[q->row[i] + j] = chopped(q, left, right, i, j);
        break;
    case DURATION:
        word = word_of(q, left_of(x));
        for (uint32_t i = 0; i <= k; i++)
            for (uint32_t j = i; j <= k; j++)
                holds[q->row[i] + j] = highs(word, i, j) >= node->number;
        break;
    default:
        word = word_of(q, left_of(x));
        for (uint32_t i = 0; i <= k; i++) {
            holds[q->row[i] + i] = false;
            for (uint32_t j = i + 1; j <= k; j++)
                holds[q->row[i] + j] = highs(word, i, j) == j - i;
        }
    }
}

uint64_t plain_evaluate(const uint8_t *text, size_t text_length, uint32_t c, uint32_t k, uint32_t i, uint32_t j,
                        const uint8_t *recording, size_t recording_length)
{
    struct node nodes[NODES];
    uint32_t count, refusal = read_formula(text, text_length, c, k, nodes, &count);
    struct question q = {.nodes = nodes, .recording = recording, .k = k};
    uint8_t holds[INTERVALS];
    if (refusal != ACCEPTED)
        return refusal;
    if (i > j || j > k)
        return 9;
    if (recording_length != k)
        return 10;
    for (uint32_t t = 0; t < k; t++)
        if (recording[t] >> c)
            return 11;
    for (uint32_t row = 1; row <= k; row++)
        q.row[row] = q.row[row - 1] + k + 1 - row;
    fill(&q, 0, holds);
    return holds[q.row[i] + j] ? YES : NO;
}

uint64_t plain_node_text(const uint8_t *text, size_t text_length, uint32_t c, uint32_t k, uint32_t node)
{
    struct node nodes[NODES];
    uint32_t count, refusal = read_formula(text, text_length, c, k, nodes, &count);
    if (refusal != ACCEPTED)
        return refusal;
    if (node < 1 || node > count)
        return 8;
    return NODE_TEXT + ((uint64_t)(nodes[node - 1].first + 256u * nodes[node - 1].length) << 32);
}
