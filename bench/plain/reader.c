/* What a competent engineer would write in an afternoon from document 01: a recursive-descent reader that fills a flat node
 * table. */
#include "reader.h"

struct reader {
    const uint8_t *text;
    size_t length, at;
    uint32_t channels, count, refusal;
    struct node *nodes;
};

static int peek(const struct reader *r) { return r->at < r->length ? r->text[r->at] : -1; }

static bool take(struct reader *r, int byte)
{
    bool is_next = peek(r) == byte;
    r->at += is_next;
    return is_next;
}

/* The questions are asked one after another of the whole text, so the least number that says no is the answer. */
static void refuse(struct reader *r, uint32_t question)
{
    if (r->refusal == ACCEPTED || question < r->refusal)
        r->refusal = question;
}

static bool read_number(struct reader *r, uint8_t *number)
{
    uint32_t n = 0;
    size_t first = r->at;
    while (peek(r) >= '0' && peek(r) <= '9') {
        n = 10 * n + (uint32_t)(r->text[r->at++] - '0');
        if (n > NUMBER) /* stays too large whatever follows, and does not overflow */
            n = NUMBER + 1;
    }
    if (n > NUMBER)
        refuse(r, 6);
    *number = (uint8_t)n;
    return r->at > first && (r->text[first] != '0' || r->at == first + 1);
}

static bool read_part(struct reader *r, bool is_state);

static bool read_pair(struct reader *r, bool is_state, uint8_t *kind)
{
    if (!read_part(r, is_state))
        return false;
    if (take(r, '&'))
        *kind = AND;
    else if (take(r, '|'))
        *kind = OR;
    else if (!is_state && take(r, ';'))
        *kind = CHOP;
    else
        return false;
    return read_part(r, is_state) && take(r, ')');
}

static bool read_node(struct reader *r, bool is_state, struct node *node)
{
    int byte = peek(r);
    r->at++;
    switch (byte) {
    case 'T':
        node->kind = ALWAYS;
        return true;
    case 'F':
        node->kind = NEVER;
        return true;
    case '!':
        node->kind = NOT;
        return read_part(r, is_state);
    case '(':
        return read_pair(r, is_state, &node->kind);
    case '#':
        node->kind = DURATION;
        return !is_state && read_part(r, true) && take(r, '>') && take(r, '=') && read_number(r, &node->number);
    case '[':
        node->kind = THROUGHOUT;
        return !is_state && read_part(r, true) && take(r, ']');
    default:
        if (!is_state || byte < 'a' || byte >= 'a' + CHANNELS)
            return false;
        node->kind = LETTER;
        node->number = (uint8_t)(byte - 'a');
        if (node->number >= r->channels)
            refuse(r, 5);
        return true;
    }
}

static bool read_part(struct reader *r, bool is_state)
{
    struct node spare, *node = r->count < NODES ? &r->nodes[r->count] : &spare;
    uint32_t index = r->count++;
    size_t first = r->at;
    node->number = 0;
    if (!read_node(r, is_state, node))
        return false;
    node->size = (uint8_t)(r->count - index);
    node->first = (uint8_t)first;
    node->length = (uint8_t)(r->at - first);
    return true;
}

uint32_t read_formula(const uint8_t *text, size_t length, uint32_t c, uint32_t k, struct node nodes[NODES], uint32_t *count)
{
    struct reader r = {.text = text, .length = length, .channels = c, .refusal = ACCEPTED, .nodes = nodes};
    if (c < 1 || c > CHANNELS)
        return 1;
    if (k > STEPS)
        return 2;
    if (length < 1 || length > TEXT)
        return 3;
    if (!read_part(&r, false) || r.at != length)
        return 4;
    if (r.count > NODES)
        refuse(&r, 7);
    *count = r.count;
    return r.refusal;
}
