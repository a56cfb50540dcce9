/* The formulas whose clauses are timed: each kind of node, tables from few literals to the most that there are. */
#ifndef LINES_H
#define LINES_H

#include "exercises.h"

#include <stdint.h>

struct line {
    struct exercise exercise;
    uint32_t c, k;
};

#define THIRTY_ONE(s) NINEFOLD(s s s) s s s s

/* Each but the largest, in which 21 durations want an interval of 32 steps each, holds of some recording. */
static const struct line LINES[] = {
    {{"duration", "#a>=1"}, 1, 1},
    {{"duration", "#a>=1"}, 1, 8},
    {{"true", "T"}, 1, 32},
    {{"throughout", "[a]"}, 1, 32},
    {{"long state", "[" NINEFOLD("(a|!(b&!") "c" NINEFOLD("))") "]"}, 3, 32},
    {{"a then b", "(#a>=2;[b])"}, 2, 8},
    {{"a then b", "(#a>=2;[b])"}, 2, 32},
    {{"deep not", TWENTY_ONE("!") TWENTY_ONE("!") TWENTY_ONE("!") "F"}, 1, 32},
    {{"wide and, or", "(((#a>=1&#b>=2)|(#c>=3&#d>=4))&((#e>=5&#f>=6)|([g]&[h])))"}, 8, 32},
    {{"64 nodes", TWENTY_ONE("(#a>=1;") "T" TWENTY_ONE(")")}, 8, 32},
    {{"chops alone", THIRTY_ONE("(T;") "T" THIRTY_ONE(")")}, 8, 32},
    {{"largest", TWENTY_ONE("(#a>=32;") "T" TWENTY_ONE(")")}, 8, 32},
};

#endif
