/* What both halves of the test share: counts, and memory to lend. */
#ifndef FIRMWARE_H
#define FIRMWARE_H

#include "tuvenikar.h"

/* Counts a check, and says what is not so. */
void count(int is_so, const char *what);

/* Says what is called next: the last such line is for the one who looks for a crash. */
void trying(const char *what);

/* A check that this is the answer and that all that was lent is as it should be. */
void check(const char *name, uint64_t answer, int same, uint32_t code, uint32_t value);

/* An array to be written is filled with a byte that no table has. It is a heap block, and null where it has no places. */
enum { UNWRITTEN = 0xa5 };
void *lend_output(size_t size);

/* Tries each line of tests/edges.txt. */
void edges(const char *path);

#endif
