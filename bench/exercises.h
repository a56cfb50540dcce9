/* A formula that a benchmark asks, and how its text is spelt where it repeats itself. */
#ifndef EXERCISES_H
#define EXERCISES_H

#define THRICE(s) s s s
#define NINEFOLD(s) THRICE(THRICE(s))
#define TWENTY_ONE(s) THRICE(s s s s s s s)

struct exercise {
    const char *name, *text;
};

#endif
