/* Tuvenikar, the engine behind the Exercise key: the calls for C.
 *
 * An array is lent: a pointer to its first element, then how many elements, a size_t; NULL is fine where that is 0.
 * A call reads what it is lent, writes only where it says so, and keeps nothing: there is no global state, no heap, and
 * nothing to open or close. Threads may call at the same time, as long as nobody writes what another is lent.
 * An array to be written may be longer than needed, and overlaps nothing else that is lent; in a refused call it stays as
 * it was, and so do always its places beyond those written. (Only tuv_search has arrays to work in besides: what they hold
 * before it does not matter, and what they hold after it, unless it is refused, is anything.)
 * Whatever the numbers and bytes are, a call has an answer to them; nothing needs to be checked before it.
 *
 * A formula's text is its bytes alone, with no 0 at the end. c is the number of channels, k the number of steps.
 *
 * An answer is one number: its low half says what (tuv_code), its high half the place or the value (tuv_value).
 *
 *     // "channel a is high for two samples or more, and after that channel b for one or more"
 *     static const uint8_t text[] = {'(', '#', 'a', '>', '=', '2', ';', '#', 'b', '>', '=', '1', ')'};
 *     uint64_t answer = tuv_evaluate(text, sizeof text, 2, 8, 0, 8, recording, 8);
 *     switch (tuv_code(answer)) {
 *     case TUV_YES: lamp(1); break;
 *     case TUV_NO:  lamp(0); break;
 *     default:      refused(tuv_code(answer), tuv_value(answer));   // without the second '=': 4 at 10
 *     }
 *
 * Proved, for every input: what each call answers and writes, and that the number of its answer tells the answer. This file is not
 * part of the proof: tests/header/run holds its numbers of answers, the refusals that it lists at each call, and TUV_STRIP_LINE to the
 * definitions that are. Not proved: the stack figures, measured on x86-64, and TUV_MOST_*, counted.
 *
 * Language: C99 or later, or C++11 or later. Target: x86-64, System V calling convention, 64-bit pointers and size_t. Link
 * libtuvenikar.a, which `rt lib` writes in crates/tuvenikar; of the firmware it needs memcpy and memset, and nothing else.
 * docs/REFERENCE.md says what formulas, tables, files and tries are.
 */
#ifndef TUVENIKAR_H
#define TUVENIKAR_H

#include <stddef.h>
#include <stdint.h>

#ifdef __cplusplus
extern "C" {
#endif

/* Raised by one with each change that a caller can see: a call more, another prototype, number or limit, another answer or other
 * bytes for some input. A quicker engine, other stack figures and other words here leave it as it is. The archive does not carry
 * it: header and archive go together. */
#define TUV_VERSION 3

/* What an answer says: a tuv_refusal or a tuv_answer. */
static inline uint32_t tuv_code(uint64_t answer) { return (uint32_t)(answer & 0xffffffffu); }

/* Its place or value. */
static inline uint32_t tuv_value(uint64_t answer) { return (uint32_t)(answer >> 32); }

/* A refusal. A call asks its questions in this order, and the first that is answered with no gives its number and a place:
 * a byte of the text, of the recording or of the assignment, or a clause, counted from 0; 0 where the question names none. */
enum tuv_refusal {
    TUV_CHANNELS = 1,           /* Is c from 1 to 8? */
    TUV_STEPS = 2,              /* Is k at most 32? */
    TUV_TEXT_LENGTH = 3,        /* Is the text 1 to 255 bytes? */
    TUV_GRAMMAR = 4,            /* Does it read by the grammar, channels a to h, length, n and nodes unbounded?
                                   Place: the least p such that no grammatical text begins with its first p + 1 bytes,
                                   or its length if it only ends early. */
    TUV_LETTER = 5,             /* Is each letter among the first c? Place: the first that isn't. */
    TUV_NUMBER = 6,             /* Is each n at most 32? Place: the first digit of the first that isn't. */
    TUV_NODES = 7,              /* At most 64 nodes? Place: the first byte of the 65th. */
    TUV_NODE = 8,               /* Is the node number from 1 to the node count? */
    TUV_INTERVAL = 9,           /* Is i <= j <= k? */
    TUV_RECORDING_LENGTH = 10,  /* Has the recording k bytes? */
    TUV_RECORDING = 11,         /* Is each of its bytes below 2 to the power c? Place: the first that isn't. */
    TUV_ASSIGNMENT_LENGTH = 12, /* Has the assignment v bytes? */
    TUV_ASSIGNMENT = 13,        /* Is each of its bytes 0 or 1? Place: the first that isn't. */
    TUV_CLAUSE = 14,            /* Is every clause met? Place: the first that isn't. */
    TUV_FILE_LENGTH = 15,       /* Reader: has the file 20 bytes or more, and exactly 20 + 5l? Writer: are both arrays exactly l
                                   long? */
    TUV_FILE_NUMBERS = 16,      /* Is c from 1 to 8 and k at most 32, each variable from 1 to v, each mark at most 3? */
    TUV_FILE_CLAUSES = 17,      /* Is m the number of closing marks, and the final literal (if l > 0) closing? */
    TUV_ROOM = 18               /* Is every array to be written or to work in long enough? */
};

/* Any other answer. */
enum tuv_answer {
    TUV_NO = 64,       /* the formula does not hold; value 0 */
    TUV_YES = 65,      /* it holds; value 0 */
    TUV_WRITTEN = 66,  /* what was asked for is written; value 0, of tuv_strip the number of bytes */
    TUV_ACCEPTED = 67, /* the assignment meets every clause; value 0 */
    TUV_FOUND = 68,    /* the first recording of which the formula holds is written; value the number of tries */
    TUV_NONE = 69,     /* it holds of none; value the number of tries */
    TUV_SPENT = 70,    /* neither is known after as many tries as the limit allows; value the limit */
    TUV_NODE_TEXT = 71 /* where a node's own text is; value first byte + 256 * length */
};

/* Does the formula hold of a recording, on its instants i to j - 1? (0 and k: on the whole of it.)
 * Lent:    the text; the recording, k bytes: byte t is instant t, its lowest bit channel a, the next b, and so on; 1 is high.
 * Written: nothing.
 * Answers: TUV_NO, TUV_YES, a refusal 1 to 7 or 9 to 11.
 * Stack:   269,000 bytes for any input: 4,176 for each formula within a formula (measured: 268,744 for 63 `!` and `T`; 135,112
 *          for 31 chops one within the other; 5,656 for `T`).
 */
uint64_t tuv_evaluate(const uint8_t *text, size_t text_length, uint32_t c, uint32_t k, uint32_t i, uint32_t j,
                      const uint8_t *recording, size_t recording_length);

/* Which part of the text is a node's own? Nodes are numbered from 1, in the order of their first bytes.
 * Lent:    the text.
 * Written: nothing.
 * Answers: TUV_NODE_TEXT, a refusal 1 to 8. The part begins at text + tuv_node_first(answer) and has
 *          tuv_node_length(answer) bytes: for `((T;F)|#a>=12)`, c 2, k 32, node 2, `(T;F)`, these are 1 and 5.
 * Stack:   47,000 bytes for any input: 176 for each level of brackets and signs (measured: 46,832 for 255 `(`; 13,040 for the
 *          deepest text that is accepted).
 */
uint64_t tuv_node_text(const uint8_t *text, size_t text_length, uint32_t c, uint32_t k, uint32_t node);

/* The two numbers in the value of TUV_NODE_TEXT. */
static inline uint32_t tuv_node_first(uint64_t answer) { return tuv_value(answer) % 256u; }
static inline uint32_t tuv_node_length(uint64_t answer) { return tuv_value(answer) / 256u; }

/* What stands where in a table's sizes, and how many they are. */
enum tuv_size {
    TUV_C = 0, /* channels */
    TUV_K = 1, /* steps */
    TUV_V = 2, /* variables, numbered from 1; the first c * k are the channels', instant by instant */
    TUV_M = 3, /* clauses */
    TUV_L = 4, /* literals */
    TUV_SIZES = 5
};

/* A literal's mark: these two, added. */
enum tuv_mark {
    TUV_PLAIN = 1,  /* the variable itself, and not its negation */
    TUV_CLOSING = 2 /* the last literal of its clause */
};

/* The most that a table can have: counted by tests/boundary/run, which goes through all numbers of nodes, and not proved. (Proved:
 * they fit 32 bits; and where arrays are too short, whatever these say, a call is refused, TUV_ROOM.)
 * One text has the most of all three, c 8, k 32: 21 times `(#a>=32;`, `T`, 21 times `)`. */
enum tuv_most {
    TUV_MOST_VARIABLES = 539488,
    TUV_MOST_CLAUSES = 2016688,
    TUV_MOST_LITERALS = 5326414
};

/* Which clauses say that the formula holds of a recording of k steps? (It holds on the whole of one exactly when the values that
 * this gives the channels' variables, 1 for high, extend to values of all variables that meet every clause.)
 * Lent:    the text; sizes, TUV_SIZES places; variables and marks, a place each for every literal. TUV_MOST_LITERALS places are
 *          enough for any formula; a call for which there are too few does not say how many it needs.
 * Written: on TUV_WRITTEN the five sizes, and the literals, clause after clause: in variables the number of the literal's
 *          variable, in marks its mark. For `#a>=1`, c 1, k 1: sizes 1, 1, 8, 12, 21, and 21 places of the other two, which
 *          begin with 2, 3, 4, 5, 6, 5, 2 and 3, 3, 3, 2, 0, 1, 3: four clauses of one literal and one of three.
 * Answers: TUV_WRITTEN, a refusal 1 to 7 or 18.
 * Stack:   48,000 bytes for any input: 176 for each level of brackets and signs (measured: 47,120 for 255 `(`; 13,328 for the
 *          deepest text that is accepted).
 */
uint64_t tuv_table(const uint8_t *text, size_t text_length, uint32_t c, uint32_t k, uint32_t *sizes, size_t sizes_length,
                   uint32_t *variables, size_t variables_length, uint8_t *marks, size_t marks_length);

/* Which values of a table's variables go with a recording? (One assignment extends the recording and meets all clauses but the
 * last. It meets the last exactly when the formula holds on the whole of the recording.)
 * Lent:    the text; the recording, k bytes as for tuv_evaluate; the assignment, a place for each variable. TUV_MOST_VARIABLES
 *          places are enough for any formula; a call for which there are too few does not say how many it needs.
 * Written: on TUV_WRITTEN the v bytes of the assignment, also where the formula does not hold: byte x is variable x + 1, 0 or 1.
 *          For `#a>=1`, c 1, k 1: 0, 1, 1, 1, 0, 0, 0, 0 for recording 0 and 1, 1, 1, 1, 0, 1, 0, 1 for recording 1.
 * Answers: TUV_WRITTEN, a refusal 1 to 7, 10, 11 or 18.
 * Stack:   51,000 bytes for any input: 176 for each level of brackets and signs (measured: 50,112 for 255 `(`; 16,320 for the
 *          deepest text that is accepted).
 */
uint64_t tuv_extend(const uint8_t *text, size_t text_length, uint32_t c, uint32_t k, const uint8_t *recording,
                    size_t recording_length, uint8_t *assignment, size_t assignment_length);

/* Does an assignment meet every clause of a formula's table, whoever proposes it?
 * Lent:    the text; the assignment, exactly v bytes as tuv_extend writes them (of a longer array, lend the first v); the
 *          recording, k places.
 * Written: on TUV_ACCEPTED the k bytes of the recording that the channels' variables are; the formula holds on the whole of it.
 * Answers: TUV_ACCEPTED, a refusal 1 to 7, 12 to 14 or 18. What tuv_extend wrote is accepted where the formula holds, but for
 *          want of room (18); where it does not, it is refused for the last clause (TUV_CLAUSE at m - 1).
 * Stack:   48,000 bytes for any input: 176 for each level of brackets and signs (measured: 47,776 for 255 `(`; 13,984 for the
 *          deepest text that is accepted).
 */
uint64_t tuv_check(const uint8_t *text, size_t text_length, uint32_t c, uint32_t k, const uint8_t *assignment,
                   size_t assignment_length, uint8_t *recording, size_t recording_length);

/* Which is the first recording of k steps of which the formula holds? (Of two recordings the one comes first that is low where
 * they first differ, instant by instant and within an instant from channel a on. So everything happens as late as it can.)
 * A try sets one channel at one instant, the first that is still open, low and, where nothing is found below that, high; what
 * then follows from the clauses is no try. Their number depends on the formula, c and k alone. It grows fast with channels that
 * the formula does not speak of, since each sample of theirs may be tried both ways in vain; the limit keeps a student from
 * waiting.
 * Lent:    the text; the limit, how many tries are allowed, 0 to 4,294,967,295; to work in, values and trail, a place each for
 *          every variable; variables and marks, a place each for every literal of the table: room that every engine asks for
 *          (TUV_ROOM), though this one makes no table and leaves both untouched; the recording, k places.
 *          What tuv_table writes says how many that are, TUV_V and TUV_L; TUV_MOST_VARIABLES and TUV_MOST_LITERALS places are
 *          enough for any formula. A call for which there are too few does not say how many it needs.
 * Written: on TUV_FOUND the k bytes of the recording, as for tuv_evaluate; otherwise nothing of it. What the other four arrays
 *          hold after TUV_FOUND, TUV_NONE and TUV_SPENT is free: count on nothing there. In a refused call all five stay as they
 *          were.
 *          For `(#a>=1|#b>=1)`, c 2, k 1: TUV_FOUND after 1 try, a low, and recording 2; with limit 0 TUV_SPENT.
 * Answers: TUV_FOUND, TUV_NONE, TUV_SPENT, a refusal 1 to 7 or 18. TUV_NONE is certain, whatever the limit was; with a higher
 *          limit the same tries are made, and more only after TUV_SPENT.
 * Stack:   51,504 bytes at most (measured: 255 `(`, a text that is refused); 17,712 on the deepest text that is accepted, 63 `!`
 *          and `T`; 7,328 for 256 tries one below another, which need no more than one.
 */
uint64_t tuv_search(const uint8_t *text, size_t text_length, uint32_t c, uint32_t k, uint32_t limit, uint32_t *variables,
                    size_t variables_length, uint8_t *marks, size_t marks_length, uint8_t *values, size_t values_length,
                    uint32_t *trail, size_t trail_length, uint8_t *recording, size_t recording_length);

/* How many bytes a strip's line has, and a strip of c channels. */
enum { TUV_STRIP_LINE = 39 };
#define TUV_STRIP_BYTES(c) (((uint64_t)(c) + 1) * TUV_STRIP_LINE)

/* How is a recording shown in a lab notebook? (In fixed columns, byte for byte the same on every instrument.)
 * The strip is c + 1 lines of TUV_STRIP_LINE bytes, the last of each a line feed; there is no 0 at the end. The first line is a
 * ruler: two blanks, the last digit of each instant, blanks. Then a line for each channel, a first: its letter, a blank, 32
 * columns (`#` where it is high, `_` where it is low, blanks from instant k on), a blank, and at how many instants it is high,
 * right-aligned in three places. Two recordings of the same c and k that differ have strips that differ.
 * Lent:    the recording, k bytes as for tuv_evaluate; the strip, TUV_STRIP_BYTES(c) places: 351 are enough for any recording.
 * Written: on TUV_WRITTEN TUV_STRIP_BYTES(c) bytes of the strip, as many as the value says. For c 2, k 4, recording 0, 1, 3, 2
 *          (here | stands for each line's end):
 *              "  0123                                |"
 *              "a _##_                               2|"
 *              "b __##                               2|"
 * Answers: TUV_WRITTEN, a refusal 1, 2, 10, 11 or 18.
 * Stack:   240 bytes for any input (measured).
 */
uint64_t tuv_strip(uint32_t c, uint32_t k, const uint8_t *recording, size_t recording_length, uint8_t *strip,
                   size_t strip_length);

/* How many bytes the file of a table with l literals has: in 64 bits, since for some l it does not fit 32. */
#define TUV_FILE_BYTES(l) (20 + 5 * (uint64_t)(l))

/* Which bytes are the file of a table? (Its five sizes, its variables, its marks, one after another: four bytes a number, the low
 * byte first, and one byte a mark. Two engines write one file.)
 * Lent:    c, k, v, m and l, the table's sizes; variables and marks, exactly l places each (of longer arrays, lend the first l);
 *          the file, TUV_FILE_BYTES(l) bytes.
 * Written: on TUV_WRITTEN TUV_FILE_BYTES(l) bytes of the file. For the table of `#a>=1`, c 1, k 1: 125 bytes, which begin with
 *          1, 0, 0, 0, 1, 0, 0, 0, 8, 0, 0, 0, 12, 0, 0, 0, 21, 0, 0, 0, 2, 0, 0, 0, 3, 0, 0, 0.
 * Answers: TUV_WRITTEN, a refusal 15 to 18. What tuv_table wrote is never refused, but for want of room (18). Whether there is a
 *          formula with this table is not asked; l and m may be 0.
 * Stack:   less than 64 bytes for any input.
 */
uint64_t tuv_write_file(uint32_t c, uint32_t k, uint32_t v, uint32_t m, uint32_t l, const uint32_t *variables,
                        size_t variables_length, const uint8_t *marks, size_t marks_length, uint8_t *file, size_t file_length);

/* Which table has this file?
 * Lent:    the file, all of its bytes and no more; sizes, TUV_SIZES places; variables and marks, a place each for every literal:
 *          of a file with n bytes, 20 or more, (n - 20) / 5 places are enough. The file may begin at any address.
 * Written: on TUV_WRITTEN the five sizes, and l places of variables and of marks, as tuv_table writes them. tuv_write_file gives
 *          back the same file for them, byte for byte.
 * Answers: TUV_WRITTEN, a refusal 15 to 18. Whatever the bytes are, a table that is read has its variables from 1 to v and its
 *          last clause closed.
 * Stack:   less than 64 bytes for any input.
 */
uint64_t tuv_read_file(const uint8_t *file, size_t file_length, uint32_t *sizes, size_t sizes_length, uint32_t *variables,
                       size_t variables_length, uint8_t *marks, size_t marks_length);

#ifdef __cplusplus
}
#endif

#endif
