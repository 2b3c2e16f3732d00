/* Nivruska: a field archive index in memory that the caller lends. Needs C99 or C++11, and x86-64 Linux (System V calling convention).
 *
 * An entry is a path, a value (an unsigned 64-bit number, such as a time) and a reference of 20 bytes. A path has 2 to 200 bytes: labels, each '/'
 * and at least one byte from 20 to 7E or 80 to FF hex other than '/' and '*'. It needs no zero byte at its end. A pattern has 2 to 200 bytes and
 * at most 32 labels, of path bytes and '*': '*' takes zero or more bytes inside one label, the whole label '**' zero or more labels.
 *
 * Each call returns a number and two values. The number is 0 where the call was accepted, else that of the first reason that holds, in the
 * sequence given at the call. A refused call changes no memory and returns two zeros (11: the row count and zero). 100, already there, is no refusal.
 *
 * Every call returns, within the bytes it was lent, on any bytes, those of a damaged store included; the rows of a damaged store may hold any bytes: hold a
 * path's length to 200 before use. What no call checks, and the caller sees to:
 *   - A pointer and the length behind it name bytes that may be read, and written where the pointer is not const, while the call runs.
 *   - No pointer is NULL. With the length 0 any other pointer may stand, such as that of a variable; nothing is read or written through it.
 *   - Each length is below 2^63.
 *   - The bytes that a call may write overlap those of no other argument of that call.
 *   - While setup or add runs, no other thread uses the same store. Calls that take the store as const only read it: several may run at once, each
 *     with an answer buffer of its own. There is no state outside the lent memory.
 * The calls take no heap. Their tests run on a stack of 1 MiB. */
#ifndef NIVRUSKA_H
#define NIVRUSKA_H

#include <stdbool.h>
#include <stddef.h>
#include <stdint.h>

#ifdef __cplusplus
extern "C" {
#endif

/* Limits: M from 1 to 4,096, L from 1 to 8, τ from 1 to 100. */
#define NIVRUSKA_M_LIMIT 4096
#define NIVRUSKA_L_LIMIT 8
#define NIVRUSKA_TAU_LIMIT 100
#define NIVRUSKA_PATH_LIMIT 200 /* bytes of a path, or of a pattern */
#define NIVRUSKA_PATTERN_LABEL_LIMIT 32
#define NIVRUSKA_REFERENCE_SIZE 20

/* Bytes that a store needs, and entries that it can hold, for an M and an L within the limits. */
#define NIVRUSKA_NEED(m, l) ((((size_t)1024 * (size_t)(m)) << (l)) + 4096)
#define NIVRUSKA_CAPACITY(m, l) (((uint64_t)(m) << (l)) - 1)

/* A row: the value (highest byte first), the reference, the path's length in one byte, the path with zeros up to 200 bytes. Rows come by value, then
 * path (an end byte 00 counted with it), then reference. */
#define NIVRUSKA_ROW_SIZE 229
#define NIVRUSKA_ROW_VALUE_AT 0
#define NIVRUSKA_ROW_REFERENCE_AT 8
#define NIVRUSKA_ROW_PATH_LENGTH_AT 28
#define NIVRUSKA_ROW_PATH_AT 29

/* A record of a level read back: the row, the number of nodes from the root to the entry's leaf in one byte, three bytes for each node (what it
 * branches by; path position; value position; positions count from 1), zeros up to 210 nodes. */
#define NIVRUSKA_RECORD_SIZE 860
#define NIVRUSKA_RECORD_NODE_COUNT_AT 229
#define NIVRUSKA_RECORD_NODES_AT 230
#define NIVRUSKA_NODE_SIZE 3
#define NIVRUSKA_NODE_LIMIT 210
#define NIVRUSKA_NODE_LEAF 0
#define NIVRUSKA_NODE_VALUE 1
#define NIVRUSKA_NODE_PATH 2

/* Numbers that a call returns. */
#define NIVRUSKA_ACCEPTED 0
#define NIVRUSKA_PATH_NOT_FORMED 1    /* as "/north//pond" */
#define NIVRUSKA_PATH_TOO_LONG 2      /* over 200 bytes */
#define NIVRUSKA_REFERENCE_LENGTH 3   /* the reference has not 20 bytes */
#define NIVRUSKA_NOT_A_STORE 4        /* under 16 bytes, its M, L or τ outside limits, shorter than its need, or more held than it can hold */
#define NIVRUSKA_SETUP_NUMBERS 5      /* M, L or τ outside limits */
#define NIVRUSKA_SETUP_MEMORY 6       /* memory shorter than the need */
#define NIVRUSKA_PATTERN_NOT_FORMED 7 /* as "/a**b" */
#define NIVRUSKA_PATTERN_TOO_LONG 8   /* over 200 bytes or over 32 '/' */
#define NIVRUSKA_FULL 9               /* M × 2^L - 1 entries are held */
#define NIVRUSKA_LOW_ABOVE_HIGH 10
#define NIVRUSKA_ANSWER_TOO_SHORT 11  /* the rows or records do not fit into the answer buffer */
#define NIVRUSKA_ALREADY_THERE 100    /* an equal entry is held: nothing changed */

struct nivruska_reply {
    uint32_t number;
    uint64_t first;
    uint64_t second;
};

/* Sets a store up: writes the bytes that it needs and none beyond them. What they held before is lost.
 * Numbers: 5, 6. Accepted: two zeros. */
struct nivruska_reply nivruska_setup(uint8_t *store, size_t store_length, uint64_t m, uint64_t l, uint64_t tau);

/* Adds an entry.
 * Numbers: 4, 2, 1, 3, 9, then 100. Accepted or 100: the number of entries held, and zero. */
struct nivruska_reply nivruska_add(uint8_t *store, size_t store_length, const uint8_t *path, size_t path_length, uint64_t value,
                                   const uint8_t *reference, size_t reference_length);

/* Writes the rows whose path fits the pattern and whose value is from low to high, both included, into the answer; bytes after them stay.
 * Numbers: 4, 8, 7, 10, 11. Accepted: the number of rows, and that of trie nodes entered. 11: the number of rows, and zero. */
struct nivruska_reply nivruska_search(const uint8_t *store, size_t store_length, const uint8_t *pattern, size_t pattern_length, uint64_t low,
                                      uint64_t high, uint8_t *answer, size_t answer_length);

/* Writes the records of a level, in the sequence of rows, into the answer; bytes after them stay. An empty level has none, nor has one numbered L or
 * above.
 * Numbers: 4, 11. Accepted or 11: the number of records, and zero. */
struct nivruska_reply nivruska_read_level(const uint8_t *store, size_t store_length, uint64_t level, uint8_t *answer, size_t answer_length);

/* Whether the path fits the pattern. False where either is not formed or too long. */
bool nivruska_fits(const uint8_t *pattern, size_t pattern_length, const uint8_t *path, size_t path_length);

#ifdef __cplusplus
}
#endif

#endif
