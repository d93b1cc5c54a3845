/*
 * Lhamtrovi: sets of network prefixes, proved. The static library liblhamtrovi.a defines these functions; docs/MANUAL.md says what pools, views, records
 * and refusals are.
 *
 * What holds for every function:
 *
 * - Any words, widths, roots and buffer sizes may be given. A call ends with its answer, or with a refusal's number, and a refused call has written nothing.
 *   No pool has to be checked first.
 * - Pools and buffers are given as a pointer and a count of elements, not of bytes. A pointer must be aligned for its elements (4 bytes for uint32_t, 8 for
 *   uint64_t) and valid for the count. Where the count is 0 nothing is read or written through the pointer, and it may be any, NULL too.
 * - A function reads only the pools that it is given, and writes only its outputs (out, values): at their front, as many elements as its answer says. The elements
 *   behind keep their contents.
 * - An output may not overlap a pool or the other output. The same pool may be given for both sides, and pools may overlap.
 * - There is no memory of earlier calls, no allocation, no lock, no input or output. Calls in several threads need no care as long as no thread writes
 *   what another reads.
 * - A call uses less than 8 KiB of stack: 4,000 bytes at most were measured, on pools as deep as there are (tests/c/stack.c). No depth comes from the input.
 *
 * The source of truth is the Rattle code, crate `lhamtrovi_c`; nothing proves this header to agree with it, and the tests call each function through it.
 */
#ifndef LHAMTROVI_H
#define LHAMTROVI_H

#include <stddef.h>
#include <stdint.h>

#ifdef __cplusplus
extern "C" {
#endif

/* The words of a node in a pool, and of a record in a list's output. */
#define LHAMTROVI_NODE_WORDS 4
#define LHAMTROVI_RECORD_WORDS 6

/* The most nodes of a pool. */
#define LHAMTROVI_MOST_NODES 65536

/* In a record: no value, and no cover. */
#define LHAMTROVI_NO_VALUE 4294967295u
#define LHAMTROVI_NO_COVER 255u

/* The numbers of an answer. A call tests in this order, and answers the first that holds. */
enum {
    LHAMTROVI_DONE = 0,         /* the call is done */
    LHAMTROVI_BAD_WIDTH = 1,    /* the width is not 32 or 64 */
    LHAMTROVI_BAD_LEFT = 2,     /* the left pool, or the only one, is not well-formed; beside: the node of its first fault */
    LHAMTROVI_BAD_RIGHT = 3,    /* the right pool is not well-formed; beside: the node of its first fault */
    LHAMTROVI_LONG_LEFT = 4,    /* the left root, or the only one, is longer than the width */
    LHAMTROVI_LONG_RIGHT = 5,   /* the right root is longer than the width */
    LHAMTROVI_NO_ROOM = 6,      /* out is too small; beside: how many records or nodes are needed */
    LHAMTROVI_NO_VALUE_ROOM = 7 /* values is too short; beside: how many are needed */
};

/* What every call answers. */
typedef struct lhamtrovi_answer {
    uint32_t number; /* 0, or the refusal's number */
    uint64_t beside; /* how many were written, or what the refusal names */
    uint64_t second; /* a check's fault number, 1 to 8, where the number is 2; otherwise 0 */
} lhamtrovi_answer;

/* A record of a list, as its words stand in the output. */
typedef struct lhamtrovi_record {
    uint64_t key;   /* the prefix's bits, the first one highest, also at width 32 */
    uint64_t len;   /* its length */
    uint64_t tag;   /* 1: in the left view alone, 2: in the right one alone, 3: in both */
    uint64_t left;  /* its value in the left pool; for tag 2 the cover's value, or LHAMTROVI_NO_VALUE */
    uint64_t right; /* its value in the right pool; for tag 1 the cover's value, or LHAMTROVI_NO_VALUE */
    uint64_t cover; /* the cover's length, or LHAMTROVI_NO_COVER */
} lhamtrovi_record;

/*
 * Whether a pool is well-formed. Reads pool_words words.
 * 0: it is, and has `beside` nodes. 1: the width. 2: its first fault is number `second`, at node `beside`.
 */
lhamtrovi_answer lhamtrovi_check(uint32_t width, const uint32_t *pool, size_t pool_words);

/*
 * The lists. Each reads both pools and writes `beside` records of six words to the front of out, in strictly ascending prefix order.
 * A root is the first `len` bits of `key`; the bits of the key past them are ignored. 0, 0 is the whole pool.
 * Refusals 1 to 6; out_words / 6 records have room. Where out has room for as many records as both pools have values, the list is written in one walk
 * (for the three lists of the left view alone, as many as the left pool has); otherwise it is counted first, which takes about as long again.
 */

/* The prefixes of either view. */
lhamtrovi_answer lhamtrovi_union(uint32_t width, const uint32_t *left, size_t left_words, uint64_t left_key, uint32_t left_len,
                                 const uint32_t *right, size_t right_words, uint64_t right_key, uint32_t right_len,
                                 uint64_t *out, size_t out_words);

/* The prefixes of both views. */
lhamtrovi_answer lhamtrovi_intersection(uint32_t width, const uint32_t *left, size_t left_words, uint64_t left_key, uint32_t left_len,
                                        const uint32_t *right, size_t right_words, uint64_t right_key, uint32_t right_len,
                                        uint64_t *out, size_t out_words);

/* The prefixes of the left view that are not in the right one. */
lhamtrovi_answer lhamtrovi_difference(uint32_t width, const uint32_t *left, size_t left_words, uint64_t left_key, uint32_t left_len,
                                      const uint32_t *right, size_t right_words, uint64_t right_key, uint32_t right_len,
                                      uint64_t *out, size_t out_words);

/*
 * The prefixes of the left view that no prefix of the right one equals or leads. It removes listed networks: 10.0.0.0/8 on the left stays if only
 * 10.1.0.0/16 is on the right. The covering union tells of those.
 */
lhamtrovi_answer lhamtrovi_covering_difference(uint32_t width, const uint32_t *left, size_t left_words, uint64_t left_key, uint32_t left_len,
                                               const uint32_t *right, size_t right_words, uint64_t right_key, uint32_t right_len,
                                               uint64_t *out, size_t out_words);

/* The prefixes of either view; one that is in one view alone comes with its cover, the longest prefix of the other view that leads it. */
lhamtrovi_answer lhamtrovi_covering_union(uint32_t width, const uint32_t *left, size_t left_words, uint64_t left_key, uint32_t left_len,
                                          const uint32_t *right, size_t right_words, uint64_t right_key, uint32_t right_len,
                                          uint64_t *out, size_t out_words);

/* Whether the two views have the same prefixes: 0 with 1 beside it for yes, 0 for no. Writes nothing. Refusals 1 to 5. */
lhamtrovi_answer lhamtrovi_equal_keys(uint32_t width, const uint32_t *left, size_t left_words, uint64_t left_key, uint32_t left_len,
                                      const uint32_t *right, size_t right_words, uint64_t right_key, uint32_t right_len);

/*
 * The tidy pool of a view: the one well-formed pool of exactly the view's prefixes in which every node but the root has one in it or below it.
 * Writes `beside` nodes of four words to the front of out, and to the front of values, for each value index of the new pool, the one of the old pool.
 * Refusals 1, 2, 4, 6 (nodes), 7 (values). As many words as the pool has are always enough for out.
 */
lhamtrovi_answer lhamtrovi_tidy(uint32_t width, const uint32_t *pool, size_t pool_words, uint64_t key, uint32_t len,
                                uint32_t *out, size_t out_words, uint32_t *values, size_t values_words);

#ifdef __cplusplus
}
#endif

#endif
