/*
 * How much stack the calls use: each runs on a stack of its own that was filled with a pattern, on pools as deep as there are, and the bytes that changed are
 * counted. Fails above what the header says.
 */
#define _XOPEN_SOURCE 700
#include <inttypes.h>
#include <stdio.h>
#include <stdlib.h>
#include <string.h>
#include <ucontext.h>
#include <lhamtrovi.h>

#define STACK (64 * 1024)
#define SAID (8 * 1024)
#define FILL 0xa5

/* Thirteen levels at width 64; below the root each has two nodes, of which the second goes on, so that emptiness is asked at every level. */
static uint32_t chain[4 * 26], empty[4 * 26];
static size_t words;
static uint64_t out[6 * 1024];
static uint32_t tidy[4 * 64], values[1024];
static int job;
static ucontext_t here, there;

static void fill_chain(uint32_t *pool, uint32_t data) {
    uint32_t children = 1, used = 0, n = 0;
    for (uint32_t level = 0; level < 13; level++)
        for (uint32_t twin = 0; twin < (level == 0 ? 1u : 2u); twin++, n++) {
            uint32_t held = level == 12 && twin == 1 ? data : 0;
            uint32_t child = level < 12 && twin == (level == 0 ? 0u : 1u) ? 0x80000001 : 0;
            pool[4 * n] = held;
            pool[4 * n + 1] = child;
            pool[4 * n + 2] = children;
            pool[4 * n + 3] = used;
            children += child ? 2 : 0;
            used += held ? (uint32_t)__builtin_popcount(held) : 0;
        }
    words = 4 * (size_t)n;
}

static void run(void) {
    lhamtrovi_answer a = {99, 0, 0};
    const size_t n = words, room = sizeof out / sizeof *out;
    switch (job) {
    case 0: a = lhamtrovi_check(64, chain, n); break;
    case 1: a = lhamtrovi_union(64, chain, n, 0, 0, empty, n, 0, 0, out, room); break;
    case 2: a = lhamtrovi_intersection(64, chain, n, 0, 0, chain, n, 0, 0, out, room); break;
    case 3: a = lhamtrovi_difference(64, chain, n, 0, 0, empty, n, 0, 0, out, room); break;
    case 4: a = lhamtrovi_covering_difference(64, chain, n, 0, 0, empty, n, 0, 0, out, room); break;
    case 5: a = lhamtrovi_covering_union(64, chain, n, 0, 0, empty, n, 0, 0, out, room); break;
    case 6: a = lhamtrovi_equal_keys(64, chain, n, 0, 0, chain, n, 0, 0); break;
    case 7: a = lhamtrovi_tidy(64, chain, n, 0, 0, tidy, 4 * 64, values, 1024); break;
    case 8: a = lhamtrovi_tidy(64, chain, n, UINT64_MAX, 64, tidy, 4 * 64, values, 1024); break;
    case 10: a = lhamtrovi_covering_union(64, chain, n, 0, 0, chain, n, 0, 0, out, 6 * 31); break;
    case 11: a = lhamtrovi_union(64, chain, n, 0, 1, chain, n, UINT64_MAX, 64, out, room); break;
    case 12: a = lhamtrovi_covering_difference(64, chain, n, UINT64_MAX, 64, chain, n, UINT64_MAX, 60, out, room); break;
    case 9: a = lhamtrovi_tidy(64, empty, n, 0, 0, tidy, 4 * 64, values, 1024); break;
    }
    if (a.number != 0) {
        fprintf(stderr, "stack: job %d is refused, %" PRIu32 "\n", job, a.number);
        exit(1);
    }
}

int main(void) {
    static const char *const names[] = {"check", "union", "intersection", "difference", "covering difference", "covering union", "equality", "tidy", "tidy at a root", "tidy of nothing", "covering union, counted first", "union at two roots", "covering difference at two roots"};
    static unsigned char stack[STACK];
    static int too_much;
    fill_chain(chain, 0x7fffffff);
    fill_chain(empty, 0);
    for (job = 0; job < 13; job++) {
        memset(stack, FILL, sizeof stack);
        getcontext(&there);
        there.uc_stack.ss_sp = stack;
        there.uc_stack.ss_size = sizeof stack;
        there.uc_link = &here;
        makecontext(&there, run, 0);
        swapcontext(&here, &there);
        size_t free_bytes = 0;
        while (free_bytes < STACK && stack[free_bytes] == FILL)
            free_bytes++;
        printf("%s %zu\n", names[job], STACK - free_bytes);
        too_much |= STACK - free_bytes > SAID;
    }
    if (too_much)
        fprintf(stderr, "stack: more than the %d bytes that the header says\n", SAID);
    return too_much;
}
