/*
 * Every call, on words of all kinds. The buffers end at a page without access, or begin after one, so that a read or write past what was lent ends the program;
 * with the word `heap` they are blocks of just their size, for the address sanitizer and valgrind. The words of outputs are compared with what a call must
 * leave. Prints how many calls were made.
 *
 *     guard [ROUNDS [heap]]
 */
#define _GNU_SOURCE
#include <inttypes.h>
#include <stdio.h>
#include <stdlib.h>
#include <string.h>
#include <sys/mman.h>
#include <unistd.h>
#include <lhamtrovi.h>

static uint64_t state = 20261115;

static uint64_t next_word(void) {
    state += UINT64_C(0x9e3779b97f4a7c15);
    uint64_t x = state;
    x = (x ^ (x >> 30)) * UINT64_C(0xbf58476d1ce4e5b9);
    x = (x ^ (x >> 27)) * UINT64_C(0x94d049bb133111eb);
    return x ^ (x >> 31);
}

static uint32_t below(uint32_t end) { return (uint32_t)((next_word() >> 20) % end); }

/* A room between two pages without access. */
typedef struct room {
    unsigned char *start;
    size_t bytes;
} room;

static room make_room(size_t pages) {
    size_t page = (size_t)sysconf(_SC_PAGESIZE);
    unsigned char *all = mmap(NULL, (pages + 2) * page, PROT_NONE, MAP_PRIVATE | MAP_ANONYMOUS, -1, 0);
    if (all == MAP_FAILED || mprotect(all + page, pages * page, PROT_READ | PROT_WRITE) != 0) {
        perror("guard pages");
        exit(1);
    }
    return (room){all + page, pages * page};
}

/* Where a round's buffers come from. */
enum { AT_START, AT_END, ON_HEAP };

/* The blocks of a round that are on the heap. */
static void *blocks[16];
static size_t block_count;

/* So many bytes to lend: at the start or the end of a room, or a block of just this size. */
static void *part(room r, size_t bytes, int from) {
    if (from != ON_HEAP)
        return from == AT_END ? r.start + (r.bytes - bytes) : r.start;
    void *block = malloc(bytes);
    if (block == NULL && bytes > 0)
        exit(1);
    blocks[block_count++] = block;
    return block;
}

static void give_back(void) {
    while (block_count > 0)
        free(blocks[--block_count]);
}

/* A pool by hand: breadth-first, children with random bits, damaged now and then; answers its words. */
static size_t fill_pool(uint32_t *words, uint32_t nodes, uint32_t width) {
    uint32_t depth = 0, level_end = 1, children = 1, values = 0;
    for (uint32_t i = 0; i < nodes; i++) {
        if (i == level_end) {
            if (children == level_end)
                return 4 * i;
            depth += 5;
            level_end = children;
        }
        uint32_t bits = depth + 4 <= width ? 4 : width - depth;
        uint32_t usable = (uint32_t)((UINT64_C(1) << ((2u << bits) - 1)) - 1);
        uint32_t data = (uint32_t)(next_word() & next_word()) & usable;
        uint32_t child = depth + 5 <= width / 5 * 5 ? (uint32_t)(next_word() & next_word() & next_word()) : 0;
        while ((uint32_t)__builtin_popcount(child) + children > nodes)
            child &= child - 1;
        words[4 * i] = data;
        words[4 * i + 1] = child;
        words[4 * i + 2] = children;
        words[4 * i + 3] = values;
        children += (uint32_t)__builtin_popcount(child);
        values += (uint32_t)__builtin_popcount(data);
    }
    return 4 * (size_t)nodes;
}

/* Words of some kind: a good pool, a damaged one, any words, or a good pool with words missing. */
static size_t fill(uint32_t *words, uint32_t nodes, uint32_t width) {
    size_t count = fill_pool(words, nodes, width);
    switch (below(6)) {
    case 0:
        words[below((uint32_t)count)] ^= 1u << below(32);
        return count;
    case 1:
        words[below((uint32_t)count)] = (uint32_t)next_word();
        return count;
    case 2:
        for (size_t i = 0; i < count; i++)
            words[i] = (uint32_t)next_word();
        return count;
    case 3:
        return below((uint32_t)count + 1);
    default:
        return count;
    }
}

typedef lhamtrovi_answer list_call(uint32_t, const uint32_t *, size_t, uint64_t, uint32_t, const uint32_t *, size_t, uint64_t, uint32_t, uint64_t *, size_t);

static list_call *const lists[] = {lhamtrovi_union, lhamtrovi_intersection, lhamtrovi_difference, lhamtrovi_covering_difference, lhamtrovi_covering_union};

static void wrong(const char *what) {
    fprintf(stderr, "guard: %s\n", what);
    exit(1);
}

/* The bytes of an output after a call are those before it from so many bytes on. */
static void kept(const void *after, const void *before, size_t from, size_t bytes, const char *what) {
    if (memcmp((const char *)after + from, (const char *)before + from, bytes - from) != 0)
        wrong(what);
}

static uint32_t root_len(uint32_t width) { return below(12) == 0 ? (uint32_t)next_word() : below(width + 2); }

static room left_room, right_room, out_room, values_room;
static uint64_t before[1 << 17];

/* A pool and a root, as lent. */
typedef struct side {
    uint32_t *words;
    size_t count;
    uint64_t key;
    uint32_t len;
} side;

/* A pool of some kind in a room, with a root. */
static side lend_side(room r, uint32_t width, uint64_t key, int from) {
    static uint32_t scratch[4 * 300];
    side s = {NULL, fill(scratch, 1 + below(300), width), key, below(2) ? 0 : root_len(width)};
    s.words = part(r, 4 * s.count, from);
    memcpy(s.words, scratch, 4 * s.count);
    return s;
}

/* One list, first without an output, then with one that is too small, exact or larger. */
static void call_list(list_call *list, uint32_t width, side l, side r, int from) {
    lhamtrovi_answer needed = list(width, l.words, l.count, l.key, l.len, r.words, r.count, r.key, r.len, NULL, 0);
    size_t exact = needed.number == LHAMTROVI_NO_ROOM ? needed.beside * 6 : 0;
    size_t words = below(3) == 0 && exact > 0 ? exact - 1 - below(6) : exact + (below(2) ? below(100) : 0);
    uint64_t *out = part(out_room, 8 * words, from);
    for (size_t k = 0; k < words; k++)
        out[k] = before[k] = next_word();
    lhamtrovi_answer a = list(width, l.words, l.count, l.key, l.len, r.words, r.count, r.key, r.len, out, words);
    kept(out, before, a.number == 0 ? 48 * a.beside : 0, 8 * words, "a list wrote where it may not");
}

/* Tidying, first without outputs, then with some of all sizes. */
static void call_tidy(uint32_t width, side s, int from) {
    lhamtrovi_answer needed = lhamtrovi_tidy(width, s.words, s.count, s.key, s.len, NULL, 0, NULL, 0);
    size_t nodes = needed.number == LHAMTROVI_NO_ROOM ? 4 * needed.beside : 0;
    size_t words = below(3) == 0 && nodes > 0 ? nodes - 1 : nodes + below(9);
    size_t count = below(3) == 0 ? below(100) : s.count / 4 * 31;
    uint32_t *out = part(out_room, 4 * words, from), *values = part(values_room, 4 * count, from);
    memset(out, 0x5a, 4 * words);
    memset(values, 0x5a, 4 * count);
    memset(before, 0x5a, sizeof before);
    lhamtrovi_answer a = lhamtrovi_tidy(width, s.words, s.count, s.key, s.len, out, words, values, count);
    kept(out, before, a.number == 0 ? 16 * a.beside : 0, 4 * words, "tidying wrote where it may not");
    if (a.number != 0)
        kept(values, before, 0, 4 * count, "a refused tidying wrote values");
}

/* Every call on one pair of pools; answers how many. */
static uint64_t round_of_calls(int from) {
    const uint32_t width = below(8) == 0 ? below(70) : (below(2) ? 32 : 64);
    const uint32_t good = width == 32 || width == 64 ? width : 32;
    const uint64_t key = next_word() & next_word();
    const size_t count = sizeof lists / sizeof *lists;
    side l = lend_side(left_room, good, key, from), r = lend_side(right_room, good, below(2) ? key : next_word(), from);
    lhamtrovi_check(width, l.words, l.count);
    lhamtrovi_equal_keys(width, l.words, l.count, l.key, l.len, r.words, r.count, r.key, r.len);
    for (size_t i = 0; i < count; i++)
        call_list(lists[i], width, l, r, from);
    call_tidy(width, l, from);
    return 4 + 2 * count;
}

int main(int argc, char **argv) {
    const uint64_t rounds = argc > 1 ? strtoull(argv[1], NULL, 10) : 20000;
    const int heap = argc > 2 && strcmp(argv[2], "heap") == 0;
    uint64_t calls = 0;
    left_room = make_room(8);
    right_room = make_room(8);
    out_room = make_room(256);
    values_room = make_room(32);
    for (uint64_t i = 0; i < rounds; i++) {
        calls += round_of_calls(heap ? ON_HEAP : (i & 1) ? AT_END : AT_START);
        give_back();
    }
    printf("%" PRIu64 " calls, no access outside what was lent\n", calls);
    return 0;
}
