/*
 * The lists of examples/incident from C: the networks that stay believed, by a covering difference, and then the forbidden ones inside them, by a
 * covering union.
 */
#include <inttypes.h>
#include <stdio.h>
#include <lhamtrovi.h>

#define MOST 16

static void print_network(const lhamtrovi_record *r) {
    unsigned a = (unsigned)(r->key >> 32);
    printf("%u.%u.%u.%u/%" PRIu64, a >> 24, a >> 16 & 255, a >> 8 & 255, a & 255, r->len);
}

static int refused(const char *call, lhamtrovi_answer a) {
    fprintf(stderr, "%s: refusal %" PRIu32 ", %" PRIu64 "\n", call, a.number, a.beside);
    return 1;
}

int main(void) {
    /* 10.0.0.0/8 and 10.1.2.0/24; the words come from the converter, rust/cidr. */
    static const uint32_t believed[] = {
        0x00000000, 0x00000002, 1, 0,
        0x00000200, 0x00000100, 2, 0,
        0x00000000, 0x00000001, 3, 1,
        0x00000000, 0x00010000, 4, 1,
        0x00020000, 0x00000000, 5, 1,
    };
    /* 10.1.0.0/16 */
    static const uint32_t forbidden[] = {
        0x00000000, 0x00000002, 1, 0,
        0x00000000, 0x00000100, 2, 0,
        0x00000000, 0x00000001, 3, 0,
        0x00000004, 0x00000000, 4, 0,
    };
    const size_t left = sizeof believed / sizeof *believed, right = sizeof forbidden / sizeof *forbidden;
    uint64_t out[MOST * LHAMTROVI_RECORD_WORDS];
    const lhamtrovi_record *records = (const lhamtrovi_record *)out;

    lhamtrovi_answer a = lhamtrovi_covering_difference(32, believed, left, 0, 0, forbidden, right, 0, 0, out, sizeof out / sizeof *out);
    if (a.number != LHAMTROVI_DONE)
        return refused("covering difference", a);
    for (uint64_t i = 0; i < a.beside; i++) {
        printf("believed ");
        print_network(&records[i]);
        printf("\n");
    }

    a = lhamtrovi_covering_union(32, believed, left, 0, 0, forbidden, right, 0, 0, out, sizeof out / sizeof *out);
    if (a.number != LHAMTROVI_DONE)
        return refused("covering union", a);
    for (uint64_t i = 0; i < a.beside; i++)
        if (records[i].tag == 2 && records[i].cover != LHAMTROVI_NO_COVER) {
            printf("forbidden ");
            print_network(&records[i]);
            printf(" lies inside a believed /%" PRIu64 "\n", records[i].cover);
        }
    return 0;
}
