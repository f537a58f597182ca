/* An outage of five intervals lies across the cut between two stretches, and is shorter than n = 4 on either side of it. Each stretch is
 * summarised by itself, and the two summaries are joined: the record is that of the uncut stretch, with the five unavailable.
 *
 * Built with include/mippadusk.h and libmippadusk.a, as ./examples/run does. Ends with 1 where anything is not as expected. */
#include <stdio.h>
#include <stdlib.h>
#include <string.h>

#include "mippadusk.h"

enum { SETTINGS = 64, INTERVAL = 48, SUMMARY = 1024, COUNT = 16, CUT = 6 };

/* Records are little-endian. */
static void put32(uint8_t *at, uint32_t x) {
    for (int k = 0; k < 4; k++) {
        at[k] = (uint8_t)(x >> (8 * k));
    }
}

static uint32_t get32(const uint8_t *at) {
    return at[0] | (uint32_t)at[1] << 8 | (uint32_t)at[2] << 16 | (uint32_t)at[3] << 24;
}

static void expect(int holds, const char *what) {
    if (!holds) {
        fprintf(stderr, "not as expected: %s\n", what);
        exit(1);
    }
}

static void answered(uint64_t word) {
    if (word != 0) {
        fprintf(stderr, "refused %u %u\n", MIP_NUMBER(word), MIP_PLACE(word));
        exit(1);
    }
}

/* Intervals of 1,000 ms, n = 4, loss alone counts, high above one half. */
static void make_settings(uint8_t *s) {
    memset(s, 0, SETTINGS);
    put32(s, 1000);
    s[4] = 4;
    s[6] = 1;
    put32(s + 8, 500000);
    put32(s + 12, 500000);
    put32(s + 48, 999000);
}

/* Ten frames sent; in the outage, intervals 4 to 8, all are lost, and else each arrives after 1,000 ns. */
static void make_interval(uint8_t *r, uint32_t number) {
    int out = number >= 4 && number <= 8;
    memset(r, 0, INTERVAL);
    put32(r, number);
    put32(r + 4, 10);
    put32(r + 8, out ? 10 : 0);
    put32(r + 16, out ? 0 : 9);
    put32(r + 24, out ? 0 : 10000);
    put32(r + 32, out ? 0 : 1000);
    put32(r + 36, out ? 0 : 1000);
}

/* What a summary says of itself, and its loss track of its first run, of what lies between, and of its last run: docs/RECORDS.md has
 * the offsets. */
static void show(const char *name, const uint8_t *s) {
    const uint8_t *track = s + 32;
    const uint8_t *first = track + 8, *between = track + 64, *last = track + 160;
    printf("%s %u to %u: first run %u %s, between %u unavailable, last run %u %s\n", name, get32(s), get32(s + 4),
           get32(first + 4), get32(first) ? "high" : "low", get32(between + 4),
           get32(last + 4), get32(last) ? "high" : "low");
}

int main(void) {
    uint8_t settings[SETTINGS], intervals[COUNT * INTERVAL];
    uint8_t left[SUMMARY], right[SUMMARY], joined[SUMMARY], uncut[SUMMARY];
    make_settings(settings);
    for (uint32_t k = 0; k < COUNT; k++) {
        make_interval(intervals + k * INTERVAL, k);
    }

    const uint8_t *later = intervals + CUT * INTERVAL;
    answered(mip_summary(settings, SETTINGS, 0, intervals, CUT * INTERVAL, left, SUMMARY, 0));
    answered(mip_summary(settings, SETTINGS, CUT, later, (COUNT - CUT) * INTERVAL, right, SUMMARY, 0));
    answered(mip_join(left, SUMMARY, right, SUMMARY, joined, SUMMARY, 0));
    answered(mip_summary(settings, SETTINGS, 0, intervals, COUNT * INTERVAL, uncut, SUMMARY, 0));

    show("left", left);
    show("right", right);
    show("joined", joined);
    expect(get32(joined) == 0 && get32(joined + 4) == COUNT, "the joined stretch is 0 to 16");
    expect(get32(joined + 32 + 64 + 4) == 5, "the outage is unavailable");
    expect(memcmp(joined, uncut, SUMMARY) == 0, "the joined bytes are those of the uncut stretch");
    printf("joined and uncut: the same %d bytes\n", SUMMARY);

    uint64_t word = mip_join(right, SUMMARY, left, SUMMARY, joined, SUMMARY, 0);
    printf("right before left: refused %u %u\n", MIP_NUMBER(word), MIP_PLACE(word));
    expect(MIP_NUMBER(word) == MIP_ORDER && MIP_PLACE(word) == 1, "the later one is not the next");
    expect(memcmp(joined, uncut, SUMMARY) == 0, "a refusal writes nothing");
    return 0;
}
