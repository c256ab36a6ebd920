#include "numbers.h"

#include <inttypes.h>
#include <stdbool.h>
#include <stdio.h>

#include "flag.h"
#include "patterns.h"

/* As the archive libprobes.a has them (crates/probes/src/lib.rt). */
bool probe_is_finite(float x);
float probe_sanitise(float x);
float probe_limit(float x);
float probe_clamp_floor(float x, float lo);

/* Every answer goes here, so that no call is left out. */
static volatile bool told;
static volatile float answered;

static uint32_t block_at;
static float lo;

static float input(uint64_t k) {
    return float_of(block_at | (uint32_t)k);
}

static void is_finite(uint64_t k) {
    told = probe_is_finite(input(k));
}

static void sanitise(uint64_t k) {
    answered = probe_sanitise(input(k));
}

static void limit(uint64_t k) {
    answered = probe_limit(input(k));
}

static void clamp_floor(uint64_t k) {
    answered = probe_clamp_floor(input(k), lo);
}

static void begin(uint64_t block) {
    block_at = (uint32_t)block << 16;
}

/* Of each kind: how many patterns raise the flag, the first of them, and where it is raised. */
static call_of *counted;
static uint64_t of_kind[KINDS];
static uint32_t first[KINDS];
static const void *first_at[KINDS];

static void raises(uint64_t k) {
    const uint32_t bits = block_at | (uint32_t)k;
    const enum kind kind = kind_of(bits);
    if (of_kind[kind]++ == 0) {
        first[kind] = bits;
        first_at[kind] = stops_at(counted, k);
    }
}

static uint64_t count(const char *name, call_of *call, int quick) {
    static const char *const kinds[KINDS] = {"finite numbers", "infinities", "quiet NaNs", "signalling NaNs"};
    const struct calls calls = {65536, quick ? 256 : 65536, begin, call, raises};
    memset(of_kind, 0, sizeof of_kind);
    counted = call;
    const uint64_t raised = raised_by(&calls);
    printf("%s: %" PRIu64 " patterns, %" PRIu64 " raise it\n", name, calls.blocks * calls.in_block, raised);
    for (int kind = 0; kind < KINDS; kind++) {
        if (of_kind[kind] == 0) {
            continue;
        }
        printf("    %" PRIu64 " %s, first %08" PRIx32, of_kind[kind], kinds[kind], first[kind]);
        if (first_at[kind] != NULL) {
            printf(", at %p", first_at[kind]);
        }
        printf("\n");
    }
    return raised;
}

int count_is_finite(int quick) {
    return count("is_finite", is_finite, quick) == 0;
}

int count_sanitise(int quick) {
    count("sanitise", sanitise, quick);
    return 1;
}

int count_limit(int quick) {
    count("limit", limit, quick);
    return 1;
}

/* At floors that are limited, as those of every mix are: the least, one of flight, the most. */
int count_clamp_floor(int quick) {
    lo = 0.0f;
    count("clamp_floor, floor 0", clamp_floor, quick);
    lo = 0.125f;
    count("clamp_floor, floor 0.125", clamp_floor, quick);
    lo = 1.0f;
    count("clamp_floor, floor 1", clamp_floor, quick);
    return 1;
}
