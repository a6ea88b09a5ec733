/*
 * The dearest of many steps. `steps time C` runs 1,000,000 steps of case C (a or x of docs/BENCH.md) twenty times from one and the same module, reads the
 * processor's time stamp before and after each step, and keeps the least time of each of them, which takes interrupts out; it prints the mean and the greatest
 * of these. `steps cold C` does the same with 700 steps from the 1,000th on, five times, and before each it writes to 128 MB of other memory, so that neither
 * the module nor the code is left in a cache. `steps run C N` only runs N steps, for a program that counts instructions. `steps cycles` prints the least time
 * of each cycle out of 200.
 */
#define _GNU_SOURCE
#include <stdio.h>
#include <stdlib.h>
#include <time.h>
#include <x86intrin.h>

#include "cases.h"

#define MOST_STEPS 1000000u
#define OTHER_BYTES (128u << 20)

static chimneyrye_module card, fresh;
static files file;
static uint32_t least[MOST_STEPS];
static volatile unsigned char *other;

/* Case a with 32 pulse outputs of the most pulses that fit; the last output's advance may be bad. */
static void case_p(files *f, uint16_t advance) {
    case_a(f);
    for (int n = 1; n <= 32; n++) {
        uint16_t *block = block_of(f, n);
        block[0] = 1;
        block[3] = 1;
        block[4] = 0;
        block[5] = 500;
        block[6] = 1;
    }
    block_of(f, 32)[1] = advance;
}

static void load(char name) {
    if (name == 'a') {
        case_a(&file);
    } else if (name == 'x') {
        case_x(&file);
    } else {
        case_p(&file, name == 'p' ? 0 : 1000);
    }
}

static void program(char name) {
    load(name);
    if (chimneyrye_power_up(&card, 8513) || chimneyrye_setup(&card, file.m0, CHIMNEYRYE_M0_WORDS) ||
        chimneyrye_group(&card, file.m0, CHIMNEYRYE_M0_WORDS) || chimneyrye_limit(&card, file.m1, CHIMNEYRYE_M1_WORDS)) {
        puts("a cycle was refused");
        exit(1);
    }
}

static uint64_t stamp(void) {
    unsigned core;
    _mm_lfence();
    uint64_t t = __rdtscp(&core);
    _mm_lfence();
    return t;
}

static double seconds(void) {
    struct timespec t;
    clock_gettime(CLOCK_MONOTONIC, &t);
    return (double)t.tv_sec + 1e-9 * (double)t.tv_nsec;
}

static uint32_t of_nothing(void) {
    uint64_t best = UINT64_MAX;
    for (int i = 0; i < 100000; i++) {
        uint64_t before = stamp();
        uint64_t after = stamp();
        best = after - before < best ? after - before : best;
    }
    return (uint32_t)best;
}

static void write_other(void) {
    for (size_t i = 0; other && i < OTHER_BYTES; i += 64) {
        other[i]++;
    }
}

/* `from` steps come before the first that is measured. */
static void measure(char name, uint32_t from, uint32_t steps, int repeats) {
    program(name);
    for (uint32_t i = 0; i < from; i++) {
        chimneyrye_step(&card, sample_at(i));
    }
    fresh = card;
    double began = seconds();
    uint64_t first = stamp();
    for (int r = 0; r < repeats; r++) {
        card = fresh;
        for (uint32_t i = 0; i < steps; i++) {
            chimneyrye_sample s = sample_at(from + i);
            write_other();
            uint64_t before = stamp();
            chimneyrye_step(&card, s);
            uint64_t took = stamp() - before;
            if (r == 0 || took < least[i]) {
                least[i] = took > UINT32_MAX ? UINT32_MAX : (uint32_t)took;
            }
        }
    }
    double tick = 1e9 * (seconds() - began) / (double)(stamp() - first);
    uint32_t nothing = of_nothing(), greatest = 0, at = 0;
    double sum = 0;
    for (uint32_t i = 0; i < steps; i++) {
        sum += least[i] - nothing;
        if (least[i] > greatest) {
            greatest = least[i];
            at = i;
        }
    }
    printf("case %c%s, ns a step: mean %.0f, greatest %.0f (step %u)\n", name, other ? ", caches cold" : "", tick * sum / steps, tick * (greatest - nothing), from + at);
}

/* The least time of each cycle that programs a case, in ticks. */
static void cycle_ticks(char name, uint64_t best[3]) {
    best[0] = best[1] = best[2] = UINT64_MAX;
    for (int r = 0; r < 200; r++) {
        uint16_t outcome[3];
        uint64_t at[4];
        load(name);
        chimneyrye_power_up(&card, 8513);
        at[0] = stamp();
        outcome[0] = chimneyrye_setup(&card, file.m0, CHIMNEYRYE_M0_WORDS);
        at[1] = stamp();
        outcome[1] = chimneyrye_group(&card, file.m0, CHIMNEYRYE_M0_WORDS);
        at[2] = stamp();
        outcome[2] = chimneyrye_limit(&card, file.m1, CHIMNEYRYE_M1_WORDS);
        at[3] = stamp();
        for (int k = 0; k < 3; k++) {
            if (outcome[k] != (k == 2 && name == 'q' ? CHIMNEYRYE_LIMIT_DATA : CHIMNEYRYE_ACCEPTED)) {
                puts("a cycle answered something else");
                exit(1);
            }
            best[k] = at[k + 1] - at[k] < best[k] ? at[k + 1] - at[k] : best[k];
        }
    }
}

static void cycles(void) {
    uint64_t a[3], p[3], q[3];
    double began = seconds();
    uint64_t first = stamp();
    cycle_ticks('a', a);
    cycle_ticks('p', p);
    cycle_ticks('q', q);
    while (seconds() - began < 0.2) {
    }
    double tick = 1e6 * (seconds() - began) / (double)(stamp() - first);
    printf("cycles of case a, us: setup %.1f, group %.1f, limit %.1f\n", tick * (double)a[0], tick * (double)a[1], tick * (double)a[2]);
    printf("limit cycle with 32 pulse outputs of 500 pulses, us: accepted %.1f, refused for its last block %.1f\n", tick * (double)p[2], tick * (double)q[2]);
}

int main(int count, char **words) {
    if (count == 3 && words[1][0] == 't') {
        measure(words[2][0], 0, MOST_STEPS, 20);
        return 0;
    }
    if (count == 3 && words[1][0] == 'c') {
        other = calloc(OTHER_BYTES, 1);
        measure(words[2][0], 1000, 700, 5);
        return 0;
    }
    if (count == 4 && words[1][0] == 'r') {
        program(words[2][0]);
        for (uint32_t i = 0, n = (uint32_t)atol(words[3]); i < n; i++) {
            chimneyrye_step(&card, sample_at(i));
        }
        return 0;
    }
    if (count == 2 && words[1][0] == 'c') {
        cycles();
        return 0;
    }
    fputs("usage: steps time C | steps cold C | steps run C N | steps cycles, with C a or x\n", stderr);
    return 2;
}
