/* The programming and the samples of docs/BENCH.md, cases a and x, for a host in C. */
#ifndef CASES_H
#define CASES_H

#include <stdint.h>
#include <string.h>

#include "chimneyrye.h"

typedef struct {
    uint16_t m0[CHIMNEYRYE_M0_WORDS];
    uint16_t m1[CHIMNEYRYE_M1_WORDS];
} files;

static uint16_t *block_of(files *f, int output) { return &f->m1[19 * output - 17]; }

/* Setup, and the six groups of this many outputs; `controls` has a group's mode and type bits, `channels` its Group Channel and offset. */
static void setup_and_groups(files *f, const uint16_t controls[6], uint16_t channels[6][3]) {
    static const uint16_t setup[12] = {33057, 1000, 0, 10, 100, 20000, 1, 30000, 3, 2, 0, 0};
    static const uint16_t outputs[6] = {5, 5, 6, 5, 5, 6};
    memset(f, 0, sizeof *f);
    memcpy(f->m0, setup, sizeof setup);
    f->m0[20] = 32768;
    for (int n = 1; n <= 6; n++) {
        uint16_t *block = &f->m0[18 + 4 * n];
        block[0] = 32768 + controls[n - 1] + outputs[n - 1];
        memcpy(&block[1], channels[n - 1], 3 * sizeof(uint16_t));
    }
    f->m1[0] = 32768;
}

/* Case a: a full card. */
static void case_a(files *f) {
    static const uint16_t controls[6] = {0, 256, 512, 17152, 17408, 25856};
    static uint16_t channels[6][3] = {{0, 0, 7}, {900, 100, 50}, {800, 850, 0}, {0, 0, 20}, {100, 600, 30}, {200, 700, 40}};
    setup_and_groups(f, controls, channels);
    for (int n = 0; n < 32; n++) {
        uint16_t *block = block_of(f, n + 1);
        block[0] = 8192 * (n % 3);
        block[1] = n % 2 ? 65526 - n : 10 + n;
        block[2] = n % 2 ? 65531 - n : 5 + n;
        for (int k = 0; k < 8; k++) {
            block[3 + 2 * k] = (31 * n + 125 * k + 3 * k * (n % 4)) % 1000;
            block[4 + 2 * k] = (block[3 + 2 * k] + 40 + n) % 1000;
        }
    }
}

/* Case x: every pair of every output is tested in nearly every step, with the largest advances. */
static void case_x(files *f) {
    static const uint16_t controls[6] = {256, 256, 256, 16640, 16640, 16640};
    static uint16_t channels[6][3] = {{900, 100, 50}, {900, 100, 50}, {900, 100, 50}, {900, 100, 50}, {900, 100, 50}, {900, 100, 50}};
    setup_and_groups(f, controls, channels);
    for (int n = 0; n < 32; n++) {
        uint16_t *block = block_of(f, n + 1);
        block[0] = 8192 * (1 + n % 2);
        block[1] = block[2] = n % 2 ? 64537 : 999;
        for (int k = 0; k < 8; k++) {
            block[3 + 2 * k] = (31 * n + 125 * k) % 1000;
            block[4 + 2 * k] = (block[3 + 2 * k] + 1) % 1000;
        }
    }
}

/* The sample of step i of docs/BENCH.md. */
static chimneyrye_sample sample_at(uint32_t i) {
    uint32_t p = i % 8192;
    chimneyrye_sample s = {.raw = (2 * p + p * p / 4096) % 1024, .currents = i / 32, .virtuals = i / 16};
    return s;
}

#endif
