/*
 * The stack that each call needs. A call runs on an area of its own that was filled with a pattern before; the deepest word that it changed tells how far
 * down it went. What a call that does nothing changes there, its return address, is where the count begins.
 */
#define _GNU_SOURCE
#include <stdio.h>
#include <stdlib.h>
#include <ucontext.h>

#include "cases.h"

#define PATTERN 0xa5a5a5a5a5a5a5a5u
#define AREA_WORDS (1u << 16)

static uint64_t area[AREA_WORDS];
static ucontext_t host, on_area;
static chimneyrye_module card;
static files file;
static chimneyrye_sample sample;
static chimneyrye_answer answer;
static chimneyrye_byte byte;
static uint8_t value;
static bool level;
static uint16_t number, outcome;
static size_t words;

/* Calls of the same shapes that do nothing. */
__attribute__((noipa)) static uint16_t no_number(chimneyrye_module *m, uint16_t n) { (void)m; (void)n; return 0; }
__attribute__((noipa)) static uint16_t no_file(chimneyrye_module *m, uint16_t *f, size_t n) { (void)m; (void)f; (void)n; return 0; }
__attribute__((noipa)) static chimneyrye_answer no_step(chimneyrye_module *m, chimneyrye_sample s) { (void)m; (void)s; return answer; }
__attribute__((noipa)) static chimneyrye_byte no_read(const chimneyrye_module *m, uint16_t n) { (void)m; (void)n; return byte; }
__attribute__((noipa)) static uint16_t no_write(chimneyrye_module *m, uint16_t n, uint8_t v) { (void)m; (void)n; (void)v; return 0; }
__attribute__((noipa)) static bool no_line(const chimneyrye_module *m) { (void)m; return level; }

static uint16_t (*of_number)(chimneyrye_module *, uint16_t);
static uint16_t (*of_file)(chimneyrye_module *, uint16_t *, size_t);
static uint16_t *its_file;

static void run_number(void) { outcome = of_number(&card, number); }
static void run_file(void) { outcome = of_file(&card, its_file, words); }
static void run_no_step(void) { answer = no_step(&card, sample); }
static void run_step(void) { answer = chimneyrye_step(&card, sample); }
static void run_no_read(void) { byte = no_read(&card, number); }
static void run_read(void) { byte = chimneyrye_read_byte(&card, number); }
static void run_no_write(void) { outcome = no_write(&card, number, value); }
static void run_write(void) { outcome = chimneyrye_write_byte(&card, number, value); }
static void run_no_line(void) { level = no_line(&card); }
static void run_line(void) { level = chimneyrye_line(&card); }

/* The lowest word of the area that a run changes. */
static size_t lowest(void (*run)(void)) {
    for (size_t i = 0; i < AREA_WORDS; i++) {
        area[i] = PATTERN;
    }
    getcontext(&on_area);
    on_area.uc_stack.ss_sp = area;
    on_area.uc_stack.ss_size = sizeof area;
    on_area.uc_link = &host;
    makecontext(&on_area, run, 0);
    swapcontext(&host, &on_area);
    size_t i = 0;
    while (i < AREA_WORDS && area[i] == PATTERN) {
        i++;
    }
    if (i == 0) {
        puts("the area is too small");
        exit(1);
    }
    return i;
}

/* Bytes from the return address on. */
static size_t bytes(size_t nothing, size_t call) { return 8 * (nothing - call) + 8; }

static size_t deeper(void (*nothing)(void), void (*call)(void)) {
    size_t above = lowest(nothing);
    return bytes(above, lowest(call));
}

static size_t number_bytes(uint16_t (*call)(chimneyrye_module *, uint16_t), uint16_t with) {
    number = with;
    of_number = no_number;
    size_t nothing = lowest(run_number);
    of_number = call;
    return bytes(nothing, lowest(run_number));
}

static size_t file_bytes(uint16_t (*call)(chimneyrye_module *, uint16_t *, size_t), uint16_t *f, size_t n) {
    its_file = f;
    words = n;
    of_file = no_file;
    size_t nothing = lowest(run_file);
    of_file = call;
    return bytes(nothing, lowest(run_file));
}

static size_t step_bytes(chimneyrye_sample with) {
    sample = with;
    return deeper(run_no_step, run_step);
}

static size_t read_bytes(uint16_t offset) {
    number = offset;
    return deeper(run_no_read, run_read);
}

static size_t write_bytes(uint16_t offset, uint8_t with) {
    number = offset;
    value = with;
    return deeper(run_no_write, run_write);
}

static size_t most(size_t a, size_t b) { return a < b ? b : a; }

static void expect(const char *what, unsigned got, unsigned wanted) {
    if (got != wanted) {
        printf("%s answered %u, not %u\n", what, got, wanted);
        exit(1);
    }
}

/* One cycle as it is, then with transmit clear, so that the next one acts. */
static size_t cycle_bytes(const char *what, uint16_t (*call)(chimneyrye_module *, uint16_t *, size_t), uint16_t *f, size_t n, uint16_t *command, unsigned wanted) {
    size_t deep = file_bytes(call, f, n);
    expect(what, outcome, wanted);
    uint16_t before = *command;
    deep = most(deep, file_bytes(call, f, n));
    expect(what, outcome, wanted == 1 || wanted == 2 ? wanted : CHIMNEYRYE_IDLE);
    *command &= 32767;
    deep = most(deep, file_bytes(call, f, n));
    *command = before;
    return deep;
}

static size_t nudge_bytes(uint16_t word, unsigned wanted) {
    size_t deep = number_bytes(chimneyrye_nudge, word);
    expect("nudge", outcome, wanted);
    return most(deep, number_bytes(chimneyrye_nudge, word & 32767));
}

/* Four timed and four pulse outputs in place of the first eight. */
static void mixed(files *f) {
    case_a(f);
    for (int n = 1; n <= 8; n++) {
        uint16_t *block = block_of(f, n);
        block[0] = n <= 4 ? 2 : 1;
        block[3] = 100;
        block[4] = 400;
        block[5] = n <= 4 ? 20 : 7;
        block[6] = 11;
    }
}

int main(void) {
    static void (*const programs[3])(files *) = {case_a, case_x, mixed};
    size_t power = 0, setup = 0, group = 0, limit = 0, nudge = 0, step = 0, read = 0, write = 0, line = 0;
    for (int i = 0; i < 3; i++) {
        power = most(power, number_bytes(chimneyrye_power_up, 1));
        expect("power-up", outcome, CHIMNEYRYE_UNKNOWN_MODULE);
        power = most(power, number_bytes(chimneyrye_power_up, 8513));
        expect("power-up", outcome, CHIMNEYRYE_ACCEPTED);
        programs[i](&file);
        limit = most(limit, cycle_bytes("limit", chimneyrye_limit, file.m1, CHIMNEYRYE_M1_WORDS, &file.m1[0], CHIMNEYRYE_IGNORED));
        setup = most(setup, cycle_bytes("setup", chimneyrye_setup, file.m0, CHIMNEYRYE_M0_WORDS - 1, &file.m0[0], CHIMNEYRYE_M0_LENGTH));
        setup = most(setup, cycle_bytes("setup", chimneyrye_setup, file.m0, CHIMNEYRYE_M0_WORDS, &file.m0[0], CHIMNEYRYE_ACCEPTED));
        group = most(group, cycle_bytes("group", chimneyrye_group, file.m0, CHIMNEYRYE_M0_WORDS, &file.m0[20], CHIMNEYRYE_ACCEPTED));
        limit = most(limit, cycle_bytes("limit", chimneyrye_limit, file.m1, CHIMNEYRYE_M1_WORDS, &file.m1[0], CHIMNEYRYE_ACCEPTED));
        for (uint32_t k = 0; k < 1300; k++) {
            step = most(step, step_bytes(sample_at(k)));
            expect("step", answer.refused, 0);
        }
        nudge = most(nudge, nudge_bytes(32768 + 768 + 31, CHIMNEYRYE_ACCEPTED));
        nudge = most(nudge, nudge_bytes(32768 + 768 + 4, CHIMNEYRYE_ACCEPTED));
        block_of(&file, 9)[3] = 0;
        limit = most(limit, cycle_bytes("limit", chimneyrye_limit, file.m1, CHIMNEYRYE_M1_WORDS, &file.m1[0], CHIMNEYRYE_ACCEPTED));
        nudge = most(nudge, nudge_bytes(32768 + 256 + 1024 + 8, CHIMNEYRYE_NUDGE_SETPOINT));
        nudge = most(nudge, nudge_bytes(32768 + 16384, CHIMNEYRYE_ACCEPTED));
        nudge = most(nudge, nudge_bytes(32768 + 2048, CHIMNEYRYE_NUDGE_OUTPUT));
        nudge = most(nudge, nudge_bytes(32768, CHIMNEYRYE_IGNORED));
        nudge = most(nudge, nudge_bytes(32768 + 16384, CHIMNEYRYE_ACCEPTED));
        step = most(step, step_bytes((chimneyrye_sample){.raw = 1024}));
        expect("step", answer.refused, 1);
        for (uint16_t offset = 0; offset <= 18; offset++) {
            read = most(read, read_bytes(offset));
            expect("read", byte.number, offset <= 17 ? CHIMNEYRYE_ACCEPTED : CHIMNEYRYE_BYTE_OFFSET);
            write = most(write, write_bytes(offset, 1));
            expect("write", outcome, offset < 16 ? CHIMNEYRYE_READ_ONLY_BYTE : offset <= 17 ? CHIMNEYRYE_ACCEPTED : CHIMNEYRYE_BYTE_OFFSET);
            line = most(line, deeper(run_no_line, run_line));
        }
        file.m0[1] = 1;
        setup = most(setup, cycle_bytes("setup", chimneyrye_setup, file.m0, CHIMNEYRYE_M0_WORDS, &file.m0[0], CHIMNEYRYE_SETUP_DATA));
        file.m0[20] |= 1;
        file.m0[22] |= 31;
        group = most(group, cycle_bytes("group", chimneyrye_group, file.m0, CHIMNEYRYE_M0_WORDS, &file.m0[20], CHIMNEYRYE_GROUP_DATA));
        file.m1[0] |= 1;
        block_of(&file, 32)[1] = 1000;
        limit = most(limit, cycle_bytes("limit", chimneyrye_limit, file.m1, CHIMNEYRYE_M1_WORDS, &file.m1[0], CHIMNEYRYE_LIMIT_DATA));
        limit = most(limit, cycle_bytes("limit", chimneyrye_limit, file.m1, 0, &file.m1[0], CHIMNEYRYE_M1_LENGTH));
    }
    printf("chimneyrye_power_up %zu\n", power);
    printf("chimneyrye_setup %zu\n", setup);
    printf("chimneyrye_group %zu\n", group);
    printf("chimneyrye_limit %zu\n", limit);
    printf("chimneyrye_nudge %zu\n", nudge);
    printf("chimneyrye_step %zu\n", step);
    printf("chimneyrye_read_byte %zu\n", read);
    printf("chimneyrye_write_byte %zu\n", write);
    printf("chimneyrye_line %zu\n", line);
    return 0;
}
