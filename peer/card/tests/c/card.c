/* A card's loop: one module, an 8512 with one normal output of one pair, 0 to 100, in a group that is always open. */
#include <stdio.h>

#include "chimneyrye.h"

static chimneyrye_module card;
static uint16_t m0[CHIMNEYRYE_M0_WORDS];
static uint16_t m1[CHIMNEYRYE_M1_WORDS];

/* The programming of docs/BENCH.md, case b, with its first output alone and SLCINT. */
static void program(void) {
    static const uint16_t setup[12] = {33057, 1024, 0, 0, 0, 0, 0, 0, 1, 1, 0, 0};
    for (int i = 0; i < 12; i++) {
        m0[i] = setup[i];
    }
    m0[20] = 32768;
    m0[22] = 32769; /* group 1: used, real, Mode 0, one output */
    m1[0] = 32768;
    m1[2 + 4] = 100; /* output 1: control, two advances, ON 0, OFF 100 */
    printf("setup %u\n", chimneyrye_setup(&card, m0, CHIMNEYRYE_M0_WORDS));
    printf("group %u\n", chimneyrye_group(&card, m0, CHIMNEYRYE_M0_WORDS));
    printf("limit %u\n", chimneyrye_limit(&card, m1, CHIMNEYRYE_M1_WORDS));
}

int main(void) {
    /* The last raw position is over 1023: it latches the fault. Virtual output 17 is forced on with it, which sets the interrupt request. */
    static const uint16_t raws[4] = {0, 100, 200, 1024};
    printf("power %u\n", chimneyrye_power_up(&card, 8512));
    program();
    for (int i = 0; i < 4; i++) {
        chimneyrye_sample sample = {.raw = raws[i], .virtualon = i == 3};
        chimneyrye_answer answer = chimneyrye_step(&card, sample);
        /* The one pair is tested in each step but the last. */
        printf("step %d position %u real %04x tests %u\n", answer.refused ? 11 : 0, answer.position, answer.real, answer.tests);
    }
    printf("fault %d\n", card.configuration.fault);
    /* Bytes 0 and 1 of the input table: TrFlt; the acknowledges of setup, group and limit. With the mask the line is up until a 1 is written to byte 16. */
    printf("read %02x %02x %02x\n", chimneyrye_read_byte(&card, 0).value, chimneyrye_read_byte(&card, 1).value, chimneyrye_read_byte(&card, 16).value);
    printf("line %d", chimneyrye_line(&card));
    printf(" write %u", chimneyrye_write_byte(&card, 17, 1));
    printf(" line %d", chimneyrye_line(&card));
    printf(" write %u", chimneyrye_write_byte(&card, 16, 1));
    printf(" line %d\n", chimneyrye_line(&card));
    printf("read %u write %u\n", chimneyrye_read_byte(&card, 18).number, chimneyrye_write_byte(&card, 15, 1));
    return 0;
}
