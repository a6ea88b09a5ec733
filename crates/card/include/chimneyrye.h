/*
 * chimneyrye.h: the limit switch card's calls, on a module that the host keeps where it sits.
 *
 * Link crates/card/out/libcard.a, which `rt lib` in crates/card writes for x86-64-v2. It needs memcpy and memset and nothing else: no heap, no
 * global state.
 * Every call is proved to do what the card's rules say, whatever numbers the module, the sample and the file hold; docs/READING.md has the table.
 *
 * A card's loop:
 *
 *     static chimneyrye_module card;                       all zero, as C leaves it
 *     chimneyrye_power_up(&card, 8513);
 *     chimneyrye_setup(&card, m0, CHIMNEYRYE_M0_WORDS);    and group, limit, as the programming asks
 *     for (;;) {                                           every 200 us
 *         chimneyrye_answer answer = chimneyrye_step(&card, sample);
 *         ..
 *     }
 *
 * A caller owes only what C asks of it: a pointer to a module of its own that no other call is using, with 0 or 1 in each bool (a module that
 * was set to zero, or powered up, has that), and a pointer to `words` words. A file pointer is aligned and not null, also where `words` is 0.
 * The module is the engine's own, lent as it stands: a call copies nothing to another form. A number that the rules do not name (a mode of 6, a
 * detector of 3, an owner of 7) lights nothing.
 */
#ifndef CHIMNEYRYE_H
#define CHIMNEYRYE_H

#include <stdbool.h>
#include <stddef.h>
#include <stdint.h>

#ifdef __cplusplus
extern "C" {
#endif

/* The lengths of the files, in words. A file of another length is refused. */
#define CHIMNEYRYE_M0_WORDS 120
#define CHIMNEYRYE_M1_WORDS 650

/* What power-up, the cycles and the byte accesses return: 0, Idle, or the number of the refusal. */
enum {
    CHIMNEYRYE_ACCEPTED = 0,
    CHIMNEYRYE_M0_LENGTH = 1,
    CHIMNEYRYE_M1_LENGTH = 2,
    CHIMNEYRYE_UNKNOWN_MODULE = 3,
    CHIMNEYRYE_IGNORED = 5,
    CHIMNEYRYE_SETUP_DATA = 6,
    CHIMNEYRYE_GROUP_DATA = 7,
    CHIMNEYRYE_LIMIT_DATA = 8,
    CHIMNEYRYE_NUDGE_OUTPUT = 9,
    CHIMNEYRYE_NUDGE_SETPOINT = 10,
    CHIMNEYRYE_BYTE_OFFSET = 13,
    CHIMNEYRYE_READ_ONLY_BYTE = 14,
    CHIMNEYRYE_IDLE = 65535
};

/*
 * The module. A host reads what it likes, for instance configuration.errors after a cycle; it writes nothing here, the calls do.
 * Positions are counts of a turn.
 */

typedef struct {
    uint16_t low, high; /* rpm */
} chimneyrye_detector;

typedef struct {
    uint16_t multiplier;
    uint16_t divider; /* the divisor less one */
    uint16_t code;    /* decimal code, 0 to 3 */
} chimneyrye_scalars;

typedef struct {
    uint16_t top; /* the scale factor less one */
    uint16_t preset;
    uint16_t offset;
    bool reversed;    /* CDir */
    bool fast;        /* TResp */
    bool interrupt;   /* SLCINT */
    bool independent; /* MType */
    chimneyrye_detector md1, md2;
    chimneyrye_scalars scalars;
    uint16_t states; /* the inputs' active states */
} chimneyrye_programmed_setup;

typedef struct {
    uint16_t on, off;
} chimneyrye_pair;

typedef struct {
    bool used;
    bool isvirtual;    /* GPTyp */
    bool firstvirtual; /* FCITyp */
    uint16_t mode;     /* 0 to 5 */
    uint16_t quantity;
    chimneyrye_pair dwell;
    uint16_t offset; /* Group Offset / Preset */
} chimneyrye_programmed_group;

typedef struct {
    uint16_t kind; /* 0 unprogrammed, 1 normal, 2 pulse, 3 timed */
    uint16_t quantity, count; /* pulse: Q and the ON count K */
    uint16_t duration;        /* timed: T */
} chimneyrye_switch;

typedef struct {
    bool negative;
    uint16_t tenths; /* of a millisecond */
} chimneyrye_advance;

typedef struct {
    chimneyrye_switch action;
    bool enable;       /* ANDed with LS Enable */
    uint16_t detector; /* ANDed with motion detector 1 or 2; 0 for neither */
    chimneyrye_advance onadvance, offadvance;
    uint16_t setpoints[16]; /* ON 1, OFF 1, ON 2, OFF 2 and so on */
} chimneyrye_programmed_limit;

typedef struct {
    chimneyrye_programmed_setup setup;
    chimneyrye_programmed_group groups[6];
    uint16_t owners[32]; /* the group that each output was dealt to, 1 to 6; 0 for none */
    chimneyrye_programmed_limit limits[32];
} chimneyrye_programming;

typedef struct {
    bool setup;    /* SUErr */
    bool group;    /* GPErr */
    bool limit;    /* LSErr */
    bool number;   /* I/DNum */
    bool setpoint; /* I/DSet */
} chimneyrye_errors;

typedef struct {
    bool setup, group, limit, nudge;
} chimneyrye_acknowledges;

typedef struct {
    uint16_t model; /* 8511, 8512 or 8513 */
    chimneyrye_programming programming;
    chimneyrye_errors errors;
    chimneyrye_acknowledges acknowledges;
    bool ignored; /* MsgIgn */
    bool fault;   /* the transducer fault is latched */
    uint16_t raw; /* of the last step that was not answered 11 */
} chimneyrye_configuration;

typedef struct {
    bool stepped; /* there was a step since the module start */
    uint16_t at;
} chimneyrye_last;

/* The steps since the window's beginning, and the sum of their movements, 512 added for each. */
typedef struct {
    uint16_t steps;
    uint32_t sum;
} chimneyrye_window;

typedef struct {
    chimneyrye_last last;
    chimneyrye_window shortwindow, longwindow; /* of c, and of C */
    uint32_t c; /* 61440 added: 512 for each of its 120 steps */
    uint32_t tenths; /* of an rpm */
} chimneyrye_speed;

typedef struct {
    bool level, first, held;
    uint16_t shift;
    bool taken, begun, qualified, opened;
} chimneyrye_group_state;

typedef struct {
    bool held;
    uint32_t left;
} chimneyrye_timed_state;

/* What a start resets: a module start all of it. */
typedef struct {
    chimneyrye_speed speed;
    chimneyrye_group_state groups[6];
    uint16_t positions[6]; /* Group Positions that the last step left */
    chimneyrye_timed_state timed[32];
} chimneyrye_since_start;

/* What the last step showed: words 1 to 5 of the input table, and three bits of its word 0. */
typedef struct {
    uint16_t position; /* Machine Position of the last step that was not answered 11 */
    uint16_t tach, real, virtuals;
    uint16_t inputs; /* active real inputs, after the forces */
    bool overflow;   /* TachOv */
    bool md1, md2;
} chimneyrye_shown;

typedef struct {
    bool request, mask; /* the interrupt request and its mask */
} chimneyrye_bus;

/* What runs on since power-up. */
typedef struct {
    chimneyrye_shown shown;
    chimneyrye_bus bus;
} chimneyrye_kept;

typedef struct {
    chimneyrye_since_start since;
    chimneyrye_kept kept;
} chimneyrye_state;

typedef struct {
    chimneyrye_configuration configuration;
    chimneyrye_state state;
} chimneyrye_module;

/* The nine words that a step takes. Bit 0 is input or output 1, and 17 of the virtual ones; off beats on. */
typedef struct {
    uint16_t raw; /* raw position, 0 to 1023 */
    uint16_t currents;
    uint16_t virtuals;
    uint16_t inputson, inputsoff;
    uint16_t realon, realoff;
    uint16_t virtualon, virtualoff;
} chimneyrye_sample;

typedef struct {
    bool refused; /* answered 11: the transducer fault */
    uint16_t position;
    uint32_t tenths; /* the speed in tenths of an rpm, 0 to 1500000 */
    uint16_t tach;
    bool overflow; /* TachOv */
    bool md1, md2;
    uint16_t real;
    uint16_t virtuals;
    uint16_t changed; /* with SLCINT, how many virtual outputs changed */
    uint16_t tests; /* how many pairs of setpoints the step tested, 0 to 256 */
} chimneyrye_answer;

/* A byte of the bus: 0 and its value, or the number of the refusal and 0. */
typedef struct {
    uint16_t number;
    uint8_t value;
} chimneyrye_byte;

/* Power-up: 0, or 3 for a number that is no module's, and then the module stays as it was. */
uint16_t chimneyrye_power_up(chimneyrye_module *module, uint16_t number);

/* A programming cycle. The file's status words are rewritten where the cycle acts; setup and group take M0, limit M1. */
uint16_t chimneyrye_setup(chimneyrye_module *module, uint16_t *file, size_t words);
uint16_t chimneyrye_group(chimneyrye_module *module, uint16_t *file, size_t words);
uint16_t chimneyrye_limit(chimneyrye_module *module, uint16_t *file, size_t words);
uint16_t chimneyrye_nudge(chimneyrye_module *module, uint16_t word);

/* One step of 200 us. */
chimneyrye_answer chimneyrye_step(chimneyrye_module *module, chimneyrye_sample sample);

/*
 * The rack bus, bytes 0 to 17 of the module. Bytes 0 to 15 are the input table, words 0 to 7 of figure 5.1 of the manual, low byte first; they
 * are only read. Byte 16 bit 0 is the interrupt request: a step whose `changed` is not 0 sets it, a 1 written to it drops it. Byte 17 bit 0 is its
 * mask: 0 after power-up, then the bit written last. Their other bits read 0 and are ignored where they are written.
 * Refused: an offset over 17 (13), a write below 16 (14). A read changes nothing.
 */
chimneyrye_byte chimneyrye_read_byte(const chimneyrye_module *module, uint16_t offset);
uint16_t chimneyrye_write_byte(chimneyrye_module *module, uint16_t offset, uint8_t value);

/* The interrupt line: up while request and mask are both 1. */
bool chimneyrye_line(const chimneyrye_module *module);

#ifdef __cplusplus
}
#endif

#endif
