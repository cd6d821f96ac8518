/*
 * The proved control blocks for C and C++, over words. docs/BOUNDARY.md has a first program and explains each call.
 *
 * A block goes by its number. Settings, times, inputs, outputs and state are 64-bit words: a real (a double, IEEE 754
 * binary64) as its bits, a boolean as 0 or 1; as an input, a setting or a stored word any word but 0 is true. oven_word
 * and oven_real turn a double into its word and back.
 *
 * All memory is the caller's. A call that is refused gives its refusal and zeros, and writes nothing.
 *
 * The program rounds to nearest and keeps subnormal numbers: no changed rounding mode around a call, and no -ffast-math
 * where it is compiled or linked (docs/TRUST.md). A call takes at most 8192 bytes of stack.
 */
#ifndef OVEN_H
#define OVEN_H

#include <stddef.h>
#include <stdint.h>
#include <string.h>

#ifdef __cplusplus
extern "C" {
#endif

/* ---- Blocks, with the inputs and the outputs of a tick. An input that a block lacks may be any word. */
enum oven_block {
    OVEN_PID = 0,                   /* setpoint, measurement: real */
    OVEN_PID_WITH_RESET = 1,        /* setpoint, measurement, trigger: real */
    OVEN_MOVING_AVERAGE = 2,        /* real: real */
    OVEN_TIMER_ACCUMULATING = 3,    /* input, reset: real (the total), boolean (passed) */
    OVEN_TRUE_DELAY = 4,            /* input: boolean */
    OVEN_TRUE_FALSE_HOLD = 5,       /* input: boolean */
    OVEN_TRUE_HOLD_WITH_RESET = 6,  /* input, clear: boolean */
    OVEN_LOGICAL_VARIABLE_PULSE = 7 /* duty ratio, a real from 0 to 1: boolean */
};

/* The controller's types. */
enum oven_type { OVEN_TYPE_P = 0, OVEN_TYPE_PI = 1, OVEN_TYPE_PD = 2, OVEN_TYPE_PID = 3 };

/* ---- Refusals. The first that applies is given: 13, then 14, then the others by their number. */
enum oven_refusal {
    OVEN_ACCEPTED = 0,
    OVEN_BAD_SHEET = 1,      /* of a sheet: no rows or more than 16, or a column that names no input and no answer further up */
    OVEN_BAD_SETTING = 2,    /* a real setting is a NaN or infinite, or a variable pulse's lies outside its limits */
    OVEN_BAD_LENGTH = 3,     /* the region has another number of words than the state, or a sheet's states together */
    OVEN_BAD_SPACE = 4,      /* of a sheet: the answers are not two words for each row */
    OVEN_BAD_TIME = 5,       /* the time is a NaN or infinite */
    OVEN_BAD_STATE = 6,      /* a stored word is damaged: the previous time, or a ring's head or count */
    OVEN_TIME_RUNS_BACK = 7, /* the time is below the previous one; an equal time is accepted */
    OVEN_NO_BLOCK = 13,      /* no block has this number, this many settings or this type; rows are not 17 words each */
    OVEN_BAD_TICKS = 14      /* of a run: the words are not whole ticks, or the answers have not an answer's words for each */
};

/* ---- The places of the settings, and their number. */

/* OVEN_PID and OVEN_PID_WITH_RESET */
#define OVEN_PID_TYPE 0
#define OVEN_PID_K 1
#define OVEN_PID_TI 2
#define OVEN_PID_TD 3
#define OVEN_PID_R 4
#define OVEN_PID_Y_MAX 5
#define OVEN_PID_Y_MIN 6
#define OVEN_PID_NI 7
#define OVEN_PID_ND 8
#define OVEN_PID_XI_START 9
#define OVEN_PID_YD_START 10
#define OVEN_PID_Y_RESET 11
#define OVEN_PID_REVERSE_ACTING 12
#define OVEN_PID_SETTINGS 13

#define OVEN_MOVING_AVERAGE_DELTA 0
#define OVEN_MOVING_AVERAGE_SETTINGS 1

#define OVEN_TIMER_ACCUMULATING_T 0
#define OVEN_TIMER_ACCUMULATING_SETTINGS 1

#define OVEN_TRUE_DELAY_DELAY_TIME 0
#define OVEN_TRUE_DELAY_DELAY_ON_INIT 1
#define OVEN_TRUE_DELAY_SETTINGS 2

#define OVEN_TRUE_FALSE_HOLD_TRUE_HOLD_DURATION 0
#define OVEN_TRUE_FALSE_HOLD_FALSE_HOLD_DURATION 1
#define OVEN_TRUE_FALSE_HOLD_SETTINGS 2

#define OVEN_TRUE_HOLD_WITH_RESET_DURATION 0
#define OVEN_TRUE_HOLD_WITH_RESET_SETTINGS 1

/* A variable pulse is true for the share u of each cycle, by the u of the present tick, and false for the rest. Cycles are counted
 * from the first tick, and anew from a tick whose u lies further than delta_u from the sampled one, which it then replaces. They
 * are as long as the period, but at least 2.02 times the minimum hold. A u of 0 or less, a NaN and an infinity ask for false, a
 * u of 1 or more for true. The output changes at ticks alone, and not before it has lasted for the minimum hold. */
#define OVEN_LOGICAL_VARIABLE_PULSE_PERIOD 0              /* seconds, any finite number */
#define OVEN_LOGICAL_VARIABLE_PULSE_DELTA_U 1             /* from 0.01 to 0.5, else refusal 2 */
#define OVEN_LOGICAL_VARIABLE_PULSE_MIN_TRUE_FALSE_HOLD 2 /* seconds, at least 1, else refusal 2 */
#define OVEN_LOGICAL_VARIABLE_PULSE_SETTINGS 3

/* ---- The places in a row of a sheet, and its words: a controller's thirteen settings, or another block's one to three and
 * then words that are not read. */
#define OVEN_ROW_BLOCK 0
#define OVEN_ROW_FIRST 1  /* the column of the first input */
#define OVEN_ROW_SECOND 2 /* of the second; a block that lacks one does not read it, but a column it must be */
#define OVEN_ROW_THIRD 3  /* of the third */
#define OVEN_ROW_SETTINGS 4
#define OVEN_ROW_WORDS 17

/* The most rows of a sheet, the input words of its tick, and the words that each row answers in. */
#define OVEN_SHEET_ROWS 16
#define OVEN_SHEET_INPUTS 8
#define OVEN_ROW_ANSWERS 2

/* What a row answers: its real or boolean output, then its second output (of OVEN_TIMER_ACCUMULATING) or 0. */
#define OVEN_OUTPUT 0
#define OVEN_SECOND_OUTPUT 1

/* A column below OVEN_SHEET_INPUTS names that input word of the tick. One from there on names an answer word of this same tick,
 * of a row further up; the row's own and those below it are refused. The word is handed on as its bits: read as a boolean every
 * real but 0.0 is true, also -0.0; read as a real a true boolean is the least subnormal, 5e-324.
 * Rows are counted from 0. Here is where a row begins in the rows' words, where an output of it stands in the answers, and the
 * column by which a row further down takes that output for an input. */
#define OVEN_ROW_AT(row) (OVEN_ROW_WORDS * (row))
#define OVEN_ANSWER_AT(row, output) (OVEN_ROW_ANSWERS * (row) + (output))
#define OVEN_ANSWER_COLUMN(row, output) (OVEN_SHEET_INPUTS + OVEN_ANSWER_AT(row, output))

/* ---- The words of a tick and of its answer in a run. */
#define OVEN_TICK_WORDS 4   /* the time and three inputs */
#define OVEN_ANSWER_WORDS 4 /* those of struct oven_answer */

/* ---- How many words a region has, as oven_length says too. */

/* By the controller's type; P has none, with and without reset, and PD has as many. */
#define OVEN_PID_P_LENGTH 0
#define OVEN_PID_PI_LENGTH 2
#define OVEN_PID_PD_LENGTH 2
#define OVEN_PID_PID_LENGTH 3
#define OVEN_PID_WITH_RESET_P_LENGTH 0
#define OVEN_PID_WITH_RESET_PI_LENGTH 3
#define OVEN_PID_WITH_RESET_PD_LENGTH 2
#define OVEN_PID_WITH_RESET_PID_LENGTH 4

/* A moving average's length goes with its delta: up to 1024 s the least one, from 65536 s on the most that any block has. */
#define OVEN_MOVING_AVERAGE_LEAST_LENGTH 4110
#define OVEN_MOVING_AVERAGE_MOST_LENGTH 262158

#define OVEN_TIMER_ACCUMULATING_LENGTH 5
#define OVEN_TRUE_DELAY_LENGTH 4
#define OVEN_TRUE_FALSE_HOLD_LENGTH 3
#define OVEN_TRUE_HOLD_WITH_RESET_LENGTH 3
#define OVEN_LOGICAL_VARIABLE_PULSE_LENGTH 5

/* ---- The places of a decoded state's words. After a block's last come zeros. */

/* OVEN_PID and OVEN_PID_WITH_RESET; what a type lacks is 0, an unset previous time, or 0 */
#define OVEN_PID_STATE_INTEGRATOR 0
#define OVEN_PID_STATE_PREVIOUS_TIME 1
#define OVEN_PID_STATE_FILTER 2
#define OVEN_PID_STATE_TRIGGER 3

#define OVEN_MOVING_AVERAGE_STATE_INTEGRAL 0
#define OVEN_MOVING_AVERAGE_STATE_START_TIME 1
#define OVEN_MOVING_AVERAGE_STATE_PREVIOUS_TIME 2
#define OVEN_MOVING_AVERAGE_STATE_HEAD 3
#define OVEN_MOVING_AVERAGE_STATE_COUNT 4
#define OVEN_MOVING_AVERAGE_STATE_COALESCED 5

#define OVEN_TIMER_ACCUMULATING_STATE_TOTAL 0
#define OVEN_TIMER_ACCUMULATING_STATE_PREVIOUS_TIME 1
#define OVEN_TIMER_ACCUMULATING_STATE_PREVIOUS_INPUT 2
#define OVEN_TIMER_ACCUMULATING_STATE_PREVIOUS_RESET 3
#define OVEN_TIMER_ACCUMULATING_STATE_PASSED 4

#define OVEN_TRUE_DELAY_STATE_TIMER 0
#define OVEN_TRUE_DELAY_STATE_PREVIOUS_TIME 1
#define OVEN_TRUE_DELAY_STATE_PREVIOUS_INPUT 2
#define OVEN_TRUE_DELAY_STATE_HELD 3

/* OVEN_TRUE_FALSE_HOLD and OVEN_TRUE_HOLD_WITH_RESET */
#define OVEN_HOLD_STATE_HELD 0
#define OVEN_HOLD_STATE_TIMER 1
#define OVEN_HOLD_STATE_PREVIOUS_TIME 2

#define OVEN_LOGICAL_VARIABLE_PULSE_STATE_SAMPLED_U 0
#define OVEN_LOGICAL_VARIABLE_PULSE_STATE_CYCLE_START 1
#define OVEN_LOGICAL_VARIABLE_PULSE_STATE_HELD 2
#define OVEN_LOGICAL_VARIABLE_PULSE_STATE_TIMER 3
#define OVEN_LOGICAL_VARIABLE_PULSE_STATE_PREVIOUS_TIME 4

/* The word of a previous time that is unset: no tick was stored yet. */
#define OVEN_UNSET UINT64_MAX

/* ---- What the calls give. */

/* What a tick answers. An output that the block lacks is 0, and so is each output of an update; only a moving average warns. */
struct oven_answer {
    uint64_t refusal;
    uint64_t real;    /* a double's bits */
    uint64_t boolean; /* 0 or 1 */
    uint64_t warning; /* 0 or 1 */
};

/* How many words a region has. */
struct oven_length {
    uint64_t refusal;
    uint64_t length;
};

/* A region taken apart; all zeros beside a refusal. */
struct oven_state {
    uint64_t refusal;
    uint64_t words[6];
};

/* What a sheet answers: the row is the topmost at fault for 2, 6 and 7, counted from 0, and else 0. */
struct oven_sheet_answer {
    uint64_t refusal;
    uint64_t row;
    uint64_t warning; /* 1 if any row warned, else 0 */
};

/* ---- The calls. `block` is one of enum oven_block; `settings` are its settings, in the order above. */

/* How many words the region of these settings has. */
struct oven_length oven_length(uint64_t block, const uint64_t *settings, size_t settings_len);

/* Writes the words of a fresh start to the region; the refusal. */
uint64_t oven_start(uint64_t block, const uint64_t *settings, size_t settings_len,
                    uint64_t *region, size_t region_len);

/* The outputs as of a tick at this time with these inputs; the region is only read. */
struct oven_answer oven_emit(uint64_t block, const uint64_t *settings, size_t settings_len, uint64_t time,
                             uint64_t first, uint64_t second, uint64_t third,
                             const uint64_t *region, size_t region_len);

/* Stores that tick in the region. */
struct oven_answer oven_update(uint64_t block, const uint64_t *settings, size_t settings_len, uint64_t time,
                               uint64_t first, uint64_t second, uint64_t third,
                               uint64_t *region, size_t region_len);

/* A whole tick: the emit's outputs with the update's warning, and the words that the update leaves. */
struct oven_answer oven_tick(uint64_t block, const uint64_t *settings, size_t settings_len, uint64_t time,
                             uint64_t first, uint64_t second, uint64_t third,
                             uint64_t *region, size_t region_len);

/* Many whole ticks, OVEN_TICK_WORDS each, and OVEN_ANSWER_WORDS for the answer of each. It starts nothing. The refusal is of the
 * call: 13, 14, 2 or 3, and then nothing is written. 5, 6 and 7 stand in the answer of their tick, which changes nothing, and the
 * next goes on. */
uint64_t oven_run(uint64_t block, const uint64_t *settings, size_t settings_len,
                  const uint64_t *ticks, size_t ticks_len, uint64_t *region, size_t region_len,
                  uint64_t *answers, size_t answers_len);

/* 1 if the region is sound, else 0: if oven_decode takes it apart and, of a moving average, its points are in order too. Their
 * times are finite, none is below the one before (they may be equal, and -0.0 equals 0.0), none is above the previous time, and
 * there are none while that is unset. A fresh start is sound, and an accepted tick leaves a sound region sound. No other call
 * looks at every point: an emit and an update accept a region that oven_decode takes apart, sound or not. */
uint64_t oven_sound(uint64_t block, const uint64_t *settings, size_t settings_len,
                    const uint64_t *region, size_t region_len);

/* The region taken apart into its state. The points of a moving average stay in the region. */
struct oven_state oven_decode(uint64_t block, const uint64_t *settings, size_t settings_len,
                              const uint64_t *region, size_t region_len);

/* ---- A sheet: up to OVEN_SHEET_ROWS rows over one region. The rows' states lie end to end in it, in the order of the rows. */

/* Writes the words of a fresh start to each row's stretch of the region. */
struct oven_sheet_answer oven_sheet_start(const uint64_t *rows, size_t rows_len, uint64_t *region, size_t region_len);

/* A tick of all rows with these eight input words. All emit, from the top down, each with the inputs that its columns name; then
 * all update, each with the inputs that its emit had. Row n, from 0, answers in words 2n and 2n + 1: OVEN_ANSWER_AT. */
struct oven_sheet_answer oven_sheet_tick(const uint64_t *rows, size_t rows_len, uint64_t time, const uint64_t *words,
                                         uint64_t *region, size_t region_len, uint64_t *answers, size_t answers_len);

/* ---- Reals and their words. */

/* The word of a real. */
static inline uint64_t oven_word(double real) {
    uint64_t word;
    memcpy(&word, &real, sizeof word);
    return word;
}

/* The real of a word. */
static inline double oven_real(uint64_t word) {
    double real;
    memcpy(&real, &word, sizeof real);
    return real;
}

#ifdef __cplusplus
}
#endif

#endif
