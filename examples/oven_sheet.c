/*
 * One oven as one sheet: the program of examples/oven_step.c, with its heater on a mean of the thermocouple.
 *
 * Four rows tick together in one call, and hand their answers down: the heater's measurement is the mean that the row
 * above has just answered, and the soak clock runs while the delay answers that the trays are warm. The program reads
 * answers to print them and to set the heater; it copies none into the next tick. Prints examples/oven_sheet.expected.
 */
#include "oven.h"

#include <stdio.h>
#include <stdlib.h>

/* The rows: each takes answers of those above it. */
enum { MEAN, HEATER, TRAYS, SOAK, ROWS };

/* The words of a tick. */
enum { THERMOCOUPLE, SETPOINT, DOOR, HOT, NEW_SOAK };

/* How many words the rows, the region and the answers have. */
enum {
    LEN = OVEN_ROW_AT(ROWS),
    WORDS = OVEN_MOVING_AVERAGE_LEAST_LENGTH + OVEN_PID_WITH_RESET_PI_LENGTH + OVEN_TRUE_DELAY_LENGTH +
            OVEN_TIMER_ACCUMULATING_LENGTH,
    ANSWERS = OVEN_ROW_ANSWERS * ROWS
};

/* A place in a row, and the place of a setting. */
#define ROW(row, place) [OVEN_ROW_AT(row) + OVEN_ROW_##place]
#define SETTING(row, place) [OVEN_ROW_AT(row) + OVEN_ROW_SETTINGS + OVEN_##place]

static void write_rows(uint64_t *rows) {
    const uint64_t words[LEN] = {
        ROW(MEAN, BLOCK) = OVEN_MOVING_AVERAGE,
        ROW(MEAN, FIRST) = THERMOCOUPLE,
        SETTING(MEAN, MOVING_AVERAGE_DELTA) = oven_word(30.0),

        ROW(HEATER, BLOCK) = OVEN_PID_WITH_RESET,
        ROW(HEATER, FIRST) = SETPOINT,
        ROW(HEATER, SECOND) = OVEN_ANSWER_COLUMN(MEAN, OVEN_OUTPUT), /* its measurement */
        ROW(HEATER, THIRD) = DOOR,
        SETTING(HEATER, PID_TYPE) = OVEN_TYPE_PI,
        SETTING(HEATER, PID_K) = oven_word(1.0),
        SETTING(HEATER, PID_TI) = oven_word(240.0),
        SETTING(HEATER, PID_R) = oven_word(20.0),
        SETTING(HEATER, PID_Y_MAX) = oven_word(1.0),
        SETTING(HEATER, PID_NI) = oven_word(0.9),
        SETTING(HEATER, PID_Y_RESET) = oven_word(0.6),
        SETTING(HEATER, PID_REVERSE_ACTING) = 1,

        ROW(TRAYS, BLOCK) = OVEN_TRUE_DELAY,
        ROW(TRAYS, FIRST) = HOT,
        SETTING(TRAYS, TRUE_DELAY_DELAY_TIME) = oven_word(120.0),
        SETTING(TRAYS, TRUE_DELAY_DELAY_ON_INIT) = 1,

        ROW(SOAK, BLOCK) = OVEN_TIMER_ACCUMULATING,
        ROW(SOAK, FIRST) = OVEN_ANSWER_COLUMN(TRAYS, OVEN_OUTPUT), /* it runs while they are warm */
        ROW(SOAK, SECOND) = NEW_SOAK,
        SETTING(SOAK, TIMER_ACCUMULATING_T) = oven_word(900.0),
    };
    memcpy(rows, words, sizeof words);
}

static void refuse(struct oven_sheet_answer said) {
    if (said.refusal != OVEN_ACCEPTED) {
        printf("refused %d, row %d\n", (int)said.refusal, (int)said.row);
        exit(1);
    }
}

/* A row's output, and its second one. */
static uint64_t output(const uint64_t *answers, size_t row) { return answers[OVEN_ANSWER_AT(row, OVEN_OUTPUT)]; }
static uint64_t second(const uint64_t *answers, size_t row) { return answers[OVEN_ANSWER_AT(row, OVEN_SECOND_OUTPUT)]; }

static void show(double time, double oven, int door, const uint64_t *answers) {
    printf("%6.0f %6.2f %6.2f %6.3f  %-4s  %-4s  %4.0f  %s\n", time, oven, oven_real(output(answers, MEAN)),
           oven_real(output(answers, HEATER)), door ? "open" : "shut", output(answers, TRAYS) ? "yes" : "no",
           oven_real(output(answers, SOAK)), second(answers, SOAK) ? "yes" : "no");
}

int main(void) {
    static uint64_t rows[LEN], region[WORDS];
    uint64_t words[OVEN_SHEET_INPUTS] = {[SETPOINT] = oven_word(85.0)}, answers[ANSWERS] = {0};
    double oven = 25.0;

    write_rows(rows);
    refuse(oven_sheet_start(rows, LEN, region, WORDS));
    printf("  time   oven   mean   heat  door  warm  soak  done\n");
    for (double time = 0.0; time <= 1650.0; time += 10.0) {
        const int door = time >= 900.0 && time < 960.0;
        words[THERMOCOUPLE] = oven_word(oven);
        words[DOOR] = door;
        words[HOT] = !door && oven >= 80.0;
        refuse(oven_sheet_tick(rows, LEN, oven_word(time), words, region, WORDS, answers, ANSWERS));
        if ((int)time % 150 == 0) {
            show(time, oven, door, answers);
        }
        /* the heater lifts the oven by up to 100 above the room; an open door lets the heat out */
        const double heat = oven_real(output(answers, HEATER)), lifted = door ? 25.0 : 25.0 + 100.0 * heat;
        oven += (10.0 / (door ? 120.0 : 240.0)) * (lifted - oven);
    }
    return 0;
}
