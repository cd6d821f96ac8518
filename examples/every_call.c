/*
 * Every call of the boundary from C: on a delay of two seconds that is started at time 0 with a true input, on a moving
 * average whose points are put out of order, and on a sheet of such a delay and a soak clock that runs while the delay's
 * answer is true. Prints examples/every_call.expected.
 */
#include "oven.h"

#include <inttypes.h>
#include <stdio.h>

static void show(const char *call, const uint64_t *words, size_t count) {
    printf("%-7s", call);
    for (size_t n = 0; n < count; n++) {
        if (words[n] < 100) {
            printf(" %" PRIu64, words[n]);
        } else {
            printf(" %016" PRIX64, words[n]);
        }
    }
    printf("\n");
}

static void show_answer(const char *call, struct oven_answer a) {
    const uint64_t words[] = {a.refusal, a.real, a.boolean, a.warning};
    show(call, words, 4);
}

static void show_sheet(const char *call, struct oven_sheet_answer a) {
    const uint64_t words[] = {a.refusal, a.row, a.warning};
    show(call, words, 3);
}

/* A moving average that has ticked at 1 and at 2 is sound. With the times of its two points swapped it is not, and an emit and
 * an update accept it all the same. */
static void average(void) {
    enum { LENGTH = OVEN_MOVING_AVERAGE_LEAST_LENGTH, TIMES = 6 }; /* the points' times stand behind six other words */
    static uint64_t region[LENGTH];
    const uint64_t block = OVEN_MOVING_AVERAGE, delta = oven_word(60.0), input = oven_word(21.5);

    oven_start(block, &delta, 1, region, LENGTH);
    oven_update(block, &delta, 1, oven_word(1.0), input, 0, 0, region, LENGTH);
    oven_update(block, &delta, 1, oven_word(2.0), input, 0, 0, region, LENGTH);
    const uint64_t sound = oven_sound(block, &delta, 1, region, LENGTH);
    show("average", &sound, 1);
    region[TIMES] = oven_word(2.0);
    region[TIMES + 1] = oven_word(1.0);
    const uint64_t swapped = oven_sound(block, &delta, 1, region, LENGTH);
    show("swapped", &swapped, 1);
    show_answer("emit", oven_emit(block, &delta, 1, oven_word(3.0), input, 0, 0, region, LENGTH));
    show_answer("update", oven_update(block, &delta, 1, oven_word(3.0), input, 0, 0, region, LENGTH));
}

/* The rows of a sheet, their words, and where each row's begin. */
enum { DELAY, CLOCK, ROWS, LEN = OVEN_ROW_AT(ROWS), OF_DELAY = OVEN_ROW_AT(DELAY), OF_CLOCK = OVEN_ROW_AT(CLOCK) };

/* What a start and a tick say to a column in a place that its block does not read. The rows have a setting that is refused with
 * 2, which comes behind the column's 1. */
static void columns(uint64_t *rows, uint64_t *region, uint64_t *answers) {
    const uint64_t words[OVEN_SHEET_INPUTS] = {0};
    const uint64_t cases[][2] = {
        {OF_DELAY + OVEN_ROW_THIRD, OVEN_ANSWER_COLUMN(DELAY, OVEN_OUTPUT)},        /* the row's own word */
        {OF_CLOCK + OVEN_ROW_THIRD, OVEN_ANSWER_COLUMN(CLOCK, OVEN_SECOND_OUTPUT)}, /* the row's own word */
        {OF_DELAY + OVEN_ROW_SECOND, OVEN_ANSWER_COLUMN(CLOCK, OVEN_OUTPUT)},       /* a later row's */
        {OF_CLOCK + OVEN_ROW_THIRD, OVEN_ANSWER_COLUMN(ROWS, OVEN_OUTPUT)},         /* of no row */
        {OF_CLOCK + OVEN_ROW_THIRD, UINT64_MAX},
        {OF_CLOCK + OVEN_ROW_THIRD, OVEN_ANSWER_COLUMN(DELAY, OVEN_SECOND_OUTPUT)}, /* of a row further up: so 2 */
    };
    for (size_t n = 0; n < sizeof cases / sizeof cases[0]; n++) {
        uint64_t *place = rows + cases[n][0], before = *place;
        *place = cases[n][1];
        const uint64_t said[] = {
            oven_sheet_start(rows, LEN, region, 9).refusal,
            oven_sheet_tick(rows, LEN, oven_word(9.0), words, region, 9, answers, 4).refusal,
        };
        show(n == 0 ? "column" : "", said, 2);
        *place = before;
    }
}

/* A sheet of two rows: column 0 is the delay's input, the delay's answer is the clock's, and column 7 resets the clock. */
static void sheet(void) {
    uint64_t rows[LEN] = {
        [OF_DELAY + OVEN_ROW_BLOCK] = OVEN_TRUE_DELAY,
        [OF_DELAY + OVEN_ROW_SETTINGS + OVEN_TRUE_DELAY_DELAY_TIME] = oven_word(2.0),
        [OF_DELAY + OVEN_ROW_SETTINGS + OVEN_TRUE_DELAY_DELAY_ON_INIT] = 1,
        [OF_CLOCK + OVEN_ROW_BLOCK] = OVEN_TIMER_ACCUMULATING,
        [OF_CLOCK + OVEN_ROW_FIRST] = OVEN_ANSWER_COLUMN(DELAY, OVEN_OUTPUT),
        [OF_CLOCK + OVEN_ROW_SECOND] = 7,
        [OF_CLOCK + OVEN_ROW_SETTINGS + OVEN_TIMER_ACCUMULATING_T] = oven_word(2.0),
    };
    uint64_t region[OVEN_TRUE_DELAY_LENGTH + OVEN_TIMER_ACCUMULATING_LENGTH], answers[OVEN_ROW_ANSWERS * ROWS];
    const uint64_t words[OVEN_SHEET_INPUTS] = {1};

    show_sheet("sheet", oven_sheet_start(rows, LEN, region, 9));
    for (double time = 0.0; time < 5.0; time += 1.0) {
        show_sheet("tick", oven_sheet_tick(rows, LEN, oven_word(time), words, region, 9, answers, 4));
        show("", answers, 4);
    }
    show_sheet("refused", oven_sheet_tick(rows, LEN, oven_word(1.0), words, region, 9, answers, 4));
    region[1] = oven_word(1.0); /* the delay's previous time: now the clock's alone is ahead */
    show_sheet("", oven_sheet_tick(rows, LEN, oven_word(1.0), words, region, 9, answers, 4));
    region[5] = OVEN_UNSET - 1; /* the clock's is no time */
    show_sheet("", oven_sheet_tick(rows, LEN, oven_word(1.0), words, region, 9, answers, 4));
    show_sheet("", oven_sheet_tick(rows, LEN, oven_word(3.0), words, region, 9, answers, 3));
    show_sheet("", oven_sheet_start(rows, LEN, region, 8));
    rows[OF_CLOCK + OVEN_ROW_SETTINGS + OVEN_TIMER_ACCUMULATING_T] = OVEN_UNSET; /* a NaN */
    show_sheet("", oven_sheet_start(rows, LEN, region, 9));
    columns(rows, region, answers);
    rows[OF_DELAY + OVEN_ROW_FIRST] = UINT64_MAX; /* 13 comes before the column's 1 */
    rows[OF_CLOCK + OVEN_ROW_BLOCK] = 8;
    show_sheet("refused", oven_sheet_start(rows, LEN, region, 9));
}

int main(void) {
    const uint64_t block = OVEN_TRUE_DELAY;
    const uint64_t settings[OVEN_TRUE_DELAY_SETTINGS] = {
        [OVEN_TRUE_DELAY_DELAY_TIME] = oven_word(2.0),
        [OVEN_TRUE_DELAY_DELAY_ON_INIT] = 1,
    };
    const uint64_t ticks[] = {oven_word(2.0), 1, 0, 0, oven_word(1.0), 1, 0, 0, oven_word(3.0), 0, 0, 0};
    uint64_t region[OVEN_TRUE_DELAY_LENGTH], answers[3 * OVEN_ANSWER_WORDS];

    struct oven_length length = oven_length(block, settings, 2);
    const uint64_t words[] = {length.refusal, length.length};
    show("length", words, 2);
    const uint64_t started = oven_start(block, settings, 2, region, 4);
    show("start", &started, 1);
    show_answer("emit", oven_emit(block, settings, 2, oven_word(0.0), 1, 0, 0, region, 4));
    show_answer("update", oven_update(block, settings, 2, oven_word(0.0), 1, 0, 0, region, 4));
    show_answer("tick", oven_tick(block, settings, 2, oven_word(1.5), 1, 0, 0, region, 4));
    const uint64_t sound = oven_sound(block, settings, 2, region, 4);
    show("sound", &sound, 1);
    struct oven_state state = oven_decode(block, settings, 2, region, 4);
    show("decode", &state.refusal, 1);
    show("", state.words, 6);
    const uint64_t ran = oven_run(block, settings, 2, ticks, 12, region, 4, answers, 12);
    show("run", &ran, 1);
    for (size_t n = 0; n < 3; n++) {
        show("", answers + OVEN_ANSWER_WORDS * n, OVEN_ANSWER_WORDS);
    }
    const uint64_t no_number[OVEN_TRUE_DELAY_SETTINGS] = {OVEN_UNSET, 1}; /* a NaN */
    const uint64_t refused[] = {
        oven_start(8, settings, 2, region, 4),
        oven_start(block, settings, 1, region, 4),
        oven_run(block, settings, 2, ticks, 11, region, 4, answers, 11),
        oven_run(block, settings, 2, ticks, 12, region, 4, answers, 8),
        oven_run(block, no_number, 2, ticks, 12, region, 4, answers, 12),
        oven_run(block, settings, 2, ticks, 12, region, 3, answers, 12),
    };
    show("refused", refused, 6);
    average();
    sheet();
    return 0;
}
