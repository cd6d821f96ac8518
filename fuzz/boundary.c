/* The list of calls that bytes stand for: calls of one block on one region, or of one sheet. */
#include "boundary.h"
#include "checks.h"
#include "classes.h"
#include "due.h"
#include "leaves.h"
#include "pulses.h"
#include "rings.h"

/* Words of regions that one list may take; it keeps a list of a large ring short. */
enum { WORDS_OF_A_LIST = 1 << 20 };

struct bytes current_input;

/* What the calls of a list have in common. The buffers are longer than what is lent, for lengths that are wrong. */
static struct {
    uint64_t block, settings[MOST], rows[MOST], ticks[MOST], answers[MOST];
    size_t settings_len, rows_len, region_len;
    double now;
} bench;

static uint64_t bench_region[REGION_MOST];

/* ---- A block or a sheet to begin with. */

/* A block's number; a moving average, whose regions are long, comes up so often in 50. */
static uint64_t some_block(struct bytes *b, size_t averages) {
    static const uint64_t others[] = {OVEN_PID,
                                      OVEN_PID_WITH_RESET,
                                      OVEN_TIMER_ACCUMULATING,
                                      OVEN_TRUE_DELAY,
                                      OVEN_TRUE_FALSE_HOLD,
                                      OVEN_TRUE_HOLD_WITH_RESET,
                                      OVEN_LOGICAL_VARIABLE_PULSE};
    const size_t choice = choose(b, 50);
    return choice >= 50 - averages ? OVEN_MOVING_AVERAGE : others[choice % 7];
}

/* A delta: mostly one of the least ring, sometimes of a longer one, now and then of the longest. */
static uint64_t some_delta(struct bytes *b) {
    const size_t choice = choose(b, 64);
    if (choice == 0) {
        return oven_word(65534.0 + (double)choose(b, 32) / 8.0);
    }
    return choice < 6 ? oven_word(1023.0 + (double)choose(b, 2048) / 8.0) : finite_word(b);
}

/* Settings that are finite, and a type; of a pulse mostly within its limits. */
static void some_settings(struct bytes *b, uint64_t block, uint64_t *settings) {
    for (size_t n = 0; n < due_settings(block); n++) {
        settings[n] = block == OVEN_MOVING_AVERAGE ? some_delta(b) : finite_word(b);
    }
    if (block == OVEN_PID || block == OVEN_PID_WITH_RESET) {
        settings[OVEN_PID_TYPE] = choose(b, 4);
        settings[OVEN_PID_REVERSE_ACTING] = choose(b, 2) == 0 ? choose(b, 2) : any_word(b);
    } else if (block == OVEN_LOGICAL_VARIABLE_PULSE) {
        put_pulse_settings(b, settings);
    }
}

/* The region before the first call: zeros, or words of any kind, from the seventh on in a pattern. */
static void some_region(struct bytes *b, size_t len) {
    const bool is_zero = choose(b, 2) == 0;
    bench.region_len = len <= REGION_MOST ? len : choose(b, 100);
    for (size_t n = 0; n < bench.region_len; n++) {
        bench_region[n] = is_zero ? 0 : n < 6 ? any_word(b) : bench_region[n - 6] + n;
    }
}

/* Puts a block at rest: its previous time is 0.0, its reals are -0.0 and its booleans any. */
static void put_at_rest(struct bytes *b) {
    const char *layout = due_layout(bench.block, bench.settings);
    for (size_t n = 0; layout[n] != 0; n++) {
        bench_region[n] = strchr("irfs", layout[n]) != NULL ? 1ULL << 63 : layout[n] == 't' ? 0 : choose(b, 2);
    }
}

static void begin_block(struct bytes *b) {
    bench.block = some_block(b, 2);
    bench.settings_len = due_settings(bench.block);
    some_settings(b, bench.block, bench.settings);
    some_region(b, due_length(bench.block, bench.settings));
    if (choose(b, 3) == 0) {
        put_at_rest(b);
    }
}

/* How rows feed rows: not at all, some of them, or each the next. */
enum feeding { NO_ROWS, SOME_ROWS, EACH_ROW };

/* A column of row n: a word of the tick, or where rows feed rows mostly an answer of the row above or of any further up. */
static uint64_t some_column(struct bytes *b, size_t n, enum feeding feeding) {
    const size_t choice = feeding == NO_ROWS || n == 0 ? 0 : feeding == EACH_ROW ? 2 : choose(b, 4);
    if (choice == 0) {
        return choose(b, 8);
    }
    return choice == 1 ? 8 + choose(b, 2 * n) : 8 + 2 * (n - 1) + (choose(b, 4) == 0);
}

/* Half of the sheets have rows that feed rows. There, a controller in four has both limits at -0.0, and mostly answers it. */
static void begin_sheet(struct bytes *b) {
    const size_t rows = 1 + choose(b, choose(b, 4) == 0 ? 16 : 5);
    static const enum feeding feedings[] = {NO_ROWS, NO_ROWS, SOME_ROWS, EACH_ROW};
    const enum feeding feeding = feedings[choose(b, 4)];
    size_t len = 0;
    bench.rows_len = rows * OVEN_ROW_WORDS;
    for (uint64_t *row = bench.rows; row < bench.rows + bench.rows_len; row += OVEN_ROW_WORDS) {
        memset(row, 0xFF, OVEN_ROW_WORDS * sizeof *row); /* settings that a block does not read are no numbers */
        row[OVEN_ROW_BLOCK] = some_block(b, 1);
        for (size_t n = OVEN_ROW_FIRST; n < OVEN_ROW_SETTINGS; n++) {
            row[n] = some_column(b, (size_t)(row - bench.rows) / OVEN_ROW_WORDS, feeding);
        }
        some_settings(b, row[OVEN_ROW_BLOCK], row + OVEN_ROW_SETTINGS);
        if (feeding != NO_ROWS && row[OVEN_ROW_BLOCK] <= OVEN_PID_WITH_RESET && choose(b, 4) == 0) {
            row[OVEN_ROW_SETTINGS + OVEN_PID_Y_MAX] = row[OVEN_ROW_SETTINGS + OVEN_PID_Y_MIN] = 1ULL << 63;
        }
        len += due_length(row[OVEN_ROW_BLOCK], row + OVEN_ROW_SETTINGS);
    }
    some_region(b, len);
}

/* ---- What is wrong with a call, if anything is. */

/* Another length than this one: so far off, or any up to this most. */
static size_t wrong_length(struct bytes *b, size_t len, size_t most) {
    const size_t choice = choose(b, OFFS + 2);
    if (choice == OFFS) {
        return choose(b, 64);
    }
    const size_t other = choice < OFFS ? off_length((enum off)choice, len) : choose(b, choose(b, 8) == 0 ? 65536 : 4096);
    return other <= most ? other : other % most;
}

/* Damages a word of the region, for this call and those to come: a header's word, or any. */
static void damage_region(struct bytes *b, size_t len) {
    const size_t place = choose(b, choose(b, 4) == 0 ? 65536 : 6);
    if (len > 0) {
        bench_region[place % len] = any_word(b);
    }
}

/* The call's settings in a copy, which may be changed. */
static uint64_t *own_settings(struct call *c) {
    static uint64_t settings[MOST];
    memcpy(settings, c->settings.at, OVEN_PID_SETTINGS * sizeof *settings);
    c->settings.at = settings;
    return settings;
}

static void spoil_block(struct bytes *b, struct call *c) {
    switch (choose(b, 6)) {
    case 0:
        c->block = choose(b, 4) == 0 ? any_word(b) : choose(b, 10);
        break;
    case 1:
        c->settings.len = wrong_length(b, c->settings.len, MOST);
        break;
    case 2:
        own_settings(c)[choose(b, due_settings(bench.block))] = any_word(b);
        break;
    case 3:
        own_settings(c)[OVEN_PID_TYPE] = choose(b, 6);
        break;
    case 4:
        c->region.len = wrong_length(b, c->region.len, REGION_MOST);
        break;
    default:
        damage_region(b, c->region.len);
    }
}

/* The call's rows in a copy, of which this word may be changed. */
static uint64_t *own_row_word(struct bytes *b, struct call *c, size_t place) {
    static uint64_t rows[MOST];
    memcpy(rows, c->rows.at, MOST * sizeof *rows);
    c->rows.at = rows;
    return rows + choose(b, c->rows.len / OVEN_ROW_WORDS) * OVEN_ROW_WORDS + place;
}

/* Puts an answer word into a row's column: its own, one from there up to the first behind all rows', one behind, or any word. */
static void spoil_column(struct bytes *b, struct call *c) {
    uint64_t *column = own_row_word(b, c, OVEN_ROW_FIRST + choose(b, 3));
    const size_t rows = c->rows.len / OVEN_ROW_WORDS, own = due_columns((size_t)(column - c->rows.at) / OVEN_ROW_WORDS);
    switch (choose(b, 4)) {
    case 0:
        *column = own + choose(b, 2);
        break;
    case 1:
        *column = own + choose(b, due_columns(rows) - own + 1);
        break;
    case 2:
        *column = due_columns(rows) + choose(b, 4);
        break;
    default:
        *column = any_word(b);
    }
}

static void spoil_sheet(struct bytes *b, struct call *c) {
    switch (choose(b, 8)) {
    case 0:
        c->rows.len = wrong_length(b, c->rows.len, MOST);
        break;
    case 1:
        c->rows.len = choose(b, 24) * OVEN_ROW_WORDS;
        break;
    case 2:
        *own_row_word(b, c, OVEN_ROW_BLOCK) = choose(b, 4) == 0 ? any_word(b) : choose(b, 10);
        break;
    case 3:
        spoil_column(b, c);
        break;
    case 4:
        *own_row_word(b, c, OVEN_ROW_SETTINGS + choose(b, OVEN_PID_SETTINGS)) = any_word(b);
        break;
    case 5:
        c->region.len = wrong_length(b, c->region.len, REGION_MOST);
        break;
    case 6:
        c->answers.len = wrong_length(b, c->answers.len, MOST);
        break;
    default:
        damage_region(b, c->region.len);
    }
}

/* ---- Calls. */

/* An input: as a boolean it is false one time in three, and sometimes it is a duty ratio. */
static uint64_t some_input(struct bytes *b) {
    const size_t choice = choose(b, 6);
    return choice < 2 ? 0 : choice == 2 ? some_ratio(b) : any_word(b);
}

/* Ticks of a run: a few, or many of a short region. Their number of words and the answers' may be wrong. */
static void some_ticks(struct bytes *b, struct call *c) {
    const size_t many = choose(b, 16) == 0 && c->region.len < 16 ? 1 + choose(b, 64) : choose(b, 8);
    double now = bench.now;
    for (uint64_t *tick = bench.ticks; tick < bench.ticks + OVEN_TICK_WORDS * many; tick += OVEN_TICK_WORDS) {
        tick[0] = any_time(b, now);
        for (size_t n = 1; n < OVEN_TICK_WORDS; n++) {
            tick[n] = some_input(b);
        }
        now = is_finite(tick[0]) ? oven_real(tick[0]) : now;
    }
    const size_t words = OVEN_TICK_WORDS * many, answers = OVEN_ANSWER_WORDS * many;
    c->ticks = (struct words){bench.ticks, choose(b, 12) == 11 ? wrong_length(b, words, MOST) : words};
    c->answers.len = choose(b, 12) == 11 ? wrong_length(b, answers, MOST) : answers;
}

/* Takes over what an accepted call has left. */
static void go_on(const struct call *c, const struct outcome *o) {
    if (o->said[0] != OVEN_ACCEPTED || !writes_region(c->kind)) {
        return;
    }
    memcpy(bench_region, o->region, c->region.len * sizeof *bench_region);
    if (c->kind == RUN && c->ticks.len >= OVEN_TICK_WORDS) {
        const uint64_t last = c->ticks.at[c->ticks.len - OVEN_TICK_WORDS];
        bench.now = is_finite(last) ? oven_real(last) : bench.now;
    } else if (c->kind == START || c->kind == SHEET_START) {
        bench.now = 0.0;
    } else {
        bench.now = oven_real(c->time);
    }
}

/* The previous time in this place of the region; 0.0 if it is unset. */
static double previous_time(size_t place) { return bench_region[place] == OVEN_UNSET ? 0.0 : oven_real(bench_region[place]); }

/* Puts another ring into a moving average's region, for this call and those to come. In half of the cases it is asked whether it
 * is sound. */
static void another_ring(struct bytes *b, struct call *c) {
    put_ring(b, bench_region, bench.region_len);
    bench.now = previous_time(RING_PREVIOUS);
    c->kind = choose(b, 2) == 0 ? SOUND : c->kind;
}

/* Mostly gives a pulse a tick at which a rule turns, in one of three cases on other words, which stay for the calls to come. */
static void another_pulse(struct bytes *b, struct call *c) {
    if (choose(b, 3) == 0) {
        put_pulse(b, bench.settings, bench_region);
        bench.now = previous_time(PULSE_PREVIOUS);
    }
    if (choose(b, 4) != 0) {
        put_pulse_tick(b, bench.settings, bench_region, &c->time, &c->inputs[0]);
    }
}

/* A call of this list, as a user means it and in one of three cases spoilt. */
static void one_call(struct bytes *b, bool of_sheet) {
    static const enum kind kinds[] = {TICK, UPDATE, EMIT, RUN, START, DECODE, SOUND, LENGTH, TICK, UPDATE};
    static struct outcome outcome;
    struct call c = {.block = bench.block, .region = {bench_region, bench.region_len}, .answers = {bench.answers, 0}};
    c.kind = of_sheet ? (choose(b, 6) == 0 ? SHEET_START : SHEET_TICK) : kinds[choose(b, 10)];
    if (!of_sheet && bench.block == OVEN_MOVING_AVERAGE && choose(b, 3) == 0) {
        another_ring(b, &c);
    }
    c.time = any_time(b, bench.now);
    for (size_t n = 0; n < (of_sheet ? 8 : 3); n++) {
        c.inputs[n] = some_input(b);
    }
    if (!of_sheet && bench.block == OVEN_LOGICAL_VARIABLE_PULSE && bench.region_len == PULSE_WORDS) {
        another_pulse(b, &c);
    }
    if (of_sheet) {
        c.rows = (struct words){bench.rows, bench.rows_len};
        c.answers.len = c.kind == SHEET_TICK ? 2 * bench.rows_len / OVEN_ROW_WORDS : 0;
    } else {
        c.settings = (struct words){bench.settings, bench.settings_len};
    }
    if (c.kind == RUN) {
        some_ticks(b, &c);
    }
    if (choose(b, 3) == 2) {
        (of_sheet ? spoil_sheet : spoil_block)(b, &c);
    }
    check_call(&c, &outcome);
    go_on(&c, &outcome);
    if (choose(b, 16) == 0) {
        check_leaves(c.inputs);
    }
}

int LLVMFuzzerTestOneInput(const uint8_t *data, size_t size) {
    struct bytes b = current_input = (struct bytes){data, size};
    lent_open();
    memset(&bench, 0, sizeof bench); /* a list does not depend on those before it */
    memset(bench.answers, 0x5A, sizeof bench.answers);
    const bool of_sheet = choose(&b, 6) == 0;
    (of_sheet ? begin_sheet : begin_block)(&b);
    for (size_t words = 0; b.left > 0 && words < WORDS_OF_A_LIST; words += bench.region_len) {
        one_call(&b, of_sheet);
    }
    return 0;
}
