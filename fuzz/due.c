/* Document 01's table of refusals, its state words and its start; document 02's sound rings and limits of a pulse. */
#include "due.h"

enum { BLOCKS = 8, TYPES = 4, ROWS_MOST = 16, COLUMNS = 8 };

static const struct {
    size_t settings, first_real, reals; /* a boolean setting comes behind the reals */
    const char *inputs;
    bool has_real, has_boolean;
} facts[BLOCKS] = {
    [OVEN_PID] = {OVEN_PID_SETTINGS, OVEN_PID_K, 11, "rr", true, false},
    [OVEN_PID_WITH_RESET] = {OVEN_PID_SETTINGS, OVEN_PID_K, 11, "rrb", true, false},
    [OVEN_MOVING_AVERAGE] = {1, 0, 1, "r", true, false},
    [OVEN_TIMER_ACCUMULATING] = {1, 0, 1, "bb", true, true},
    [OVEN_TRUE_DELAY] = {2, 0, 1, "b", false, true},
    [OVEN_TRUE_FALSE_HOLD] = {2, 0, 2, "b", false, true},
    [OVEN_TRUE_HOLD_WITH_RESET] = {1, 0, 1, "bb", false, true},
    [OVEN_LOGICAL_VARIABLE_PULSE] = {3, 0, 3, "r", false, true},
};

size_t due_settings(uint64_t block) { return facts[block].settings; }
size_t due_boolean_setting(uint64_t block) { return facts[block].first_real + facts[block].reals; }
const char *due_inputs(uint64_t block) { return facts[block].inputs; }
bool has_real(uint64_t block) { return facts[block].has_real; }
bool has_boolean(uint64_t block) { return facts[block].has_boolean; }

bool is_finite(uint64_t word) { return (word >> 52 & 0x7FF) != 0x7FF; }

uint64_t due_canonical(uint64_t word) { return word << 1 > 0xFFE0000000000000 ? 0x7FF8000000000000 : word; }

static bool is_controller(uint64_t block) { return block == OVEN_PID || block == OVEN_PID_WITH_RESET; }

const char *due_layout(uint64_t block, const uint64_t *settings) {
    static const char *const controllers[2][TYPES] = {{"", "it", "tf", "itf"}, {"", "itg", "tf", "itfg"}};
    static const char *const others[BLOCKS] = {"", "", "rsthnc", "rtbbb", "rtbb", "brt", "brt", "rrbrt"};
    return is_controller(block) ? controllers[block][settings[OVEN_PID_TYPE]] : others[block];
}

/* The ring of a moving average: twice the whole seconds of delta, from 2048 to 131072, and four more. */
static size_t capacity(uint64_t delta) {
    const double seconds = oven_real(delta);
    if (seconds >= 65536.0) {
        return 131072 + 4;
    }
    if (!(seconds > 1024.0)) {
        return 2048 + 4;
    }
    const size_t cut = (size_t)seconds;
    return 2 * ((double)cut < seconds ? cut + 1 : cut) + 4;
}

/* Reals are finite, and a pulse's lie within their limits. */
static bool are_settings_accepted(uint64_t block, const uint64_t *settings) {
    for (size_t n = 0; n < facts[block].reals; n++) {
        if (!is_finite(settings[facts[block].first_real + n])) {
            return false;
        }
    }
    return block != OVEN_LOGICAL_VARIABLE_PULSE || are_within_limits(settings);
}

size_t due_length(uint64_t block, const uint64_t *settings) {
    if (!are_settings_accepted(block, settings)) {
        return 0;
    }
    const size_t points = block == OVEN_MOVING_AVERAGE ? 2 * capacity(settings[0]) : 0;
    return strlen(due_layout(block, settings)) + points;
}

/* Whether they name a block; a row of a sheet always has enough settings. */
static bool is_named(uint64_t block, const uint64_t *settings) {
    return block < BLOCKS && !(is_controller(block) && settings[OVEN_PID_TYPE] >= TYPES);
}

/* Whether the region's words are none that a state can have. */
static bool is_damaged(uint64_t block, const uint64_t *settings, const uint64_t *region) {
    for (const char *layout = due_layout(block, settings); *layout != 0; layout++, region++) {
        if ((*layout == 't' && *region != OVEN_UNSET && !is_finite(*region)) ||
            (*layout == 'h' && *region >= capacity(settings[0])) || (*layout == 'n' && *region > capacity(settings[0]))) {
            return true;
        }
    }
    return false;
}

/* Whether the time is below a previous time that is set. */
static bool runs_back(uint64_t block, const uint64_t *settings, const uint64_t *region, uint64_t time) {
    const char *layout = due_layout(block, settings), *place = strchr(layout, 't');
    return place != NULL && region[place - layout] != OVEN_UNSET && oven_real(time) < oven_real(region[place - layout]);
}

static uint64_t due_number(const struct call *c) {
    const uint64_t *settings = c->settings.at, *region = c->region.at;
    if (c->block >= BLOCKS || c->settings.len != facts[c->block].settings || !is_named(c->block, settings)) {
        return OVEN_NO_BLOCK;
    }
    if (c->kind == RUN &&
        (c->ticks.len % OVEN_TICK_WORDS != 0 || c->answers.len != c->ticks.len / OVEN_TICK_WORDS * OVEN_ANSWER_WORDS)) {
        return OVEN_BAD_TICKS;
    }
    if (!are_settings_accepted(c->block, settings)) {
        return OVEN_BAD_SETTING;
    }
    if (c->kind == LENGTH) {
        return OVEN_ACCEPTED;
    }
    if (c->region.len != due_length(c->block, settings)) {
        return OVEN_BAD_LENGTH;
    }
    if (c->kind == START || c->kind == RUN) { /* of a run, the other numbers are its ticks' */
        return OVEN_ACCEPTED;
    }
    const bool ticks = c->kind != SOUND && c->kind != DECODE;
    if (ticks && !is_finite(c->time)) {
        return OVEN_BAD_TIME;
    }
    if (is_damaged(c->block, settings, region)) {
        return OVEN_BAD_STATE;
    }
    return ticks && runs_back(c->block, settings, region, c->time) ? OVEN_TIME_RUNS_BACK : OVEN_ACCEPTED;
}

/* ---- Sheets. A fault of a row is looked for in all rows, the topmost first. */

typedef bool fault(const struct call *c, const uint64_t *row, const uint64_t *region);

static bool names_none(const struct call *c, const uint64_t *row, const uint64_t *region) {
    (void)c, (void)region;
    return !is_named(row[OVEN_ROW_BLOCK], row + OVEN_ROW_SETTINGS);
}

size_t due_columns(size_t n) { return COLUMNS + 2 * n; }

static bool has_no_column(const struct call *c, const uint64_t *row, const uint64_t *region) {
    (void)region;
    const uint64_t columns = due_columns((size_t)(row - c->rows.at) / OVEN_ROW_WORDS);
    return row[OVEN_ROW_FIRST] >= columns || row[OVEN_ROW_SECOND] >= columns || row[OVEN_ROW_THIRD] >= columns;
}

static bool has_bad_setting(const struct call *c, const uint64_t *row, const uint64_t *region) {
    (void)c, (void)region;
    return !are_settings_accepted(row[OVEN_ROW_BLOCK], row + OVEN_ROW_SETTINGS);
}

static bool has_bad_state(const struct call *c, const uint64_t *row, const uint64_t *region) {
    (void)c;
    return is_damaged(row[OVEN_ROW_BLOCK], row + OVEN_ROW_SETTINGS, region);
}

static bool has_later_time(const struct call *c, const uint64_t *row, const uint64_t *region) {
    return runs_back(row[OVEN_ROW_BLOCK], row + OVEN_ROW_SETTINGS, region, c->time);
}

/* The topmost row with the fault, or how many rows there are. */
static size_t topmost(const struct call *c, fault *has_fault) {
    const size_t rows = c->rows.len / OVEN_ROW_WORDS;
    const uint64_t *row = c->rows.at, *region = c->region.at;
    for (size_t n = 0; n < rows; n++, row += OVEN_ROW_WORDS) {
        if (has_fault(c, row, region)) {
            return n;
        }
        region += has_fault == has_bad_state || has_fault == has_later_time ? due_length(row[0], row + OVEN_ROW_SETTINGS) : 0;
    }
    return rows;
}

size_t due_sheet_length(const struct call *c) {
    size_t sum = 0;
    for (size_t n = 0; n < c->rows.len; n += OVEN_ROW_WORDS) {
        sum += due_length(c->rows.at[n], c->rows.at + n + OVEN_ROW_SETTINGS);
    }
    return sum;
}

static struct due due_sheet(const struct call *c) {
    const size_t rows = c->rows.len / OVEN_ROW_WORDS;
    if (c->rows.len % OVEN_ROW_WORDS != 0 || topmost(c, names_none) < rows) {
        return (struct due){OVEN_NO_BLOCK, 0};
    }
    if (rows == 0 || rows > ROWS_MOST || topmost(c, has_no_column) < rows) {
        return (struct due){OVEN_BAD_SHEET, 0};
    }
    if (topmost(c, has_bad_setting) < rows) {
        return (struct due){OVEN_BAD_SETTING, topmost(c, has_bad_setting)};
    }
    if (c->region.len != due_sheet_length(c)) {
        return (struct due){OVEN_BAD_LENGTH, 0};
    }
    if (c->kind == SHEET_START) {
        return (struct due){OVEN_ACCEPTED, 0};
    }
    if (c->answers.len != 2 * rows) {
        return (struct due){OVEN_BAD_SPACE, 0};
    }
    if (!is_finite(c->time)) {
        return (struct due){OVEN_BAD_TIME, 0};
    }
    if (topmost(c, has_bad_state) < rows) {
        return (struct due){OVEN_BAD_STATE, topmost(c, has_bad_state)};
    }
    const size_t back = topmost(c, has_later_time);
    return back < rows ? (struct due){OVEN_TIME_RUNS_BACK, back} : (struct due){OVEN_ACCEPTED, 0};
}

struct due due_of(const struct call *c) {
    return is_sheet(c->kind) ? due_sheet(c) : (struct due){due_number(c), 0};
}

/* ---- State words. */

void due_start(uint64_t block, const uint64_t *settings, uint64_t *region) {
    memset(region, 0, due_length(block, settings) * sizeof(uint64_t));
    const char *layout = due_layout(block, settings);
    for (size_t n = 0; layout[n] != 0; n++) {
        region[n] = layout[n] == 't' ? OVEN_UNSET : layout[n] == 'i' ? settings[OVEN_PID_XI_START] : 0;
    }
    if (block == OVEN_TIMER_ACCUMULATING) {
        region[OVEN_TIMER_ACCUMULATING_STATE_PASSED] = oven_real(settings[0]) <= 0.0;
    }
}

/* ---- Timers: the sum of gaps that they store. */

size_t due_sum_place(uint64_t block) {
    static const size_t places[BLOCKS] = {REGION_MOST,
                                          REGION_MOST,
                                          REGION_MOST,
                                          OVEN_TIMER_ACCUMULATING_STATE_TOTAL,
                                          OVEN_TRUE_DELAY_STATE_TIMER,
                                          OVEN_HOLD_STATE_TIMER,
                                          OVEN_HOLD_STATE_TIMER,
                                          OVEN_LOGICAL_VARIABLE_PULSE_STATE_TIMER};
    return places[block];
}

/* A stored sum and the gap since a previous time that is set. */
static uint64_t grown(const struct call *c, uint64_t sum, uint64_t previous) {
    return due_canonical(oven_word(oven_real(sum) + (oven_real(c->time) - oven_real(previous))));
}

/* A rising reset wipes the total, and a gap counts whose both ends had a true input. */
static uint64_t due_total(const struct call *c) {
    const uint64_t *w = c->region.at, total = w[OVEN_TIMER_ACCUMULATING_STATE_TOTAL];
    const uint64_t previous = w[OVEN_TIMER_ACCUMULATING_STATE_PREVIOUS_TIME];
    if (c->inputs[1] != 0 && w[OVEN_TIMER_ACCUMULATING_STATE_PREVIOUS_RESET] == 0) {
        return 0;
    }
    const bool counts = c->inputs[0] != 0 && w[OVEN_TIMER_ACCUMULATING_STATE_PREVIOUS_INPUT] != 0 && previous != OVEN_UNSET;
    return counts ? grown(c, total, previous) : due_canonical(total);
}

/* A held output stores the delay; a first true input holds unless delay_on_init says otherwise. */
static uint64_t due_delay(const struct call *c) {
    const uint64_t *w = c->region.at, previous = w[OVEN_TRUE_DELAY_STATE_PREVIOUS_TIME];
    const uint64_t set = c->settings.at[OVEN_TRUE_DELAY_DELAY_TIME], delay = oven_real(set) > 0.0 ? set : 0;
    if (c->inputs[0] == 0) {
        return 0;
    }
    if (previous == OVEN_UNSET) {
        return c->settings.at[OVEN_TRUE_DELAY_DELAY_ON_INIT] != 0 ? 0 : delay;
    }
    if (w[OVEN_TRUE_DELAY_STATE_HELD] != 0) {
        return delay;
    }
    return w[OVEN_TRUE_DELAY_STATE_PREVIOUS_INPUT] == 0 ? 0 : grown(c, w[OVEN_TRUE_DELAY_STATE_TIMER], previous);
}

/* A hold's timer goes on while its output stays: of TrueHoldWithReset, while it stays true. */
static uint64_t due_hold(const struct call *c, const uint64_t *after) {
    const uint64_t *w = c->region.at, held = after[OVEN_HOLD_STATE_HELD], previous = w[OVEN_HOLD_STATE_PREVIOUS_TIME];
    const bool stays = previous != OVEN_UNSET && held == (w[OVEN_HOLD_STATE_HELD] != 0);
    const bool counts = stays && (c->block == OVEN_TRUE_FALSE_HOLD || held != 0);
    return counts ? grown(c, w[OVEN_HOLD_STATE_TIMER], previous) : 0;
}

static uint64_t due_pulse_timer(const struct call *c) {
    uint64_t words[OVEN_LOGICAL_VARIABLE_PULSE_LENGTH];
    due_pulse(c, words);
    return words[OVEN_LOGICAL_VARIABLE_PULSE_STATE_TIMER];
}

uint64_t due_sum(const struct call *c, const uint64_t *after) {
    if (c->block == OVEN_LOGICAL_VARIABLE_PULSE) {
        return due_pulse_timer(c);
    }
    return c->block == OVEN_TIMER_ACCUMULATING ? due_total(c) : c->block == OVEN_TRUE_DELAY ? due_delay(c) : due_hold(c, after);
}

/* ---- Sound. */

/* Document 02: the times at positions below the count are finite, none is below the one before and none above the previous time,
 * and the count is 0 while the previous time is unset. */
static bool is_ring_sound(const uint64_t *settings, const uint64_t *region) {
    const size_t slots = capacity(settings[0]), head = region[OVEN_MOVING_AVERAGE_STATE_HEAD];
    const uint64_t previous = region[OVEN_MOVING_AVERAGE_STATE_PREVIOUS_TIME], count = region[OVEN_MOVING_AVERAGE_STATE_COUNT];
    const uint64_t *times = region + strlen(due_layout(OVEN_MOVING_AVERAGE, settings)), *before = NULL;
    for (size_t n = 0; n < count; n++) {
        const uint64_t *time = times + (head + n) % slots;
        if (!is_finite(*time) || previous == OVEN_UNSET || oven_real(*time) > oven_real(previous) ||
            (before != NULL && oven_real(*time) < oven_real(*before))) {
            return false;
        }
        before = time;
    }
    return true;
}

bool due_sound(const struct call *c) {
    struct call sound = *c;
    sound.kind = SOUND;
    return due_number(&sound) == OVEN_ACCEPTED && (c->block != OVEN_MOVING_AVERAGE || is_ring_sound(c->settings.at, c->region.at));
}

/* ---- Decoding. */

void due_state(uint64_t block, const uint64_t *settings, const uint64_t *region, uint64_t *state) {
    static const char places[] = "itfg"; /* of a controller's words */
    memset(state, 0, 6 * sizeof *state);
    state[OVEN_PID_STATE_PREVIOUS_TIME] = is_controller(block) ? OVEN_UNSET : 0;
    const char *layout = due_layout(block, settings);
    for (size_t n = 0; layout[n] != 0; n++) {
        const size_t place = is_controller(block) ? (size_t)(strchr(places, layout[n]) - places) : n;
        const bool is_boolean = strchr("gcb", layout[n]) != NULL, is_exact = strchr("thn", layout[n]) != NULL;
        state[place] = is_boolean ? region[n] != 0 : is_exact ? region[n] : due_canonical(region[n]);
    }
}
