/*
 * Wrong libraries: the proved calls with one slip each. The linker puts them in the place of the library's
 * (`-Wl,--wrap=oven_start` and so on), and the variable WRONG says which slip there is. random_calls must catch each.
 * Without a slip too, what is found of a ring, rounding, a pulse's tick and rows that are fed are made here: they must be the
 * library's.
 */
#include "wrong.h"
#include "due.h"
#include "leaves.h"
#include "rings.h"

#include <stdlib.h>

/* The slip that the library has. */
static int chosen_slip(void) {
    static int chosen = -1;
    if (chosen < 0) {
        const char *number = getenv("WRONG");
        chosen = number == NULL ? NONE : atoi(number);
        if (chosen >= SLIPS) {
            exit(3);
        }
    }
    return chosen;
}
int has(enum slip slip) { return chosen_slip() == (int)slip; }

/* The library's own call and the one in its place, by the linker's names. */
#define PAIR(name) __typeof__(name) __real_##name, __wrap_##name
PAIR(oven_length);
PAIR(oven_start);
PAIR(oven_emit);
PAIR(oven_update);
PAIR(oven_tick);
PAIR(oven_run);
PAIR(oven_sound);
PAIR(oven_decode);
PAIR(oven_sheet_start);
PAIR(oven_sheet_tick);
PAIR(oven_ceil);
PAIR(oven_floor);

/* How many settings a block has, and how many words its region. */
static size_t settings_of(uint64_t block) {
    static const size_t counts[] = {OVEN_PID_SETTINGS, OVEN_PID_SETTINGS, 1, 1, 2, 2, 1, OVEN_LOGICAL_VARIABLE_PULSE_SETTINGS};
    return counts[block];
}
static size_t length_of(uint64_t block, const uint64_t *s) { return __real_oven_length(block, s, settings_of(block)).length; }

/* The settings of a tick as the library reads them. */
static const uint64_t *as_read(uint64_t block, const uint64_t *s, size_t ns) {
    static uint64_t read[OVEN_TRUE_DELAY_SETTINGS];
    if (block == OVEN_LOGICAL_VARIABLE_PULSE && ns == OVEN_LOGICAL_VARIABLE_PULSE_SETTINGS) {
        return pulse_as_read(s);
    }
    if (!has(READS_A_SETTING_AS_1) || block != OVEN_TRUE_DELAY || ns != OVEN_TRUE_DELAY_SETTINGS) {
        return s;
    }
    read[OVEN_TRUE_DELAY_DELAY_TIME] = s[OVEN_TRUE_DELAY_DELAY_TIME];
    read[OVEN_TRUE_DELAY_DELAY_ON_INIT] = s[OVEN_TRUE_DELAY_DELAY_ON_INIT] == 1;
    return read;
}

/* A timer's total of -0.0 that a tick has stored. */
static void lose_sign(uint64_t block, uint64_t number, uint64_t *w) {
    if (has(LOSES_THE_SIGN_OF_A_SUM) && number == OVEN_ACCEPTED && block == OVEN_TIMER_ACCUMULATING &&
        w[OVEN_TIMER_ACCUMULATING_STATE_TOTAL] == 1ULL << 63) {
        w[OVEN_TIMER_ACCUMULATING_STATE_TOTAL] = 0;
    }
}

/* ---- Rings. */

/* The time at position n, as the slip has it. */
static double time_at(const uint64_t *w, size_t nw, size_t n) {
    return oven_real(w[has(TAKES_SLOTS_FOR_POSITIONS) ? RING_TIMES + n : ring_place(w, nw, n)]);
}

/* Whether two neighbours are as those of a sound ring, as the slip has it. */
static int rises(double before, double time) {
    const int falls_to_minus_zero = oven_word(before) == 0 && oven_word(time) == 1ULL << 63;
    return !(time < before) && !(has(REFUSES_EQUAL_NEIGHBOURS) && time == before) &&
           !(has(ORDERS_ZEROS_BY_THEIR_SIGN) && falls_to_minus_zero);
}

/* Whether the time at position n is one of a sound ring. */
static int fits(const uint64_t *w, size_t nw, size_t n) {
    const double time = time_at(w, nw, n), previous = oven_real(w[RING_PREVIOUS]);
    const int across = ring_place(w, nw, n) == RING_TIMES;
    if (time - time != 0.0) { /* not finite */
        return has(TAKES_A_NAN_FOR_A_TIME) && time != time;
    }
    if (n > 0 && !(has(LEAVES_OUT_THE_PAIR_ACROSS_THE_TURN) && across) && !rises(time_at(w, nw, n - 1), time)) {
        return 0;
    }
    return has(LEAVES_OUT_THE_PREVIOUS_TIME) ||
           !(time > previous || (has(REFUSES_A_POINT_AT_THE_PREVIOUS_TIME) && time == previous));
}

/* Whether there is no slip or one of sound, and what it says of a moving average's region that decodes. */
static int finds_otherwise(void) {
    return has(NONE) || (chosen_slip() >= CALLS_ANY_POINTS_SOUND && chosen_slip() <= TAKES_POINTS_BEFORE_THE_FIRST_TICK);
}
static uint64_t found(const uint64_t *w, size_t nw) {
    const size_t count = w[RING_COUNT], seen = count + (has(LOOKS_AT_A_FREE_SLOT) && count < ring_slots(nw));
    int is_sound = count == 0 || w[RING_PREVIOUS] != OVEN_UNSET || has(TAKES_POINTS_BEFORE_THE_FIRST_TICK);
    for (size_t n = has(LEAVES_OUT_THE_FIRST_POINT); n + has(LEAVES_OUT_THE_LAST_POINT) < seen && is_sound; n++) {
        is_sound = fits(w, nw, n);
    }
    return is_sound || has(CALLS_ANY_POINTS_SOUND);
}

/* Whether a region that decodes is refused all the same, because it is not sound. */
static int is_refused(enum slip slip, uint64_t block, const uint64_t *s, size_t ns, const uint64_t *w, size_t nw) {
    return has(slip) && __real_oven_decode(block, s, ns, w, nw).refusal == OVEN_ACCEPTED &&
           __real_oven_sound(block, s, ns, w, nw) == 0;
}

/* Puts the point that a tick has stored on the next float, behind the previous time. */
static void store_later(uint64_t block, uint64_t number, uint64_t *w, size_t nw) {
    if (has(STORES_A_LATER_POINT) && number == OVEN_ACCEPTED && block == OVEN_MOVING_AVERAGE) {
        w[ring_place(w, nw, w[RING_COUNT] - 1)]++;
    }
}

/* ---- Rounding. */

/* Up, or else down, by adding 2^52 to the size and taking it away, as the slip has it. */
static uint64_t round_own(uint64_t word, int up) {
    const double x = oven_real(word), size = x < 0.0 ? -x : x, two_52 = 4503599627370496.0;
    const double bound = has(KEEPS_HALVES_FROM_2_51_ON) ? two_52 / 2.0 : has(MOVES_WHOLES_BELOW_2_53) ? two_52 * 2.0 : two_52;
    if (!(size < bound)) {
        return due_canonical(word);
    }
    const double near = size + two_52 - two_52;
    const int stays = has(up ? ROUNDS_UP_ONE_TOO_LOW : ROUNDS_DOWN_ONE_TOO_HIGH), grows = (x > 0.0) == up;
    const double whole = near + (stays ? 0.0 : grows && near < size ? 1.0 : !grows && size < near ? -1.0 : 0.0);
    return oven_word(whole) | (has(ROUNDS_TO_A_ZERO_WITHOUT_SIGN) && whole == 0.0 ? 0 : word & 1ULL << 63);
}

uint64_t __wrap_oven_ceil(uint64_t word) { return round_own(word, 1); }
uint64_t __wrap_oven_floor(uint64_t word) { return round_own(word, 0); }

/* ---- Pulses. */

/* Whether there is no slip or one of a pulse's tick. */
static int ticks_pulses(void) { return has(NONE) || chosen_slip() >= SAMPLES_EVERY_INPUT; }

/* Whether this is then a pulse with its settings and its words. */
static int is_own_pulse(uint64_t block, size_t ns, size_t nw) {
    return ticks_pulses() && block == OVEN_LOGICAL_VARIABLE_PULSE && ns == OVEN_LOGICAL_VARIABLE_PULSE_SETTINGS &&
           nw == OVEN_LOGICAL_VARIABLE_PULSE_LENGTH;
}

/* A whole tick of it. */
static struct oven_answer tick_pulse(const uint64_t *s, uint64_t time, uint64_t ratio, uint64_t *w) {
    const uint64_t block = OVEN_LOGICAL_VARIABLE_PULSE;
    uint64_t after[OVEN_LOGICAL_VARIABLE_PULSE_LENGTH];
    struct oven_answer a =
        __real_oven_emit(block, s, OVEN_LOGICAL_VARIABLE_PULSE_SETTINGS, time, ratio, 0, 0, w, OVEN_LOGICAL_VARIABLE_PULSE_LENGTH);
    if (a.refusal == OVEN_ACCEPTED) {
        a.boolean = tick_own_pulse(s, time, ratio, w, after);
        memcpy(w, after, sizeof after);
    }
    return a;
}

/* Reads a word, whatever the compiler thinks of it. */
static void touch(const uint64_t *word) { (void)*(const volatile uint64_t *)word; }

struct oven_length __wrap_oven_length(uint64_t block, const uint64_t *s, size_t ns) {
    struct oven_length a = __real_oven_length(block, s, ns);
    a.length += has(GIVES_A_LONGER_LENGTH) && a.length > OVEN_MOVING_AVERAGE_LEAST_LENGTH;
    return a;
}

uint64_t __wrap_oven_start(uint64_t block, const uint64_t *s, size_t ns, uint64_t *w, size_t nw) {
    const uint64_t last = nw > 0 ? w[nw - 1] : 0;
    uint64_t number = __real_oven_start(block, s, ns, w, nw);
    if (has(STARTS_A_LONGER_REGION) && number == OVEN_BAD_LENGTH && nw > 0) {
        number = __real_oven_start(block, s, ns, w, nw - 1);
    }
    if (has(LEAVES_A_POINT_AT_START) && number == OVEN_ACCEPTED && block == OVEN_MOVING_AVERAGE) {
        w[nw - 1] = last;
    }
    if (has(READS_BEFORE_THE_SETTINGS) && ns > 0) {
        touch(s - 1);
    }
    return number;
}

struct oven_answer __wrap_oven_emit(uint64_t block, const uint64_t *s, size_t ns, uint64_t time, uint64_t first, uint64_t second,
                                    uint64_t third, const uint64_t *w, size_t nw) {
    s = as_read(block, s, ns);
    struct oven_answer a = __real_oven_emit(block, s, ns, time, first, second, third, w, nw);
    if (has(READS_PAST_THE_REGION) && nw > 0) {
        touch(w + nw);
    }
    if (has(GIVES_AN_OUTPUT_ON_REFUSAL) && a.refusal == OVEN_TIME_RUNS_BACK) {
        a.boolean = 1;
    }
    if (has(GIVES_ANOTHER_NAN) && a.real == 0x7FF8000000000000) {
        a.real |= 1;
    }
    if (a.refusal == OVEN_ACCEPTED && is_own_pulse(block, ns, nw)) {
        uint64_t after[OVEN_LOGICAL_VARIABLE_PULSE_LENGTH];
        a.boolean = tick_own_pulse(s, time, first, w, after);
    }
    if (a.refusal == OVEN_ACCEPTED && is_refused(EMITS_SOUND_RINGS_ALONE, block, s, ns, w, nw)) {
        return (struct oven_answer){OVEN_BAD_STATE, 0, 0, 0};
    }
    return a;
}

struct oven_answer __wrap_oven_update(uint64_t block, const uint64_t *s, size_t ns, uint64_t time, uint64_t first, uint64_t second,
                                      uint64_t third, uint64_t *w, size_t nw) {
    const uint64_t before = nw > 1 ? w[1] : 0;
    s = as_read(block, s, ns);
    if (is_refused(UPDATES_SOUND_RINGS_ALONE, block, s, ns, w, nw)) {
        return (struct oven_answer){OVEN_BAD_STATE, 0, 0, 0};
    }
    if (is_own_pulse(block, ns, nw)) {
        struct oven_answer a = tick_pulse(s, time, first, w);
        a.boolean = 0;
        return a;
    }
    struct oven_answer a = __real_oven_update(block, s, ns, time, first, second, third, w, nw);
    if (has(COMPARES_LOW_BYTES_OF_LENGTHS) && a.refusal == OVEN_BAD_LENGTH && nw % 256 == length_of(block, s) % 256) {
        a = __real_oven_update(block, s, ns, time, first, second, third, w, length_of(block, s));
    }
    lose_sign(block, a.refusal, w);
    store_later(block, a.refusal, w, nw);
    if (has(WRITES_PAST_THE_REGION) && nw > 0) {
        w[nw] = 0;
    }
    if (has(FORGETS_TO_STORE) && a.refusal == OVEN_ACCEPTED && nw > 1) {
        w[1] = before;
    }
    if (has(GIVES_7_FOR_5) && a.refusal == OVEN_BAD_TIME) {
        a.refusal = OVEN_TIME_RUNS_BACK;
    }
    return a;
}

struct oven_answer __wrap_oven_tick(uint64_t block, const uint64_t *s, size_t ns, uint64_t time, uint64_t first, uint64_t second,
                                    uint64_t third, uint64_t *w, size_t nw) {
    static unsigned calls;
    if (has(REFUSES_AN_EQUAL_TIME) && block == OVEN_TRUE_DELAY && nw == OVEN_TRUE_DELAY_LENGTH && w[1] == time) {
        return (struct oven_answer){OVEN_TIME_RUNS_BACK, 0, 0, 0};
    }
    s = as_read(block, s, ns);
    if (is_own_pulse(block, ns, nw)) {
        return tick_pulse(s, time, first, w);
    }
    struct oven_answer a = __real_oven_tick(block, s, ns, time, first, second, third, w, nw);
    lose_sign(block, a.refusal, w);
    store_later(block, a.refusal, w, nw);
    if (has(CHANGES_A_WORD_ON_REFUSAL) && a.refusal == OVEN_TIME_RUNS_BACK) {
        w[0] ^= 1;
    }
    if (has(REMEMBERS_CALLS) && ++calls % 1000 == 0 && a.refusal == OVEN_ACCEPTED && block == OVEN_TRUE_DELAY) {
        a.boolean ^= 1;
    }
    return a;
}

uint64_t __wrap_oven_run(uint64_t block, const uint64_t *s, size_t ns, const uint64_t *ticks, size_t nt, uint64_t *w, size_t nw,
                         uint64_t *answers, size_t na) {
    if (has(LEAVES_OUT_A_TICK) && nt >= 2 * OVEN_TICK_WORDS && na >= 2 * OVEN_ANSWER_WORDS) {
        nt -= OVEN_TICK_WORDS;
        na -= OVEN_ANSWER_WORDS;
    }
    s = as_read(block, s, ns);
    if (is_own_pulse(block, ns, nw)) {
        uint64_t copy[OVEN_LOGICAL_VARIABLE_PULSE_LENGTH];
        memcpy(copy, w, sizeof copy);
        const uint64_t refusal = __real_oven_run(block, s, ns, ticks, nt, copy, nw, answers, na);
        for (size_t n = 0; refusal == OVEN_ACCEPTED && n < nt; n += OVEN_TICK_WORDS) {
            const struct oven_answer a = tick_pulse(s, ticks[n], ticks[n + 1], w);
            memcpy(answers + n, &a, sizeof a);
        }
        return refusal;
    }
    const uint64_t number = __real_oven_run(block, s, ns, ticks, nt, w, nw, answers, na);
    const int refuses_ticks = number == OVEN_BAD_SETTING || number == OVEN_BAD_LENGTH;
    if (has(ANSWERS_A_REFUSED_RUN) && refuses_ticks) {
        for (size_t n = 0; n < na; n++) {
            answers[n] = n % OVEN_ANSWER_WORDS == 0 ? number : 0;
        }
    }
    return has(RUNS_REFUSED_SETTINGS) && refuses_ticks ? OVEN_ACCEPTED : number;
}

uint64_t __wrap_oven_sound(uint64_t block, const uint64_t *s, size_t ns, const uint64_t *w, size_t nw) {
    if (has(SOUND_WHERE_DAMAGED) && __real_oven_decode(block, s, ns, w, nw).refusal == OVEN_BAD_STATE) {
        return 1;
    }
    if (has(WRITES_WHAT_IS_READ) && nw > 0) {
        *(volatile uint64_t *)(uintptr_t)w = *w;
    }
    if (finds_otherwise() && block == OVEN_MOVING_AVERAGE && __real_oven_decode(block, s, ns, w, nw).refusal == OVEN_ACCEPTED) {
        return found(w, nw);
    }
    return __real_oven_sound(block, s, ns, w, nw);
}

struct oven_state __wrap_oven_decode(uint64_t block, const uint64_t *s, size_t ns, const uint64_t *w, size_t nw) {
    struct oven_state a = __real_oven_decode(block, s, ns, w, nw);
    if (has(DECODES_ANOTHER_WORD) && a.refusal == OVEN_ACCEPTED && block == OVEN_TRUE_FALSE_HOLD) {
        a.words[OVEN_HOLD_STATE_HELD] = w[OVEN_HOLD_STATE_HELD]; /* not 0 or 1 */
    }
    if (is_refused(DECODES_SOUND_RINGS_ALONE, block, s, ns, w, nw)) {
        return (struct oven_state){.refusal = OVEN_BAD_STATE};
    }
    return a;
}

/* Rows as a library has them that reads a boolean setting by its low bit. */
static const uint64_t *low_bits(const uint64_t *rows, size_t nr) {
    static uint64_t read[16 * OVEN_ROW_WORDS];
    if (nr > 16 * OVEN_ROW_WORDS || nr % OVEN_ROW_WORDS != 0) {
        return rows;
    }
    for (size_t n = 0; n < nr; n++) {
        const int is_direction = rows[n - n % OVEN_ROW_WORDS] <= OVEN_PID_WITH_RESET &&
                                 n % OVEN_ROW_WORDS == OVEN_ROW_SETTINGS + OVEN_PID_REVERSE_ACTING;
        read[n] = is_direction ? rows[n] & 1 : rows[n];
    }
    return read;
}

/* The answers of rows that emit after they have updated. */
static void emit_late(const uint64_t *rows, size_t nr, uint64_t time, const uint64_t *words, const uint64_t *w, size_t nw,
                      uint64_t *answers, size_t na) {
    uint64_t *copy = malloc((nw + 1) * sizeof *copy);
    if (nw > 0) {
        memcpy(copy, w, nw * sizeof *copy);
    }
    __real_oven_sheet_tick(rows, nr, time, words, copy, nw, answers, na);
    free(copy);
}

/* A tick of a sheet that is refused for its number of rows, its region's length or its answer space, as a library makes it that
 * takes more. */
static struct oven_sheet_answer take_more(struct oven_sheet_answer a, const uint64_t *rows, size_t nr, uint64_t time,
                                          const uint64_t *words, uint64_t *w, size_t nw, uint64_t *answers, size_t na) {
    const size_t count = nr / OVEN_ROW_WORDS;
    if (has(TAKES_SEVENTEEN_ROWS) && a.refusal == OVEN_BAD_SHEET && count == 17 && nw > 0 && na >= 2) {
        return __real_oven_sheet_tick(rows, nr - OVEN_ROW_WORDS, time, words, w, nw - 1, answers, na - 2);
    }
    if (has(TAKES_A_LARGER_ANSWER_SPACE) && a.refusal == OVEN_BAD_SPACE && na > 2 * count) {
        return __real_oven_sheet_tick(rows, nr, time, words, w, nw, answers, 2 * count);
    }
    size_t sum = 0;
    for (size_t n = 0; a.refusal == OVEN_BAD_LENGTH && n < count; n++) {
        sum += length_of(rows[n * OVEN_ROW_WORDS], rows + n * OVEN_ROW_WORDS + OVEN_ROW_SETTINGS);
    }
    if (has(TAKES_A_SHEETS_LONGER_REGION) && a.refusal == OVEN_BAD_LENGTH && nw > sum + 1) {
        return __real_oven_sheet_tick(rows, nr, time, words, w, sum, answers, na);
    }
    return a;
}

/* ---- Columns. */

enum { COLUMNS = 3, ROWS_MOST = 16 };

/* Whether a library with the slip takes a column of row n that names nothing. */
static int takes(size_t n, uint64_t block, size_t place, uint64_t column) {
    static const size_t inputs[] = {2, 3, 1, 2, 1, 1, 2, 1};
    return (has(TAKES_A_ROWS_OWN_WORDS) && column < 8 + 2 * (n + 1)) ||
           (has(TAKES_A_COLUMN_THAT_IS_NOT_READ) && place >= inputs[block]) || has(STARTS_ON_ANY_COLUMNS);
}

/* The rows with 0 in the place of each column that names nothing and is taken all the same; `fault` is the first row with one that
 * names nothing, or how many rows there are. */
static const uint64_t *taken(const uint64_t *rows, size_t nr, size_t *fault) {
    static uint64_t read[ROWS_MOST * OVEN_ROW_WORDS];
    const size_t count = nr / OVEN_ROW_WORDS;
    *fault = count;
    for (size_t n = 0; n < count * COLUMNS && count <= ROWS_MOST; n++) {
        const size_t row = n / COLUMNS, at = row * OVEN_ROW_WORDS, place = at + OVEN_ROW_FIRST + n % COLUMNS;
        if (n % COLUMNS == 0) {
            memcpy(read + at, rows + at, OVEN_ROW_WORDS * sizeof *read);
        }
        if (rows[place] >= 8 + 2 * row) {
            *fault = *fault < row ? *fault : row;
            read[place] = takes(row, rows[at], n % COLUMNS, rows[place]) ? 0 : rows[place];
        }
    }
    return count <= ROWS_MOST ? read : rows;
}

/* Whether a row reads the one above it. */
static int reads_above(const uint64_t *rows, size_t nr) {
    for (size_t n = COLUMNS; n < nr / OVEN_ROW_WORDS * COLUMNS; n++) {
        const uint64_t column = rows[n / COLUMNS * OVEN_ROW_WORDS + OVEN_ROW_FIRST + n % COLUMNS];
        if (column / 2 == 3 + n / COLUMNS) {
            return 1;
        }
    }
    return 0;
}

struct oven_sheet_answer __wrap_oven_sheet_start(const uint64_t *rows, size_t nr, uint64_t *w, size_t nw) {
    size_t fault;
    struct oven_sheet_answer a = __real_oven_sheet_start(rows, nr, w, nw);
    if (has(STARTS_ON_ANY_COLUMNS) && a.refusal == OVEN_BAD_SHEET) {
        a = __real_oven_sheet_start(taken(rows, nr, &fault), nr, w, nw);
    }
    return a;
}

/* A tick of a sheet that is refused for its form, as a library makes it that takes more columns or names the row of one. */
static struct oven_sheet_answer take_columns(struct oven_sheet_answer a, const uint64_t *rows, size_t nr, uint64_t time,
                                             const uint64_t *words, uint64_t *w, size_t nw, uint64_t *answers, size_t na) {
    size_t fault;
    const uint64_t *read = a.refusal == OVEN_BAD_SHEET ? taken(rows, nr, &fault) : rows;
    if (a.refusal == OVEN_BAD_SHEET && (has(TAKES_A_ROWS_OWN_WORDS) || has(TAKES_A_COLUMN_THAT_IS_NOT_READ))) {
        return __real_oven_sheet_tick(read, nr, time, words, w, nw, answers, na);
    }
    if (has(NAMES_THE_ROW_OF_A_COLUMN) && a.refusal == OVEN_BAD_SHEET && nr <= ROWS_MOST * OVEN_ROW_WORDS) {
        a.row = fault;
    }
    return a;
}

/* ---- Rows that feed rows. */

/* The word that a column names, as the slip has it. */
static uint64_t fed(const uint64_t *words, const uint64_t *lent, const uint64_t *answers, uint64_t column, int updates) {
    if (column < 8) {
        return words[column];
    }
    const uint64_t word = (has(FEEDS_ANSWERS_AS_LENT) ? lent : answers)[column - 8 + (uint64_t)has(FEEDS_THE_NEXT_WORD)];
    if ((has(FEEDS_EMITS_ALONE) && updates) || (has(FEEDS_A_ZERO_WITHOUT_SIGN) && word == 1ULL << 63)) {
        return 0;
    }
    return has(FEEDS_A_TRUE_AS_ONE) && word == 1 ? oven_word(1.0) : word;
}

/* A tick that is accepted, made by its rows' own calls on the words before it; `lent` are the answers as they were lent. */
static void tick_rows(const uint64_t *rows, size_t nr, uint64_t time, const uint64_t *words, uint64_t *w, const uint64_t *lent,
                      uint64_t *answers) {
    for (const uint64_t *row = rows; row < rows + nr; row += OVEN_ROW_WORDS) {
        const uint64_t block = row[OVEN_ROW_BLOCK], *s = row + OVEN_ROW_SETTINGS;
        const size_t ns = settings_of(block), len = length_of(block, s);
        uint64_t in[2][COLUMNS], *own = answers + (row - rows) / OVEN_ROW_WORDS * 2;
        for (size_t n = 0; n < 2 * COLUMNS; n++) {
            in[n / COLUMNS][n % COLUMNS] = fed(words, lent, answers, row[OVEN_ROW_FIRST + n % COLUMNS], n >= COLUMNS);
        }
        const struct oven_answer a = __wrap_oven_emit(block, s, ns, time, in[0][0], in[0][1], in[0][2], w, len);
        __wrap_oven_update(block, s, ns, time, in[1][0], in[1][1], in[1][2], w, len);
        own[0] = block <= OVEN_TIMER_ACCUMULATING ? a.real : a.boolean;
        own[1] = block == OVEN_TIMER_ACCUMULATING ? a.boolean : 0;
        w += len;
    }
}

/* Whether rows are fed and ticked here. */
static int feeds_rows(void) {
    return has(FEEDS_ANSWERS_AS_LENT) || has(FEEDS_EMITS_ALONE) || has(FEEDS_THE_NEXT_WORD) || has(FEEDS_A_TRUE_AS_ONE) ||
           has(FEEDS_A_ZERO_WITHOUT_SIGN) || ticks_pulses();
}

/* A tick of a sheet whose rows are fed as the slip has it. */
static struct oven_sheet_answer tick_fed(const uint64_t *rows, size_t nr, uint64_t time, const uint64_t *words, uint64_t *w,
                                         size_t nw, uint64_t *answers, size_t na) {
    uint64_t *copy = malloc((nw + na + 1) * sizeof *copy), *lent = copy + nw;
    for (size_t n = 0; n < nw + na; n++) {
        copy[n] = n < nw ? w[n] : answers[n - nw];
    }
    const struct oven_sheet_answer a = __real_oven_sheet_tick(rows, nr, time, words, w, nw, answers, na);
    if (a.refusal == OVEN_ACCEPTED) {
        tick_rows(rows, nr, time, words, copy, lent, answers);
        memcpy(w, copy, nw * sizeof *copy);
    }
    free(copy);
    return a;
}

struct oven_sheet_answer __wrap_oven_sheet_tick(const uint64_t *rows, size_t nr, uint64_t time, const uint64_t *words, uint64_t *w,
                                                size_t nw, uint64_t *answers, size_t na) {
    rows = has(READS_A_ROWS_SETTING_BY_ITS_LOW_BIT) ? low_bits(rows, nr) : rows;
    if (has(REFUSES_THE_ROW_ABOVE) && reads_above(rows, nr)) {
        return (struct oven_sheet_answer){OVEN_BAD_SHEET, 0, 0};
    }
    struct oven_sheet_answer a = (feeds_rows() ? tick_fed : __real_oven_sheet_tick)(rows, nr, time, words, w, nw, answers, na);
    a = take_more(a, rows, nr, time, words, w, nw, answers, na);
    a = take_columns(a, rows, nr, time, words, w, nw, answers, na);
    if (has(UPDATES_BEFORE_IT_EMITS) && a.refusal == OVEN_ACCEPTED) {
        emit_late(rows, nr, time, words, w, nw, answers, na);
    }
    if (has(WARNS_FOR_THE_LAST_ROW) && a.refusal == OVEN_ACCEPTED && rows[nr - OVEN_ROW_WORDS] != OVEN_MOVING_AVERAGE) {
        a.warning = 0;
    }
    if (has(STORES_A_ROW_ON_REFUSAL) && a.refusal >= OVEN_BAD_STATE && a.refusal != OVEN_NO_BLOCK && a.row > 0) {
        uint64_t first[2];
        __real_oven_sheet_tick(rows, OVEN_ROW_WORDS, time, words, w, length_of(rows[0], rows + OVEN_ROW_SETTINGS), first, 2);
    }
    if (has(SWAPS_ROWS) && a.refusal == OVEN_ACCEPTED && na >= 4) {
        const uint64_t first = answers[0];
        answers[0] = answers[2];
        answers[2] = first;
    }
    if (has(NAMES_THE_FIRST_ROW)) {
        a.row = 0;
    }
    if (has(WRITES_ANSWERS_ON_REFUSAL) && a.refusal == OVEN_TIME_RUNS_BACK) {
        answers[0] = 0;
    }
    return a;
}
