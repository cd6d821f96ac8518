/* A variable pulse with one slip. */
#include "due.h"
#include "pulses.h"
#include "wrong.h"

const uint64_t *pulse_as_read(const uint64_t *settings) {
    static uint64_t read[OVEN_LOGICAL_VARIABLE_PULSE_SETTINGS];
    memcpy(read, settings, sizeof read);
    if (has(TAKES_A_LARGE_DELTA_U) && is_finite(read[PULSE_DELTA_U]) && !(oven_real(read[PULSE_DELTA_U]) <= 0.5)) {
        read[PULSE_DELTA_U] = oven_word(0.5);
    }
    if (has(TAKES_A_SHORT_HOLD) && is_finite(read[PULSE_HOLD]) && oven_real(read[PULSE_HOLD]) < 1.0) {
        read[PULSE_HOLD] = oven_word(1.0);
    }
    if (has(REFUSES_THE_LEAST_DELTA_U) && read[PULSE_DELTA_U] == oven_word(0.01)) {
        read[PULSE_DELTA_U] = 0;
    }
    if (has(REFUSES_THE_LEAST_HOLD) && read[PULSE_HOLD] == oven_word(1.0)) {
        read[PULSE_HOLD] = 0;
    }
    return read;
}

/* The whole number next to x toward zero. */
static double cut(double x) { return x < 0.0 ? -due_floor(-x) : due_floor(x); }

static double six_places(double x) {
    if (has(ROUNDS_NOTHING)) {
        return x;
    }
    if (has(CUTS_SIX_PLACES)) {
        return cut(x * 1e6) / 1e6;
    }
    return x > 0.0 || has(ROUNDS_HALVES_UP) ? due_floor(x * 1e6 + 0.5) / 1e6 : -due_floor(0.5 - x * 1e6) / 1e6;
}

static double period_of(const uint64_t *s) {
    const double factor = has(RAISES_TO_TWICE_THE_HOLD) ? 2.0 : 2.02;
    const double least = oven_real(s[PULSE_HOLD]) * factor, period = oven_real(s[PULSE_PERIOD]);
    const int is_short = has(LEAVES_A_SHORT_PERIOD) ? period <= 0.0 : period < least;
    return is_short ? least : period;
}

/* Whether a cycle counted from this anchor asks for true. */
static int asks(double time, double u, double anchor, double period) {
    const int is_infinite = u - u != 0.0, takes = has(TAKES_INFINITY_FOR_ONE) && u > 1.0;
    if (anchor - anchor != 0.0 || (is_infinite && !takes) || u <= 0.0) {
        return 0;
    }
    if (u > 1.0 || (u == 1.0 && !has(CYCLES_AT_ONE))) {
        return 1;
    }
    const double periods = (time - anchor) / period, whole = has(CUTS_PERIODS_TOWARD_ZERO) ? cut(periods) : due_floor(periods);
    const double begin = anchor + six_places(whole * period), end = begin + u * period;
    return (has(BEGINS_LATE) ? time > begin : time >= begin) && (has(ENDS_LATE) ? time <= end : time < end);
}

uint64_t tick_own_pulse(const uint64_t *s, uint64_t time, uint64_t ratio, const uint64_t *w, uint64_t *after) {
    const double t = oven_real(time), u = oven_real(ratio), sampled = oven_real(w[PULSE_SAMPLED]);
    const double away = u > sampled ? u - sampled : sampled - u, delta_u = oven_real(s[PULSE_DELTA_U]);
    const int is_first = w[PULSE_PREVIOUS] == OVEN_UNSET, held = w[PULSE_HELD] != 0;
    const int is_changed = away > delta_u || (has(CHANGES_AT_DELTA_U) && away == delta_u);
    const int is_anew = (is_first && !has(TAKES_THE_STORED_ANCHOR)) || (is_changed && !has(KEEPS_THE_ANCHOR));
    const double anchor = is_anew ? t : oven_real(w[PULSE_ANCHOR]), share = is_changed ? u : sampled;
    const double timer = oven_real(w[PULSE_TIMER]) + (is_first ? 0.0 : t - oven_real(w[PULSE_PREVIOUS]));
    const double hold = oven_real(s[PULSE_HOLD]);
    const int asked = asks(t, has(SHARES_BY_THE_SAMPLED_INPUT) ? share : u, anchor, period_of(s));
    const int is_over = has(CHANGES_PAST_THE_HOLD) ? timer > hold : timer >= hold, takes = is_first && !has(HOLDS_A_FIRST_TICK);
    const int stays = !takes && (asked == held || !is_over), flips = !takes && !stays;
    const int rests = takes || (flips && !has(KEEPS_THE_TIMER)) || (has(RESTS_WHILE_BOTH_AGREE) && asked == held);
    after[PULSE_SAMPLED] = due_canonical(is_changed || has(SAMPLES_EVERY_INPUT) ? ratio : w[PULSE_SAMPLED]);
    after[PULSE_ANCHOR] = due_canonical(oven_word(anchor));
    after[PULSE_HELD] = (uint64_t)(stays ? held : asked);
    after[PULSE_TIMER] = rests ? 0 : due_canonical(oven_word(timer));
    after[PULSE_PREVIOUS] = time;
    return after[PULSE_HELD];
}
