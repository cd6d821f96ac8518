/* The classes of ticks and settings of a variable pulse, and how often they were met. */
#include "pulse_classes.h"
#include "classes.h"
#include "due.h"
#include "pulses.h"

#include <stdio.h>

enum ratio { NO_NUMBER, PLUS_INFINITY, MINUS_INFINITY, NEGATIVE, MINUS_ZERO, ZERO, BETWEEN, ONE, ABOVE_ONE, RATIOS };

/* What a tick meets. From ANCHOR_AHEAD on it has a ratio between 0 and 1, and its cycles go on from a finite anchor. */
enum turn {
    FIRST_HELD, /* a first tick on a held output */
    NAN_SAMPLED,
    WIDTH_AT, /* delta_u away: no change */
    WIDTH_CHANGED,
    INFINITE_SAMPLED,
    PERIOD_RAISED,
    PERIOD_LEAST,
    PERIOD_LONGER,
    HOLD_AT, /* the output changes when the timer is exactly the minimum hold */
    HOLD_WAITS,
    ANCHOR_NOT_FINITE,
    ANCHOR_AHEAD,
    AT_WHOLE_PERIODS,
    AT_BEGIN,
    BEFORE_BEGIN, /* the begin was rounded up past the time */
    AT_END,
    BEFORE_END,
    BEHIND_END,
    HALF_BEHIND, /* whole periods in the middle of two millionths, behind the anchor or before it */
    HALF_BEFORE,
    TURNS
};

enum limit { BELOW_LEAST_DELTA, ABOVE_MOST_DELTA, BELOW_LEAST_HOLD, LIMITS };

static uint64_t ratios[RATIOS], turns[TURNS], limits[LIMITS];

static enum ratio ratio_of(uint64_t word) {
    const double u = oven_real(word);
    if (!is_finite(word)) {
        return u != u ? NO_NUMBER : u > 0.0 ? PLUS_INFINITY : MINUS_INFINITY;
    }
    if (u == 0.0) {
        return word == 0 ? ZERO : MINUS_ZERO;
    }
    return u < 0.0 ? NEGATIVE : u < 1.0 ? BETWEEN : u == 1.0 ? ONE : ABOVE_ONE;
}

/* A cycle that goes on, at a ratio between 0 and 1. */
static void count_cycle(double time, double u, double anchor, double period) {
    const double begin = due_begin(time, anchor, period), end = begin + u * period, periods = (time - anchor) / period;
    const bool is_small = periods > -1e9 && periods < 1e9, is_whole = is_small && periods == (double)(int64_t)periods;
    const double halves = is_whole ? periods * period * 2e6 : 0.0;
    const bool is_half = halves > -1e15 && halves < 1e15 && halves == (double)(int64_t)halves && (int64_t)halves % 2 != 0;
    turns[ANCHOR_AHEAD] += time < anchor;
    turns[AT_WHOLE_PERIODS] += is_whole && periods != 0.0;
    turns[AT_BEGIN] += time == begin;
    turns[BEFORE_BEGIN] += time < begin;
    turns[AT_END] += time == end;
    turns[BEFORE_END] += time < end && oven_word(time) + 1 == oven_word(end);
    turns[BEHIND_END] += time > end && oven_word(time) - 1 == oven_word(end);
    turns[HALF_BEHIND] += is_half && periods > 0.0;
    turns[HALF_BEFORE] += is_half && periods < 0.0;
}

void count_pulse(const struct call *c, const uint64_t *after) {
    const uint64_t *s = c->settings.at, *w = c->region.at;
    const double u = oven_real(c->inputs[0]), sampled = oven_real(w[PULSE_SAMPLED]), delta_u = oven_real(s[PULSE_DELTA_U]);
    const double hold = oven_real(s[PULSE_HOLD]), period = oven_real(s[PULSE_PERIOD]), anchor = oven_real(w[PULSE_ANCHOR]);
    const bool is_first = w[PULSE_PREVIOUS] == OVEN_UNSET, flips = !is_first && after[PULSE_HELD] != (w[PULSE_HELD] != 0);
    const double timer = oven_real(w[PULSE_TIMER]) + (oven_real(c->time) - oven_real(w[PULSE_PREVIOUS]));
    const bool is_changed = u - sampled > delta_u || sampled - u > delta_u;
    ratios[ratio_of(c->inputs[0])]++;
    turns[FIRST_HELD] += is_first && w[PULSE_HELD] != 0;
    turns[NAN_SAMPLED] += sampled != sampled;
    turns[WIDTH_AT] += u - sampled == delta_u || sampled - u == delta_u;
    turns[WIDTH_CHANGED] += is_changed;
    turns[INFINITE_SAMPLED] += is_changed && !is_finite(after[PULSE_SAMPLED]);
    turns[PERIOD_RAISED] += period < hold * 2.02;
    turns[PERIOD_LEAST] += period == hold * 2.02;
    turns[PERIOD_LONGER] += period > hold * 2.02;
    turns[HOLD_AT] += flips && timer == hold;
    turns[HOLD_WAITS] += !is_first && !flips && timer < hold;
    if (!is_first && !is_changed && ratio_of(c->inputs[0]) == BETWEEN) {
        turns[ANCHOR_NOT_FINITE] += !is_finite(w[PULSE_ANCHOR]);
        if (is_finite(w[PULSE_ANCHOR])) {
            count_cycle(oven_real(c->time), u, anchor, due_period(s));
        }
    }
}

void count_limits(const uint64_t *s) {
    const bool are_finite = is_finite(s[PULSE_PERIOD]) && is_finite(s[PULSE_DELTA_U]) && is_finite(s[PULSE_HOLD]);
    const double delta_u = oven_real(s[PULSE_DELTA_U]), hold = oven_real(s[PULSE_HOLD]);
    const bool is_within = delta_u >= 0.01 && delta_u <= 0.5;
    limits[BELOW_LEAST_DELTA] += are_finite && hold >= 1.0 && s[PULSE_DELTA_U] == oven_word(0.01) - 1;
    limits[ABOVE_MOST_DELTA] += are_finite && hold >= 1.0 && s[PULSE_DELTA_U] == oven_word(0.5) + 1;
    limits[BELOW_LEAST_HOLD] += are_finite && is_within && s[PULSE_HOLD] == oven_word(1.0) - 1;
}

void report_pulses(int *met, int *missed) {
    report_counts("ratios of a pulse: no number, +infinity, -infinity, negative, -0.0, 0.0, between, 1, above", ratios, RATIOS, met,
                  missed);
    report_counts(
        "its ticks: first on a held output, sampled no number, width at delta_u, changed, infinite, period raised, least, longer, "
        "hold exactly over, not over, anchor not finite, ahead, at whole periods, at the begin, before it, at the end, next before "
        "it, next behind it, half a millionth behind the anchor, before it",
        turns, TURNS, met, missed);
    report_counts("its settings next to a limit: delta_u below, above, hold below", limits, LIMITS, met, missed);
}
