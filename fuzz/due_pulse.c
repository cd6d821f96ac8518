/* Document 02's variable pulse: its limits, and what a tick of it leaves. */
#include "due.h"
#include "pulses.h"

bool are_within_limits(const uint64_t *settings) {
    const double delta_u = oven_real(settings[PULSE_DELTA_U]);
    return delta_u >= 0.01 && delta_u <= 0.5 && oven_real(settings[PULSE_HOLD]) >= 1.0;
}

double due_floor(double x) {
    if (!(x > -4503599627370496.0 && x < 4503599627370496.0)) {
        return x;
    }
    const double cut = (double)(int64_t)x;
    return cut > x ? cut - 1.0 : cut;
}

/* To six places, a half away from zero. */
static double six_places(double x) { return x > 0.0 ? due_floor(x * 1e6 + 0.5) / 1e6 : -due_floor(0.5 - x * 1e6) / 1e6; }

double due_period(const uint64_t *settings) {
    const double least = oven_real(settings[PULSE_HOLD]) * 2.02, period = oven_real(settings[PULSE_PERIOD]);
    return period > least ? period : least;
}

double due_begin(double time, double anchor, double period) {
    return anchor + six_places(due_floor((time - anchor) / period) * period);
}

/* Whether a cycle counted from this anchor asks for true. */
static bool asks(double time, double u, double anchor, double period) {
    if (anchor - anchor != 0.0 || u - u != 0.0 || u <= 0.0) { /* not finite, or no share */
        return false;
    }
    const double begin = due_begin(time, anchor, period);
    return u >= 1.0 || (begin <= time && time < begin + u * period);
}

void due_pulse(const struct call *c, uint64_t *after) {
    const uint64_t *s = c->settings.at, *w = c->region.at;
    const double time = oven_real(c->time), u = oven_real(c->inputs[0]), sampled = oven_real(w[PULSE_SAMPLED]);
    const double away = u > sampled ? u - sampled : sampled - u;
    const bool is_first = w[PULSE_PREVIOUS] == OVEN_UNSET, held = w[PULSE_HELD] != 0;
    const bool is_changed = away > oven_real(s[PULSE_DELTA_U]);
    const double anchor = is_first || is_changed ? time : oven_real(w[PULSE_ANCHOR]);
    const double timer = oven_real(w[PULSE_TIMER]) + (is_first ? 0.0 : time - oven_real(w[PULSE_PREVIOUS]));
    const bool asked = asks(time, u, anchor, due_period(s)), may_change = is_first || timer >= oven_real(s[PULSE_HOLD]);
    const bool stays = !is_first && (asked == held || !may_change);
    after[PULSE_SAMPLED] = due_canonical(is_changed ? c->inputs[0] : w[PULSE_SAMPLED]);
    after[PULSE_ANCHOR] = due_canonical(oven_word(anchor));
    after[PULSE_HELD] = stays ? held : asked;
    after[PULSE_TIMER] = stays ? due_canonical(oven_word(timer)) : 0;
    after[PULSE_PREVIOUS] = c->time;
}
