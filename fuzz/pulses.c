/* Pulses whose ticks lie where their rules turn. */
#include "pulses.h"
#include "due.h"

uint64_t some_ratio(struct bytes *b) { return oven_word((double)choose(b, 257) / 256.0); }

/* Any, the least that the minimum hold leaves, or some 128ths: whole periods of an odd number of them may lie in the middle of two
 * millionths. */
static uint64_t some_period(struct bytes *b, double hold) {
    const size_t choice = choose(b, 8);
    return choice == 0 ? finite_word(b) : oven_word(choice == 1 ? hold * 2.02 : (double)choose(b, 2048) / 128.0);
}

void put_pulse_settings(struct bytes *b, uint64_t *settings) {
    static const double deltas[] = {0.01, 0.5, 0.25, 0.125, 0.05};
    const double hold = choose(b, 2) == 0 ? 1.0 : 1.0 + (double)choose(b, 16) / 8.0;
    settings[PULSE_PERIOD] = some_period(b, hold);
    settings[PULSE_DELTA_U] = oven_word(deltas[choose(b, 5)]);
    settings[PULSE_HOLD] = oven_word(hold);
    switch (choose(b, 32)) {
    case 0:
        settings[PULSE_DELTA_U] = oven_word(0.01) - 1;
        break;
    case 1:
        settings[PULSE_DELTA_U] = oven_word(0.5) + 1;
        break;
    case 2:
        settings[PULSE_HOLD] = oven_word(1.0) - 1;
        break;
    case 3:
        settings[choose(b, 3)] = finite_word(b);
        break;
    default:
        break;
    }
}

void put_pulse(struct bytes *b, const uint64_t *settings, uint64_t *region) {
    const double period = due_period(settings), hold = oven_real(settings[PULSE_HOLD]);
    const double now = ((double)choose(b, 64) - 16.0) / 4.0, step = choose(b, 2) == 0 ? 1.0 : 0.25;
    const double periods = ((double)choose(b, 16) - 8.0) * step;
    region[PULSE_SAMPLED] = choose(b, 8) == 0 ? any_word(b) : some_ratio(b);
    region[PULSE_ANCHOR] = choose(b, 8) == 0 ? any_word(b) : oven_word(now - periods * period);
    region[PULSE_HELD] = choose(b, 2);
    region[PULSE_TIMER] = oven_word(choose(b, 4) == 0 ? hold * (double)choose(b, 16) / 16.0 : hold + (double)choose(b, 64));
    region[PULSE_PREVIOUS] = choose(b, 16) == 0 ? OVEN_UNSET : oven_word(now);
}

/* The sampled ratio, one that lies delta_u away, or any. */
static uint64_t telling_ratio(struct bytes *b, const uint64_t *settings, const uint64_t *region) {
    const double sampled = oven_real(region[PULSE_SAMPLED]), delta_u = oven_real(settings[PULSE_DELTA_U]);
    switch (choose(b, 16)) {
    case 0:
        return oven_word(sampled + delta_u);
    case 1:
        return oven_word(sampled - delta_u);
    case 2:
        return any_word(b);
    case 3:
        return oven_word(1.0);
    case 4:
    case 5:
    case 6:
        return some_ratio(b);
    default:
        return region[PULSE_SAMPLED];
    }
}

/* A time at which something begins or ends, whether it is accepted or not. */
static double telling_time(struct bytes *b, const uint64_t *settings, const uint64_t *region, double ratio) {
    const double period = due_period(settings), anchor = oven_real(region[PULSE_ANCHOR]);
    const double now = region[PULSE_PREVIOUS] == OVEN_UNSET ? 0.0 : oven_real(region[PULSE_PREVIOUS]);
    const double periods = (now - anchor) / period, more = (double)choose(b, 3);
    const double whole = periods > -1e9 && periods < 1e9 ? (double)(int64_t)periods + more : more;
    const double begin = due_begin(anchor + (whole + 0.25) * period, anchor, period);
    switch (choose(b, 8)) {
    case 0:
    case 1:
        return anchor + whole * period;
    case 2:
        return begin;
    case 3:
    case 4:
        return begin + ratio * period;
    case 5:
    case 6:
        return now + (oven_real(settings[PULSE_HOLD]) - oven_real(region[PULSE_TIMER]));
    default:
        return now + (double)choose(b, 64) / 16.0;
    }
}

void put_pulse_tick(struct bytes *b, const uint64_t *settings, const uint64_t *region, uint64_t *time, uint64_t *ratio) {
    *ratio = telling_ratio(b, settings, region);
    const size_t near = choose(b, 8);
    const uint64_t word = oven_word(telling_time(b, settings, region, oven_real(*ratio))) + (near == 0) - (near == 1);
    const uint64_t previous = region[PULSE_PREVIOUS];
    if (is_finite(word) && (previous == OVEN_UNSET || oven_real(word) >= oven_real(previous))) {
        *time = word;
    }
}
