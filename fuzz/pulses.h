/* Settings, regions and ticks of a variable pulse as document 02's request 3 speaks of them. */
#ifndef PULSES_H
#define PULSES_H

#include "bytes.h"
#include "oven.h"

/* The places of its settings and of its words. */
enum {
    PULSE_PERIOD = OVEN_LOGICAL_VARIABLE_PULSE_PERIOD,
    PULSE_DELTA_U = OVEN_LOGICAL_VARIABLE_PULSE_DELTA_U,
    PULSE_HOLD = OVEN_LOGICAL_VARIABLE_PULSE_MIN_TRUE_FALSE_HOLD,
    PULSE_SAMPLED = OVEN_LOGICAL_VARIABLE_PULSE_STATE_SAMPLED_U,
    PULSE_ANCHOR = OVEN_LOGICAL_VARIABLE_PULSE_STATE_CYCLE_START,
    PULSE_HELD = OVEN_LOGICAL_VARIABLE_PULSE_STATE_HELD,
    PULSE_TIMER = OVEN_LOGICAL_VARIABLE_PULSE_STATE_TIMER,
    PULSE_PREVIOUS = OVEN_LOGICAL_VARIABLE_PULSE_STATE_PREVIOUS_TIME,
    PULSE_WORDS = OVEN_LOGICAL_VARIABLE_PULSE_LENGTH
};

/* A duty ratio from 0 to 1. */
uint64_t some_ratio(struct bytes *bytes);

/* Settings that are mostly within the limits, and else mostly the next word outside. */
void put_pulse_settings(struct bytes *bytes, uint64_t *settings);

/* Words of a pulse whose cycles began some time ago or will begin, with a timer that mostly lets the output change. */
void put_pulse(struct bytes *bytes, const uint64_t *settings, uint64_t *region);

/* A duty ratio at which the width changes or nearly so, or another, and where it is not refused a time at which a cycle begins,
 * its true part ends, or the minimum hold is over; or the next word beside it. */
void put_pulse_tick(struct bytes *bytes, const uint64_t *settings, const uint64_t *region, uint64_t *time, uint64_t *ratio);

#endif
