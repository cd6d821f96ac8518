/* What a tick of a variable pulse meets where its rules turn, and which of its settings are refused for a limit alone. */
#ifndef PULSE_CLASSES_H
#define PULSE_CLASSES_H

#include "calls.h"

/* Counts an accepted tick or update that leaves these words. */
void count_pulse(const struct call *call, const uint64_t *after);

/* Counts settings that are refused. */
void count_limits(const uint64_t *settings);

/* Prints how often each class was met, and adds those that were met and those that were not. */
void report_pulses(int *met, int *missed);

#endif
