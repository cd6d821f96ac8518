/* What calls must meet beside their numbers: refused lengths that are far off, boolean settings of any word, sums of -0.0, rings
 * that are sound or wrong in one place (sound_classes.h), pulses where their rules turn (pulse_classes.h), words where rounding
 * turns (leaves.h), and of rows that feed rows which words they hand on, how long a chain of them is, and which columns are
 * refused. */
#ifndef CLASSES_H
#define CLASSES_H

#include "calls.h"

/* How far off a length is; the last is 256 words more, with the same low byte. */
enum off { ONE_MORE, ONE_LESS, TWO_MORE, TWO_LESS, NO_WORDS, HALF, DOUBLE, FAR, OFFS };

/* The length that is so far off from this one. Of a short one it may be this one. */
size_t off_length(enum off off, size_t len);

/* Counts what a call meets that gives this number and this outcome. */
void count_classes(const struct call *call, const struct outcome *outcome, uint64_t number);

/* Prints how often each class was met, and adds those that were met and those that were not. */
void report_classes(int *met, int *missed);

/* The same of these classes. */
void report_counts(const char *what, const uint64_t *counts, size_t len, int *met, int *missed);

#endif
