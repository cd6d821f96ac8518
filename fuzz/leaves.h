/* The leaves that the library has for comparison: one word out of a few. */
#ifndef LEAVES_H
#define LEAVES_H

#include <stdint.h>

uint64_t oven_canonical(uint64_t word);
uint64_t oven_tick_dt(uint64_t time, uint64_t previous);
uint64_t oven_accumulate(uint64_t x, uint64_t rate, uint64_t gap);
uint64_t oven_filter(uint64_t x, uint64_t input, uint64_t constant, uint64_t gap);
uint64_t oven_positive_duration(uint64_t x);
uint64_t oven_absolute(uint64_t x);
uint64_t oven_ceil(uint64_t x);
uint64_t oven_floor(uint64_t x);

/* How many were called. */
extern uint64_t leaf_calls;

/* Calls each leaf with the first of these four words, and rounding also where it turns. */
void check_leaves(const uint64_t *words);

/* Prints how often rounding was given a word of each class, and adds those that were met and those that were not. */
void report_rounding(int *met, int *missed);

#endif
