/* What documents 01 and 02 and docs/BOUNDARY.md say is due, in plain C and apart from the library. */
#ifndef DUE_H
#define DUE_H

#include "calls.h"

/* The number that a call must give, and beside it the row of a sheet. */
struct due {
    uint64_t number, row;
};

struct due due_of(const struct call *call);

/* Of a block that has its number, its settings and its type: how many words its state has. Settings that are not finite
 * make it 0. */
size_t due_length(uint64_t block, const uint64_t *settings);

/* The lengths of a sheet's rows together. */
size_t due_sheet_length(const struct call *call);

/* The kinds of its state words, a letter each: t previous time; reals: i integrator, f filter, s start time, r another; h head,
 * n count; booleans: g trigger, c coalesced, b another. The points of a moving average come after them. */
const char *due_layout(uint64_t block, const uint64_t *settings);

/* How many columns row n of a sheet may name: a tick's eight words, and two answer words of each row further up. */
size_t due_columns(size_t n);

/* What its inputs are, a letter each: r real, b boolean. */
const char *due_inputs(uint64_t block);

/* How many settings it has, the place of the boolean one (behind the last if it has none), and which outputs. */
size_t due_settings(uint64_t block);
size_t due_boolean_setting(uint64_t block);
bool has_real(uint64_t block);
bool has_boolean(uint64_t block);

/* The words of a fresh start. */
void due_start(uint64_t block, const uint64_t *settings, uint64_t *region);

/* Where a block keeps a sum of gaps, and what an accepted update of it leaves there, by the flags before and after it; the place
 * is behind the last word of a block that is no timer. */
size_t due_sum_place(uint64_t block);
uint64_t due_sum(const struct call *call, const uint64_t *after);

/* Whether a pulse's settings, which are finite, lie within the limits of document 02's request 3. */
bool are_within_limits(const uint64_t *settings);

/* The five words that an accepted tick of a pulse leaves: also what it answers, as the held output. */
void due_pulse(const struct call *call, uint64_t *after);

/* The greatest whole number that is not above x. From 2^52 on every number is whole. */
double due_floor(double x);

/* The period that a pulse goes by, and the begin of the cycle that holds this time, of cycles that are counted from an anchor. */
double due_period(const uint64_t *settings);
double due_begin(double time, double anchor, double period);

/* Whether the region of this call, of one block, is sound. */
bool due_sound(const struct call *call);

/* The six words that a region decodes to. */
void due_state(uint64_t block, const uint64_t *settings, const uint64_t *region, uint64_t *state);

bool is_finite(uint64_t word);
uint64_t due_canonical(uint64_t word);

#endif
