/* A call of the boundary as a value: what it is given, and what it gives. */
#ifndef CALLS_H
#define CALLS_H

#include "lent.h"
#include "oven.h"

#include <stdbool.h>

enum kind { LENGTH, START, EMIT, UPDATE, TICK, RUN, SOUND, DECODE, SHEET_START, SHEET_TICK, KINDS };

/* What a call is given. Each kind takes its part; region and answers are those at entry. */
struct call {
    enum kind kind;
    uint64_t block;
    struct words settings, rows;
    uint64_t time, inputs[8]; /* a block has three inputs, a sheet eight */
    struct words ticks, region, answers;
};

/* What it gives: the words that it returns, the refusal first, and region and answers at exit if it may write them. */
struct outcome {
    uint64_t said[7];
    uint64_t region[REGION_MOST], answers[MOST];
};

bool is_sheet(enum kind kind);
bool writes_region(enum kind kind);
bool writes_answers(enum kind kind);
const char *kind_name(enum kind kind);

/* Whether these are the same words. */
bool same_words(const uint64_t *ours, const uint64_t *others, size_t len);

/* Makes the call with all that it is lent on this side. One that must be refused must write nothing, and so it cannot. */
void make(const struct call *call, enum side side, bool is_refused, struct outcome *outcome);

/* The call that was made last. */
extern struct call last_call;

/* Tells a call on standard error. */
void show_call(const struct call *call);

#endif
