/* What must hold of every call; a program that sees it fail says so and aborts. */
#ifndef CHECKS_H
#define CHECKS_H

#include "calls.h"

/* Numbers up to the highest refusal. */
enum { NUMBERS = OVEN_BAD_TICKS + 1 };

/* How many calls of each kind gave each number; of oven_sound it is the one that a decode would give. */
extern uint64_t counts[KINDS][NUMBERS];

/* How many calls there were of a kind, and in all. */
uint64_t calls_of(enum kind kind);
uint64_t calls_made(void);

/* How many ticks runs had. */
extern uint64_t run_ticks;

/* Makes the call on both sides and checks all that it gives. */
void check_call(const struct call *call, struct outcome *outcome);

/* Says what is wrong, and with which call; does not come back. */
void fail(const char *why);

#endif
