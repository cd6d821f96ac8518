/* Words lent to a call: exactly as many as it is told, with a page beside them that nobody may touch. */
#ifndef LENT_H
#define LENT_H

#include <stddef.h>
#include <stdint.h>

/* So many words, and where they stand. */
struct words {
    const uint64_t *at;
    size_t len;
};

/* What is lent. Each has pages of its own. */
enum place { SETTINGS, TICKS, INPUTS, ROWS, REGION, ANSWERS, PLACES };

/* The most words that can be lent as a region, and in any other place. */
enum { REGION_MOST = 524288, MOST = 2048 };

/* Where the page is: behind the last word, or before the first one. */
enum side { GUARD_BEHIND, GUARD_BEFORE };

/* Maps the pages, the first time. */
void lent_open(void);

/* A copy of the words that may be read and written. Of no words it is a pointer that nothing may be read or written by. */
uint64_t *lend(enum place place, enum side side, struct words words);

/* A copy that may only be read: a write faults. */
const uint64_t *lend_to_read(enum place place, enum side side, struct words words);

#endif
