/* What decides whether a moving average's ring is sound: the one thing that is wrong with it and where it stands, or what a sound
 * ring has that could be taken for wrong. */
#ifndef SOUND_CLASSES_H
#define SOUND_CLASSES_H

#include "calls.h"

/* Counts a ring that oven_sound was asked about, in a region that decodes. */
void count_ring(const struct call *call);

/* Prints how often each class was met, and adds those that were met and those that were not. */
void report_rings(int *met, int *missed);

#endif
