/* Rings of a moving average: where a region has them, and some as document 02's request 2 speaks of them. */
#ifndef RINGS_H
#define RINGS_H

#include "bytes.h"
#include "oven.h"

/* The places of its words in a region, and of the first of the ring's times. */
enum {
    RING_PREVIOUS = OVEN_MOVING_AVERAGE_STATE_PREVIOUS_TIME,
    RING_HEAD = OVEN_MOVING_AVERAGE_STATE_HEAD,
    RING_COUNT = OVEN_MOVING_AVERAGE_STATE_COUNT,
    RING_TIMES = OVEN_MOVING_AVERAGE_STATE_COALESCED + 1
};

/* How many slots the ring of a region with so many words has. */
size_t ring_slots(size_t region_len);

/* The place of the time at position n. */
size_t ring_place(const uint64_t *region, size_t region_len, size_t n);

/* Writes a ring to the region, its previous time, head, count and times: sound, with all that could be taken for wrong; half of
 * those with points then have one thing wrong. */
void put_ring(struct bytes *bytes, uint64_t *region, size_t region_len);

#endif
