/* Rings of a moving average, from few bytes: the bits of one say which neighbours are equal and which zeros are negative. */
#include "rings.h"

#include <stdbool.h>

size_t ring_slots(size_t region_len) { return (region_len - RING_TIMES) / 2; }

size_t ring_place(const uint64_t *region, size_t region_len, size_t n) {
    return RING_TIMES + (region[RING_HEAD] + n) % ring_slots(region_len);
}

static uint64_t *time_at(uint64_t *region, size_t len, size_t n) { return region + ring_place(region, len, n); }

/* Any number below this one, which may be large. */
static size_t below(struct bytes *b, size_t most) { return choose(b, 65536) % most; }

/* Mostly few points; also none, one, and a ring that is full or nearly so. */
static size_t some_count(struct bytes *b, size_t slots) {
    const size_t choice = choose(b, 16);
    return choice < 2 ? slots - choice : choice < 4 ? 0 : choice < 6 ? 1 : 2 + choose(b, 10);
}

/* Mostly points that run past the last slot: behind the first, before the last, or anywhere. */
static size_t some_head(struct bytes *b, size_t slots, size_t count) {
    const size_t choice = choose(b, 4);
    if (count < 2 || choice == 0) {
        return below(b, slots);
    }
    return slots - (choice == 1 ? 1 : choice == 2 ? count - 1 : 1 + below(b, count - 1));
}

/* From the previous time back, or from a second before it. */
static void put_times(struct bytes *b, uint64_t *region, size_t len) {
    static const double steps[] = {0.0, 0.125, 1.0, 0.0};
    const double step = steps[choose(b, 4)];
    const size_t bits = choose(b, 256);
    double time = oven_real(region[RING_PREVIOUS]) - (choose(b, 3) == 0 ? 1.0 : 0.0);
    for (size_t n = region[RING_COUNT]; n-- > 0;) {
        const uint64_t bit = bits >> n % 8 & 1;
        *time_at(region, len, n) = time == 0.0 ? bit << 63 : oven_word(time);
        time -= bit != 0 ? step : 0.0;
    }
}

/* The float next above this one, or next below it. */
static uint64_t beside(uint64_t word, bool above) {
    const bool is_negative = word >> 63 != 0;
    if (word << 1 == 0) {
        return above ? 1 : 1ULL << 63 | 1;
    }
    return above != is_negative ? word + 1 : word - 1;
}

/* A word that no time is: a NaN, or an infinity of either sign. */
static uint64_t no_time(struct bytes *b) {
    static const uint64_t words[] = {0x7FF8000000000000, 0xFFF0000000000001, 0x7FF0000000000000, 0xFFF0000000000000};
    return words[choose(b, 4)];
}

/* Words that would be wrong as a point's time, in the last free slot and in the first one: nobody may look at them. */
static void put_strays(struct bytes *b, uint64_t *region, size_t len) {
    const size_t count = region[RING_COUNT], slots = ring_slots(len), free[] = {slots - 1, count};
    for (size_t n = 0; n < 2 && count < slots; n++) {
        const uint64_t previous = region[RING_PREVIOUS], last = count > 0 ? *time_at(region, len, count - 1) : previous;
        const size_t choice = choose(b, 4);
        *time_at(region, len, free[n]) = choice < 2 ? no_time(b) : choice == 2 ? beside(last, false) : beside(previous, true);
    }
}

/* Makes one thing wrong: a time at the first, any or the last position, in the last slot or in slot 0, the last time, or the
 * previous one. */
static void spoil_ring(struct bytes *b, uint64_t *region, size_t len) {
    const size_t last = region[RING_COUNT] - 1, of_slot_0 = ring_slots(len) - region[RING_HEAD];
    const size_t places[] = {0, below(b, last + 1), last, of_slot_0 - 1, of_slot_0}, place = places[choose(b, 5)];
    const size_t n = place < last ? place : last, choice = choose(b, 8);
    if (choice < 3) {
        *time_at(region, len, n) = no_time(b);
    } else if (choice < 6 && n > 0) {
        *time_at(region, len, n) = beside(*time_at(region, len, n - 1), false);
    } else if (choice == 6) {
        *time_at(region, len, last) = beside(region[RING_PREVIOUS], true);
    } else {
        region[RING_PREVIOUS] = OVEN_UNSET;
    }
}

void put_ring(struct bytes *b, uint64_t *region, size_t len) {
    const size_t slots = ring_slots(len);
    region[RING_PREVIOUS] = choose(b, 2) == 0 ? (uint64_t)choose(b, 2) << 63 : finite_word(b);
    region[RING_COUNT] = some_count(b, slots);
    region[RING_HEAD] = some_head(b, slots, region[RING_COUNT]);
    put_times(b, region, len);
    put_strays(b, region, len);
    if (region[RING_COUNT] > 0 && choose(b, 2) == 0) {
        spoil_ring(b, region, len);
    }
}
