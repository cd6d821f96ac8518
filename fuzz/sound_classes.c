/* The classes of rings that oven_sound must be asked about, and how often it was. */
#include "sound_classes.h"
#include "classes.h"
#include "due.h"
#include "rings.h"

#include <stdio.h>

/* What is wrong with a time; none is none of them. */
enum fault { NO_NUMBER, PLUS_INFINITY, MINUS_INFINITY, FALLS, ABOVE, FAULTS, NO_FAULT = FAULTS };

/* Where it stands. A time above the previous one can be alone so in two places, one below the one before in four; here each of
 * these stand together. */
enum place_in_ring { FIRST, ONLY, LAST, MIDDLE, BEFORE_TURN, AFTER_TURN, PLACES_IN_RING };
enum { ABOVES = LAST - ONLY + 1, FALLINGS = AFTER_TURN - LAST + 1 };

/* What a sound ring has. Of two equal times the one that is said first comes first. */
enum telling {
    FRESH,
    NO_POINTS, /* and a previous time */
    ONE_POINT,
    FULL,
    TURNED,
    EQUAL,
    MINUS_ZERO_AND_ZERO,
    ZERO_AND_MINUS_ZERO,
    LAST_EQUAL, /* to the previous time */
    LAST_MINUS_ZERO,
    LAST_ZERO,
    LAST_BELOW,
    TELLINGS
};

static uint64_t wrongs[FAULTS][PLACES_IN_RING], unset, tellings[TELLINGS], strays[FAULTS];

/* A ring: its region, and what this has of it. */
struct ring {
    struct words region;
    size_t slots, head, count;
    uint64_t previous;
};

static uint64_t time_of(const struct ring *r, size_t n) { return r->region.at[ring_place(r->region.at, r->region.len, n)]; }

/* What is wrong with a time behind this one. */
static enum fault fault_of(const struct ring *r, uint64_t time, double before) {
    if (!is_finite(time)) {
        return time << 12 != 0 ? NO_NUMBER : time >> 63 == 0 ? PLUS_INFINITY : MINUS_INFINITY;
    }
    return oven_real(time) < before ? FALLS : oven_real(time) > oven_real(r->previous) ? ABOVE : NO_FAULT;
}

/* How many times are wrong, and the last of them with what is wrong with it. A time that is not finite is passed over by those
 * behind it. */
static size_t faults_of(const struct ring *r, size_t *place, enum fault *fault) {
    double before = -1.7976931348623157e308;
    size_t faults = 0;
    for (size_t n = 0; n < r->count; n++) {
        const enum fault found = fault_of(r, time_of(r, n), before);
        if (found != NO_FAULT) {
            *place = n;
            *fault = found;
            faults++;
        }
        before = is_finite(time_of(r, n)) ? oven_real(time_of(r, n)) : before;
    }
    return faults;
}

static void count_wrong(const struct ring *r, size_t n, enum fault fault) {
    const size_t slot = (r->head + n) % r->slots;
    const bool is_first = n == 0, is_last = n + 1 == r->count;
    wrongs[fault][is_first && is_last ? ONLY : is_first ? FIRST : is_last ? LAST : MIDDLE]++;
    wrongs[fault][BEFORE_TURN] += slot + 1 == r->slots && !is_last;
    wrongs[fault][AFTER_TURN] += slot == 0 && !is_first;
}

/* Two times of which the second is not below the first: how they are equal, from this class on. */
static void count_equal(uint64_t first, uint64_t second, enum telling from) {
    if (oven_real(first) == oven_real(second)) {
        tellings[from + (first == second ? 0 : second == 0 ? 1 : 2)]++;
    }
}

static void count_sound(const struct ring *r) {
    const uint64_t last = r->count > 0 ? time_of(r, r->count - 1) : r->previous;
    tellings[NO_POINTS] += r->count == 0;
    tellings[ONE_POINT] += r->count == 1;
    tellings[FULL] += r->count == r->slots;
    tellings[TURNED] += r->head + r->count > r->slots;
    for (size_t n = 1; n < r->count; n++) {
        count_equal(time_of(r, n - 1), time_of(r, n), EQUAL);
    }
    if (r->count > 0) {
        count_equal(last, r->previous, LAST_EQUAL);
        tellings[LAST_BELOW] += oven_real(last) < oven_real(r->previous);
    }
    const enum fault stray = r->count < r->slots ? fault_of(r, time_of(r, r->count), oven_real(last)) : NO_FAULT;
    if (stray != NO_FAULT) {
        strays[stray]++;
    }
}

void count_ring(const struct call *c) {
    const uint64_t *w = c->region.at;
    const struct ring ring = {c->region, ring_slots(c->region.len), w[RING_HEAD], w[RING_COUNT], w[RING_PREVIOUS]};
    size_t place = 0;
    enum fault fault = NO_FAULT;
    const size_t faults = faults_of(&ring, &place, &fault);
    if (ring.previous == OVEN_UNSET) {
        tellings[FRESH] += ring.count == 0;
        unset += ring.count > 0 && faults == 0;
    } else if (faults == 1) {
        count_wrong(&ring, place, fault);
    } else if (faults == 0) {
        count_sound(&ring);
    }
}

void report_rings(int *met, int *missed) {
    static const char *const names[] = {"no number", "+infinity", "-infinity"};
    printf("rings with one wrong time, at the first position, the only, the last, in the middle, before the turn, after it\n");
    for (enum fault fault = NO_NUMBER; fault <= MINUS_INFINITY; fault++) {
        report_counts(names[fault], wrongs[fault], PLACES_IN_RING, met, missed);
    }
    report_counts("below the one before: last, in the middle, before the turn, after it", wrongs[FALLS] + LAST, FALLINGS, met,
                  missed);
    report_counts("above the previous time: only, last", wrongs[ABOVE] + ONLY, ABOVES, met, missed);
    report_counts("points before the first tick", &unset, 1, met, missed);
    report_counts(
        "sound rings: fresh, no points, one, full, turned, equal times, -0.0 and 0.0, 0.0 and -0.0, last and previous time equal, "
        "-0.0 and 0.0, 0.0 and -0.0, last below",
        tellings, TELLINGS, met, missed);
    report_counts("of which the first free slot has no number, +infinity, -infinity, a time below the last, above the previous",
                  strays, FAULTS, met, missed);
}
