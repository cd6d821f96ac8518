/* The leaves, checked against document 01's rules in C, and the classes of words that rounding must be given. */
#include "leaves.h"
#include "checks.h"
#include "classes.h"
#include "due.h"

#include <float.h>
#include <inttypes.h>
#include <stdio.h>

/* What rounding is given, without its sign. */
enum size {
    ZERO,
    SUBNORMAL,
    BELOW_HALF,
    AT_HALF,
    BELOW_ONE,
    WHOLE,               /* from 1 on and below 2^52, as those up to ABOVE_WHOLE */
    EVEN_AND_HALF,       /* an even number and a half: with 2^52 added the middle of two floats */
    ODD_AND_HALF,        /* an odd one */
    LARGE_EVEN_AND_HALF, /* the same from 2^51 on */
    LARGE_ODD_AND_HALF,
    BELOW_WHOLE, /* the float next below a whole number, or next above it, and below 2^51 */
    ABOVE_WHOLE,
    BELOW_2_52, /* the float next below it */
    AT_2_52,
    ODD_BEYOND, /* below 2^53 */
    FROM_2_53,
    INFINITE,
    NO_NUMBER,
    SIZES
};

static const uint64_t sign = 1ULL << 63;
static const double two_52 = 4503599627370496.0; /* from there on all are whole */

static uint64_t sizes[2][SIZES]; /* of positive words, and of negative ones */

uint64_t leaf_calls;

/* x rounded to a whole number: up, or else down. A zero has the sign of x. */
static double rounded(double x, bool up) {
    if (!(x > -two_52 && x < two_52)) {
        return x;
    }
    double whole = (double)(int64_t)x;
    whole += up && whole < x ? 1.0 : !up && whole > x ? -1.0 : 0.0;
    return whole == 0.0 ? oven_real(oven_word(x) & sign) : whole;
}

static double filtered(double x, double input, double constant, double gap) {
    const double a = gap / constant;
    return (x + a * input) / (1.0 + a);
}

/* ---- What rounding is given. */

/* Whether this is a whole number from 1 on and below 2^52. */
static bool is_whole(uint64_t word) {
    const double x = oven_real(word);
    return x >= 1.0 && x < two_52 && x == (double)(int64_t)x;
}

static void count_size(uint64_t word) {
    const uint64_t size = word & ~sign;
    const double x = oven_real(size);
    const int64_t cut = x < two_52 ? (int64_t)x : 0;
    const bool is_large = x >= two_52 / 2.0, is_between = !is_large && !is_whole(size);
    uint64_t *met = sizes[word >> 63];
    met[ZERO] += x == 0.0;
    met[SUBNORMAL] += x > 0.0 && x < DBL_MIN;
    met[BELOW_HALF] += x >= DBL_MIN && x < 0.5;
    met[AT_HALF] += x == 0.5;
    met[BELOW_ONE] += x > 0.5 && x < 1.0;
    met[WHOLE] += is_whole(size);
    met[(is_large ? LARGE_EVEN_AND_HALF : EVEN_AND_HALF) + cut % 2] += cut > 0 && x - (double)cut == 0.5;
    met[BELOW_WHOLE] += is_between && is_whole(size + 1);
    met[ABOVE_WHOLE] += is_between && is_whole(size - 1);
    met[BELOW_2_52] += size == oven_word(two_52) - 1;
    met[AT_2_52] += x == two_52;
    met[ODD_BEYOND] += x > two_52 && x < 2.0 * two_52 && size % 2 == 1;
    met[FROM_2_53] += x >= 2.0 * two_52 && is_finite(size);
    met[INFINITE] += !is_finite(size) && x == x;
    met[NO_NUMBER] += x != x;
}

/* Other bits, each of which depends on most of these. */
static uint64_t mixed(uint64_t bits) {
    bits = (bits ^ bits >> 32) * 0x9E3779B97F4A7C15;
    return bits ^ bits >> 32;
}

/* A word at which rounding turns, out of these words: a number of halves of any length or a power of two around 2^52, or a float
 * beside it, with either sign. */
static uint64_t turning_word(const uint64_t *w) {
    const uint64_t bits = mixed(w[0] + mixed(w[1] + mixed(w[2]))), length = bits % 64, near = bits >> 6 & 3;
    const uint64_t halves = bits >> 8 & 1 ? 1ULL << (51 + length % 4) : mixed(bits) >> length;
    return (oven_word((double)halves / 2.0) + (near == 0) - (near == 1)) ^ (bits & sign);
}

void report_rounding(int *met, int *missed) {
    report_counts(
        "rounded words: 0, subnormal, below a half, half, below 1, whole, even and a half, odd and a half, both from 2^51 on, "
        "next below a whole number, next above, next below 2^52, 2^52, odd beyond, from 2^53 on, infinite, no number",
        sizes[0], SIZES, met, missed);
    report_counts("with a minus sign", sizes[1], SIZES, met, missed);
}

/* ---- Calls. */

/* What a leaf gave, and what is due before it is made canonical. */
struct leaf {
    const char *name;
    uint64_t got;
    double due;
};

static void check_leaf(const struct leaf *leaf, const uint64_t *w) {
    leaf_calls++;
    if (leaf->got != due_canonical(oven_word(leaf->due))) {
        fprintf(stderr, "%s of %016" PRIX64 " %016" PRIX64 " %016" PRIX64 " %016" PRIX64 " gives %016" PRIX64 "\n", leaf->name,
                w[0], w[1], w[2], w[3], leaf->got);
        fail("a leaf; the call below is the one before it");
    }
}

/* Rounds the first of these four words. */
static void check_rounding(const uint64_t *w) {
    const double x = oven_real(w[0]);
    count_size(w[0]);
    check_leaf(&(struct leaf){"oven_ceil", oven_ceil(w[0]), rounded(x, true)}, w);
    check_leaf(&(struct leaf){"oven_floor", oven_floor(w[0]), rounded(x, false)}, w);
}

void check_leaves(const uint64_t *w) {
    const double x = oven_real(w[0]), y = oven_real(w[1]), z = oven_real(w[2]);
    const double size = oven_real(w[0] & ~sign), gap = w[1] == OVEN_UNSET ? 0.0 : x - y;
    const uint64_t turning[4] = {turning_word(w), w[1], w[2], w[3]};
    const struct leaf leaves[] = {
        {"oven_canonical", oven_canonical(w[0]), x},
        {"oven_tick_dt", oven_tick_dt(w[0], w[1]), gap},
        {"oven_accumulate", oven_accumulate(w[0], w[1], w[2]), x + y * z},
        {"oven_filter", oven_filter(w[0], w[1], w[2], w[3]), filtered(x, y, z, oven_real(w[3]))},
        {"oven_positive_duration", oven_positive_duration(w[0]), x > 0.0 ? x : 0.0},
        {"oven_absolute", oven_absolute(w[0]), size},
    };
    for (size_t n = 0; n < sizeof leaves / sizeof *leaves; n++) {
        check_leaf(&leaves[n], w);
    }
    check_rounding(w);
    check_rounding(turning);
}
