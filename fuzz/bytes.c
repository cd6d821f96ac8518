/* Choices out of bytes. */
#include "bytes.h"
#include "oven.h"

static uint8_t next(struct bytes *b) {
    if (b->left == 0) {
        return 0;
    }
    b->left--;
    return *b->at++;
}

size_t choose(struct bytes *b, size_t below) {
    const size_t low = next(b);
    return (below <= 256 ? low : low | (size_t)next(b) << 8) % below;
}

static uint64_t raw_word(struct bytes *b) {
    uint64_t word = 0;
    for (int n = 0; n < 8; n++) {
        word = word << 8 | next(b);
    }
    return word;
}

static uint64_t corner(struct bytes *b) {
    static const uint64_t corners[] = {
        0,
        1,
        UINT64_MAX,         /* the unset time, and a NaN */
        UINT64_MAX - 1,     /* another NaN */
        0x8000000000000000, /* -0.0 */
        0x8000000000000001, /* the least subnormal below zero */
        0x000FFFFFFFFFFFFF, /* the greatest subnormal */
        0x0010000000000000, /* the least normal */
        0x7FEFFFFFFFFFFFFF, /* the greatest finite */
        0xFFEFFFFFFFFFFFFF, /* its negative */
        0x7FF0000000000000, /* infinity */
        0xFFF0000000000000, /* -infinity */
        0x7FF0000000000001, /* a signalling NaN */
        0x7FF8000000000000, /* the canonical NaN */
        0x7FF8000000000001, /* a NaN with a payload */
        0xFFF8000000000000, /* a negative NaN */
        0x4330000000000000, /* 2^52 */
        0x3EE4F8B588E368F1, /* 1e-5, the least delta */
        0x4090000000000000, /* 1024 */
        0x4090000000000001, /* the next after it */
    };
    return corners[choose(b, sizeof corners / sizeof *corners)];
}

/* A small number of eighths, or one that lies close to it. */
static uint64_t small_word(struct bytes *b) {
    const double eighths = ((double)choose(b, 256) - 64.0) / 8.0;
    const size_t near = choose(b, 16);
    return oven_word(eighths) + (near < 2 ? near : near == 2 ? UINT64_MAX : 0);
}

uint64_t any_word(struct bytes *b) {
    switch (choose(b, 8)) {
    case 0:
    case 1:
    case 2:
        return corner(b);
    case 3:
    case 4:
    case 5:
        return small_word(b);
    case 6:
        return choose(b, 256);
    default:
        return raw_word(b);
    }
}

uint64_t finite_word(struct bytes *b) {
    const uint64_t word = choose(b, 8) == 0 ? any_word(b) : small_word(b);
    return (word >> 52 & 0x7FF) == 0x7FF ? word & ~(1ULL << 62) : word; /* a smaller exponent */
}

uint64_t any_time(struct bytes *b, double now) {
    static const double steps[] = {1.0, 0.125, 1e-3, 1e-9, 60.0, 3600.0, 1e6, 0.1};
    const size_t choice = choose(b, 32);
    const double step = steps[choice % 8];
    if (oven_word(now) == 0 && choice % 2 == 0) {
        return 1ULL << 63;
    }
    if (choice < 22) {
        return oven_word(now + step);
    }
    if (choice < 26) {
        return oven_word(now);
    }
    return choice < 29 ? oven_word(now - step) : any_word(b);
}
