/* The fuzzer's bytes, read as choices: numbers, words, times. Where they end, all choices are 0. */
#ifndef BYTES_H
#define BYTES_H

#include <stddef.h>
#include <stdint.h>

struct bytes {
    const uint8_t *at;
    size_t left;
};

/* A number below this one, which is at most 65536. */
size_t choose(struct bytes *bytes, size_t below);

/* A word of any kind, mostly one at a corner: zeros, ones, NaNs, infinities, subnormals, close and small numbers. */
uint64_t any_word(struct bytes *bytes);

/* The word of a finite real, mostly a small one. */
uint64_t finite_word(struct bytes *bytes);

/* The word of a time: after this one, equal to it (half of those to 0.0 are -0.0), before it, or any word. */
uint64_t any_time(struct bytes *bytes, double now);

#endif
