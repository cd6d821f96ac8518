/* A place is one file in memory that is mapped twice, once to be written and once to be read, each time between guard pages. */
#define _GNU_SOURCE /* memfd_create */
#include "lent.h"

#include <stdio.h>
#include <stdlib.h>
#include <string.h>
#include <sys/mman.h>
#include <unistd.h>

/* Bytes of a guard, and what a place's bytes are a multiple of: no smaller than a page of any machine. */
enum { GUARD = 65536 };

static struct {
    uint64_t *written;
    const uint64_t *read;
} views[PLACES];

/* How many words a place has. */
static size_t room(enum place place) { return place == REGION ? REGION_MOST : GUARD / sizeof(uint64_t); }

static void *mapped(void *map) {
    if (map == MAP_FAILED) {
        perror("cannot map the lent words");
        exit(2);
    }
    return map;
}

/* The file between two guards. */
static void *view(int file, size_t size, int access) {
    char *all = mapped(mmap(NULL, size + 2 * GUARD, PROT_NONE, MAP_PRIVATE | MAP_ANONYMOUS, -1, 0));
    return mapped(mmap(all + GUARD, size, access, MAP_SHARED | MAP_FIXED, file, 0));
}

void lent_open(void) {
    if (views[0].written != NULL) {
        return;
    }
    for (enum place place = 0; place < PLACES; place++) {
        const size_t size = room(place) * sizeof(uint64_t);
        const int file = memfd_create("lent", 0);
        if (file < 0 || ftruncate(file, (off_t)size) != 0) {
            perror("cannot make the lent words");
            exit(2);
        }
        views[place].written = view(file, size, PROT_READ | PROT_WRITE);
        views[place].read = view(file, size, PROT_READ);
        close(file);
    }
}

/* A pointer for no words: to the guard itself, or to an odd place in nobody's memory. */
static uint64_t *nothing(enum place place, enum side side) {
    return side == GUARD_BEHIND ? views[place].written + room(place) : (uint64_t *)(uintptr_t)1;
}

static size_t first(enum place place, enum side side, size_t len) { return side == GUARD_BEHIND ? room(place) - len : 0; }

uint64_t *lend(enum place place, enum side side, struct words words) {
    if (words.len == 0) {
        return nothing(place, side);
    }
    uint64_t *copy = views[place].written + first(place, side, words.len);
    memcpy(copy, words.at, words.len * sizeof(uint64_t));
    return copy;
}

const uint64_t *lend_to_read(enum place place, enum side side, struct words words) {
    const uint64_t *copy = lend(place, side, words);
    return words.len == 0 ? copy : views[place].read + first(place, side, words.len);
}
