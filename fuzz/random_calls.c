/*
 * Makes random calls of the boundary on guarded words and checks each.
 *
 * usage: random_calls CALLS SEED [INPUT]
 *
 * Inputs are made from the seed and their number, from INPUT on (from 0 else), until there were so many calls. The last lines
 * say what was compared, and 'N passed, M failed': a test for each call of the boundary, for each number and for each class of
 * fuzz/classes.h. A call that fails a check or faults is told, with the command that makes it again.
 */
#include "boundary.h"
#include "caught.h"
#include "checks.h"
#include "classes.h"
#include "leaves.h"

#include <inttypes.h>
#include <stdio.h>
#include <stdlib.h>

enum { INPUT_MOST = 1500 };

static uint64_t seed, input;

/* Another 64 bits of a sequence (splitmix64). */
static uint64_t another(uint64_t *state) {
    uint64_t bits = *state += 0x9E3779B97F4A7C15;
    bits = (bits ^ bits >> 30) * 0xBF58476D1CE4E5B9;
    bits = (bits ^ bits >> 27) * 0x94D049BB133111EB;
    return bits ^ bits >> 31;
}

/* Makes the calls of one input. */
static void one_input(void) {
    uint8_t data[INPUT_MOST];
    uint64_t state = seed + (input << 32);
    const size_t size = 50 + another(&state) % (INPUT_MOST - 50);
    for (size_t n = 0; n < size; n++) {
        data[n] = (uint8_t)another(&state);
    }
    LLVMFuzzerTestOneInput(data, size);
}

static void tell(void) { fprintf(stderr, "again: random_calls 1 %" PRIu64 " %" PRIu64 "\n", seed, input); }

static uint64_t calls_with(uint64_t number) {
    uint64_t sum = 0;
    for (enum kind kind = 0; kind < KINDS; kind++) {
        sum += counts[kind][number];
    }
    return sum;
}

/* Tells what came up. Each number must have, and each call must have been accepted; how many have not? */
static int report(uint64_t lists) {
    static const uint64_t numbers[] = {0, 1, 2, 3, 4, 5, 6, 7, 13, 14};
    int passed = 0, failed = 0;
    printf("compared: %" PRIu64 " calls in %" PRIu64 " lists, each on both sides of a guard; %" PRIu64 " ticks of runs, %" PRIu64
           " calls of leaves; by number",
           calls_made(), lists, run_ticks, leaf_calls);
    for (size_t n = 0; n < sizeof numbers / sizeof *numbers; n++) {
        printf("%s %" PRIu64 ": %" PRIu64, n > 0 ? "," : "", numbers[n], calls_with(numbers[n]));
        *(calls_with(numbers[n]) > 0 ? &passed : &failed) += 1;
    }
    printf("\n");
    for (enum kind kind = 0; kind < KINDS; kind++) {
        printf("%s: %" PRIu64 " calls, %" PRIu64 " accepted\n", kind_name(kind), calls_of(kind), counts[kind][OVEN_ACCEPTED]);
        *(counts[kind][OVEN_ACCEPTED] > 0 ? &passed : &failed) += 1;
    }
    report_classes(&passed, &failed);
    printf("%d passed, %d failed\n", passed, failed);
    return failed;
}

int main(int argc, char **argv) {
    if (argc < 3) {
        fprintf(stderr, "usage: random_calls CALLS SEED [INPUT]\n");
        return 2;
    }
    const uint64_t calls = strtoull(argv[1], NULL, 10), first = argc > 3 ? strtoull(argv[3], NULL, 10) : 0;
    seed = strtoull(argv[2], NULL, 10);
    catch_failures(tell);
    for (input = first; calls_made() < calls; input++) {
        one_input();
    }
    return report(input - first) > 0;
}
