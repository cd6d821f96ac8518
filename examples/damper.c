/*
 * A damper lets fresh air into an oven. It is open or shut, so a variable pulse opens it for a share of each ten
 * seconds: at first for 30 %, and from the 14th second on for 60 %. Then the sensor behind that share fails, and the
 * damper is shut. Prints examples/damper.expected: a sign for each second, # while the damper is open.
 */
#include "oven.h"

#include <math.h>
#include <stdio.h>
#include <stdlib.h>

enum {
    BLOCK = OVEN_LOGICAL_VARIABLE_PULSE,
    SETTINGS = OVEN_LOGICAL_VARIABLE_PULSE_SETTINGS,
    LENGTH = OVEN_LOGICAL_VARIABLE_PULSE_LENGTH
};

static void refuse(uint64_t refusal) {
    if (refusal != OVEN_ACCEPTED) {
        printf("refused %d\n", (int)refusal);
        exit(1);
    }
}

/* Ticks from this second to the one before that, a second apart. */
static void run(const uint64_t *settings, uint64_t *region, int from, int to, double share) {
    printf("%2d s to %2d s, u = %3.1f  ", from, to, share);
    for (int second = from; second < to; second++) {
        const uint64_t time = oven_word(second);
        const struct oven_answer answer =
            oven_tick(BLOCK, settings, SETTINGS, time, oven_word(share), 0, 0, region, LENGTH);
        refuse(answer.refusal);
        putchar(answer.boolean ? '#' : '.');
    }
    putchar('\n');
}

int main(void) {
    uint64_t settings[SETTINGS] = {
        [OVEN_LOGICAL_VARIABLE_PULSE_PERIOD] = oven_word(10.0),
        [OVEN_LOGICAL_VARIABLE_PULSE_DELTA_U] = oven_word(0.05),
        [OVEN_LOGICAL_VARIABLE_PULSE_MIN_TRUE_FALSE_HOLD] = oven_word(1.0),
    };
    uint64_t region[LENGTH];

    refuse(oven_start(BLOCK, settings, SETTINGS, region, LENGTH));
    run(settings, region, 0, 14, 0.3);
    run(settings, region, 14, 38, 0.6);
    run(settings, region, 38, 44, (double)NAN);

    /* A least change of 0.6 lies outside of 0.01 to 0.5, and so does a minimum hold below a second. */
    settings[OVEN_LOGICAL_VARIABLE_PULSE_DELTA_U] = oven_word(0.6);
    printf("delta_u = 0.6: refused %d\n", (int)oven_start(BLOCK, settings, SETTINGS, region, LENGTH));
    return 0;
}
