/*
 * One step of an oven program: heat the trays, wait until they are warm, add up the soak time.
 *
 * A PI controller heats a small simulated oven. A delay says that the trays are warm once the oven has been at 80 or
 * above for two minutes. The soak clock runs while they are warm, and stands still after the door was opened, until they
 * are warm again. examples/oven_step.rs is the same program in Rust, and both print examples/oven_step.expected.
 */
#include "oven.h"

#include <stdio.h>
#include <stdlib.h>

/* A block with its settings and its region. No call keeps a pointer to either. */
struct block {
    uint64_t number;
    const uint64_t *settings;
    size_t settings_len;
    uint64_t *region;
    size_t region_len;
};

static void refuse(uint64_t refusal) {
    if (refusal != OVEN_ACCEPTED) {
        printf("refused %d\n", (int)refusal);
        exit(1);
    }
}

static void start(struct block b) {
    refuse(oven_start(b.number, b.settings, b.settings_len, b.region, b.region_len));
}

static struct oven_answer tick(struct block b, double time, uint64_t first, uint64_t second, uint64_t third) {
    struct oven_answer answer = oven_tick(b.number, b.settings, b.settings_len, oven_word(time), first, second,
                                          third, b.region, b.region_len);
    refuse(answer.refusal);
    return answer;
}

#define COUNT(words) (sizeof(words) / sizeof((words)[0]))

int main(void) {
    const uint64_t pi[OVEN_PID_SETTINGS] = {
        [OVEN_PID_TYPE] = OVEN_TYPE_PI,
        [OVEN_PID_K] = oven_word(1.0),
        [OVEN_PID_TI] = oven_word(240.0),
        [OVEN_PID_TD] = oven_word(0.1),
        [OVEN_PID_R] = oven_word(20.0),
        [OVEN_PID_Y_MAX] = oven_word(1.0),
        [OVEN_PID_Y_MIN] = oven_word(0.0),
        [OVEN_PID_NI] = oven_word(0.9),
        [OVEN_PID_ND] = oven_word(10.0),
        [OVEN_PID_XI_START] = oven_word(0.0),
        [OVEN_PID_YD_START] = oven_word(0.0),
        [OVEN_PID_Y_RESET] = oven_word(0.6),
        [OVEN_PID_REVERSE_ACTING] = 1,
    };
    const uint64_t two_minutes[OVEN_TRUE_DELAY_SETTINGS] = {oven_word(120.0), 1};
    const uint64_t a_quarter[OVEN_TIMER_ACCUMULATING_SETTINGS] = {oven_word(900.0)};
    uint64_t pi_region[OVEN_PID_WITH_RESET_PI_LENGTH];
    uint64_t delay_region[OVEN_TRUE_DELAY_LENGTH];
    uint64_t clock_region[OVEN_TIMER_ACCUMULATING_LENGTH];
    struct block heater = {OVEN_PID_WITH_RESET, pi, COUNT(pi), pi_region, COUNT(pi_region)};
    struct block trays = {OVEN_TRUE_DELAY, two_minutes, COUNT(two_minutes), delay_region, COUNT(delay_region)};
    struct block soak = {OVEN_TIMER_ACCUMULATING, a_quarter, COUNT(a_quarter), clock_region, COUNT(clock_region)};
    double oven = 25.0;

    start(heater);
    start(trays);
    start(soak);
    printf("  time   oven   heat  door  warm  soak  done\n");
    for (double time = 0.0; time <= 1650.0; time += 10.0) {
        uint64_t door = time >= 900.0 && time < 960.0;
        double heat = oven_real(tick(heater, time, oven_word(85.0), oven_word(oven), door).real);
        uint64_t warm = tick(trays, time, !door && oven >= 80.0, 0, 0).boolean;
        struct oven_answer clock = tick(soak, time, warm, 0, 0);
        if ((int)time % 150 == 0) {
            printf("%6.0f %6.2f %6.3f  %-4s  %-4s  %4.0f  %s\n", time, oven, heat, door ? "open" : "shut",
                   warm ? "yes" : "no", oven_real(clock.real), clock.boolean ? "yes" : "no");
        }
        /* the heater lifts the oven by up to 100 above the room; an open door lets the heat out */
        double lifted = door ? 25.0 : 25.0 + 100.0 * heat;
        oven += (10.0 / (door ? 120.0 : 240.0)) * (lifted - oven);
    }
    return 0;
}
