/* The classes that calls must meet, and how often they did. */
#include "classes.h"
#include "due.h"
#include "leaves.h"
#include "pulse_classes.h"
#include "sound_classes.h"

#include <inttypes.h>
#include <stdio.h>

/* What has a length of its own. */
enum lent_length { BLOCK_REGION, SHEET_REGION, SHEET_ANSWERS, LENGTHS };

/* Where a boolean setting stands. */
enum owner { IN_SETTINGS, IN_ROWS, OWNERS };

/* The blocks that keep a sum of gaps are those from this one on: the timers and the pulse. */
enum { TIMERS = OVEN_LOGICAL_VARIABLE_PULSE - OVEN_TIMER_ACCUMULATING + 1 };

/* A word that a row hands on, and how it is read: its output, or its second one. */
enum fed {
    REAL_AS_REAL,
    NAN_AS_REAL,
    TRUE_AS_REAL,
    REAL_AS_BOOLEAN,
    MINUS_ZERO_AS_BOOLEAN,
    TRUE_AS_BOOLEAN,
    FED_FALSE,
    SECOND_TRUE,
    NO_SECOND, /* the 0 of a block that has none */
    NOT_READ,
    FEDS
};

/* What a refused column names: the row's own two words, a later row's, the first behind all rows', or nothing at all. */
enum column { OWN_FIRST, OWN_SECOND, LATER, BEHIND, NOTHING, COLUMNS };

/* Chains of rows that read each other, by their links, from none; the last counts all that are longer too. */
enum { CHAINS = 9 };

static const uint64_t minus_zero = 1ULL << 63;

static uint64_t lengths[LENGTHS][OFFS], booleans[OWNERS], zero_sums[TIMERS], feds[FEDS], chains[CHAINS];
static uint64_t columns[2][COLUMNS]; /* of starts, and of ticks */

size_t off_length(enum off off, size_t len) {
    switch (off) {
    case ONE_MORE:
        return len + 1;
    case ONE_LESS:
        return len > 0 ? len - 1 : 0;
    case TWO_MORE:
        return len + 2;
    case TWO_LESS:
        return len > 1 ? len - 2 : 0;
    case HALF:
        return len / 2;
    case DOUBLE:
        return 2 * len;
    case FAR:
        return len + 256;
    default:
        return 0;
    }
}

static void count_length(enum lent_length which, size_t len, size_t due) {
    for (enum off off = 0; off < OFFS; off++) {
        lengths[which][off] += off_length(off, due) == len;
    }
}

/* A boolean setting that is neither 0 nor 1. */
static void count_boolean(enum owner owner, uint64_t block, const uint64_t *settings) {
    const size_t place = due_boolean_setting(block);
    booleans[owner] += place < due_settings(block) && settings[place] > 1;
}

/* A timer that has added a gap of -0.0, from 0.0 to -0.0, to a sum of -0.0. */
static void count_zero_sum(const struct call *c, const uint64_t *after) {
    const size_t time = (size_t)(strchr(due_layout(c->block, c->settings.at), 't') - due_layout(c->block, c->settings.at));
    const size_t sum = due_sum_place(c->block);
    const bool is_gap = c->region.at[time] == 0 && c->time == minus_zero;
    zero_sums[c->block - OVEN_TIMER_ACCUMULATING] += is_gap && c->region.at[sum] == minus_zero && after[sum] == minus_zero;
}

/* ---- Rows that feed rows. */

/* As what an answer word counts that a block reads as this letter says, r real or b boolean. */
static enum fed fed_as(const struct call *c, size_t place, uint64_t word, char read) {
    const uint64_t block = c->rows.at[place / 2 * OVEN_ROW_WORDS + OVEN_ROW_BLOCK];
    const bool is_second = place % 2 == 1;
    if (is_second && block != OVEN_TIMER_ACCUMULATING) {
        return NO_SECOND;
    }
    if (is_second || !has_real(block)) {
        return word == 0 ? FED_FALSE : is_second ? SECOND_TRUE : read == 'r' ? TRUE_AS_REAL : TRUE_AS_BOOLEAN;
    }
    if (read == 'r') {
        return word == due_canonical(UINT64_MAX) ? NAN_AS_REAL : REAL_AS_REAL;
    }
    return word == minus_zero ? MINUS_ZERO_AS_BOOLEAN : REAL_AS_BOOLEAN;
}

/* Counts the words that rows hand on in a tick that answers these, and the links of its longest chain. */
static void count_feds(const struct call *c, const uint64_t *answers) {
    size_t links[16] = {0}, longest = 0;
    for (size_t n = 0; n < c->rows.len / OVEN_ROW_WORDS * 3; n++) {
        const uint64_t *row = c->rows.at + n / 3 * OVEN_ROW_WORDS, column = row[OVEN_ROW_FIRST + n % 3];
        const char *inputs = due_inputs(row[OVEN_ROW_BLOCK]);
        if (column >= 8 && n % 3 >= strlen(inputs)) {
            feds[NOT_READ]++;
        } else if (column >= 8) {
            const size_t above = links[(column - 8) / 2];
            feds[fed_as(c, column - 8, answers[column - 8], inputs[n % 3])]++;
            links[n / 3] = links[n / 3] > above ? links[n / 3] : above + 1;
            longest = longest > links[n / 3] ? longest : links[n / 3];
        }
    }
    chains[longest < CHAINS ? longest : CHAINS - 1]++;
}

/* The columns that name nothing, in rows that are not too many. */
static void count_columns(const struct call *c) {
    const size_t rows = c->rows.len / OVEN_ROW_WORDS;
    for (size_t n = 0; n < 3 * rows && rows <= 16; n++) {
        const uint64_t column = c->rows.at[n / 3 * OVEN_ROW_WORDS + OVEN_ROW_FIRST + n % 3], own = due_columns(n / 3);
        if (column >= own) {
            const enum column behind = column == due_columns(rows) ? BEHIND : NOTHING;
            const enum column which = column < own + 2 ? (enum column)(column - own) : column < due_columns(rows) ? LATER : behind;
            columns[c->kind == SHEET_TICK][which]++;
        }
    }
}

void count_classes(const struct call *c, const struct outcome *o, uint64_t number) {
    const bool stores = c->kind == UPDATE || c->kind == TICK;
    if (number == OVEN_ACCEPTED && c->kind == SHEET_TICK) {
        count_feds(c, o->answers);
    }
    if (number == OVEN_ACCEPTED && c->kind == SOUND && c->block == OVEN_MOVING_AVERAGE) {
        count_ring(c);
    }
    if (number == OVEN_ACCEPTED && stores && c->block >= OVEN_TIMER_ACCUMULATING) {
        count_zero_sum(c, o->region);
    }
    if (number == OVEN_ACCEPTED && stores && c->block == OVEN_LOGICAL_VARIABLE_PULSE) {
        count_pulse(c, o->region);
    }
    if (number == OVEN_BAD_SETTING && c->block == OVEN_LOGICAL_VARIABLE_PULSE && !is_sheet(c->kind)) {
        count_limits(c->settings.at);
    }
    if (number == OVEN_BAD_LENGTH && is_sheet(c->kind)) {
        count_length(SHEET_REGION, c->region.len, due_sheet_length(c));
    } else if (number == OVEN_BAD_LENGTH) {
        count_length(BLOCK_REGION, c->region.len, due_length(c->block, c->settings.at));
    } else if (number == OVEN_BAD_SPACE) {
        count_length(SHEET_ANSWERS, c->answers.len, 2 * c->rows.len / OVEN_ROW_WORDS);
    } else if (number == OVEN_BAD_SHEET) {
        count_columns(c);
    } else if (number == OVEN_ACCEPTED && !is_sheet(c->kind)) {
        count_boolean(IN_SETTINGS, c->block, c->settings.at);
    } else if (number == OVEN_ACCEPTED) {
        for (const uint64_t *row = c->rows.at; row < c->rows.at + c->rows.len; row += OVEN_ROW_WORDS) {
            count_boolean(IN_ROWS, row[OVEN_ROW_BLOCK], row + OVEN_ROW_SETTINGS);
        }
    }
}

void report_counts(const char *what, const uint64_t *counts, size_t len, int *met, int *missed) {
    printf("%s:", what);
    for (size_t n = 0; n < len; n++) {
        printf(" %" PRIu64, counts[n]);
        *(counts[n] > 0 ? met : missed) += 1;
    }
    printf("\n");
}

void report_classes(int *met, int *missed) {
    static const char *const names[LENGTHS] = {"of a region", "of a sheet's region", "of a sheet's answers"};
    printf("refused lengths, one and two more and less, none, half, double, 256 more\n");
    for (enum lent_length which = 0; which < LENGTHS; which++) {
        report_counts(names[which], lengths[which], OFFS, met, missed);
    }
    report_counts("sums of a -0.0 and a gap of -0.0, by timer", zero_sums, TIMERS, met, missed);
    report_counts("boolean settings neither 0 nor 1, of a block and in rows", booleans, OWNERS, met, missed);
    report_rings(met, missed);
    report_pulses(met, missed);
    report_rounding(met, missed);
    report_counts(
        "fed words, a real, NaN and true as reals, a real, -0.0 and true as booleans, false, second true, no second, not read",
        feds, FEDS, met, missed);
    report_counts("chains of rows that read each other, by their links from none to 8 or more", chains, CHAINS, met, missed);
    report_counts("refused columns of starts: own, own second, later, first behind, nothing", columns[0], COLUMNS, met, missed);
    report_counts("refused columns of ticks", columns[1], COLUMNS, met, missed);
}
