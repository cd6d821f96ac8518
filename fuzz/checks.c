/* The checks of a call: its number, what it leaves as it was, what it gives, and that other calls give the same. */
#include "checks.h"
#include "classes.h"
#include "due.h"

#include <inttypes.h>
#include <stdio.h>
#include <stdlib.h>

uint64_t counts[KINDS][NUMBERS], run_ticks;

/* What the library did, as far as it shows: libFuzzer takes these bytes for its own counters. */
__attribute__((section("__libfuzzer_extra_counters"))) static uint8_t shown[KINDS][NUMBERS][64];

/* What other calls gave, to be compared. */
static struct outcome again, other;

uint64_t calls_of(enum kind kind) {
    uint64_t sum = 0;
    for (size_t n = 0; n < NUMBERS; n++) {
        sum += counts[kind][n];
    }
    return sum;
}

uint64_t calls_made(void) {
    uint64_t sum = 0;
    for (enum kind kind = 0; kind < KINDS; kind++) {
        sum += calls_of(kind);
    }
    return sum;
}

/* The call that is checked; others are made to check it. */
static const struct call *checked;

void fail(const char *why) {
    fprintf(stderr, "failed: %s\n", why);
    show_call(checked);
    if (last_call.kind != checked->kind) {
        fprintf(stderr, "last made: ");
        show_call(&last_call);
    }
    abort();
}

static void require(bool holds, const char *why) {
    if (!holds) {
        fail(why);
    }
}

static void require_zeros(const uint64_t *words, size_t len, const char *why) {
    for (size_t n = 0; n < len; n++) {
        require(words[n] == 0, why);
    }
}

/* ---- What is true of one call. */

/* The three words behind the refusal: what the block lacks is 0, and so is what this kind of call does not give. */
static void check_answer(const struct call *c, const uint64_t *said) {
    const bool gives_outputs = c->kind != UPDATE, can_warn = c->kind != EMIT && c->block == OVEN_MOVING_AVERAGE;
    require(gives_outputs && has_real(c->block) ? due_canonical(said[1]) == said[1] : said[1] == 0, "the real output");
    require(said[2] <= (gives_outputs && has_boolean(c->block)), "the boolean output");
    if (gives_outputs && c->block == OVEN_LOGICAL_VARIABLE_PULSE) {
        uint64_t due[OVEN_LOGICAL_VARIABLE_PULSE_LENGTH];
        due_pulse(c, due);
        require(said[2] == due[OVEN_LOGICAL_VARIABLE_PULSE_STATE_HELD], "the output of a pulse");
    }
    require(said[3] <= can_warn, "the warning");
}

/* The words that a stored tick leaves: its time, a timer's sum, reals canonical, booleans 0 or 1, and at most one point of a ring
 * written. The start time is written on a first tick alone, and the coalesced word with the warning. */
static void check_stored(const struct call *c, const uint64_t *region, uint64_t warning) {
    const char *layout = due_layout(c->block, c->settings.at);
    const uint64_t *before = c->region.at;
    size_t n = 0, points = 0;
    for (; layout[n] != 0; n++) {
        require(n != due_sum_place(c->block) || region[n] == due_sum(c, region), "the stored sum");
        require(layout[n] != 't' || region[n] == c->time, "the stored time");
        require(strchr("irf", layout[n]) == NULL || region[n] == due_canonical(region[n]), "a stored real");
        require(strchr("gb", layout[n]) == NULL || region[n] <= 1, "a stored boolean");
        require(layout[n] != 's' || region[n] == (before[n + 1] == OVEN_UNSET ? c->time : before[n]), "the start time");
        require(layout[n] != 'c' || region[n] == (warning ? 1 : before[n]), "the coalesced word");
    }
    for (; n < c->region.len; n++) {
        points += region[n] != before[n];
    }
    require(points <= 2, "more than a time and an integral changed in the ring");
    if (c->block == OVEN_LOGICAL_VARIABLE_PULSE) {
        uint64_t due[OVEN_LOGICAL_VARIABLE_PULSE_LENGTH];
        due_pulse(c, due);
        require(same_words(region, due, c->region.len), "the words of a pulse");
    }
    const struct call decode = {.kind = DECODE, .block = c->block, .settings = c->settings, .region = {region, c->region.len}};
    require(due_of(&decode).number == OVEN_ACCEPTED, "the state left is damaged");
    require(due_sound(&decode) || !due_sound(c), "a tick leaves a sound region that is not sound");
}

/* A refusal gives zeros beside its number, and the row of a sheet. */
static void check_refused(const struct call *c, const struct outcome *o, struct due due) {
    if (is_sheet(c->kind)) {
        require(o->said[1] == due.row, "the row");
        require(o->said[2] == 0, "a refusal with a warning");
    } else {
        require_zeros(o->said + 1, 6, "a refusal with other words than zeros");
    }
}

/* ---- What other calls must say too. */

/* What a call of another kind gives with the same block, settings and tick. */
static const struct outcome *made(const struct call *c, enum kind kind, struct words region) {
    struct call part = *c;
    part.kind = kind;
    part.region = region;
    part.time = is_finite(c->time) ? c->time : 0; /* a start takes no time, so it may be any word */
    make(&part, GUARD_BEHIND, false, &other);
    return &other;
}

/* Whether two calls of this kind gave and left the same. */
static bool is_same(const struct call *c, const struct outcome *one, const struct outcome *two) {
    return same_words(one->said, two->said, 7) &&
           (!writes_region(c->kind) || same_words(one->region, two->region, c->region.len)) &&
           (!writes_answers(c->kind) || same_words(one->answers, two->answers, c->answers.len));
}

/* Makes a boolean setting that is true 1; whether it was another word. */
static bool make_one(uint64_t block, uint64_t *settings) {
    const size_t place = due_boolean_setting(block);
    if (place >= due_settings(block) || settings[place] <= 1) {
        return false;
    }
    settings[place] = 1;
    return true;
}

/* As a boolean setting every word but 0 is true: an accepted call with 1 in its place gives and leaves the same. */
static void check_true_settings(const struct call *c, const struct outcome *o) {
    static uint64_t words[MOST];
    struct call plain = *c;
    bool changed = false;
    if (is_sheet(c->kind)) {
        memcpy(words, c->rows.at, c->rows.len * sizeof *words);
        plain.rows.at = words;
        for (uint64_t *row = words; row < words + c->rows.len; row += OVEN_ROW_WORDS) {
            changed |= make_one(row[OVEN_ROW_BLOCK], row + OVEN_ROW_SETTINGS);
        }
    } else {
        memcpy(words, c->settings.at, c->settings.len * sizeof *words);
        plain.settings.at = words;
        changed = make_one(c->block, words);
    }
    if (changed) {
        make(&plain, GUARD_BEHIND, false, &other);
        require(is_same(c, o, &other), "another true word in the place of a boolean setting makes a difference");
    }
}

static void accepted_length(const struct call *c, const struct outcome *o) {
    require(o->said[1] == due_length(c->block, c->settings.at), "the length");
}

/* A started region is the one of document 01; it is sound, and an emit at any finite time is accepted. */
static void accepted_start(const struct call *c, const struct outcome *o) {
    static uint64_t fresh[REGION_MOST];
    const struct words region = {o->region, c->region.len};
    due_start(c->block, c->settings.at, fresh);
    require(same_words(region.at, fresh, region.len), "the words of a fresh start");
    require(made(c, SOUND, region)->said[0] == 1, "a started region is not sound");
    require(made(c, EMIT, region)->said[0] == OVEN_ACCEPTED, "an emit of a started region is refused");
}

static void accepted_emit(const struct call *c, const struct outcome *o) { check_answer(c, o->said); }

static void accepted_update(const struct call *c, const struct outcome *o) {
    check_answer(c, o->said);
    check_stored(c, o->region, o->said[3]);
}

/* A tick is an emit and an update. */
static void accepted_tick(const struct call *c, const struct outcome *o) {
    check_answer(c, o->said);
    check_stored(c, o->region, o->said[3]);
    require(same_words(made(c, EMIT, c->region)->said, o->said, 3), "a tick answers otherwise than its emit");
    const struct outcome *update = made(c, UPDATE, c->region);
    require(update->said[0] == o->said[0] && update->said[3] == o->said[3], "a tick warns otherwise than its update");
    require(same_words(update->region, o->region, c->region.len), "a tick stores otherwise than its update");
}

/* A run is its ticks, one after another. */
static void accepted_run(const struct call *c, const struct outcome *o) {
    static struct outcome one;
    static uint64_t region[REGION_MOST];
    struct call tick = *c;
    tick.kind = TICK;
    tick.region = (struct words){region, c->region.len};
    memcpy(region, c->region.at, c->region.len * sizeof *region);
    for (size_t n = 0; n < c->ticks.len / OVEN_TICK_WORDS; n++) {
        const uint64_t *words = c->ticks.at + OVEN_TICK_WORDS * n;
        tick.time = words[0];
        memcpy(tick.inputs, words + 1, (OVEN_TICK_WORDS - 1) * sizeof *region);
        const struct due due = due_of(&tick);
        make(&tick, GUARD_BEHIND, due.number != OVEN_ACCEPTED, &one);
        require(one.said[0] == due.number, "the number of a run's tick made singly");
        const uint64_t *answer = o->answers + OVEN_ANSWER_WORDS * n;
        require(same_words(answer, one.said, OVEN_ANSWER_WORDS), "an answer of a run is not its tick's");
        memcpy(region, one.region, c->region.len * sizeof *region);
        run_ticks++;
    }
    require(same_words(region, o->region, c->region.len), "a run leaves other words than its ticks");
    require(due_sound(&tick) || !due_sound(c), "a run leaves a sound region that is not sound");
}

static void accepted_sound(const struct call *c, const struct outcome *o) { (void)c, (void)o; }

static void accepted_decode(const struct call *c, const struct outcome *o) {
    uint64_t state[6];
    due_state(c->block, c->settings.at, c->region.at, state);
    require(same_words(o->said + 1, state, 6), "the decoded words");
}

/* A row's block as a call of this kind: its settings and its stretch of the region. */
static struct call row_call(const struct call *c, size_t row, enum kind kind, const uint64_t *region) {
    const uint64_t *words = c->rows.at + row * OVEN_ROW_WORDS, *settings = words + OVEN_ROW_SETTINGS;
    struct call single = {.kind = kind, .block = words[OVEN_ROW_BLOCK], .time = c->time};
    single.settings = (struct words){settings, due_settings(single.block)};
    single.region = (struct words){region, due_length(single.block, settings)};
    return single;
}

/* Its tick with the three inputs that it received: words of the sheet's tick, or answers of rows further up, as their bits. */
static struct call row_tick(const struct call *c, size_t row, const uint64_t *answers, const uint64_t *region) {
    const uint64_t *columns = c->rows.at + row * OVEN_ROW_WORDS + OVEN_ROW_FIRST;
    struct call tick = row_call(c, row, TICK, region);
    for (size_t n = 0; n < 3; n++) {
        tick.inputs[n] = columns[n] < 8 ? c->inputs[columns[n]] : answers[columns[n] - 8];
    }
    return tick;
}

/* A sheet starts each row's block on its stretch. */
static void accepted_sheet_start(const struct call *c, const struct outcome *o) {
    size_t at = 0;
    require_zeros(o->said + 1, 2, "a start of a sheet with a row or a warning");
    for (size_t row = 0; row < c->rows.len / OVEN_ROW_WORDS; row++) {
        const struct call start = row_call(c, row, START, c->region.at + at);
        make(&start, GUARD_BEHIND, false, &other);
        require(other.said[0] == OVEN_ACCEPTED, "a row's block does not start singly");
        require(same_words(other.region, o->region + at, start.region.len), "a row starts otherwise than its block");
        at += start.region.len;
    }
}

/* A sheet's tick is the tick of each row's block, top to bottom: what a row hands on has been compared before another reads it. */
static void accepted_sheet_tick(const struct call *c, const struct outcome *o) {
    size_t at = 0;
    uint64_t warning = 0;
    for (size_t row = 0; row < c->rows.len / OVEN_ROW_WORDS; row++) {
        const struct call tick = row_tick(c, row, o->answers, c->region.at + at);
        make(&tick, GUARD_BEHIND, false, &other);
        const bool is_real = has_real(tick.block);
        require(other.said[0] == OVEN_ACCEPTED, "a row's block does not tick singly");
        check_answer(&tick, other.said);
        check_stored(&tick, o->region + at, other.said[3]);
        require(o->answers[2 * row] == other.said[is_real ? 1 : 2], "a row answers otherwise than its block");
        require(o->answers[2 * row + 1] == (is_real ? other.said[2] : 0), "a row's second answer");
        require(same_words(other.region, o->region + at, tick.region.len), "a row stores otherwise than its block");
        at += tick.region.len;
        warning |= other.said[3];
    }
    require(o->said[1] == 0 && o->said[2] == warning, "the row or the warning of a sheet's tick");
}

/* ---- All of it. */

/* Marks what came out, for libFuzzer: outputs true, zero, negative, a NaN or infinite, and warnings, of each block. */
static void mark(const struct call *c, const uint64_t *said, uint64_t number) {
    const unsigned real = said[1] == 0 ? 0 : !is_finite(said[1]) ? 1 : said[1] >> 63 ? 2 : 3;
    const unsigned shape = is_sheet(c->kind) ? (unsigned)(c->rows.len / OVEN_ROW_WORDS % 16) : (unsigned)(c->block % 8) * 8 + real;
    shown[c->kind][number][(shape + 4 * (said[2] != 0)) % 64] |= (uint8_t)(1 + said[3] % 2);
}

void check_call(const struct call *c, struct outcome *o) {
    typedef void check(const struct call *c, const struct outcome *o);
    static check *const accepted[KINDS] = {accepted_length,      accepted_start,     accepted_emit,  accepted_update,
                                           accepted_tick,        accepted_run,       accepted_sound, accepted_decode,
                                           accepted_sheet_start, accepted_sheet_tick};
    const struct due due = due_of(c);
    checked = c;
    make(c, GUARD_BEHIND, due.number != OVEN_ACCEPTED, o);
    make(c, GUARD_BEFORE, due.number != OVEN_ACCEPTED, &again);
    require(o->said[0] == (c->kind == SOUND ? due_sound(c) : due.number), c->kind == SOUND ? "sound" : "the number");
    require(is_same(c, o, &again), "the same call gives or leaves other words");
    counts[c->kind][due.number]++;
    count_classes(c, o, due.number);
    mark(c, o->said, due.number);
    if (due.number == OVEN_ACCEPTED) {
        check_true_settings(c, o);
        accepted[c->kind](c, o);
    } else if (c->kind != SOUND) {
        check_refused(c, o, due);
    }
}
