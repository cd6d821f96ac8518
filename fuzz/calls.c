/* Makes a call on lent words. */
#include "calls.h"

#include <inttypes.h>
#include <stdio.h>

typedef struct oven_answer ticking(uint64_t block, const uint64_t *settings, size_t settings_len, uint64_t time, uint64_t first,
                                   uint64_t second, uint64_t third, uint64_t *region, size_t region_len);

struct call last_call;

bool is_sheet(enum kind kind) { return kind == SHEET_START || kind == SHEET_TICK; }

bool writes_answers(enum kind kind) { return kind == RUN || kind == SHEET_TICK; }

bool writes_region(enum kind kind) {
    return kind == START || kind == UPDATE || kind == TICK || kind == SHEET_START || writes_answers(kind);
}

const char *kind_name(enum kind kind) {
    static const char *const names[KINDS] = {"oven_length", "oven_start", "oven_emit",   "oven_update",      "oven_tick",
                                             "oven_run",    "oven_sound", "oven_decode", "oven_sheet_start", "oven_sheet_tick"};
    return names[kind];
}

bool same_words(const uint64_t *ours, const uint64_t *others, size_t len) {
    return len == 0 || memcmp(ours, others, len * sizeof(uint64_t)) == 0;
}

/* A call that only reads the region, whose words cannot be written. */
static void make_reading(const struct call *c, enum side side, uint64_t *said) {
    const uint64_t *settings = lend_to_read(SETTINGS, side, c->settings);
    const uint64_t *region = lend_to_read(REGION, side, c->region);
    if (c->kind == LENGTH) {
        const struct oven_length length = oven_length(c->block, settings, c->settings.len);
        memcpy(said, &length, sizeof length);
    } else if (c->kind == SOUND) {
        said[0] = oven_sound(c->block, settings, c->settings.len, region, c->region.len);
    } else if (c->kind == DECODE) {
        const struct oven_state state = oven_decode(c->block, settings, c->settings.len, region, c->region.len);
        memcpy(said, &state, sizeof state);
    } else {
        const struct oven_answer answer = oven_emit(c->block, settings, c->settings.len, c->time, c->inputs[0], c->inputs[1],
                                                    c->inputs[2], region, c->region.len);
        memcpy(said, &answer, sizeof answer);
    }
}

static void make_writing(const struct call *c, enum side side, uint64_t *said, uint64_t *region, uint64_t *answers) {
    const uint64_t *settings = lend_to_read(SETTINGS, side, c->settings);
    if (c->kind == START) {
        said[0] = oven_start(c->block, settings, c->settings.len, region, c->region.len);
    } else if (c->kind == RUN) {
        const uint64_t *ticks = lend_to_read(TICKS, side, c->ticks);
        said[0] =
            oven_run(c->block, settings, c->settings.len, ticks, c->ticks.len, region, c->region.len, answers, c->answers.len);
    } else {
        ticking *ticks = c->kind == UPDATE ? oven_update : oven_tick;
        const struct oven_answer answer =
            ticks(c->block, settings, c->settings.len, c->time, c->inputs[0], c->inputs[1], c->inputs[2], region, c->region.len);
        memcpy(said, &answer, sizeof answer);
    }
}

static void make_sheet(const struct call *c, enum side side, uint64_t *said, uint64_t *region, uint64_t *answers) {
    const uint64_t *rows = lend_to_read(ROWS, side, c->rows);
    struct oven_sheet_answer answer;
    if (c->kind == SHEET_START) {
        answer = oven_sheet_start(rows, c->rows.len, region, c->region.len);
    } else {
        const uint64_t *inputs = lend_to_read(INPUTS, side, (struct words){c->inputs, 8});
        answer = oven_sheet_tick(rows, c->rows.len, c->time, inputs, region, c->region.len, answers, c->answers.len);
    }
    memcpy(said, &answer, sizeof answer);
}

static void take(uint64_t *kept, const uint64_t *lent, size_t len) {
    if (len > 0) {
        memcpy(kept, lent, len * sizeof(uint64_t));
    }
}

void make(const struct call *c, enum side side, bool is_refused, struct outcome *o) {
    uint64_t *region, *answers;
    last_call = *c;
    memset(o->said, 0, sizeof o->said);
    if (!writes_region(c->kind)) {
        make_reading(c, side, o->said);
        return;
    }
    if (is_refused) {
        region = (uint64_t *)lend_to_read(REGION, side, c->region);
        answers = (uint64_t *)lend_to_read(ANSWERS, side, c->answers);
    } else {
        region = lend(REGION, side, c->region);
        answers = lend(ANSWERS, side, c->answers);
    }
    (is_sheet(c->kind) ? make_sheet : make_writing)(c, side, o->said, region, answers);
    take(o->region, region, c->region.len);
    take(o->answers, answers, c->answers.len);
}

static void show_words(const char *name, struct words words) {
    fprintf(stderr, "  %s, %zu:", name, words.len);
    for (size_t n = 0; n < words.len && n < 40; n++) {
        fprintf(stderr, " %016" PRIX64, words.at[n]);
    }
    fprintf(stderr, words.len > 40 ? " ..\n" : "\n");
}

void show_call(const struct call *c) {
    fprintf(stderr, "%s", kind_name(c->kind));
    if (!is_sheet(c->kind)) {
        fprintf(stderr, " of block %" PRIu64, c->block);
    }
    fprintf(stderr, " at %016" PRIX64 "\n", c->time);
    show_words("settings", c->settings);
    show_words("rows", c->rows);
    show_words("inputs", (struct words){c->inputs, 8});
    show_words("ticks", c->ticks);
    show_words("region", c->region);
    show_words("answers", c->answers);
}
