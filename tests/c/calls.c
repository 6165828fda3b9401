/* The chart calls in one form, as calls.h declares them. */
#include "calls.h"
#include "checks.h"
#include "lent.h"

#include <stdlib.h>
#include <string.h>

enum { NO_SLICE = LENT };

struct slice {
    void *at;
    size_t len;
};

struct loan {
    struct slice slices[LENT];
    uint64_t *figures;
};

struct call_kind {
    const char *name;
    bool lent[LENT];
};

static const struct call_kind kinds[CALLS] = {
    [MAIN] = {"minimize_chart_count_rows_notes",
              {[TEXT] = true, [MEASURE_DENSITIES] = true, [BEATS] = true, [WORK] = true, [NOTES] = true}},
    [KEPT] = {"process_chart_kept", {[TEXT] = true, [MEASURE_DENSITIES] = true, [WORK] = true}},
    [TIMING_ROWS] = {"minimize_timing_rows", {[TEXT] = true, [BEATS] = true}},
    [DENSITIES] = {"measure_densities", {[MEASURE_DENSITIES] = true}},
    [SPACING] = {"equally_spaced", {[MEASURE_SPACING] = true}},
    [LAST_BEAT] = {"chart_last_beat", {false}},
    [JUDGED] = {"process_rows_judgable", {[WORK] = true}},
    [FLAGGED] = {"process_timing_rows", {[WORK] = true}},
    [DROPPED] = {"dropped_holds", {[TEXT] = true, [NOTES] = true}},
    [CHART_SHEET] = {"chart_sheet",
                     {[TEXT] = true,
                      [MEASURE_DENSITIES] = true,
                      [MEASURE_SPACING] = true,
                      [BEATS] = true,
                      [WORK] = true,
                      [NOTES] = true,
                      [SHEET] = true}},
};

static const size_t element_size[LENT] = {
    [TEXT] = sizeof(uint8_t),
    [MEASURE_DENSITIES] = sizeof(uint32_t),
    [MEASURE_SPACING] = sizeof(uint8_t),
    [BEATS] = sizeof(float),
    [WORK] = sizeof(uint16_t),
    [NOTES] = sizeof(uint8_t),
    [SHEET] = sizeof(uint8_t),
};

static const uint32_t refusal_of[LENT] = {
    [TEXT] = PADCHECK_SHORT_TEXT,   [MEASURE_DENSITIES] = PADCHECK_SHORT_MEASURES,
    [BEATS] = PADCHECK_SHORT_BEATS, [MEASURE_SPACING] = PADCHECK_SHORT_MEASURES,
    [WORK] = PADCHECK_SHORT_WORK,   [NOTES] = PADCHECK_SHORT_NOTES,
    [SHEET] = PADCHECK_SHORT_SHEET,
};

const char *call_name(enum call call)
{
    return kinds[call].name;
}

static size_t length_for(enum lent lent, size_t len, size_t lanes)
{
    switch (lent) {
    case TEXT:
        return padcheck_text_len(len);
    case MEASURE_DENSITIES:
    case MEASURE_SPACING:
        return padcheck_measures_len(len);
    case BEATS:
        return padcheck_beats_len(len, lanes);
    case WORK:
        return padcheck_work_len(len, lanes);
    case NOTES:
        return padcheck_notes_len(len, lanes);
    case SHEET:
        return padcheck_sheet_len(len);
    default:
        return 0;
    }
}

/* The slices that a call is lent for a text of len bytes; one of them, `shorter`, lacks an element. */
static struct loan lend(enum call call, size_t len, size_t lanes, int shorter)
{
    struct loan loan = {.figures = marked(PADCHECK_FIGURES * sizeof(uint64_t))};
    for (int i = 0; i < LENT; i++) {
        if (kinds[call].lent[i]) {
            size_t length = length_for((enum lent)i, len, lanes) - (i == shorter);
            loan.slices[i] = (struct slice){marked(length * element_size[i]), length};
        }
    }
    return loan;
}

static void take_back(struct loan *loan)
{
    for (int i = 0; i < LENT; i++)
        free(loan->slices[i].at);
    free(loan->figures);
}

static uint32_t enter(enum call call, const struct question *q, struct loan *loan)
{
    struct slice text = loan->slices[TEXT], densities = loan->slices[MEASURE_DENSITIES];
    struct slice spacing = loan->slices[MEASURE_SPACING], beats = loan->slices[BEATS], work = loan->slices[WORK];
    struct slice notes = loan->slices[NOTES], sheet = loan->slices[SHEET];
    switch (call) {
    case MAIN:
        return padcheck_minimize_chart_count_rows_notes(q->data, q->len, q->lanes, text.at, text.len, densities.at,
                                                        densities.len, beats.at, beats.len, work.at, work.len, notes.at,
                                                        notes.len, loan->figures);
    case KEPT:
        return padcheck_process_chart_kept(q->data, q->len, q->lanes, text.at, text.len, densities.at, densities.len,
                                           work.at, work.len, loan->figures);
    case TIMING_ROWS:
        return padcheck_minimize_timing_rows(q->data, q->len, q->lanes, text.at, text.len, beats.at, beats.len,
                                             loan->figures);
    case DENSITIES:
        return padcheck_measure_densities(q->data, q->len, q->lanes, densities.at, densities.len, loan->figures);
    case SPACING:
        return padcheck_equally_spaced(q->data, q->len, q->lanes, spacing.at, spacing.len, loan->figures);
    case LAST_BEAT:
        return padcheck_chart_last_beat(q->data, q->len, q->lanes, loan->figures);
    case JUDGED:
        return padcheck_process_rows_judgable(q->data, q->len, q->lanes, work.at, work.len, loan->figures);
    case FLAGGED:
        return padcheck_process_timing_rows(q->data, q->len, q->lanes, q->flags, q->flags_len, work.at, work.len,
                                            loan->figures);
    case DROPPED:
        return padcheck_dropped_holds(q->data, q->len, q->lanes, text.at, text.len, notes.at, notes.len, loan->figures);
    case CHART_SHEET:
        return padcheck_chart_sheet(q->data, q->len, q->lanes, q->form, text.at, text.len, densities.at, densities.len,
                                    spacing.at, spacing.len, beats.at, beats.len, work.at, work.len, notes.at,
                                    notes.len, sheet.at, sheet.len, loan->figures);
    default:
        return UINT32_MAX;
    }
}

static bool is_untouched(const struct loan *loan)
{
    bool same = all_bytes(loan->figures, PADCHECK_FIGURES * sizeof(uint64_t), MARK);
    for (int i = 0; i < LENT; i++)
        same = same && all_bytes(loan->slices[i].at, loan->slices[i].len * element_size[i], MARK);
    return same;
}

static void check_untouched(const char *name, enum call call, const struct question *q, struct loan *loan,
                            uint32_t want)
{
    uint32_t number = enter(call, q, loan);
    check(number == want, "%s, %s: returns %u (%s), should be %u", name, call_name(call), number,
          padcheck_words(number), want);
    check(is_untouched(loan), "%s, %s: a refused call writes nothing", name, call_name(call));
}

void check_each_shorter(const char *name, enum call call, const struct question *q)
{
    for (int i = 0; i < LENT; i++) {
        if (kinds[call].lent[i] && length_for((enum lent)i, q->len, q->lanes) > 0) {
            struct loan loan = lend(call, q->len, q->lanes, i);
            check_untouched(name, call, q, &loan, refusal_of[i]);
            take_back(&loan);
        }
    }
}

void check_call(const char *name, enum call call, const struct question *q, const struct answer *answer)
{
    struct loan loan = lend(call, q->len, q->lanes, NO_SLICE);
    uint32_t number = enter(call, q, &loan);
    check(number == PADCHECK_ACCEPTED, "%s, %s: returns %u (%s), should be 0", name, call_name(call), number,
          padcheck_words(number));
    for (int i = 0; i < PADCHECK_FIGURES; i++)
        check(loan.figures[i] == answer->figures[i], "%s, %s: figure %d is %llu, should be %llu", name, call_name(call),
              i, (unsigned long long)loan.figures[i], (unsigned long long)answer->figures[i]);
    for (int i = 0; i < LENT; i++) {
        const uint8_t *at = loan.slices[i].at;
        size_t bytes = loan.slices[i].len * element_size[i], filled = answer->contents[i].bytes;
        if (at == NULL)
            continue;
        check(filled <= bytes && (filled == 0 || memcmp(at, answer->contents[i].at, filled) == 0),
              "%s, %s: contents of slice %d", name, call_name(call), i);
        check(filled <= bytes && all_bytes(at + filled, bytes - filled, 0), "%s, %s: zeros past the answer in slice %d",
              name, call_name(call), i);
    }
    take_back(&loan);
    check_each_shorter(name, call, q);
}

void check_exact(const char *name, const struct question *q)
{
    for (enum call call = 0; call < CALLS; call++) {
        struct loan loan = lend(call, q->len, q->lanes, NO_SLICE);
        uint32_t number = enter(call, q, &loan);
        check(number == PADCHECK_ACCEPTED, "%s, %s, %zu bytes, %zu lanes: returns %u", name, call_name(call), q->len,
              q->lanes, number);
        take_back(&loan);
        check_each_shorter(name, call, q);
    }
}

void check_refused(const char *name, enum call call, const struct question *q, size_t room, uint32_t number)
{
    struct loan loan = lend(call, room, q->lanes, NO_SLICE);
    check_untouched(name, call, q, &loan, number);
    take_back(&loan);
}
