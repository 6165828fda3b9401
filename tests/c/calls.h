/* The chart calls of padcheck.h in one form: a question, a loan of slices, and the answer that is expected. */
#ifndef CALLS_H
#define CALLS_H

#include "padcheck.h"

#include <stdbool.h>

/* Those of the stored sample in its order, then the sheet. */
enum call {
    MAIN,
    KEPT,
    TIMING_ROWS,
    DENSITIES,
    SPACING,
    LAST_BEAT,
    JUDGED,
    FLAGGED,
    DROPPED,
    STORED_CALLS,
    CHART_SHEET = STORED_CALLS,
    CALLS
};

/* What can be lent for writing; NOTES is also the list of dropped heads. */
enum lent { TEXT, MEASURE_DENSITIES, MEASURE_SPACING, BEATS, WORK, NOTES, SHEET, LENT };

struct question {
    const uint8_t *data;
    size_t len;
    size_t lanes;
    const uint8_t *flags;
    size_t flags_len;
    size_t form;
};

/* The figures, and the contents of each slice without the zeros after them. */
struct answer {
    uint64_t figures[PADCHECK_FIGURES];
    struct {
        const void *at;
        size_t bytes;
    } contents[LENT];
};

const char *call_name(enum call call);

/* Asks with slices of the exact lengths, checks number, figures and every element of every slice; then again with each
   slice one element short, which must be refused and change nothing. */
void check_call(const char *name, enum call call, const struct question *question, const struct answer *answer);

/* Asks every call with slices of the exact lengths, which must be accepted; then again with each slice one element
   short, which must be refused and change nothing. */
void check_exact(const char *name, const struct question *question);

/* Asks with each slice in turn one element short; each must be refused by its own number and change nothing. */
void check_each_shorter(const char *name, enum call call, const struct question *question);

/* Asks with slices of the exact lengths for a text of `room` bytes; the call must be refused and change nothing. */
void check_refused(const char *name, enum call call, const struct question *question, size_t room, uint32_t number);

#endif
