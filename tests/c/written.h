/* From notes back to a chart. */
#ifndef WRITTEN_H
#define WRITTEN_H

#include <stddef.h>
#include <stdint.h>

/* What the call is lent beside the text slice; the counts may stand at any address. */
struct given {
    const uint8_t *records;
    size_t records_len;
    size_t lanes;
    const void *counts;
    size_t counts_len;
};

/* Asks with everything on the heap in its exact length, checks number, figures and text; then again with the text slice
   one byte short, which must be refused, and with one longer, past whose text zeros stand. */
void check_written_text(const char *name, const struct given *given, const void *text, size_t len,
                        const uint64_t *figures);

/* Charts made by hand, and each refusal, which changes nothing. */
void check_written(void);

#endif
