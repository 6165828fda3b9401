/* A pad trace set against note records. */
#ifndef PRESSES_H
#define PRESSES_H

#include <stddef.h>
#include <stdint.h>

/* Asks with everything on the heap in its exact length, and checks the number and the counts; a refused call must leave
   them as they were. */
void check_trace(const char *name, const uint8_t *records, size_t records_len, const uint8_t *trace, size_t trace_len,
                 uint32_t want, const uint64_t *counts);

/* Traces made by hand, and each refusal. */
void check_presses(void);

#endif
