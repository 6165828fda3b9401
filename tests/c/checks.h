/* Counting of checks: the run goes on after a failure and shows the first few. */
#ifndef CHECKS_H
#define CHECKS_H

#include <stdbool.h>
#include <stddef.h>

/* Counts a check; where it does not hold its name is shown. */
void check(bool holds, const char *format, ...) __attribute__((format(printf, 2, 3)));

/* Writes 'N passed, M failed' and answers whether all passed. */
bool checks_end(void);

#endif
