/* What padcheck.h says by name, beside what the library answers. */
#ifndef HEADER_H
#define HEADER_H

/* Reads every place, kind, refusal, length and word of the header by its name. */
void check_header(void);

#endif
