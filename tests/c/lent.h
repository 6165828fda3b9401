/* What a call is lent: memory of exact lengths, so that an access past its end is seen, and records. */
#ifndef LENT_H
#define LENT_H

#include <stdbool.h>
#include <stddef.h>
#include <stdint.h>

/* What an entry that was not written still holds. */
enum { MARK = 0xA5 };

/* So many bytes of the heap, not set; where there are none the test ends. */
void *room_for(size_t bytes);

/* The same, marked. */
void *marked(size_t bytes);

/* A copy on the heap of exactly these bytes. */
void *copy_of(const void *from, size_t bytes);

/* Whether all of these bytes are this one. */
bool all_bytes(const void *at, size_t bytes, uint8_t byte);

/* Writes a row, 4 bytes and low byte first. */
void put_row(uint8_t *at, uint32_t row);

/* Writes the 10 bytes of a note record. */
void put_record(uint8_t *record, uint32_t row, uint32_t tail, uint8_t column, uint8_t kind);

/* A note in a list, and the two that most lists are of. */
struct note {
    uint32_t row, tail;
    uint8_t column, kind;
};

#define TAP(row, column) {row, UINT32_MAX, column, PADCHECK_TAP}
#define HOLD(row, tail, column) {row, tail, column, PADCHECK_HOLD}

/* Writes the records of so many notes. */
void put_records(uint8_t *records, const struct note *notes, size_t count);

#endif
