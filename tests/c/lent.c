/* What a call is lent, as lent.h declares it. */
#include "lent.h"

#include <stdio.h>
#include <stdlib.h>
#include <string.h>

void *room_for(size_t bytes)
{
    void *at = malloc(bytes);
    if (at == NULL) {
        fprintf(stderr, "no memory for %zu bytes\n", bytes);
        exit(2);
    }
    return at;
}

void *marked(size_t bytes)
{
    return memset(room_for(bytes), MARK, bytes);
}

void *copy_of(const void *from, size_t bytes)
{
    return memcpy(room_for(bytes), from, bytes);
}

bool all_bytes(const void *at, size_t bytes, uint8_t byte)
{
    for (size_t i = 0; i < bytes; i++)
        if (((const uint8_t *)at)[i] != byte)
            return false;
    return true;
}

void put_row(uint8_t *at, uint32_t row)
{
    for (int i = 0; i < 4; i++)
        at[i] = (uint8_t)(row >> 8 * i);
}

void put_record(uint8_t *record, uint32_t row, uint32_t tail, uint8_t column, uint8_t kind)
{
    put_row(record, row);
    put_row(record + 4, tail);
    record[8] = column;
    record[9] = kind;
}

void put_records(uint8_t *records, const struct note *notes, size_t count)
{
    for (size_t i = 0; i < count; i++)
        put_record(records + 10 * i, notes[i].row, notes[i].tail, notes[i].column, notes[i].kind);
}
