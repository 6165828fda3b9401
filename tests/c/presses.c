/* Notes and presses by hand, as presses.h says. */
#include "presses.h"
#include "checks.h"
#include "lent.h"
#include "padcheck.h"

#include <stdlib.h>
#include <string.h>

void check_trace(const char *name, const uint8_t *records, size_t records_len, const uint8_t *trace, size_t trace_len,
                 uint32_t want, const uint64_t *counts)
{
    uint8_t *lent_records = copy_of(records, records_len), *lent_trace = copy_of(trace, trace_len);
    uint64_t *presses = marked(PADCHECK_PRESS_FIGURES * sizeof *presses);
    uint32_t number = padcheck_press_trace(lent_records, records_len, lent_trace, trace_len, presses);
    check(number == want, "%s: returns %u (%s), should be %u", name, number, padcheck_words(number), want);
    if (want == PADCHECK_ACCEPTED)
        for (int i = 0; i < PADCHECK_PRESS_FIGURES; i++)
            check(presses[i] == counts[i], "%s: number %d is %llu, should be %llu", name, i,
                  (unsigned long long)presses[i], (unsigned long long)counts[i]);
    else
        check(all_bytes(presses, PADCHECK_PRESS_FIGURES * sizeof *presses, MARK), "%s: a refused call sets no number",
              name);
    check(memcmp(lent_records, records, records_len) == 0, "%s: the records stay as they were", name);
    check(memcmp(lent_trace, trace, trace_len) == 0, "%s: and the trace", name);
    free(presses);
    free(lent_trace);
    free(lent_records);
}

/* A press in a list. */
struct press {
    uint32_t row;
    uint8_t column;
};

enum { MOST_NOTES = 6, MOST_PRESSES = 6 };

struct example {
    const char *name;
    uint32_t number;
    size_t notes, more_of_records, presses, more_of_trace;
    struct note note[MOST_NOTES];
    struct press press[MOST_PRESSES];
    uint64_t counts[PADCHECK_PRESS_FIGURES];
};

#define HITS(column) [3 + (column)]
#define MISSES(column) [13 + (column)]

static const struct example examples[] = {
    {"nothing at all", 0, 0, 0, 0, 0, {TAP(0, 0)}, {{0, 0}}, {0}},
    {"a press on each note", 0, 4, 0, 4, 0,
     {TAP(0, 0), HOLD(0, 3, 3), TAP(2, 0), {2, 4, 2, PADCHECK_ROLL}},
     {{0, 0}, {0, 3}, {2, 0}, {2, 2}},
     {4, HITS(0) = 2, HITS(2) = 1, HITS(3) = 1}},
    {"no press", 0, 3, 0, 0, 0, {TAP(0, 9), HOLD(1, 2, 0), TAP(1, 9)}, {{0, 0}}, {0, 0, 3, MISSES(0) = 1, MISSES(9) = 2}},
    {"no note", 0, 0, 0, 3, 0, {TAP(0, 0)}, {{0, 0}, {0, 9}, {UINT32_MAX, 9}}, {0, 3}},
    {"on a mine, a lift and a fake", 0, 3, 0, 3, 0,
     {{0, UINT32_MAX, 0, PADCHECK_MINE}, {0, UINT32_MAX, 1, PADCHECK_LIFT}, {1, UINT32_MAX, 0, PADCHECK_FAKE}},
     {{0, 0}, {0, 1}, {1, 0}},
     {0, 3}},
    {"on a head and its tail", 0, 1, 0, 2, 0, {HOLD(0, 2, 4)}, {{0, 4}, {2, 4}}, {1, 1, HITS(4) = 1}},
    {"inside a hold", 0, 1, 0, 1, 0, {HOLD(0, 2, 4)}, {{1, 4}}, {0, 1, 1, MISSES(4) = 1}},
    {"three presses on a note", 0, 1, 0, 3, 0, {TAP(5, 7)}, {{5, 7}, {5, 7}, {5, 7}}, {1, 2, HITS(7) = 1}},
    {"a row late", 0, 1, 0, 1, 0, {TAP(5, 7)}, {{6, 7}}, {0, 1, 1, MISSES(7) = 1}},
    {"a column beside", 0, 1, 0, 1, 0, {TAP(5, 7)}, {{5, 8}}, {0, 1, 1, MISSES(7) = 1}},
    {"a note missed in a pressed column", 0, 2, 0, 1, 0, {TAP(5, 9), TAP(6, 9)}, {{6, 9}},
     {1, 0, 1, HITS(9) = 1, MISSES(9) = 1}},
    {"presses after the last note", 0, 1, 0, 4, 0, {TAP(0, 1)}, {{0, 1}, {0, 2}, {1, 0}, {1, 0}}, {1, 3, HITS(1) = 1}},
    {"the last row of a note, and past it", 0, 1, 0, 3, 0, {TAP(16777215, 0)},
     {{16777215, 0}, {16777216, 0}, {UINT32_MAX, 0}},
     {1, 2, HITS(0) = 1}},
    {"each byte of a row", 0, 1, 0, 5, 0, {TAP(0x654321, 0)},
     {{0x554321, 0}, {0x653321, 0}, {0x654320, 0}, {0x654321, 0}, {0x1654321, 0}},
     {1, 4, HITS(0) = 1}},

    {"a part of a record", 7, 1, 1, 1, 1, {{0, UINT32_MAX, 0, 6}}, {{0, 10}}, {0}},
    {"a record less a byte", 7, 0, 9, 0, 0, {TAP(0, 0)}, {{0, 0}}, {0}},
    {"another kind", 8, 1, 0, 0, 0, {{0, UINT32_MAX, 0, 6}}, {{0, 0}}, {0}},
    {"a note in column 10", 8, 1, 0, 1, 1, {TAP(0, 10)}, {{0, 10}}, {0}},
    {"a row past the last", 8, 1, 0, 0, 0, {TAP(16777216, 0)}, {{0, 0}}, {0}},
    {"a tap with a tail", 8, 1, 0, 0, 0, {{0, 1, 0, PADCHECK_TAP}}, {{0, 0}}, {0}},
    {"a tail at its head", 8, 1, 0, 0, 0, {HOLD(1, 1, 0)}, {{0, 0}}, {0}},
    {"a later record breaks a limit", 8, 3, 0, 0, 0, {TAP(0, 0), TAP(0, 0), TAP(0, 10)}, {{0, 0}}, {0}},
    {"a note twice", 13, 2, 0, 1, 0, {TAP(0, 0), TAP(0, 0)}, {{0, 0}}, {0}},
    {"notes that fall in row", 13, 2, 0, 1, 1, {TAP(1, 0), TAP(0, 1)}, {{0, 10}}, {0}},
    {"notes that fall in column", 13, 3, 0, 0, 0, {TAP(0, 0), TAP(1, 1), TAP(1, 0)}, {{0, 0}}, {0}},
    {"one byte of a press", 16, 0, 0, 0, 1, {TAP(0, 0)}, {{0, 0}}, {0}},
    {"a press less a byte", 16, 1, 0, 1, 4, {TAP(0, 0)}, {{0, 0}}, {0}},
    {"a press in column 10", 16, 1, 0, 1, 0, {TAP(0, 0)}, {{0, 10}}, {0}},
    {"a later press in column 255", 16, 1, 0, 2, 0, {TAP(0, 0)}, {{0, 0}, {0, 255}}, {0}},
    {"presses that fall in row", 16, 1, 0, 2, 0, {TAP(0, 0)}, {{1, 0}, {0, 1}}, {0}},
    {"presses that fall in column", 16, 1, 0, 3, 0, {TAP(0, 0)}, {{0, 0}, {0, 1}, {0, 0}}, {0}},
};

static void put_press(uint8_t *record, struct press press)
{
    put_row(record, press.row);
    record[4] = press.column;
}

/* One press many times: the first is a hit. */
static void check_one_press(void)
{
    enum { COUNT = 100000 };
    static uint8_t trace[COUNT * 5];
    static const uint64_t counts[PADCHECK_PRESS_FIGURES] = {1, COUNT - 1, HITS(2) = 1};
    uint8_t record[10];
    put_record(record, 7, UINT32_MAX, 2, PADCHECK_TAP);
    for (size_t i = 0; i < COUNT; i++)
        put_press(trace + 5 * i, (struct press){7, 2});
    check_trace("one press many times", record, sizeof record, trace, sizeof trace, PADCHECK_ACCEPTED, counts);
}

void check_presses(void)
{
    for (size_t i = 0; i < sizeof examples / sizeof examples[0]; i++) {
        const struct example *example = &examples[i];
        uint8_t records[MOST_NOTES * 10 + 9] = {0}, trace[MOST_PRESSES * 5 + 4] = {0};
        put_records(records, example->note, example->notes);
        for (size_t press = 0; press < example->presses; press++)
            put_press(trace + 5 * press, example->press[press]);
        check_trace(example->name, records, 10 * example->notes + example->more_of_records, trace,
                    5 * example->presses + example->more_of_trace, example->number, example->counts);
    }
    check_one_press();
}
