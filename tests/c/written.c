/* Notes and row counts by hand, as written.h says. */
#include "written.h"
#include "checks.h"
#include "lent.h"
#include "padcheck.h"

#include <stdlib.h>
#include <string.h>

/* One call with so many bytes for the text; without a text to be written it must be refused and change nothing. */
static void ask(const char *name, const struct given *given, size_t room, uint32_t want, const void *text, size_t len,
                const uint64_t *want_figures)
{
    uint8_t *records = copy_of(given->records, given->records_len), *lent = marked(room);
    uint32_t *counts = copy_of(given->counts, given->counts_len * sizeof *counts);
    uint64_t *figures = marked(PADCHECK_FIGURES * sizeof *figures);
    uint32_t number = padcheck_notes_to_chart(records, given->records_len, given->lanes, counts, given->counts_len,
                                              lent, room, figures);
    check(number == want, "%s, %zu bytes: returns %u (%s), should be %u", name, room, number, padcheck_words(number),
          want);
    if (want == PADCHECK_ACCEPTED) {
        check(memcmp(lent, text, len) == 0, "%s: the text", name);
        check(all_bytes(lent + len, room - len, 0), "%s: zeros past the text", name);
        for (int i = 0; i < PADCHECK_FIGURES; i++)
            check(figures[i] == want_figures[i], "%s: figure %d is %llu, should be %llu", name, i,
                  (unsigned long long)figures[i], (unsigned long long)want_figures[i]);
    } else {
        check(all_bytes(lent, room, MARK), "%s: a refused call writes no text", name);
        check(all_bytes(figures, PADCHECK_FIGURES * sizeof *figures, MARK), "%s: nor figures", name);
    }
    check(memcmp(records, given->records, given->records_len) == 0, "%s: the records stay as they were", name);
    check(memcmp(counts, given->counts, given->counts_len * sizeof *counts) == 0, "%s: and the counts", name);
    free(figures);
    free(counts);
    free(lent);
    free(records);
}

void check_written_text(const char *name, const struct given *given, const void *text, size_t len,
                        const uint64_t *figures)
{
    ask(name, given, len, PADCHECK_ACCEPTED, text, len, figures);
    ask(name, given, len + 7, PADCHECK_ACCEPTED, text, len, figures);
    if (len > 0)
        ask(name, given, len - 1, PADCHECK_SHORT_TEXT, NULL, 0, NULL);
}

enum { MOST_NOTES = 6, MOST_COUNTS = 5 };

struct example {
    const char *name, *text; /* no text where it is refused */
    uint32_t number;
    size_t lanes, notes, counts_len, more_bytes;
    struct note note[MOST_NOTES];
    uint32_t counts[MOST_COUNTS];
};

static const struct example examples[] = {
    {"every kind", "1200\n00M4\n,\n,\n0300\nL0F3\n", 0, 4, 6, 3, 0,
     {TAP(0, 0), HOLD(0, 2, 1), {1, UINT32_MAX, 2, PADCHECK_MINE}, {1, 3, 3, PADCHECK_ROLL},
      {3, UINT32_MAX, 0, PADCHECK_LIFT}, {3, UINT32_MAX, 2, PADCHECK_FAKE}},
     {2, 0, 2}},
    {"ten lanes", "0000000001\n", 0, 10, 1, 1, 0, {TAP(0, 9)}, {1}},
    {"six lanes", "000001\n", 0, 6, 1, 1, 0, {TAP(0, 5)}, {1}},
    {"a count of 0", "", 0, 4, 0, 1, 0, {TAP(0, 0)}, {0}},
    {"rows without notes", "0000\n0000\n0000\n", 0, 4, 0, 1, 0, {TAP(0, 0)}, {3}},
    {"a measure without rows", "0000\n,\n,\n0000\n", 0, 4, 0, 3, 0, {TAP(0, 0)}, {1, 0, 1}},
    {"a head right below a tail", "2000\n3000\n1000\n", 0, 4, 2, 1, 0, {HOLD(0, 1, 0), TAP(2, 0)}, {3}},
    {"another lane number", NULL, 12, 7, 0, 0, 1, {TAP(0, 0)}, {0}},
    {"a text too long", NULL, 1, 4, 0, 3, 1, {TAP(0, 0)}, {3355441, 1, 1}},
    {"a sum that wraps", NULL, 1, 4, 0, 5, 1, {TAP(0, 0)}, {858993460, 858993460, 858993460, 858993460, 858993460}},
    {"a part of a record", NULL, 7, 4, 1, 1, 1, {{0, UINT32_MAX, 0, 6}}, {1}},
    {"another kind", NULL, 8, 4, 1, 1, 0, {{0, UINT32_MAX, 0, 6}}, {1}},
    {"a later record breaks a limit", NULL, 8, 4, 3, 1, 0, {HOLD(0, 2, 0), TAP(1, 0), TAP(2, 10)}, {3}},
    {"the same place twice", NULL, 13, 4, 2, 1, 0, {TAP(0, 0), TAP(0, 0)}, {1}},
    {"by column", NULL, 13, 4, 2, 1, 0, {TAP(0, 1), TAP(0, 0)}, {1}},
    {"column L", NULL, 13, 4, 1, 1, 0, {TAP(0, 4)}, {1}},
    {"a later note out of order", NULL, 13, 4, 3, 1, 0, {HOLD(0, 2, 0), TAP(1, 0), TAP(1, 0)}, {3}},
    {"at a tail's row", NULL, 14, 4, 2, 1, 0, {HOLD(0, 2, 0), TAP(2, 0)}, {3}},
    {"inside a hold", NULL, 14, 4, 2, 0, 0, {HOLD(0, 2, 0), TAP(1, 0)}, {0}},
    {"no count", NULL, 15, 4, 0, 0, 0, {TAP(0, 0)}, {0}},
    {"a row past the counts", NULL, 15, 4, 1, 1, 0, {TAP(1, 0)}, {1}},
    {"a tail past the counts", NULL, 15, 4, 1, 1, 0, {HOLD(0, 1, 0)}, {1}},
    {"a measure that could be minimised", NULL, 15, 4, 0, 1, 0, {TAP(0, 0)}, {2}},
};

/* The longest text that is written, 16,777,215 bytes of rows without notes, and one byte more. */
static void check_longest_written(void)
{
    static const uint32_t longest[] = {3355443}, longer[] = {3355441, 1, 0, 0, 0, 0};
    const struct given given = {(const uint8_t *)"", 0, 4, longest, 1};
    const struct given more = {(const uint8_t *)"", 0, 4, longer, 4};
    size_t len = PADCHECK_MAX_LEN;
    uint64_t figures[PADCHECK_FIGURES] = {
        [PADCHECK_TEXT_BYTES] = len, [PADCHECK_MEASURES] = 1, [PADCHECK_ROWS] = longest[0]};
    uint8_t *text = marked(len);
    for (size_t i = 0; i < len; i++)
        text[i] = i % 5 == 4 ? '\n' : '0';
    check(padcheck_written_len(4, longest, 1) == len, "the longest text's length");
    ask("the longest text", &given, len, PADCHECK_ACCEPTED, text, len, figures);
    check(padcheck_written_len(4, longer, 4) == 0, "one byte more has no length");
    ask("one byte more", &more, 0, PADCHECK_LONG_TEXT, NULL, 0, NULL);
    free(text);
}

void check_written(void)
{
    for (size_t i = 0; i < sizeof examples / sizeof examples[0]; i++) {
        const struct example *example = &examples[i];
        uint8_t records[MOST_NOTES * 10 + 1] = {0};
        put_records(records, example->note, example->notes);
        size_t records_len = PADCHECK_NOTE_BYTES * example->notes + example->more_bytes;
        struct given given = {records, records_len, example->lanes, example->counts, example->counts_len};
        if (example->number != PADCHECK_ACCEPTED) {
            ask(example->name, &given, 0, example->number, NULL, 0, NULL);
            ask(example->name, &given, 64, example->number, NULL, 0, NULL);
            continue;
        }
        uint64_t figures[PADCHECK_FIGURES] = {0};
        figures[PADCHECK_TEXT_BYTES] = strlen(example->text);
        figures[PADCHECK_MEASURES] = example->counts_len;
        for (size_t count = 0; count < example->counts_len; count++)
            figures[PADCHECK_ROWS] += example->counts[count];
        figures[PADCHECK_NOTES] = example->notes;
        check_written_text(example->name, &given, example->text, strlen(example->text), figures);
    }
    check_longest_written();
}
