/* Every entry of padcheck.h from C: the header's names, the specification's example and its sheets, its limits, note records,
   SM files, charts that are written, pad traces, and the stored sample. */
#include "calls.h"
#include "checks.h"
#include "header.h"
#include "lent.h"
#include "presses.h"
#include "sm.h"
#include "stored.h"
#include "written.h"

#include <stdio.h>
#include <stdlib.h>
#include <string.h>

static uint64_t bits_of(double number)
{
    uint64_t bits;
    memcpy(&bits, &number, sizeof bits);
    return bits;
}

/* The tally of two taps, one left and one down, on two rows. */
static void set_two_taps(struct answer *answer)
{
    answer->figures[PADCHECK_TOTAL_ARROWS] = 2;
    answer->figures[PADCHECK_LEFT] = 1;
    answer->figures[PADCHECK_DOWN] = 1;
    answer->figures[PADCHECK_TOTAL_STEPS] = 2;
}

static void set_contents(struct answer *answer, enum lent lent, const void *at, size_t bytes)
{
    answer->contents[lent].at = at;
    answer->contents[lent].bytes = bytes;
}

/* The specification's example: two of four rows stay, with a tap each. */
static const char text[] = "1000\n0000\n0100\n0000\n;\n", minimised[] = "1000\n0100\n", rows[] = "10000100";
static const uint32_t density = 2;
static const uint8_t spaced = 1;
static const float beats[] = {0, 2};
static const uint8_t notes[] = {0, 0, 0, 0, 255, 255, 255, 255, 0, 0, 1, 0, 0, 0, 255, 255, 255, 255, 1, 0};

/* What the main call answers of it. */
static void set_main(struct answer *answer)
{
    answer->figures[PADCHECK_TEXT_BYTES] = 10;
    answer->figures[PADCHECK_MEASURES] = 1;
    answer->figures[PADCHECK_ROWS] = 2;
    answer->figures[PADCHECK_NOTES] = 2;
    answer->figures[PADCHECK_LAST_BEAT] = bits_of(2);
    answer->figures[PADCHECK_LAST_BEAT_48THS] = 96;
    set_two_taps(answer);
    set_contents(answer, TEXT, minimised, sizeof minimised - 1);
    set_contents(answer, MEASURE_DENSITIES, &density, sizeof density);
    set_contents(answer, BEATS, beats, sizeof beats);
    set_contents(answer, NOTES, notes, sizeof notes);
}

/* Every call of the example but the sheet. */
static void check_example(void)
{
    struct question question = {(const uint8_t *)text, sizeof text - 1, 4, (const uint8_t *)"", 0, 0};
    struct answer answers[STORED_CALLS] = {0};

    set_main(&answers[MAIN]);
    answers[KEPT].figures[PADCHECK_TEXT_BYTES] = 10;
    answers[KEPT].figures[PADCHECK_MEASURES] = 1;
    answers[KEPT].figures[PADCHECK_ROWS] = 2;
    set_two_taps(&answers[KEPT]);
    set_contents(&answers[KEPT], TEXT, minimised, sizeof minimised - 1);
    set_contents(&answers[KEPT], MEASURE_DENSITIES, &density, sizeof density);

    answers[TIMING_ROWS].figures[PADCHECK_TEXT_BYTES] = 8;
    answers[TIMING_ROWS].figures[PADCHECK_ROWS] = 2;
    set_contents(&answers[TIMING_ROWS], TEXT, rows, sizeof rows - 1);
    set_contents(&answers[TIMING_ROWS], BEATS, beats, sizeof beats);

    answers[DENSITIES].figures[PADCHECK_MEASURES] = 1;
    set_contents(&answers[DENSITIES], MEASURE_DENSITIES, &density, sizeof density);
    answers[SPACING].figures[PADCHECK_MEASURES] = 1;
    set_contents(&answers[SPACING], MEASURE_SPACING, &spaced, sizeof spaced);
    answers[LAST_BEAT].figures[PADCHECK_LAST_BEAT] = bits_of(2);
    answers[LAST_BEAT].figures[PADCHECK_LAST_BEAT_48THS] = 96;
    set_two_taps(&answers[JUDGED]);
    answers[FLAGGED].figures[PADCHECK_FAKES] = 2; /* without flags every row is unjudged */
    answers[DROPPED].figures[PADCHECK_TEXT_BYTES] = 10;
    answers[DROPPED].figures[PADCHECK_MEASURES] = 1;
    answers[DROPPED].figures[PADCHECK_ROWS] = 2;
    set_contents(&answers[DROPPED], TEXT, minimised, sizeof minimised - 1);
    for (enum call call = 0; call < STORED_CALLS; call++)
        check_call("example", call, &question, &answers[call]);

    /* The rows are read as they stand, so the third has the second tap; unjudged, by a flag 0 or by none, it is a fake. */
    static const uint8_t all[] = {1, 2, 255}, third_unjudged[] = {1, 1, 0};
    struct answer one_fake = {0};
    one_fake.figures[PADCHECK_TOTAL_ARROWS] = 1;
    one_fake.figures[PADCHECK_LEFT] = 1;
    one_fake.figures[PADCHECK_TOTAL_STEPS] = 1;
    one_fake.figures[PADCHECK_FAKES] = 1;
    question.flags = third_unjudged;
    question.flags_len = sizeof third_unjudged;
    check_call("example with flags", FLAGGED, &question, &one_fake);
    question.flags_len = 1;
    check_call("example with one flag", FLAGGED, &question, &one_fake);
    question.flags = all;
    question.flags_len = sizeof all;
    check_call("example with a flag for each row", FLAGGED, &question, &answers[JUDGED]);
}

/* Heads that are dropped for each reason, beside one that a 3 closes: the request's examples. */
static void check_dropped(void)
{
    static const struct {
        const char *name, *text, *minimised;
        uint64_t measures, rows, heads;
        uint8_t records[2 * 10];
    } examples[] = {
        {"closed", "2000\nK000\nx000\n3000\n", "2000\nK000\nx000\n3000\n", 1, 4, 0, {0}},
        {"another head", "2000\n4000\n3000\n", "2000\n4000\n3000\n", 1, 3, 1, {[4] = 1, [9] = PADCHECK_BY_OTHER_HEAD}},
        {"another cell", "2000\n1000\n3000\n", "2000\n1000\n3000\n", 1, 3, 1, {[4] = 1, [9] = PADCHECK_BY_OTHER_CELL}},
        {"a small letter", "4000\nm000\n3000\n", "4000\nm000\n3000\n", 1, 3, 1, {[4] = 1, [9] = PADCHECK_BY_OTHER_CELL}},
        {"the chart's end", "4000\n,0000\n", "4000\n,\n", 2, 1, 1, {0, 0, 0, 0, 255, 255, 255, 255, 0, PADCHECK_BY_CHART_END}},
        {"rows of all measures", "1000\n0000\n,\n2000\n0000\n1000\n0000\n", "1000\n,\n2000\n1000\n", 2, 3, 1,
         {[0] = 1, [4] = 2, [9] = PADCHECK_BY_OTHER_CELL}},
        {"two, by their columns", "2002\n0100\n0001\n", "2002\n0100\n0001\n", 1, 3, 2,
         {0, 0, 0, 0, 255, 255, 255, 255, 0, PADCHECK_BY_CHART_END, 0, 0, 0, 0, 2, 0, 0, 0, 3, PADCHECK_BY_OTHER_CELL}},
    };
    for (size_t i = 0; i < sizeof examples / sizeof examples[0]; i++) {
        const uint8_t *data = (const uint8_t *)examples[i].text;
        struct question question = {data, strlen(examples[i].text), 4, (const uint8_t *)"", 0, 0};
        struct answer answer = {0};
        answer.figures[PADCHECK_TEXT_BYTES] = strlen(examples[i].minimised);
        answer.figures[PADCHECK_MEASURES] = examples[i].measures;
        answer.figures[PADCHECK_ROWS] = examples[i].rows;
        answer.figures[PADCHECK_NOTES] = examples[i].heads;
        set_contents(&answer, TEXT, examples[i].minimised, strlen(examples[i].minimised));
        set_contents(&answer, NOTES, examples[i].records, PADCHECK_DROPPED_BYTES * examples[i].heads);
        check_call(examples[i].name, DROPPED, &question, &answer);
    }
}

static const char card[] = "measures 1\nrows 2\narrows 2\nsteps 2\nkeys 0\nnotes 2\nlast 96\nm 0 2 1\nn 0 0 0 -\nn 1 1 0 -\n";

static const char print[] = "measures            1\n"
                            "rows                2\n"
                            "notes               2\n"
                            "last beat           2 + 0/48\n"
                            "in 48ths           96\n"
                            "\n"
                            "                 main     kept   judged\n"
                            "total_arrows        2        2        2\n"
                            "left                1        1        1\n"
                            "down                1        1        1\n"
                            "up                  0        0        0\n"
                            "right               0        0        0\n"
                            "total_steps         2        2        2\n"
                            "jumps               0        0        0\n"
                            "hands               0        0        0\n"
                            "mines               0        0        0\n"
                            "holds               0        0        0\n"
                            "rolls               0        0        0\n"
                            "lifts               0        0        0\n"
                            "fakes               0        0        0\n"
                            "holding             0        0        0\n"
                            "keysounds           0        0        0\n"
                            "up_left             0        0        0\n"
                            "up_right            0        0        0\n"
                            "\n"
                            "densities, 16 measures to a line; = equally spaced, - not\n"
                            "      0:  2=\n"
                            "\n"
                            "holds and rolls\n"
                            "          row   column     tail\n";

/* The tally of the example, the same in all three. */
#define TALLY                                                                                                          \
    "{\"total_arrows\":2,\"left\":1,\"down\":1,\"up\":0,\"right\":0,\"total_steps\":2,\"jumps\":0,\"hands\":0,"        \
    "\"mines\":0,\"holds\":0,\"rolls\":0,\"lifts\":0,\"fakes\":0,\"holding\":0,\"keysounds\":0,\"up_left\":0,\"up_right\":0}"

static const char json[] = "{\"measures\":1,\"rows\":2,\"notes\":2,"
                           "\"last_beat\":{\"beats\":2,\"over_48\":0,\"in_48ths\":96},"
                           "\"main\":" TALLY ",\"kept\":" TALLY ",\"judged\":" TALLY ","
                           "\"densities\":[2],\"equally_spaced\":[true],"
                           "\"note_records\":[[0,0,0,null],[1,1,0,null]]}";

/* The sheet of the example in each form, and other forms, which are refused last of all. */
static void check_example_sheets(void)
{
    static const struct {
        const char *name, *sheet;
        size_t form;
    } sheets[] = {{"example, card", card, PADCHECK_SHEET_CARD},
                  {"example, print", print, PADCHECK_SHEET_PRINT},
                  {"example, JSON", json, PADCHECK_SHEET_JSON}};
    static const size_t others[] = {3, (size_t)1 << 32, SIZE_MAX};
    struct question question = {(const uint8_t *)text, sizeof text - 1, 4, (const uint8_t *)"", 0, 0};
    for (size_t i = 0; i < sizeof sheets / sizeof sheets[0]; i++) {
        struct answer answer = {0};
        set_main(&answer);
        answer.figures[PADCHECK_SHEET_BYTES] = strlen(sheets[i].sheet);
        set_contents(&answer, MEASURE_SPACING, &spaced, sizeof spaced);
        set_contents(&answer, SHEET, sheets[i].sheet, strlen(sheets[i].sheet));
        question.form = sheets[i].form;
        check_call(sheets[i].name, CHART_SHEET, &question, &answer);
    }
    for (size_t i = 0; i < sizeof others / sizeof others[0]; i++) {
        question.form = others[i];
        check_refused("example, another form", CHART_SHEET, &question, question.len, PADCHECK_OTHER_FORM);
        check_each_shorter("example, another form", CHART_SHEET, &question);
    }
}

/* A text of 16,777,215 bytes is accepted, one byte more is refused before anything else is looked at. */
static void check_longest(void)
{
    size_t len = PADCHECK_MAX_LEN + 1;
    uint8_t *data = memset(room_for(len), '1', len);
    struct question question = {data, len, 4, (const uint8_t *)"", 0, 0};
    for (enum call call = 0; call < CALLS; call++)
        check_refused("16777216 bytes", call, &question, 0, PADCHECK_LONG_TEXT);
    question.len = PADCHECK_MAX_LEN;
    struct answer answer = {0};
    check_call("16777215 bytes", LAST_BEAT, &question, &answer);
    free(data);
}

/* Reads a record out of `len` bytes on the heap; where that is refused the note must stay as it was. */
static void check_read(const uint8_t *records, size_t len, size_t index, uint32_t want, const uint64_t *want_note)
{
    static const uint64_t unset[PADCHECK_NOTE_FIGURES] = {77, 78, 79, 80};
    uint64_t *note = copy_of(unset, sizeof unset);
    uint8_t *copy = copy_of(records, len);
    uint32_t number = padcheck_read_note(copy, len, index, note);
    check(number == want, "record %zu of %zu bytes: returns %u, should be %u", index, len, number, want);
    const uint64_t *left = want == PADCHECK_ACCEPTED ? want_note : unset;
    check(memcmp(note, left, sizeof unset) == 0, "record %zu of %zu bytes: the note", index, len);
    free(copy);
    free(note);
}

static void check_records(void)
{
    static const uint64_t notes[][PADCHECK_NOTE_FIGURES] = {
        {0, PADCHECK_NO_TAIL, 0, PADCHECK_TAP},      {1, 2, 1, PADCHECK_HOLD},
        {16777214, 16777215, 9, PADCHECK_ROLL},      {16777215, PADCHECK_NO_TAIL, 3, PADCHECK_MINE},
        {66051, PADCHECK_NO_TAIL, 4, PADCHECK_LIFT}, {7, PADCHECK_NO_TAIL, 5, PADCHECK_FAKE},
    };
    enum { COUNT = sizeof notes / sizeof notes[0] };
    uint8_t records[COUNT * 10];
    for (size_t i = 0; i < COUNT; i++)
        put_record(records + PADCHECK_NOTE_BYTES * i, (uint32_t)notes[i][PADCHECK_NOTE_ROW],
                   (uint32_t)notes[i][PADCHECK_NOTE_TAIL], (uint8_t)notes[i][PADCHECK_NOTE_COLUMN],
                   (uint8_t)notes[i][PADCHECK_NOTE_KIND]);
    for (size_t i = 0; i < COUNT; i++)
        check_read(records, sizeof records, i, PADCHECK_ACCEPTED, notes[i]);
    check_read(records, sizeof records, COUNT, PADCHECK_NO_RECORD, NULL);
    check_read(records, sizeof records, SIZE_MAX, PADCHECK_NO_RECORD, NULL);
    check_read(records, sizeof records - 1, 0, PADCHECK_NO_RECORD, NULL);
    check_read(records, 1, 0, PADCHECK_NO_RECORD, NULL);
    check_read(records, 0, 0, PADCHECK_NO_RECORD, NULL);

    static const struct {
        uint32_t row, tail;
        uint8_t column, kind;
    } bad[] = {
        {0, UINT32_MAX, 10, PADCHECK_TAP},
        {0, UINT32_MAX, 0, 6},
        {16777216, UINT32_MAX, 0, PADCHECK_TAP},
        {0, 1, 0, PADCHECK_TAP},
        {0, UINT32_MAX, 0, PADCHECK_HOLD},
        {5, 5, 0, PADCHECK_HOLD},
        {5, 4, 0, PADCHECK_ROLL},
        {5, 16777216, 0, PADCHECK_HOLD},
        {0, UINT32_MAX - 1, 0, PADCHECK_FAKE},
    };
    for (size_t i = 0; i < sizeof bad / sizeof bad[0]; i++) {
        uint8_t record[10];
        put_record(record, bad[i].row, bad[i].tail, bad[i].column, bad[i].kind);
        check_read(record, sizeof record, 0, PADCHECK_BAD_RECORD, NULL);
    }
}

int main(int count, char **args)
{
    if (count != 2) {
        fprintf(stderr, "usage: check ANSWERS\nANSWERS is the stored sample, crates/replay_charts/stdin.\n");
        return 2;
    }
    check_header();
    check_example();
    check_dropped();
    check_example_sheets();
    check_longest();
    check_records();
    check_sm_files();
    check_written();
    check_presses();
    check_stored(args[1]);
    return checks_end() ? 0 : 1;
}
