/*
 * Every name of padcheck.h is tied twice: to the number that the definitions have, where the header is compiled, and to
 * what the library answers, where it runs. mutants.sh changes them one at a time; with CALLS_ALONE the first tie is left out.
 */
#include "header.h"
#include "calls.h"
#include "checks.h"
#include "lent.h"

#include <stdio.h>
#include <string.h>

#ifndef CALLS_ALONE
/* What crates/definitions names, as definitions.sh prints it. */
#define REFUSAL(name, number, words, cause) _Static_assert(PADCHECK_##name == (number), words);
#define FIELD(name, place) _Static_assert(PADCHECK_##name == 8 + (place), #name);
#include "definitions.h"
#undef REFUSAL
#undef FIELD
_Static_assert(PADCHECK_ACCEPTED == 0, "accepted");
_Static_assert(PADCHECK_MAX_LEN == 16777215, "the longest text");

/* The places of `figures` in Entries.antt. */
_Static_assert(PADCHECK_TEXT_BYTES == 0, "bytes");
_Static_assert(PADCHECK_MEASURES == 1, "measures");
_Static_assert(PADCHECK_ROWS == 2, "rows");
_Static_assert(PADCHECK_NOTES == 3, "records");
_Static_assert(PADCHECK_LAST_BEAT == 4, "the bits of the last beat");
_Static_assert(PADCHECK_HAS_HEADS == 5, "heads");
_Static_assert(PADCHECK_LAST_BEAT_48THS == 6, "last");
_Static_assert(PADCHECK_SHEET_BYTES == 7, "bytes of the sheet");
_Static_assert(PADCHECK_FIGURES == 32, "the figures");

/* "A note record has 10 bytes", its kinds, and `figures_of_note` in Entries.antt. */
_Static_assert(PADCHECK_NOTE_BYTES == 10, "a note record");
_Static_assert(PADCHECK_NO_TAIL == 4294967295, "no tail");
_Static_assert(PADCHECK_NOTE_ROW == 0, "row");
_Static_assert(PADCHECK_NOTE_TAIL == 1, "tail");
_Static_assert(PADCHECK_NOTE_COLUMN == 2, "column");
_Static_assert(PADCHECK_NOTE_KIND == 3, "kind");
_Static_assert(PADCHECK_NOTE_FIGURES == 4, "the figures of a note");
_Static_assert(PADCHECK_TAP == 0, "0 tap");
_Static_assert(PADCHECK_HOLD == 1, "1 hold");
_Static_assert(PADCHECK_ROLL == 2, "2 roll");
_Static_assert(PADCHECK_MINE == 3, "3 mine");
_Static_assert(PADCHECK_LIFT == 4, "4 lift");
_Static_assert(PADCHECK_FAKE == 5, "5 fake");

/* `encode_dropped` in Dropped.antt: where the fields of a record begin, and the numbers of the causes. */
_Static_assert(PADCHECK_DROPPED_BYTES == 10, "a dropped head's record");
_Static_assert(PADCHECK_NO_ROW == 4294967295, "no row");
_Static_assert(PADCHECK_DROPPED_ROW == 0, "row");
_Static_assert(PADCHECK_DROPPED_BY == 4, "the row that dropped it");
_Static_assert(PADCHECK_DROPPED_COLUMN == 8, "column");
_Static_assert(PADCHECK_DROPPED_REASON == 9, "reason");
_Static_assert(PADCHECK_BY_OTHER_HEAD == 0, "0 another head");
_Static_assert(PADCHECK_BY_OTHER_CELL == 1, "1 another cell");
_Static_assert(PADCHECK_BY_CHART_END == 2, "2 the end of the chart");

/* "A press record has 5 bytes", and `places_of_presses` in Presses.antt. */
_Static_assert(PADCHECK_PRESS_BYTES == 5, "a press's record");
_Static_assert(PADCHECK_PRESS_ROW == 0, "0 to 3 the row");
_Static_assert(PADCHECK_PRESS_COLUMN == 4, "4 the column");
_Static_assert(PADCHECK_HITS == 0, "hits");
_Static_assert(PADCHECK_STRAYS == 1, "strays");
_Static_assert(PADCHECK_MISSES == 2, "misses");
_Static_assert(PADCHECK_COLUMN_HITS == 3, "the hits of the columns");
_Static_assert(PADCHECK_COLUMN_MISSES == 13, "the misses of the columns");
_Static_assert(PADCHECK_PRESS_FIGURES == 23, "the figures of a trace");

/* The forms of a sheet. */
_Static_assert(PADCHECK_SHEET_CARD == 0, "0 card");
_Static_assert(PADCHECK_SHEET_PRINT == 1, "1 print");
_Static_assert(PADCHECK_SHEET_JSON == 2, "2 JSON");

/* What is answered for a chart of an SM file. */
_Static_assert(PADCHECK_CHART_LANES == 0, "lane count");
_Static_assert(PADCHECK_CHART_START == 1, "where the data begins");
_Static_assert(PADCHECK_CHART_LEN == 2, "how long the data is");
_Static_assert(PADCHECK_CHART_FIGURES == 3, "the figures of a chart in a file");
#endif

/* Room for the texts below, more than any name of the header could ask for. */
enum { ROOM = 4096 };

struct room {
    uint8_t text[ROOM], spacing[ROOM], notes[ROOM * 10], sheet[ROOM * 10];
    uint32_t densities[ROOM];
    float beats[ROOM];
    uint16_t work[ROOM];
    uint64_t figures[ROOM];
};

static struct room room;

/* The main call with slices of these lengths. */
static uint32_t ask_main(const uint8_t *data, size_t len, size_t text, size_t measures, size_t beats, size_t work,
                         size_t notes)
{
    return padcheck_minimize_chart_count_rows_notes(data, len, 4, room.text, text, room.densities, measures, room.beats,
                                                    beats, room.work, work, room.notes, notes, room.figures);
}

/* A chart whose figures are all different and none 0, but for `holding`, which is 0 at the end of every text. It is in
   the stored sample too. */
static const char chart[] =
    "L13K\n13M4\n3213\n1K33\nL4M2\n1413\nL21M\n1M13\n1F4L\n,\n1K3K\n4144\nMFK3\n3FL1\nMFFM\n11M1\n"
    "1M3L\nM2L1\n,\n4K1K\n34LK\n3M14\n1K3K\n4M13\n141M\n11KF\n";

/* The sheet of the chart in this form, with so many bytes for it. */
static uint32_t ask_sheet(size_t form, size_t sheet)
{
    return padcheck_chart_sheet((const uint8_t *)chart, sizeof chart - 1, 4, form, room.text, ROOM, room.densities,
                                ROOM, room.spacing, ROOM, room.beats, ROOM, room.work, ROOM, room.notes, ROOM * 10,
                                room.sheet, sheet, room.figures);
}

/* A flag for each of its rows: every one is judged but the fourth. */
static const uint8_t flags[24] = {1, 1, 1, 0, 1, 1, 1, 1, 1, 1, 1, 1, 1, 1, 1, 1, 1, 1, 1, 1, 1, 1, 1, 1};

struct figure {
    const char *name;
    int place;
    uint64_t want;
};

#define FIGURE(name, want) {#name, PADCHECK_##name, want}

static void check_figures(const char *call, uint32_t number, const struct figure *figures, size_t count)
{
    check(number == 0, "%s of a chart of different figures: returns %u", call, number);
    for (size_t i = 0; i < count; i++)
        check(room.figures[figures[i].place] == figures[i].want, "%s: %s is %llu, should be %llu", call,
              figures[i].name, (unsigned long long)room.figures[figures[i].place], (unsigned long long)figures[i].want);
    for (size_t i = 0; i < count; i++)
        for (size_t j = 0; j < i; j++)
            check(figures[i].want != figures[j].want, "%s: %s and %s are the same", call, figures[i].name,
                  figures[j].name);
    memset(&room, 0xA5, sizeof room);
}

#define CHECK_FIGURES(call, number, figures) check_figures(call, number, figures, sizeof figures / sizeof figures[0])

static void check_places(void)
{
    const uint8_t *data = (const uint8_t *)chart;
    const size_t len = sizeof chart - 1;
    static const struct figure main_figures[] = {
        FIGURE(TEXT_BYTES, 124),
        FIGURE(MEASURES, 3),
        FIGURE(ROWS, 24),
        FIGURE(NOTES, 59),
        FIGURE(LAST_BEAT, 4622628358147014656), /* 11.4375 */
        FIGURE(LAST_BEAT_48THS, 549),
        FIGURE(TOTAL_ARROWS, 32),
        FIGURE(LEFT, 12),
        FIGURE(DOWN, 4),
        FIGURE(UP, 9),
        FIGURE(RIGHT, 7),
        FIGURE(TOTAL_STEPS, 22),
        FIGURE(JUMPS, 10),
        FIGURE(HANDS, 2),
        FIGURE(MINES, 13),
        FIGURE(HOLDS, 1),
        FIGURE(ROLLS, 5),
        FIGURE(LIFTS, 8),
        FIGURE(FAKES, 6),
        FIGURE(HOLDING, 0),
        FIGURE(KEYSOUNDS, 11),
    };
    CHECK_FIGURES("minimize_chart_count_rows_notes", ask_main(data, len, ROOM, ROOM, ROOM, ROOM, ROOM * 10),
                  main_figures);
    static const struct figure kept_figures[] = {
        FIGURE(TEXT_BYTES, 124), FIGURE(MEASURES, 3), FIGURE(ROWS, 24), FIGURE(TOTAL_ARROWS, 32), FIGURE(LEFT, 12),
        FIGURE(DOWN, 4),         FIGURE(UP, 9),       FIGURE(RIGHT, 7), FIGURE(TOTAL_STEPS, 22),  FIGURE(JUMPS, 10),
        FIGURE(HANDS, 2),        FIGURE(MINES, 13),   FIGURE(HOLDS, 1), FIGURE(ROLLS, 5),         FIGURE(LIFTS, 8),
        FIGURE(FAKES, 6),        FIGURE(HOLDING, 0),  FIGURE(KEYSOUNDS, 11),
    };
    CHECK_FIGURES(
        "process_chart_kept",
        padcheck_process_chart_kept(data, len, 4, room.text, ROOM, room.densities, ROOM, room.work, ROOM, room.figures),
        kept_figures);
    static const struct figure timing_figures[] = {FIGURE(TEXT_BYTES, 96), FIGURE(ROWS, 24), FIGURE(HAS_HEADS, 1)};
    CHECK_FIGURES("minimize_timing_rows",
                  padcheck_minimize_timing_rows(data, len, 4, room.text, ROOM, room.beats, ROOM, room.figures),
                  timing_figures);
    static const struct figure measure_figures[] = {FIGURE(MEASURES, 3)};
    CHECK_FIGURES("measure_densities", padcheck_measure_densities(data, len, 4, room.densities, ROOM, room.figures),
                  measure_figures);
    CHECK_FIGURES("equally_spaced", padcheck_equally_spaced(data, len, 4, room.spacing, ROOM, room.figures),
                  measure_figures);
    static const struct figure dropped_figures[] = {
        FIGURE(TEXT_BYTES, 124),
        FIGURE(MEASURES, 3),
        FIGURE(ROWS, 24),
        FIGURE(NOTES, 10),
    };
    CHECK_FIGURES("dropped_holds",
                  padcheck_dropped_holds(data, len, 4, room.text, ROOM, room.notes, ROOM * 10, room.figures),
                  dropped_figures);
    static const struct figure last_figures[] = {FIGURE(LAST_BEAT, 4622628358147014656), FIGURE(LAST_BEAT_48THS, 549)};
    CHECK_FIGURES("chart_last_beat", padcheck_chart_last_beat(data, len, 4, room.figures), last_figures);
    static const struct figure judged_figures[] = {
        FIGURE(TOTAL_ARROWS, 40), FIGURE(LEFT, 15),  FIGURE(DOWN, 4),  FIGURE(UP, 12),     FIGURE(RIGHT, 9),
        FIGURE(TOTAL_STEPS, 22),  FIGURE(JUMPS, 16), FIGURE(HANDS, 3), FIGURE(MINES, 13),  FIGURE(HOLDS, 1),
        FIGURE(ROLLS, 5),         FIGURE(LIFTS, 8),  FIGURE(FAKES, 6), FIGURE(HOLDING, 0),
        FIGURE(KEYSOUNDS, 11),
    };
    CHECK_FIGURES("process_rows_judgable", padcheck_process_rows_judgable(data, len, 4, room.work, ROOM, room.figures),
                  judged_figures);
    static const struct figure flagged_figures[] = {
        FIGURE(TOTAL_ARROWS, 39), FIGURE(LEFT, 14),  FIGURE(DOWN, 4),  FIGURE(UP, 12),     FIGURE(RIGHT, 9),
        FIGURE(TOTAL_STEPS, 21),  FIGURE(JUMPS, 16), FIGURE(HANDS, 3), FIGURE(MINES, 13),  FIGURE(HOLDS, 1),
        FIGURE(ROLLS, 5),         FIGURE(LIFTS, 8),  FIGURE(FAKES, 7), FIGURE(HOLDING, 0),
        FIGURE(KEYSOUNDS, 10),
    };
    CHECK_FIGURES("process_timing_rows",
                  padcheck_process_timing_rows(data, len, 4, flags, sizeof flags, room.work, ROOM, room.figures),
                  flagged_figures);
}

/* The six directions of a chart of six lanes, in the order of its columns. */
static void check_six_lanes(void)
{
    static const char text[] = "111111\n011111\n001111\n000111\n000011\n000001\n";
    const uint8_t *data = (const uint8_t *)text;
    const size_t len = sizeof text - 1;
    static const struct figure figures[] = {
        FIGURE(LEFT, 1), FIGURE(UP_LEFT, 2),  FIGURE(DOWN, 3),          FIGURE(UP, 4),
        FIGURE(RIGHT, 6), FIGURE(UP_RIGHT, 5), FIGURE(TOTAL_ARROWS, 21),
    };
    CHECK_FIGURES(
        "process_chart_kept of six lanes",
        padcheck_process_chart_kept(data, len, 6, room.text, ROOM, room.densities, ROOM, room.work, ROOM, room.figures),
        figures);
    CHECK_FIGURES("process_rows_judgable of six lanes",
                  padcheck_process_rows_judgable(data, len, 6, room.work, ROOM, room.figures), figures);
}

/* The sheet of the chart in each form, known by its first bytes and its length. */
static void check_forms(void)
{
    static const struct {
        const char *name, *begins;
        size_t form;
        uint64_t bytes;
    } forms[] = {{"card", "measures 3\nrows 24\n", PADCHECK_SHEET_CARD, 717},
                 {"print", "measures            3\n", PADCHECK_SHEET_PRINT, 1160},
                 {"JSON", "{\"measures\":3,", PADCHECK_SHEET_JSON, 1563}};
    for (size_t i = 0; i < sizeof forms / sizeof forms[0]; i++) {
        uint32_t number = ask_sheet(forms[i].form, ROOM * 10);
        uint64_t bytes = room.figures[PADCHECK_SHEET_BYTES];
        check(number == PADCHECK_ACCEPTED, "%s: returns %u", forms[i].name, number);
        check(memcmp(room.sheet, forms[i].begins, strlen(forms[i].begins)) == 0, "%s: the first bytes", forms[i].name);
        check(bytes == forms[i].bytes, "%s: %llu bytes, should be %llu", forms[i].name, (unsigned long long)bytes,
              (unsigned long long)forms[i].bytes);
    }
}

/* A call sets 32 figures and no more. */
static void check_figure_count(void)
{
    memset(&room, 0xA5, sizeof room);
    padcheck_chart_last_beat((const uint8_t *)chart, sizeof chart - 1, 4, room.figures);
    size_t set = 0;
    while (room.figures[set] != 0xA5A5A5A5A5A5A5A5)
        set++;
    check(set == PADCHECK_FIGURES, "a call sets %zu figures, PADCHECK_FIGURES is %d", set, PADCHECK_FIGURES);
}

/* All six kinds, each with a row, column and tail of its own. */
static void check_kinds(void)
{
    static const char text[] = "1240\n0000\n0000\n0000\n0030\nM30L\n000F\n";
    static const struct {
        const char *name;
        enum padcheck_kind kind;
        uint64_t row, tail, column;
    } wanted[] = {
        {"TAP", PADCHECK_TAP, 0, PADCHECK_NO_TAIL, 0},
        {"HOLD", PADCHECK_HOLD, 0, 5, 1},
        {"ROLL", PADCHECK_ROLL, 0, 4, 2},
        {"MINE", PADCHECK_MINE, 5, PADCHECK_NO_TAIL, 0},
        {"LIFT", PADCHECK_LIFT, 5, PADCHECK_NO_TAIL, 3},
        {"FAKE", PADCHECK_FAKE, 6, PADCHECK_NO_TAIL, 3},
    };
    enum { COUNT = sizeof wanted / sizeof wanted[0] };
    ask_main((const uint8_t *)text, sizeof text - 1, ROOM, ROOM, ROOM, ROOM, ROOM * 10);
    check(room.figures[PADCHECK_NOTES] == COUNT, "the text of all kinds has %d notes", COUNT);
    for (size_t i = 0; i < COUNT; i++) {
        uint64_t note[8];
        memset(note, 0xA5, sizeof note);
        uint32_t number = padcheck_read_note(room.notes, COUNT * PADCHECK_NOTE_BYTES, i, note);
        check(number == PADCHECK_ACCEPTED, "%s: returns %u", wanted[i].name, number);
        check(note[PADCHECK_NOTE_ROW] == wanted[i].row, "%s: row", wanted[i].name);
        check(note[PADCHECK_NOTE_TAIL] == wanted[i].tail, "%s: tail", wanted[i].name);
        check(note[PADCHECK_NOTE_COLUMN] == wanted[i].column, "%s: column", wanted[i].name);
        check(note[PADCHECK_NOTE_KIND] == wanted[i].kind, "%s: kind", wanted[i].name);
        check(note[PADCHECK_NOTE_FIGURES - 1] != 0xA5A5A5A5A5A5A5A5 &&
                  note[PADCHECK_NOTE_FIGURES] == 0xA5A5A5A5A5A5A5A5,
              "%s: a note has %d figures", wanted[i].name, PADCHECK_NOTE_FIGURES);
    }
}

static uint32_t low_first(const uint8_t *at)
{
    return (uint32_t)at[0] | (uint32_t)at[1] << 8 | (uint32_t)at[2] << 16 | (uint32_t)at[3] << 24;
}

/* A head dropped for each reason, each with a row, a dropping row and a column of its own. */
static void check_dropped_places(void)
{
    static const char text[] = "0000\n0200\n0002\n0000\n0001\n0000\n0400\n";
    static const struct {
        const char *name;
        enum padcheck_drop_reason reason;
        uint32_t row, by;
        uint8_t column;
    } wanted[] = {
        {"BY_OTHER_HEAD", PADCHECK_BY_OTHER_HEAD, 1, 6, 1},
        {"BY_OTHER_CELL", PADCHECK_BY_OTHER_CELL, 2, 4, 3},
        {"BY_CHART_END", PADCHECK_BY_CHART_END, 6, PADCHECK_NO_ROW, 1},
    };
    enum { COUNT = sizeof wanted / sizeof wanted[0] };
    memset(&room, 0xA5, sizeof room);
    uint32_t number = padcheck_dropped_holds((const uint8_t *)text, sizeof text - 1, 4, room.text, ROOM, room.notes,
                                             ROOM * 10, room.figures);
    check(number == PADCHECK_ACCEPTED, "dropped heads: returns %u", number);
    check(room.figures[PADCHECK_TEXT_BYTES] == 35 && room.figures[PADCHECK_MEASURES] == 1 &&
              room.figures[PADCHECK_ROWS] == 7 && room.figures[PADCHECK_NOTES] == COUNT,
          "dropped heads: figures");
    for (size_t i = 0; i < COUNT; i++) {
        const uint8_t *record = room.notes + PADCHECK_DROPPED_BYTES * i;
        check(low_first(record + PADCHECK_DROPPED_ROW) == wanted[i].row, "%s: row", wanted[i].name);
        check(low_first(record + PADCHECK_DROPPED_BY) == wanted[i].by, "%s: the row that dropped it", wanted[i].name);
        check(record[PADCHECK_DROPPED_COLUMN] == wanted[i].column, "%s: column", wanted[i].name);
        check(record[PADCHECK_DROPPED_REASON] == wanted[i].reason, "%s: reason", wanted[i].name);
    }
}

/* Room for the records below. */
enum { FEW = 4 };

/* The call on the first of four notes that make a chart of five rows, with so many bytes for it. */
static uint32_t ask_written(size_t lanes, size_t records_len, const uint32_t *counts, size_t counts_len, size_t text)
{
    uint8_t records[FEW * 10];
    put_record(records, 0, UINT32_MAX, 0, PADCHECK_TAP);
    put_record(records + 10, 0, 1, 1, PADCHECK_HOLD);
    put_record(records + 20, 3, UINT32_MAX, 2, PADCHECK_MINE);
    put_record(records + 30, 4, UINT32_MAX, 3, PADCHECK_FAKE);
    return padcheck_notes_to_chart(records, records_len, lanes, counts, counts_len, room.text, text, room.figures);
}

static const uint32_t five_rows[] = {2, 0, 3};

/* A chart that is written, with figures that are all different. */
static void check_written_places(void)
{
    static const char text[] = "1200\n0300\n,\n,\n0000\n00M0\n000F\n";
    static const struct figure figures[] = {
        FIGURE(TEXT_BYTES, sizeof text - 1),
        FIGURE(MEASURES, 3),
        FIGURE(ROWS, 5),
        FIGURE(NOTES, FEW),
    };
    size_t len = padcheck_written_len(4, five_rows, 3);
    check(len == sizeof text - 1, "the written text has %zu bytes", len);
    uint32_t number = ask_written(4, FEW * PADCHECK_NOTE_BYTES, five_rows, 3, len);
    check(memcmp(room.text, text, len) == 0, "the written text");
    CHECK_FIGURES("notes_to_chart", number, figures);
}

/* Lists of row counts: the slice is refused one byte short and accepted as it is, and the length is 0 where 1 refuses. */
static void check_written_lengths(size_t lanes)
{
    static const uint32_t counts[] = {3, 1, 0, 7, 3355443, UINT32_MAX};
    for (size_t first = 0; first < 4; first++)
        for (size_t count = 1; first + count <= 4; count++) {
            size_t rows = 0;
            for (size_t i = 0; i < count; i++)
                rows += counts[first + i];
            size_t len = padcheck_written_len(lanes, counts + first, count);
            check(len == (lanes + 1) * rows + 2 * (count - 1), "%zu counts at %zu lanes: %zu bytes", count, lanes, len);
            check(ask_written(lanes, 0, counts + first, count, len) == PADCHECK_ACCEPTED, "the written length");
            if (len > 0)
                check(ask_written(lanes, 0, counts + first, count, len - 1) == PADCHECK_SHORT_TEXT, "one byte less");
        }
    check(padcheck_written_len(lanes, counts, 0) == 0, "no count: no byte");
    check((padcheck_written_len(lanes, counts + 4, 1) == 0) == (lanes > 4), "%zu lanes: about the limit", lanes);
    check(padcheck_written_len(lanes, counts + 5, 1) == 0, "%zu lanes: past the limit", lanes);
    check(ask_written(lanes, 0, counts + 5, 1, 0) == PADCHECK_LONG_TEXT, "%zu lanes: past the limit", lanes);
}

/* An SM file of two charts: lane count, place and length of the second one's data are all different. */
static void check_chart_places(void)
{
    static const char text[] = "#NOTES:pump-double:::::;\n#NOTES:dance-double:::::00000001\n;\n";
    uint64_t place[8];
    memset(place, 0xA5, sizeof place);
    uint32_t number = padcheck_sm_chart((const uint8_t *)text, sizeof text - 1, 1, place);
    check(number == PADCHECK_ACCEPTED, "a chart of an SM file: returns %u", number);
    check(place[PADCHECK_CHART_LANES] == 8, "a chart of an SM file: lanes");
    check(place[PADCHECK_CHART_START] == 49, "a chart of an SM file: where the data begins");
    check(place[PADCHECK_CHART_LEN] == 10, "a chart of an SM file: how long the data is");
    check(place[PADCHECK_CHART_FIGURES - 1] != 0xA5A5A5A5A5A5A5A5 &&
              place[PADCHECK_CHART_FIGURES] == 0xA5A5A5A5A5A5A5A5,
          "a chart of an SM file has %d figures", PADCHECK_CHART_FIGURES);
}

/* A trace whose 23 numbers are all different: column c has PRESSED + c notes that are pressed and below them MISSED + c that
   are not, and below all notes some rows are pressed throughout. */
enum { COLUMNS = 10, PRESSED = 1, MISSED = 11, NOTE_ROWS = 30, STRAY_ROWS = 7 };

static void check_press_places(void)
{
    size_t notes = 0, presses = 0;
    uint64_t counts[ROOM];
    memset(&room, 0xA5, sizeof room);
    memset(counts, 0xA5, sizeof counts);
    for (uint32_t row = 0; row < NOTE_ROWS + STRAY_ROWS; row++)
        for (uint8_t column = 0; column < COLUMNS; column++) {
            if (row < (uint32_t)(PRESSED + MISSED + 2 * column))
                put_record(room.notes + PADCHECK_NOTE_BYTES * notes++, row, UINT32_MAX, column, PADCHECK_TAP);
            if (row < NOTE_ROWS && row >= (uint32_t)(PRESSED + column))
                continue;
            uint8_t *press = room.text + PADCHECK_PRESS_BYTES * presses++;
            put_row(press + PADCHECK_PRESS_ROW, row);
            press[PADCHECK_PRESS_COLUMN] = column;
        }
    uint32_t number = padcheck_press_trace(room.notes, PADCHECK_NOTE_BYTES * notes, room.text,
                                           PADCHECK_PRESS_BYTES * presses, counts);
    check(number == PADCHECK_ACCEPTED, "a trace of different numbers: returns %u", number);
    check(counts[PADCHECK_HITS] == 55, "a trace: hits");
    check(counts[PADCHECK_STRAYS] == 70, "a trace: strays");
    check(counts[PADCHECK_MISSES] == 155, "a trace: misses");
    for (int column = 0; column < COLUMNS; column++) {
        check(counts[PADCHECK_COLUMN_HITS + column] == (uint64_t)(PRESSED + column), "a trace: hits of column %d", column);
        check(counts[PADCHECK_COLUMN_MISSES + column] == (uint64_t)(MISSED + column), "a trace: misses of column %d",
              column);
    }
    check(counts[PADCHECK_PRESS_FIGURES - 1] != 0xA5A5A5A5A5A5A5A5 &&
              counts[PADCHECK_PRESS_FIGURES] == 0xA5A5A5A5A5A5A5A5,
          "a trace has %d figures", PADCHECK_PRESS_FIGURES);
}

/* The lengths at each lane count: each is refused one element short and accepted as it is. */
static void check_lengths(void)
{
    static const size_t lane_counts[] = {4, 5, 6, 8, 10};
    static const size_t lens[] = {1, 2, 3, 4, 5, 6, 9, 10, 11, 12, 13, 23, 54, 55, 87, 88};
    uint8_t data[88];
    memset(data, '1', sizeof data);
    for (size_t i = 0; i < sizeof lane_counts / sizeof lane_counts[0]; i++) {
        size_t lanes = lane_counts[i];
        check_written_lengths(lanes);
        check(padcheck_is_lane_count(lanes), "%zu lanes: a lane count", lanes);
        for (size_t j = 0; j < sizeof lens / sizeof lens[0]; j++) {
            struct question question = {data, lens[j], lanes, data, 0, (i + j) % 3};
            check_exact("lengths", &question);
        }
    }
}

/* Every other lane number is refused before all else, and the lengths that go by it are 0. */
static void check_other_lanes(size_t lanes)
{
    uint8_t data[88];
    memset(data, '1', sizeof data);
    check(!padcheck_is_lane_count(lanes), "%zu lanes: no lane count", lanes);
    check(padcheck_beats_len(87, lanes) == 0 && padcheck_work_len(87, lanes) == 0 && padcheck_notes_len(87, lanes) == 0,
          "%zu lanes: the lengths that go by it", lanes);
    check(padcheck_written_len(lanes, five_rows, 3) == 0, "%zu lanes: the length of what is written", lanes);
    check(ask_written(lanes, 1, five_rows, 0, 0) == PADCHECK_OTHER_LANES, "%zu lanes: to write a chart", lanes);
    for (enum call call = 0; call < CALLS; call++)
        for (size_t form = 0; form <= 3; form += 3) {
            struct question question = {data, sizeof data, lanes, data, 0, form};
            check_refused("another lane number", call, &question, sizeof data, PADCHECK_OTHER_LANES);
            check_refused("another lane number and short slices", call, &question, 0, PADCHECK_OTHER_LANES);
        }
}

static void check_lane_numbers(void)
{
    for (size_t lanes = 0; lanes <= 300; lanes++)
        if (lanes != 4 && lanes != 5 && lanes != 6 && lanes != 8 && lanes != 10)
            check_other_lanes(lanes);
    check_other_lanes(((size_t)1 << 32) + 4);
    check_other_lanes(SIZE_MAX / 4);
    check_other_lanes(SIZE_MAX);
}

/* What crates/definitions says of each refusal. */
static const struct {
    uint32_t number;
    const char *words, *cause;
} refusals[] = {
#define REFUSAL(name, number, words, cause) {number, words, cause},
#define FIELD(name, place)
#include "definitions.h"
};

/* A number is said in the library's words, and one that is no refusal has none of them. */
static void check_said(uint32_t number)
{
    const char *words = number == 0 ? "accepted" : "no number of this library", *cause = "nobody";
    for (size_t i = 0; i < sizeof refusals / sizeof refusals[0]; i++)
        if (refusals[i].number == number) {
            words = refusals[i].words;
            cause = refusals[i].cause;
        }
    check(strcmp(padcheck_words(number), words) == 0, "the words for %u are '%s', should be '%s'", number,
          padcheck_words(number), words);
    check(strcmp(padcheck_caused_by(number), cause) == 0, "%u is caused by '%s', should be '%s'", number,
          padcheck_caused_by(number), cause);
}

static void check_words(void)
{
    for (uint32_t number = 0; number < 100; number++)
        check_said(number);
    check_said(UINT32_MAX);
}

/* Each refusal by its name, with the words that say what was wrong. */
static void check_refusal(const char *name, uint32_t number, uint32_t want, const char *words)
{
    check(number == want, "%s: returns %u, the header has %u", name, number, want);
    check(strstr(padcheck_words(number), words) != NULL, "%s: the words are '%s'", name, padcheck_words(number));
}

/* The first chart of an SM file. */
static uint32_t ask_file(const char *file, uint64_t *place)
{
    return padcheck_sm_chart((const uint8_t *)file, strlen(file), 0, place);
}

static void check_refusals(void)
{
    static uint8_t longest[16777216];
    const uint8_t *data = (const uint8_t *)chart;
    const size_t len = sizeof chart - 1;
    uint64_t note[8];
    check_refusal("accepted", ask_main(data, len, ROOM, ROOM, ROOM, ROOM, ROOM * 10), PADCHECK_ACCEPTED, "accepted");
    check_refusal("a text too long", ask_main(longest, PADCHECK_MAX_LEN + 1, 0, 0, 0, 0, 0), PADCHECK_LONG_TEXT,
                  "longer than the call takes");
    check_refusal("another lane number", padcheck_chart_last_beat(longest, PADCHECK_MAX_LEN + 1, 7, room.figures),
                  PADCHECK_OTHER_LANES, "none of 4, 5, 6, 8 and 10");
    check_refusal("the longest text", padcheck_chart_last_beat(longest, PADCHECK_MAX_LEN, 4, room.figures),
                  PADCHECK_ACCEPTED, "accepted");
    check_refusal("a text slice too short", ask_main(data, len, 0, 0, 0, 0, 0), PADCHECK_SHORT_TEXT, "text slice");
    check_refusal("a measure slice too short", ask_main(data, len, ROOM, 0, 0, 0, 0), PADCHECK_SHORT_MEASURES,
                  "measure slice");
    check_refusal("a beat slice too short", ask_main(data, len, ROOM, ROOM, 0, 0, 0), PADCHECK_SHORT_BEATS,
                  "beat slice");
    check_refusal("a work slice too short", ask_main(data, len, ROOM, ROOM, ROOM, 0, 0), PADCHECK_SHORT_WORK,
                  "work slice");
    check_refusal("a note slice too short", ask_main(data, len, ROOM, ROOM, ROOM, ROOM, 0), PADCHECK_SHORT_NOTES,
                  "note slice");
    check_refusal("a list too short",
                  padcheck_dropped_holds(data, len, 4, room.text, ROOM, room.notes, 0, room.figures),
                  PADCHECK_SHORT_NOTES, "note slice");
    check_refusal("no record", padcheck_read_note(data, 0, 0, note), PADCHECK_NO_RECORD, "none of that number");
    check_refusal("a bad record", padcheck_read_note(data, PADCHECK_NOTE_BYTES, 0, note), PADCHECK_BAD_RECORD,
                  "record breaks a limit");
    static const uint32_t long_counts[] = {16777216}, one_row[] = {1}, six_rows[] = {6};
    check_refusal("a text to be written too long", ask_written(4, 0, long_counts, 1, ROOM), PADCHECK_LONG_TEXT,
                  "longer than the call takes");
    check_refusal("a part of a record", ask_written(4, 1, one_row, 1, ROOM), PADCHECK_NO_RECORD, "part of a record");
    check_refusal("records that break a limit",
                  padcheck_notes_to_chart(data, PADCHECK_NOTE_BYTES, 4, one_row, 1, room.text, ROOM, room.figures),
                  PADCHECK_BAD_RECORD, "a record breaks a limit");
    uint8_t twice[2 * 10];
    put_record(twice, 0, UINT32_MAX, 0, PADCHECK_TAP);
    put_record(twice + 10, 0, UINT32_MAX, 0, PADCHECK_TAP);
    check_refusal("a note twice",
                  padcheck_notes_to_chart(twice, sizeof twice, 4, one_row, 1, room.text, ROOM, room.figures),
                  PADCHECK_OUT_OF_ORDER, "does not stand before the next");
    put_record(twice, 0, 1, 0, PADCHECK_ROLL);
    put_record(twice + 10, 1, UINT32_MAX, 0, PADCHECK_TAP);
    check_refusal("a note at a tail",
                  padcheck_notes_to_chart(twice, sizeof twice, 4, six_rows, 1, room.text, ROOM, room.figures),
                  PADCHECK_NOTES_MEET, "meet");
    check_refusal("rows of other counts", ask_written(4, PADCHECK_NOTE_BYTES, six_rows, 1, ROOM),
                  PADCHECK_OTHER_COUNTS, "row counts");
    check_refusal("no room for what is written", ask_written(4, PADCHECK_NOTE_BYTES, one_row, 1, 4),
                  PADCHECK_SHORT_TEXT, "text slice");
    check_refusal("half a press", padcheck_press_trace(twice, 0, data, 2, room.figures), PADCHECK_BAD_TRACE,
                  "part of a press");
    check_refusal("a sheet slice too short", ask_sheet(PADCHECK_SHEET_CARD, 0), PADCHECK_SHORT_SHEET,
                  "sheet slice");
    check_refusal("another form", ask_sheet(3, ROOM * 10), PADCHECK_OTHER_FORM, "over 2");
    check_refusal("few fields", ask_file("#NOTES:dance-single::::", note), PADCHECK_FEW_FIELDS, "five fields");
    check_refusal("another type", ask_file("#NOTES:lights-cabinet:::::", note), PADCHECK_OTHER_TYPE, "another type");
    check_refusal("no chart", ask_file("#TITLE:none;", note), PADCHECK_NO_CHART, "no such block");
    check_refusal("an SM file too long", padcheck_sm_chart(longest, PADCHECK_MAX_LEN + 1, 0, note),
                  PADCHECK_LONG_TEXT, "longer than the call takes");
    check_refusal("the longest SM file", padcheck_sm_chart(longest, PADCHECK_MAX_LEN, 0, note), PADCHECK_NO_CHART,
                  "no such block");
}

/* The version's words are its numbers. */
static void check_version(void)
{
    char words[64];
    snprintf(words, sizeof words, "%d.%d.%d", PADCHECK_VERSION_MAJOR, PADCHECK_VERSION_MINOR, PADCHECK_VERSION_PATCH);
    check(strcmp(words, PADCHECK_VERSION) == 0, "the version is %s, its numbers are %s", PADCHECK_VERSION, words);
}

void check_header(void)
{
    check_version();
    check_places();
    check_six_lanes();
    check_forms();
    check_figure_count();
    check_kinds();
    check_dropped_places();
    check_chart_places();
    check_written_places();
    check_press_places();
    check_lengths();
    check_lane_numbers();
    check_words();
    check_refusals();
}
