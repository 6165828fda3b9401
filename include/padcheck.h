/*
 * padcheck.h: the chart figures of libpadcheck.a, for C and C++.
 *
 * `sh tools/build.sh lib` writes target/staticlib/libpadcheck.a; link it after the object files that use it:
 *     cc -I include program.c target/staticlib/libpadcheck.a
 *
 * The densities of the len bytes at data, read with 4 lanes:
 *     size_t room = padcheck_measures_len(len);
 *     uint32_t *densities = calloc(room, sizeof *densities);
 *     uint64_t figures[PADCHECK_FIGURES];
 *     uint32_t number = padcheck_measure_densities(data, len, 4, densities, room, figures);
 *     if (number == PADCHECK_ACCEPTED)
 *         printf("%u in the first of %u measures\n", densities[0], (unsigned)figures[PADCHECK_MEASURES]);
 *     else
 *         printf("refused %u: %s, by %s\n", number, padcheck_words(number), padcheck_caused_by(number));
 *
 * What a caller owes. A slice is a pointer and how many elements stand behind it. A pointer is not NULL, also
 * where its length is 0, and is aligned for its type. What is lent for writing overlaps nothing else that is lent,
 * and nobody else touches it until the call returns. `figures` has 32 numbers, `note` has 4, `chart` has 3, `presses`
 * has 23. The library keeps no pointer, has no state and allocates nothing, so calls in several threads do not meet.
 *
 * What a caller gets. Each call returns 0 for accepted, else the number of a refusal, and then it has written nothing.
 * After an accepted call every entry past the answer in a slice lent for writing is 0, the work slice is 0 throughout,
 * and every place of `figures` that the call does not answer is 0. No chart text is refused for its content; a chart
 * inside an SM file is, by 9 and 10, notes from which a chart is to be written are, by 7, 8 and 13 to 15, and notes and
 * the presses that are set against them are, by 7, 8, 13 and 16.
 */
#ifndef PADCHECK_H
#define PADCHECK_H

#include <stddef.h>
#include <stdint.h>

/* The version of the library, as words and as numbers. */
#define PADCHECK_VERSION "0.5.0"
#define PADCHECK_VERSION_MAJOR 0
#define PADCHECK_VERSION_MINOR 5
#define PADCHECK_VERSION_PATCH 0

#ifdef __cplusplus
extern "C" {
#endif

/*
 * What a call returns, by the library's names; padcheck_words says what each means. Refusals are checked in the order
 * that stands above the call, each only where the call is lent that thing.
 */
enum padcheck_number {
    PADCHECK_ACCEPTED = 0,
    PADCHECK_LONG_TEXT = 1,
    PADCHECK_SHORT_TEXT = 2,
    PADCHECK_SHORT_MEASURES = 3,
    PADCHECK_SHORT_BEATS = 4,
    PADCHECK_SHORT_WORK = 5,
    PADCHECK_SHORT_NOTES = 6,
    PADCHECK_NO_RECORD = 7,
    PADCHECK_BAD_RECORD = 8,
    PADCHECK_FEW_FIELDS = 9,
    PADCHECK_OTHER_TYPE = 10,
    PADCHECK_NO_CHART = 11,
    PADCHECK_OTHER_LANES = 12,
    PADCHECK_OUT_OF_ORDER = 13,
    PADCHECK_NOTES_MEET = 14,
    PADCHECK_OTHER_COUNTS = 15,
    PADCHECK_BAD_TRACE = 16,
    PADCHECK_SHORT_SHEET = 19,
    PADCHECK_OTHER_FORM = 20
};

/*
 * What is wrong, in the library's words. len is the length of the text or SM file in bytes; L and R are given below.
 * The measure slice is that of the densities or of the spacing, the note slice that of the notes or of the dropped heads.
 */
static inline const char *padcheck_words(uint32_t number)
{
    switch (number) {
    case PADCHECK_ACCEPTED:
        return "accepted";
    case PADCHECK_LONG_TEXT:
        return "the text or file, or the text to be written, is longer than the call takes";
    case PADCHECK_SHORT_TEXT:
        return "the text slice is shorter than the call needs";
    case PADCHECK_SHORT_MEASURES:
        return "the measure slice is shorter than the call needs";
    case PADCHECK_SHORT_BEATS:
        return "the beat slice is shorter than R";
    case PADCHECK_SHORT_WORK:
        return "the work slice is shorter than R";
    case PADCHECK_SHORT_NOTES:
        return "the note slice is shorter than 10 * L * R";
    case PADCHECK_NO_RECORD:
        return "the records end in part of a record, or there is none of that number";
    case PADCHECK_BAD_RECORD:
        return "a record breaks a limit";
    case PADCHECK_FEW_FIELDS:
        return "the block has fewer than five fields";
    case PADCHECK_OTHER_TYPE:
        return "the chart has another type name";
    case PADCHECK_NO_CHART:
        return "the file has no such block";
    case PADCHECK_OTHER_LANES:
        return "the lane number is none of 4, 5, 6, 8 and 10";
    case PADCHECK_OUT_OF_ORDER:
        return "a note does not stand before the next, or its column is not below L";
    case PADCHECK_NOTES_MEET:
        return "two notes of a column meet";
    case PADCHECK_OTHER_COUNTS:
        return "the row counts are not those of the notes, or a measure could be minimised";
    case PADCHECK_BAD_TRACE:
        return "the trace has part of a press, a column over 9, or a press that falls";
    case PADCHECK_SHORT_SHEET:
        return "the sheet slice is shorter than 42 * (len + 1) + 3000";
    case PADCHECK_OTHER_FORM:
        return "the form's number is over 2";
    default:
        return "no number of this library";
    }
}

/* Whose mistake it is. */
static inline const char *padcheck_caused_by(uint32_t number)
{
    switch (number) {
    case PADCHECK_LONG_TEXT:
    case PADCHECK_SHORT_TEXT:
    case PADCHECK_SHORT_MEASURES:
    case PADCHECK_SHORT_BEATS:
    case PADCHECK_SHORT_WORK:
    case PADCHECK_SHORT_NOTES:
    case PADCHECK_SHORT_SHEET:
    case PADCHECK_OTHER_FORM:
        return "whoever wires up the call";
    case PADCHECK_NO_RECORD:
    case PADCHECK_BAD_RECORD:
        return "whoever stores note records";
    case PADCHECK_FEW_FIELDS:
    case PADCHECK_OTHER_TYPE:
        return "whoever writes the SM file";
    case PADCHECK_NO_CHART:
        return "whoever asks for the chart";
    case PADCHECK_OTHER_LANES:
        return "whoever gives the lane number";
    case PADCHECK_OUT_OF_ORDER:
    case PADCHECK_NOTES_MEET:
        return "whoever edits the notes";
    case PADCHECK_OTHER_COUNTS:
        return "whoever counts the rows";
    case PADCHECK_BAD_TRACE:
        return "whoever records the trace";
    default:
        return "nobody";
    }
}

/* The longest text that is accepted, and the longest SM file, in bytes. */
#define PADCHECK_MAX_LEN ((size_t)16777215)

/* Bytes of a note record, and the tail that stands for none. */
#define PADCHECK_NOTE_BYTES ((size_t)10)
#define PADCHECK_NO_TAIL ((uint64_t)4294967295)

/* Bytes of a dropped head's record, and the row that stands for none. */
#define PADCHECK_DROPPED_BYTES ((size_t)10)
#define PADCHECK_NO_ROW ((uint32_t)4294967295)

/* Bytes of a press's record. */
#define PADCHECK_PRESS_BYTES ((size_t)5)

/* How many numbers `figures`, `note`, `chart` and `presses` have. */
#define PADCHECK_FIGURES 32
#define PADCHECK_NOTE_FIGURES 4
#define PADCHECK_CHART_FIGURES 3
#define PADCHECK_PRESS_FIGURES 23

/* Whether a lane number is a lane count, L: every other number is refused. */
static inline int padcheck_is_lane_count(size_t lanes)
{
    return lanes == 4 || lanes == 5 || lanes == 6 || lanes == 8 || lanes == 10;
}

/*
 * The lengths that suffice for a text of len bytes, in elements; len is at most PADCHECK_MAX_LEN.
 * A slice may be longer. R, the most rows a text can hold, is (len + 1) div (L + 1). For a lane number that is refused
 * the lengths that go by it are 0.
 */
static inline size_t padcheck_text_len(size_t len)
{
    return len + 1;
}
static inline size_t padcheck_measures_len(size_t len)
{
    return (len + 1) / 2 + 1;
}
static inline size_t padcheck_beats_len(size_t len, size_t lanes)
{
    return padcheck_is_lane_count(lanes) ? (len + 1) / (lanes + 1) : 0;
}
static inline size_t padcheck_work_len(size_t len, size_t lanes)
{
    return padcheck_beats_len(len, lanes);
}
static inline size_t padcheck_notes_len(size_t len, size_t lanes)
{
    return PADCHECK_NOTE_BYTES * lanes * padcheck_beats_len(len, lanes);
}
static inline size_t padcheck_sheet_len(size_t len)
{
    return 42 * (len + 1) + 3000;
}

/*
 * What the text slice of padcheck_notes_to_chart has to have for these row counts, in bytes: exactly the chart that is
 * written. 0 where the call is refused with 12 or 1, and where nothing is to be written; the call alone says which.
 */
static inline size_t padcheck_written_len(size_t lanes, const uint32_t *counts, size_t counts_len)
{
    uint64_t bytes = 0;
    for (size_t i = 0; i < counts_len && bytes <= PADCHECK_MAX_LEN; i++)
        bytes += (lanes + 1) * (uint64_t)counts[i] + (i == 0 ? 0 : 2);
    return padcheck_is_lane_count(lanes) && bytes <= PADCHECK_MAX_LEN ? (size_t)bytes : 0;
}

/* Places in `figures`, the same in every call. Those from 25 on are 0. */
enum padcheck_figure {
    PADCHECK_TEXT_BYTES = 0,      /* bytes of the answer in the text slice */
    PADCHECK_MEASURES = 1,        /* measures */
    PADCHECK_ROWS = 2,            /* minimised rows, also the number of beats */
    PADCHECK_NOTES = 3,           /* note records, or those of dropped heads */
    PADCHECK_LAST_BEAT = 4,       /* last beat, the bits of a double */
    PADCHECK_HAS_HEADS = 5,       /* 1 where a timing row has a 2 or 4, else 0 */
    PADCHECK_LAST_BEAT_48THS = 6, /* last beat in 48ths of a beat */
    PADCHECK_SHEET_BYTES = 7,     /* bytes of the sheet */
    PADCHECK_TOTAL_ARROWS = 8,    /* from here on the tally, in the order of its fields */
    PADCHECK_LEFT = 9,
    PADCHECK_DOWN = 10,
    PADCHECK_UP = 11,
    PADCHECK_RIGHT = 12,
    PADCHECK_TOTAL_STEPS = 13,
    PADCHECK_JUMPS = 14,
    PADCHECK_HANDS = 15,
    PADCHECK_MINES = 16,
    PADCHECK_HOLDS = 17,
    PADCHECK_ROLLS = 18,
    PADCHECK_LIFTS = 19,
    PADCHECK_FAKES = 20,
    PADCHECK_HOLDING = 21,
    PADCHECK_KEYSOUNDS = 22, /* cells K, which are counted as nothing else */
    PADCHECK_UP_LEFT = 23,   /* arrows of six lanes, 0 at any other; the tally ends with the next */
    PADCHECK_UP_RIGHT = 24
};

/* Places in `note`. A tail is PADCHECK_NO_TAIL where the note has none. */
enum padcheck_note_figure {
    PADCHECK_NOTE_ROW = 0,
    PADCHECK_NOTE_TAIL = 1,
    PADCHECK_NOTE_COLUMN = 2,
    PADCHECK_NOTE_KIND = 3
};

/* Kinds of a note. Holds and rolls have a tail, the others none. */
enum padcheck_kind {
    PADCHECK_TAP = 0,
    PADCHECK_HOLD = 1,
    PADCHECK_ROLL = 2,
    PADCHECK_MINE = 3,
    PADCHECK_LIFT = 4,
    PADCHECK_FAKE = 5
};

/*
 * Where the fields of a dropped head's record begin: its row and the row that dropped it, 4 bytes each and low byte first,
 * then a byte each for the column and the reason. The second row is PADCHECK_NO_ROW where the chart's end dropped it.
 */
enum padcheck_dropped_place {
    PADCHECK_DROPPED_ROW = 0,
    PADCHECK_DROPPED_BY = 4,
    PADCHECK_DROPPED_COLUMN = 8,
    PADCHECK_DROPPED_REASON = 9
};

/* Why a head is dropped, by what comes before its tail. */
enum padcheck_drop_reason {
    PADCHECK_BY_OTHER_HEAD = 0, /* another 2 or 4 in its column */
    PADCHECK_BY_OTHER_CELL = 1, /* a 1, M, L, F, m, l or f in its column */
    PADCHECK_BY_CHART_END = 2   /* nothing: the chart ends */
};

/* Where the fields of a press's record begin: its row, 4 bytes and low byte first, then a byte for the column. */
enum padcheck_press_place {
    PADCHECK_PRESS_ROW = 0,
    PADCHECK_PRESS_COLUMN = 4
};

/* Places in `presses`. Column c, 0 to 9, has its hits at PADCHECK_COLUMN_HITS + c, and its misses likewise. */
enum padcheck_press_figure {
    PADCHECK_HITS = 0,
    PADCHECK_STRAYS = 1,
    PADCHECK_MISSES = 2,
    PADCHECK_COLUMN_HITS = 3,
    PADCHECK_COLUMN_MISSES = 13
};

/* Forms of a sheet. */
enum padcheck_sheet_form {
    PADCHECK_SHEET_CARD = 0,  /* the lines of the program card, for any lane count and accepted length */
    PADCHECK_SHEET_PRINT = 1, /* the figures in columns: tallies side by side, densities 16 a line, holds and rolls */
    PADCHECK_SHEET_JSON = 2   /* the figures and note records as one JSON object, without blanks or newline */
};

/* Places in `chart`. The data is PADCHECK_CHART_LEN bytes of the file, from the byte at PADCHECK_CHART_START on. */
enum padcheck_chart_figure {
    PADCHECK_CHART_LANES = 0,
    PADCHECK_CHART_START = 1,
    PADCHECK_CHART_LEN = 2
};

/*
 * The calls. `data` is the text, `lanes` the lane count, 4, 5, 6, 8 or 10. Above each stand the lengths that the
 * slices must have at least, the refusals it can give, and the figures it answers.
 */

/*
 * The main call: minimised text, densities, row beats, note records, last beat, and the tally corrected over the
 * minimised text read back. Notes stand in rising row, then column; padcheck_read_note reads a record.
 * Lengths: text padcheck_text_len, densities padcheck_measures_len, beats padcheck_beats_len, work padcheck_work_len,
 * notes padcheck_notes_len.
 * Refusals: 12 1 2 3 4 5 6. Figures: TEXT_BYTES, MEASURES, ROWS, NOTES, LAST_BEAT, LAST_BEAT_48THS and the tally.
 */
uint32_t padcheck_minimize_chart_count_rows_notes(const uint8_t *data, size_t data_len, size_t lanes, uint8_t *text,
                                                  size_t text_len, uint32_t *densities, size_t densities_len,
                                                  float *beats, size_t beats_len, uint16_t *work, size_t work_len,
                                                  uint8_t *notes, size_t notes_len, uint64_t *figures);

/*
 * The kept-row call: minimised text, densities, and the tally, which is that of the main call.
 * Lengths: text padcheck_text_len, densities padcheck_measures_len, work padcheck_work_len.
 * Refusals: 12 1 2 3 5. Figures: TEXT_BYTES, MEASURES, ROWS and the tally.
 */
uint32_t padcheck_process_chart_kept(const uint8_t *data, size_t data_len, size_t lanes, uint8_t *text, size_t text_len,
                                     uint32_t *densities, size_t densities_len, uint16_t *work, size_t work_len,
                                     uint64_t *figures);

/*
 * From notes back to a chart: the minimised text of note records at so many lanes with a row count for each measure,
 * `,` between measures and no `;`. Reading it gives these records and counts.
 * Length: text padcheck_written_len. Refusals: 12 1 7 8 13 14 15 2; 1 is of the text to be written, and each is looked
 * for in all records before the next. Figures: TEXT_BYTES, MEASURES (the counts), ROWS (their sum), NOTES.
 */
uint32_t padcheck_notes_to_chart(const uint8_t *records, size_t records_len, size_t lanes, const uint32_t *counts,
                                 size_t counts_len, uint8_t *text, size_t text_len, uint64_t *figures);

/*
 * The minimised rows, L bytes each, back to back in `text`, and their beats.
 * Lengths: text padcheck_text_len, beats padcheck_beats_len.
 * Refusals: 12 1 2 4. Figures: TEXT_BYTES, ROWS, HAS_HEADS.
 */
uint32_t padcheck_minimize_timing_rows(const uint8_t *data, size_t data_len, size_t lanes, uint8_t *text,
                                       size_t text_len, float *beats, size_t beats_len, uint64_t *figures);

/*
 * For each measure how many of its minimised rows have a 1, 2 or 4.
 * Length: densities padcheck_measures_len. Refusals: 12 1 3. Figures: MEASURES.
 */
uint32_t padcheck_measure_densities(const uint8_t *data, size_t data_len, size_t lanes, uint32_t *densities,
                                    size_t densities_len, uint64_t *figures);

/*
 * For each measure 1 where it has no rows or each minimised row has a 1, 2 or 4, else 0.
 * Length: spacing padcheck_measures_len. Refusals: 12 1 3. Figures: MEASURES.
 */
uint32_t padcheck_equally_spaced(const uint8_t *data, size_t data_len, size_t lanes, uint8_t *spacing,
                                 size_t spacing_len, uint64_t *figures);

/*
 * The last object row's beat.
 * Refusals: 12 1. Figures: LAST_BEAT, LAST_BEAT_48THS.
 */
uint32_t padcheck_chart_last_beat(const uint8_t *data, size_t data_len, size_t lanes, uint64_t *figures);

/*
 * The judged tally of minimised text, every row judged; no flags are lent. To have every row judged call this one.
 * Length: work padcheck_work_len. Refusals: 12 1 5. Figures: the tally.
 */
uint32_t padcheck_process_rows_judgable(const uint8_t *data, size_t data_len, size_t lanes, uint16_t *work,
                                        size_t work_len, uint64_t *figures);

/*
 * The judged tally of minimised text with one flag a row: 0 unjudged, else judged; a row past the flags is unjudged.
 * `flags` may have any length; with none every row is unjudged.
 * Length: work padcheck_work_len. Refusals: 12 1 5. Figures: the tally.
 */
uint32_t padcheck_process_timing_rows(const uint8_t *data, size_t data_len, size_t lanes, const uint8_t *flags,
                                      size_t flags_len, uint16_t *work, size_t work_len, uint64_t *figures);

/*
 * The holds and rolls that came to nothing: minimised text, and a record for each 2 or 4 of its rows that the main call has
 * no note of. Records of PADCHECK_DROPPED_BYTES stand back to back in `list`, in rising row, then column. Rows are those of
 * the text, numbered through the whole chart.
 * Lengths: text padcheck_text_len, list padcheck_notes_len.
 * Refusals: 12 1 2 6, where 6 is of the list. Figures: TEXT_BYTES, MEASURES, ROWS and NOTES, here the number of records.
 */
uint32_t padcheck_dropped_holds(const uint8_t *data, size_t data_len, size_t lanes, uint8_t *text, size_t text_len,
                                uint8_t *list, size_t list_len, uint64_t *figures);

/*
 * The sheet of a chart in one of the forms of padcheck_sheet_form, in bytes of ASCII without a byte 0 at its end. Text,
 * densities, beats, work and notes are left as the main call leaves them, spacing as padcheck_equally_spaced does.
 * Lengths: text padcheck_text_len, densities and spacing padcheck_measures_len, beats padcheck_beats_len, work
 * padcheck_work_len, notes padcheck_notes_len, sheet padcheck_sheet_len.
 * Refusals: 12 1 2 3 4 5 6 19 20, where 3 is of densities or spacing. Figures: those of the main call and
 * SHEET_BYTES.
 */
uint32_t padcheck_chart_sheet(const uint8_t *data, size_t data_len, size_t lanes, size_t form, uint8_t *text,
                              size_t text_len, uint32_t *densities, size_t densities_len, uint8_t *spacing,
                              size_t spacing_len, float *beats, size_t beats_len, uint16_t *work, size_t work_len,
                              uint8_t *notes, size_t notes_len, uint8_t *sheet, size_t sheet_len, uint64_t *figures);

/*
 * Note record number `index`, counted from 0, out of records that stand back to back. A record is 10 bytes: row and
 * tail, 4 bytes each and low byte first, column, kind.
 * Refusals: 7, where records_len is no multiple of 10 or `index` not below records_len div 10, and 8, where the record
 * breaks a limit of what the main call writes. An accepted call sets the 4 numbers of `note`.
 */
uint32_t padcheck_read_note(const uint8_t *records, size_t records_len, size_t index, uint64_t *note);

/*
 * A pad trace set against note records. Presses are records of PADCHECK_PRESS_BYTES, back to back and in rising row, then
 * column; a row may be past the chart's last, and a press may stand again and again. A press is a hit if a tap, hold or
 * roll has its row and column and no press before it does, else a stray; a tap, hold or roll without a press is a miss.
 * Refusals, in this order: 7, where records_len is no multiple of 10, 8, where a record breaks a limit of what the main
 * call writes, 13, where a note does not stand before the next by row, then column, 16, where trace_len is no multiple of
 * 5, a column is over 9, or a press falls in row, or in column within a row; each is looked for in all records before the
 * next. An accepted call sets the 23 numbers of `presses`.
 */
uint32_t padcheck_press_trace(const uint8_t *records, size_t records_len, const uint8_t *trace, size_t trace_len,
                              uint64_t *presses);

/*
 * Chart number `k`, counted from 0, of an SM file: its lane count, and where its note data stands in the file. With
 * these, file + chart[PADCHECK_CHART_START] is the `data` of every call above, chart[PADCHECK_CHART_LEN] its length and
 * chart[PADCHECK_CHART_LANES] the `lanes`.
 *
 * A chart is a block: it starts at a line that begins, after blanks, with `#NOTES:` and whose first byte lies in no
 * earlier block, and runs through the first `;` after that tag, or to the end of the file. Five fields follow the tag,
 * each ended by `:`; the first, without the blanks at its ends, is the type: dance-single is 4 lanes, pump-single 5,
 * dance-solo 6, dance-double 8, pump-double 10. The data is what follows the fifth, the `;` too. Lines end with byte 10,
 * blanks are the bytes 9, 10, 12, 13 and 32. Comments are not known: a `;` or `:` counts wherever it stands in a block.
 * Refusals, in this order: 1, 11 where the file has no more than k blocks, 9 where fewer than five `:` stand in the
 * block after its tag, 10 for another type. An accepted call sets the 3 numbers of `chart`.
 */
uint32_t padcheck_sm_chart(const uint8_t *file, size_t file_len, size_t k, uint64_t *chart);

#ifdef __cplusplus
}
#endif

#endif
