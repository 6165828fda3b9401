/* tests/vectors/README.md describes the layout. Its numbers stand low byte first, as on the machines the library is
 * for. */
#include "stored.h"
#include "calls.h"
#include "checks.h"
#include "lent.h"
#include "presses.h"
#include "written.h"

#include <stdio.h>
#include <stdlib.h>
#include <string.h>

/* Contents of an answer in the file: text, measure, beats, notes. */
enum { CONTENTS = 4 };

struct reader {
    const uint8_t *at, *end;
};

static const uint8_t *take(struct reader *reader, size_t bytes)
{
    const uint8_t *at = reader->at;
    if ((size_t)(reader->end - at) < bytes) {
        fprintf(stderr, "the stored sample ends too soon\n");
        exit(2);
    }
    reader->at += bytes;
    return at;
}

static uint64_t take_number(struct reader *reader, size_t bytes)
{
    const uint8_t *at = take(reader, bytes);
    uint64_t number = 0;
    for (size_t i = bytes; i > 0; i--)
        number = number << 8 | at[i - 1];
    return number;
}

static struct answer take_answer(struct reader *reader, enum call call)
{
    static const enum lent places[CONTENTS] = {TEXT, MEASURE_DENSITIES, BEATS, NOTES};
    struct answer answer = {0};
    size_t bytes[CONTENTS];
    for (int i = 0; i < PADCHECK_FIGURES; i++)
        answer.figures[i] = take_number(reader, 8);
    for (int i = 0; i < CONTENTS; i++)
        bytes[i] = take_number(reader, 4);
    for (int i = 0; i < CONTENTS; i++) {
        enum lent place = call == SPACING && places[i] == MEASURE_DENSITIES ? MEASURE_SPACING : places[i];
        answer.contents[place].at = take(reader, bytes[i]);
        answer.contents[place].bytes = bytes[i];
    }
    return answer;
}

/* The records stand as the notes of the answer, and the row counts as its densities. */
static void check_stored_written(const char *name, size_t lanes, struct answer answer)
{
    struct given given = {answer.contents[NOTES].at, answer.contents[NOTES].bytes, lanes,
                          answer.contents[MEASURE_DENSITIES].at,
                          answer.contents[MEASURE_DENSITIES].bytes / sizeof(uint32_t)};
    check_written_text(name, &given, answer.contents[TEXT].at, answer.contents[TEXT].bytes, answer.figures);
}

/* The records stand as the notes of the answer, and the presses as its text. */
static void check_stored_trace(const char *name, struct answer answer)
{
    check_trace(name, answer.contents[NOTES].at, answer.contents[NOTES].bytes, answer.contents[TEXT].at,
                answer.contents[TEXT].bytes, PADCHECK_ACCEPTED, answer.figures);
}

static void check_record(unsigned long index, struct reader *reader)
{
    char name[40];
    snprintf(name, sizeof name, "stored text %lu", index);
    take_number(reader, 4);
    size_t len = take_number(reader, 4), flags_len = take_number(reader, 4);
    size_t lanes = take_number(reader, 8);
    uint8_t *data = copy_of(take(reader, len), len);
    uint8_t *flags = copy_of(take(reader, flags_len), flags_len);
    struct question question = {data, len, lanes, flags, flags_len, 0};
    for (enum call call = 0; call < STORED_CALLS; call++) {
        struct answer answer = take_answer(reader, call);
        check_call(name, call, &question, &answer);
    }
    check_stored_written(name, lanes, take_answer(reader, MAIN));
    check_stored_trace(name, take_answer(reader, MAIN));
    free(flags);
    free(data);
}

static uint8_t *read_file(const char *path, size_t *bytes)
{
    FILE *file = fopen(path, "rb");
    long end = -1;
    if (file != NULL && fseek(file, 0, SEEK_END) == 0)
        end = ftell(file);
    uint8_t *contents = end < 0 ? NULL : malloc((size_t)end + 1);
    if (contents == NULL || fseek(file, 0, SEEK_SET) != 0 || fread(contents, 1, (size_t)end, file) != (size_t)end) {
        fprintf(stderr, "cannot read `%s`\n", path);
        exit(2);
    }
    fclose(file);
    *bytes = (size_t)end;
    return contents;
}

void check_stored(const char *path)
{
    size_t bytes;
    uint8_t *contents = read_file(path, &bytes);
    struct reader reader = {contents, contents + bytes};
    check(memcmp(take(&reader, 8), "ANSWERS1", 8) == 0, "the sample's mark");
    take_number(&reader, 8);
    unsigned long records = take_number(&reader, 8);
    for (unsigned long i = 0; i < records; i++)
        check_record(i, &reader);
    check(reader.at == reader.end, "nothing stands after the last record");
    printf("%lu stored texts\n", records);
    free(contents);
}
