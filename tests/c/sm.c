/* Files made by hand for padcheck_sm_chart: what is accepted, each refusal, their order, and the longest file. */
#include "sm.h"
#include "checks.h"
#include "lent.h"
#include "padcheck.h"

#include <stdlib.h>
#include <string.h>

/* Asks about a file that stands in exactly its own bytes. `chart` is what an accepted call answers; a refused one must
   leave the numbers as they were, and neither may write to the file. */
static void check_file(const char *name, const uint8_t *file, size_t len, size_t k, uint32_t want,
                       const uint64_t *chart)
{
    static const uint64_t unset[PADCHECK_CHART_FIGURES] = {77, 78, 79};
    uint64_t *found = copy_of(unset, sizeof unset);
    uint8_t *copy = copy_of(file, len);
    uint32_t number = padcheck_sm_chart(copy, len, k, found);
    check(number == want, "%s, chart %zu: returns %u (%s), should be %u", name, k, number, padcheck_words(number),
          want);
    const uint64_t *left = want == PADCHECK_ACCEPTED ? chart : unset;
    for (int i = 0; i < PADCHECK_CHART_FIGURES; i++)
        check(found[i] == left[i], "%s, chart %zu: figure %d is %llu, should be %llu", name, k, i,
              (unsigned long long)found[i], (unsigned long long)left[i]);
    check(memcmp(copy, file, len) == 0, "%s, chart %zu: the file stays as it was", name, k);
    free(copy);
    free(found);
}

/* A file in three parts: what stands before the data, the data, and what follows it. */
static void check_found(const char *name, const char *before, const char *data, const char *after, size_t k,
                        size_t lanes)
{
    size_t start = strlen(before), len = strlen(data), rest = strlen(after);
    char *file = room_for(start + len + rest + 1);
    strcpy(file, before);
    strcat(file, data);
    strcat(file, after);
    uint64_t chart[PADCHECK_CHART_FIGURES];
    chart[PADCHECK_CHART_LANES] = lanes;
    chart[PADCHECK_CHART_START] = start;
    chart[PADCHECK_CHART_LEN] = len;
    check_file(name, (const uint8_t *)file, start + len + rest, k, PADCHECK_ACCEPTED, chart);
    free(file);
}

static void check_refused_file(const char *name, const char *file, size_t k, uint32_t want)
{
    check_file(name, (const uint8_t *)file, strlen(file), k, want, NULL);
}

static void check_accepted(void)
{
    static const struct {
        const char *name, *before, *data, *after;
        size_t k, lanes;
    } files[] = {
        {"as editors write it",
         "#TITLE:One;\n\n//------- dance-single -------\n#NOTES:\n     dance-single:\n     me:\n     Hard:\n     9:\n"
         "     0.1,0.2,0.3,0.4,0.5:",
         "\n1000\n0100\n,\n0010\n;", "\n", 0, 4},
        {"with CR LF", "#NOTES:\r\n dance-single:\r\n:\r\n:\r\n1:\r\n:", "\r\n1000\r\n;", "\r\n", 0, 4},
        {"pump-single", "#NOTES:pump-single:::::", "00100\n;", "", 0, 5},
        {"dance-solo", "#NOTES:dance-solo:::::", "000001\n;", "", 0, 6},
        {"dance-double", "#NOTES:dance-double:::::", "00000001\n;", "", 0, 8},
        {"pump-double", "#NOTES:pump-double:::::", "0000000001\n;", "", 0, 10},
        {"every blank round the type", "#NOTES:\t\n\f\r dance-single \r\f\n\t:::::", ";", "", 0, 4},
        {"blanks before the tag", "\n \t\f\r#NOTES:dance-single:::::", "1000;", "", 0, 4},
        {"no end", "#NOTES:dance-single:::::", "1000\n0100", "", 0, 4},
        {"no data", "#NOTES:dance-single:::::", "", "", 0, 4},
        {"a `:` in the data", "#NOTES:dance-single:::::", ":1000:\n;", "", 0, 4},
        {"a tag in the data", "#NOTES:dance-single:::::", "1000\n#NOTES:pump-single:::::0;", "\n", 0, 4},
        {"a tag after the `;`, on its line", "#NOTES:dance-single:::::;#NOTES:\n#NOTES:pump-single:::::", "00001;", "",
         1, 5},
        {"after a block with few fields", "#NOTES:;\n#NOTES:dance-single:::::", "1000\n;", "\n", 1, 4},
        {"after a block of another type", "#NOTES:lights-cabinet:::::;\n#NOTES:dance-double:::::", ";", "\n", 1, 8},
        {"the third", "#NOTES:;\n#NOTES:dance-single:::::;\n\n#NOTES:pump-double:::::", "0;", "\n#NOTES:", 2, 10},
        {"fields over lines with a comment", "#NOTES:dance-single:// a:\nb:c:\n:", "// 1;", "\n0001\n;", 0, 4},
    };
    for (size_t i = 0; i < sizeof files / sizeof files[0]; i++)
        check_found(files[i].name, files[i].before, files[i].data, files[i].after, files[i].k, files[i].lanes);

    /* A byte 0 ends nothing. */
    static const uint8_t zeros[] = "\0\n#NOTES:dance-single:\0:\0:\0:\0:\0\0;\0";
    static const uint64_t chart[PADCHECK_CHART_FIGURES] = {4, 30, 3};
    check_file("bytes that are 0", zeros, sizeof zeros - 1, 0, PADCHECK_ACCEPTED, chart);
}

static void check_refusals(void)
{
    static const struct {
        const char *name, *file;
        size_t k;
        uint32_t number;
    } files[] = {
        {"an empty file", "", 0, PADCHECK_NO_CHART},
        {"a file without charts", "#TITLE:none;\n1000\n", 0, PADCHECK_NO_CHART},
        {"one past the last", "#NOTES:dance-single:::::;\n#NOTES:dance-single:::::;\n", 2, PADCHECK_NO_CHART},
        {"far past the last", "#NOTES:dance-single:::::;\n", SIZE_MAX, PADCHECK_NO_CHART},
        {"half a tag", "#NOTES", 0, PADCHECK_NO_CHART},
        {"a tag in other capitals", "#notes:dance-single:::::;", 0, PADCHECK_NO_CHART},
        {"a longer tag", "#NOTES2:dance-single:::::;", 0, PADCHECK_NO_CHART},
        {"a tag inside a line", "x #NOTES:dance-single:::::;", 0, PADCHECK_NO_CHART},
        {"a comment before the tag", "//\n//#NOTES:dance-single:::::;", 0, PADCHECK_NO_CHART},
        {"a byte that is no blank before the tag", "\v#NOTES:dance-single:::::;", 0, PADCHECK_NO_CHART},
        {"CR ends no line", "x\r#NOTES:dance-single:::::;", 0, PADCHECK_NO_CHART},
        {"a tag inside an earlier block", "#NOTES:dance-single:::::\n#NOTES:\n", 1, PADCHECK_NO_CHART},
        {"a tag alone", "#NOTES:", 0, PADCHECK_FEW_FIELDS},
        {"four fields", "#NOTES:dance-single::::1000;", 0, PADCHECK_FEW_FIELDS},
        {"the fifth `:` after the end", "#NOTES:dance-single::::;:", 0, PADCHECK_FEW_FIELDS},
        {"`;` at once", "#NOTES:;dance-single:::::", 0, PADCHECK_FEW_FIELDS},
        {"another type", "#NOTES:lights-cabinet:::::;", 0, PADCHECK_OTHER_TYPE},
        {"another dance", "#NOTES:dance-threepanel:::::;", 0, PADCHECK_OTHER_TYPE},
        {"an empty type", "#NOTES: \n :::::;", 0, PADCHECK_OTHER_TYPE},
        {"other capitals", "#NOTES:Dance-Single:::::;", 0, PADCHECK_OTHER_TYPE},
        {"one letter short", "#NOTES:dance-singl:::::;", 0, PADCHECK_OTHER_TYPE},
        {"one letter more", "#NOTES:dance-singles:::::;", 0, PADCHECK_OTHER_TYPE},
        {"a blank inside", "#NOTES:dance -single:::::;", 0, PADCHECK_OTHER_TYPE},
        {"a byte that is no blank beside the type", "#NOTES:dance-single\v:::::;", 0, PADCHECK_OTHER_TYPE},
        {"a type in the second field", "#NOTES::dance-single::::;", 0, PADCHECK_OTHER_TYPE},
        /* Where two are wrong: 11 before 9, 11 before 10, 9 before 10. */
        {"11 before 9", "#NOTES:;", 1, PADCHECK_NO_CHART},
        {"11 before 10", "#NOTES:lights-cabinet:::::;", 1, PADCHECK_NO_CHART},
        {"9 before 10", "#NOTES:lights-cabinet::::;", 0, PADCHECK_FEW_FIELDS},
    };
    for (size_t i = 0; i < sizeof files / sizeof files[0]; i++)
        check_refused_file(files[i].name, files[i].file, files[i].k, files[i].number);
}

/* A file of 16,777,215 bytes is accepted; one byte more is refused before anything else is looked at. */
static void check_longest(void)
{
    static const char good[] = "#NOTES:dance-single:::::;", few[] = "#NOTES:lights-cabinet:;",
                      other[] = "#NOTES:lights-cabinet:::::;";
    const size_t longest = PADCHECK_MAX_LEN, good_len = sizeof good - 1;
    uint8_t *file = room_for(longest + 1);

    memset(file, ' ', longest + 1);
    memcpy(file + longest - good_len, good, good_len);
    uint64_t last[PADCHECK_CHART_FIGURES] = {4, longest - 1, 1};
    check_file("16777215 bytes, the chart last", file, longest, 0, PADCHECK_ACCEPTED, last);
    check_file("16777215 bytes, the chart last", file, longest, 1, PADCHECK_NO_CHART, NULL);
    check_file("16777216 bytes, the chart last", file, longest + 1, 0, PADCHECK_LONG_TEXT, NULL);

    memset(file, '0', longest + 1);
    memcpy(file, good, good_len - 1);
    uint64_t first[PADCHECK_CHART_FIGURES] = {4, good_len - 1, longest - (good_len - 1)};
    check_file("16777215 bytes, the chart first", file, longest, 0, PADCHECK_ACCEPTED, first);
    check_file("1 before 11", file, longest + 1, SIZE_MAX, PADCHECK_LONG_TEXT, NULL);
    memcpy(file, few, sizeof few - 1);
    check_file("16777215 bytes, few fields", file, longest, 0, PADCHECK_FEW_FIELDS, NULL);
    check_file("1 before 9", file, longest + 1, 0, PADCHECK_LONG_TEXT, NULL);
    memcpy(file, other, sizeof other - 1);
    check_file("16777215 bytes, another type", file, longest, 0, PADCHECK_OTHER_TYPE, NULL);
    check_file("1 before 10", file, longest + 1, 0, PADCHECK_LONG_TEXT, NULL);
    free(file);
}

void check_sm_files(void)
{
    check_accepted();
    check_refusals();
    check_longest();
}
