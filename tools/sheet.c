/* sheet: the turnovers of a day.
 *
 *   sheet [--crowns] DAY CODE[,CODE..] CODE=FILE..
 *
 * Opens a sheet for the participants listed, posts each file in turn for its
 * submitter's code, and prints the sheet, what each column is together, and the
 * files that were refused. The two columns of a sheet are together the same,
 * whatever was posted: the law of document 02, A1, for a clerk to see.
 * Exit status: 0 all files posted; 1 some refused; 2 the list was refused, a
 * file could not be read, or the arguments are wrong.
 */

#include "certis.h"
#include "desk.h"

#include <inttypes.h>
#include <limits.h>
#include <stdio.h>
#include <stdlib.h>
#include <string.h>

/* A column is 20 wide, and wider where a number and 'together' need it. */
enum { SIDES = 4, LEAST_WIDTH = 20, CODE_WIDTH = 4, TOGETHER_WIDTH = 9, SHOWN_ROOM = 24 };

static const struct form FORM = {
    .usage = "[--crowns] DAY CODE[,CODE..] CODE=FILE..",
    .help = "  DAY        the accounting day, as 20240304\n"
            "  CODE,..    the participants of the sheet, up to 64\n"
            "  CODE=FILE  a submitter's code and its input file, or - for standard input\n"
            "  --crowns   show crowns, not hundredths\n"
            "exit status: 0 all files posted; 1 some refused; 2 the list refused, a file cannot be read, or wrong\n"
            "arguments\n",
    .least = 3,
    .most = INT_MAX,
};

struct handed {
    uint32_t code;
    const char *name;
    uint32_t refusal; /* 0 once it is posted */
};

struct day {
    bool crowns;
    uint32_t day;
    uint32_t *codes;
    size_t listed;
    struct handed *files;
    size_t handed;
    int64_t turnovers[CERTIS_TURNOVERS];
};

/* Arguments */

/* Reads a number with the byte `end` after it, and leaves the word behind it. */
static bool cut_number(char **word, char end, uint32_t *value)
{
    char *stop = strchr(*word, end);
    if (stop == NULL) {
        return false;
    }
    *stop = '\0';
    bool read = read_number(*word, value);
    *stop = end;
    if (read) {
        *word = stop + 1;
    }
    return read;
}

static bool read_codes(char *word, struct day *day)
{
    char *rest = word;
    while (cut_number(&rest, ',', &day->codes[day->listed])) {
        day->listed += 1;
    }
    if (!read_number(rest, &day->codes[day->listed])) {
        wrong_arguments(&FORM, "CODE[,CODE..] is a row of numbers, not '%s'", word);
        return false;
    }
    day->listed += 1;
    return true;
}

static bool read_handed(char *word, struct handed *handed)
{
    char *rest = word;
    if (!cut_number(&rest, '=', &handed->code)) {
        wrong_arguments(&FORM, "CODE=FILE is a number and a file, not '%s'", word);
        return false;
    }
    handed->name = rest;
    return true;
}

/* The words after the options: the day, the list, the files. */
static bool read_words(char **words, struct day *day)
{
    if (!take_number(&FORM, "DAY", words[1], &day->day) || !read_codes(words[2], day)) {
        return false;
    }
    for (size_t i = 0; i < day->handed; i++) {
        if (!read_handed(words[3 + i], &day->files[i])) {
            return false;
        }
    }
    return true;
}

/* Posting */

static bool post_file(struct day *day, struct handed *handed)
{
    struct bytes file;
    if (!read_file(handed->name, FILE_ROOM, &file)) {
        return false;
    }
    handed->refusal = certis_sheet_post(day->codes, day->listed, day->turnovers, file.at, file.length, handed->code, day->day);
    free_bytes(&file);
    return true;
}

/* Showing */

/* With --crowns there is a point before the last two digits, and a digit before
 * the point. */
static int show_turnover(const struct day *day, int64_t turnover, char *target)
{
    uint8_t text[20];
    char digits[SHOWN_ROOM] = "00";
    size_t length = certis_turnover_text(turnover, text);
    size_t zeros = length < 4 ? 4 - length : 0;
    if (!day->crowns) {
        return snprintf(target, SHOWN_ROOM, "%.*s", (int)length, (const char *)text);
    }
    memcpy(digits + zeros, text + 1, length - 1);
    int whole = (int)(zeros + length - 1) - 2;
    return snprintf(target, SHOWN_ROOM, "%c%.*s.%.2s", text[0], whole, digits, digits + whole);
}

/* No sum of 64 turnovers is too large. */
static int64_t together(const struct day *day, size_t side)
{
    int64_t sum = 0;
    for (size_t i = 0; i < day->listed; i++) {
        sum += day->turnovers[SIDES * i + side];
    }
    return sum;
}

static int longest(const struct day *day)
{
    char text[SHOWN_ROOM];
    int most = 0;
    for (size_t side = 0; side < SIDES; side++) {
        for (size_t i = 0; i <= day->listed; i++) {
            int64_t turnover = i < day->listed ? day->turnovers[SIDES * i + side] : together(day, side);
            int length = show_turnover(day, turnover, text);
            most = length > most ? length : most;
        }
    }
    return most;
}

static void show_row(const struct day *day, int width, const char *label, const int64_t *turnovers)
{
    int left = CODE_WIDTH + width - (int)strlen(label);
    fputs(label, stdout);
    for (size_t side = 0; side < SIDES; side++) {
        char text[SHOWN_ROOM];
        show_turnover(day, turnovers[side], text);
        printf("%*s", side == 0 ? left : width, text);
    }
    putchar('\n');
}

static void show_columns(const struct day *day)
{
    int64_t sums[SIDES];
    int wanted = longest(day) + TOGETHER_WIDTH - CODE_WIDTH;
    int width = wanted < LEAST_WIDTH ? LEAST_WIDTH : wanted;
    printf("code%*s%*s%*s%*s\n", width, "debit", width, "credit", width, "second debit", width, "second credit");
    for (size_t i = 0; i < day->listed; i++) {
        char label[SHOWN_ROOM];
        snprintf(label, sizeof label, "%04" PRIu32, day->codes[i]);
        show_row(day, width, label, day->turnovers + SIDES * i);
    }
    for (size_t side = 0; side < SIDES; side++) {
        sums[side] = together(day, side);
    }
    show_row(day, width, "together", sums);
}

static int show_day(const struct day *day)
{
    size_t refused = 0;
    for (size_t i = 0; i < day->handed; i++) {
        refused += day->files[i].refusal != 0;
    }
    size_t posted = day->handed - refused;
    printf("turnovers %08" PRIu32 ", %zu file%s posted, %zu refused\n", day->day, posted, posted == 1 ? "" : "s", refused);
    show_columns(day);
    for (size_t i = 0; i < day->handed; i++) {
        if (day->files[i].refusal != 0) {
            printf("%s: ", day->files[i].name);
            show_refusal(day->files[i].refusal, true);
        }
    }
    return refused == 0 ? GOOD : FAULTS;
}

/* Where a file cannot be read no sheet is shown: it would pass for that of the
 * day. */
static int run_day(char **words, struct day *day)
{
    if (!read_words(words, day)) {
        return FAILED;
    }
    uint32_t refusal = certis_sheet_open(day->codes, day->listed, day->turnovers);
    if (refusal != 0) {
        return show_refusal(refusal, true);
    }
    for (size_t i = 0; i < day->handed; i++) {
        if (!post_file(day, &day->files[i])) {
            return FAILED;
        }
    }
    return show_day(day);
}

int desk_sheet(int count, char **words)
{
    struct day day = { .crowns = false };
    const struct option options[] = {
        { .name = "--crowns", .flag = &day.crowns },
        { .name = NULL },
    };
    int status = FAILED;
    int kept = read_arguments(count, words, &FORM, options, &status);
    if (kept < 0) {
        return status;
    }
    day.handed = (size_t)kept - 2;
    /* A list has no more codes than bytes. */
    day.codes = calloc(strlen(words[2]) + 1, sizeof *day.codes);
    day.files = calloc(day.handed, sizeof *day.files);
    if (day.codes != NULL && day.files != NULL) {
        status = run_day(words, &day);
    } else {
        complain("not enough memory for the list");
    }
    free(day.codes);
    free(day.files);
    return status;
}
