/* list: the faults of input files.
 *
 * Prints for each file the listing of document 01 with every fault, or the first
 * N; or how often each rule is broken; or explains the faults; or writes them as
 * a page for the screen. Standard input, and a file if that is asked for, is
 * listed as it comes and not held; the first 256 faults are then listed.
 */

#include "certis.h"
#include "listing.h"

#include <inttypes.h>
#include <limits.h>
#include <stdio.h>
#include <stdlib.h>
#include <string.h>

static const struct form FORM = {
    .usage = "[--explain] [--offsets] [--most N | --summary] CODE DAY FILE... | --page OUT.html [--most N] CODE DAY FILE |\n"
             "       --portions N [--offsets] [--most N] CODE DAY FILE...",
    .help = "  CODE       the submitter's code, up to four digits\n"
            "  DAY        the accounting day, as 20240304\n"
            "  FILE       an input file, or - for standard input, which is taken in as it comes: the first 256 faults are\n"
            "             listed, and more only where an option asks for them\n"
            "  --explain  say each rule in words, and show the lines\n"
            "  --offsets  say where in the file the first byte of each fault's line stands, counted from 0\n"
            "  --most N   list no more than the first N faults of a file\n"
            "  --summary  count the faults of each rule, and list none\n"
            "  --page OUT.html  write the faults, or the refusal, as a page for the screen; the first 500 if --most\n"
            "             says nothing else\n"
            "  --portions N  take a file in by N bytes at a time, 1 to 10000000, and hold no more; it lists the first 256\n"
            "             faults\n"
            "exit status: 0 no fault; 1 faults; 2 a file was refused or cannot be read, the page cannot be written, or\n"
            "wrong arguments\n",
    .least = 3,
    .most = INT_MAX,
};

void show_fault(const struct faults *found, size_t at, bool offset)
{
    printf("line %" PRIu32 " rule %" PRIu32, found->lines[at], found->rules[at]);
    if (offset) {
        printf(" offset %" PRIu32, found->offsets[at]);
    }
}

static void show_faults(const struct faults *found, bool offsets)
{
    for (size_t i = 0; i < found->count; i++) {
        show_fault(found, i, offsets);
        end_line(NULL);
    }
}

void count_rules(const struct faults *found, size_t counts[RULES])
{
    memset(counts, 0, RULES * sizeof *counts);
    for (size_t i = 0; i < found->count; i++) {
        counts[found->rules[i] % RULES] += 1;
    }
}

static void show_summary(const struct faults *found, bool in_words)
{
    size_t counts[RULES];
    count_rules(found, counts);
    for (uint32_t rule = 0; rule < RULES; rule++) {
        if (counts[rule] > 0) {
            printf("rule %" PRIu32 " count %zu", rule, counts[rule]);
            end_line(in_words ? rule_in_words(rule) : NULL);
        }
    }
}

static void show_hint(const char *hint)
{
    if (hint != NULL) {
        printf("hint: %s\n", hint);
    }
}

static int show_listing(const struct request *asked, const struct bytes *file, const struct faults *found)
{
    printf("checked %04" PRIu32 " %08" PRIu32 "\n", asked->code, asked->day);
    if (asked->explain) {
        show_hint(line_end_hint(file));
        show_hint(code_page_hint(file));
    }
    if (asked->summary) {
        show_summary(found, asked->explain);
    } else if (asked->explain) {
        explain_faults(file, found, asked);
    } else if (asked->page == NULL) {
        show_faults(found, asked->offsets);
    }
    printf("faults %" PRIu64 "\n", found->total);
    return found->total == 0 ? GOOD : FAULTS;
}

/* A refusal, and where it was asked for what stands behind the end mark. */
static int show_refused(const struct request *asked, const struct bytes *file, uint32_t refusal)
{
    int status = show_refusal(refusal, asked->explain);
    if (refusal == CERTIS_LEFTOVERS && asked->explain) {
        show_hint(leftovers_hint(file).text);
    }
    return status;
}

static int answer(const struct request *asked, const char *name, const struct bytes *file, const struct faults *found)
{
    if (asked->page != NULL && !write_page(name, file, found, asked)) {
        return FAILED;
    }
    return found->refusal != 0 ? show_refused(asked, file, found->refusal) : show_listing(asked, file, found);
}

/* How many faults are needed of so many: all but for a plain listing. */
static size_t wanted(const struct request *asked, uint64_t total)
{
    bool all = asked->explain || asked->summary || asked->page != NULL;
    return all || total < asked->most ? (size_t)total : asked->most;
}

static int check_file(const struct request *asked, const char *name, const struct bytes *file)
{
    struct faults found = { 0 };
    found.refusal = certis_total(file->at, file->length, asked->code, asked->day, &found.total);
    found.count = wanted(asked, found.total);
    /* Room for one more than is listed: the library wants a place to point at. */
    size_t room = found.count + 1;
    uint32_t *places = calloc(3 * room, sizeof *places);
    if (places == NULL) {
        complain("not enough memory for the listing");
        return FAILED;
    }
    found.lines = places;
    found.rules = places + room;
    found.offsets = places + 2 * room;
    if (found.refusal == 0) {
        found.refusal = certis_check(file->at, file->length, asked->code, asked->day, found.lines, found.count, found.rules,
                                     found.count, found.offsets, found.count, &found.total);
    }
    int status = answer(asked, name, file, &found);
    free(places);
    return status;
}

/* What a portion of standard input is at most. */
enum { PORTION = 1 << 16 };

/* Whether the request asks for more than portions keep: they have the first
 * faults, and no line of the file. */
static bool needs_whole(const struct request *asked)
{
    bool many = asked->most != EVERY && asked->most > CERTIS_PORTIONS_ROOM;
    return asked->explain || asked->summary || asked->page != NULL || many;
}

static bool in_portions(const struct request *asked, const char *name)
{
    return asked->portion != 0 || (strcmp(name, "-") == 0 && !needs_whole(asked));
}

/* A listing that is cut must not pass for all there is. */
static void tell_cut(const struct request *asked, const char *name, const struct faults *found)
{
    if (found->refusal == 0 && asked->most == EVERY && found->count < found->total) {
        complain("%s: the first %zu of %" PRIu64 " faults are listed", strcmp(name, "-") == 0 ? "standard input" : name, found->count,
                 found->total);
    }
}

static int list_portions(const struct request *asked, const char *name, bool named)
{
    uint32_t places[3][CERTIS_PORTIONS_ROOM];
    struct faults found = { .lines = places[0], .rules = places[1], .offsets = places[2] };
    if (!check_portions(name, asked->portion != 0 ? asked->portion : PORTION, asked, &found)) {
        return FAILED;
    }
    if (named) {
        printf("file %s\n", name);
    }
    found.count = wanted(asked, found.total);
    found.count = found.count < CERTIS_PORTIONS_ROOM ? found.count : CERTIS_PORTIONS_ROOM;
    int status = answer(asked, name, NULL, &found);
    tell_cut(asked, name, &found);
    return status;
}

static int list_file(const struct request *asked, const char *name, bool named)
{
    struct bytes file;
    if (in_portions(asked, name)) {
        return list_portions(asked, name, named);
    }
    if (!read_file(name, FILE_ROOM, &file)) {
        return FAILED;
    }
    if (named) {
        printf("file %s\n", name);
    }
    int status = check_file(asked, name, &file);
    free_bytes(&file);
    return status;
}

/* A browser shows a file of such a name as a page; and no payment file is
 * written over by a slip of the words. */
static bool names_page(const char *name)
{
    size_t length = strlen(name);
    return length > 5 && strcmp(name + length - 5, ".html") == 0;
}

/* What is wrong with the options together, or NULL. */
static const char *at_odds(const struct request *asked, int files)
{
    if (asked->portion != 0) {
        return asked->explain || asked->summary || asked->page != NULL
                   ? "--portions holds no file: --explain, --summary and --page need it whole and have no place with it"
               : needs_whole(asked) ? "--portions keeps 256 faults: --most is at most 256 with it"
                                    : NULL;
    }
    if (asked->page == NULL) {
        return !asked->summary           ? NULL
               : asked->most != EVERY    ? "--summary lists no fault: --most has no place with it"
               : asked->offsets          ? "--summary lists no fault: --offsets has no place with it"
                                         : NULL;
    }
    return asked->explain || asked->summary || asked->offsets ? "--page says all: --explain, --offsets and --summary have no place with it"
           : !names_page(asked->page)                         ? "--page takes a name that ends in .html"
           : files > 1                                        ? "--page takes one file"
                                                              : NULL;
}

static bool take_portion(const char *text, uint32_t *portion)
{
    if (!take_number(&FORM, "--portions", text, portion)) {
        return false;
    }
    if (*portion == 0 || *portion > CERTIS_FILE_MOST) {
        wrong_arguments(&FORM, "--portions is 1 to %d, not %s", CERTIS_FILE_MOST, text);
        return false;
    }
    return true;
}

int desk_list(int count, char **words)
{
    struct request asked = { .most = EVERY };
    const char *portions = NULL;
    const struct option options[] = {
        { .name = "--explain", .flag = &asked.explain },
        { .name = "--offsets", .flag = &asked.offsets },
        { .name = "--summary", .flag = &asked.summary },
        { .name = "--most", .number = &asked.most },
        { .name = "--page", .word = &asked.page },
        { .name = "--portions", .word = &portions },
        { .name = NULL },
    };
    int status = FAILED;
    int kept = read_arguments(count, words, &FORM, options, &status);
    if (kept < 0) {
        return status;
    }
    if (portions != NULL && !take_portion(portions, &asked.portion)) {
        return FAILED;
    }
    const char *wrong = at_odds(&asked, kept - 2);
    if (wrong != NULL) {
        return wrong_arguments(&FORM, "%s", wrong);
    }
    if (!take_number(&FORM, "CODE", words[1], &asked.code) || !take_number(&FORM, "DAY", words[2], &asked.day)) {
        return FAILED;
    }
    status = GOOD;
    for (int at = 3; at <= kept; at++) {
        status = worse(status, list_file(&asked, words[at], kept > 3));
    }
    return status;
}
