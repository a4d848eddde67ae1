/* sheet: calls the three functions of the turnover sheet in include/certis.h as a
 * host in C does, on a day of four files and at every refusal. The answers
 * expected here were worked out from document 02, A1. The turnovers and the text
 * lie in the middle of memory filled with a pattern, so a byte changed anywhere
 * else is seen. The last line printed is 'N passed, M failed'.
 */

#include "certis.h"
#include "expect.h"

#include <inttypes.h>
#include <stdarg.h>
#include <stdlib.h>
#include <string.h>

#define DAY 20240304
#define PATTERN INT64_C(-0x5A5A5A5A5A5A5A5A)
#define BYTE_PATTERN 0xA5

/* The largest turnover and the largest amount. */
#define MOST INT64_C(99999999999999999)
#define MOST_OF_ONE UINT64_C(999999999999999)

enum { EDGE = 8, TEXT = 20, LONGEST = 16384 };

/* Lists of participants */

struct list {
    size_t length;
    uint32_t codes[CERTIS_LISTED + 1];
};

static struct list list_of(size_t length, const uint32_t *codes)
{
    struct list list = { .length = length };
    memcpy(list.codes, codes, length * sizeof *codes);
    return list;
}

#define LIST(...) list_of(sizeof (uint32_t[]){ __VA_ARGS__ } / sizeof (uint32_t), (uint32_t[]){ __VA_ARGS__ })

/* The codes from 1 on. */
static struct list first_codes(size_t length)
{
    struct list list = { .length = length };
    for (size_t i = 0; i < length; i++) {
        list.codes[i] = (uint32_t)i + 1;
    }
    return list;
}

static const struct list NOBODY = { .length = 0 };

/* Files: one block without faults, of the items given */

struct item {
    unsigned kind;
    uint32_t second;
    uint32_t third;
    uint64_t amount;
};

struct file {
    size_t length;
    char text[LONGEST];
};

static void put(struct file *file, const char *format, ...)
{
    va_list words;
    va_start(words, format);
    file->length += (size_t)vsnprintf(file->text + file->length, LONGEST - file->length, format, words);
    va_end(words);
}

static struct file file_of(uint32_t code, size_t length, const struct item *items)
{
    struct file file = { .length = 0 };
    uint64_t counts[10] = { 0 };
    uint64_t sums[10] = { 0 };
    for (size_t i = 0; i < length; i++) {
        put(&file, L("HD:%02u %u %07" PRIu32 " %07zu %07" PRIu32 " 0000000 %07" PRIu32), items[i].kind, DAY, code, i + 1,
            items[i].second, items[i].third);
        put(&file, L("KC:%" PRIu64 " %u"), items[i].amount, DAY);
        counts[items[i].kind / 10] += 1;
        sums[items[i].kind / 10] += items[i].amount;
    }
    put(&file, L("HD:51 %u %07" PRIu32 " 0000000 0000999 0000000 0000000") L("IN:1 %zu"), DAY, code, length);
    for (unsigned group = 0; group < 10; group++) {
        if (counts[group] > 0) {
            put(&file, L("S%u:%" PRIu64 " %" PRIu64), group, counts[group], sums[group]);
        }
    }
    put(&file, END);
    return file;
}

#define BLOCK(code, ...) \
    file_of(code, sizeof (struct item[]){ __VA_ARGS__ } / sizeof (struct item), (struct item[]){ __VA_ARGS__ })

/* Sheets */

struct sheet {
    int64_t before[EDGE];
    int64_t turnovers[CERTIS_TURNOVERS];
    int64_t behind[EDGE];
};

/* A sheet that nobody has opened: a pattern everywhere. */
static struct sheet raw_sheet(void)
{
    struct sheet sheet;
    for (size_t i = 0; i < EDGE; i++) {
        sheet.before[i] = PATTERN;
        sheet.behind[i] = PATTERN;
    }
    for (size_t i = 0; i < CERTIS_TURNOVERS; i++) {
        sheet.turnovers[i] = PATTERN;
    }
    return sheet;
}

static struct sheet new_sheet(void)
{
    struct sheet sheet = raw_sheet();
    memset(sheet.turnovers, 0, sizeof sheet.turnovers);
    return sheet;
}

/* A new sheet but for one turnover. */
static struct sheet preset(size_t place, int64_t turnover)
{
    struct sheet sheet = new_sheet();
    sheet.turnovers[place] = turnover;
    return sheet;
}

static bool same(const struct sheet *one, const struct sheet *other)
{
    return memcmp(one, other, sizeof *one) == 0;
}

/* The first turnovers are these, the others 0, and nothing else has changed. */
static void holds(const char *what, const struct sheet *sheet, size_t length, const int64_t *turnovers)
{
    struct sheet expected = new_sheet();
    memcpy(expected.turnovers, turnovers, length * sizeof *turnovers);
    expect(same(sheet, &expected), what);
}

#define HOLDS(what, sheet, ...) \
    holds(what, sheet, sizeof (int64_t[]){ __VA_ARGS__ } / sizeof (int64_t), (int64_t[]){ __VA_ARGS__ })

/* Posts, and expects the number; a refusal has to leave everything. */
static void post_bytes(const char *what, uint32_t number, struct list list, struct sheet *sheet, const uint8_t *bytes,
                       size_t length, uint32_t code, uint32_t day)
{
    struct sheet before = *sheet;
    uint32_t found = certis_sheet_post(list.codes, list.length, sheet->turnovers, bytes, length, code, day);
    expect(found == number && (number == 0 || same(sheet, &before)), what);
}

static void post(const char *what, uint32_t number, struct list list, struct sheet *sheet, struct file file, uint32_t code)
{
    post_bytes(what, number, list, sheet, bytes_of(file.text), file.length, code, DAY);
}

/* The same on a sheet that is not kept. */
static void post_once(const char *what, uint32_t number, struct list list, struct sheet sheet, struct file file, uint32_t code)
{
    post(what, number, list, &sheet, file, code);
}

/* Opening */

static void opens(const char *what, struct list list)
{
    struct sheet sheet = raw_sheet();
    expect(certis_sheet_open(list.codes, list.length, sheet.turnovers) == 0, what);
    holds(what, &sheet, 0, (int64_t[]){ 0 });
}

/* 19 at opening, and at posting before anything else is asked. */
static void refuses_list(const char *what, struct list list)
{
    struct sheet sheet = raw_sheet();
    struct sheet before = sheet;
    expect(certis_sheet_open(list.codes, list.length, sheet.turnovers) == 19 && same(&sheet, &before), what);
    post_bytes(what, 19, list, &sheet, bytes_of(""), 0, 0, 0);
}

static void test_lists(void)
{
    opens("nobody", NOBODY);
    opens("1 and 9999", LIST(1, 9999));
    opens("64 codes", first_codes(64));
    refuses_list("19: 65 codes", first_codes(65));
    refuses_list("19: 1, 2, 1", LIST(1, 2, 1));
    refuses_list("19: 5, 5", LIST(5, 5));
    refuses_list("19: code 0", LIST(0));
    refuses_list("19: code 10000", LIST(10000));
    refuses_list("19: a last code of 10000", LIST(300, 710, 10000));
    refuses_list("19: the largest code", LIST(UINT32_MAX));
    struct list list = first_codes(64);
    list.codes[63] = 1;
    refuses_list("19: the last of 64 is the first", list);
}

/* Posting */

static struct file small(void)
{
    return BLOCK(300, { 11, 710, 0, 100 });
}

static void test_day(void)
{
    struct list list = LIST(300, 710, 820);
    struct sheet sheet = raw_sheet();
    expect(certis_sheet_open(list.codes, list.length, sheet.turnovers) == 0, "opening the day");
    post("the first file", 0, list, &sheet,
         BLOCK(300, { 11, 710, 0, 12500 }, { 12, 710, 0, 700 }, { 13, 710, 0, 500 }, { 14, 820, 0, 40 }, { 32, 710, 0, 2000 },
               { 33, 820, 0, 300 }, { 35, 710, 820, 900 }, { 37, 710, 820, 60 }, { 55, 710, 0, 7 }),
         300);
    HOLDS("after the first file", &sheet, 13200, -540, -300, 2000, 400, 13140, 2000, 0, -100, 900, 0, -300);
    post("the second file", 0, list, &sheet,
         BLOCK(300, { 1, 710, 0, 100000 }, { 21, 820, 0, 5 }, { 45, 820, 710, 30 }, { 44, 710, 0, 999 }), 300);
    post("the third file", 0, list, &sheet, BLOCK(710, { 13, 300, 0, 500 }), 710);
    post("21: the fourth file", 21, list, &sheet, BLOCK(710, { 11, 999, 0, 1 }), 710);
    HOLDS("the day", &sheet, 112705, -540, -300, 2000, 400, 112670, 2000, 0, -70, 905, 0, -300);
}

static void test_own_refusals(void)
{
    struct list list = LIST(300, 710);
    struct sheet sheet = new_sheet();
    struct file file = small();
    const uint8_t *bytes = bytes_of(file.text);
    post_bytes("1: code 0", 1, list, &sheet, bytes, file.length, 0, DAY);
    post_bytes("1: code 10000", 1, list, &sheet, bytes, file.length, 10000, DAY);
    post_bytes("2: 20230229", 2, list, &sheet, bytes, file.length, 300, 20230229);
    post_bytes("1 before 2", 1, list, &sheet, bytes, file.length, 0, 0);
    post_bytes("5: an empty file", 5, list, &sheet, bytes, 0, 300, DAY);
    post_bytes("5: no end mark", 5, list, &sheet, bytes, file.length - 1, 300, DAY);
    post_bytes("9: a byte behind the end mark", 9, list, &sheet, bytes_of(L("") END "\n"), 4, 300, DAY);
    post_bytes("6: the end mark first", 6, list, &sheet, bytes_of(END), 1, 300, DAY);
    post_bytes("20: another submitter's code", 20, list, &sheet, bytes, file.length, 710, DAY);
    post_bytes("20: a day later than ten days", 20, list, &sheet, bytes, file.length, 300, 20240315);
    post_bytes("20: an empty line", 20, list, &sheet, bytes_of(L("") END), 3, 300, DAY);
    post("20 before 21", 20, NOBODY, &sheet, file, 710);
    post("and then the file itself", 0, list, &sheet, file, 300);
    HOLDS("the file itself", &sheet, 100, 0, 0, 0, 0, 100, 0, 0);
}

static void test_long_file(void)
{
    size_t length = 10000001;
    uint8_t *bytes = calloc(length, 1);
    struct sheet sheet = new_sheet();
    if (bytes == NULL) {
        expect(false, "memory for a long file");
        return;
    }
    post_bytes("3: 10,000,001 bytes", 3, NOBODY, &sheet, bytes, length, 300, DAY);
    post_bytes("5: 10,000,000 bytes", 5, NOBODY, &sheet, bytes, length - 1, 300, DAY);
    free(bytes);
}

/* What each type posts, for 300 and 710, or 710 and 820 where 300 only sends. */
static void posts(unsigned kind, struct list list, uint32_t third, const int64_t *turnovers)
{
    struct sheet sheet = new_sheet();
    char what[32];
    snprintf(what, sizeof what, "what a %02u posts", kind);
    post(what, 0, list, &sheet, BLOCK(300, { kind, 710, third, 25 }), 300);
    holds(what, &sheet, 8, turnovers);
}

static void test_types(void)
{
    struct list two = LIST(300, 710);
    struct list parties = LIST(710, 820);
    const unsigned additions[] = { 1, 11, 12, 21 };
    for (size_t i = 0; i < sizeof additions / sizeof *additions; i++) {
        posts(additions[i], two, 0, (int64_t[]){ 25, 0, 0, 0, 0, 25, 0, 0 });
    }
    posts(35, parties, 820, (int64_t[]){ 25, 0, 0, 0, 0, 25, 0, 0 });
    posts(45, parties, 820, (int64_t[]){ 25, 0, 0, 0, 0, 25, 0, 0 });
    posts(13, two, 0, (int64_t[]){ 0, -25, 0, 0, -25, 0, 0, 0 });
    posts(14, two, 0, (int64_t[]){ 0, -25, 0, 0, -25, 0, 0, 0 });
    posts(37, parties, 820, (int64_t[]){ 0, -25, 0, 0, -25, 0, 0, 0 });
    posts(32, two, 0, (int64_t[]){ 0, 0, 0, 25, 0, 0, 25, 0 });
    posts(33, two, 0, (int64_t[]){ 0, 0, -25, 0, 0, 0, 0, -25 });
    const unsigned silent[] = { 44, 55, 96, 97, 98 };
    for (size_t i = 0; i < sizeof silent / sizeof *silent; i++) {
        posts(silent[i], NOBODY, 0, (int64_t[]){ 0, 0, 0, 0, 0, 0, 0, 0 });
    }
}

static void test_listed(void)
{
    struct list list = LIST(300, 710);
    post_once("21: amount 0, to a code that is not listed", 21, list, new_sheet(), BLOCK(300, { 11, 999, 0, 0 }), 300);
    post_once("21: a sender that is not listed", 21, LIST(710), new_sheet(), small(), 300);
    post_once("21: a 32 to a code that is not listed", 21, list, new_sheet(), BLOCK(300, { 32, 999, 0, 1 }), 300);
    post_once("21: a third code that is not listed", 21, list, new_sheet(), BLOCK(300, { 35, 710, 999, 1 }), 300);
    post_once("21: code 10300 is not 300", 21, list, new_sheet(), BLOCK(300, { 11, 10300, 0, 1 }), 300);
    post_once("21: the last of many", 21, list, new_sheet(),
              BLOCK(300, { 11, 710, 0, 1 }, { 11, 710, 0, 1 }, { 11, 711, 0, 1 }), 300);

    struct list full = first_codes(64);
    struct sheet sheet = new_sheet();
    int64_t expected[CERTIS_TURNOVERS] = { [4 * 62] = 7, [4 * 63 + 1] = 7 };
    post("the last two of 64", 0, full, &sheet, BLOCK(63, { 11, 64, 0, 7 }), 63);
    holds("the last two of 64 are moved", &sheet, CERTIS_TURNOVERS, expected);
}

static struct file hundred_times_the_most(void)
{
    struct item items[100];
    for (size_t i = 0; i < 100; i++) {
        items[i] = (struct item){ 11, 710, 0, MOST_OF_ONE };
    }
    return file_of(300, 100, items);
}

static void test_limit(void)
{
    struct list list = LIST(300, 710);
    struct sheet sheet = new_sheet();
    post("a hundred items of the largest amount", 0, list, &sheet, hundred_times_the_most(), 300);
    post("22: a hundred more", 22, list, &sheet, BLOCK(300, { 11, 710, 0, 100 }), 300);
    post("ninety-nine more", 0, list, &sheet, BLOCK(300, { 11, 710, 0, 99 }), 300);
    HOLDS("the largest turnovers", &sheet, MOST, 0, 0, 0, 0, MOST, 0, 0);
    post("22: one more", 22, list, &sheet, BLOCK(300, { 11, 710, 0, 1 }), 300);
    post("nothing more", 0, list, &sheet, BLOCK(300, { 11, 710, 0, 0 }), 300);

    struct file up_first = BLOCK(300, { 11, 300, 0, 1 }, { 13, 300, 0, 1 });
    struct file down_first = BLOCK(300, { 13, 300, 0, 1 }, { 11, 300, 0, 1 });
    post_once("22: over the limit, then back", 22, list, preset(0, MOST), up_first, 300);
    post_once("back, then to the limit", 0, list, preset(0, MOST), down_first, 300);
    post_once("22: under the limit, then back", 22, list, preset(1, -MOST), down_first, 300);
    post_once("22 at the beneficiary's credit", 22, list, preset(5, MOST), small(), 300);
    post_once("22: a cancellation at the beneficiary's debit", 22, list, preset(4, -MOST), BLOCK(300, { 13, 710, 0, 1 }), 300);
    post_once("22 on the second sheet", 22, list, preset(6, MOST), BLOCK(300, { 32, 710, 0, 1 }), 300);
    post_once("22: a 33 on the second sheet", 22, list, preset(7, -MOST), BLOCK(300, { 33, 710, 0, 1 }), 300);
    post_once("21 before 22", 21, list, preset(0, MOST), BLOCK(300, { 11, 710, 0, 1 }, { 11, 711, 0, 1 }), 300);
}

/* Turnovers that no posting leaves: those that an item moves are judged by their true sum. */
static void test_odd_sheets(void)
{
    struct list list = LIST(300, 710);
    struct sheet sheet = preset(1, INT64_MAX);
    post_once("22: no sum wraps", 22, list, preset(0, INT64_MAX), BLOCK(300, { 11, 710, 0, MOST_OF_ONE }), 300);
    post_once("22: nor below", 22, list, preset(1, INT64_MIN), BLOCK(300, { 13, 710, 0, MOST_OF_ONE }), 300);
    post_once("22: an amount of 0 is judged too", 22, list, preset(0, MOST + 1), BLOCK(300, { 11, 710, 0, 0 }), 300);
    post_once("back within the limit", 0, list, preset(1, MOST + 25), BLOCK(300, { 13, 710, 0, 25 }), 300);
    post("a turnover that nothing moves", 0, list, &sheet, small(), 300);
    HOLDS("a turnover that nothing moves stays", &sheet, 100, INT64_MAX, 0, 0, 0, 100, 0, 0);

    sheet = raw_sheet();
    struct sheet expected = sheet;
    memset(sheet.turnovers, 0, 8 * sizeof (int64_t));
    memset(expected.turnovers, 0, 8 * sizeof (int64_t));
    expected.turnovers[0] = 100;
    expected.turnovers[5] = 100;
    post("places past the list", 0, list, &sheet, small(), 300);
    expect(same(&sheet, &expected), "places past the list stay");
}

/* Showing */

static void shows(int64_t turnover, const char *expected)
{
    uint8_t text[EDGE + TEXT + EDGE];
    uint8_t after[sizeof text];
    size_t length = strlen(expected);
    memset(text, BYTE_PATTERN, sizeof text);
    memset(after, BYTE_PATTERN, sizeof after);
    memcpy(after + EDGE, expected, length);
    size_t found = certis_turnover_text(turnover, text + EDGE);
    expect(found == length && memcmp(text, after, sizeof text) == 0, expected);
}

static void test_shown(void)
{
    shows(0, "+0");
    shows(5, "+5");
    shows(-5, "-5");
    shows(10, "+10");
    shows(-540, "-540");
    shows(MOST, "+99999999999999999");
    shows(-MOST, "-99999999999999999");
    shows(INT64_MAX, "+9223372036854775807");
    shows(INT64_MIN, "-9223372036854775808");
}

int main(void)
{
    test_lists();
    test_day();
    test_own_refusals();
    test_long_file();
    test_types();
    test_listed();
    test_limit();
    test_odd_sheets();
    test_shown();
    return finish();
}
