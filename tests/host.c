/* host: calls checking, deriving and the account check of include/certis.h as a
 * host in C does, on the examples and at the refusals of document 01. The answers
 * expected here were worked out from that document. Memory is lent out of the
 * middle of larger arrays filled with a pattern, so a byte changed anywhere else
 * is seen. The last line printed is 'N passed, M failed'.
 */

#include "certis.h"
#include "expect.h"

#include <inttypes.h>
#include <stdlib.h>
#include <string.h>

#define CODE 300
#define DAY 20240304

#define PATTERN 0xA5A5A5A5u
#define LONG_PATTERN UINT64_C(0xA5A5A5A5A5A5A5A5)
#define BYTE_PATTERN 0xA5

/* The lent part begins at EDGE, and at least EDGE places follow it. */
enum { EDGE = 8, PLACES = 80, MOST_ROOM = PLACES - 2 * EDGE, HEADING = 54 };

static const char WORKED[] =
    L("HD:11 20240304 0000301 0000001 0000710 0000000 0000000")
    L("KC:12500 20240304")
    L("UD: 2000145398")
    L("HD:51 20240304 0000300 0000000 0000999 0000000 0000000")
    L("IN:1 1")
    L("S1:1 12600")
    END;

/* Checking */

struct rooms {
    uint32_t lines[PLACES];
    uint32_t rules[PLACES];
    uint32_t offsets[PLACES];
    uint64_t total;
};

/* How many places of each slice are lent. */
struct lent {
    size_t lines;
    size_t rules;
    size_t offsets;
};

static struct lent evenly(size_t room)
{
    return (struct lent){ room, room, room };
}

static struct rooms fresh_rooms(void)
{
    struct rooms rooms = { .total = LONG_PATTERN };
    for (size_t i = 0; i < PLACES; i++) {
        rooms.lines[i] = PATTERN;
        rooms.rules[i] = PATTERN;
        rooms.offsets[i] = PATTERN;
    }
    return rooms;
}

static uint32_t check(struct rooms *rooms, const char *file, size_t length, uint32_t code, uint32_t day,
                      struct lent lent)
{
    return certis_check(bytes_of(file), length, code, day, rooms->lines + EDGE, lent.lines, rooms->rules + EDGE,
                        lent.rules, rooms->offsets + EDGE, lent.offsets, &rooms->total);
}

/* Whether all places but the given number of first ones in the lent part are as they were. */
static bool rooms_kept(const struct rooms *rooms, size_t written)
{
    for (size_t i = 0; i < PLACES; i++) {
        bool free_to_change = i >= EDGE && i < EDGE + written;
        if (!free_to_change
            && (rooms->lines[i] != PATTERN || rooms->rules[i] != PATTERN || rooms->offsets[i] != PATTERN)) {
            return false;
        }
    }
    return true;
}

/* The written pairs as a text, "1/12 3/23 4/31". */
static const char *pairs_of(const struct rooms *rooms, size_t written)
{
    static char text[MOST_ROOM * 24];
    size_t at = 0;
    text[0] = '\0';
    for (size_t i = 0; i < written; i++) {
        at += (size_t)snprintf(text + at, sizeof text - at, "%s%" PRIu32 "/%" PRIu32, i == 0 ? "" : " ",
                               rooms->lines[EDGE + i], rooms->rules[EDGE + i]);
    }
    return text;
}

/* The place of a line's first byte: behind the CR LF that ends the one before it. */
static size_t place_of(const char *file, size_t length, uint32_t line)
{
    size_t at = 0;
    for (uint32_t ends = 1; ends < line; ends++) {
        while (at + 2 < length && memcmp(file + at, "\r\n", 2) != 0) {
            at += 1;
        }
        at += 2;
    }
    return at;
}

static bool offsets_right(const struct rooms *rooms, size_t written, const char *file, size_t length)
{
    for (size_t i = EDGE; i < EDGE + written; i++) {
        if (rooms->offsets[i] != place_of(file, length, rooms->lines[i])) {
            return false;
        }
    }
    return true;
}

/* Room for some pairs: they are the ones named, at the offsets of their lines; the total is true, the rest is kept. */
static void lists_in(const char *what, const char *file, size_t length, size_t room, uint64_t total,
                     const char *pairs)
{
    struct rooms rooms = fresh_rooms();
    size_t written = total < room ? (size_t)total : room;
    uint32_t refusal = check(&rooms, file, length, CODE, DAY, evenly(room));
    uint64_t alone = LONG_PATTERN;
    expect(refusal == 0 && rooms.total == total && rooms_kept(&rooms, written)
               && strcmp(pairs_of(&rooms, written), pairs) == 0 && offsets_right(&rooms, written, file, length)
               && certis_total(bytes_of(file), length, CODE, DAY, &alone) == 0 && alone == total,
           what);
}

static void lists(const char *what, const char *file, uint64_t total, const char *pairs)
{
    lists_in(what, file, strlen(file), MOST_ROOM, total, pairs);
}

static void check_refuses(const char *what, uint32_t number, const char *file, size_t length, uint32_t code,
                          uint32_t day, struct lent lent)
{
    struct rooms rooms = fresh_rooms();
    uint32_t refusal = check(&rooms, file, length, code, day, lent);
    expect(refusal == number && rooms.total == LONG_PATTERN && rooms_kept(&rooms, 0), what);
}

/* Both ways of checking refuse, and change nothing. */
static void refuses(const char *what, uint32_t number, const char *file, size_t length, uint32_t code,
                    uint32_t day)
{
    uint64_t total = LONG_PATTERN;
    check_refuses(what, number, file, length, code, day, evenly(MOST_ROOM));
    expect(certis_total(bytes_of(file), length, code, day, &total) == number && total == LONG_PATTERN, what);
}

static void test_worked_example(void)
{
    size_t length = strlen(WORKED);
    lists("the worked example", WORKED, 3, "1/12 3/23 4/31");
    lists_in("the worked example in room for three", WORKED, length, 3, 3, "1/12 3/23 4/31");
    lists_in("the worked example in room for two", WORKED, length, 2, 3, "1/12 3/23");
    lists_in("the worked example in no room", WORKED, length, 0, 3, "");
}

static void stands_at(const char *what, const char *file, const uint32_t *offsets, size_t count)
{
    struct rooms rooms = fresh_rooms();
    uint32_t refusal = check(&rooms, file, strlen(file), CODE, DAY, evenly(count));
    expect(refusal == 0 && memcmp(rooms.offsets + EDGE, offsets, count * sizeof *offsets) == 0 && rooms_kept(&rooms, count), what);
}

static void test_offsets(void)
{
    stands_at("the worked example's offsets", WORKED, (const uint32_t[]){ 0, 75, 91 }, 3);
    stands_at("empty lines stand at their CR", "\r\n\r\nx" END, (const uint32_t[]){ 0, 0, 2, 2, 4, 4, 4 }, 7);
    stands_at("a lone CR or LF begins no line", "\r\r\n\n\r\n\r" END, (const uint32_t[]){ 0, 0, 0, 3, 3, 3, 6, 6, 6, 6 }, 10);
}

static const struct lent uneven = { 2, 2, 3 };

static void test_check_refusals(void)
{
    size_t length = strlen(WORKED);
    refuses("1: code 0", 1, WORKED, length, 0, DAY);
    refuses("1: code 10000", 1, WORKED, length, 10000, DAY);
    refuses("1: the largest code", 1, WORKED, length, UINT32_MAX, DAY);
    refuses("1 before 2", 1, WORKED, length, 0, 0);
    refuses("2: 20230229", 2, WORKED, length, CODE, 20230229);
    refuses("2: 19991231", 2, WORKED, length, CODE, 19991231);
    refuses("2: 21000101", 2, WORKED, length, CODE, 21000101);
    refuses("2: day 0", 2, WORKED, length, CODE, 0);
    refuses("2: the largest day", 2, WORKED, length, CODE, UINT32_MAX);
    refuses("2 before 5", 2, WORKED, 0, CODE, 20240230);
    check_refuses("4: less room for lines", 4, WORKED, length, CODE, DAY, (struct lent){ 2, 3, 3 });
    check_refuses("4: less room for rules", 4, WORKED, length, CODE, DAY, (struct lent){ 3, 2, 3 });
    check_refuses("4: less room for offsets", 4, WORKED, length, CODE, DAY, (struct lent){ 3, 3, 2 });
    check_refuses("4: no room for offsets", 4, WORKED, length, CODE, DAY, (struct lent){ 3, 3, 0 });
    check_refuses("4: three different rooms", 4, WORKED, length, CODE, DAY, (struct lent){ 1, 2, 3 });
    check_refuses("2 before 4", 2, WORKED, length, CODE, 20230229, uneven);
    check_refuses("4 before 5", 4, WORKED, 0, CODE, DAY, uneven);
    check_refuses("4 before 6", 4, END, 1, CODE, DAY, uneven);
    refuses("5: an empty file", 5, WORKED, 0, CODE, DAY);
    refuses("5: no end mark", 5, WORKED, length - 1, CODE, DAY);
    refuses("9: LF behind the end mark", 9, L("") END "\n", 4, CODE, DAY);
    refuses("9: another file behind the end mark", 9, L("") END L("") END, 6, CODE, DAY);
    refuses("9: two end marks", 9, END END, 2, CODE, DAY);
    check_refuses("4 before 9", 4, END END, 2, CODE, DAY, uneven);
    refuses("6: the end mark alone", 6, END, 1, CODE, DAY);
    refuses("9 before 6", 9, END "HD:11", 6, CODE, DAY);
}

static void test_long_files(void)
{
    size_t limit = 10000000;
    char *file = calloc(limit + 1, 1);
    if (file == NULL) {
        expect(false, "memory for a long file");
        return;
    }
    file[limit - 1] = '\x1A';
    lists_in("10,000,000 bytes: one line, broken in every way of a line", file, limit, MOST_ROOM, 4,
             "1/1 1/2 1/3 1/4");
    refuses("3: 10,000,001 bytes", 3, file, limit + 1, CODE, DAY);
    refuses("2 before 3", 2, file, limit + 1, CODE, 20230229);
    check_refuses("3 before 4", 3, file, limit + 1, CODE, DAY, uneven);
    file[limit - 1] = '\0';
    refuses("3 before 5", 3, file, limit + 1, CODE, DAY);
    file[0] = '\x1A';
    refuses("3 before 6", 3, file, limit + 1, CODE, DAY);
    free(file);
}

/* A block of one item whose lines are given, and nothing wrong but in them. */
#define BLOCK(heading, fields, sums)                          \
    L(heading) fields                                         \
    L("HD:51 20240304 0000300 0000000 0000999 0000000 0000000") \
    L("IN:1 1") L(sums) END

#define ITEM_11 "HD:11 20240304 0000300 0000001 0000710 0000000 0000000"
#define ITEM_32 "HD:32 20240304 0000300 0000001 0000710 0000000 0000000"
#define ITEM_55 "HD:55 20240304 0000300 0000001 0000710 0000000 0000000"
#define ITEM_96 "HD:96 20240304 0000300 0000001 0000710 0000000 0000000"
#define KC_100 L("KC:100 20240304")

static void test_both_sides(void)
{
    lists("a clean block", BLOCK(ITEM_11, KC_100, "S1:1 100"), 0, "");
    lists("an empty line", L("") END, 2, "1/2 1/3");
    lists("byte DE", BLOCK(ITEM_11, KC_100 L("AV:\xDE"), "S1:1 100"), 0, "");
    lists("byte DF", BLOCK(ITEM_11, KC_100 L("AV:\xDF"), "S1:1 100"), 1, "3/1");
    lists("byte 7E", BLOCK(ITEM_11, KC_100 L("AV:\x7E"), "S1:1 100"), 0, "");
    lists("byte 7F", BLOCK(ITEM_11, KC_100 L("AV:\x7F"), "S1:1 100"), 1, "3/1");
    lists("a 55 is in S5 and its 51 is not", BLOCK(ITEM_55, KC_100, "S5:1 100"), 0, "");
    lists("a 96 is in S9, and its KC may be years ahead", BLOCK(ITEM_96, L("KC:100 20991231"), "S9:1 100"), 0, "");
    lists("a 96 on a day that is not real", BLOCK(ITEM_96, L("KC:100 20230229"), "S9:1 100"), 1, "2/8");
    lists("a wrong S9", BLOCK(ITEM_96, KC_100, "S9:1 101"), 1, "3/39");
    lists("an S9 that does not read", BLOCK(ITEM_96, KC_100, "S9:x"), 1, "5/6");
    lists("an S9 of nothing", BLOCK(ITEM_11, KC_100, "S1:1 100\r\nS9:0 0"), 0, "");
    lists("a 32 thirty days later", BLOCK(ITEM_32, L("KC:100000000000 20240403"), "S3:1 100000000000"), 0, "");
    lists("a 32 thirty-one days later", BLOCK(ITEM_32, L("KC:100 20240404"), "S3:1 100"), 1, "2/8");
    lists("a 32 over its amount", BLOCK(ITEM_32, L("KC:100000000001 20240304"), "S3:1 100000000001"), 1, "2/9");
}

static void test_headings(void)
{
    lists("a heading ten days old",
          L("HD:11 20240223 0000300 0000001 0000710 0000000 0000000") KC_100
          L("HD:51 20240223 0000300 0000000 0000999 0000000 0000000") L("IN:1 1") L("S1:1 100") END,
          0, "");
    lists("a heading eleven days old",
          L("HD:11 20240222 0000300 0000001 0000710 0000000 0000000") KC_100
          L("HD:51 20240222 0000300 0000000 0000999 0000000 0000000") L("IN:1 1") L("S1:1 100") END,
          2, "1/11 3/11");
    lists("number 9999999 has no follower",
          L("HD:11 20240304 0000300 9999999 0000710 0000000 0000000") KC_100
          L("HD:11 20240304 0000300 0000001 0000710 0000000 0000000") KC_100
          L("HD:51 20240304 0000300 0000000 0000999 0000000 0000000") L("IN:9999999 1") L("S1:2 200") END,
          1, "3/19");
    lists("a cancellation is added as it stands",
          L("HD:11 20240304 0000300 0000001 0000710 0000000 0000000") KC_100
          L("HD:13 20240304 0000300 0000002 0000710 0000000 0000000") KC_100
          L("HD:51 20240304 0000300 0000003 0000999 0000000 0000000") L("IN:1 2") L("S1:2 200") END,
          0, "");
    lists("an unreadable heading stops nothing",
          L("HD:11 20240304 0000300 000001 0000710 0000000 0000000") KC_100
          L("HD:11 20240304 0000300 0000000 0000710 0000000 0000000") KC_100
          L("HD:51 20240304 0000300 0000000 0000999 0000000 0000000") L("S1:2 200") END,
          4, "1/6 3/19 5/21 5/31");
    lists("no block", L(ITEM_11) KC_100 L(ITEM_11) KC_100 END, 2, "1/16 3/19");
}

/* Deriving */

static const char HEADING_12[] = "HD:12 20240304 0000300 0000017 0000710 0000000 0000000";
static const char HEADING_35[] = "HD:35 20240304 0000990 0000001 0000300 0000000 0000710";
static const char HEADING_01[] = "HD:01 20240304 0000300 0000001 0000710 0000000 0000000";
static const char HEADING_44[] = "HD:44 20240304 0000300 0000001 0000710 0000000 0000000";
static const char HEADING_45[] = "HD:45 20240304 0000990 0000001 0000300 0000000 0000710";
static const char HEADING_96[] = "HD:96 20240304 0000300 0000001 0000710 0000000 0000000";
static const char HEADING_51[] = "HD:51 20240304 0000300 0000000 0000999 0000000 0000000";

/* Whether the target is as it was but for the given number of lent bytes. */
static bool target_kept(const uint8_t *target, size_t written)
{
    for (size_t i = 0; i < PLACES; i++) {
        bool free_to_change = i >= EDGE && i < EDGE + written;
        if (!free_to_change && target[i] != BYTE_PATTERN) {
            return false;
        }
    }
    return true;
}

static void derives(const char *heading, uint32_t outcome, uint32_t standing, uint32_t number, size_t room,
                    const char *derived)
{
    uint8_t target[PLACES];
    memset(target, BYTE_PATTERN, sizeof target);
    uint32_t refusal =
        certis_derive(bytes_of(heading), strlen(heading), outcome, standing, number, target + EDGE, room);
    expect(refusal == 0 && memcmp(target + EDGE, derived, HEADING) == 0 && target_kept(target, HEADING), derived);
}

static void derive_refuses(const char *what, uint32_t refusal, const char *heading, uint32_t outcome,
                           uint32_t standing, uint32_t number, size_t room)
{
    uint8_t target[PLACES];
    memset(target, BYTE_PATTERN, sizeof target);
    expect(certis_derive(bytes_of(heading), strlen(heading), outcome, standing, number, target + EDGE, room) == refusal
               && target_kept(target, 0),
           what);
}

static void test_derive(void)
{
    derives(HEADING_12, 6, 1, 42, HEADING, "HD:62 20240304 0000300 0000017 0000300 0000042 0000710");
    derives(HEADING_12, 6, 1, 42, HEADING + 6, "HD:62 20240304 0000300 0000017 0000300 0000042 0000710");
    derives(HEADING_12, 1, 1, 1, HEADING, "HD:12 20240304 0000300 0000017 0000710 0000001 0000000");
    derives(HEADING_12, 7, 1, 5000000, HEADING, "HD:72 20240304 0000300 0000017 0000300 5000000 0000710");
    derives(HEADING_35, 1, 1, 7, HEADING, "HD:16 20240304 0000990 0000001 0000710 0000007 0000300");
    derives(HEADING_35, 4, 1, 7, HEADING, "HD:65 20240304 0000990 0000001 0000300 0000007 0000710");
    derives(HEADING_35, 7, 1, 7, HEADING, "HD:75 20240304 0000300 0000001 0000990 0000007 0000710");
    derives(HEADING_01, 1, 1, 5000001, HEADING, "HD:01 20240304 0000300 0000001 0000710 5000001 0000000");
    derives(HEADING_01, 6, 1, 9000000, HEADING, "HD:61 20240304 0000300 0000001 0000300 9000000 0000710");
    derives(HEADING_44, 1, 1, 9000001, HEADING, "HD:44 20240304 0000300 0000001 0000710 9000001 0000000");
    derives(HEADING_44, 7, 1, 9999999, HEADING, "HD:84 20240304 0000300 0000001 0000300 9999999 0000710");
    derives("HD:11 20239999 9999999 0000001 0000710 0000000 0000000", 1, 1, 1, HEADING,
            "HD:11 20239999 9999999 0000001 0000710 0000001 0000000");
}

static void test_bad_headings(void)
{
    derive_refuses("11: no byte", 11, "", 6, 1, 42, HEADING);
    derive_refuses("11: 53 bytes", 11, "HD:12 20240304 0000300 0000017 0000710 0000000 000000", 6, 1, 42, HEADING);
    derive_refuses("11: 55 bytes", 11, "HD:12 20240304 0000300 0000017 0000710 0000000 0000000 ", 6, 1, 42, HEADING);
    derive_refuses("11: a letter", 11, "HD:12 20240304 0000300 00000I7 0000710 0000000 0000000", 6, 1, 42, HEADING);
    derive_refuses("11: no space", 11, "HD:12 20240304 0000300-0000017 0000710 0000000 0000000", 6, 1, 42, HEADING);
    derive_refuses("11 before 16", 11, "HD:", 9, 1, 0, 0);
    derive_refuses("12: a 51", 12, HEADING_51, 1, 1, 1, HEADING);
    derive_refuses("12: type 02", 12, "HD:02 20240304 0000300 0000017 0000710 0000000 0000000", 1, 1, 1, HEADING);
    derive_refuses("12: an output number", 12, "HD:12 20240304 0000300 0000017 0000710 0000001 0000000", 1, 1, 1, HEADING);
    derive_refuses("12: no second code", 12, "HD:12 20240304 0000300 0000017 0000000 0000000 0000000", 1, 1, 1, HEADING);
    derive_refuses("12: a third code", 12, "HD:12 20240304 0000300 0000017 0000710 0000000 0000001", 1, 1, 1, HEADING);
    derive_refuses("12: no third code", 12, "HD:35 20240304 0000990 0000001 0000300 0000000 0000000", 1, 1, 1, HEADING);
    derive_refuses("12 before 13", 12, HEADING_51, 9, 1, 1, HEADING);
}

static void test_bad_outcomes(void)
{
    derive_refuses("13: outcome 0", 13, HEADING_12, 0, 1, 42, HEADING);
    derive_refuses("13: outcome 8", 13, HEADING_12, 8, 1, 42, HEADING);
    derive_refuses("13: the largest outcome", 13, HEADING_12, UINT32_MAX, 1, 42, HEADING);
    derive_refuses("13 before 15", 13, HEADING_12, 9, 1, 0, HEADING);
    derive_refuses("14: a 12, outcome 2", 14, HEADING_12, 2, 1, 42, HEADING);
    derive_refuses("14: a 35, outcome 5", 14, HEADING_35, 5, 1, 7, HEADING);
    derive_refuses("14: a 44, outcome 6", 14, HEADING_44, 6, 1, 9000001, HEADING);
    derive_refuses("14: a 96, outcome 1", 14, HEADING_96, 1, 1, 7, HEADING);
    derive_refuses("13: a 96, outcome 9", 13, HEADING_96, 9, 1, 7, HEADING);
    derive_refuses("12: a third party's 96", 12, HEADING_96, 1, 2, 7, HEADING);
    derive_refuses("14 before 15", 14, HEADING_12, 2, 1, 0, HEADING);
    derive_refuses("15: number 0", 15, HEADING_12, 6, 1, 0, HEADING);
    derive_refuses("15: a 12, 5000001", 15, HEADING_12, 6, 1, 5000001, HEADING);
    derive_refuses("15: an 01, 5000000", 15, HEADING_01, 1, 1, 5000000, HEADING);
    derive_refuses("15: an 01, 9000001", 15, HEADING_01, 1, 1, 9000001, HEADING);
    derive_refuses("15: a 44, 9000000", 15, HEADING_44, 1, 1, 9000000, HEADING);
    derive_refuses("15: a 44, 10000000", 15, HEADING_44, 1, 1, 10000000, HEADING);
    derive_refuses("15: the largest number", 15, HEADING_12, 6, 1, UINT32_MAX, HEADING);
    derive_refuses("15 before 16", 15, HEADING_12, 6, 1, 0, 0);
    derive_refuses("16: room for 53", 16, HEADING_12, 6, 1, 42, HEADING - 1);
    derive_refuses("16: no room", 16, HEADING_12, 6, 1, 42, 0);
}

/* Telling, and the sender's standing */

/* A refusal leaves both numbers as they were. */
static void tells(const char *what, uint32_t refusal, const char *heading, uint32_t outcome, uint32_t standing,
                  uint32_t kind, uint32_t recipient)
{
    uint32_t told[2] = {777, 888};
    uint32_t found = certis_tell(bytes_of(heading), strlen(heading), outcome, standing, &told[0], &told[1]);
    expect(found == refusal && told[0] == (refusal == 0 ? kind : 777) && told[1] == (refusal == 0 ? recipient : 888), what);
}

static void test_tell(void)
{
    tells("a 12, outcome 6: 62 to 300", 0, HEADING_12, 6, 1, 62, 300);
    tells("a 12, outcome 1: 12 to 710", 0, HEADING_12, 1, 1, 12, 710);
    tells("a 35, outcome 1: 16 to 710", 0, HEADING_35, 1, 1, 16, 710);
    tells("a third party's 35, outcome 1: 16 to 710", 0, HEADING_35, 1, 2, 16, 710);
    tells("a third party's 45, outcome 5: 05 to 990", 0, HEADING_45, 5, 2, 5, 990);
    tells("a third party's 45, outcome 6: 69 to 990", 0, HEADING_45, 6, 2, 69, 990);
    tells("a direct sender's 45, outcome 7: 75 to 990", 0, HEADING_45, 7, 1, 75, 990);
    tells("11: no byte", 11, "", 6, 1, 0, 0);
    tells("11 before 13", 11, "HD:", 9, 9, 0, 0);
    tells("12: a 51", 12, HEADING_51, 1, 1, 0, 0);
    tells("12: a third party's 12", 12, HEADING_12, 6, 2, 0, 0);
    tells("12 before 13: a third party's 12, outcome 9", 12, HEADING_12, 9, 2, 0, 0);
    tells("13: outcome 8", 13, HEADING_12, 8, 1, 0, 0);
    tells("13: standing 0", 13, HEADING_12, 6, 0, 0, 0);
    tells("13: standing 3", 13, HEADING_12, 6, 3, 0, 0);
    tells("13: the largest standing", 13, HEADING_45, 5, UINT32_MAX, 0, 0);
    tells("13 before 14: a 12, outcome 2, standing 3", 13, HEADING_12, 2, 3, 0, 0);
    tells("14: a 12, outcome 2", 14, HEADING_12, 2, 1, 0, 0);
    tells("14: a direct sender's 45, outcome 5", 14, HEADING_45, 5, 1, 0, 0);
    tells("14: a direct sender's 45, outcome 6", 14, HEADING_45, 6, 1, 0, 0);
}

static void test_standings(void)
{
    derives(HEADING_35, 1, 2, 7, HEADING, "HD:16 20240304 0000990 0000001 0000710 0000007 0000300");
    derives(HEADING_45, 5, 2, 5000001, HEADING, "HD:05 20240304 0000300 0000001 0000990 5000001 0000710");
    derives(HEADING_45, 6, 2, 9000000, HEADING, "HD:69 20240304 0000300 0000001 0000990 9000000 0000710");
    derive_refuses("12: a third party's 12", 12, HEADING_12, 6, 2, 42, HEADING);
    derive_refuses("12 before 13: a third party's 12, outcome 9", 12, HEADING_12, 9, 2, 42, HEADING);
    derive_refuses("13: standing 0", 13, HEADING_12, 6, 0, 42, HEADING);
    derive_refuses("13: standing 3", 13, HEADING_12, 6, 3, 42, HEADING);
    derive_refuses("13 before 14: standing 3, outcome 2", 13, HEADING_12, 2, 3, 42, HEADING);
    derive_refuses("14: a direct sender's 45, outcome 5", 14, HEADING_45, 5, 1, 5000001, HEADING);
    derive_refuses("14: a direct sender's 45, outcome 6", 14, HEADING_45, 6, 1, 5000001, HEADING);
    derive_refuses("14 before 15: a direct sender's 45, outcome 5", 14, HEADING_45, 5, 1, 0, 0);
}

/* The account check */

/* The answers for the prefix and for the number; each is written alone, and nothing beside it. */
static void judges(const char *prefix, const char *number, uint32_t first, uint32_t second)
{
    uint32_t answers[4] = { PATTERN, PATTERN, PATTERN, PATTERN };
    expect(certis_account(bytes_of(prefix), strlen(prefix), bytes_of(number), strlen(number), &answers[1], &answers[2]) == 0
               && answers[0] == PATTERN && answers[1] == first && answers[2] == second && answers[3] == PATTERN,
           number);
}

/* A refusal leaves the answers as they were, whatever value each of their bytes had. */
static void account_refuses(const char *what, const char *prefix, const char *number)
{
    bool kept = true;
    for (uint32_t byte = 0; byte < 256; byte++) {
        for (unsigned shift = 0; shift < 32; shift += 8) {
            uint32_t before = (PATTERN & ~(UINT32_C(255) << shift)) | byte << shift;
            uint32_t first = before;
            uint32_t second = ~before;
            kept &= certis_account(bytes_of(prefix), strlen(prefix), bytes_of(number), strlen(number), &first, &second) == 10
                    && first == before && second == ~before;
        }
    }
    expect(kept, what);
}

static void test_accounts(void)
{
    judges("", "2000145399", CERTIS_GOOD, CERTIS_GOOD);
    judges("", "2000145398", CERTIS_GOOD, CERTIS_FAILING);
    judges("", "0", CERTIS_GOOD, CERTIS_ZERO);
    judges("", "0000000000", CERTIS_GOOD, CERTIS_ZERO);
    judges("19", "2000145399", CERTIS_GOOD, CERTIS_GOOD);
    judges("20", "2000145399", CERTIS_FAILING, CERTIS_GOOD);
    judges("000019", "2000145399", CERTIS_GOOD, CERTIS_GOOD);
    judges("000000", "2000145399", CERTIS_GOOD, CERTIS_GOOD);
    judges("19", "2000145398", CERTIS_GOOD, CERTIS_FAILING);
    judges("20", "2000145398", CERTIS_FAILING, CERTIS_FAILING);
    judges("20", "0", CERTIS_FAILING, CERTIS_ZERO);
    account_refuses("10: prefix of seven digits", "0000019", "2000145399");
    account_refuses("10: number of eleven digits", "19", "02000145399");
    account_refuses("10: no number", "19", "");
    account_refuses("10: a letter in the prefix", "1a", "2000145399");
    account_refuses("10: a letter in the number", "19", "200014539x");
    account_refuses("10: a space before the number", "", " 200014539");
}

int main(void)
{
    test_worked_example();
    test_offsets();
    test_check_refusals();
    test_long_files();
    test_both_sides();
    test_headings();
    test_derive();
    test_bad_headings();
    test_bad_outcomes();
    test_tell();
    test_standings();
    test_accounts();
    return finish();
}
