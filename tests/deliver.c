/* deliver: calls certis_deliver of include/certis.h as a host in C does, on worked
 * slices and at every refusal. The files expected here were worked out from
 * document 02, A7 and A12. Target and length lie in the middle of memory filled
 * with a pattern, so a byte changed anywhere else is seen. The last line printed
 * is 'N passed, M failed'.
 */

#define _DEFAULT_SOURCE /* for mmap, MAP_ANONYMOUS and MAP_NORESERVE */

#include "certis.h"
#include "expect.h"

#include <inttypes.h>
#include <stdlib.h>
#include <string.h>
#include <sys/mman.h>

#define CERTIS 999
#define DAY 20240304
#define PATTERN 0xA5
#define UNTOUCHED UINT64_C(0xA5A5A5A5A5A5A5A5)

enum { EDGE = 8, ROOM = 16384, MANY = CERTIS_ITEMS_MOST + 1 };

/* Headings of items that go to 0300: when they are returned, or made. */
#define HD_11 "HD:11 20240304 0000300 0000001 0000710 0000000 0000000"
#define HD_12 "HD:12 20240304 0000300 0000017 0000710 0000000 0000000"
#define HD_35 "HD:35 20240304 0000990 0000009 0000820 0000000 0000300"
#define MADE(type) "HD:" type " 20240304 0000710 0000001 0000300 0000000 0000000"
#define KC_7 L("KC:7 20240304")

/* Two items, of which one is refused by the checklist. */
#define WORKED L(HD_12) L("KC:12500 20240304") L("EC:5") L("AV:x") L("   y") L(HD_35) KC_7
#define WORKED_FILE \
    L("HD:62 20240304 0000300 0000017 0000300 0000042 0000710") L("KC:12500 20240304") L("EC:9999999999") L("AV:x") L("   y") \
    L("HD:16 20240304 0000990 0000009 0000300 0000043 0000820") KC_7 \
    L("HD:51 20240304 0000999 0000000 0000300 0000000 0000000") L("IN:42 43") L("S1:1 7") L("S6:1 12500") END

/* A call: what is lent to it. */
struct call {
    const char *items;
    size_t length;
    const uint32_t *outcomes;
    size_t outcomes_len;
    const uint32_t *standings;
    size_t standings_len;
    uint32_t certis;
    uint32_t day;
    uint32_t start;
    size_t room;
};

struct memory {
    uint8_t before[EDGE];
    uint8_t target[ROOM];
    uint8_t behind[EDGE];
    uint64_t beside[3]; /* the length is the second */
};

/* The number, the bytes written, their count, and that all others are kept. */
static void answers(const char *what, uint32_t number, struct call call, const char *file)
{
    static struct memory memory;
    static struct memory wanted;
    memset(&memory, PATTERN, sizeof memory);
    memset(&wanted, PATTERN, sizeof wanted);
    if (number == 0) {
        memcpy(wanted.target, file, strlen(file));
        wanted.beside[1] = strlen(file);
    }
    uint32_t found = certis_deliver(bytes_of(call.items), call.length, call.outcomes, call.outcomes_len, call.standings, call.standings_len,
                                    call.certis, call.day, call.start, memory.target, call.room, &memory.beside[1]);
    expect(found == number && memcmp(&memory, &wanted, sizeof memory) == 0, what);
}

/* An outcome for each item, and direct senders. */
#define COUNT(...) (sizeof(uint32_t[]){ __VA_ARGS__ } / sizeof(uint32_t))
#define SLICE(text, start_at, ...) \
    (struct call) { .items = (text), .length = strlen(text), .outcomes = (const uint32_t[]){ __VA_ARGS__ }, \
                    .outcomes_len = COUNT(__VA_ARGS__), .standings = (const uint32_t[]){ 1, 1, 1, 1 }, \
                    .standings_len = COUNT(__VA_ARGS__), .certis = CERTIS, .day = DAY, .start = (start_at), .room = ROOM }

static struct call worked(void)
{
    static const uint32_t outcomes[] = { CERTIS_CHECKLIST, 1, 1 };
    static const uint32_t standings[] = { 1, 2, 1 };
    return (struct call){ .items = WORKED, .length = strlen(WORKED), .outcomes = outcomes, .outcomes_len = 2, .standings = standings,
                          .standings_len = 2, .certis = CERTIS, .day = DAY, .start = 42, .room = ROOM };
}

static void delivers(const char *what, struct call call, const char *file)
{
    answers(what, 0, call, file);
}

static void refuses(const char *what, uint32_t number, struct call call)
{
    answers(what, number, call, "");
}

static void test_files(void)
{
    struct call shorter = worked();
    shorter.room = strlen(WORKED_FILE);
    delivers("the worked slice", worked(), WORKED_FILE);
    delivers("the worked slice in just its length", shorter, WORKED_FILE);
    delivers("an 11 returned, its lines kept", SLICE(L(HD_11) L("EC:1") KC_7 L("AV: x ") L("    "), 1, 6),
             L("HD:61 20240304 0000300 0000001 0000300 0000001 0000710") L("EC:1") KC_7 L("AV: x ") L("    ")
             L("HD:51 20240304 0000999 0000000 0000300 0000000 0000000") L("IN:1 1") L("S6:1 7") END);
    delivers("an 11 by the checklist with no EC", SLICE(L(HD_11) KC_7, 5000000, 8),
             L("HD:61 20240304 0000300 0000001 0000300 5000000 0000710") KC_7
             L("HD:51 20240304 0000999 0000000 0000300 0000000 0000000") L("IN:5000000 5000000") L("S6:1 7") END);
    delivers("groups are those of output types, ascending", SLICE(L(HD_11) KC_7 L(MADE("55")) KC_7 L(MADE("12")) L("KC:0005 20240304"), 9, 7, 1, 1),
             L("HD:71 20240304 0000300 0000001 0000300 0000009 0000710") KC_7
             L("HD:55 20240304 0000710 0000001 0000300 0000010 0000000") KC_7
             L("HD:12 20240304 0000710 0000001 0000300 0000011 0000000") L("KC:0005 20240304")
             L("HD:51 20240304 0000999 0000000 0000300 0000000 0000000") L("IN:9 11") L("S1:1 5") L("S5:1 7") L("S7:1 7") END);
    delivers("a 44 made and one refused", SLICE(L(MADE("44")) L("KC:0 99991231") L("HD:44 20240304 0000300 0000001 0000710 0000000 0000000") KC_7, 9999998, 1, 7),
             L("HD:44 20240304 0000710 0000001 0000300 9999998 0000000") L("KC:0 99991231")
             L("HD:84 20240304 0000300 0000001 0000300 9999999 0000710") KC_7
             L("HD:51 20240304 0000999 0000000 0000300 0000000 0000000") L("IN:9999998 9999999") L("S4:1 0") L("S8:1 7") END);
}

/* Rules 8 and 11 ask for the accounting day. */
static void test_days(void)
{
    struct call call = SLICE(L(MADE("11")) KC_7, 1, 1);
    call.day = 20240314;
    delivers("ten days later", call, L("HD:11 20240304 0000710 0000001 0000300 0000001 0000000") KC_7
             L("HD:51 20240314 0000999 0000000 0000300 0000000 0000000") L("IN:1 1") L("S1:1 7") END);
    call.day = 20240315;
    refuses("31: rule 11, eleven days later", 31, call);
    call.day = 20240303;
    refuses("31: rules 8 and 11, a day before", 31, call);
}

static void test_codes_and_days(void)
{
    static const uint32_t codes[] = { 0, 10000, UINT32_MAX };
    static const uint32_t days[] = { 0, 19991231, 20230229, 21000101, UINT32_MAX };
    struct call call = worked();
    call.items = "";
    call.length = 0;
    for (size_t i = 0; i < sizeof codes / sizeof codes[0]; i++) {
        call.certis = codes[i];
        call.day = 0;
        refuses("1: before 2 and 30", 1, call);
    }
    call.certis = 9999;
    for (size_t i = 0; i < sizeof days / sizeof days[0]; i++) {
        call.day = days[i];
        refuses("2: before 30", 2, call);
    }
}

/* So many times the same item, with as many outcomes and standings, each of them 1. */
static void repeats_in(size_t room, const char *what, uint32_t number, const char *item, size_t times, uint32_t start)
{
    static uint32_t ones[MANY];
    size_t length = strlen(item);
    char *items = malloc(length * times + 1);
    uint8_t *target = malloc(room + 1);
    uint64_t written = UNTOUCHED;
    if (items == NULL || target == NULL) {
        expect(false, "memory for many items");
        free(items);
        free(target);
        return;
    }
    for (size_t i = 0; i < times; i++) {
        ones[i] = 1;
        memcpy(items + i * length, item, length);
    }
    uint32_t found = certis_deliver(bytes_of(items), length * times, ones, times, ones, times, CERTIS, DAY, start, target, room, &written);
    expect(found == number && (written == UNTOUCHED) == (number != 0), what);
    free(items);
    free(target);
}

static void repeats(const char *what, uint32_t number, const char *item, size_t times, uint32_t start)
{
    repeats_in(CERTIS_DELIVERY_MOST(strlen(item) * times, times), what, number, item, times, start);
}

static void test_counts(void)
{
    struct call call = worked();
    refuses("30: no bytes", 30, SLICE("", 1, 1));
    refuses("30: no heading", 30, SLICE(L("ZZ:"), 1, 1));
    refuses("30: a heading without HD:", 30, SLICE(L("hd:") KC_7, 1, 1));
    call.outcomes_len = 1;
    refuses("30: an outcome fewer", 30, call);
    call.outcomes_len = 3;
    refuses("30: an outcome more", 30, call);
    call.outcomes_len = 2;
    call.standings_len = 1;
    refuses("30: a standing fewer", 30, call);
    call.standings_len = 3;
    refuses("30: a standing more", 30, call);
    refuses("30 before 31: a line of no kind", 30, SLICE(L("x") L(HD_11) KC_7, 1, 6, 6));
    refuses("30 before 31: a heading that does not read is one", 30, SLICE(L("HD:") L(HD_11) KC_7, 1, 6));
    repeats("30,000 items", 0, L(MADE("11")) KC_7, CERTIS_ITEMS_MOST, 1);
    repeats("30: 30,001 items", 30, L(MADE("11")) KC_7, CERTIS_ITEMS_MOST + 1, 1);
}

/* A good item, and after it one more; and the one more alone. */
static void breaks(const char *what, const char *item)
{
    char text[1024];
    refuses(what, 31, SLICE(item, 1, 1));
    snprintf(text, sizeof text, "%s%s", L(MADE("11")) KC_7, item);
    refuses(what, 31, SLICE(text, 1, 1, 1));
}

static void test_rules(void)
{
    breaks("31: rule 1", L(MADE("11")) KC_7 L("ID:\x7F"));
    breaks("31: rule 1, a 1A", L(MADE("11")) KC_7 L("ID:\x1A"));
    breaks("31: rule 1, a 1A at the end", L(MADE("11")) KC_7 END);
    breaks("31: rule 2", L(MADE("11")) KC_7 L("x"));
    refuses("31: rule 2, a continuation of nothing", 31, SLICE(L("   ") L(MADE("11")) KC_7, 1, 1));
    refuses("31: rule 3", 31, SLICE(L("ID:") L(MADE("11")) KC_7, 1, 1));
    breaks("31: rule 4", L(MADE("11")) "KC:7 20240304");
    breaks("31: rule 4, a CR alone", L(MADE("11")) "KC:7 20240304 \r");
    breaks("31: rule 5", L(MADE("11")) KC_7 KC_7);
    breaks("31: rule 6", L(MADE("11")) L("KC:7"));
    breaks("31: rule 6 of a heading", L("HD:11") KC_7);
    breaks("31: rule 6 of a heading, a continuation", L(MADE("11")) L("   ") KC_7);
    breaks("31: rule 7", L(MADE("11")) KC_7 L("UD:20 19"));
    breaks("31: rule 8", L(MADE("11")) L("KC:7 20240305"));
    breaks("31: rule 9", L(MADE("32")) L("KC:100000000001 20240304"));
    breaks("31: rule 10", L(MADE("99")) KC_7);
    breaks("31: rule 11", L("HD:11 20240222 0000710 0000001 0000300 0000000 0000000") KC_7);
    breaks("31: rule 13", L("HD:11 20240304 0000710 0000001 0000300 0000001 0000000") KC_7);
    breaks("31: rule 14", L("HD:11 20240304 0000710 0000001 0000300 0000000 0000001") KC_7);
    breaks("31: rule 15", L(MADE("11")));
    breaks("31: rule 23", L(MADE("11")) KC_7 L("UD: 18"));
    breaks("31: rule 24", L(MADE("11")) KC_7 L("UD: 0"));
    delivers("rules 12 and 16 to 39 are not asked", SLICE(L("HD:11 20240223 9999999 0000000 0000300 0000000 0000000") KC_7 L("IN:5 9") L("S1:7 7"), 3, 1),
             L("HD:11 20240223 9999999 0000000 0000300 0000003 0000000") KC_7 L("IN:5 9") L("S1:7 7")
             L("HD:51 20240304 0000999 0000000 0000300 0000000 0000000") L("IN:3 3") L("S1:1 7") END);
}

static void test_deriving(void)
{
    struct call call = SLICE(L(MADE("11")) KC_7, 1, 1);
    static const uint32_t two = 2, three = 3, nought = 0;
    breaks("31: a 51", L(MADE("51")));
    breaks("31: a 96", L(MADE("96")) KC_7);
    refuses("31: outcome 0", 31, SLICE(L(MADE("11")) KC_7, 1, 0));
    refuses("31: outcome 9", 31, SLICE(L(MADE("11")) KC_7, 1, 9));
    refuses("31: no entry", 31, SLICE(L(MADE("11")) KC_7, 1, 2));
    refuses("31: 8 of a 35, as 6", 31, SLICE(L(HD_35) KC_7, 1, 8));
    refuses("31: 8 of a direct sender's 45, as 6", 31, SLICE(L("HD:45 20240304 0000300 0000009 0000820 0000000 0000990") KC_7, 5000001, 8));
    call.standings = &two;
    refuses("31: a third party's 11", 31, call);
    call.standings = &three;
    refuses("31: standing 3", 31, call);
    call.standings = &nought;
    refuses("31: standing 0", 31, call);
    refuses("31: number 0", 31, SLICE(L(MADE("11")) KC_7, 0, 1));
    refuses("31: number 5,000,001 of an 11", 31, SLICE(L(MADE("11")) KC_7 L(MADE("11")) KC_7, 5000000, 1, 1));
    refuses("31: number 5,000,000 of an 01", 31, SLICE(L(MADE("01")) KC_7, 5000000, 1));
    refuses("31: number 10,000,000 of a 44", 31, SLICE(L(MADE("44")) KC_7 L(MADE("44")) KC_7, 9999999, 1, 1));
    refuses("31: the largest start", 31, SLICE(L(MADE("11")) KC_7 L(MADE("11")) KC_7, UINT32_MAX, 1, 1));
}

static void test_recipients(void)
{
    refuses("31: recipient 10000", 31, SLICE(L("HD:11 20240304 0000710 0000001 0010000 0000000 0000000") KC_7, 1, 1));
    refuses("31: recipient 0", 31, SLICE(L("HD:11 20240304 0000000 0000001 0000300 0000000 0000000") KC_7, 1, 6));
    refuses("31: two recipients", 31, SLICE(L(MADE("11")) KC_7 L(HD_11) KC_7, 1, 1, 1));
    refuses("31: two recipients by their outcomes", 31, SLICE(L(HD_11) KC_7 L(HD_11) KC_7, 1, 1, 6));
}

static void test_mixed(void)
{
    refuses("32: an 11 and an 01", 32, SLICE(L(MADE("11")) KC_7 L(MADE("01")) KC_7, 5000000, 1, 1));
    refuses("31 before 32: an 01 out of its class", 31, SLICE(L(MADE("11")) KC_7 L(MADE("01")) KC_7, 4999999, 1, 1));
    refuses("31 before 32: a line of no kind after them", 31, SLICE(L(MADE("11")) KC_7 L(MADE("01")) KC_7 L("x"), 5000000, 1, 1));
    refuses("32: an 01 and a 44", 32, SLICE(L(MADE("01")) KC_7 L(MADE("44")) KC_7, 9000000, 1, 1));
    refuses("32: a 71 and an 84", 32, SLICE(L("HD:01 20240304 0000300 0000001 0000710 0000000 0000000") KC_7
                                          L("HD:44 20240304 0000300 0000001 0000710 0000000 0000000") KC_7, 9000000, 7, 7));
}

static void test_large(void)
{
    const char *large = L(MADE("11")) L("KC:999999999999999 20240304");
    repeats("100 items of the largest amount", 0, large, 100, 1);
    repeats("33: 101 items of the largest amount", 33, large, 101, 1);
    repeats("a sum of just below 10^17", 0, L(MADE("11")) L("KC:100000000000000 20240304"), 999, 1);
    repeats("33: a sum of just 10^17", 33, L(MADE("11")) L("KC:100000000000000 20240304"), 1000, 1);
    repeats("31 before 33: the last one out of its class", 31, large, 101, 4999901);
    repeats_in(0, "33 before 34", 33, large, 101, 1);
    repeats_in(0, "34: 100 items of the largest amount in no room", 34, large, 100, 1);
}

static void test_short_targets(void)
{
    struct call call = worked();
    call.room = 0;
    refuses("34: no room", 34, call);
    call.room = strlen(WORKED_FILE) - 1;
    refuses("34: a byte too short", 34, call);
    call.length -= 2;
    refuses("31 before 34", 31, call);
}

/* A slice of one item whose KC has a long rest, so that it has so many bytes.
 * The same piece of a file lies behind most of its pages: of memory it takes
 * little more than that piece. */
enum { PIECE = 1 << 26 };

static uint8_t *long_slice(size_t length)
{
    size_t room = (length + PIECE - 1) / PIECE * PIECE;
    FILE *file = tmpfile();
    uint8_t *piece = malloc(PIECE);
    uint8_t *slice = mmap(NULL, room, PROT_NONE, MAP_PRIVATE | MAP_ANONYMOUS | MAP_NORESERVE, -1, 0);
    bool made = file != NULL && piece != NULL && slice != MAP_FAILED;
    if (made) {
        memset(piece, 'x', PIECE);
        made = fwrite(piece, 1, PIECE, file) == PIECE && fflush(file) == 0;
    }
    for (size_t at = 0; made && at < room; at += PIECE) {
        made = mmap(slice + at, PIECE, PROT_READ | PROT_WRITE, MAP_PRIVATE | MAP_FIXED | MAP_NORESERVE, fileno(file), 0) != MAP_FAILED;
    }
    if (made) {
        static const char front[] = L(MADE("11")) "KC:7 20240304 ";
        memcpy(slice, front, strlen(front));
        memcpy(slice + length - 2, "\r\n", 2);
    }
    free(piece);
    if (file != NULL) {
        fclose(file);
    }
    return made ? slice : NULL;
}

static void is_long(const char *what, uint32_t number, size_t length)
{
    static const uint32_t one = 1;
    uint8_t target[1] = { PATTERN };
    uint64_t written = UNTOUCHED;
    uint8_t *slice = long_slice(length);
    if (slice == NULL) {
        expect(false, "memory for a long slice");
        return;
    }
    uint32_t found = certis_deliver(slice, length, &one, 1, &one, 1, CERTIS, DAY, 1, target, 0, &written);
    expect(found == number && target[0] == PATTERN && written == UNTOUCHED, what);
    munmap(slice, (length + PIECE - 1) / PIECE * PIECE);
}

/* The closing item and the end mark take 73 bytes. A slice of over 2^32 bytes is
 * no shorter for it. */
static void test_long_files(void)
{
    is_long("34: an output file of 4,000,000,000 bytes", 34, 4000000000 - 73);
    is_long("33: one of a byte more", 33, 4000000000 - 72);
    is_long("33: a slice of 2^32 bytes and a few", 33, ((size_t)1 << 32) + 200);
}

int main(void)
{
    test_files();
    test_days();
    test_codes_and_days();
    test_counts();
    test_rules();
    test_deriving();
    test_recipients();
    test_mixed();
    test_large();
    test_short_targets();
    test_long_files();
    return finish();
}
