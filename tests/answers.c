/* answers: calls the library on inputs made from a fixed seed and prints, for
 * each job, how many were not refused and one number that stands for every
 * answer and every lent place. tests/machines runs it as this machine's code and
 * as x86-64 code; so it needs no header but the compiler's own.
 */

#include "certis.h"

int printf(const char *format, ...);

enum { ROUNDS = 50000, PORTIONS = 5000, SHEETS = 5000, REGISTERS = 5000, DELIVERIES = 20000, ROOM = 32, HEADING = 54, ONE_RANGE = 25 };

#define L(text) text "\r\n"

static const char FILE_TEXT[] =
    L("HD:11 20240304 0000300 0000001 0000710 0000000 0000000")
    L("KC:12500 20240304")
    L("UD: 2000145399")
    L("HD:32 20240304 0000300 0000002 0000710 0000000 0000000")
    L("KC:100000000000 20240403")
    L("AV:Praha \xDE")
    L("   2")
    L("HD:96 20240304 0000300 0000003 0000710 0000000 0000000")
    L("KC:7 20991231")
    L("HD:51 20240304 0000300 0000000 0000999 0000000 0000000")
    L("IN:1 3")
    L("S1:1 12500")
    L("S3:1 100000000000")
    L("S9:1 7")
    "\x1A";

enum { FILE_LENGTH = sizeof FILE_TEXT - 1 };

static const char ITEMS_TEXT[] =
    L("HD:12 20240304 0000300 0000017 0000710 0000000 0000000")
    L("KC:12500 20240304")
    L("EC:5")
    L("HD:35 20240304 0000990 0000009 0000820 0000000 0000300")
    L("KC:7 20240304");

enum { ITEMS_LENGTH = sizeof ITEMS_TEXT - 1, DELIVERED = 280 };

static uint64_t state = 20240304;

/* A number below the limit (xorshift). No expression calls it twice: compilers
 * choose the order for themselves. */
static uint32_t below(uint32_t limit)
{
    state ^= state << 13;
    state ^= state >> 7;
    state ^= state << 17;
    return (uint32_t)(state >> 32) % limit;
}

struct tally {
    uint32_t answered;
    uint64_t sum;
};

static void fold(struct tally *tally, uint64_t value)
{
    tally->sum = (tally->sum ^ value) * UINT64_C(0x100000001B3);
}

static void show(const char *job, struct tally tally)
{
    printf("%s: %u answered, %llx\n", job, (unsigned)tally.answered, (unsigned long long)tally.sum);
}

/* Copies a text and changes up to three of its bytes, often to a digit. */
static void vary(uint8_t *target, const char *text, uint32_t length)
{
    for (uint32_t i = 0; i < length; i++) {
        target[i] = (uint8_t)text[i];
    }
    for (uint32_t changes = below(4); changes > 0; changes--) {
        uint32_t place = below(length);
        uint32_t byte = below(768);
        target[place] = (uint8_t)(byte < 256 ? byte : '0' + byte % 10);
    }
}

static void check_one(struct tally *tally)
{
    uint8_t file[FILE_LENGTH];
    uint32_t lines[ROOM] = { 0 };
    uint32_t rules[ROOM] = { 0 };
    uint32_t offsets[ROOM] = { 0 };
    uint64_t total = 0;
    size_t room = below(ROOM + 1);
    vary(file, FILE_TEXT, FILE_LENGTH);
    uint32_t length = FILE_LENGTH - below(9) / 8;
    uint32_t code = 300 + below(8) / 7;
    uint32_t day = 20240200 + below(132);
    uint32_t refusal = certis_check(file, length, code, day, lines, room, rules, room, offsets, room, &total);
    tally->answered += refusal == 0;
    fold(tally, refusal);
    fold(tally, total);
    for (size_t i = 0; i < ROOM; i++) {
        fold(tally, (uint64_t)lines[i] << 32 | rules[i]);
        fold(tally, offsets[i]);
    }
}

/* The same file in portions of up to 80 bytes. */
static void portions_one(struct tally *tally)
{
    static struct certis_portions state;
    static uint32_t lines[CERTIS_PORTIONS_ROOM];
    static uint32_t rules[CERTIS_PORTIONS_ROOM];
    static uint32_t offsets[CERTIS_PORTIONS_ROOM];
    uint8_t file[FILE_LENGTH];
    uint64_t total = 0;
    vary(file, FILE_TEXT, FILE_LENGTH);
    uint32_t code = 300 + below(8) / 7;
    uint32_t day = 20240200 + below(132);
    fold(tally, certis_portions_open(&state, code, day));
    for (uint32_t at = 0; at < FILE_LENGTH;) {
        uint32_t length = below(81);
        length = length < FILE_LENGTH - at ? length : FILE_LENGTH - at;
        fold(tally, certis_portions_add(&state, file + at, length));
        at += length;
    }
    uint32_t refusal = certis_portions_close(&state, lines, rules, offsets, &total);
    tally->answered += refusal == 0;
    fold(tally, refusal);
    fold(tally, total);
    for (size_t i = 0; i < CERTIS_PORTIONS_ROOM; i++) {
        fold(tally, (uint64_t)lines[i] << 32 | rules[i]);
        fold(tally, offsets[i]);
    }
}

static void derive_one(struct tally *tally)
{
    static const char *const HEADINGS[] = {
        "HD:12 20240304 0000300 0000017 0000710 0000000 0000000",
        "HD:45 20240304 0000990 0000001 0000300 0000000 0000710",
        "HD:44 20240304 0000300 0000001 0000710 0000000 0000000",
    };
    uint8_t heading[HEADING];
    uint8_t target[HEADING + 1] = { 0 };
    vary(heading, HEADINGS[below(3)], HEADING);
    uint32_t type = 0;
    uint32_t recipient = 0;
    uint32_t outcome = below(9);
    uint32_t standing = 1 + below(9) / 4;
    uint32_t number = below(10000001);
    size_t room = HEADING + 1 - below(3);
    uint32_t untold = certis_tell(heading, HEADING, outcome, standing, &type, &recipient);
    uint32_t refusal = certis_derive(heading, HEADING, outcome, standing, number, target, room);
    tally->answered += refusal == 0;
    fold(tally, untold);
    fold(tally, (uint64_t)type << 32 | recipient);
    fold(tally, refusal);
    for (size_t i = 0; i <= HEADING; i++) {
        fold(tally, target[i]);
    }
}

static void account_one(struct tally *tally)
{
    static const char DIGITS[] = "0000192000145399";
    uint8_t digits[16];
    uint32_t answers[2] = { 0, 0 };
    vary(digits, DIGITS, 16);
    size_t first = below(7);
    size_t second = below(11);
    uint32_t refusal = certis_account(digits, first, digits + 6, second, &answers[0], &answers[1]);
    tally->answered += refusal == 0;
    fold(tally, refusal);
    fold(tally, answers[0]);
    fold(tally, answers[1]);
}

/* Posts on a sheet of which some turnovers are near the limit. */
static void post_one(struct tally *tally)
{
    uint32_t codes[3] = { 710, 300, 999 };
    int64_t turnovers[CERTIS_TURNOVERS];
    uint8_t file[FILE_LENGTH];
    vary(file, FILE_TEXT, FILE_LENGTH);
    codes[2] = below(12000);
    for (size_t i = 0; i < CERTIS_TURNOVERS; i++) {
        uint32_t less = below(20000);
        turnovers[i] = (below(4) == 0 ? INT64_C(100000000000000000) : 0) - less;
    }
    uint32_t refusal = certis_sheet_post(codes, 3, turnovers, file, FILE_LENGTH, 300, 20240304);
    tally->answered += refusal == 0;
    fold(tally, refusal);
    for (size_t i = 0; i < CERTIS_TURNOVERS; i++) {
        uint8_t text[20] = { 0 };
        fold(tally, certis_turnover_text(turnovers[i], text));
        for (size_t at = 0; at < sizeof text; at++) {
            fold(tally, text[at]);
        }
    }
}

/* Enters in a register of one range, 4 to 9 of the same day. */
static void enter_one(struct tally *tally)
{
    static const char REGISTER[] = "CRG\0\1\1\x2C\1\x34\xD7\xB0\0\1\1\x34\xD7\xB0\0\0\0\4\0\0\0\x09";
    uint8_t reg[ONE_RANGE];
    uint8_t file[FILE_LENGTH];
    uint8_t target[2 * ONE_RANGE] = { 0 };
    size_t written = 0;
    vary(reg, REGISTER, ONE_RANGE);
    vary(file, FILE_TEXT, FILE_LENGTH);
    size_t room = sizeof target - below(16);
    uint32_t refusal = certis_register_enter(reg, ONE_RANGE, file, FILE_LENGTH, 300, 20240304, target, room, &written);
    tally->answered += refusal == 0;
    fold(tally, refusal);
    fold(tally, written);
    for (size_t i = 0; i < sizeof target; i++) {
        fold(tally, target[i]);
    }
}

/* Delivers two items; the second goes to the first's recipient but where it was changed. */
static void deliver_one(struct tally *tally)
{
    uint8_t items[ITEMS_LENGTH];
    uint32_t outcomes[2];
    uint32_t standings[2];
    uint8_t target[DELIVERED] = { 0 };
    uint64_t written = 0;
    vary(items, ITEMS_TEXT, ITEMS_LENGTH);
    outcomes[0] = 6 + below(3);
    outcomes[1] = 1 + below(8) / 7;
    standings[0] = 1 + below(16) / 15;
    standings[1] = 1 + below(2);
    uint32_t day = 20240300 + below(16);
    uint32_t start = below(5000100);
    size_t room = DELIVERED - below(50);
    uint32_t refusal = certis_deliver(items, ITEMS_LENGTH, outcomes, 2, standings, 2, 999, day, start, target, room, &written);
    tally->answered += refusal == 0;
    fold(tally, refusal);
    fold(tally, written);
    for (size_t i = 0; i < DELIVERED; i++) {
        fold(tally, target[i]);
    }
}

int main(void)
{
    struct tally files = { 0 };
    struct tally portions = { 0 };
    struct tally headings = { 0 };
    struct tally accounts = { 0 };
    struct tally sheets = { 0 };
    struct tally registers = { 0 };
    struct tally deliveries = { 0 };
    for (int round = 0; round < ROUNDS; round++) {
        check_one(&files);
        derive_one(&headings);
        account_one(&accounts);
    }
    for (int round = 0; round < PORTIONS; round++) {
        portions_one(&portions);
    }
    for (int round = 0; round < SHEETS; round++) {
        post_one(&sheets);
    }
    for (int round = 0; round < REGISTERS; round++) {
        enter_one(&registers);
    }
    for (int round = 0; round < DELIVERIES; round++) {
        deliver_one(&deliveries);
    }
    show("files", files);
    show("portions", portions);
    show("headings", headings);
    show("accounts", accounts);
    show("sheets", sheets);
    show("registers", registers);
    show("deliveries", deliveries);
    return 0;
}
