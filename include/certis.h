/* certis.h: the proved CERTIS library for hosts in C.
 *
 * The rules, the refusals and their numbers are those of documents 01 and 02.
 * Every function returns 0, or the number of the refusal, but for
 * certis_turnover_text, which refuses nothing and returns a length. A refusal
 * leaves everything behind the pointers as it stood; certis_portions_close alone
 * marks its state as closed whatever it answers. No function keeps a pointer,
 * allocates, fails in any other way or runs for ever; calls from several threads
 * do not disturb each other. A call takes less than 16 KB of stack, but for
 * certis_register_enter, which takes less than 2 MB.
 *
 * What a caller owes, for every function:
 *   - each pointer is not null and properly aligned;
 *   - behind a pointer with a length stand that many elements (a length of 0 is
 *     fine: nothing is then read or written there);
 *   - behind a pointer without a length is room for one element, which need not
 *     be initialised: it is written where nothing is refused, and never read; or
 *     for as many as the comment beside it says (a sheet and a state are read);
 *   - no region that is written overlaps any other region given.
 * Nothing is asked of the values: every byte, number and length has an answer.
 */

#ifndef CERTIS_H
#define CERTIS_H

#include <stddef.h>
#include <stdint.h>

/* The first number changes where a host that was written for an older header
 * must change its calls. */
#define CERTIS_VERSION "3.2"

/* The most bytes of a file that is checked, and the bytes of a heading. */
#define CERTIS_FILE_MOST 10000000
#define CERTIS_HEADING 54

/* What the functions return. */
enum certis_refusal {
    CERTIS_DONE = 0,
    CERTIS_BAD_CODE = 1,       /* the code is not 1 to 9999 */
    CERTIS_BAD_DAY = 2,        /* the day is not real, or not from 20000101 to 20991231 */
    CERTIS_LONG_FILE = 3,      /* the file has more than CERTIS_FILE_MOST bytes */
    CERTIS_UNEQUAL_ROOMS = 4,  /* the rooms for lines, rules and offsets are not of one length */
    CERTIS_NO_END_MARK = 5,    /* there is no byte 1A in the file */
    CERTIS_EMPTY_FILE = 6,     /* it is the byte 1A alone */
    CERTIS_LEFTOVERS = 9,      /* bytes stand after the first 1A; asked after 5 and before 6 */
    CERTIS_BAD_PARTS = 10,     /* the parts are not an account number's digits */
    CERTIS_BAD_LAYOUT = 11,    /* the text does not have a heading's layout */
    CERTIS_BAD_HEADING = 12,   /* it is a 51, breaks rule 10, 13 or 14, or is none that a third party sends */
    CERTIS_BAD_OUTCOME = 13,   /* the outcome is not 1 to 7, or the standing not 1 or 2 */
    CERTIS_NO_OUTGOING = 14,   /* the table of outgoing types has no entry for this sender */
    CERTIS_BAD_NUMBER = 15,    /* the output number is not in its class */
    CERTIS_SHORT_TARGET = 16,  /* the target has fewer than CERTIS_HEADING bytes */
    CERTIS_AFTER_CLOSING = 18, /* portions: the file is closed, or was never opened */
    CERTIS_BAD_LIST = 19,      /* the list is too long, repeats a code, or has one not 1 to 9999 */
    CERTIS_HAS_FAULTS = 20,    /* the file has faults */
    CERTIS_NOT_LISTED = 21,    /* payer or beneficiary of an item that posts is not listed */
    CERTIS_PAST_LIMIT = 22,    /* a turnover would pass 10^17 - 1 either way */
    CERTIS_BAD_REGISTER = 23,  /* the bytes are not a well-formed register */
    CERTIS_OTHER_CODE = 24,    /* the register is of another code */
    CERTIS_DAY_BEFORE = 25,    /* the day is before the register's latest */
    CERTIS_FAULTS_ENTERED = 26, /* the file that is to be entered has faults */
    CERTIS_USED_ALREADY = 27,  /* a number is used already, in the register or twice in the file */
    CERTIS_MANY_RANGES = 28,   /* more than CERTIS_RANGES ranges would remain */
    CERTIS_SHORT_REGISTER = 29, /* the target is too short for the register */
    CERTIS_BAD_COUNT = 30,     /* no items, more than CERTIS_ITEMS_MOST, or not an outcome and a standing each */
    CERTIS_BAD_ITEM = 31,      /* an item breaks a rule, cannot be derived, or goes to nobody or to another */
    CERTIS_MIXED = 32,         /* priority or 44 and 84 are mixed with others */
    CERTIS_LARGE_DELIVERY = 33, /* a sum is 10^17 or more, or the output file too long */
    CERTIS_SHORT_DELIVERY = 34 /* the target is too short for the output file */
};

/* The rules of documents 01 and 02, as checking lists them. */
enum certis_rule {
    CERTIS_RULE_CHARACTER = 1, /* a line: an inadmissible byte */
    CERTIS_RULE_KIND = 2,      /* none of the kinds of lines, or continues nothing */
    CERTIS_RULE_NO_ITEM = 3,   /* no heading above it */
    CERTIS_RULE_LINE_END = 4,  /* no CR LF after it */
    CERTIS_RULE_REPEATED = 5,  /* a field: stood in the item already */
    CERTIS_RULE_LAYOUT = 6,    /* its layout; a heading's too */
    CERTIS_RULE_PREFIX = 7,    /* an account: its prefix fails the check */
    CERTIS_RULE_KC_DAY = 8,    /* an amount: its day */
    CERTIS_RULE_KC_MOST = 9,   /* the amount of a 32 */
    CERTIS_RULE_TYPE = 10,     /* a heading: its type */
    CERTIS_RULE_DAY = 11,      /* its day */
    CERTIS_RULE_SUBMITTER = 12, /* its first code */
    CERTIS_RULE_OUTPUT = 13,   /* its output number */
    CERTIS_RULE_CODES = 14,    /* its second and third code */
    CERTIS_RULE_NO_KC = 15,    /* no amount */
    CERTIS_RULE_NOT_CLOSED = 16, /* a block: no 51 */
    CERTIS_RULE_EMPTY = 17,    /* a 51 alone */
    CERTIS_RULE_ONE_DAY = 18,  /* a day that differs from the first */
    CERTIS_RULE_NUMBERS = 19,  /* an input number out of order */
    CERTIS_RULE_PRIORITY = 20, /* another priority than the file's first */
    CERTIS_RULE_INTERVAL = 21, /* the 51's IN */
    /* 22 is no rule any more */
    CERTIS_RULE_NUMBER = 23,   /* an account: its number fails the check */
    CERTIS_RULE_ZERO = 24,     /* its number is zero */
    CERTIS_RULE_S0 = 30,       /* the 51's S0; 31 to 39 are those of S1 to S9 */
    CERTIS_RULE_S9 = 39
};

/* What the account check answers for a part. */
enum certis_half {
    CERTIS_GOOD = 0,
    CERTIS_FAILING = 1,        /* its sum does not divide by 11 */
    CERTIS_ZERO = 2            /* the number alone: it is zero */
};

#ifdef __cplusplus
extern "C" {
#endif

/* Checking, for the total alone.
 *
 * Checks an input file for the submitter's code and the accounting day (a
 * number of eight digits, YYYYMMDD). Returns 0 and sets *total to the number of
 * pairs of a line and a rule broken there; it is 0 exactly when no rule is
 * broken anywhere in the file. The file ends with its first 1A.
 *
 * Refusals, the first that applies:
 *   1  the code is not 1 to 9999
 *   2  the day is not a real day from 20000101 to 20991231
 *   3  the file has more than 10,000,000 bytes, those after the 1A included
 *   5  there is no byte 1A in the file
 *   9  a byte stands after the first 1A
 *   6  the file is the byte 1A alone
 */
uint32_t certis_total(const uint8_t *file, size_t file_len,
                      uint32_t code, uint32_t day,
                      uint64_t *total);

/* Checking, with the list.
 *
 * As certis_total, and writes the faults: lines[i] is the number of a line,
 * counted from 1, rules[i] a rule broken there, and offsets[i] the place of the
 * line's first byte in the file, counted from 0 (of an empty line, that of its
 * CR); each fault stands once, by line and then by rule. Where there are more
 * faults than room, the first ones that fit are written; *total is the true
 * total all the same. Places after the last fault keep what they held.
 *
 * Refusals, the first that applies:
 *   1  the code is not 1 to 9999
 *   2  the day is not a real day from 20000101 to 20991231
 *   3  the file has more than 10,000,000 bytes, those after the 1A included
 *   4  lines_len, rules_len and offsets_len are not all equal
 *   5  there is no byte 1A in the file
 *   9  a byte stands after the first 1A
 *   6  the file is the byte 1A alone
 */
uint32_t certis_check(const uint8_t *file, size_t file_len,
                      uint32_t code, uint32_t day,
                      uint32_t *lines, size_t lines_len,
                      uint32_t *rules, size_t rules_len,
                      uint32_t *offsets, size_t offsets_len,
                      uint64_t *total);

/* A file that comes in portions.
 *
 * For a host that cannot hold the whole file: it opens a state, adds the bytes
 * portion by portion as they come, and closes. However the file is cut, closing
 * answers what certis_check would of the whole, with rooms of
 * CERTIS_PORTIONS_ROOM places. Nothing is handed out before that.
 *
 * What is inside a state is the library's own affair. There is no pointer in
 * it: a host may move it, keep it, or copy it, and both copies then go on, each
 * with its own bytes. Memory that is zero throughout is a state that is closed.
 * A state that is no longer wanted is simply left.
 */
#define CERTIS_PORTIONS_ROOM 256

struct certis_portions {
    uint64_t wide[38];
    uint64_t length;
    uint32_t narrow[33];
    uint32_t frame[8]; /* frame[0] is 0 once it is closed */
    uint32_t lines[CERTIS_PORTIONS_ROOM];
    uint32_t rules[CERTIS_PORTIONS_ROOM];
    uint32_t offsets[CERTIS_PORTIONS_ROOM];
    uint32_t stood[1296];
    uint8_t small[19];
    uint8_t text[68];
};

/* The three calls as the archive has them, with the parts of a state apart; the
 * functions below are shorter. Each part has the length that it has above, and
 * lines, rules and offsets need not be initialised before the opening. */
uint32_t certis_open_portions(uint32_t code, uint32_t day,
                              uint64_t *wide, uint64_t *length,
                              uint32_t *narrow, uint32_t *frame,
                              uint32_t *stood, uint8_t *small, uint8_t *text);
uint32_t certis_add_portion(const uint8_t *bytes, size_t bytes_len,
                            uint64_t *wide, uint64_t *length,
                            uint32_t *narrow, uint32_t *frame,
                            uint32_t *lines, uint32_t *rules, uint32_t *offsets,
                            uint32_t *stood, uint8_t *small, uint8_t *text);
uint32_t certis_close_portions(uint64_t *wide, uint64_t *length,
                               uint32_t *narrow, uint32_t *frame,
                               uint32_t *lines, uint32_t *rules, uint32_t *offsets,
                               uint32_t *stood, uint8_t *small, uint8_t *text,
                               uint32_t *out_lines /* CERTIS_PORTIONS_ROOM */,
                               uint32_t *out_rules /* CERTIS_PORTIONS_ROOM */,
                               uint32_t *out_offsets /* CERTIS_PORTIONS_ROOM */,
                               uint64_t *total);

/* Opening: no byte has come yet.
 *
 * The state need not be initialised; one that was open begins anew.
 *
 * Refusals, the first that applies; the state then stays as it stood:
 *   1  the code is not 1 to 9999
 *   2  the day is not a real day from 20000101 to 20991231
 */
static inline uint32_t certis_portions_open(struct certis_portions *state,
                                            uint32_t code, uint32_t day)
{
    return certis_open_portions(code, day, state->wide, &state->length,
                                state->narrow, state->frame, state->stood,
                                state->small, state->text);
}

/* Adding the next bytes, of any number; none is fine.
 *
 * Adding and closing read the state: it was opened, or is memory that is
 * initialised throughout. The bytes are not needed any more when the call
 * returns. There is no bad portion: what is wrong with the file is said at
 * closing, and however many bytes come, none makes a counter wrap.
 *
 * Refusal:
 *   18  the state is not open: it was closed, or no opening made it. Nothing
 *       changes.
 */
static inline uint32_t certis_portions_add(struct certis_portions *state,
                                           const uint8_t *bytes, size_t bytes_len)
{
    return certis_add_portion(bytes, bytes_len, state->wide, &state->length,
                              state->narrow, state->frame, state->lines,
                              state->rules, state->offsets, state->stood,
                              state->small, state->text);
}

/* Closing: the file is whole, and this is its answer.
 *
 * Writes the first faults, as many as there are or CERTIS_PORTIONS_ROOM, by line
 * and then by rule, as certis_check does, and sets *total to the true total.
 * Places after the last fault keep what they held. The state is then closed, by
 * a refusal too, until it is opened again; a refusal changes nothing else.
 *
 * Refusals, the first that applies:
 *   18  the state is not open, as above; it stays as it stood
 *   3   more than 10,000,000 bytes came, those after the 1A included
 *   5   no byte 1A came; also where no byte came at all
 *   9   a byte came after the first 1A
 *   6   the byte 1A came alone
 */
static inline uint32_t certis_portions_close(struct certis_portions *state,
                                             uint32_t *lines /* CERTIS_PORTIONS_ROOM */,
                                             uint32_t *rules /* CERTIS_PORTIONS_ROOM */,
                                             uint32_t *offsets /* CERTIS_PORTIONS_ROOM */,
                                             uint64_t *total)
{
    return certis_close_portions(state->wide, &state->length, state->narrow,
                                 state->frame, state->lines, state->rules,
                                 state->offsets, state->stood, state->small,
                                 state->text, lines, rules, offsets, total);
}

/* Telling what would go out.
 *
 * Takes the text of an input heading, its outcome and the sender's standing,
 * and sets *type to the outgoing type and *recipient to the recipient's code:
 * the second code of the heading that certis_derive would write. No output
 * number is spent. Outcomes: 1 beneficiary, payment made; 2 beneficiary, no
 * funds; 3 payer, payment made; 4 payer, no funds; 5 sender, payment made;
 * 6 sender, no funds; 7 formal error. Standings: 1 direct; 2 third party.
 *
 * Refusals, the first that applies:
 *   11  the text is not 54 bytes in the layout of a heading
 *   12  it is a 51, or breaks rule 10, 13 or 14; or the sender is a third party
 *       and the type is not 35, 37 or 45
 *   13  the outcome is not 1 to 7, or the standing is not 1 or 2
 *   14  the table of outgoing types has no entry for the type and the outcome;
 *       or the sender is direct, the type 45, and the outcome 5 or 6
 */
uint32_t certis_tell(const uint8_t *heading, size_t heading_len,
                     uint32_t outcome, uint32_t standing,
                     uint32_t *type, uint32_t *recipient);

/* Deriving an outgoing heading.
 *
 * Takes what certis_tell takes and an output number, and writes the outgoing
 * heading into the first 54 bytes of target; a longer target keeps its other
 * bytes. Where certis_tell refuses, this refuses with the same number; where it
 * does not, this refuses with 15 or 16 alone, or writes a heading of the type
 * and to the recipient that it told.
 *
 * Refusals, the first that applies:
 *   11 to 14, as above
 *   15  the output number is not in the class of the input type: 1 to 5,000,000;
 *       for 01, 21 and 45 5,000,001 to 9,000,000; for 44 9,000,001 to 9,999,999
 *   16  the target has fewer than 54 bytes
 */
uint32_t certis_derive(const uint8_t *heading, size_t heading_len,
                       uint32_t outcome, uint32_t standing, uint32_t number,
                       uint8_t *target, size_t target_len);

/* The account check.
 *
 * Takes both parts of an account number as digits and answers for each: sets
 * *prefix_answer to CERTIS_GOOD or CERTIS_FAILING, and *number_answer to one of
 * the three. Each part is secured by modulo 11; an empty prefix is good, and of
 * a number that is zero the sum is not judged.
 *
 * Refusal:
 *   10  the first part is not 0 to 6 digits, or the second not 1 to 10
 */
uint32_t certis_account(const uint8_t *prefix, size_t prefix_len,
                        const uint8_t *number, size_t number_len,
                        uint32_t *prefix_answer, uint32_t *number_answer);

/* The turnover sheet.
 *
 * A sheet holds the turnovers of up to CERTIS_LISTED participants, for a list
 * of their codes. It is CERTIS_TURNOVERS numbers in the caller's memory, in
 * hundredths as KC has them; of the participant codes[i] they are
 *
 *   turnovers[4 * i]        the debit
 *   turnovers[4 * i + 1]    the credit
 *   turnovers[4 * i + 2]    the debit of the second sheet
 *   turnovers[4 * i + 3]    the credit of the second sheet
 *
 * The caller keeps the list and the sheet together: the same codes in the same
 * order at every call.
 */
#define CERTIS_LISTED 64
#define CERTIS_TURNOVERS 256

/* Opening a sheet.
 *
 * Sets all CERTIS_TURNOVERS numbers to 0. An empty list is fine.
 *
 * Refusal:
 *   19  the list has more than CERTIS_LISTED codes, repeats one, or has one that
 *       is not 1 to 9999
 */
uint32_t certis_sheet_open(const uint32_t *codes, size_t codes_len,
                           int64_t *turnovers /* CERTIS_TURNOVERS */);

/* Posting a file.
 *
 * Checks the file as certis_total does and, if it has no fault, posts its items
 * in their order, all of them or none. Payer and beneficiary are the second and
 * third code of a 35, 37 or 45, and the first and second of any other item. The
 * amount is that of the item's KC:
 *
 *   01 11 12 21 35 45   added to the payer's debit and the beneficiary's credit
 *   13 14 37            taken from the payer's credit and the beneficiary's debit
 *   32                  added to the sender's credit and the other's debit,
 *                       on the second sheet
 *   33                  taken from the sender's debit and the other's credit,
 *                       on the second sheet
 *   44 51 55 96 97 98   nothing is posted, and nobody need be listed
 *
 * Over any row of postings on a new sheet, refused ones among them, the debits
 * of the first sheet together are the posted additions less the posted
 * cancellations (13, 14, 37), and so are the credits. One sheet may take files
 * of several submitters and days; that a file is posted once only is the
 * caller's affair. Nothing is asked of the turnovers: a sheet that no posting
 * could have left is posted on as any other.
 *
 * Refusals, the first that applies:
 *   19  the list, as in certis_sheet_open
 *   1   the code is not 1 to 9999
 *   2   the day is not a real day from 20000101 to 20991231
 *   3   the file has more than 10,000,000 bytes, those after the 1A included
 *   5   there is no byte 1A in the file
 *   9   a byte stands after the first 1A
 *   6   the file is the byte 1A alone
 *   20  the file has faults
 *   21  payer or beneficiary of an item that posts is not listed; it may be one
 *       of the amount 0
 *   22  after some item a turnover that it moved would have passed
 *       99,999,999,999,999,999 either way, whatever later items make of it
 */
uint32_t certis_sheet_post(const uint32_t *codes, size_t codes_len,
                           int64_t *turnovers /* CERTIS_TURNOVERS */,
                           const uint8_t *file, size_t file_len,
                           uint32_t code, uint32_t day);

/* A turnover as it is shown.
 *
 * Writes the sign, + or -, and the digits with no zero in front, nought as +0,
 * and returns how many bytes that is, 2 to 20; the bytes after them are kept.
 * Every number has an answer.
 */
size_t certis_turnover_text(int64_t turnover, uint8_t *text /* 20 bytes */);

/* The register of numbers used.
 *
 * A register holds the numbers that a participant has used of each day, as
 * ranges. It is bytes in the caller's memory, all numbers high byte first:
 *
 *   bytes   0   CRG
 *           3   the version, 1 or 2, in 2 bytes
 *           5   the participant's code, in 2
 *           7   the latest accounting day, in 4
 *          11   the count of ranges, in 2
 *          13   for each range the day, the first and the last number, in 4 each
 *
 * Ranges stand by day and first number, and never touch within a day. One of
 * version 1 has up to 64 ranges, one of version 2 up to CERTIS_RANGES; both are
 * taken and mean the same, and version 2 is written. A caller keeps the bytes
 * and hands them in again; it need not look into them.
 */
#define CERTIS_RANGES 1024
#define CERTIS_REGISTER_LEAST 13
#define CERTIS_REGISTER_MOST (13 + 12 * CERTIS_RANGES)

/* A new register.
 *
 * Writes a register with no ranges, of CERTIS_REGISTER_LEAST bytes; a longer
 * target keeps its other bytes.
 *
 * Refusals, the first that applies:
 *   1   the code is not 1 to 9999
 *   29  the target has fewer than CERTIS_REGISTER_LEAST bytes
 */
uint32_t certis_register_new(uint32_t code, uint8_t *target, size_t target_len);

/* Entering a file.
 *
 * Checks the file as certis_total does and, if it has no fault, writes the
 * register with the file's numbers into the target and sets *written to its
 * length; a longer target keeps its other bytes. Used are the day and the
 * number of every heading; the number of a 51 too, unless it is 0. The
 * accounting day becomes the latest, and days more than ten before it are
 * dropped. What is written is a register again. The old one is not changed:
 * the caller puts the new one in its place.
 *
 * Refusals, the first that applies:
 *   1   the code is not 1 to 9999
 *   2   the day is not a real day from 20000101 to 20991231
 *   3   the file has more than 10,000,000 bytes, those after the 1A included
 *   5   there is no byte 1A in the file
 *   9   a byte stands after the first 1A
 *   6   the file is the byte 1A alone
 *   23  the bytes are not a well-formed register
 *   24  its code is another
 *   25  the day is before its latest
 *   26  the file has faults
 *   27  a number is used already, in the register or twice in the file
 *   28  more than CERTIS_RANGES ranges would remain
 *   29  the target is too short; CERTIS_REGISTER_MOST bytes always are enough
 */
uint32_t certis_register_enter(const uint8_t *reg, size_t reg_len,
                               const uint8_t *file, size_t file_len,
                               uint32_t code, uint32_t day,
                               uint8_t *target, size_t target_len,
                               size_t *written);

/* Writing an output file.
 *
 * Takes a slice of input items that all go to one participant, an outcome and
 * the sender's standing for each of them, and writes one output file of one
 * block: of each item the heading that certis_derive would write, with the
 * output numbers start, start + 1 and so on, and its other lines unaltered; then
 * a 51 of the accounting day with the CERTIS code first and the recipient
 * second, an IN over the output numbers, an S line for each group of output
 * types that is not empty, and the byte 1A. Sets *written to the length of the
 * file; a longer target keeps its bytes behind it.
 *
 * The slice is cut into lines as a file is, but it has no end mark: its last
 * line too ends in CR LF. outcomes[i] and standings[i] are those of the item of
 * the slice's heading i, counted from 0. They are certis_tell's, and there is one
 * outcome more, CERTIS_CHECKLIST, a refusal by the checklist: it derives as 6
 * does, and the item's EC, if it has one, becomes EC:9999999999.
 *
 * Refusals, the first that applies:
 *   1   the CERTIS code is not 1 to 9999
 *   2   the day is not a real day from 20000101 to 20991231
 *   30  the slice has no heading, or more than CERTIS_ITEMS_MOST; or there are
 *       not as many outcomes as headings, or not as many standings
 *   31  a line breaks a rule from 1 to 15 other than 12, or 23 or 24, by the
 *       accounting day; or certis_derive would refuse an item with 11 to 15; or
 *       an item's recipient is not 1 to 9999, or is not the first item's
 *   32  the type of an item is one of priority (01, 21, 44, 45) and the first's
 *       is not, or the other way round; or its output type is 44 or 84 and the
 *       first's is not, or the other way round
 *   33  the sum of a group is 10^17 or more, or the file would have more than
 *       4,000,000,000 bytes
 *   34  the target is too short; CERTIS_DELIVERY_MOST(items_len, outcomes_len)
 *       bytes always are enough
 */
#define CERTIS_CHECKLIST 8
#define CERTIS_ITEMS_MOST 30000
#define CERTIS_DELIVERY_MOST(items_len, items) ((items_len) + 9 * (size_t)(items) + 400)

uint32_t certis_deliver(const uint8_t *items, size_t items_len,
                        const uint32_t *outcomes, size_t outcomes_len,
                        const uint32_t *standings, size_t standings_len,
                        uint32_t certis, uint32_t day, uint32_t start,
                        uint8_t *target, size_t target_len,
                        uint64_t *written);

#ifdef __cplusplus
}
#endif

#endif
