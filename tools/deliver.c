/* deliver: one output file from input items and what became of them.
 *
 *   deliver [--output FILE] CERTIS DAY START ITEMS OUTCOMES STANDINGS
 *
 * The output file goes to standard output, and then nothing else does: what is
 * to be said goes to standard error. With --output it is written beside the file
 * of that name and then in its place, and what is said goes to standard output.
 * Exit status: 0 written; 2 refused, a file cannot be read or written, or the
 * arguments are wrong.
 */

#include "certis.h"
#include "delivery.h"

#include <inttypes.h>
#include <stdio.h>
#include <stdlib.h>
#include <string.h>

/* One byte more than an output file may have, and it is never shorter than its
 * items: the library then refuses a longer slice. */
#define ITEMS_ROOM ((size_t)4000000000 + 1)

/* More than a digit and a line end for each of the items that there may be. */
#define DIGITS_ROOM ((size_t)4 * CERTIS_ITEMS_MOST)

static const struct form FORM = {
    .usage = "[--output FILE] CERTIS DAY START ITEMS OUTCOMES STANDINGS",
    .help = "  CERTIS         the code that stands first in the closing item\n"
            "  DAY            the accounting day, as 20240304\n"
            "  START          the first output number\n"
            "  ITEMS          a file of input items with no 51 and no end mark, or - for standard input\n"
            "  OUTCOMES       a digit for each item, as 181: 1 to 7 as for derive, 8 refused by the checklist;\n"
            "                 or @NAME for a file of such digits, with line ends and spaces among them\n"
            "  STANDINGS      the same for the senders: 1 direct, 2 third party\n"
            "  --output FILE  write the output file there, and not to standard output\n"
            "exit status: 0 written; 2 refused, a file cannot be read or written, or wrong arguments\n",
    .least = 6,
    .most = 6,
};

static bool is_gap(char byte)
{
    return byte == '\n' || byte == '\r' || byte == ' ';
}

/* Complains if there is anything but digits, and gaps where they may stand. */
static bool read_digits(const char *what, const char *text, size_t length, bool gaps, struct digits *digits)
{
    digits->count = 0;
    digits->at = malloc((length + 1) * sizeof *digits->at);
    if (digits->at == NULL) {
        complain("there is no memory for %s", what);
        return false;
    }
    for (size_t i = 0; i < length; i++) {
        if (text[i] >= '0' && text[i] <= '9') {
            digits->at[digits->count++] = (uint32_t)(text[i] - '0');
        } else if (!gaps || !is_gap(text[i])) {
            wrong_arguments(&FORM, "%s has a digit for each item, and something else at place %zu", what, i + 1);
            free(digits->at);
            return false;
        }
    }
    return true;
}

/* The digits of a word, or of the file that it names. */
static bool take_digits(const char *what, const char *word, struct digits *digits)
{
    struct bytes file;
    if (word[0] != '@') {
        return read_digits(what, word, strlen(word), false, digits);
    }
    if (!read_file(word + 1, DIGITS_ROOM, &file)) {
        return false;
    }
    bool taken = false;
    if (file.length == DIGITS_ROOM) {
        complain("%s has too many bytes for a digit for each item", word + 1);
    } else {
        taken = read_digits(what, (const char *)file.at, file.length, true, digits);
    }
    free_bytes(&file);
    return taken;
}

/* What stands in an output file must never be the words of a refusal. */
static int show_refused(const struct delivery *delivery, uint32_t refusal)
{
    char reason[REASON_ROOM];
    bool reasoned = find_reason(delivery, refusal, reason);
    const char *words = refusal_in_words(refusal);
    if (delivery->output == NULL) {
        complain("refused %" PRIu32 ": %s", refusal, words == NULL ? "" : words);
        if (reasoned) {
            complain("%s", reason);
        }
        return FAILED;
    }
    show_refusal(refusal, true);
    if (reasoned) {
        puts(reason);
    }
    return FAILED;
}

/* The recipient is the second code of the first heading. */
static void show_written(const struct delivery *delivery, const uint8_t *file, uint64_t length)
{
    size_t count = delivery->outcomes.count;
    printf("delivered to %.7s, %zu item%s, numbers %" PRIu32 " to %" PRIu32 ", %" PRIu64 " bytes\n", (const char *)file + 31, count,
           count == 1 ? "" : "s", delivery->start, delivery->start + (uint32_t)count - 1, length);
}

static int put_out(const struct delivery *delivery, const uint8_t *file, uint64_t length)
{
    if (delivery->output == NULL) {
        /* Whether it arrived is seen at the end of the program. */
        fwrite(file, 1, length, stdout);
        return GOOD;
    }
    if (!write_file(delivery->output, file, length)) {
        return FAILED;
    }
    show_written(delivery, file, length);
    return GOOD;
}

static int deliver(const struct delivery *delivery)
{
    const struct digits *outcomes = &delivery->outcomes;
    const struct digits *standings = &delivery->standings;
    size_t room = CERTIS_DELIVERY_MOST(delivery->items.length, outcomes->count);
    uint8_t *file = malloc(room);
    uint64_t written = 0;
    if (file == NULL) {
        complain("there is no memory for an output file of %zu bytes", room);
        return FAILED;
    }
    uint32_t refusal = certis_deliver(delivery->items.at, delivery->items.length, outcomes->at, outcomes->count, standings->at, standings->count,
                                      delivery->certis, delivery->day, delivery->start, file, room, &written);
    int status = refusal == 0 ? put_out(delivery, file, written) : show_refused(delivery, refusal);
    free(file);
    return status;
}

/* Reads what the words name, and delivers it. */
static int deliver_words(struct delivery *delivery, char **words)
{
    int status = FAILED;
    if (!take_digits("OUTCOMES", words[1], &delivery->outcomes)) {
        return FAILED;
    }
    if (take_digits("STANDINGS", words[2], &delivery->standings)) {
        if (read_file(words[0], ITEMS_ROOM, &delivery->items)) {
            status = deliver(delivery);
            free_bytes(&delivery->items);
        }
        free(delivery->standings.at);
    }
    free(delivery->outcomes.at);
    return status;
}

int desk_deliver(int count, char **words)
{
    struct delivery delivery = { .output = NULL };
    const struct option options[] = {
        { .name = "--output", .word = &delivery.output },
        { .name = NULL },
    };
    int status = FAILED;
    if (read_arguments(count, words, &FORM, options, &status) < 0) {
        return status;
    }
    if (!take_number(&FORM, "CERTIS", words[1], &delivery.certis) || !take_number(&FORM, "DAY", words[2], &delivery.day) ||
        !take_number(&FORM, "START", words[3], &delivery.start)) {
        return FAILED;
    }
    return deliver_words(&delivery, words + 4);
}
