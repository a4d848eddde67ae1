/* tell and derive: what goes out for an input heading, asked before an output
 * number is spent, and then written.
 */

#include "certis.h"
#include "desk.h"

#include <inttypes.h>
#include <stdio.h>
#include <string.h>

/* What both commands take first. */
#define ITEM_HELP \
    "  HEADING    the 54 bytes of an input heading, as one word: 'HD:12 ...'\n" \
    "  OUTCOME    1 beneficiary, payment made; 2 beneficiary, no funds; 3 payer, payment made; 4 payer, no funds;\n" \
    "             5 sender, payment made; 6 sender, no funds; 7 formal error\n" \
    "  STANDING   the sender's: 1 direct, 2 third party\n"

static const struct form TELL_FORM = {
    .usage = "[--explain] HEADING OUTCOME STANDING",
    .help = ITEM_HELP
            "  --explain  say a refusal in words\n"
            "exit status: 0 told; 2 refused, or wrong arguments\n",
    .least = 3,
    .most = 3,
};

static const struct form DERIVE_FORM = {
    .usage = "[--explain] HEADING OUTCOME STANDING NUMBER",
    .help = ITEM_HELP
            "  NUMBER     the output number\n"
            "  --explain  say a refusal in words\n"
            "exit status: 0 derived; 2 refused, or wrong arguments\n",
    .least = 4,
    .most = 4,
};

/* An item as the words of a command give it. */
struct item {
    const uint8_t *heading;
    size_t length;
    uint32_t outcome;
    uint32_t standing;
    bool explain;
};

/* Reads the options and the first three words; negative as read_arguments is. */
static int take_item(int count, char **words, const struct form *form, struct item *item, int *status)
{
    const struct option options[] = {
        { .name = "--explain", .flag = &item->explain },
        { .name = NULL },
    };
    int kept = read_arguments(count, words, form, options, status);
    if (kept < 0) {
        return kept;
    }
    item->heading = (const uint8_t *)words[1];
    item->length = strlen(words[1]);
    if (!take_number(form, "OUTCOME", words[2], &item->outcome) || !take_number(form, "STANDING", words[3], &item->standing)) {
        *status = FAILED;
        return -1;
    }
    return kept;
}

int desk_tell(int count, char **words)
{
    struct item item = { .explain = false };
    uint32_t type = 0;
    uint32_t recipient = 0;
    int status = FAILED;
    if (take_item(count, words, &TELL_FORM, &item, &status) < 0) {
        return status;
    }
    uint32_t refusal = certis_tell(item.heading, item.length, item.outcome, item.standing, &type, &recipient);
    if (refusal != 0) {
        return show_refusal(refusal, item.explain);
    }
    printf("type %02" PRIu32 " recipient %07" PRIu32 "\n", type, recipient);
    return GOOD;
}

int desk_derive(int count, char **words)
{
    struct item item = { .explain = false };
    uint32_t number = 0;
    uint8_t derived[CERTIS_HEADING];
    int status = FAILED;
    if (take_item(count, words, &DERIVE_FORM, &item, &status) < 0) {
        return status;
    }
    if (!take_number(&DERIVE_FORM, "NUMBER", words[4], &number)) {
        return FAILED;
    }
    uint32_t refusal =
        certis_derive(item.heading, item.length, item.outcome, item.standing, number, derived, sizeof derived);
    if (refusal != 0) {
        return show_refusal(refusal, item.explain);
    }
    printf("%.*s\n", CERTIS_HEADING, (const char *)derived);
    return GOOD;
}
