/* Why a delivery is refused, by what the library answers of its parts. */

#include "certis.h"
#include "delivery.h"

#include <inttypes.h>
#include <stdio.h>
#include <stdlib.h>
#include <string.h>

/* The slice has no end mark: a 1A is a byte of its line. */
static struct reader before_items(const struct delivery *delivery)
{
    return (struct reader){ .rest = delivery->items.at, .end = delivery->items.at + delivery->items.length };
}

/* Refusal 30 */

static const char *several(size_t count)
{
    return count == 1 ? "" : "s";
}

static void say_counts(const struct delivery *delivery, char *reason)
{
    size_t items = 0;
    size_t outcomes = delivery->outcomes.count;
    size_t standings = delivery->standings.count;
    for (struct reader reader = before_items(delivery); next_line(&reader);) {
        items += starts(&reader, "HD:");
    }
    snprintf(reason, REASON_ROOM, "%zu item%s, %zu outcome%s, %zu standing%s", items, several(items), outcomes, several(outcomes), standings,
             several(standings));
}

/* Refusal 31 for a line that breaks a rule */

/* Whether delivering asks for the rule. */
static bool is_asked(uint32_t rule)
{
    return (rule <= CERTIS_RULE_NO_KC && rule != CERTIS_RULE_SUBMITTER) || rule == CERTIS_RULE_NUMBER || rule == CERTIS_RULE_ZERO;
}

static void say_rule(uint32_t line, uint32_t rule, char *reason)
{
    snprintf(reason, REASON_ROOM, "line %" PRIu32 " rule %" PRIu32 ": %s", line, rule, rule_in_words(rule));
}

/* The first 1A breaks rule 1 at its line. */
static bool find_mark(const struct delivery *delivery, char *reason)
{
    uint32_t line = 1;
    for (struct reader reader = before_items(delivery); next_line(&reader); line++) {
        if (memchr(reader.text, END_MARK, reader.length) != NULL) {
            say_rule(line, CERTIS_RULE_CHARACTER, reason);
            return true;
        }
    }
    return false;
}

/* The faults of the items as a file; all of them, since most may be of rules that
 * are not asked here. */
static bool find_fault(const uint8_t *file, size_t length, uint32_t day, char *reason)
{
    uint64_t total = 0;
    bool found = false;
    if (certis_total(file, length, 1, day, &total) != 0) {
        return false;
    }
    uint32_t *lines = malloc(3 * (size_t)(total + 1) * sizeof *lines);
    if (lines == NULL) {
        return false;
    }
    uint32_t *rules = lines + total + 1;
    certis_check(file, length, 1, day, lines, total, rules, total, rules + total + 1, total, &total);
    for (size_t i = 0; !found && i < total; i++) {
        if (is_asked(rules[i])) {
            say_rule(lines[i], rules[i], reason);
            found = true;
        }
    }
    free(lines);
    return found;
}

static bool find_broken(const struct delivery *delivery, char *reason)
{
    const struct bytes *items = &delivery->items;
    if (find_mark(delivery, reason)) {
        return true;
    }
    uint8_t *file = malloc(items->length + 1);
    if (file == NULL) {
        return false;
    }
    memcpy(file, items->at, items->length);
    file[items->length] = END_MARK;
    bool found = find_fault(file, items->length + 1, delivery->day, reason);
    free(file);
    return found;
}

/* Refusal 31 for an item that is refused by deriving, or goes elsewhere */

struct place {
    size_t item; /* counted from 0 */
    uint32_t line;
};

/* Writes what is wrong with the item; `first` is the first one's recipient once it is known. */
static bool find_wrong(const struct delivery *delivery, const struct reader *heading, struct place place, uint32_t *first, char *reason)
{
    uint8_t derived[CERTIS_HEADING];
    uint32_t type = 0;
    uint32_t recipient = 0;
    uint32_t outcome = delivery->outcomes.at[place.item];
    uint32_t standing = delivery->standings.at[place.item];
    uint32_t as = outcome == CERTIS_CHECKLIST ? 6 : outcome;
    uint32_t number = delivery->start + (uint32_t)place.item;
    uint32_t refusal = certis_derive(heading->text, heading->length, as, standing, number, derived, sizeof derived);
    if (refusal != 0) {
        snprintf(reason, REASON_ROOM, "item %zu at line %" PRIu32 ", outcome %" PRIu32 ", standing %" PRIu32 ", number %" PRIu32 ": refused %" PRIu32 ": %s",
                 place.item + 1, place.line, outcome, standing, number, refusal, refusal_in_words(refusal));
        return true;
    }
    certis_tell(heading->text, heading->length, as, standing, &type, &recipient);
    *first = place.item == 0 ? recipient : *first;
    if (recipient != *first || recipient < 1 || recipient > 9999) {
        snprintf(reason, REASON_ROOM, "item %zu at line %" PRIu32 " goes to %07" PRIu32 "; all must go to one participant, 1 to 9999, and the first goes to %07" PRIu32,
                 place.item + 1, place.line, recipient, *first);
        return true;
    }
    return false;
}

static bool find_item(const struct delivery *delivery, char *reason)
{
    struct place place = { .item = 0, .line = 1 };
    uint32_t first = 0;
    for (struct reader reader = before_items(delivery); next_line(&reader); place.line++) {
        if (starts(&reader, "HD:")) {
            if (find_wrong(delivery, &reader, place, &first, reason)) {
                return true;
            }
            place.item += 1;
        }
    }
    return false;
}

bool find_reason(const struct delivery *delivery, uint32_t refusal, char reason[REASON_ROOM])
{
    if (refusal == CERTIS_BAD_COUNT) {
        say_counts(delivery, reason);
        return true;
    }
    return refusal == CERTIS_BAD_ITEM && (find_broken(delivery, reason) || find_item(delivery, reason));
}
