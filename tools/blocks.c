/* What a 51 states and what its block holds.
 *
 * The library's list tells which headings and fields read (rule 6 is not broken
 * there) and which types are input types (rule 10), and where each fault's line
 * stands; so a block is counted here without judging anything a second time.
 */

#include "listing.h"

#include <inttypes.h>
#include <stdio.h>
#include <string.h>

/* A sum as great as this equals no statement. */
#define SUM_CAP UINT64_C(100000000000000000)

enum { LAYOUT = 6, TYPE = 10, INTERVAL = 21, GROUP = 30, NO_GROUP = -1 };

/* Where the parts of a heading begin. */
enum { TYPE_AT = 3, NUMBER_AT = 23, VALUE_AT = 3 };

struct walk before_walk(const struct bytes *file, const struct faults *found)
{
    return (struct walk){ .reader = before_lines(file->at, file->length), .file = file->at, .found = found, .group = NO_GROUP };
}

static bool broken(const struct walk *walk, uint32_t rule)
{
    const struct faults *found = walk->found;
    size_t place = (size_t)(walk->reader.text - walk->file);
    for (size_t i = walk->at; i < found->count && found->offsets[i] == place; i++) {
        if (found->rules[i] == rule) {
            return true;
        }
    }
    return false;
}

/* The digits that stand from the given place on: at most fifteen in what reads. */
static uint64_t number_at(const struct reader *reader, size_t at)
{
    uint64_t value = 0;
    for (; at < reader->length && reader->text[at] >= '0' && reader->text[at] <= '9'; at++) {
        value = value * 10 + (uint64_t)(reader->text[at] - '0');
    }
    return value;
}

static void meet_heading(struct walk *walk)
{
    walk->group = NO_GROUP;
    walk->has_amount = false;
    if (broken(walk, LAYOUT)) {
        return;
    }
    if (memcmp(walk->reader.text + TYPE_AT, "51", 2) == 0) {
        walk->closed = walk->open;
        walk->open = (struct block){ 0 };
        return;
    }
    walk->open.last = number_at(&walk->reader, NUMBER_AT);
    if (!walk->open.numbered) {
        walk->open.numbered = true;
        walk->open.first = walk->open.last;
    }
    if (!broken(walk, TYPE)) {
        walk->group = walk->reader.text[TYPE_AT] - '0';
    }
}

static void meet_amount(struct walk *walk)
{
    if (walk->group != NO_GROUP && !walk->has_amount && !broken(walk, LAYOUT)) {
        uint64_t *sum = &walk->open.sums[walk->group];
        walk->open.counts[walk->group] += 1;
        *sum += number_at(&walk->reader, VALUE_AT);
        *sum = *sum < SUM_CAP ? *sum : SUM_CAP;
    }
    walk->has_amount = true;
}

static bool step(struct walk *walk)
{
    if (!next_line(&walk->reader)) {
        return false;
    }
    size_t place = (size_t)(walk->reader.text - walk->file);
    while (walk->at < walk->found->count && walk->found->offsets[walk->at] < place) {
        walk->at += 1;
    }
    if (starts(&walk->reader, "HD:")) {
        meet_heading(walk);
    } else if (starts(&walk->reader, "KC:")) {
        meet_amount(walk);
    }
    return true;
}

void walk_to(struct walk *walk, size_t offset)
{
    while (walk->reader.rest <= walk->file + offset && step(walk)) {
    }
}

/* The first line of the 51's item that begins so, if there is one. */
static void find_stated(struct reader reader, struct statement *statement)
{
    while (next_line(&reader) && !starts(&reader, "HD:")) {
        if (starts(&reader, statement->mark)) {
            statement->stated = reader.text;
            statement->length = reader.length;
            return;
        }
    }
}

static void tell_counted(const struct block *block, uint32_t rule, struct statement *statement)
{
    size_t group = rule == INTERVAL ? 0 : rule - GROUP;
    uint64_t count = block->counts[group];
    uint64_t sum = block->sums[group];
    if (rule == INTERVAL && !block->numbered) {
        snprintf(statement->counted, sizeof statement->counted, "no other heading");
    } else if (rule == INTERVAL) {
        snprintf(statement->counted, sizeof statement->counted, "IN:%" PRIu64 " %" PRIu64, block->first, block->last);
    } else if (sum < SUM_CAP) {
        snprintf(statement->counted, sizeof statement->counted, "%s%" PRIu64 " %" PRIu64, statement->mark, count, sum);
    } else {
        snprintf(statement->counted, sizeof statement->counted, "%" PRIu64 " items with a sum that no S can state", count);
    }
}

bool find_statement(const struct walk *walk, uint32_t rule, struct statement *statement)
{
    if (rule != INTERVAL && (rule < GROUP || rule >= GROUP + GROUPS)) {
        return false;
    }
    *statement = (struct statement){ .mark = "IN:" };
    if (rule != INTERVAL) {
        statement->mark[0] = 'S';
        statement->mark[1] = (char)('0' + (rule - GROUP));
    }
    find_stated(walk->reader, statement);
    tell_counted(&walk->closed, rule, statement);
    return true;
}
