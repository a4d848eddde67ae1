/* The listing for people: each line above the rules broken there, these in
 * words, and at a 51 what it states and what its block holds.
 */

#include "listing.h"

#include <stdio.h>

static void show_text(const uint8_t *text, size_t length)
{
    size_t shown = length < SHOWN_BYTES ? length : SHOWN_BYTES;
    show_bytes(text, shown);
    if (shown < length) {
        printf(" ... (%zu bytes)", length);
    }
}

static void show_statement(const struct statement *statement)
{
    fputs("    stated: ", stdout);
    if (statement->stated == NULL) {
        printf("no %.2s", statement->mark);
    } else {
        show_text(statement->stated, statement->length);
    }
    printf("; counted: %s\n", statement->counted);
}

void explain_faults(const struct bytes *file, const struct faults *found, const struct request *asked)
{
    struct walk walk = before_walk(file, found);
    struct statement statement;
    for (size_t i = 0; i < found->count && i < asked->most; i++) {
        if (i == 0 || found->offsets[i] != found->offsets[i - 1]) {
            walk_to(&walk, found->offsets[i]);
            fputs("    |", stdout);
            show_text(walk.reader.text, walk.reader.length);
            putchar('\n');
        }
        show_fault(found, i, asked->offsets);
        end_line(rule_in_words(found->rules[i]));
        if (find_statement(&walk, found->rules[i], &statement)) {
            show_statement(&statement);
        }
    }
}
