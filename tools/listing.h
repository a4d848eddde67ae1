/* listing.h: what list.c has found in a file, and what the other parts of the
 * listing do with it.
 *
 *   blocks.c   what a 51 states, and what its block holds
 *   explain.c  the listing with lines and words
 *   hints.c    what a whole file has wrong
 *   portions.c the faults of a file that is not held
 *   screen.c   the listing as a page for the screen, whose parts are in screen.h
 */

#ifndef LISTING_H
#define LISTING_H

#include "desk.h"

/* What was asked for, of each file. */
struct request {
    bool explain;
    bool offsets;
    bool summary;
    const char *page;  /* where the page goes, or NULL */
    uint32_t most;     /* EVERY, or what --most says */
    uint32_t portion;  /* 0 for files that are read whole, or what --portions says */
    uint32_t code;
    uint32_t day;
};

/* No file that the library takes can have so many faults. */
#define EVERY UINT32_MAX

/* The library's answer. The faults stand by line and then by rule, each with the
 * place of its line in the file. */
struct faults {
    uint32_t refusal;
    uint32_t *lines;
    uint32_t *rules;
    uint32_t *offsets;
    size_t count;
    uint64_t total;
};

/* Prints 'line N rule N', and 'offset N' if that was asked for. */
void show_fault(const struct faults *found, size_t at, bool offset);

/* Rules have numbers below this. */
enum { RULES = 64 };

/* How often each rule is among the faults. */
void count_rules(const struct faults *found, size_t counts[RULES]);

/* A line may be as long as the file; nobody reads more of it than this. */
#define SHOWN_BYTES ((size_t)160)

/* Prints the first faults, each line of the file once above its own, with the
 * rules in words. All faults of the file must have been found. */
void explain_faults(const struct bytes *file, const struct faults *found, const struct request *asked);

/* Writes the page, with the first faults or the refusal. All faults of the file
 * must have been found. Complains and returns false if it cannot be written. */
bool write_page(const char *name, const struct bytes *file, const struct faults *found, const struct request *asked);

/* Portions */

/* Checks the file of that name, or standard input for -, portion by portion, of
 * at most so many bytes each. The lines, rules and offsets of *found are rooms
 * for CERTIS_PORTIONS_ROOM; refusal and total are set. Complains and returns
 * false if it cannot be read. */
bool check_portions(const char *name, size_t room, const struct request *asked, struct faults *found);

/* Blocks */

enum { GROUPS = 10 };

struct block {
    bool numbered; /* it has a readable heading other than a 51 */
    uint64_t first;
    uint64_t last;
    uint64_t counts[GROUPS];
    uint64_t sums[GROUPS];
};

/* The walk through the file: its line, the faults from that line on, the block
 * that is open, the one that the last 51 closed, and the item that is open. */
struct walk {
    struct reader reader;
    const uint8_t *file;
    const struct faults *found;
    size_t at;
    struct block open;
    struct block closed;
    int group;
    bool has_amount;
};

/* Before the first line. */
struct walk before_walk(const struct bytes *file, const struct faults *found);

/* On to the line that begins there; it is then the reader's. */
void walk_to(struct walk *walk, size_t offset);

/* What a 51 states: the line that begins so, or NULL if it has none; and what
 * its block holds, in words. */
struct statement {
    char mark[4];
    const uint8_t *stated;
    size_t length;
    char counted[64];
};

/* Whether the rule compares the two; they are then those of the 51 at which the
 * walk stands. */
bool find_statement(const struct walk *walk, uint32_t rule, struct statement *statement);

/* Hints */

/* What makes a whole file look broken, its line ends or its code page, in words;
 * or NULL. */
const char *line_end_hint(const struct bytes *file);
const char *code_page_hint(const struct bytes *file);

/* What stands behind the end mark, for a file that is refused for it. */
struct hint {
    char text[96];
};
struct hint leftovers_hint(const struct bytes *file);

#endif
