/* desk.h: the parts that the subcommands of the desk have in common.
 *
 * A subcommand is a file of its own with one function of the form
 *
 *   int desk_list(int count, char **words);
 *
 * and a row in the table of main.c. words[0] is the command as it was typed,
 * and the function returns the exit status. It writes its answer to standard
 * output, and main sees to it that the answer was written; what goes wrong it
 * says with complain or wrong_arguments. It stands on
 *
 *   arguments.c  options, numbers, complaints
 *   files.c      reading a file or standard input, writing a file
 *   lines.c      the lines of a CERTIS file
 *   page.c       bytes of code page 852 as a terminal shows them
 *   words.c      rules, refusals and outcomes in words
 */

#ifndef DESK_H
#define DESK_H

#include <stdbool.h>
#include <stddef.h>
#include <stdint.h>

/* Exit statuses. */
enum {
    GOOD = 0,   /* done, and nothing is wrong with what was given */
    FAULTS = 1, /* done, and there are faults, or some of many was refused */
    FAILED = 2  /* refused, cannot be read or written, or wrong arguments */
};

/* The worst of two exit statuses, for a subcommand that takes several things. */
static inline int worse(int status, int other)
{
    return status > other ? status : other;
}

/* The subcommands. */
int desk_account(int count, char **words);
int desk_deliver(int count, char **words);
int desk_derive(int count, char **words);
int desk_list(int count, char **words);
int desk_register(int count, char **words);
int desk_sheet(int count, char **words);
int desk_tell(int count, char **words);
int desk_whose(int count, char **words);

/* Arguments */

/* An option sets one thing: a flag (--explain), a number (--most 3, --most=3)
 * or a word (--into FILE, --into=FILE). */
struct option {
    const char *name; /* with its two dashes; NULL ends a row of options */
    bool *flag;
    uint32_t *number;
    const char **word;
};

/* What a subcommand takes beside its options, for usage and --help. */
struct form {
    const char *usage; /* what follows the command, as "[--most N] CODE DAY FILE" */
    const char *help;  /* lines that say what each of them is */
    int least;         /* so many words at least that are no options, */
    int most;          /* and at most */
};

/* Reads the options, which may stand anywhere before --, and leaves the other
 * words in their order from words[1] on; returns how many they are. --help is
 * answered, and wrong arguments are complained of: then the result is negative,
 * and *status is what the subcommand returns. */
int read_arguments(int count, char **words, const struct form *form, const struct option *options, int *status);

/* A number of any length in decimal digits; one too large for 32 bits becomes
 * the largest, which the library refuses as a code and as a day. */
bool read_number(const char *text, uint32_t *value);

/* As read_number; complains with the usage if it is no number. `what` is the
 * word's name in the usage. */
bool take_number(const struct form *form, const char *what, const char *text, uint32_t *value);

/* One line on standard error, after the command as it was typed. */
void complain(const char *format, ...) __attribute__((format(printf, 1, 2)));

/* As complain, then the usage. Returns FAILED. */
int wrong_arguments(const struct form *form, const char *format, ...) __attribute__((format(printf, 2, 3)));

/* How complaints and usages name the command. */
void name_command(const char *name);

/* Files */

struct bytes {
    uint8_t *at;
    size_t length;
};

/* One byte more than the library takes: it then refuses a longer file itself. */
#define FILE_ROOM ((size_t)10000000 + 1)

/* Reads the file of that name, or standard input for -, up to so many bytes.
 * Complains if it cannot. The bytes are freed with free_bytes. */
bool read_file(const char *name, size_t room, struct bytes *file);
void free_bytes(struct bytes *file);

/* Writes a file of that name: beside it and then in its place, so that a power
 * cut leaves the old one or the new, and never a half. Complains if it cannot;
 * the old one is then as it was. */
bool write_file(const char *name, const void *bytes, size_t length);

/* Waits until nobody else holds a file, and holds it: between reading it and
 * writing it anew no other desk reads it. The answer is for unlock_file, and -1
 * where it cannot be had, of which it has complained. */
int lock_file(const char *name);
void unlock_file(int file);

/* Lines */

#define END_MARK 0x1A

/* The line last read, and the bytes that follow it. */
struct reader {
    const uint8_t *text;
    size_t length;
    const uint8_t *rest;
    const uint8_t *end;
};

/* Before the first line of what stands before the end mark. */
struct reader before_lines(const uint8_t *bytes, size_t length);

/* Whether there was one more line; it is then the reader's. */
bool next_line(struct reader *reader);

/* Whether the line begins with the three bytes. */
bool starts(const struct reader *reader, const char *mark);

/* Where the line begins that stands before this one, which is not the first. */
const uint8_t *line_before(const uint8_t *file, const uint8_t *line);

/* Showing */

/* Document 01's admissible text bytes. */
bool admissible(uint8_t byte);

/* An admissible byte of code page 852 in UTF-8, which takes one or two; of any
 * other the length is 0. */
size_t in_utf8(uint8_t byte, char text[2]);

/* Prints bytes of code page 852 in UTF-8, inadmissible ones as <0A>. */
void show_bytes(const uint8_t *bytes, size_t length);

/* A rule, refusal or outcome in words, or NULL: a library newer than the tables
 * may have numbers of its own. */
const char *rule_in_words(uint32_t rule);
const char *refusal_in_words(uint32_t refusal);
const char *outcome_in_words(uint32_t outcome);

/* Ends a printed line, after a colon and the words unless they are NULL. */
void end_line(const char *words);

/* Prints the line 'refused K', with its words if they were asked for. Returns
 * FAILED. */
int show_refusal(uint32_t refusal, bool in_words);

#endif
