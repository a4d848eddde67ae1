/* desk: the tools of the intake desk, one program with a subcommand for each.
 *
 *   desk COMMAND ...       desk help [COMMAND]       desk --version
 *
 * Called by the name of a subcommand (as ./list calls it), it is that one.
 * Exit status: the subcommand's; 2 where there is none of that name, or where
 * what it wrote did not arrive.
 */

#include "certis.h"
#include "desk.h"

#include <errno.h>
#include <stdio.h>
#include <string.h>

struct command {
    const char *name;
    int (*run)(int count, char **words);
    const char *does;
};

static const struct command COMMANDS[] = {
    { "account", desk_account, "checks account numbers" },
    { "deliver", desk_deliver, "writes an output file from input items and what became of them" },
    { "derive", desk_derive, "writes the heading that an outcome makes of an input heading" },
    { "list", desk_list, "lists the faults of input files" },
    { "register", desk_register, "keeps the numbers that a participant has used" },
    { "sheet", desk_sheet, "posts input files and shows the turnovers" },
    { "tell", desk_tell, "tells the type and the recipient of that heading before a number is spent" },
    { "whose", desk_whose, "finds the input headings that a derived heading may come from" },
};

#define COMMAND_COUNT (sizeof COMMANDS / sizeof COMMANDS[0])

static const struct command *find_command(const char *name)
{
    for (size_t i = 0; i < COMMAND_COUNT; i++) {
        if (strcmp(COMMANDS[i].name, name) == 0) {
            return &COMMANDS[i];
        }
    }
    return NULL;
}

static void show_commands(FILE *to, const char *desk)
{
    fprintf(to, "usage: %s COMMAND ...\n", desk);
    for (size_t i = 0; i < COMMAND_COUNT; i++) {
        fprintf(to, "  %-8s  %s\n", COMMANDS[i].name, COMMANDS[i].does);
    }
    fprintf(to, "%s COMMAND --help says what a command takes\n", desk);
}

static int run_named(const char *desk, int count, char **words)
{
    static char typed[512];
    const struct command *command = find_command(words[0]);
    if (command == NULL) {
        complain("there is no command %s", words[0]);
        show_commands(stderr, desk);
        return FAILED;
    }
    snprintf(typed, sizeof typed, "%s %s", desk, command->name);
    words[0] = typed;
    name_command(typed);
    return command->run(count, words);
}

static int help(const char *desk, int count, char **words)
{
    char ask[] = "--help";
    if (count == 0) {
        show_commands(stdout, desk);
        return GOOD;
    }
    char *asked[] = { words[0], ask, NULL };
    return run_named(desk, 2, asked);
}

static bool is(const char *word, const char *name)
{
    return strcmp(word, name) == 0;
}

static int run(int count, char **words)
{
    const char *slash = strrchr(words[0], '/');
    const struct command *short_form = find_command(slash == NULL ? words[0] : slash + 1);
    name_command(words[0]);
    if (count > 1 && is(words[1], "--version")) {
        puts("desk " CERTIS_VERSION);
        return GOOD;
    }
    if (short_form != NULL) {
        return short_form->run(count, words);
    }
    if (count == 1) {
        show_commands(stderr, words[0]);
        return FAILED;
    }
    if (is(words[1], "help") || is(words[1], "--help") || is(words[1], "-h")) {
        return help(words[0], count - 2, words + 2);
    }
    return run_named(words[0], count - 1, words + 1);
}

/* An answer that was cut short must not pass for a whole one. */
static int end_output(int status)
{
    if (fflush(stdout) != 0 || ferror(stdout)) {
        complain("standard output cannot be written: %s", strerror(errno));
        return FAILED;
    }
    return status;
}

int main(int count, char **words)
{
    return end_output(run(count, words));
}
