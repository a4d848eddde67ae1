/* Options, numbers, complaints. */

#include "desk.h"

#include <stdarg.h>
#include <stdio.h>
#include <string.h>

static const char *command = "desk";

void name_command(const char *name)
{
    command = name;
}

static void say(const char *format, va_list values)
{
    fprintf(stderr, "%s: ", command);
    vfprintf(stderr, format, values);
    fputc('\n', stderr);
}

void complain(const char *format, ...)
{
    va_list values;
    va_start(values, format);
    say(format, values);
    va_end(values);
}

static void show_usage(FILE *to, const struct form *form)
{
    fprintf(to, "usage: %s %s\n", command, form->usage);
}

int wrong_arguments(const struct form *form, const char *format, ...)
{
    va_list values;
    va_start(values, format);
    say(format, values);
    va_end(values);
    show_usage(stderr, form);
    return FAILED;
}

bool read_number(const char *text, uint32_t *value)
{
    uint64_t sum = 0;
    size_t at = 0;
    for (; text[at] >= '0' && text[at] <= '9'; at++) {
        sum = sum * 10 + (uint64_t)(text[at] - '0');
        if (sum > UINT32_MAX) {
            sum = UINT32_MAX;
        }
    }
    *value = (uint32_t)sum;
    return at > 0 && text[at] == '\0';
}

bool take_number(const struct form *form, const char *what, const char *text, uint32_t *value)
{
    if (read_number(text, value)) {
        return true;
    }
    wrong_arguments(form, "%s is a number, not '%s'", what, text);
    return false;
}

/* The option that a word names, alone or before '='. */
static const struct option *find_option(const struct option *options, const char *word)
{
    for (; options->name != NULL; options++) {
        size_t length = strlen(options->name);
        if (strncmp(word, options->name, length) == 0 && (word[length] == '\0' || word[length] == '=')) {
            return options;
        }
    }
    return NULL;
}

/* Sets what the option at words[*at] sets, and leaves *at at its last word. */
static bool set_option(const struct form *form, const struct option *option, int count, char **words, int *at)
{
    const char *value = strchr(words[*at], '=');
    if (option->flag != NULL) {
        if (value != NULL) {
            wrong_arguments(form, "%s takes no value", option->name);
            return false;
        }
        *option->flag = true;
        return true;
    }
    if (value != NULL) {
        value += 1;
    } else if (*at + 1 < count) {
        *at += 1;
        value = words[*at];
    } else {
        wrong_arguments(form, "%s needs a value", option->name);
        return false;
    }
    if (option->number != NULL) {
        return take_number(form, option->name, value, option->number);
    }
    *option->word = value;
    return true;
}

static bool is_help(const char *word)
{
    return strcmp(word, "--help") == 0 || strcmp(word, "-h") == 0;
}

int read_arguments(int count, char **words, const struct form *form, const struct option *options, int *status)
{
    int kept = 0;
    bool plain = false;
    for (int at = 1; at < count; at++) {
        /* A dash alone is the name of standard input. */
        if (plain || words[at][0] != '-' || words[at][1] == '\0') {
            kept += 1;
            words[kept] = words[at];
        } else if (strcmp(words[at], "--") == 0) {
            plain = true;
        } else if (is_help(words[at])) {
            show_usage(stdout, form);
            fputs(form->help, stdout);
            *status = GOOD;
            return -1;
        } else {
            const struct option *option = find_option(options, words[at]);
            if (option == NULL) {
                *status = wrong_arguments(form, "there is no option %s", words[at]);
                return -1;
            }
            if (!set_option(form, option, count, words, &at)) {
                *status = FAILED;
                return -1;
            }
        }
    }
    if (kept < form->least || kept > form->most) {
        *status = wrong_arguments(form, "%s", kept < form->least ? "too few arguments" : "too many arguments");
        return -1;
    }
    return kept;
}
