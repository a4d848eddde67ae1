/* register: the numbers that a participant has used.
 *
 *   register new CODE REGISTER
 *   register enter CODE DAY FILE REGISTER
 *   register show REGISTER
 *
 * A register is a file. Entering writes the new one beside the old and renames
 * it, so that a power cut leaves the one or the other, and never a half. It
 * holds the old one from reading to renaming: of two that enter at once, the
 * second waits, and reads what the first has written.
 * Exit status: 0 done; 2 refused, a file cannot be read or written, or the
 * arguments are wrong.
 */

#define _POSIX_C_SOURCE 200809L /* for access */

#include "certis.h"
#include "desk.h"

#include <inttypes.h>
#include <stdio.h>
#include <string.h>
#include <unistd.h>

/* One byte more than a register has: the library then refuses a longer one. */
enum { REGISTER_ROOM = CERTIS_REGISTER_MOST + 1 };

static const struct form FORM = {
    .usage = "new CODE REGISTER | enter CODE DAY FILE REGISTER | show REGISTER",
    .help = "  new       write a new register; there must be none of that name\n"
            "  enter     enter the numbers of an input file\n"
            "  show      print a register\n"
            "  CODE      the participant's code\n"
            "  DAY       the accounting day, as 20240304\n"
            "  FILE      an input file, or - for standard input\n"
            "  REGISTER  the file that the register is kept in\n"
            "exit status: 0 done; 2 refused, a file cannot be read or written, or wrong arguments\n",
    .least = 2,
    .most = 5,
};

/* Showing */

static uint32_t number_at(const uint8_t *bytes, size_t width)
{
    uint32_t number = 0;
    for (size_t i = 0; i < width; i++) {
        number = number << 8 | bytes[i];
    }
    return number;
}

static void show_head(const uint8_t *bytes)
{
    uint32_t count = number_at(bytes + 11, 2);
    printf("register %04" PRIu32 ", version %" PRIu32 ", latest %08" PRIu32 ", %" PRIu32 " range%s\n", number_at(bytes + 5, 2),
           number_at(bytes + 3, 2), number_at(bytes + 7, 4), count, count == 1 ? "" : "s");
}

/* The library says whether bytes are a register when a file is entered: 23
 * comes before all that it says of this file, which no register takes. */
static bool is_register(const struct bytes *bytes)
{
    static const uint8_t faulty[] = { 'x', END_MARK };
    uint8_t target[1];
    size_t written = 0;
    return certis_register_enter(bytes->at, bytes->length, faulty, sizeof faulty, 1, 20991231, target, 0, &written) != CERTIS_BAD_REGISTER;
}

static int show_register(const char *name)
{
    struct bytes bytes;
    int status = GOOD;
    if (!read_file(name, REGISTER_ROOM, &bytes)) {
        return FAILED;
    }
    if (is_register(&bytes)) {
        show_head(bytes.at);
        for (size_t at = CERTIS_REGISTER_LEAST; at < bytes.length; at += 12) {
            const uint8_t *range = bytes.at + at;
            printf("%08" PRIu32 " %9" PRIu32 " to %9" PRIu32 "\n", number_at(range, 4), number_at(range + 4, 4), number_at(range + 8, 4));
        }
    } else {
        status = show_refusal(CERTIS_BAD_REGISTER, true);
    }
    free_bytes(&bytes);
    return status;
}

/* New ones */

static int new_register(const char *code_text, const char *name)
{
    uint8_t target[CERTIS_REGISTER_LEAST];
    uint32_t code = 0;
    if (!take_number(&FORM, "CODE", code_text, &code)) {
        return FAILED;
    }
    uint32_t refusal = certis_register_new(code, target, sizeof target);
    if (refusal != 0) {
        return show_refusal(refusal, true);
    }
    /* One that stands is not written over: its numbers would be free again. */
    if (access(name, F_OK) == 0) {
        complain("%s stands already", name);
        return FAILED;
    }
    if (!write_file(name, target, sizeof target)) {
        return FAILED;
    }
    show_head(target);
    return GOOD;
}

/* Entering */

static int enter_bytes(uint32_t code, uint32_t day, const struct bytes *file, const struct bytes *old, const char *name)
{
    uint8_t target[CERTIS_REGISTER_MOST];
    size_t written = 0;
    uint32_t refusal = certis_register_enter(old->at, old->length, file->at, file->length, code, day, target, sizeof target, &written);
    if (refusal != 0) {
        return show_refusal(refusal, true);
    }
    if (!write_file(name, target, written)) {
        return FAILED;
    }
    show_head(target);
    return GOOD;
}

static int enter_file(char **words)
{
    uint32_t code = 0;
    uint32_t day = 0;
    struct bytes file;
    struct bytes old;
    int status = FAILED;
    if (!take_number(&FORM, "CODE", words[0], &code) || !take_number(&FORM, "DAY", words[1], &day)) {
        return FAILED;
    }
    if (!read_file(words[2], FILE_ROOM, &file)) {
        return FAILED;
    }
    int held = lock_file(words[3]);
    if (held >= 0) {
        if (read_file(words[3], REGISTER_ROOM, &old)) {
            status = enter_bytes(code, day, &file, &old, words[3]);
            free_bytes(&old);
        }
        unlock_file(held);
    }
    free_bytes(&file);
    return status;
}

int desk_register(int count, char **words)
{
    const struct option options[] = { { .name = NULL } };
    int status = FAILED;
    int kept = read_arguments(count, words, &FORM, options, &status);
    if (kept < 0) {
        return status;
    }
    if (strcmp(words[1], "new") == 0 && kept == 3) {
        return new_register(words[2], words[3]);
    }
    if (strcmp(words[1], "enter") == 0 && kept == 5) {
        return enter_file(words + 2);
    }
    if (strcmp(words[1], "show") == 0 && kept == 2) {
        return show_register(words[2]);
    }
    return wrong_arguments(&FORM, "%s", "new takes two words, enter four, show one");
}
