/* Checking a file as it comes, portion by portion, without holding it. */

#define _POSIX_C_SOURCE 200809L /* for open, read, isatty */

#include "certis.h"
#include "listing.h"

#include <errno.h>
#include <fcntl.h>
#include <stdio.h>
#include <stdlib.h>
#include <string.h>
#include <time.h>
#include <unistd.h>

/* A file that comes, and how far it has come. */
struct intake {
    struct certis_portions state;
    size_t length;
    bool watched; /* a terminal is there */
    bool shown;
    time_t when;
};

/* On a terminal, at most once a second: a file that is there at once says nothing. */
static void show_progress(struct intake *intake)
{
    time_t now = time(NULL);
    if (intake->watched && now != intake->when) {
        intake->when = now;
        intake->shown = true;
        fprintf(stderr, "\r%zu bytes", intake->length);
    }
}

/* The line that showed it is empty again. */
static void end_progress(const struct intake *intake)
{
    if (intake->shown) {
        fputs("\r\033[K", stderr);
    }
}

/* What has come, at most so many bytes: a portion need not be full, and nothing
 * waits for one that is. -1 if it cannot be read; errno says why. */
static ssize_t next_bytes(int from, uint8_t *portion, size_t room)
{
    ssize_t came;
    do {
        came = read(from, portion, room);
    } while (came < 0 && errno == EINTR);
    return came;
}

/* Up to the end, or until the library is certain to refuse the length. */
static bool take_in(struct intake *intake, int from, uint8_t *portion, size_t room)
{
    ssize_t came = 1;
    while (came > 0 && intake->length <= CERTIS_FILE_MOST) {
        came = next_bytes(from, portion, room);
        if (came > 0) {
            certis_portions_add(&intake->state, portion, (size_t)came);
            intake->length += (size_t)came;
            show_progress(intake);
        }
    }
    return came >= 0;
}

/* On failure errno says why. */
static bool read_portions(int from, size_t room, struct intake *intake)
{
    uint8_t *portion = malloc(room);
    bool whole = portion != NULL && take_in(intake, from, portion, room);
    int reason = errno;
    free(portion);
    errno = reason;
    return whole;
}

bool check_portions(const char *name, size_t room, const struct request *asked, struct faults *found)
{
    struct intake intake = { .watched = isatty(STDERR_FILENO), .when = time(NULL) };
    bool standard = strcmp(name, "-") == 0;
    found->refusal = certis_portions_open(&intake.state, asked->code, asked->day);
    int from = standard ? STDIN_FILENO : open(name, O_RDONLY);
    bool whole = from >= 0 && (found->refusal != 0 || read_portions(from, room, &intake));
    int reason = errno;
    end_progress(&intake);
    if (!whole) {
        complain("%s cannot be read: %s", standard ? "standard input" : name, strerror(reason));
    } else if (found->refusal == 0) {
        found->refusal = certis_portions_close(&intake.state, found->lines, found->rules, found->offsets, &found->total);
    }
    if (from >= 0 && !standard) {
        close(from);
    }
    return whole;
}
