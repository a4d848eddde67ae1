/* Reading a file or standard input, writing a file. */

#define _POSIX_C_SOURCE 200809L /* for fsync, fileno, getpid and strdup */

#include "desk.h"

#include <errno.h>
#include <fcntl.h>
#include <libgen.h>
#include <stdio.h>
#include <stdlib.h>
#include <string.h>
#include <sys/file.h>
#include <sys/stat.h>
#include <unistd.h>

/* On failure errno says why. */
static bool read_stream(FILE *from, size_t room, struct bytes *file)
{
    size_t held = 1 << 16;
    *file = (struct bytes){ .at = malloc(held) };
    while (file->at != NULL) {
        size_t wanted = held < room ? held : room;
        file->length += fread(file->at + file->length, 1, wanted - file->length, from);
        if (ferror(from)) {
            return false;
        }
        if (file->length < wanted || wanted == room) {
            return true;
        }
        held *= 2;
        uint8_t *more = realloc(file->at, held);
        if (more == NULL) {
            free(file->at);
        }
        file->at = more;
    }
    return false;
}

bool read_file(const char *name, size_t room, struct bytes *file)
{
    *file = (struct bytes){ 0 };
    bool standard = strcmp(name, "-") == 0;
    FILE *from = standard ? stdin : fopen(name, "rb");
    bool whole = from != NULL && read_stream(from, room, file);
    if (!whole) {
        complain("%s cannot be read: %s", standard ? "standard input" : name, strerror(errno));
        free_bytes(file);
    }
    if (from != NULL && !standard) {
        fclose(from);
    }
    return whole;
}

void free_bytes(struct bytes *file)
{
    free(file->at);
    *file = (struct bytes){ 0 };
}

static bool write_whole(FILE *to, const void *bytes, size_t length)
{
    bool written = fwrite(bytes, 1, length, to) == length && fflush(to) == 0 && fsync(fileno(to)) == 0;
    return fclose(to) == 0 && written;
}

/* The folder's own entry reaches the disk too, so that what is said to be
 * written is there after a power cut. A folder that cannot be opened or synced
 * (some file systems have no such thing) is let be. */
static void sync_folder_of(const char *name)
{
    char *copy = strdup(name);
    int folder = copy == NULL ? -1 : open(dirname(copy), O_RDONLY | O_DIRECTORY | O_CLOEXEC);
    if (folder >= 0) {
        fsync(folder);
        close(folder);
    }
    free(copy);
}

/* On failure errno says why. */
static bool replace_by(const char *name, const char *beside, const void *bytes, size_t length)
{
    FILE *to = fopen(beside, "wbx");
    if (to == NULL) {
        return false;
    }
    if (write_whole(to, bytes, length) && rename(beside, name) == 0) {
        sync_folder_of(name);
        return true;
    }
    int reason = errno;
    remove(beside);
    errno = reason;
    return false;
}

bool write_file(const char *name, const void *bytes, size_t length)
{
    size_t room = strlen(name) + 32;
    char *beside = malloc(room);
    bool written = false;
    if (beside != NULL) {
        snprintf(beside, room, "%s.%ld.new", name, (long)getpid());
        written = replace_by(name, beside, bytes, length);
    }
    if (!written) {
        complain("%s cannot be written: %s", name, strerror(errno));
    }
    free(beside);
    return written;
}

/* Whether a name still means the file that is open. */
static bool means(const char *name, int file)
{
    struct stat here;
    struct stat there;
    return fstat(file, &here) == 0 && stat(name, &there) == 0 && here.st_dev == there.st_dev && here.st_ino == there.st_ino;
}

int lock_file(const char *name)
{
    for (;;) {
        int file = open(name, O_RDONLY | O_CLOEXEC);
        if (file < 0) {
            complain("%s cannot be read: %s", name, strerror(errno));
            return -1;
        }
        if (flock(file, LOCK_EX) != 0) {
            complain("%s cannot be locked: %s", name, strerror(errno));
            close(file);
            return -1;
        }
        if (means(name, file)) {
            return file;
        }
        /* Another desk has put a new one in its place meanwhile. */
        close(file);
    }
}

void unlock_file(int file)
{
    close(file);
}
