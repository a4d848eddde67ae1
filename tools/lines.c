/* The lines of a CERTIS file: what stands before the first 1A, cut at each CR LF. */

#include "desk.h"

#include <string.h>

struct reader before_lines(const uint8_t *bytes, size_t length)
{
    const uint8_t *mark = length == 0 ? NULL : memchr(bytes, END_MARK, length);
    return (struct reader){ .rest = bytes, .end = mark == NULL ? bytes + length : mark };
}

/* A line ends at CR LF only: a lone CR or LF is one of its bytes. */
bool next_line(struct reader *reader)
{
    const uint8_t *at = reader->rest;
    size_t left = (size_t)(reader->end - at);
    if (left == 0) {
        return false;
    }
    while (left > 0 && !(left > 1 && at[0] == '\r' && at[1] == '\n')) {
        at += 1;
        left -= 1;
    }
    reader->text = reader->rest;
    reader->length = (size_t)(at - reader->rest);
    reader->rest = left > 0 ? at + 2 : at;
    return true;
}

bool starts(const struct reader *reader, const char *mark)
{
    return reader->length >= 3 && memcmp(reader->text, mark, 3) == 0;
}

const uint8_t *line_before(const uint8_t *file, const uint8_t *line)
{
    const uint8_t *at = line - 2;
    while (at > file && !(at - file > 1 && at[-2] == '\r' && at[-1] == '\n')) {
        at -= 1;
    }
    return at;
}
