/* Hints at what a whole file has wrong: LF for CR LF, another code page, or what stands behind its end mark. */

#include "listing.h"

#include <stdio.h>
#include <string.h>

/* The Czech and Slovak letters of code page 1250, and its section sign. */
static bool in_page_1250(uint8_t byte)
{
    static const char LETTERS[] =
        "\x8A\x8D\x8E\x9A\x9D\x9E\xA7\xBC\xBE\xC0\xC1\xC4\xC5\xC8\xC9\xCC\xCD\xCF\xD2\xD3\xD4\xD6\xD8\xD9\xDA\xDC"
        "\xDD\xE0\xE1\xE4\xE5\xE8\xE9\xEC\xED\xEF\xF2\xF3\xF4\xF6\xF8\xF9\xFA\xFC\xFD";
    return memchr(LETTERS, byte, sizeof LETTERS - 1) != NULL;
}

static bool follows(uint8_t byte)
{
    return byte >= 0x80 && byte <= 0xBF;
}

/* Whether every byte over 7F is part of a character of two or three bytes. */
static bool is_utf8(const uint8_t *at, const uint8_t *end)
{
    while (at < end) {
        size_t length = *at < 0x80 ? 1 : *at >= 0xC2 && *at <= 0xDF ? 2 : *at >= 0xE0 && *at <= 0xEF ? 3 : 0;
        if (length == 0 || (size_t)(end - at) < length || (length > 1 && !follows(at[1])) || (length > 2 && !follows(at[2]))) {
            return false;
        }
        at += length;
    }
    return true;
}

const char *code_page_hint(const struct bytes *file)
{
    const uint8_t *at = file->at;
    const uint8_t *end = before_lines(file->at, file->length).end;
    bool inadmissible = false;
    bool page_1250 = true;
    for (const uint8_t *byte = at; byte < end; byte++) {
        if (*byte >= 0x80) {
            inadmissible = inadmissible || !admissible(*byte);
            page_1250 = page_1250 && in_page_1250(*byte);
        }
    }
    if (inadmissible && is_utf8(at, end)) {
        return "The text looks like UTF-8; it must be in code page 852.";
    }
    return inadmissible && page_1250 ? "The text looks like code page 1250; it must be in code page 852." : NULL;
}

const char *line_end_hint(const struct bytes *file)
{
    const uint8_t *at = file->at;
    const uint8_t *end = before_lines(file->at, file->length).end;
    size_t whole = 0;
    size_t lone = 0;
    for (const uint8_t *byte = at; byte < end; byte++) {
        if (*byte == '\n') {
            bool after = byte > at && byte[-1] == '\r';
            whole += after;
            lone += !after;
        }
    }
    return lone > whole ? "The lines end in LF; they must end in CR LF." : NULL;
}

struct hint leftovers_hint(const struct bytes *file)
{
    struct hint hint;
    const uint8_t *behind = before_lines(file->at, file->length).end + 1;
    size_t length = file->length - (size_t)(behind - file->at);
    size_t ends = 0;
    while (ends < length && (behind[ends] == '\r' || behind[ends] == '\n')) {
        ends++;
    }
    const char *what = ends == length                                          ? "line ends"
                       : length - ends >= 3 && memcmp(behind + ends, "HD:", 3) == 0 ? "another file"
                       : behind[0] == 0x1A                                     ? "another end mark"
                                                                               : "other bytes";
    snprintf(hint.text, sizeof hint.text, "%zu %s behind the end mark: %s.", length, length == 1 ? "byte stands" : "bytes stand", what);
    return hint;
}
