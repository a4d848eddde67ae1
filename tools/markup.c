/* Text on a page: no byte of it becomes markup. */

#include "screen.h"

#include <string.h>

static void put_character(FILE *to, char character)
{
    static const char SPECIAL[] = { '&', '<', '>', '"', '\'' };
    static const char *const NAMED[] = { "&amp;", "&lt;", "&gt;", "&quot;", "&#39;" };
    const char *special = memchr(SPECIAL, character, sizeof SPECIAL);
    if (special != NULL) {
        fputs(NAMED[special - SPECIAL], to);
    } else {
        putc(character, to);
    }
}

/* One that cannot be shown, as on a terminal. */
static void put_odd(FILE *to, unsigned byte)
{
    fprintf(to, "<mark>&lt;%02X&gt;</mark>", byte);
}

static void put_bytes(FILE *to, const uint8_t *bytes, size_t length)
{
    for (size_t i = 0; i < length; i++) {
        char text[2];
        size_t width = in_utf8(bytes[i], text);
        if (width == 0) {
            put_odd(to, bytes[i]);
        } else if (width == 1) {
            put_character(to, text[0]);
        } else {
            fwrite(text, 1, width, to);
        }
    }
}

void put_name(FILE *to, const char *name)
{
    const char *shown = strcmp(name, "-") == 0 ? "standard input" : name;
    for (; *shown != '\0'; shown++) {
        unsigned char byte = (unsigned char)*shown;
        if (byte < 0x20 || byte == 0x7F) {
            put_odd(to, byte);
        } else {
            put_character(to, *shown);
        }
    }
}

void put_text(FILE *to, const uint8_t *text, size_t length)
{
    size_t shown = length < SHOWN_BYTES ? length : SHOWN_BYTES;
    fputs("<code>", to);
    put_bytes(to, text, shown);
    fputs("</code>", to);
    if (length == 0) {
        fputs("<span class=\"soft\">(empty)</span>", to);
    } else if (shown < length) {
        fprintf(to, " <span class=\"soft\">... (%zu bytes)</span>", length);
    }
}

void put_words(FILE *to, const char *words)
{
    for (; words != NULL && *words != '\0'; words++) {
        put_character(to, *words);
    }
}
