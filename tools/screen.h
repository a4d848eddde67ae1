/* screen.h: the parts of the page for the screen.
 *
 *   markup.c  text from outside, of which no byte becomes markup
 *   places.c  the file: faulty items, and what surrounds them
 *   screen.c  all else of the page
 */

#ifndef SCREEN_H
#define SCREEN_H

#include "listing.h"

#include <stdio.h>

/* A page that is being written. */
struct page {
    FILE *to;
    const struct bytes *file;
    const struct faults *found;
    const struct request *asked;
    size_t listed; /* so many faults are on it */
};

/* The name of a file, which is UTF-8 where the system's are. */
void put_name(FILE *to, const char *name);

/* A line of the file, or as much of it as anybody reads. */
void put_text(FILE *to, const uint8_t *text, size_t length);

/* The desk's own words; NULL has none. */
void put_words(FILE *to, const char *words);

/* The lines of the faults that are listed, each below its number and with what
 * surrounds it. */
void put_places(const struct page *page);

#endif
