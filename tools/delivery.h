/* delivery.h: what deliver.c delivers, and what reason.c says of it where it is
 * refused.
 */

#ifndef DELIVERY_H
#define DELIVERY_H

#include "desk.h"

/* Numbers of one digit each, one for each item. */
struct digits {
    uint32_t *at;
    size_t count;
};

/* What is delivered, and where to. */
struct delivery {
    uint32_t certis;
    uint32_t day;
    uint32_t start;
    struct bytes items;
    struct digits outcomes;
    struct digits standings;
    const char *output; /* NULL for standard output */
};

/* Room for any reason. */
enum { REASON_ROOM = 320 };

/* Writes what 30 or 31 is about: how many there are of each, or the first line
 * that breaks a rule, or else the first item that cannot be delivered. The
 * library's other answers say so, and nothing is judged here. Returns false
 * where there is nothing to be said. */
bool find_reason(const struct delivery *delivery, uint32_t refusal, char reason[REASON_ROOM]);

#endif
