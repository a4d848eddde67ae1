/* whose.h: the input headings that a derived heading may come from. */

#ifndef WHOSE_H
#define WHOSE_H

#include "certis.h"

#include <stdbool.h>

/* An input heading, the outcome, and which standings its sender may have. */
struct origin {
    uint8_t heading[CERTIS_HEADING];
    uint32_t outcome;
    bool direct;
    bool third_party;
};

/* There are never more: an 01 and a 21, both returned as 61 or both as 71, or
 * one heading (theorem `whose`, outcomes/proofs/Whose.antt). */
#define MOST_ORIGINS 2

/* Finds the origins of 54 bytes that have a heading's layout, by type; returns
 * how many there are. */
size_t find_origins(const uint8_t *derived, struct origin *origins);

#endif
