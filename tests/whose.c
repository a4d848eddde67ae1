/* whose: compares the desk's search for origins with deriving. Of every type,
 * with codes that differ, that agree and that are zero, each heading is taken
 * that deriving gives under an outcome, a standing and an end of a class. Its
 * origins must be the heading it was derived from, with just that outcome and
 * those standings, and for an 01 or a 21 returned as 61 or 71 the other of the
 * two. The last line printed is 'N passed, M failed'.
 */

#include "certis.h"
#include "whose.h"

#include <stdio.h>
#include <string.h>

static const uint32_t NUMBERS[] = { 1, 5000000, 5000001, 9000000, 9000001, 9999999 };

static const unsigned CODES[][3] = {
    { 300, 710, 0 },   { 300, 300, 0 },   { 0, 710, 0 },     { 990, 300, 710 },
    { 300, 300, 710 }, { 300, 710, 300 }, { 710, 300, 300 }, { 300, 300, 300 },
    { 0, 300, 710 },
};

#define COUNT(table) (sizeof(table) / sizeof((table)[0]))

static bool derives(const uint8_t *heading, uint32_t outcome, uint32_t standing, uint32_t number, uint8_t *derived)
{
    return certis_derive(heading, CERTIS_HEADING, outcome, standing, number, derived, CERTIS_HEADING) == 0;
}

/* Whether one is an 01 and the other a 21, and they are otherwise the same. */
static bool is_twin(const uint8_t *heading, const uint8_t *other)
{
    return heading[3] != other[3] && heading[4] == '1' && strchr("02", heading[3]) != NULL && strchr("02", other[3]) != NULL &&
           memcmp(heading + 4, other + 4, CERTIS_HEADING - 4) == 0;
}

static bool origins_are(const uint8_t *heading, uint32_t outcome, bool direct, bool third_party, const uint8_t *derived)
{
    struct origin origins[MOST_ORIGINS];
    size_t found = find_origins(derived, origins);
    size_t itself = 0;
    size_t twins = 0;
    for (size_t i = 0; i < found; i++) {
        const struct origin *origin = &origins[i];
        if (origin->outcome != outcome || origin->direct != direct || origin->third_party != third_party) {
            return false;
        }
        itself += memcmp(origin->heading, heading, CERTIS_HEADING) == 0;
        twins += is_twin(heading, origin->heading);
    }
    bool returned = memcmp(derived + 3, "61", 2) == 0 || memcmp(derived + 3, "71", 2) == 0;
    bool both = returned && heading[4] == '1' && heading[3] != '1';
    return itself == 1 && twins == both && found == itself + twins;
}

/* All that is derived from headings of a type; counts the headings derived. */
static bool type_holds(unsigned type, unsigned *count)
{
    char heading[CERTIS_HEADING + 1];
    const uint8_t *text = (const uint8_t *)heading;
    uint8_t derived[CERTIS_HEADING];
    bool holds = true;
    for (size_t i = 0; i < COUNT(CODES) * COUNT(NUMBERS) * 7; i++) {
        const unsigned *codes = CODES[i / 7 / COUNT(NUMBERS)];
        uint32_t number = NUMBERS[i / 7 % COUNT(NUMBERS)];
        uint32_t outcome = 1 + (uint32_t)(i % 7);
        snprintf(heading, sizeof heading, "HD:%02u 20240304 %07u 0000017 %07u 0000000 %07u", type % 100, codes[0], codes[1], codes[2]);
        bool direct = derives(text, outcome, 1, number, derived);
        bool third_party = derives(text, outcome, 2, number, derived);
        if (direct || third_party) {
            *count += 1;
            holds = holds && origins_are(text, outcome, direct, third_party, derived);
        }
    }
    return holds;
}

int main(void)
{
    unsigned passed = 0;
    unsigned failed = 0;
    unsigned all = 0;
    for (unsigned type = 0; type < 100; type++) {
        unsigned count = 0;
        bool holds = type_holds(type, &count);
        passed += holds && count > 0;
        failed += !holds;
        all += count;
        if (!holds) {
            printf("FAILED: type %02u\n", type);
        }
    }
    printf("%u derived headings and their origins\n", all);
    printf("%u passed, %u failed\n", passed, failed);
    return failed == 0 ? 0 : 1;
}
