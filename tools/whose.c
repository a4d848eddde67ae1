/* whose: the input headings that a derived heading may come from. Day, input
 * number and codes stand in it; type, outcome and standing are tried, each by
 * deriving.
 */

#include "certis.h"
#include "desk.h"
#include "whose.h"

#include <inttypes.h>
#include <stdio.h>
#include <string.h>

static const struct form FORM = {
    .usage = "[--explain] HEADING",
    .help = "  HEADING    the 54 bytes of a derived heading, as one word: 'HD:62 ...'\n"
            "  --explain  say the outcome, or a refusal, in words\n"
            "exit status: 0 found; 1 no input heading gives it; 2 refused, or wrong arguments\n",
    .least = 1,
    .most = 1,
};

/* Where the parts stand in a heading, and the digits of those after the day. */
enum { TYPE = 3, FIRST = 15, SECOND = 31, OUTPUT = 39, THIRD = 47, DIGITS = 7 };

/* Each code of the input heading is zero or one of the derived heading's. */
enum { CODES = 4 };

struct codes {
    const uint8_t *at[CODES];
    size_t count;
};

static struct codes codes_of(const uint8_t *derived)
{
    const uint8_t *all[CODES] = { (const uint8_t *)"0000000", derived + FIRST, derived + SECOND, derived + THIRD };
    struct codes codes = { .count = 0 };
    for (size_t i = 0; i < CODES; i++) {
        size_t known = 0;
        while (known < codes.count && memcmp(codes.at[known], all[i], DIGITS) != 0) {
            known += 1;
        }
        if (known == codes.count) {
            codes.at[codes.count] = all[i];
            codes.count += 1;
        }
    }
    return codes;
}

static bool gives(const uint8_t *heading, uint32_t outcome, uint32_t standing, uint32_t number, const uint8_t *derived)
{
    uint8_t target[CERTIS_HEADING];
    return certis_derive(heading, CERTIS_HEADING, outcome, standing, number, target, sizeof target) == 0 &&
           memcmp(target, derived, CERTIS_HEADING) == 0;
}

/* Tries every outcome and standing of a heading. */
static bool is_origin(struct origin *origin, uint32_t number, const uint8_t *derived)
{
    for (origin->outcome = 1; origin->outcome <= 7; origin->outcome++) {
        origin->direct = gives(origin->heading, origin->outcome, 1, number, derived);
        origin->third_party = gives(origin->heading, origin->outcome, 2, number, derived);
        if (origin->direct || origin->third_party) {
            return true;
        }
    }
    return false;
}

static uint32_t number_at(const uint8_t *digits)
{
    uint32_t value = 0;
    for (size_t i = 0; i < DIGITS; i++) {
        value = value * 10 + (uint32_t)(digits[i] - '0');
    }
    return value;
}

static void put(uint8_t *heading, size_t place, const uint8_t *code)
{
    memcpy(heading + place, code, DIGITS);
}

size_t find_origins(const uint8_t *derived, struct origin *origins)
{
    struct codes codes = codes_of(derived);
    uint32_t number = number_at(derived + OUTPUT);
    struct origin origin;
    size_t found = 0;
    memcpy(origin.heading, derived, CERTIS_HEADING);
    put(origin.heading, OUTPUT, (const uint8_t *)"0000000");
    for (int type = 0; type < 100; type++) {
        origin.heading[TYPE] = (uint8_t)('0' + type / 10);
        origin.heading[TYPE + 1] = (uint8_t)('0' + type % 10);
        for (size_t choice = 0; choice < codes.count * codes.count * codes.count; choice++) {
            put(origin.heading, FIRST, codes.at[choice % codes.count]);
            put(origin.heading, SECOND, codes.at[choice / codes.count % codes.count]);
            put(origin.heading, THIRD, codes.at[choice / codes.count / codes.count]);
            if (found < MOST_ORIGINS && is_origin(&origin, number, derived)) {
                origins[found] = origin;
                found += 1;
            }
        }
    }
    return found;
}

static void show_origin(const struct origin *origin, bool explain)
{
    const char *standing = origin->direct && origin->third_party ? "1 or 2" : origin->direct ? "1" : "2";
    printf("%.*s outcome %" PRIu32 " standing %s", CERTIS_HEADING, (const char *)origin->heading, origin->outcome, standing);
    end_line(explain ? outcome_in_words(origin->outcome) : NULL);
}

int desk_whose(int count, char **words)
{
    bool explain = false;
    const struct option options[] = {
        { .name = "--explain", .flag = &explain },
        { .name = NULL },
    };
    struct origin origins[MOST_ORIGINS];
    uint32_t type = 0;
    uint32_t recipient = 0;
    int status = FAILED;
    if (read_arguments(count, words, &FORM, options, &status) < 0) {
        return status;
    }
    /* Telling says whether it is a heading at all; what else it says of this one is of no use. */
    const uint8_t *derived = (const uint8_t *)words[1];
    if (certis_tell(derived, strlen(words[1]), 1, 1, &type, &recipient) == CERTIS_BAD_LAYOUT) {
        return show_refusal(CERTIS_BAD_LAYOUT, explain);
    }
    size_t found = find_origins(derived, origins);
    for (size_t i = 0; i < found; i++) {
        show_origin(&origins[i], explain);
    }
    if (found == 0) {
        puts("no input heading");
    }
    return found > 0 ? GOOD : FAULTS;
}
