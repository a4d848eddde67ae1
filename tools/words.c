/* The rules, refusals and outcomes of documents 01 and 02 in words. */

#include "desk.h"

#include <inttypes.h>
#include <stdio.h>

#define GROUP(d) \
    "S" d " (0 and 0 if absent) is not the count and sum of the block's other readable items of types " d "x."

static const char *const RULES[] = {
    [1] = "The line holds a character that is not admissible.",
    [2] = "The line is no heading, field or continuation, or it continues nothing.",
    [3] = "No heading stands above the line.",
    [4] = "The line is not ended by CR LF.",
    [5] = "This field stood in the item already.",
    [6] = "The heading or field, with its continuations, does not have the right layout.",
    [7] = "The prefix of the account fails the modulo 11 check.",
    [8] = "The day of the amount is not a real day, or is later than this type of item allows.",
    [9] = "The amount of a 32 is over 1000000000.00.",
    [10] = "The type is not one that an input file may hold.",
    [11] = "The day is not real, is after the accounting day, or is more than ten days before it.",
    [12] = "The first code is not the submitter's.",
    [13] = "The output number is not zero.",
    [14] = "The second code is zero; or the third is zero in a 35, 37 or 45, or is not zero in another type.",
    [15] = "The item has no amount (KC).",
    [16] = "No readable 51 closes the items from here on.",
    [17] = "The 51 closes a block with nothing else in it.",
    [18] = "The day is not that of the block's first readable heading.",
    [19] = "The input number does not follow the one before it, or is zero where it may not be.",
    [20] = "The item is not of the same priority as the file's first item.",
    [21] = "The 51 has no IN, or its IN is not the first and last number of the block's items.",
    [23] = "The number of the account fails the modulo 11 check.",
    [24] = "The number of the account is zero.",
    [30] = GROUP("0"),
    [31] = GROUP("1"),
    [32] = GROUP("2"),
    [33] = GROUP("3"),
    [34] = GROUP("4"),
    [35] = GROUP("5"),
    [36] = GROUP("6"),
    [37] = GROUP("7"),
    [38] = GROUP("8"),
    [39] = GROUP("9"),
};

static const char *const REFUSALS[] = {
    [1] = "The code is not 1 to 9999.",
    [2] = "The day is not a real day from 20000101 to 20991231.",
    [3] = "The file has more than 10,000,000 bytes.",
    [5] = "The file has no end mark (byte 1A).",
    [6] = "The file is empty: it begins with the end mark (byte 1A).",
    [9] = "Something stands behind the end mark (byte 1A).",
    [10] = "The prefix is not 0 to 6 digits, or the number not 1 to 10.",
    [11] = "The text is not 54 bytes in the layout of a heading.",
    [12] = "The heading is a 51, or breaks rule 10, 13 or 14, or is none that a third party may send.",
    [13] = "The outcome is not 1 to 7, or the standing not 1 or 2.",
    [14] = "The table of outgoing types has no entry for this type and outcome, or none for a direct sender.",
    [15] = "The output number is not in the class of the input type.",
    [19] = "The list has more than 64 codes, repeats one, or has one that is not 1 to 9999.",
    [20] = "The file has faults.",
    [21] = "Payer or beneficiary of an item is not listed.",
    [22] = "A turnover would pass 999999999999999.99 either way.",
    [23] = "This is not a well-formed register.",
    [24] = "The register is of another code.",
    [25] = "The day is before the register's latest.",
    [26] = "The file has faults.",
    [27] = "A number of the file is used already, in the register or twice in the file.",
    [28] = "The register would have more than 1,024 ranges.",
    [29] = "The room for the register is too short.",
    [30] = "There are no items, more than 30,000, or not one outcome and one standing for each.",
    [31] = "An item breaks a rule, cannot be derived as asked, or does not go where the first one goes.",
    [32] = "Items of priority, or items that go out as 44 or 84, are mixed with others.",
    [33] = "A sum is over 999999999999999.99, or the output file would have more than 4,000,000,000 bytes.",
    [34] = "The room for the output file is too short.",
};

static const char *const OUTCOMES[] = {
    [1] = "Beneficiary, payment made.",
    [2] = "Beneficiary, no funds.",
    [3] = "Payer, payment made.",
    [4] = "Payer, no funds.",
    [5] = "Sender, payment made.",
    [6] = "Sender, no funds.",
    [7] = "Formal error.",
};

#define COUNT(table) (sizeof(table) / sizeof((table)[0]))

const char *rule_in_words(uint32_t rule)
{
    return rule < COUNT(RULES) ? RULES[rule] : NULL;
}

const char *refusal_in_words(uint32_t refusal)
{
    return refusal < COUNT(REFUSALS) ? REFUSALS[refusal] : NULL;
}

const char *outcome_in_words(uint32_t outcome)
{
    return outcome < COUNT(OUTCOMES) ? OUTCOMES[outcome] : NULL;
}

void end_line(const char *words)
{
    if (words != NULL) {
        printf(": %s", words);
    }
    putchar('\n');
}

int show_refusal(uint32_t refusal, bool in_words)
{
    printf("refused %" PRIu32, refusal);
    end_line(in_words ? refusal_in_words(refusal) : NULL);
    return FAILED;
}
