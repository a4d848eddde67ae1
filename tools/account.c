/* account: the account check, for numbers as they are written: 19-2000145399; it says which half is wrong. */

#include "certis.h"
#include "desk.h"

#include <limits.h>
#include <stdio.h>
#include <string.h>

static const struct form FORM = {
    .usage = "[--explain] ACCOUNT...",
    .help = "  ACCOUNT    an account's number, or its prefix, a dash and its number\n"
            "  --explain  say in words what is wrong\n"
            "exit status: 0 all good; 1 one fails; 2 one is refused, or wrong arguments\n",
    .least = 1,
    .most = INT_MAX,
};

/* What is said of a half that is answered so, and the rule that it breaks: of one that is good, nothing. */
struct half {
    const char *said;
    uint32_t rule;
};

static const struct half PREFIX[] = {
    [CERTIS_GOOD] = { NULL, 0 },
    [CERTIS_FAILING] = { "prefix fails", CERTIS_RULE_PREFIX },
};

static const struct half NUMBER[] = {
    [CERTIS_GOOD] = { NULL, 0 },
    [CERTIS_FAILING] = { "number fails", CERTIS_RULE_NUMBER },
    [CERTIS_ZERO] = { "number zero", CERTIS_RULE_ZERO },
};

static void show_wrong(const struct half *halves[2], bool explain)
{
    const char *between = "";
    for (int i = 0; i < 2; i++) {
        if (halves[i]->said != NULL) {
            printf("%s%s", between, halves[i]->said);
            between = ", ";
        }
    }
    between = ": ";
    for (int i = 0; explain && i < 2; i++) {
        if (halves[i]->said != NULL) {
            printf("%s%s", between, rule_in_words(halves[i]->rule));
            between = " ";
        }
    }
    putchar('\n');
}

static int check_account(const char *account, bool explain)
{
    const char *dash = strchr(account, '-');
    const char *number = dash == NULL ? account : dash + 1;
    size_t prefix_length = dash == NULL ? 0 : (size_t)(dash - account);
    uint32_t prefix_answer = CERTIS_GOOD;
    uint32_t number_answer = CERTIS_GOOD;
    uint32_t refusal = certis_account((const uint8_t *)account, prefix_length, (const uint8_t *)number, strlen(number),
                                      &prefix_answer, &number_answer);
    printf("%s ", account);
    if (refusal != 0) {
        return show_refusal(refusal, explain);
    }
    if (prefix_answer == CERTIS_GOOD && number_answer == CERTIS_GOOD) {
        puts("good");
        return GOOD;
    }
    show_wrong((const struct half *[]){ &PREFIX[prefix_answer], &NUMBER[number_answer] }, explain);
    return FAULTS;
}

int desk_account(int count, char **words)
{
    bool explain = false;
    const struct option options[] = {
        { .name = "--explain", .flag = &explain },
        { .name = NULL },
    };
    int status = FAILED;
    int kept = read_arguments(count, words, &FORM, options, &status);
    if (kept < 0) {
        return status;
    }
    status = GOOD;
    for (int at = 1; at <= kept; at++) {
        status = worse(status, check_account(words[at], explain));
    }
    return status;
}
