/* expect.h: what the tests of the C face share: counting, and files written line
 * by line.
 */

#ifndef EXPECT_H
#define EXPECT_H

#include <stdbool.h>
#include <stdint.h>
#include <stdio.h>

#define L(text) text "\r\n"
#define END "\x1A"

static unsigned passed;
static unsigned failed;

static void expect(bool holds, const char *what)
{
    if (holds) {
        passed += 1;
    } else {
        failed += 1;
        printf("FAILED: %s\n", what);
    }
}

/* Prints the last line, 'N passed, M failed'; the exit status. */
static int finish(void)
{
    printf("%u passed, %u failed\n", passed, failed);
    return failed == 0 ? 0 : 1;
}

static const uint8_t *bytes_of(const char *text)
{
    return (const uint8_t *)text;
}

#endif
