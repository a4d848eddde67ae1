/* register: calls the two functions of the register in include/certis.h as a
 * host in C does, on worked files and at every refusal. The bytes expected here
 * were worked out from document 02, A2 and A9. The target lies in the middle of memory
 * filled with a pattern, so a byte changed anywhere else is seen. The last line
 * printed is 'N passed, M failed'.
 */

#include "certis.h"
#include "expect.h"

#include <inttypes.h>
#include <stdarg.h>
#include <string.h>

#define DAY 20240304
#define PATTERN 0xA5

enum { EDGE = 8, LONGEST = 4096, UNTOUCHED = 12345 };

/* Files */

struct file {
    size_t length;
    char text[LONGEST];
};

static void put(struct file *file, const char *format, ...)
{
    va_list words;
    va_start(words, format);
    file->length += (size_t)vsnprintf(file->text + file->length, LONGEST - file->length, format, words);
    va_end(words);
}

/* A block without faults: items numbered from first to last, and the 51's own. */
static void put_block(struct file *file, uint32_t first, uint32_t last, uint32_t closing)
{
    uint32_t count = last - first + 1;
    for (uint32_t number = first; number <= last; number++) {
        put(file, L("HD:11 %u 0000300 %07" PRIu32 " 0000710 0000000 0000000") L("KC:1 %u"), DAY, number, DAY);
    }
    put(file, L("HD:51 %u 0000300 %07" PRIu32 " 0000999 0000000 0000000"), DAY, closing);
    put(file, L("IN:%" PRIu32 " %" PRIu32) L("S1:%" PRIu32 " %" PRIu32), first, last, count, count);
}

static struct file block(uint32_t first, uint32_t last, uint32_t closing)
{
    struct file file = { .length = 0 };
    put_block(&file, first, last, closing);
    put(&file, END);
    return file;
}

/* Registers */

struct reg {
    size_t length;
    uint8_t bytes[CERTIS_REGISTER_MOST + 12];
};

static void put_number(struct reg *reg, uint32_t number, size_t width)
{
    for (size_t i = width; i > 0; i--) {
        reg->bytes[reg->length++] = (uint8_t)(number >> 8 * (i - 1));
    }
}

struct range {
    uint32_t day;
    uint32_t first;
    uint32_t last;
};

static struct reg reg_of(uint32_t latest, size_t count, const struct range *ranges)
{
    struct reg reg = { .length = 3, .bytes = "CRG" };
    put_number(&reg, 2, 2);
    put_number(&reg, 300, 2);
    put_number(&reg, latest, 4);
    put_number(&reg, (uint32_t)count, 2);
    for (size_t i = 0; i < count; i++) {
        put_number(&reg, ranges[i].day, 4);
        put_number(&reg, ranges[i].first, 4);
        put_number(&reg, ranges[i].last, 4);
    }
    return reg;
}

#define REG(latest, ...) reg_of(latest, sizeof (struct range[]){ __VA_ARGS__ } / sizeof (struct range), (struct range[]){ __VA_ARGS__ })
#define NEW() reg_of(0, 0, NULL)

/* The same register in another version. */
static struct reg as_version(uint8_t version, struct reg reg)
{
    reg.bytes[4] = version;
    return reg;
}

/* So many ranges of one odd number each. */
static struct reg full(size_t count)
{
    struct range ranges[CERTIS_RANGES + 1];
    for (size_t i = 0; i < count; i++) {
        ranges[i] = (struct range){ DAY, 2 * (uint32_t)i + 1, 2 * (uint32_t)i + 1 };
    }
    return reg_of(DAY, count, ranges);
}

/* Entering */

struct target {
    uint8_t before[EDGE];
    uint8_t bytes[CERTIS_REGISTER_MOST];
    uint8_t behind[EDGE];
};

/* The number, the bytes written, their count, and that all others are kept. */
static void enter_as(const char *what, uint32_t number, struct reg reg, struct file file, uint32_t code, uint32_t day, size_t room,
                     struct reg expected)
{
    struct target target;
    struct target wanted;
    size_t written = UNTOUCHED;
    memset(&target, PATTERN, sizeof target);
    memset(&wanted, PATTERN, sizeof wanted);
    if (number == 0) {
        memcpy(wanted.bytes, expected.bytes, expected.length);
    }
    uint32_t found = certis_register_enter(reg.bytes, reg.length, bytes_of(file.text), file.length, code, day, target.bytes, room, &written);
    expect(found == number && written == (number == 0 ? expected.length : UNTOUCHED) && memcmp(&target, &wanted, sizeof target) == 0, what);
}

static void enters(const char *what, struct reg reg, struct file file, struct reg expected)
{
    enter_as(what, 0, reg, file, 300, DAY, CERTIS_REGISTER_MOST, expected);
}

static void refuses(const char *what, uint32_t number, struct reg reg, struct file file)
{
    enter_as(what, number, reg, file, 300, DAY, CERTIS_REGISTER_MOST, reg);
}

static void test_ranges(void)
{
    struct file two = { .length = 0 };
    put_block(&two, 3, 3, 0);
    put_block(&two, 1, 1, 0);
    put(&two, END);
    enters("1 and 2 on a new register", NEW(), block(1, 2, 0), REG(DAY, { DAY, 1, 2 }));
    enters("a 51 numbered 3", NEW(), block(1, 2, 3), REG(DAY, { DAY, 1, 3 }));
    enters("5 between two ranges", REG(DAY, { DAY, 1, 4 }, { DAY, 6, 9 }), block(5, 5, 0), REG(DAY, { DAY, 1, 9 }));
    enters("1 and 2 before a range", REG(DAY, { DAY, 3, 9 }), block(1, 2, 0), REG(DAY, { DAY, 1, 9 }));
    enters("3 before 1", NEW(), two, REG(DAY, { DAY, 1, 1 }, { DAY, 3, 3 }));
    enters("the eleventh day before", REG(20240303, { 20240222, 1, 5 }, { 20240223, 1, 5 }), block(1, 2, 0),
           REG(DAY, { 20240223, 1, 5 }, { DAY, 1, 2 }));
    struct reg touched = full(CERTIS_RANGES);
    touched.bytes[touched.length - 2] = 8;
    touched.bytes[touched.length - 1] = 0;
    enters("one that touches the last of 1,024", full(CERTIS_RANGES), block(2048, 2048, 0), touched);
    enters("one that makes 1,024", full(CERTIS_RANGES - 1), block(2047, 2047, 0), full(CERTIS_RANGES));
}

/* Version 1 is read as it was, and 2 is written. */
static void test_versions(void)
{
    struct file good = block(3000, 3000, 0);
    enters("on a new register of version 1", as_version(1, NEW()), block(1, 2, 0), REG(DAY, { DAY, 1, 2 }));
    enters("5 between two ranges of version 1", as_version(1, REG(DAY, { DAY, 1, 4 }, { DAY, 6, 9 })), block(5, 5, 0), REG(DAY, { DAY, 1, 9 }));
    enters("a range more than 64 of version 1", as_version(1, full(64)), block(129, 129, 0), full(65));
    enters("65 ranges of version 2", full(65), block(131, 131, 0), full(66));
    refuses("a number used in version 1", 27, as_version(1, full(64)), block(127, 127, 0));
    refuses("65 ranges of version 1", 23, as_version(1, full(65)), good);
    refuses("1,024 ranges of version 1", 23, as_version(1, full(CERTIS_RANGES)), good);
    refuses("1,025 ranges", 23, full(CERTIS_RANGES + 1), good);
    refuses("version 0", 23, as_version(0, NEW()), good);
    refuses("version 3", 23, as_version(3, NEW()), good);
}

static void test_refusals(void)
{
    struct file good = block(1, 2, 0);
    struct file twice = { .length = 0 };
    struct file faulty = block(1, 2, 0);
    struct file no_mark = block(1, 2, 0);
    struct reg longer = NEW();
    struct reg shorter = NEW();
    put_block(&twice, 1, 1, 2);
    put_block(&twice, 2, 2, 0);
    put(&twice, END);
    faulty.text[0] = 'x';
    no_mark.length -= 1;
    longer.length += 1;
    shorter.length -= 1;
    enter_as("code 0", 1, NEW(), good, 0, DAY, 0, NEW());
    enter_as("day 20230229", 2, NEW(), good, 300, 20230229, 0, NEW());
    enter_as("no mark", 5, shorter, no_mark, 300, DAY, 0, NEW());
    refuses("one byte less", 23, shorter, good);
    refuses("one byte more", 23, longer, good);
    refuses("ranges that touch", 23, REG(DAY, { DAY, 1, 2 }, { DAY, 3, 4 }), good);
    refuses("a day that is not real", 23, REG(DAY, { 20230229, 1, 2 }), good);
    enter_as("another code, latest day later", 24, reg_of(20240305, 0, NULL), good, 301, DAY, 0, NEW());
    refuses("latest day later", 25, reg_of(20240305, 0, NULL), faulty);
    enter_as("faults", 26, NEW(), faulty, 300, DAY, 0, NEW());
    refuses("the same file again", 27, REG(DAY, { DAY, 1, 2 }), good);
    refuses("twice in the file", 27, NEW(), twice);
    refuses("a range more than 1,024", 28, full(CERTIS_RANGES), block(3000, 3000, 0));
    enter_as("a target of 12,300 bytes", 29, full(CERTIS_RANGES - 1), block(2047, 2047, 0), 300, DAY, 12300, NEW());
    enter_as("a target of 24 bytes", 29, NEW(), good, 300, DAY, 24, NEW());
    enter_as("a target of 25 bytes", 0, NEW(), good, 300, DAY, 25, REG(DAY, { DAY, 1, 2 }));
}

static void new_as(const char *what, uint32_t number, uint32_t code, size_t room)
{
    struct target target;
    struct target wanted;
    memset(&target, PATTERN, sizeof target);
    memset(&wanted, PATTERN, sizeof wanted);
    if (number == 0) {
        memcpy(wanted.bytes, NEW().bytes, CERTIS_REGISTER_LEAST);
    }
    expect(certis_register_new(code, target.bytes, room) == number && memcmp(&target, &wanted, sizeof target) == 0, what);
}

int main(void)
{
    new_as("a new register", 0, 300, CERTIS_REGISTER_MOST);
    new_as("a new register of 13 bytes", 0, 300, CERTIS_REGISTER_LEAST);
    new_as("no room", 29, 300, CERTIS_REGISTER_LEAST - 1);
    new_as("code 0 and no room", 1, 0, 0);
    new_as("code 10000", 1, 10000, CERTIS_REGISTER_MOST);
    test_ranges();
    test_versions();
    test_refusals();
    return finish();
}
