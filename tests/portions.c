/* portions: gives files to the library in portions as a host in C does, in every
 * cutting of the worked example and at every refusal. The answers expected here
 * were worked out from documents 01 and 02, A5. Everything lent lies between
 * patterns, and the parts of a state are lent apart as well, so a byte changed
 * anywhere else is seen. The last line printed is 'N passed, M failed'.
 */

#include "certis.h"
#include "expect.h"

#include <stdlib.h>
#include <string.h>

#define CODE 300
#define DAY 20240304

#define PATTERN 0xA5A5A5A5u
#define LONG_PATTERN UINT64_C(0xA5A5A5A5A5A5A5A5)
#define BYTE_PATTERN 0xA5

enum { EDGE = 8, ROOM = CERTIS_PORTIONS_ROOM };

static const char WORKED[] =
    L("HD:11 20240304 0000301 0000001 0000710 0000000 0000000")
    L("KC:12500 20240304")
    L("UD: 2000145398")
    L("HD:51 20240304 0000300 0000000 0000999 0000000 0000000")
    L("IN:1 1")
    L("S1:1 12600")
    END;

enum { WORKED_LENGTH = sizeof WORKED - 1 };

/* A fault as it is listed: line, rule, offset. */
struct fault {
    uint32_t line;
    uint32_t rule;
    uint32_t offset;
};

#define FAULTS(...) \
    sizeof (struct fault[]){ __VA_ARGS__ } / sizeof (struct fault), (const struct fault[]){ __VA_ARGS__ }
#define WORKED_FAULTS FAULTS({ 1, 12, 0 }, { 3, 23, 75 }, { 4, 31, 91 })

/* What closing hands out */

struct column {
    uint32_t before[EDGE];
    uint32_t places[ROOM];
    uint32_t behind[EDGE];
};

struct rooms {
    struct column lines;
    struct column rules;
    struct column offsets;
    uint64_t total;
};

static struct rooms fresh_rooms(void)
{
    struct rooms rooms;
    memset(&rooms, BYTE_PATTERN, sizeof rooms);
    return rooms;
}

static bool same_rooms(const struct rooms *one, const struct rooms *other)
{
    return memcmp(one, other, sizeof *one) == 0;
}

/* The rooms with these faults first, and nothing else changed. */
static struct rooms rooms_of(uint64_t total, size_t count, const struct fault *faults)
{
    struct rooms rooms = fresh_rooms();
    for (size_t i = 0; i < count; i++) {
        rooms.lines.places[i] = faults[i].line;
        rooms.rules.places[i] = faults[i].rule;
        rooms.offsets.places[i] = faults[i].offset;
    }
    rooms.total = total;
    return rooms;
}

static uint32_t close_state(struct certis_portions *state, struct rooms *rooms)
{
    return certis_portions_close(state, rooms->lines.places, rooms->rules.places, rooms->offsets.places, &rooms->total);
}

/* States */

/* All but the padding behind the last part. */
static bool same_state(const struct certis_portions *one, const struct certis_portions *other)
{
    return memcmp(one, other, offsetof(struct certis_portions, text) + sizeof one->text) == 0;
}

static struct certis_portions filled(int byte)
{
    struct certis_portions state;
    memset(&state, byte, sizeof state);
    return state;
}

/* Noise (xorshift). */
static struct certis_portions noise(uint64_t seed)
{
    struct certis_portions state;
    uint8_t *bytes = (uint8_t *)&state;
    for (size_t i = 0; i < sizeof state; i++) {
        seed ^= seed << 13;
        seed ^= seed >> 7;
        seed ^= seed << 17;
        bytes[i] = (uint8_t)(seed >> 32);
    }
    return state;
}

static struct certis_portions opened(void)
{
    struct certis_portions state = filled(BYTE_PATTERN);
    expect(certis_portions_open(&state, CODE, DAY) == 0, "opening");
    return state;
}

static bool add(struct certis_portions *state, const char *bytes, size_t length)
{
    return certis_portions_add(state, bytes_of(bytes), length) == 0;
}

/* A state that is not open: both calls answer 18 and change nothing. */
static void is_shut(const char *what, struct certis_portions *state)
{
    struct certis_portions before = *state;
    struct rooms rooms = fresh_rooms();
    struct rooms fresh = fresh_rooms();
    bool kept = certis_portions_add(state, bytes_of(WORKED), WORKED_LENGTH) == CERTIS_AFTER_CLOSING && same_state(state, &before);
    kept = kept && certis_portions_add(state, bytes_of(WORKED), 0) == CERTIS_AFTER_CLOSING && same_state(state, &before);
    kept = kept && close_state(state, &rooms) == CERTIS_AFTER_CLOSING && same_state(state, &before) && same_rooms(&rooms, &fresh);
    expect(kept, what);
}

/* Closing hands out just these faults, and then the state is shut. */
static void closes(const char *what, struct certis_portions *state, uint64_t total, size_t count, const struct fault *faults)
{
    struct rooms rooms = fresh_rooms();
    struct rooms wanted = rooms_of(total, count, faults);
    expect(close_state(state, &rooms) == 0 && same_rooms(&rooms, &wanted) && state->frame[0] == 0, what);
    is_shut(what, state);
}

/* A refused closing changes nothing but that the state is closed. */
static void close_refuses(const char *what, uint32_t number, struct certis_portions *state)
{
    struct certis_portions closed = *state;
    struct rooms rooms = fresh_rooms();
    struct rooms fresh = fresh_rooms();
    closed.frame[0] = 0;
    expect(close_state(state, &rooms) == number && same_rooms(&rooms, &fresh) && same_state(state, &closed), what);
    is_shut(what, state);
}

/* Portions, each a text and its length; NULL ends the row. */
struct portion {
    const char *bytes;
    size_t length;
};

#define P(text) { text, sizeof text - 1 }
#define ROW(...) (const struct portion[]){ __VA_ARGS__, { NULL, 0 } }

static struct certis_portions fed(const struct portion *row)
{
    struct certis_portions state = opened();
    for (; row->bytes != NULL; row++) {
        expect(add(&state, row->bytes, row->length), "a portion");
    }
    return state;
}

static void lists(const char *what, const struct portion *row, size_t count, const struct fault *faults)
{
    struct certis_portions state = fed(row);
    closes(what, &state, count, count, faults);
}

static void refuses(const char *what, uint32_t number, const struct portion *row)
{
    struct certis_portions state = fed(row);
    close_refuses(what, number, &state);
}

/* Opening */

static void open_refuses(const char *what, uint32_t number, uint32_t code, uint32_t day)
{
    struct certis_portions zero = filled(0);
    struct certis_portions noisy = noise(1);
    struct certis_portions half = fed(ROW(P("HD:11 2024")));
    struct certis_portions before = half;
    struct certis_portions noise_before = noisy;
    struct certis_portions none = filled(0);
    expect(certis_portions_open(&zero, code, day) == number && same_state(&zero, &none)
               && certis_portions_open(&noisy, code, day) == number && same_state(&noisy, &noise_before)
               && certis_portions_open(&half, code, day) == number && same_state(&half, &before),
           what);
}

static void test_opening(void)
{
    open_refuses("1: code 0", 1, 0, DAY);
    open_refuses("1: code 10000", 1, 10000, DAY);
    open_refuses("1: the largest code", 1, UINT32_MAX, DAY);
    open_refuses("1 before 2", 1, 0, 0);
    open_refuses("2: 20230229", 2, CODE, 20230229);
    open_refuses("2: 19991231", 2, CODE, 19991231);
    open_refuses("2: 21000101", 2, CODE, 21000101);
    open_refuses("2: the largest day", 2, CODE, UINT32_MAX);
    struct certis_portions state = filled(BYTE_PATTERN);
    struct certis_portions before = state;
    expect(certis_portions_open(&state, CODE, DAY) == 0 && memcmp(state.lines, before.lines, sizeof state.lines) == 0
               && memcmp(state.rules, before.rules, sizeof state.rules) == 0
               && memcmp(state.offsets, before.offsets, sizeof state.offsets) == 0,
           "opening writes no pair");
    /* An open state begins anew, and so does one that is closed. */
    expect(add(&state, "x\r\n", 3) && certis_portions_open(&state, CODE, DAY) == 0 && add(&state, WORKED, WORKED_LENGTH), "opening again");
    closes("opening an open state again", &state, 3, WORKED_FAULTS);
    expect(certis_portions_open(&state, 301, DAY) == 0 && add(&state, WORKED, WORKED_LENGTH), "opening a closed state");
    closes("opening a closed state, another code", &state, 3, FAULTS({ 3, 23, 75 }, { 4, 12, 91 }, { 4, 31, 91 }));
}

/* Cuttings */

static void test_worked_example(void)
{
    bool right = true;
    struct rooms wanted = rooms_of(3, WORKED_FAULTS);
    for (size_t cut = 0; cut <= WORKED_LENGTH; cut++) {
        struct certis_portions state = filled(BYTE_PATTERN);
        struct rooms rooms = fresh_rooms();
        right = right && certis_portions_open(&state, CODE, DAY) == 0 && add(&state, WORKED, cut)
                && add(&state, WORKED + cut, WORKED_LENGTH - cut) && close_state(&state, &rooms) == 0 && same_rooms(&rooms, &wanted);
    }
    expect(right, "the worked example in every cutting in two");
    struct certis_portions state = opened();
    for (size_t i = 0; i < WORKED_LENGTH; i++) {
        right = right && add(&state, WORKED + i, 1) && add(&state, WORKED, 0);
    }
    expect(right, "the worked example byte by byte, with empty portions");
    closes("the worked example byte by byte", &state, 3, WORKED_FAULTS);
}

static void test_borders(void)
{
    lists("CR | LF", ROW(P("x\r"), P("\n\x1A")), FAULTS({ 1, 2, 0 }, { 1, 3, 0 }));
    lists("CR | LF with nothing between", ROW(P("x\r"), P(""), P(""), P("\n"), P("\x1A")), FAULTS({ 1, 2, 0 }, { 1, 3, 0 }));
    lists("CR | CR LF", ROW(P("x\r"), P("\r\n\x1A")), FAULTS({ 1, 1, 0 }, { 1, 2, 0 }, { 1, 3, 0 }));
    lists("x CR | 1A", ROW(P("x\r"), P("\x1A")), FAULTS({ 1, 1, 0 }, { 1, 2, 0 }, { 1, 3, 0 }, { 1, 4, 0 }));
    lists("CR | 1A", ROW(P("\r"), P("\x1A")), FAULTS({ 1, 1, 0 }, { 1, 2, 0 }, { 1, 3, 0 }, { 1, 4, 0 }));
    lists("LF first in a portion", ROW(P("x"), P("\n"), P("\r\n\x1A")), FAULTS({ 1, 1, 0 }, { 1, 2, 0 }, { 1, 3, 0 }));
    lists("an empty line between two portions", ROW(P("\r\n\r"), P("\nx\x1A")),
          FAULTS({ 1, 2, 0 }, { 1, 3, 0 }, { 2, 2, 2 }, { 2, 3, 2 }, { 3, 2, 4 }, { 3, 3, 4 }, { 3, 4, 4 }));
    lists("1A in a portion of its own", ROW(P("x\r\n"), P("\x1A")), FAULTS({ 1, 2, 0 }, { 1, 3, 0 }));
    lists("1A in a portion of its own, with empty ones", ROW(P(""), P("x\r\n"), P(""), P("\x1A"), P("")), FAULTS({ 1, 2, 0 }, { 1, 3, 0 }));
}

/* A line of 100 bytes in every cutting in two: a byte that is not admissible
 * counts wherever it stands, behind those that a layout looks at too. */
static void test_long_lines(void)
{
    bool right = true;
    for (size_t place = 0; place <= 100; place++) {
        char file[103];
        memset(file, 'x', 100);
        memcpy(file + 100, "\r\n\x1A", 3);
        if (place < 100) {
            file[place] = '\x7F';
        }
        struct rooms good = rooms_of(2, FAULTS({ 1, 2, 0 }, { 1, 3, 0 }));
        struct rooms bad = rooms_of(3, FAULTS({ 1, 1, 0 }, { 1, 2, 0 }, { 1, 3, 0 }));
        for (size_t cut = 0; cut <= sizeof file; cut++) {
            struct certis_portions state = filled(BYTE_PATTERN);
            struct rooms rooms = fresh_rooms();
            right = right && certis_portions_open(&state, CODE, DAY) == 0 && add(&state, file, cut)
                    && add(&state, file + cut, sizeof file - cut) && close_state(&state, &rooms) == 0
                    && same_rooms(&rooms, place < 100 ? &bad : &good);
        }
    }
    expect(right, "a long line in every cutting in two, with a bad byte at every place");
}

static void test_refusals(void)
{
    struct certis_portions state = opened();
    close_refuses("5: no portion", 5, &state);
    refuses("5: empty portions", 5, ROW(P(""), P(""), P("")));
    refuses("5: no end mark", 5, ROW(P("x\r\n"), P("y")));
    refuses("6: the end mark alone", 6, ROW(P("\x1A")));
    refuses("6: the end mark in the third portion", 6, ROW(P(""), P(""), P("\x1A")));
    refuses("9: a byte in the portion after", 9, ROW(P("x\r\n\x1A"), P("\n")));
    refuses("9: a byte two portions after", 9, ROW(P("x\r\n"), P("\x1A"), P(""), P("HD:")));
    refuses("9: another end mark", 9, ROW(P("x\r\n\x1A"), P("\x1A")));
    refuses("9: in the same portion", 9, ROW(P("x\r"), P("\n\x1Ay")));
    refuses("9 before 6", 9, ROW(P("\x1A"), P("\x1A")));
}

/* So many bytes, all but the last of them 0, in portions of this size. */
static struct certis_portions fed_long(size_t length, size_t portion, char last)
{
    static const char nothing[65536];
    struct certis_portions state = opened();
    bool added = true;
    for (size_t left = length - 1; left > 0;) {
        size_t now = left < portion ? left : portion;
        added = added && add(&state, nothing, now);
        left -= now;
    }
    expect(added && add(&state, &last, 1), "portions of a long file");
    return state;
}

static void test_long_files(void)
{
    struct certis_portions state = fed_long(10000000, 65536, '\x1A');
    closes("10,000,000 bytes: one line, broken in every way of a line", &state, 4,
           FAULTS({ 1, 1, 0 }, { 1, 2, 0 }, { 1, 3, 0 }, { 1, 4, 0 }));
    state = fed_long(10000001, 65536, '\x1A');
    close_refuses("3: 10,000,001 bytes", 3, &state);
    state = fed_long(10000001, 65536, 'x');
    close_refuses("3 before 5", 3, &state);
    state = fed_long(30000000, 65521, '\x1A');
    close_refuses("3: 30,000,000 bytes", 3, &state);
    state = fed(ROW(P("x\r\n\x1A")));
    static char behind[9999996];
    expect(add(&state, behind, sizeof behind), "10,000,000 bytes with the mark early");
    struct certis_portions longer = state;
    close_refuses("9: 10,000,000 bytes with the mark early", 9, &state);
    expect(add(&longer, behind, 1), "one more");
    close_refuses("3 before 9: bytes behind the mark count", 3, &longer);
}

/* 256 pairs are kept, the first of all and not the first found; the total is true. */
static void test_many_faults(void)
{
    struct fault faults[ROOM];
    struct certis_portions state = fed(ROW(P(L("HD:11 20240304 0000300 0000001 0000710 0000000 0000000"))));
    bool added = true;
    for (uint32_t i = 0; i < 1000; i++) {
        added = added && add(&state, "EC:", 3) && add(&state, "\r\n", 2);
    }
    expect(added && add(&state, END, 1), "a thousand fields");
    /* The heading has no KC (15) and no 51 (16), and both are known at the very end. Each EC breaks 6, and from the second on 5. */
    faults[0] = (struct fault){ 1, 15, 0 };
    faults[1] = (struct fault){ 1, 16, 0 };
    faults[2] = (struct fault){ 2, 6, 56 };
    for (uint32_t i = 3; i < ROOM; i++) {
        uint32_t line = 3 + (i - 3) / 2;
        faults[i] = (struct fault){ line, 5 + (i - 3) % 2, 56 + 5 * (line - 2) };
    }
    closes("2001 faults", &state, 2001, ROOM, faults);
}

/* States that no opening made, and closed ones */

static void test_shut_states(void)
{
    struct certis_portions state = filled(0);
    is_shut("zeros", &state);
    state = filled(0xFF);
    is_shut("bytes FF", &state);
    state = filled(BYTE_PATTERN);
    is_shut("bytes A5", &state);
    state = filled(1);
    is_shut("bytes 01", &state);
    for (uint64_t seed = 1; seed <= 16; seed++) {
        state = noise(seed);
        is_shut("noise", &state);
    }
    state = noise(3);
    expect(certis_portions_open(&state, CODE, DAY) == 0 && add(&state, WORKED, WORKED_LENGTH), "opening over noise");
    closes("opening over noise", &state, 3, WORKED_FAULTS);
    is_shut("closed and asked again", &state);
}

/* A copy goes on by itself. */
static void test_copies(void)
{
    struct certis_portions one = fed(ROW({ WORKED, 80 }));
    struct certis_portions other = one;
    struct certis_portions third;
    expect(add(&one, "x\r", 2), "a portion for one");
    memcpy(&third, &one, sizeof third);
    expect(add(&other, WORKED + 80, 60), "a portion for the other");
    expect(add(&one, END, 1), "the end for one");
    expect(add(&other, WORKED + 140, WORKED_LENGTH - 140), "the rest for the other");
    expect(add(&third, "\n" END "y", 3), "more for the third");
    closes("the first of three copies", &one, 5,
           FAULTS({ 1, 12, 0 }, { 1, 16, 0 }, { 3, 1, 75 }, { 3, 4, 75 }, { 3, 6, 75 }));
    closes("the second", &other, 3, WORKED_FAULTS);
    close_refuses("the third", 9, &third);
}

/* The parts of a state lent apart, each between patterns; what closing hands out is kept until then. */

#define LENT(type, count)   \
    struct {                \
        type before[EDGE];  \
        type places[count]; \
        type behind[EDGE];  \
    }

struct parts {
    LENT(uint64_t, 38) wide;
    LENT(uint64_t, 1) length;
    LENT(uint32_t, 33) narrow;
    LENT(uint32_t, 8) frame;
    LENT(uint32_t, ROOM) lines;
    LENT(uint32_t, ROOM) rules;
    LENT(uint32_t, ROOM) offsets;
    LENT(uint32_t, 1296) stood;
    LENT(uint8_t, 19) small;
    LENT(uint8_t, 68) text;
};

static bool is_pattern(const void *memory, size_t length)
{
    const uint8_t *bytes = memory;
    while (length > 0 && bytes[length - 1] == BYTE_PATTERN) {
        length -= 1;
    }
    return length == 0;
}

#define FRAMED(part) (is_pattern((part).before, sizeof (part).before) && is_pattern((part).behind, sizeof (part).behind))

static bool framed(const struct parts *p)
{
    return FRAMED(p->wide) && FRAMED(p->length) && FRAMED(p->narrow) && FRAMED(p->frame) && FRAMED(p->lines) && FRAMED(p->rules)
           && FRAMED(p->offsets) && FRAMED(p->stood) && FRAMED(p->small) && FRAMED(p->text);
}

static uint32_t add_to(struct parts *p, const char *bytes, size_t length)
{
    return certis_add_portion(bytes_of(bytes), length, p->wide.places, p->length.places, p->narrow.places, p->frame.places, p->lines.places,
                              p->rules.places, p->offsets.places, p->stood.places, p->small.places, p->text.places);
}

static uint32_t close_parts(struct parts *p, struct rooms *rooms)
{
    return certis_close_portions(p->wide.places, p->length.places, p->narrow.places, p->frame.places, p->lines.places, p->rules.places,
                                 p->offsets.places, p->stood.places, p->small.places, p->text.places, rooms->lines.places,
                                 rooms->rules.places, rooms->offsets.places, &rooms->total);
}

static void test_parts(void)
{
    static struct parts parts;
    struct rooms rooms = fresh_rooms();
    struct rooms wanted = rooms_of(3, WORKED_FAULTS);
    memset(&parts, BYTE_PATTERN, sizeof parts);
    expect(certis_open_portions(CODE, DAY, parts.wide.places, parts.length.places, parts.narrow.places, parts.frame.places,
                                parts.stood.places, parts.small.places, parts.text.places) == 0
               && framed(&parts) && is_pattern(&parts.lines, sizeof parts.lines) && is_pattern(&parts.rules, sizeof parts.rules)
               && is_pattern(&parts.offsets, sizeof parts.offsets),
           "opening writes nothing beside the parts");
    bool right = true;
    for (size_t i = 0; i < WORKED_LENGTH; i += 7) {
        right = right && add_to(&parts, WORKED + i, WORKED_LENGTH - i < 7 ? WORKED_LENGTH - i : 7) == 0 && framed(&parts);
    }
    expect(right, "adding writes nothing beside the parts");
    expect(close_parts(&parts, &rooms) == 0 && framed(&parts) && same_rooms(&rooms, &wanted), "closing writes nothing beside the parts");
    static struct parts before;
    memcpy(&before, &parts, sizeof before);
    expect(add_to(&parts, WORKED, 9) == 18 && close_parts(&parts, &rooms) == 18 && memcmp(&parts, &before, sizeof parts) == 0
               && same_rooms(&rooms, &wanted),
           "18 writes nothing");
}

int main(void)
{
    test_opening();
    test_worked_example();
    test_borders();
    test_long_lines();
    test_refusals();
    test_long_files();
    test_many_faults();
    test_shut_states();
    test_copies();
    test_parts();
    return finish();
}
