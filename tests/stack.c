/* stack: holds what include/certis.h says of the stack that a call takes. Each
 * job runs in a thread whose stack was painted; what is no longer paint was
 * used, less what a thread uses that does nothing. The last line printed is
 * 'N passed, M failed'.
 */

#define _POSIX_C_SOURCE 200809L /* for pthread_attr_setstack */

#include "certis.h"

#include <pthread.h>
#include <stdbool.h>
#include <stdio.h>
#include <stdlib.h>
#include <string.h>

#define ROOM ((size_t)4 << 20)
#define PAINT 0xA5

struct sample {
    uint8_t bytes[1 << 16];
    size_t length;
};

/* One with faults, which is checked, and one without, which is posted. */
static struct sample faulty;
static struct sample clean;

static void *nothing(void *ignored)
{
    return ignored;
}

static void *total(void *ignored)
{
    uint64_t faults = 0;
    certis_total(faulty.bytes, faulty.length, 300, 20240304, &faults);
    return ignored;
}

static void *check(void *ignored)
{
    static uint32_t lines[64];
    static uint32_t rules[64];
    static uint32_t offsets[64];
    uint64_t faults = 0;
    certis_check(faulty.bytes, faulty.length, 300, 20240304, lines, 64, rules, 64, offsets, 64, &faults);
    return ignored;
}

/* A state and its three calls; the file is cut in two. */
static struct certis_portions state;

static void *open_portions(void *ignored)
{
    certis_portions_open(&state, 300, 20240304);
    return ignored;
}

static void *add_portions(void *ignored)
{
    size_t half = faulty.length / 2;
    certis_portions_add(&state, faulty.bytes, half);
    certis_portions_add(&state, faulty.bytes + half, faulty.length - half);
    return ignored;
}

static void *close_portions(void *ignored)
{
    static uint32_t lines[CERTIS_PORTIONS_ROOM];
    static uint32_t rules[CERTIS_PORTIONS_ROOM];
    static uint32_t offsets[CERTIS_PORTIONS_ROOM];
    uint64_t faults = 0;
    certis_portions_close(&state, lines, rules, offsets, &faults);
    return ignored;
}

static const char heading[] = "HD:12 20240304 0000300 0000017 0000710 0000000 0000000";

static void *tell(void *ignored)
{
    uint32_t type = 0;
    uint32_t recipient = 0;
    certis_tell((const uint8_t *)heading, CERTIS_HEADING, 6, 1, &type, &recipient);
    return ignored;
}

static void *derive(void *ignored)
{
    static uint8_t target[CERTIS_HEADING];
    certis_derive((const uint8_t *)heading, CERTIS_HEADING, 6, 1, 42, target, sizeof target);
    return ignored;
}

static void *account(void *ignored)
{
    uint32_t answers[2];
    certis_account((const uint8_t *)"19", 2, (const uint8_t *)"2000145399", 10, &answers[0], &answers[1]);
    return ignored;
}

static void *post(void *ignored)
{
    static const uint32_t codes[] = { 300, 710, 820 };
    static int64_t turnovers[CERTIS_TURNOVERS];
    certis_sheet_post(codes, 3, turnovers, clean.bytes, clean.length, 300, 20240304);
    return ignored;
}

static void enter_in_new(const uint8_t *file, size_t length)
{
    static uint8_t fresh[CERTIS_REGISTER_LEAST];
    static uint8_t target[CERTIS_REGISTER_MOST];
    size_t written = 0;
    certis_register_new(300, fresh, sizeof fresh);
    certis_register_enter(fresh, sizeof fresh, file, length, 300, 20240304, target, sizeof target, &written);
}

static void *enter(void *ignored)
{
    enter_in_new(clean.bytes, clean.length);
    return ignored;
}

/* Numbers that have to be put in order: two neighbours, which are told apart
 * only by the last halving. */
static void *enter_backwards(void *ignored)
{
    static const char file[] = "HD:11 20240304 0000300 0000002 0000710 0000000 0000000\r\nKC:1 20240304\r\n"
                               "HD:51 20240304 0000300 0000000 0000999 0000000 0000000\r\nIN:2 2\r\nS1:1 1\r\n"
                               "HD:11 20240304 0000300 0000001 0000710 0000000 0000000\r\nKC:1 20240304\r\n"
                               "HD:51 20240304 0000300 0000000 0000999 0000000 0000000\r\nIN:1 1\r\nS1:1 1\r\n\x1A";
    enter_in_new((const uint8_t *)file, sizeof file - 1);
    return ignored;
}

static void *deliver(void *ignored)
{
    static const char items[] = "HD:12 20240304 0000300 0000017 0000710 0000000 0000000\r\nKC:12500 20240304\r\nEC:5\r\n"
                                "HD:35 20240304 0000990 0000009 0000820 0000000 0000300\r\nKC:7 20240304\r\n";
    static const uint32_t outcomes[] = { CERTIS_CHECKLIST, 1 };
    static const uint32_t standings[] = { 1, 2 };
    static uint8_t target[CERTIS_DELIVERY_MOST(sizeof items, 2)];
    uint64_t written = 0;
    certis_deliver((const uint8_t *)items, sizeof items - 1, outcomes, 2, standings, 2, 999, 20240304, 42, target, sizeof target, &written);
    return ignored;
}

/* The bytes of stack that a thread with this job uses; ROOM if it cannot run. */
static size_t used_by(void *(*job)(void *))
{
    pthread_attr_t attributes;
    pthread_t thread;
    uint8_t *stack = aligned_alloc(4096, ROOM);
    size_t paint = 0;
    if (stack == NULL) {
        return ROOM;
    }
    memset(stack, PAINT, ROOM);
    pthread_attr_init(&attributes);
    if (pthread_attr_setstack(&attributes, stack, ROOM) == 0 && pthread_create(&thread, &attributes, job, NULL) == 0) {
        pthread_join(thread, NULL);
        while (paint < ROOM && stack[paint] == PAINT) {
            paint += 1;
        }
    }
    pthread_attr_destroy(&attributes);
    free(stack);
    return ROOM - paint;
}

static bool read_sample(const char *name, struct sample *sample)
{
    FILE *from = fopen(name, "rb");
    if (from != NULL) {
        sample->length = fread(sample->bytes, 1, sizeof sample->bytes, from);
        fclose(from);
    }
    return sample->length > 0;
}

int main(int count, char **words)
{
    static const struct {
        const char *name;
        void *(*run)(void *);
        size_t promised;
    } JOBS[] = {
        { "certis_total", total, 16 << 10 },     { "certis_check", check, 16 << 10 },
        { "certis_portions_open", open_portions, 16 << 10 },
        { "certis_portions_add", add_portions, 16 << 10 },
        { "certis_portions_close", close_portions, 16 << 10 },
        { "certis_tell", tell, 16 << 10 },       { "certis_derive", derive, 16 << 10 },
        { "certis_account", account, 16 << 10 }, { "certis_sheet_post", post, 16 << 10 },
        { "certis_register_enter", enter, 2 << 20 }, { "certis_register_enter, numbers backwards,", enter_backwards, 2 << 20 },
        { "certis_deliver", deliver, 16 << 10 },
    };
    unsigned passed = 0;
    unsigned failed = 0;
    bool readable = count > 2 && read_sample(words[1], &faulty) && read_sample(words[2], &clean);
    size_t idle = readable ? used_by(nothing) : ROOM;
    for (size_t i = 0; i < sizeof JOBS / sizeof JOBS[0]; i++) {
        size_t used = used_by(JOBS[i].run);
        bool holds = idle < ROOM && used < idle + JOBS[i].promised;
        passed += holds;
        failed += !holds;
        printf("%s%s takes %zu bytes of stack\n", holds ? "" : "FAILED: ", JOBS[i].name, used < idle ? 0 : used - idle);
    }
    printf("%u passed, %u failed\n", passed, failed);
    return failed == 0 ? 0 : 1;
}
