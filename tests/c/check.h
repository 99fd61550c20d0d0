/* What the tests share: checks that are counted, spaces that lent memory lies in, and dice.
 *
 * What is lent lies inside a larger painted space, octets at addresses of every alignment. After each call all of the space is held to what
 * it was but for the part that the call is to write: so a changed input, and an octet beside an output, are seen. Each test goes through
 * twice: once an empty part is a pointer into a space, once it is null. Only the few cases that are written out as the paper has them, and
 * the forms that read a struct, go by variables. */
#ifndef CHECK_H
#define CHECK_H

#include <ahozurime.h>

#include <stdio.h>
#include <string.h>

static unsigned long checks, failed;

static inline int check(int holds, const char *file, int line, const char *what) {
    checks++;
    if (!holds && failed++ < 20) printf("%s:%d: %s\n", file, line, what);
    return holds;
}

#define EXPECT(holds) check((holds) ? 1 : 0, __FILE__, __LINE__, #holds)
#define COUNT(array) (sizeof(array) / sizeof((array)[0]))

enum { GUARD = 64, LONGEST_LENT = 65536 + 4096, SPACE = GUARD + 8 + LONGEST_LENT + GUARD };

typedef struct {
    uint64_t now[SPACE / 8 + 1];
    uint64_t was[SPACE / 8 + 1];
    size_t start; /* of the lent part */
    size_t end;   /* of the space in use */
} Space;

static int empty_is_null;

static inline uint8_t *lend_at(Space *space, size_t start, const void *content, size_t octets) {
    uint8_t *now = (uint8_t *)space->now;
    size_t i;
    space->start = start;
    space->end = start + octets + GUARD;
    for (i = 0; i < space->end; i += 8) space->now[i / 8] = i * UINT64_C(0x123456789ABCDEF) + UINT64_C(0x5A17C3E9924BD68F);
    if (content != NULL && octets > 0) memcpy(now + start, content, octets);
    memcpy(space->was, space->now, space->end);
    return octets == 0 && empty_is_null ? NULL : now + start;
}

/* A part of the space that holds those octets; without any, what the space is painted with. */
static inline uint8_t *lend(Space *space, const void *octets, size_t count) {
    static size_t turn;
    return lend_at(space, GUARD + turn++ % 8, octets, count);
}

/* The same, aligned for words and for single numbers. */
static inline void *lend_aligned(Space *space, const void *content, size_t octets) {
    return lend_at(space, GUARD, content, octets);
}

/* Whether all of the space is as it was lent, but for so many octets at the start of the lent part. */
static inline int kept_but(const Space *space, size_t written) {
    const uint8_t *now = (const uint8_t *)space->now, *was = (const uint8_t *)space->was;
    const size_t rest = space->start + written;
    return rest <= space->end && memcmp(now, was, space->start) == 0 && memcmp(now + rest, was + rest, space->end - rest) == 0;
}

/* And whether these are what is expected. */
static inline int holds(const Space *space, const void *expected, size_t octets) {
    return kept_but(space, octets) && (octets == 0 || memcmp((const uint8_t *)space->now + space->start, expected, octets) == 0);
}

/* The next of a fixed row of numbers without a pattern. */
static inline uint64_t roll(void) {
    static uint64_t dice = UINT64_C(0x9E3779B97F4A7C15);
    dice ^= dice << 13;
    dice ^= dice >> 7;
    dice ^= dice << 17;
    return dice;
}

/* All of a test's parts, twice, and what they came to. */
static inline int run_tests(const char *file, void (*const *parts)(void), size_t count) {
    size_t i;
    (void)setvbuf(stdout, NULL, _IONBF, 0); /* a wrong layer may end the program, and then what it printed is wanted */
    for (empty_is_null = 0; empty_is_null < 2; empty_is_null++) {
        for (i = 0; i < count; i++) parts[i]();
    }
    printf("%s: %lu checks, %lu failed\n", file, checks, failed);
    return failed == 0 ? 0 : 1;
}

#endif
