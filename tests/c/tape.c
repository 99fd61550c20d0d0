/* The call for a bench tape: the whole output of each tape against the papers, in a buffer for every tape, in one that just holds it, and
 * in none that is shorter. */
#include "check.h"
#include "paper.h"

static Space first, second, third;
static uint8_t tape[LONGEST_LENT];
static char lines[AHZ_TAPE_OUTPUT + 1];
static size_t lines_octets; /* of the last tape's output */

static void expect_output(size_t octets, size_t room) {
    const uint8_t answer = room < lines_octets ? AHZ_R_OUTPUT_SHORT : AHZ_DONE;
    const uint8_t *lent = lend(&first, tape, octets);
    uint8_t *out = lend(&second, NULL, room);
    size_t *length = (size_t *)lend_aligned(&third, NULL, sizeof lines_octets);
    EXPECT(ahz_tape_v3(lent, octets, out, room, length) == answer);
    EXPECT(kept_but(&first, 0) && holds(&second, lines, answer == AHZ_DONE ? lines_octets : 0));
    EXPECT(holds(&third, &lines_octets, answer == AHZ_DONE ? sizeof lines_octets : 0));
}

static void expect_tape(size_t octets) {
    lines_octets = paper_tape(tape, octets, lines);
    expect_output(octets, AHZ_TAPE_OUTPUT);
    expect_output(octets, lines_octets);
    expect_output(octets, lines_octets + 1);
    expect_output(octets, lines_octets - 1);
    expect_output(octets, 0);
}

static int expected_is(const char *expected) {
    return strcmp(lines, expected) == 0;
}

#define WORKED 0x0F, 0, 0, 0, 0, 4, 0, 0, 0, 100, 0, 100, 2, 0, 0, 0, 1
#define ONE_TICK 0x0F, 1, 1, 0, 0, 2, 0, 0, 0, 1, 0, 1, 8, 0, 0, 0, 0
#define THREE_TICKS(use) 0x0F, 0, 0, use, 0, 4, 0, 0, 0, 3, 0x03, 0xE8, 2, 0, 0, 0, 1
#define LONGEST_HISTORY 0x0F, 0, 0, 0, 2, 0, 0, 0, 0, 100, 0, 100, 2, 0, 0, 0, 1
enum { SETUP = 17 }; /* octets of one, its kind among them */

/* Tapes with their outputs written out: the paper's own, every line there is, and each fault. */
static void written(void) {
    static const struct {
        uint8_t octets[35];
        size_t count;
        const char *lines;
    } tapes[] = {
        {{WORKED, 1, 0, 10, 1, 0, 10, 1, 0, 12, 1, 0, 11, 1, 0, 20, 6}, SETUP + 16,
         "ok\npass\ndiscard\npass\npass\ndiscard\nlatent ok\n"
         "passed=3 discarded=2 order=2 rogue=1 lost=2 tagless=0 resets=0 latent-resets=0 before-first=2\n"},
        {{ONE_TICK, 2, 3, 3, 1, 1, 2, 1, 1, 2, 6, 5, 6, 4}, SETUP + 13,
         "ok\npass\nreset\ntick\npass\ndiscard\nlatent error\nlatent reset\nlatent ok\nreset\n"
         "passed=2 discarded=1 order=0 rogue=0 lost=0 tagless=1 resets=2 latent-resets=1 before-first=0\n"},
        {{THREE_TICKS(0), 1, 0, 7, 3, 3, 1, 0, 7, 3, 3, 1, 0, 7}, SETUP + 13, /* a stuck sender: the timer runs out under it */
         "ok\npass\ntick\ntick\ndiscard\nreset\ntick\npass\n"
         "passed=2 discarded=1 order=0 rogue=0 lost=0 tagless=0 resets=1 latent-resets=0 before-first=0\n"},
        {{THREE_TICKS(1), 1, 0, 7, 3, 3, 1, 0, 7, 3, 3, 1, 0, 7}, SETUP + 13, /* and in individual use it does not */
         "ok\npass\ntick\ntick\ndiscard\ntick\ntick\ndiscard\n"
         "passed=1 discarded=2 order=0 rogue=0 lost=0 tagless=0 resets=0 latent-resets=0 before-first=0\n"},
        {{THREE_TICKS(0), 2, 3, 3, 3}, SETUP + 4, /* no number yet: the timer stands */
         "ok\ndiscard\ntick\ntick\ntick\n"
         "passed=0 discarded=1 order=0 rogue=0 lost=0 tagless=1 resets=0 latent-resets=0 before-first=0\n"},
        {{THREE_TICKS(1), 2, 3, 3, 3}, SETUP + 4, /* and in individual use it runs */
         "ok\ndiscard\ntick\ntick\nreset\n"
         "passed=0 discarded=1 order=0 rogue=0 lost=0 tagless=1 resets=1 latent-resets=0 before-first=0\n"},
        {{WORKED, 1, 0, 10, 1, 0, 12, 1, 0, 15, 4, 1, 0, 20, 1, 0, 21}, SETUP + 16, /* lost are 7, 8, 9, 11 and then 17: 11 is missed */
         "ok\npass\npass\npass\nreset\npass\npass\n"
         "passed=5 discarded=0 order=2 rogue=0 lost=5 tagless=0 resets=1 latent-resets=0 before-first=4\n"},
        {{WORKED}, SETUP, "ok\npassed=0 discarded=0 order=0 rogue=0 lost=0 tagless=0 resets=0 latent-resets=0 before-first=0\n"},
        {{0}, 0, "fault 25\n"},
        {{3}, 1, "fault 25\n"},
        {{1, 0, 10}, 3, "fault 25\n"},
        {{1, 0}, 2, "fault 24\n"},
        {{0x0F}, 1, "fault 24\n"},
        {{WORKED}, SETUP - 1, "fault 24\n"},
        {{0}, 1, "fault 23\n"},
        {{7}, 1, "fault 23\n"},
        {{0x0E}, 1, "fault 23\n"},
        {{0xFF}, 1, "fault 23\n"},
        {{WORKED, 7}, SETUP + 1, "ok\nfault 23\n"},
        {{WORKED, 1, 0}, SETUP + 2, "ok\nfault 24\n"},
        {{WORKED, 1}, SETUP + 1, "ok\nfault 24\n"},
        {{WORKED, 0x0F, 0, 0}, SETUP + 3, "ok\nfault 24\n"},
        {{WORKED, 3, WORKED}, SETUP + 1 + SETUP, "ok\ntick\nfault 25\n"},
        {{WORKED, 0x0F, 9, 9, 9, 0, 0, 0, 0, 0, 0, 0, 0, 0, 0, 0, 0, 0}, SETUP + SETUP, "ok\nfault 25\n"},
        {{0x0F, 2, 2, 2, 0, 1, 0, 0, 0, 0, 0, 0, 1, 0, 0, 0, 0}, SETUP, "fault 15\n"},
        {{0x0F, 1, 2, 1, 0, 1, 0, 0, 0, 0, 0, 0, 1, 0, 0, 0, 0}, SETUP, "fault 27\n"},
        {{0x0F, 1, 1, 2, 0, 1, 0, 0, 0, 0, 0, 0, 1, 0, 0, 0, 0}, SETUP, "fault 27\n"},
        {{0x0F, 1, 1, 1, 2, 1, 0, 0, 0, 0, 0, 0, 1, 0, 0, 0, 0}, SETUP, "fault 16\n"},
        {{0x0F, 0, 1, 1, 2, 1, 0, 0, 0, 100, 0, 100, 2, 0, 0, 0, 1}, SETUP, "fault 16\n"},
        {{0x0F, 1, 1, 1, 2, 0, 0, 0x36, 0xEE, 0x81, 0, 0, 1, 0, 0, 0, 0}, SETUP, "fault 17\n"},
        {{0x0F, 1, 1, 1, 2, 0, 0, 0x36, 0xEE, 0x80, 0x27, 0x11, 1, 0, 0, 0, 0}, SETUP, "fault 18\n"},
        {{0x0F, 1, 1, 1, 2, 0, 0, 0x36, 0xEE, 0x80, 0x27, 0x10, 9, 0, 0, 0, 0}, SETUP, "fault 19\n"},
        {{0x0F, 1, 1, 1, 2, 0, 0, 0x36, 0xEE, 0x80, 0x27, 0x10, 8, 0xFF, 0xFF, 0xFF, 0xFF}, SETUP,
         "ok\npassed=0 discarded=0 order=0 rogue=0 lost=0 tagless=0 resets=0 latent-resets=0 before-first=0\n"},
        {{LONGEST_HISTORY, 1, 0, 0, 1, 0xFE, 1, 1, 0xFE, 0, 1, 2, 0, 1, 0, 1}, SETUP + 15, /* 0, 65,025, 65,024, then 512 and 1 */
         "ok\npass\npass\ndiscard\ndiscard\npass\n"
         "passed=3 discarded=2 order=1 rogue=2 lost=0 tagless=0 resets=0 latent-resets=0 before-first=0\n"},
        {{LONGEST_HISTORY, 1, 0, 0, 1, 1, 0xFF, 1, 0, 11, 1, 0, 11, 1, 2, 0}, SETUP + 15, /* 500 behind 511, once; then 0 leaves */
         "ok\npass\npass\npass\ndiscard\npass\n"
         "passed=4 discarded=1 order=2 rogue=0 lost=511 tagless=0 resets=0 latent-resets=0 before-first=511\n"},
    };
    size_t i, octets;
    for (i = 0; i < COUNT(tapes); i++) {
        memcpy(tape, tapes[i].octets, sizeof tapes[i].octets);
        for (octets = 0; octets < tapes[i].count; octets++) expect_tape(octets);
        expect_tape(tapes[i].count);
        EXPECT(expected_is(tapes[i].lines));
    }
}

/* Tapes as version 1 had them, a setup of 15 octets without a use, and what the header says of those that were good: each octet from the
 * history length on is read one place late. A history length of 2 and a difference from 2^25 to 9 x 2^24 - 1 is a setup of today, with the
 * first event's kind in it. */
static void expect_version_1(unsigned history, uint32_t ms, uint16_t rate, uint32_t difference) {
    const uint8_t old[] = {0x0F, 0, 1, 0, (uint8_t)history, (uint8_t)(ms >> 24), (uint8_t)(ms >> 16), (uint8_t)(ms >> 8), (uint8_t)ms,
                           (uint8_t)(rate >> 8), (uint8_t)rate, 2, (uint8_t)(difference >> 24), (uint8_t)(difference >> 16),
                           (uint8_t)(difference >> 8), (uint8_t)difference};
    const char *said = history > 2 ? "fault 16\n" : ms > 14062 ? "fault 17\n" : rate % 256 > 39 ? "fault 18\n"
                       : difference < 33554432 || difference > 150994943 ? "fault 19\n" : NULL;
    uint8_t kind;
    memcpy(tape, old, sizeof old);
    expect_tape(sizeof old);
    EXPECT(expected_is("fault 24\n"));
    for (kind = 1; kind <= 6; kind++) {
        tape[sizeof old] = kind;
        tape[sizeof old + 1] = tape[sizeof old + 2] = 0;
        expect_tape(sizeof old + (kind == 1 ? 3 : 1));
        if (said != NULL) EXPECT(expected_is(said));
        else if (kind == 1) EXPECT(expected_is("ok\nfault 23\n")); /* its number, 0, for a kind */
        else EXPECT(strncmp(lines, "ok\npassed=0 discarded=0 ", 24) == 0);
    }
}

static void version_1(void) {
    static const uint32_t timeouts[] = {1, 100, 14062, 14063, 65536, 3600000};
    static const uint32_t differences[] = {0, 1, 33554431, 33554432, 150994943, 150994944, UINT32_MAX};
    static const uint16_t rates[] = {1, 39, 40, 100, 255, 256, 295, 296, 9984, 9999, 10000};
    size_t t, r, d;
    unsigned history;
    for (t = 0; t < COUNT(timeouts); t++) {
        for (r = 0; r < COUNT(rates); r++) {
            for (d = 0; d < COUNT(differences); d++) expect_version_1(2, timeouts[t], rates[r], differences[d]);
        }
        for (history = 3; history <= 64; history++) expect_version_1(history, timeouts[t], rates[t], differences[t]);
    }
}

/* Setups about the edges of each number, each octet of them in its place. */
static void setups(void) {
    static const uint8_t good[] = {WORKED};
    static const uint8_t octets[] = {0, 1, 2, 3, 8, 9, 64, 65, 0x10, 0x11, 0x27, 0x28, 0x36, 0x37, 0x80, 0x81, 0xEE, 0xEF, 0xFF};
    size_t place, i;
    for (place = 1; place < SETUP; place++) {
        for (i = 0; i < COUNT(octets); i++) {
            memcpy(tape, good, sizeof good);
            tape[place] = octets[i];
            memcpy(tape + SETUP, "\1\0\12\1\0\12\1\0\15\6\2\3\3\1\0\14\6", 17);
            expect_tape(SETUP + 17);
        }
    }
}

static uint8_t below(unsigned end) {
    return (uint8_t)(roll() % end);
}

/* Events in any order, of any setup, and now and then an octet that is wrong. */
static void any_events(void) {
    static const uint8_t worked[] = {WORKED}, histories[][2] = {{0, 2}, {0, 4}, {0, 64}, {0, 65}, {2, 0}};
    unsigned n;
    size_t at;
    for (n = 0; n < 150; n++) {
        const size_t octets = 100 + roll() % 900;
        uint64_t number = roll();
        memcpy(tape, worked, sizeof worked);
        tape[1] = below(2);
        tape[2] = below(2);
        tape[3] = below(2);
        memcpy(tape + 4, histories[below(5)], 2);
        tape[9] = (uint8_t)(1 + below(9)); /* ms, and a rate of 356: from one tick to four */
        tape[10] = 1;
        tape[12] = (uint8_t)(2 + below(7));
        tape[16] = below(5);
        for (at = SETUP; at + 3 < octets;) {
            tape[at] = (uint8_t)(below(4) < 3 ? 1 : 2 + below(5));
            if (tape[at++] != 1) continue;
            number += below(16) == 0 ? roll() % 1100 - 550 : roll() % 7 - 2;
            tape[at++] = (uint8_t)(number >> 8);
            tape[at++] = (uint8_t)number;
        }
        expect_tape(at);
        if (n % 3 == 0) {
            tape[SETUP + roll() % (at - SETUP)] = (uint8_t)(7 + below(16));
            expect_tape(at);
        }
    }
}

/* The longest tapes: of one event again and again, so that each counter has its many digits, and the tapes that are too long. */
static void longest(void) {
    static const uint8_t good[][SETUP] = {{WORKED}, {ONE_TICK}, {THREE_TICKS(1)}};
    static const size_t too_long[] = {4097, 4098, 65536, 65536 + SETUP, 65536 + 4096};
    uint8_t kind;
    size_t i, at;
    for (i = 0; i < COUNT(good); i++) {
        for (kind = 1; kind <= 6; kind++) {
            for (at = 0; at < sizeof tape; at++) {
                tape[at] = kind != 1 || at % 3 == SETUP % 3 ? kind : (uint8_t)(at % 3 == (SETUP + 1) % 3 ? at / 768 : at / 3);
            }
            memcpy(tape, good[i], SETUP);
            expect_tape(4096);
            expect_tape(4095);
            expect_tape(4094); /* whole packets of 3 octets */
        }
        for (at = SETUP; at + 1 < sizeof tape; at += 2) { /* packets that pass, and ticks: a reset after each under the second setup */
            tape[at] = 2;
            tape[at + 1] = 3;
        }
        expect_tape(4096);
        for (at = 0; at < COUNT(too_long); at++) {
            expect_tape(too_long[at]);
            EXPECT(expected_is("fault 26\n"));
        }
    }
    memcpy(tape, good[0], SETUP);
    tape[4] = AHZ_HISTORY_MOST / 256;
    tape[5] = 0;
    for (at = SETUP; at + 7 <= 4096; at += 7) memcpy(tape + at, "\1\0\0\1\1\377\4", 7); /* 0, 511 and a reset, 582 times */
    expect_tape(at);
    EXPECT(strstr(lines, " lost=297402 ") != NULL && strstr(lines, " before-first=297402\n") != NULL);
    memset(tape, 0, sizeof tape);
    expect_tape(4096);
    EXPECT(expected_is("fault 23\n"));
    expect_tape(4097);
    EXPECT(expected_is("fault 26\n"));
}

int main(void) {
    static void (*const parts[])(void) = {written, version_1, setups, any_events, longest};
    return run_tests("tests/c/tape.c", parts, COUNT(parts));
}
