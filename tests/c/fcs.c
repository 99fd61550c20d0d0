/* The calls on the frame check sequence: every length up to 1,600 and some over 65,536, each against a division bit by bit; every damage of
 * one bit; and the sums that others have published. For what is shared see check.h, for the division paper.h. */
#include "check.h"
#include "paper.h"

static Space first, second, third;
static uint8_t frame[LONGEST_LENT], expected[LONGEST_LENT];

/* Without a pattern; all zero; all ones; addresses, and tags that ahz_read refuses. */
enum { ROLLED, ZEROS, ONES, TAGS, KINDS };

static void make(unsigned kind) {
    static const uint8_t tags[] = {0x02, 0, 0, 0, 0, 0x07, 0x02, 0, 0, 0, 0, 0x01, 0x81, 0x00, 0xFF, 0xFF, 0x81, 0x00, 0xF1, 0xC1};
    size_t i;
    for (i = 0; i < sizeof frame; i++) frame[i] = (uint8_t)(kind == ZEROS ? 0 : kind == ONES ? 0xFF : roll() >> 32);
    if (kind == TAGS) memcpy(frame, tags, sizeof tags);
}

/* Puts the check behind so many octets of the frame. */
static void seal(size_t octets) {
    paper_fcs(frame, octets, frame + octets);
}

static void expect_sum(size_t octets) {
    const uint8_t *lent = lend(&first, frame, octets);
    EXPECT(ahz_crc32(lent, octets) == paper_crc32(frame, octets));
    EXPECT(kept_but(&first, 0));
}

static void expect_check(size_t octets, uint8_t answer) {
    const uint8_t *lent = lend(&first, frame, octets);
    EXPECT(ahz_check_fcs(lent, octets) == answer);
    EXPECT(ahz_without_fcs(lent, octets) == (answer == AHZ_DONE ? octets - 4 : 0));
    EXPECT(kept_but(&first, 0));
}

/* One frame and its check, into an output of so many octets. */
static void expect_appended(size_t octets, size_t room, uint8_t answer) {
    const size_t result = octets + 4;
    const uint8_t *lent = lend(&first, frame, octets);
    uint8_t *out = lend(&second, NULL, room);
    size_t *length = (size_t *)lend_aligned(&third, NULL, sizeof(size_t));
    EXPECT(ahz_append_fcs(lent, octets, out, room, length) == answer);
    EXPECT(kept_but(&first, 0) && holds(&second, expected, answer == AHZ_DONE ? result : 0));
    EXPECT(holds(&third, &result, answer == AHZ_DONE ? sizeof result : 0));
}

static void expect_appending(size_t octets) {
    const uint8_t refusal = octets < 14 ? 1 : octets > 1522 ? 2 : 0, short_refusal = refusal != 0 ? refusal : 8;
    size_t room;
    memcpy(expected, frame, octets);
    paper_fcs(frame, octets, expected + octets);
    expect_appended(octets, 0, short_refusal);
    for (room = octets; room < octets + 4; room++) expect_appended(octets, room, short_refusal);
    expect_appended(octets, octets + 4, refusal);
    expect_appended(octets, octets + 5, refusal);
    expect_appended(octets, 2048, refusal);
}

/* Of each length: with what stands at its end, which is no check but by chance, and with the check that belongs there. */
static void every_length(void) {
    size_t octets;
    unsigned kind;
    for (kind = 0; kind < KINDS; kind++) {
        make(kind);
        for (octets = 0; octets <= 1600; octets++) {
            expect_sum(octets);
            expect_appending(octets);
            expect_check(octets, paper_check_fcs(frame, octets));
        }
        for (octets = 1600; octets >= 4; octets--) {
            seal(octets - 4);
            expect_check(octets, octets < 18 ? 1 : octets > 1526 ? 2 : 0);
        }
    }
}

/* Lengths that 16 bits do not hold, and that would be good ones without the bits above. */
static void beyond_16_bits(void) {
    static const size_t lengths[] = {65535, 65536, 65537, 65536 + 14, 65536 + 18, 65536 + 100, 65536 + 1522, 65536 + 1526};
    size_t i;
    make(ROLLED);
    for (i = 0; i < COUNT(lengths); i++) {
        expect_sum(lengths[i]);
        expect_appended(lengths[i], 0, AHZ_R_FRAME_LONG);
        expect_appended(lengths[i], 2048, AHZ_R_FRAME_LONG);
        seal(lengths[i] - 4);
        expect_check(lengths[i], AHZ_R_FRAME_LONG);
    }
    memcpy(expected, frame, 14);
    paper_fcs(frame, 14, expected + 14);
    expect_appended(14, 65536 + 17, AHZ_DONE);
}

static void flip(size_t bit) {
    frame[bit / 8] ^= (uint8_t)(1u << bit % 8);
}

/* No damage of one bit goes through, nor one of two in the shortest frame; and with the bit set back the frame is good again. */
static void damage(void) {
    static const size_t lengths[] = {18, 19, 64, 65, 132, 135, 1525, 1526};
    size_t i, bit, other;
    for (i = 0; i < COUNT(lengths); i++) {
        make(i % 2 == 0 ? ROLLED : TAGS);
        seal(lengths[i] - 4);
        for (bit = 0; bit < 8 * lengths[i]; bit++) {
            flip(bit);
            expect_check(lengths[i], AHZ_R_FCS);
            flip(bit);
        }
        expect_check(lengths[i], AHZ_DONE);
    }
    make(ZEROS);
    seal(14);
    for (bit = 1; bit < 8 * 18; bit++) {
        for (other = 0; other < bit; other++) {
            flip(bit);
            flip(other);
            expect_check(18, AHZ_R_FCS);
            flip(other);
            flip(bit);
        }
    }
    expect_check(18, AHZ_DONE);
}

/* Checks that another reading of the standard would write: the high octet first, not complemented, bits the other way round, the first 32
 * bits not complemented, and the sum of the frame and its check. */
static void other_checks(void) {
    size_t octets;
    for (octets = 14; octets <= 1522; octets += 58) {
        uint8_t good[4], *behind = frame + octets;
        size_t i, bit;
        make(ROLLED);
        seal(octets);
        memcpy(good, behind, 4);
        for (i = 0; i < 4; i++) behind[i] = good[3 - i];
        expect_check(octets + 4, AHZ_R_FCS);
        for (i = 0; i < 4; i++) behind[i] = (uint8_t)(good[i] ^ 0xFF);
        expect_check(octets + 4, AHZ_R_FCS);
        memset(behind, 0, 4);
        for (bit = 0; bit < 32; bit++) behind[3 - bit / 8] |= (uint8_t)((good[bit / 8] >> bit % 8 & 1) << (7 - bit % 8));
        expect_check(octets + 4, AHZ_R_FCS);
        for (i = 0; i < 4; i++) frame[i] ^= 0xFF;
        seal(octets);
        for (i = 0; i < 4; i++) frame[i] ^= 0xFF;
        expect_check(octets + 4, AHZ_R_FCS);
        memcpy(behind, good, 4);
        paper_fcs(frame, octets + 4, behind);
        expect_check(octets + 4, AHZ_R_FCS);
        memcpy(behind, good, 4);
        expect_check(octets + 4, AHZ_DONE);
    }
}

/* A frame goes out with its check and comes in: what is handed on is the frame, and reads as it did. */
static void round_trip(void) {
    static const uint8_t head[] = {0x02, 0, 0, 0, 0, 0x07, 0x02, 0, 0, 0, 0, 0x01, 0xF1, 0xC1, 0, 0, 0x01, 0x02, 0x88, 0xB5};
    uint8_t sent[AHZ_FCS_LONGEST];
    uint64_t words[AHZ_H_WORDS];
    size_t octets, length = 0;
    make(ROLLED);
    memcpy(frame, head, sizeof head);
    for (octets = sizeof head; octets <= AHZ_FRAME_LONGEST; octets++) {
        EXPECT(ahz_append_fcs(frame, octets, sent, sizeof sent, &length) == AHZ_DONE && length == octets + AHZ_FCS_OCTETS);
        EXPECT(ahz_check_fcs(sent, length) == AHZ_DONE && ahz_without_fcs(sent, length) == octets && memcmp(sent, frame, octets) == 0);
        EXPECT(ahz_read(sent, ahz_without_fcs(sent, length), words, AHZ_H_WORDS) == AHZ_DONE && words[AHZ_H_NUMBER] == 258);
        EXPECT(ahz_payload(sent, ahz_without_fcs(sent, length)) == octets - sizeof head);
    }
}

/* Each also by the division, so that this is held to what others have too. */
static void published(void) {
    static const struct {
        const char *text;
        uint32_t sum;
    } texts[] = {{"", 0},
                 {"a", 0xE8B7BE43},
                 {"abc", 0x352441C2},
                 {"message digest", 0x20159D7F},
                 {"abcdefghijklmnopqrstuvwxyz", 0x4C2750BD},
                 {"123456789", 0xCBF43926}};
    uint8_t zeros[32], ones[32], rising[32];
    size_t i;
    for (i = 0; i < COUNT(texts); i++) {
        const size_t octets = strlen(texts[i].text);
        const uint8_t *lent = lend(&first, texts[i].text, octets);
        EXPECT(ahz_crc32(lent, octets) == texts[i].sum && paper_crc32((const uint8_t *)texts[i].text, octets) == texts[i].sum);
    }
    memset(zeros, 0, sizeof zeros);
    memset(ones, 0xFF, sizeof ones);
    for (i = 0; i < sizeof rising; i++) rising[i] = (uint8_t)i;
    EXPECT(ahz_crc32(zeros, sizeof zeros) == 0x190A55AD && paper_crc32(zeros, sizeof zeros) == 0x190A55AD);
    EXPECT(ahz_crc32(ones, sizeof ones) == 0xFF6CAB0B && paper_crc32(ones, sizeof ones) == 0xFF6CAB0B);
    EXPECT(ahz_crc32(rising, sizeof rising) == 0x91267E8A && paper_crc32(rising, sizeof rising) == 0x91267E8A);
}

int main(void) {
    static void (*const parts[])(void) = {published, every_length, beyond_16_bits, damage, other_checks, round_trip};
    return run_tests("tests/c/fcs.c", parts, COUNT(parts));
}
