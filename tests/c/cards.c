/* The calls on charge cards, and their typed forms: cards of every kind, cut everywhere and with long rests, and the volts of all codes,
 * bit by bit, against document 01. To be compiled so that a multiplication and an addition are not joined into one operation. */
#include "check.h"
#include "paper.h"

static Space first, second;
static uint8_t payload[LONGEST_LENT];

static void expect_card(size_t octets) {
    const PaperCard paper = paper_card(payload, octets);
    const uint8_t *lent = lend(&first, payload, octets);
    uint32_t *value = (uint32_t *)lend_aligned(&second, NULL, sizeof(uint32_t));
    const int carries = paper.answer == AHZ_FLUSH_ORDER || paper.answer == AHZ_RAW_CODE || paper.answer == AHZ_MILLIVOLTS;
    ahz_card_t card;
    EXPECT(ahz_card(lent, octets, value) == paper.answer && holds(&second, &paper.value, carries ? sizeof paper.value : 0));
    EXPECT(ahz_card_octets(lent, octets) == paper.octets && ahz_rest_octets(lent, octets) == paper.rest);
    card = ahz_card_next(lent, octets);
    EXPECT(card.answer == paper.answer && card.blocks.blocks == (paper.answer == AHZ_FLUSH_ORDER ? paper.value : 0));
    EXPECT(card.raw_code.code == (paper.answer == AHZ_RAW_CODE ? paper.value : 0));
    EXPECT(card.millivolts.mv == (paper.answer == AHZ_MILLIVOLTS ? paper.value : 0));
    EXPECT(kept_but(&first, 0));
}

static void expect_volts(size_t octets, double gain, double offset) {
    const uint8_t *lent = lend(&first, payload, octets);
    double expected = 0, *volts = (double *)lend_aligned(&second, NULL, sizeof expected);
    const uint8_t answer = paper_volts(payload, octets, gain, offset, &expected);
    const size_t written = answer == AHZ_FROM_RAW_CODE || answer == AHZ_FROM_MILLIVOLTS ? sizeof expected : 0;
    ahz_calibration_t calibration;
    EXPECT(ahz_volts(lent, octets, gain, offset, volts) == answer);
    EXPECT(kept_but(&first, 0) && holds(&second, &expected, written));
    calibration.gain = gain;
    calibration.offset = offset;
    volts = (double *)lend_aligned(&second, NULL, sizeof expected);
    EXPECT(ahz_card_volts(lent, octets, calibration, (ahz_volts_t *)(void *)volts) == answer);
    EXPECT(kept_but(&first, 0) && holds(&second, &expected, written));
}

static void put_card(unsigned kind, uint32_t value) {
    const size_t number = kind == 0x10 ? 4 : 2;
    size_t i;
    payload[0] = (uint8_t)kind;
    for (i = 0; i < number; i++) payload[1 + i] = (uint8_t)(value >> 8 * (number - 1 - i));
}

static void cards(void) {
    static const uint32_t values[] = {0, 1, 10, 255, 256, 0x0102, 0x7FFF, 0x8000, 0xFFFF, 0x01020304, 0x7FFFFFFF, 0x80000000, 0xFFFFFFFF};
    static const size_t lengths[] = {100, 255, 256, 257, 258, 259, 260, 261, 300, 1508, 65535, 65536, 65536 + 2, 65536 + 5, 65536 + 300};
    unsigned kind;
    size_t octets, i;
    for (i = 0; i < sizeof payload; i++) payload[i] = (uint8_t)(0x10 + i % 5);
    for (kind = 0; kind < 256; kind++) {
        for (i = 0; i < COUNT(values); i++) {
            put_card(kind, values[i]);
            for (octets = 0; octets <= 8; octets++) expect_card(octets);
        }
    }
    for (kind = 0x0F; kind <= 0x13; kind++) {
        put_card(kind, 0x80018001);
        for (i = 0; i < COUNT(lengths); i++) expect_card(lengths[i]);
        for (i = 0; i < COUNT(lengths); i++) expect_volts(lengths[i], 0.25, 0.5);
    }
    payload[0] = 0;
    expect_card(300);
}

static void every_code(void) {
    static const double scales[][2] = {{0.25, 0.5}, {0.1, -1.0}, {1.0 / 3, 99.99}, {0.7, 0.1}};
    uint32_t code;
    for (code = 0; code < 65536; code++) {
        const double *scale = scales[code % COUNT(scales)];
        put_card(0x12, code);
        expect_volts(3, scale[0], scale[1]);
        put_card(0x11, code);
        expect_volts(3, scale[0], scale[1]);
    }
}

static void calibrations(void) {
    const volatile double zero = 0.0;
    const double infinity = 1.0 / zero, nan = zero / zero, least = 4.9406564584124654e-324;
    const double above_one = 1.0 + 1.0 / 4503599627370496.0, above_hundred = 100.0 + 1.0 / 70368744177664.0;
    const double gains[] = {1.0,   above_one, 1.0 - 1.0 / 9007199254740992.0, least,      -least, 0.0,   -0.0,      nan,  -nan,
                            infinity, -infinity, 0.25,                        -0.25,      0.1,    1.0 / 3, 2.2250738585072014e-308,
                            2.0,   1e300,     0.99,                           -1.0};
    const double offsets[] = {0.0, -0.0, 0.5, -1.0, 100.0, -100.0, above_hundred, -above_hundred, 99.99, nan, -nan, infinity, -infinity,
                              least, -least, 1e-300, 1e300, -0.1};
    static const struct {
        unsigned kind;
        uint32_t value;
        size_t octets;
    } payloads[] = {{0x11, 0, 3}, {0x11, 1, 3}, {0x11, 10, 3}, {0x11, 32767, 3}, {0x11, 32768, 3}, {0x11, 65535, 9}, {0x11, 10, 2},
                    {0x11, 3, 1}, {0x12, 0, 3}, {0x12, 1, 3}, {0x12, 4000, 3}, {0x12, 32768, 3}, {0x12, 65535, 300}, {0x12, 1, 2},
                    {0x10, 1, 5}, {0x10, 1, 4}, {0x00, 0, 3}, {0x11, 1, 0}, {0x13, 1, 3}, {0x01, 1, 1}, {0xFF, 1, 9}};
    size_t i, g, o;
    EXPECT(above_one > 1.0 && above_hundred > 100.0 && least > 0.0);
    for (i = 0; i < COUNT(payloads); i++) {
        put_card(payloads[i].kind, payloads[i].value);
        for (g = 0; g < COUNT(gains); g++) {
            for (o = 0; o < COUNT(offsets); o++) expect_volts(payloads[i].octets, gains[g], offsets[o]);
        }
    }
}

/* Numbers that the paper writes, and the zero of a raw code: plus zero, whatever the offset's sign. */
static void worked(void) {
    static const uint8_t raw_10[] = {0x11, 0x00, 0x0A}, raw_0[] = {0x11, 0x00, 0x00};
    const double zero = 0.0;
    double volts = 7.0;
    EXPECT(ahz_volts(raw_10, sizeof raw_10, 0.25, 0.5, &volts) == AHZ_FROM_RAW_CODE && volts == 3.0);
    EXPECT(ahz_volts(raw_0, sizeof raw_0, 0.25, -0.0, &volts) == AHZ_FROM_RAW_CODE && memcmp(&volts, &zero, sizeof zero) == 0);
    EXPECT(ahz_volts(raw_0, sizeof raw_0, 0.25, 0.0, &volts) == AHZ_FROM_RAW_CODE && memcmp(&volts, &zero, sizeof zero) == 0);
    EXPECT(ahz_volts(raw_10, sizeof raw_10, 0.1, -1.0, &volts) == AHZ_FROM_RAW_CODE && volts == 0.0); /* 10 x 0.1 rounds to 1 */
}

int main(void) {
    static void (*const parts[])(void) = {worked, cards, every_code, calibrations};
    return run_tests("tests/c/cards.c", parts, COUNT(parts));
}
