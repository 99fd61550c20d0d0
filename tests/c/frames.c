/* The calls on frames, in each encoding of their numbers, and their typed forms: every length of every layout, the lengths about 1,522 and
 * over 65,536, trailers good and wrong, and every wrong bit, each against documents 01 and 02. For what is shared see check.h, for the
 * papers paper.h. */
#include "check.h"
#include "paper.h"

static Space first, second, third;

#define C_TAG(high, low) 0x81, 0x00, high, low
#define R_TAG(high, low) 0xF1, 0xC1, 0x00, 0x00, high, low
#define HSR_TAG(id_high, size_low, high, low) 0x89, 0x2F, id_high, size_low, high, low

/* What stands between the source address and the type. */
static const struct {
    uint8_t octets[20];
    size_t count;
} layouts[] = {
    {{0}, 0},
    {{C_TAG(0x20, 0x05)}, 4},
    {{C_TAG(0x00, 0x00)}, 4}, /* VLAN 0, 4,094 and 4,095, with and without the four bits above it */
    {{C_TAG(0xE0, 0x00)}, 4},
    {{C_TAG(0x10, 0x00)}, 4},
    {{C_TAG(0x0F, 0xFE)}, 4},
    {{C_TAG(0xFF, 0xFE)}, 4},
    {{C_TAG(0x1E, 0xFF)}, 4},
    {{C_TAG(0x0F, 0xFF)}, 4},
    {{C_TAG(0xFF, 0xFF)}, 4},
    {{R_TAG(0x01, 0x02)}, 6},
    {{R_TAG(0x00, 0x00)}, 6},
    {{R_TAG(0x80, 0x00)}, 6},
    {{R_TAG(0xFF, 0xFF)}, 6},
    {{0xF1, 0xC1, 0x7F, 0xFF, 0x01, 0x02}, 6}, /* reserved octets that are ignored */
    {{0xF1, 0xC1, 0x81, 0x00, 0xF1, 0xC1}, 6},
    {{C_TAG(0x20, 0x05), R_TAG(0x01, 0x02)}, 10},
    {{C_TAG(0xE0, 0x00), R_TAG(0x00, 0x00)}, 10},
    {{C_TAG(0xF1, 0xC1), R_TAG(0x81, 0x00)}, 10},
    {{C_TAG(0x8F, 0xFE), 0xF1, 0xC1, 0xFF, 0xFF, 0xFF, 0xFF}, 10},
    {{C_TAG(0x20, 0x05), C_TAG(0x20, 0x05)}, 8}, /* tags that are there twice */
    {{C_TAG(0x0F, 0xFF), C_TAG(0x20, 0x05)}, 8},
    {{C_TAG(0x0F, 0xFF), R_TAG(0x01, 0x02)}, 10},
    {{R_TAG(0x01, 0x02), C_TAG(0x20, 0x05)}, 10},
    {{R_TAG(0x01, 0x02), C_TAG(0x0F, 0xFF)}, 10},
    {{R_TAG(0x01, 0x02), R_TAG(0x01, 0x02)}, 12},
    {{C_TAG(0x20, 0x05), R_TAG(0x01, 0x02), R_TAG(0x01, 0x02)}, 16},
    {{C_TAG(0x20, 0x05), R_TAG(0x01, 0x02), C_TAG(0x20, 0x05)}, 14},
    {{0x88, 0xA8, 0x00, 0x05}, 4}, /* types that are no tag of ours, alone and after one */
    {{0x88, 0xA8, 0x00, 0x05, C_TAG(0x20, 0x05)}, 8},
    {{0x81, 0x01, 0x20, 0x05}, 4},
    {{0x80, 0x00, 0x20, 0x05}, 4},
    {{0x00, 0x81, 0x20, 0x05}, 4},
    {{0x01, 0x00, 0x20, 0x05}, 4},
    {{0xF1, 0xC0, 0x00, 0x00}, 4},
    {{0xF0, 0xC1, 0x00, 0x00}, 4},
    {{0xC1, 0xF1, 0x00, 0x00}, 4},
    {{C_TAG(0x20, 0x05), 0x81, 0x01}, 6},
    {{C_TAG(0x20, 0x05), 0x91, 0x00}, 6},
    {{C_TAG(0x20, 0x05), 0xF1, 0xC0}, 6},
    {{R_TAG(0x01, 0x02), 0x81, 0x08}, 8},
    {{R_TAG(0x01, 0x02), 0x71, 0xC1}, 8},
    {{R_TAG(0x01, 0x02), 0xF1, 0xC9}, 8},
    {{R_TAG(0x01, 0x02), 0x88, 0xA8}, 8},
    {{HSR_TAG(0xA0, 0x0A, 0x01, 0x02)}, 6}, /* HSR tags, whatever their size */
    {{HSR_TAG(0x00, 0x00, 0x00, 0x00)}, 6},
    {{HSR_TAG(0xF0, 0x00, 0x80, 0x00)}, 6},
    {{HSR_TAG(0x0F, 0xFF, 0xFF, 0xFF)}, 6},
    {{HSR_TAG(0x81, 0x00, 0xF1, 0xC1)}, 6},
    {{HSR_TAG(0x89, 0x2F, 0x89, 0x2F)}, 6},
    {{C_TAG(0x20, 0x05), HSR_TAG(0x10, 0x06, 0x01, 0x02)}, 10},
    {{C_TAG(0x89, 0x2F), HSR_TAG(0xF1, 0xC1, 0x81, 0x00)}, 10},
    {{0xF1, 0xC1, 0x89, 0x2F, 0x89, 0x2F}, 6},
    {{C_TAG(0x0F, 0xFF), HSR_TAG(0x10, 0x06, 0x01, 0x02)}, 10},
    {{HSR_TAG(0xA0, 0x0A, 0x01, 0x02), HSR_TAG(0xA0, 0x0A, 0x01, 0x02)}, 12}, /* two tags, of one type and mixed */
    {{HSR_TAG(0xA0, 0x0A, 0x01, 0x02), R_TAG(0x01, 0x02)}, 12},
    {{R_TAG(0x01, 0x02), HSR_TAG(0xA0, 0x0A, 0x01, 0x02)}, 12},
    {{HSR_TAG(0xA0, 0x0A, 0x01, 0x02), C_TAG(0x20, 0x05)}, 10},
    {{C_TAG(0x20, 0x05), HSR_TAG(0xA0, 0x0A, 0x01, 0x02), HSR_TAG(0xA0, 0x0A, 0x01, 0x02)}, 16},
    {{C_TAG(0x20, 0x05), HSR_TAG(0xA0, 0x0A, 0x01, 0x02), R_TAG(0x01, 0x02)}, 16},
    {{C_TAG(0x20, 0x05), R_TAG(0x01, 0x02), HSR_TAG(0xA0, 0x0A, 0x01, 0x02)}, 16},
    {{C_TAG(0x20, 0x05), HSR_TAG(0xA0, 0x0A, 0x01, 0x02), C_TAG(0x20, 0x05)}, 14},
    {{0x89, 0x2E, 0xA0, 0x0A}, 4}, /* types that are no HSR tag, alone and after a tag; and the suffix as a type */
    {{0x88, 0x2F, 0xA0, 0x0A}, 4},
    {{0x2F, 0x89, 0xA0, 0x0A}, 4},
    {{0x88, 0xFB, 0xA0, 0x0A}, 4},
    {{C_TAG(0x20, 0x05), 0x89, 0x2D}, 6},
    {{HSR_TAG(0xA0, 0x0A, 0x01, 0x02), 0x88, 0xFB}, 8},
    {{HSR_TAG(0xA0, 0x0A, 0x01, 0x02), 0x81, 0x01}, 8},
    {{HSR_TAG(0xA0, 0x0A, 0x01, 0x02), 0xF1, 0xC0}, 8},
    {{HSR_TAG(0xA0, 0x0A, 0x01, 0x02), 0x89, 0x3F}, 8},
    {{R_TAG(0x01, 0x02), 0x09, 0x2F}, 8},
};
static const uint8_t addresses[][12] = {
    {0x02, 0x00, 0x00, 0x00, 0x00, 0x07, 0x02, 0x00, 0x00, 0x00, 0x00, 0x01},
    {0xFE, 0xDC, 0xBA, 0x98, 0x76, 0x54, 0x81, 0x00, 0xF1, 0xC1, 0xE7, 0xFF},
};
/* A type and the start of the payload, which looks like tags. */
static const uint8_t bodies[][6] = {{0x88, 0xB5, 0x81, 0x00, 0xF1, 0xC1}, {0x00, 0x01, 0xF1, 0xC1, 0x81, 0x00}};

static uint8_t frame[LONGEST_LENT], expected[LONGEST_LENT];

static void make(size_t layout, size_t which) {
    size_t i;
    for (i = 0; i < sizeof frame; i++) frame[i] = (uint8_t)(1 + i % 251 + i / 1000);
    memcpy(frame, addresses[which], 12);
    memcpy(frame + 12, layouts[layout].octets, layouts[layout].count);
    memcpy(frame + 12 + layouts[layout].count, bodies[which], sizeof bodies[which]);
}

/* ---- Each call in the encoding that is asked for; an R-TAG has no id ---- */

static uint8_t read_by(int encoding, const uint8_t *octets, size_t count, uint64_t *header, size_t words) {
    return encoding == BY_RTAG  ? ahz_read(octets, count, header, words)
           : encoding == BY_HSR ? ahz_read_hsr(octets, count, header, words)
                                : ahz_read_prp(octets, count, header, words);
}

static uint8_t header_by(int encoding, ahz_header_t *header, const uint8_t *octets, size_t count) {
    return encoding == BY_RTAG  ? ahz_header_read(header, octets, count)
           : encoding == BY_HSR ? ahz_header_read_hsr(header, octets, count)
                                : ahz_header_read_prp(header, octets, count);
}

static uint8_t insert_by(int encoding, const uint8_t *octets, size_t count, unsigned number, unsigned id, uint8_t *out, size_t room,
                         size_t *length) {
    const uint16_t n = (uint16_t)number;
    return encoding == BY_RTAG  ? ahz_insert(octets, count, n, out, room, length)
           : encoding == BY_HSR ? ahz_insert_hsr(octets, count, n, (uint8_t)id, out, room, length)
                                : ahz_insert_prp(octets, count, n, (uint8_t)id, out, room, length);
}

static uint8_t remove_by(int encoding, const uint8_t *octets, size_t count, uint8_t *out, size_t room, size_t *length) {
    return encoding == BY_RTAG  ? ahz_remove(octets, count, out, room, length)
           : encoding == BY_HSR ? ahz_remove_hsr(octets, count, out, room, length)
                                : ahz_remove_prp(octets, count, out, room, length);
}

/* ---- The frame against the papers ---- */

static void expect_reading(int encoding, size_t octets) {
    const PaperFrame paper = paper_read(encoding, frame, octets);
    const size_t words = encoding == BY_RTAG ? 8 : 9;
    const size_t rooms[] = {words, 0, words - 1, words + 3};
    size_t i;
    for (i = 0; i < COUNT(rooms); i++) {
        const uint8_t answer = paper.refusal == 0 && rooms[i] < words ? 8 : paper.refusal;
        const uint8_t *lent = lend(&first, frame, octets);
        uint64_t *header = (uint64_t *)lend_aligned(&second, NULL, rooms[i] * 8);
        EXPECT(read_by(encoding, lent, octets, header, rooms[i]) == answer);
        EXPECT(kept_but(&first, 0) && holds(&second, paper.words, answer == AHZ_DONE ? words * 8 : 0));
    }
    {
        const uint8_t *lent = lend(&first, frame, octets);
        ahz_header_t *header = (ahz_header_t *)lend_aligned(&second, NULL, sizeof(ahz_header_t));
        EXPECT(ahz_payload(lent, octets) == (paper.refusal != 0 ? 0 : octets - paper.words[7]));
        EXPECT(header_by(encoding, header, lent, octets) == paper.refusal);
        EXPECT(kept_but(&first, 0) && holds(&second, paper.words, paper.refusal == 0 ? 72 : 0));
        if (paper.refusal == 0) {
            uint16_t vlan = 0x5A5A, number = 0x5A5A;
            EXPECT(ahz_header_destination(header) == paper.words[0] && ahz_header_source(header) == paper.words[1]);
            EXPECT(ahz_header_type(header) == paper.words[6] && ahz_header_payload(header) == paper.words[7]);
            EXPECT(ahz_header_tagged(header, &vlan) == (int)paper.words[2]);
            EXPECT(vlan == (paper.words[2] == 1 ? paper.words[3] : 0x5A5A));
            EXPECT(ahz_header_numbered(header, &number) == (int)paper.words[4]);
            EXPECT(number == (paper.words[4] == 1 ? paper.words[5] : 0x5A5A));
            EXPECT(ahz_header_path_id(header) == paper.words[8]);
        }
    }
}

/* One insertion of that number and id, or a removal where the number is -1, into an output of so many octets. */
static void expect_retagged(int encoding, size_t octets, long number, unsigned id, size_t room, uint8_t answer, size_t result) {
    const uint8_t *lent = lend(&first, frame, octets);
    uint8_t *out = lend(&second, NULL, room);
    size_t *length = (size_t *)lend_aligned(&third, NULL, sizeof(size_t));
    if (number < 0) EXPECT(remove_by(encoding, lent, octets, out, room, length) == answer);
    else EXPECT(insert_by(encoding, lent, octets, (unsigned)number, id, out, room, length) == answer);
    EXPECT(kept_but(&first, 0) && holds(&second, expected, answer == AHZ_DONE ? result : 0));
    EXPECT(holds(&third, &result, answer == AHZ_DONE ? sizeof result : 0));
}

static void expect_retagging(int encoding, size_t octets, long number, unsigned id) {
    const uint8_t refusal = number < 0 ? paper_remove(encoding, frame, octets, expected)
                                       : paper_insert(encoding, frame, octets, (unsigned)number, id, expected);
    const size_t result = number < 0 ? octets - 6 : octets + 6; /* of no use where the paper refuses */
    if (refusal != 0) {
        expect_retagged(encoding, octets, number, id, 0, refusal, 0);
        expect_retagged(encoding, octets, number, id, 1600, refusal, 0);
        return;
    }
    expect_retagged(encoding, octets, number, id, 0, AHZ_R_OUTPUT_SHORT, result);
    expect_retagged(encoding, octets, number, id, result - 1, AHZ_R_OUTPUT_SHORT, result);
    expect_retagged(encoding, octets, number, id, result, AHZ_DONE, result);
    expect_retagged(encoding, octets, number, id, 1600, AHZ_DONE, result);
}

/* In every encoding; the last two are of ids that no frame has, and tell nothing of an R-TAG. */
static void expect_all(size_t octets) {
    static const struct {
        long number;
        unsigned id;
    } changes[] = {{-1, 0}, {258, 10}, {0, 0}, {0x8000, 15}, {65535, 8}, {258, 16}, {0x0A5F, 255}};
    size_t i;
    int encoding;
    for (encoding = 0; encoding < ENCODINGS; encoding++) {
        expect_reading(encoding, octets);
        for (i = 0; i < COUNT(changes) - (encoding == BY_RTAG ? 2 : 0); i++) {
            expect_retagging(encoding, octets, changes[i].number, changes[i].id);
        }
    }
}

static void every_layout(void) {
    static const size_t longer[] = {60, 255, 256, 257, 1000, 1515, 1516, 1517, 1518, 1521, 1522, 1523, 1530, 2048};
    size_t layout, which, octets, i;
    for (layout = 0; layout < COUNT(layouts); layout++) {
        for (which = 0; which < COUNT(addresses); which++) {
            make(layout, which);
            for (octets = 0; octets < 12 + layouts[layout].count + 6; octets++) expect_all(octets);
            for (i = 0; i < COUNT(longer); i++) expect_all(longer[i]);
        }
    }
}

/* Lengths that 16 bits do not hold, and that would be good ones without the bits above. */
static void beyond_16_bits(void) {
    size_t layout;
    int encoding;
    for (layout = 0; layout < COUNT(layouts); layout += 5) {
        make(layout, 1);
        for (encoding = 0; encoding < ENCODINGS; encoding++) {
            EXPECT(paper_read(encoding, frame, 65536 + 20).refusal == 2);
            expect_reading(encoding, 65536 + 20);
            expect_retagging(encoding, 65536 + 100, 258, 10);
            expect_retagging(encoding, 65536 + 1522, -1, 0);
        }
    }
}

/* ---- Trailers ---- */

/* Behind every layout, with payloads of every length about 6 and some longer ones: the trailer for this payload, and such as are wrong in
 * one thing. Where the payload has fewer than 6 octets, they reach into what is in front of it. */
static void every_trailer(void) {
    static const size_t payloads[] = {0, 1, 2, 3, 4, 5, 6, 7, 8, 12, 46, 250, 255, 256, 261, 262, 1490, 1502, 1508, 1509};
    size_t layout, i, kind, k;
    int encoding;
    for (layout = 0; layout < COUNT(layouts); layout++) {
        for (i = 0; i < COUNT(payloads); i++) {
            const size_t size = payloads[i], octets = 12 + layouts[layout].count + 2 + size;
            const size_t trailers[][3] = {
                {258, 0xA000 + size, 0x88FB},     {0, size, 0x88FB},                {0x88FB, 0xF000 + size, 0x88FB},
                {258, 0xA000 + size + 1, 0x88FB}, {258, 0xA000 + size - 1, 0x88FB}, {258, 0xA000 + size - 6, 0x88FB}, /* of another size */
                {258, 0xA000 + size + 6, 0x88FB}, {258, 0xA000 + octets, 0x88FB},   {258, 0xA800 ^ size, 0x88FB},
                {258, size * 16 + 10, 0x88FB}, /* id and size exchanged */
                {258, 0xA000 + size, 0xFB88},     {258, 0xA000 + size, 0x88FA},     {258, 0xA000 + size, 0x08FB}, /* another suffix */
                {258, 0xA000 + size, 0x892F},
                {0xA000 + size, 258, 0x88FB},     {0x88FB, 0xA000 + size, 258},     {0x892F, 0xA000 + size, 258}, /* another order */
            };
            uint8_t *last = frame + octets - 6, were[6];
            make(layout, i % 2);
            memcpy(were, last, 6);
            for (kind = 0; kind < COUNT(trailers); kind++) {
                for (k = 0; k < 3; k++) {
                    last[2 * k] = (uint8_t)(trailers[kind][k] >> 8);
                    last[2 * k + 1] = (uint8_t)trailers[kind][k];
                }
                for (encoding = 0; encoding < ENCODINGS; encoding++) {
                    expect_reading(encoding, octets);
                    expect_retagging(encoding, octets, -1, 0);
                    expect_retagging(encoding, octets, 258, 10);
                }
                memcpy(last, were, 6);
            }
        }
    }
}

/* Every wrong bit of a frame with a C-TAG, each tag or none, and a trailer. */
static void damage(void) {
    static const size_t of[] = {1, 16, 50}; /* the layouts, with a C-TAG each */
    size_t i, bit;
    int encoding;
    for (i = 0; i < COUNT(of); i++) {
        size_t octets = 12 + layouts[of[i]].count + 2 + 14;
        make(of[i], 0);
        EXPECT(paper_insert(BY_PRP, frame, octets, 0x7FFE, 11, expected) == 0);
        octets += 6;
        memcpy(frame, expected, octets);
        for (bit = 0; bit < 8 * octets; bit++) {
            frame[bit / 8] ^= (uint8_t)(1u << bit % 8);
            for (encoding = 0; encoding < ENCODINGS; encoding++) {
                expect_reading(encoding, octets);
                expect_retagging(encoding, octets, -1, 0);
                expect_retagging(encoding, octets, 65535, 15);
            }
            frame[bit / 8] ^= (uint8_t)(1u << bit % 8);
        }
    }
}

/* ---- What the papers say of both directions ---- */

/* "Put in, then taken off, gives the first frame", and meanwhile it reads as the first but for number and id, and for where a payload
 * behind a tag starts. */
static void round_trip(void) {
    static const size_t lengths[] = {20, 24, 26, 60, 1516};
    uint8_t sent[AHZ_FRAME_LONGEST], back[AHZ_FRAME_LONGEST];
    size_t layout, i, length = 0;
    unsigned id;
    int encoding;
    for (layout = 0; layout < COUNT(layouts); layout++) {
        make(layout, 0);
        for (i = 0; i < COUNT(lengths); i++) {
            for (encoding = 0; encoding < ENCODINGS; encoding++) {
                for (id = 0; id < 16; id++) {
                    const unsigned number = 0x1111 * id;
                    uint64_t before[9] = {0}, after[9] = {0};
                    if (read_by(encoding, frame, lengths[i], before, 9) != AHZ_DONE) continue;
                    if (insert_by(encoding, frame, lengths[i], number, id, sent, sizeof sent, &length) == AHZ_R_TAG_THERE) continue;
                    EXPECT(length == lengths[i] + 6 && read_by(encoding, sent, length, after, 9) == AHZ_DONE);
                    EXPECT(after[AHZ_H_NUMBERED] == 1 && after[AHZ_H_NUMBER] == number);
                    EXPECT(after[AHZ_H_PATH_ID] == (encoding == BY_RTAG ? 0 : id));
                    EXPECT(after[AHZ_H_PAYLOAD] == before[AHZ_H_PAYLOAD] + (encoding == BY_PRP ? 0 : 6));
                    before[AHZ_H_NUMBERED] = after[AHZ_H_NUMBERED];
                    before[AHZ_H_NUMBER] = after[AHZ_H_NUMBER];
                    before[AHZ_H_PATH_ID] = after[AHZ_H_PATH_ID];
                    before[AHZ_H_PAYLOAD] = after[AHZ_H_PAYLOAD];
                    EXPECT(memcmp(before, after, sizeof before) == 0);
                    EXPECT(remove_by(encoding, sent, length, back, sizeof back, &length) == AHZ_DONE);
                    EXPECT(length == lengths[i] && memcmp(back, frame, length) == 0);
                }
            }
        }
    }
}

/* ---- The papers' own cases, as they write them ---- */

static void edges(void) {
    static const struct {
        size_t layout, octets;
        uint8_t refusal;
    } cases[] = {{0, 13, 1},  {0, 14, 0},  {0, 1522, 0}, {0, 1523, 2}, {1, 17, 3}, {1, 18, 0},
                 {10, 19, 3}, {10, 20, 0}, {16, 23, 3},  {16, 24, 0},  {9, 18, 5}, {9, 17, 3}};
    static const uint8_t number_258[] = {0xF1, 0xC1, 0x00, 0x00, 0x01, 0x02};
    size_t i, length = 0;
    uint8_t *out;
    for (i = 0; i < COUNT(cases); i++) {
        uint64_t header[AHZ_H_WORDS];
        make(cases[i].layout, 0);
        EXPECT(ahz_read(frame, cases[i].octets, header, AHZ_H_WORDS) == cases[i].refusal);
    }
    make(0, 0);
    out = lend(&first, NULL, 1600);
    EXPECT(ahz_insert(frame, 1517, 258, out, 1600, &length) == AHZ_R_RESULT_LONG && kept_but(&first, 0));
    EXPECT(ahz_insert(frame, 1516, 258, out, 1600, &length) == AHZ_DONE && length == 1522 && memcmp(out + 12, number_258, 6) == 0);
}

static const uint8_t c_tag[] = {C_TAG(0x20, 0x05)}, last_vlan[] = {C_TAG(0x2F, 0xFF)}, r_tag[] = {R_TAG(0x01, 0x02)},
                     hsr_tag[] = {HSR_TAG(0xA0, 0x0A, 0x01, 0x02)};

/* A frame of two tags or fewer, a type and so many octets of payload; answers its length. */
static size_t frame_of(const uint8_t *one, size_t one_octets, const uint8_t *other, size_t other_octets, size_t payload) {
    static const uint8_t type[] = {0x88, 0xB5};
    size_t i, at = 12;
    memcpy(frame, addresses[0], 12);
    memcpy(frame + at, one, one_octets);
    memcpy(frame + (at += one_octets), other, other_octets);
    memcpy(frame + (at += other_octets), type, 2);
    at += 2;
    for (i = 0; i < payload; i++) frame[at + i] = (uint8_t)(0x31 + i);
    return at + payload;
}

/* The six octets of each encoding, with and without a C-TAG: number 258, id 10 and a payload of 4, which makes a size of 10; then number
 * 65,534, id 5 and the longest payload, 1,502, which makes one of 1,508. */
static void worked_octets(void) {
    static const uint8_t few[][6] = {{0xF1, 0xC1, 0x00, 0x00, 0x01, 0x02},
                                     {0x89, 0x2F, 0xA0, 0x0A, 0x01, 0x02},
                                     {0x01, 0x02, 0xA0, 0x0A, 0x88, 0xFB}};
    static const uint8_t many[][6] = {{0xF1, 0xC1, 0x00, 0x00, 0xFF, 0xFE},
                                      {0x89, 0x2F, 0x55, 0xE4, 0xFF, 0xFE},
                                      {0xFF, 0xFE, 0x55, 0xE4, 0x88, 0xFB}};
    uint8_t out[AHZ_FRAME_LONGEST];
    size_t length = 0, octets, at;
    int encoding, tagged;
    for (encoding = 0; encoding < ENCODINGS; encoding++) {
        for (tagged = 0; tagged < 2; tagged++) {
            octets = frame_of(c_tag, tagged ? 4 : 0, r_tag, 0, 4);
            at = encoding == BY_PRP ? octets : tagged ? 16 : 12;
            EXPECT(insert_by(encoding, frame, octets, 258, 10, out, sizeof out, &length) == AHZ_DONE && length == octets + 6);
            EXPECT(memcmp(out, frame, at) == 0 && memcmp(out + at, few[encoding], 6) == 0);
            EXPECT(memcmp(out + at + 6, frame + at, octets - at) == 0);
        }
        octets = frame_of(c_tag, 0, r_tag, 0, 1502);
        at = encoding == BY_PRP ? octets : 12;
        EXPECT(insert_by(encoding, frame, octets, 65534, 5, out, sizeof out, &length) == AHZ_DONE && length == 1522);
        EXPECT(memcmp(out, frame, at) == 0 && memcmp(out + at, many[encoding], 6) == 0);
        EXPECT(memcmp(out + at + 6, frame + at, octets - at) == 0);
    }
}

/* In every encoding: 3 where the type behind either tag is cut, and 4 for a second tag of whichever type. */
static void either_tag(void) {
    static const uint8_t *const tags[] = {r_tag, hsr_tag, c_tag};
    static const size_t octets_of[] = {6, 6, 4};
    uint64_t header[9];
    uint8_t out[64];
    size_t octets, one, other, length = 0;
    int encoding;
    for (encoding = 0; encoding < ENCODINGS; encoding++) {
        for (one = 0; one < 2; one++) {
            (void)frame_of(tags[one], 6, r_tag, 0, 8);
            EXPECT(read_by(encoding, frame, 19, header, 9) == AHZ_R_TAG_CUT && read_by(encoding, frame, 20, header, 9) == AHZ_DONE);
            EXPECT(ahz_payload(frame, 19) == 0 && ahz_payload(frame, 20) == 0 && ahz_payload(frame, 21) == 1);
            (void)frame_of(c_tag, 4, tags[one], 6, 8);
            EXPECT(read_by(encoding, frame, 23, header, 9) == AHZ_R_TAG_CUT && read_by(encoding, frame, 24, header, 9) == AHZ_DONE);
            EXPECT(header[AHZ_H_TYPE] == 0x88B5 && header[AHZ_H_PAYLOAD] == 24);
            for (other = 0; other < 3; other++) {
                octets = frame_of(tags[one], 6, tags[other], octets_of[other], 20);
                EXPECT(read_by(encoding, frame, octets, header, 9) == AHZ_R_TAG_TWICE && ahz_payload(frame, octets) == 0);
                EXPECT(insert_by(encoding, frame, octets, 258, 16, out, sizeof out, &length) == AHZ_R_TAG_TWICE);
                EXPECT(remove_by(encoding, frame, octets, out, sizeof out, &length) == AHZ_R_TAG_TWICE);
            }
        }
        octets = frame_of(c_tag, 4, c_tag, 4, 20);
        EXPECT(read_by(encoding, frame, octets, header, 9) == AHZ_R_TAG_TWICE);
    }
}

/* "A path or LAN id over 15 is refusal 37, after 5 and before 6. PRP insertion never gives 6." And 6 is for either tag. */
static void ids(void) {
    static const unsigned over[] = {16, 17, 128, 255};
    size_t octets, i;
    int encoding;
    for (encoding = BY_HSR; encoding <= BY_PRP; encoding++) {
        octets = frame_of(c_tag, 4, r_tag, 0, 4);
        EXPECT(paper_insert(encoding, frame, octets, 258, 15, expected) == 0);
        expect_retagged(encoding, octets, 258, 15, octets + 6, AHZ_DONE, octets + 6);
        for (i = 0; i < COUNT(over); i++) {
            octets = frame_of(c_tag, 4, r_tag, 0, 4);
            expect_retagged(encoding, octets, 258, over[i], 1600, AHZ_R_PATH_ID, 0);
            expect_retagged(encoding, octets, 258, over[i], 0, AHZ_R_PATH_ID, 0); /* before 8 */
            octets = frame_of(c_tag, 4, r_tag, 6, 4);
            expect_retagged(encoding, octets, 258, over[i], 1600, AHZ_R_PATH_ID, 0); /* before 6 */
            octets = frame_of(c_tag, 0, hsr_tag, 6, 4);
            expect_retagged(encoding, octets, 258, over[i], 1600, AHZ_R_PATH_ID, 0);
            octets = frame_of(c_tag, 0, r_tag, 0, 1503);
            expect_retagged(encoding, octets, 258, over[i], 1600, AHZ_R_PATH_ID, 0); /* before 7 */
            octets = frame_of(last_vlan, 4, r_tag, 0, 4);
            expect_retagged(encoding, octets, 258, over[i], 1600, AHZ_R_VLAN, 0); /* after 5 */
            expect_retagged(encoding, 17, 258, over[i], 1600, AHZ_R_TAG_CUT, 0);
            expect_retagged(encoding, 13, 258, over[i], 1600, AHZ_R_FRAME_SHORT, 0);
            expect_retagged(encoding, 1523, 258, over[i], 1600, AHZ_R_FRAME_LONG, 0);
        }
    }
    for (encoding = 0; encoding < ENCODINGS; encoding++) {
        octets = frame_of(c_tag, 4, r_tag, 6, 4);
        (void)paper_insert(encoding, frame, octets, 258, 15, expected);
        expect_retagged(encoding, octets, 258, 15, octets + 6, encoding == BY_PRP ? AHZ_DONE : AHZ_R_TAG_THERE, octets + 6);
        octets = frame_of(c_tag, 4, hsr_tag, 6, 4);
        (void)paper_insert(encoding, frame, octets, 258, 15, expected);
        expect_retagged(encoding, octets, 258, 15, octets + 6, encoding == BY_PRP ? AHZ_DONE : AHZ_R_TAG_THERE, octets + 6);
        octets = frame_of(c_tag, 0, r_tag, 0, 1503); /* 1,517 */
        expect_retagged(encoding, octets, 258, 15, 1600, AHZ_R_RESULT_LONG, 0);
        octets = frame_of(c_tag, 0, r_tag, 0, 1502); /* 1,516 */
        expect_retagged(encoding, octets, 258, 15, 1521, AHZ_R_OUTPUT_SHORT, 0);
    }
}

/* Which number is whose: the tag in front of each frame and the trailer behind it have numbers of their own. */
static void own_numbers(void) {
    static const uint8_t trailer[] = {0x0B, 0xB8, 0xB0, 0x0A, 0x88, 0xFB}; /* 3,000, LAN id 11, size 10 */
    static const uint8_t *const tags[] = {c_tag, r_tag, hsr_tag};
    uint64_t header[9];
    uint8_t out[64];
    size_t octets, tag, length = 0;
    for (tag = 0; tag < 3; tag++) { /* with 0 there is none */
        octets = frame_of(c_tag, 4, tags[tag], tag == 0 ? 0 : 6, 10);
        memcpy(frame + octets - 6, trailer, 6);
        EXPECT(ahz_read(frame, octets, header, 9) == AHZ_DONE);
        EXPECT(header[AHZ_H_NUMBERED] == (tag == 1) && header[AHZ_H_NUMBER] == (tag == 1 ? 258 : 0));
        EXPECT(ahz_read_hsr(frame, octets, header, 9) == AHZ_DONE && header[AHZ_H_PATH_ID] == (tag == 2 ? 10 : 0));
        EXPECT(header[AHZ_H_NUMBERED] == (tag == 2) && header[AHZ_H_NUMBER] == (tag == 2 ? 258 : 0));
        EXPECT(ahz_read_prp(frame, octets, header, 9) == AHZ_DONE && header[AHZ_H_PATH_ID] == 11);
        EXPECT(header[AHZ_H_NUMBERED] == 1 && header[AHZ_H_NUMBER] == 3000);
        EXPECT(header[AHZ_H_TYPE] == 0x88B5 && header[AHZ_H_PAYLOAD] == octets - 10 && ahz_payload(frame, octets) == 10);
        EXPECT(ahz_remove(frame, octets, out, 64, &length) == (tag == 1 ? AHZ_DONE : AHZ_R_NO_TAG));
        EXPECT(ahz_remove_hsr(frame, octets, out, 64, &length) == (tag == 2 ? AHZ_DONE : AHZ_R_NO_TAG));
        EXPECT(ahz_remove_prp(frame, octets, out, 64, &length) == AHZ_DONE && length == octets - 6);
        EXPECT(memcmp(out, frame, length) == 0 && ahz_remove_prp(out, length, out + length, 0, &length) == AHZ_R_NO_TAG);
    }
}

/* A trailer needs a payload of 6, that size and 88 FB: what is wrong in one of these has no number, and nothing is taken off. */
static void trailers(void) {
    static const struct {
        size_t payload;
        uint8_t six[6];
        uint64_t numbered;
    } cases[] = {{5, {0x01, 0x02, 0xA0, 0x05, 0x88, 0xFB}, 0},  {6, {0x01, 0x02, 0xA0, 0x06, 0x88, 0xFB}, 1},
                 {5, {0x01, 0x02, 0xA0, 0x06, 0x88, 0xFB}, 0},  {6, {0x01, 0x02, 0xA0, 0x05, 0x88, 0xFB}, 0},
                 {6, {0x01, 0x02, 0xA0, 0x07, 0x88, 0xFB}, 0},  {6, {0x01, 0x02, 0xA0, 0x00, 0x88, 0xFB}, 0},
                 {10, {0x01, 0x02, 0xA0, 0x0A, 0x88, 0xFB}, 1}, {10, {0x01, 0x02, 0xA0, 0x04, 0x88, 0xFB}, 0},
                 {10, {0x01, 0x02, 0xA8, 0x0A, 0x88, 0xFB}, 0}, {10, {0x01, 0x02, 0x00, 0xAA, 0x88, 0xFB}, 0},
                 {10, {0x01, 0x02, 0xA0, 0x0A, 0x88, 0xFA}, 0}, {10, {0x01, 0x02, 0xA0, 0x0A, 0x89, 0xFB}, 0},
                 {10, {0x01, 0x02, 0xA0, 0x0A, 0xFB, 0x88}, 0}};
    uint64_t header[9];
    uint8_t out[64];
    size_t i, octets, length = 0;
    for (i = 0; i < COUNT(cases); i++) {
        const int numbered = cases[i].numbered == 1;
        octets = frame_of(c_tag, 4, r_tag, 6, cases[i].payload);
        memcpy(frame + octets - 6, cases[i].six, 6);
        EXPECT(ahz_read_prp(frame, octets, header, 9) == AHZ_DONE && header[AHZ_H_NUMBERED] == cases[i].numbered);
        EXPECT(header[AHZ_H_NUMBER] == (numbered ? 258 : 0) && header[AHZ_H_PATH_ID] == (numbered ? 10 : 0));
        EXPECT(ahz_remove_prp(frame, octets, out, 64, &length) == (numbered ? AHZ_DONE : AHZ_R_NO_TAG));
    }

    /* Padded behind its trailer it has no number; padded in front of it, it has one. */
    octets = frame_of(c_tag, 4, r_tag, 0, 4);
    EXPECT(ahz_insert_prp(frame, octets, 258, 10, out, 64, &length) == AHZ_DONE);
    memset(out + length, 0, 60 - length);
    EXPECT(ahz_read_prp(out, 60, header, 9) == AHZ_DONE && header[AHZ_H_NUMBERED] == 0);
    memset(frame + octets, 0, 54 - octets);
    EXPECT(ahz_insert_prp(frame, 54, 258, 10, out, 64, &length) == AHZ_DONE && length == 60);
    EXPECT(ahz_read_prp(out, 60, header, 9) == AHZ_DONE && header[AHZ_H_NUMBERED] == 1 && header[AHZ_H_NUMBER] == 258);

    /* Two trailers are put in one behind the other, and taken off the last one first. */
    memcpy(frame, out, 60);
    EXPECT(ahz_insert_prp(frame, 60, 7, 3, expected, 66, &length) == AHZ_DONE && length == 66);
    EXPECT(ahz_read_prp(expected, 66, header, 9) == AHZ_DONE && header[AHZ_H_NUMBER] == 7 && header[AHZ_H_PATH_ID] == 3);
    EXPECT(ahz_remove_prp(expected, 66, out, 64, &length) == AHZ_DONE && length == 60 && memcmp(out, frame, 60) == 0);
}

int main(void) {
    static void (*const parts[])(void) = {edges,        worked_octets,  either_tag,    ids,    own_numbers, trailers,
                                          every_layout, beyond_16_bits, every_trailer, damage, round_trip};
    return run_tests("tests/c/frames.c", parts, COUNT(parts));
}
