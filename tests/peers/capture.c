/* Frames for another program to read: tools/peers compiles and runs this, and has tshark read what it writes.
 *
 * `capture FILE` makes frames of all three encodings by the layer's calls and writes them to FILE, a capture of Ethernet (pcap). It prints
 * a line for each: what tshark has to find there. The lines are made of what was handed to the calls, by the papers' rules, and of no octet
 * that a call wrote. A size has behind it what tshark says of it, `correct` or what it takes for right.
 *
 * `capture FILE wrong` changes one bit of what a call wrote in each frame, another from frame to frame, and prints the same lines: tshark
 * must find none of them. */
#include <ahozurime.h>

#include <stdio.h>
#include <stdlib.h>
#include <string.h>

#define COUNT(array) (sizeof(array) / sizeof((array)[0]))

enum { VLAN = 5, EXPERIMENT = 0x88B5, IPV4 = 0x0800 };
enum { LAN_A = 10, LAN_B = 11 }; /* the LAN ids of a trailer that tshark sees; it passes over one with another */

typedef enum { R_TAG, HSR, PRP } Encoding;

/* One insertion. */
typedef struct {
    Encoding encoding;
    uint16_t number;
    uint8_t id; /* the path or LAN id; nothing under R-TAG */
} Step;

static FILE *capture;
static int wrong;
static unsigned long frames;

static void put_word(uint32_t word) {
    int shift;
    for (shift = 24; shift >= 0; shift -= 8) (void)putc((int)(word >> shift & 255), capture);
}

/* Addresses, the C-TAG if there is one, the type and the payload. No octet of it has 10 or 11 in its upper four bits: tshark also looks for
 * the four octets without a suffix that a trailer once was. */
static size_t make(uint8_t *octets, int tagged, unsigned type, size_t payload) {
    static const uint8_t head[] = {0x02, 0, 0, 0, 0, 0x07, 0x02, 0, 0, 0, 0, 0x01, 0x81, 0x00, 0x20, VLAN};
    static const uint8_t datagram[] = {0x45, 0, 0, 28, 0,  0, 0x40, 0, 64,   17, 0x26, 0xCF, 10, 0,
                                       0,    1, 10, 0, 0,  2, 0x30, 1, 0x30, 2,  0,    8,    0,  0};
    size_t length = tagged ? 16 : 12, i;
    memcpy(octets, head, length);
    octets[length++] = (uint8_t)(type >> 8);
    octets[length++] = (uint8_t)(type & 255);
    for (i = 0; i < payload; i++) octets[length++] = (uint8_t)((7 * i + 3) % 128);
    if (type == IPV4) { /* a datagram of 28 octets, and padding */
        memset(octets + length - payload, 0, payload);
        memcpy(octets + length - payload, datagram, sizeof datagram);
    }
    return length;
}

static uint8_t insert(const uint8_t *octets, size_t length, Step step, uint8_t *out, size_t room, size_t *result) {
    if (step.encoding == R_TAG) return ahz_insert(octets, length, step.number, out, room, result);
    if (step.encoding == HSR) return ahz_insert_hsr(octets, length, step.number, step.id, out, room, result);
    return ahz_insert_prp(octets, length, step.number, step.id, out, room, result);
}

/* Changes a bit of what that encoding put in: each in its turn, but for the R-TAG's reserved ones, which tshark does not read. */
static void damage(uint8_t *octets, size_t length, int tagged, Encoding encoding) {
    static const size_t tag_octets[] = {0, 1, 4, 5};
    static unsigned turns[3];
    const unsigned turn = turns[encoding]++;
    const size_t place = encoding == PRP ? length - 6 : tagged ? 16 : 12;
    const size_t octet = encoding == R_TAG ? tag_octets[turn / 8 % 4] : turn / 8 % 6;
    octets[place + octet] ^= (uint8_t)(1u << turn % 8);
}

static void print_size(const char *id_name, Step step, size_t size, size_t by_tshark) {
    printf(" number %u %s %u size %lu ", (unsigned)step.number, id_name, (unsigned)step.id, (unsigned long)size);
    if (size == by_tshark) printf("correct");
    else printf("WRONG, should be %lu", (unsigned long)by_tshark);
}

/* One frame: a payload of so many octets behind its type, and the insertions, one after the other. */
static void frame(int tagged, unsigned type, size_t payload, const Step *steps, size_t count) {
    uint8_t octets[AHZ_FRAME_LONGEST], out[AHZ_FRAME_LONGEST];
    size_t length = make(octets, tagged, type, payload), sizes[3] = {0, 0, 0}, i;
    size_t behind = payload; /* behind the last type: a trailer is among it, and a tag is before it */
    const Step *last[3] = {NULL, NULL, NULL};

    for (i = 0; i < count; i++) {
        const Step *step = &steps[i];
        const uint8_t answer = insert(octets, length, *step, out, sizeof out, &length);
        if (answer != AHZ_DONE) {
            fprintf(stderr, "tests/peers/capture.c: frame %lu: refused, %u\n", frames + 1, (unsigned)answer);
            exit(1);
        }
        memcpy(octets, out, length);
        last[step->encoding] = step;
        sizes[step->encoding] = behind + 6; /* "the octets after the last type, the six added ones included" */
        if (step->encoding == PRP) behind += 6;
    }
    if (last[PRP] != NULL && last[PRP]->id != LAN_A && last[PRP]->id != LAN_B) last[PRP] = NULL;
    if (wrong) {
        if (last[R_TAG] == NULL && last[HSR] == NULL && last[PRP] == NULL) return; /* nothing that tshark would read wrong */
        damage(octets, length, tagged, steps[count - 1].encoding);
    }

    put_word(0);
    put_word((uint32_t)frames++);
    put_word((uint32_t)length);
    put_word((uint32_t)length);
    (void)fwrite(octets, 1, length, capture);

    printf("frame %lu: %lu octets", frames, (unsigned long)((tagged ? 18 : 14) + payload + 6 * count));
    if (tagged) printf(", VLAN %d", VLAN);
    if (last[R_TAG] != NULL) printf(", R-TAG number 0x%04x", (unsigned)last[R_TAG]->number);
    if (last[HSR] != NULL) {
        printf(", HSR");
        print_size("path", *last[HSR], sizes[HSR], behind + 6); /* all that stands behind 892F */
    }
    if (last[PRP] != NULL) {
        printf(", PRP");
        print_size("LAN", *last[PRP], sizes[PRP], payload + 6 * count); /* a tag's six octets too, but for a C-TAG's */
    }
    printf(", type 0x%04x\n", type);
}

static size_t longest(int tagged, size_t count) {
    return (size_t)AHZ_FRAME_LONGEST - (tagged ? 18 : 14) - 6 * count;
}

static void every_length(int tagged) {
    size_t payload;
    for (payload = 0; payload <= longest(tagged, 1); payload++) {
        const uint16_t number = (uint16_t)(43 * payload);
        const Step steps[] = {{R_TAG, number, 0}, {HSR, number, (uint8_t)(payload % 16)}, {PRP, number, payload % 2 == 0 ? LAN_A : LAN_B}};
        size_t i;
        for (i = 0; i < COUNT(steps); i++) frame(tagged, EXPERIMENT, payload, &steps[i], 1);
    }
}

static void every_id(int tagged) {
    static const uint16_t numbers[] = {0, 1, 258, 65535};
    static const size_t payloads[] = {46, 1000};
    size_t i, j;
    unsigned id;
    for (i = 0; i < COUNT(payloads); i++) {
        for (j = 0; j < COUNT(numbers); j++) {
            const Step tag = {R_TAG, numbers[j], 0};
            frame(tagged, EXPERIMENT, payloads[i], &tag, 1);
            for (id = 0; id <= AHZ_PATH_ID_LAST; id++) {
                const Step path = {HSR, numbers[j], (uint8_t)id}, lan = {PRP, numbers[j], (uint8_t)id};
                frame(tagged, EXPERIMENT, payloads[i], &path, 1);
                frame(tagged, EXPERIMENT, payloads[i], &lan, 1);
            }
        }
    }
}

/* A trailer behind a tag, put in after it or before it, and a second trailer. Where two stand in one frame their numbers differ. */
static void two_in_one(int tagged) {
    static const Step pairs[][2] = {{{R_TAG, 258, 0}, {PRP, 772, LAN_A}},
                                    {{PRP, 772, LAN_B}, {R_TAG, 258, 0}},
                                    {{HSR, 258, 3}, {PRP, 772, LAN_A}},
                                    {{PRP, 772, LAN_B}, {HSR, 258, 3}},
                                    {{PRP, 258, LAN_A}, {PRP, 772, LAN_B}}};
    const size_t payloads[] = {0, 1, 5, 6, 7, 46, 256, 1000, longest(tagged, 2)};
    size_t i, j;
    for (i = 0; i < COUNT(pairs); i++) {
        for (j = 0; j < COUNT(payloads); j++) frame(tagged, EXPERIMENT, payloads[j], pairs[i], 2);
    }
}

/* A payload whose own protocol says where it ends, and padding. Not behind an R-TAG: tshark 4.0 has a fault of its own there. */
static void padded(int tagged) {
    static const Step steps[] = {{HSR, 258, 3}, {PRP, 258, LAN_B}};
    size_t i;
    for (i = 0; i < COUNT(steps); i++) frame(tagged, IPV4, 46, &steps[i], 1);
}

int main(int arguments, char **words) {
    /* a mark, version 2.4, two words that mean nothing here, the longest frame, and the number of Ethernet */
    static const uint32_t head[] = {0xA1B2C3D4, 0x00020004, 0, 0, AHZ_FRAME_LONGEST, 1};
    size_t i;
    int tagged;
    wrong = arguments == 3 && strcmp(words[2], "wrong") == 0;
    if (arguments != 2 && !wrong) {
        fprintf(stderr, "capture FILE [wrong]\n");
        return 2;
    }
    capture = fopen(words[1], "wb");
    if (capture == NULL) {
        perror(words[1]);
        return 1;
    }
    for (i = 0; i < COUNT(head); i++) put_word(head[i]);
    for (tagged = 0; tagged < 2; tagged++) {
        every_length(tagged);
        every_id(tagged);
        two_in_one(tagged);
        padded(tagged);
    }
    if (ferror(capture) != 0 || fclose(capture) != 0) {
        perror(words[1]);
        return 1;
    }
    return 0;
}
