/* A charge journal over two paths, from end to end. A head numbers its journal frames, puts the R-TAG in and the check behind them, which
 * these rigs leave on. Path A brings every frame; path B loses one, delays one and repeats one. A second stream brings charge reports, and
 * of these path B brings none. A third is a partner's, whose head speaks PRP: the number stands in a trailer behind the payload. The
 * receiver tries each frame's check and takes it off, looks the stream up, lets each number through once, takes the tag or trailer off and
 * walks the cards. Among the frames are one of each stream without a number, one of no stream, one that is cut and one with a bit changed
 * on its way. tools/c compiles and runs this, and compares what it prints with journal.out. */
#include <ahozurime.h>

#include <inttypes.h>
#include <stdio.h>
#include <string.h>

enum { JOURNAL, REPORTS, PARTNER, STREAMS }; /* the handles, each the place of its stream's state */
enum { JOURNAL_FRAMES = 5, REPORT_FRAMES = 3, PARTNER_FRAMES = 2 };
enum { LAN_A = 10, LAN_B = 11 }; /* the LAN ids of the two paths */

typedef struct {
    uint8_t octets[AHZ_FCS_LONGEST];
    size_t length;
} Frame;

/* Frames to 02:00:00:00:00:07 are the journal's; frames from 02:00:00:00:00:02 that have no VLAN are reports; frames from 02:00:00:00:00:03
 * are the partner's. */
static const uint8_t table[] = {
    AHZ_KIND_DESTINATION, 0x02, 0, 0, 0, 0, 0x07, AHZ_CHOICE_ALL,      0, AHZ_VLAN_ANY, 0, JOURNAL,
    AHZ_KIND_SOURCE,      0x02, 0, 0, 0, 0, 0x02, AHZ_CHOICE_PRIORITY, 0, AHZ_VLAN_ANY, 0, REPORTS,
    AHZ_KIND_SOURCE,      0x02, 0, 0, 0, 0, 0x03, AHZ_CHOICE_ALL,      0, AHZ_VLAN_ANY, 0, PARTNER,
};

/* A refusal has a number and a sentence. Of a frame or card from the wire it is what the layer is for, and what was refused is dropped; of
 * anything else it is a mistake in this program, which then ends with 1. */
static int refused(const char *call, uint8_t answer) {
    printf("%s refused: %u, %s\n", call, (unsigned)answer, ahz_refusal_sentence(answer));
    return 1;
}

static Frame frame_of(const uint8_t *head, size_t head_octets, const uint8_t *cards, size_t cards_octets) {
    Frame frame;
    memcpy(frame.octets, head, head_octets);
    memcpy(frame.octets + head_octets, cards, cards_octets);
    frame.length = head_octets + cards_octets;
    return frame;
}

/* A journal frame: VLAN 5, three cards and an end. */
static Frame journal(unsigned entry) {
    static const uint8_t head[] = {0x02, 0, 0, 0, 0, 0x07, 0x02, 0, 0, 0, 0, 0x01, 0x81, 0x00, 0x00, 0x05, 0x88, 0xB5};
    const uint8_t cards[] = {AHZ_CARD_FLUSH_ORDER, 0, 0, 0, (uint8_t)(entry + 1), AHZ_CARD_RAW_CODE, 0, (uint8_t)(10 * (entry + 1)),
                             AHZ_CARD_MILLIVOLTS, 0x0F, (uint8_t)(0xA0 + entry), AHZ_CARD_END};
    return frame_of(head, sizeof head, cards, sizeof cards);
}

/* A report: no C-TAG, and one card, behind which the frame ends. */
static Frame report(unsigned entry) {
    static const uint8_t head[] = {0x02, 0, 0, 0, 0, 0x09, 0x02, 0, 0, 0, 0, 0x02, 0x88, 0xB5};
    const uint8_t cards[] = {AHZ_CARD_MILLIVOLTS, 0x03, (uint8_t)(0xE8 + entry)};
    return frame_of(head, sizeof head, cards, sizeof cards);
}

/* A partner's frame: one card, and zeros up to the 54 octets that are 60 with the trailer, the first of which ends the cards. It is padded
 * before the trailer is put in: this stands last, and its size counts the padding. */
static Frame partner(unsigned entry) {
    static const uint8_t head[] = {0x02, 0, 0, 0, 0, 0x09, 0x02, 0, 0, 0, 0, 0x03, 0x88, 0xB5};
    const uint8_t cards[40] = {AHZ_CARD_RAW_CODE, 0, (uint8_t)(100 + entry)};
    return frame_of(head, sizeof head, cards, sizeof cards);
}

/* Puts the stream's next number into a frame: 0 where the program can go on. A generator is a type of its own, so that it is never sent
 * as a number itself. */
static int put_number(Frame *frame, ahz_generator_t *generator) {
    const uint16_t number = ahz_generator_next(generator);
    Frame sent;
    const uint8_t answer = ahz_insert(frame->octets, frame->length, number, sent.octets, sizeof sent.octets, &sent.length);
    if (answer != AHZ_DONE) return refused("ahz_insert", answer);
    *frame = sent;
    return 0;
}

/* The same under PRP, where both paths get the frame under one number, each with the id of its LAN. */
static int put_trailer(Frame *frame, uint16_t number, uint8_t lan_id) {
    Frame sent;
    const uint8_t answer = ahz_insert_prp(frame->octets, frame->length, number, lan_id, sent.octets, sizeof sent.octets, &sent.length);
    if (answer != AHZ_DONE) return refused("ahz_insert_prp", answer);
    *frame = sent;
    return 0;
}

/* Puts the check behind a frame: 0 where the program can go on. */
static int put_check(Frame *frame) {
    Frame sent;
    const uint8_t answer = ahz_append_fcs(frame->octets, frame->length, sent.octets, sizeof sent.octets, &sent.length);
    if (answer != AHZ_DONE) return refused("ahz_append_fcs", answer);
    *frame = sent;
    return 0;
}

/* Each card's number has its unit: a raw code that is taken for millivolts, or for blocks, does not compile. */
static void walk(const uint8_t *payload, size_t octets) {
    static const ahz_calibration_t calibration = {.gain = 0.25, .offset = 0.5};
    for (;;) {
        const ahz_card_t card = ahz_card_next(payload, octets);
        ahz_volts_t volts;
        const uint8_t reading = ahz_card_volts(payload, octets, calibration, &volts);
        size_t rest;
        if (card.answer == AHZ_END) {
            printf("    end\n");
            return;
        }
        if (ahz_is_refusal(reading)) { /* 20 and 21, as the card's answer, or 22 */
            printf("    ");
            (void)refused("ahz_volts", reading);
            return;
        }
        if (card.answer == AHZ_FLUSH_ORDER) printf("    flush order, blocks %" PRIu32 "\n", card.blocks.blocks);
        if (card.answer == AHZ_RAW_CODE) printf("    raw code %u: %.3f V\n", (unsigned)card.raw_code.code, volts.volts);
        if (card.answer == AHZ_MILLIVOLTS) printf("    millivolts %u: %.3f V\n", (unsigned)card.millivolts.mv, volts.volts);
        rest = ahz_rest_octets(payload, octets);
        payload += octets - rest;
        octets = rest;
    }
}

/* The encoding is the program's to know for each stream: in it the frame is read, and the number taken off. */
static uint8_t read_number(uint16_t handle, ahz_header_t *header, const uint8_t *octets, size_t length) {
    return handle == PARTNER ? ahz_header_read_prp(header, octets, length) : ahz_header_read(header, octets, length);
}

static uint8_t take_number_off(uint16_t handle, const uint8_t *octets, size_t length, Frame *bare) {
    return handle == PARTNER ? ahz_remove_prp(octets, length, bare->octets, sizeof bare->octets, &bare->length)
                             : ahz_remove(octets, length, bare->octets, sizeof bare->octets, &bare->length);
}

/* One frame from the wire: 0 where the program can go on. */
static int arrive(char path, const Frame *frame, ahz_state_t *states) {
    ahz_header_t header;
    Frame bare;
    uint16_t handle = STREAMS, number = 0;
    uint8_t answer, verdict;
    size_t length, payload;
    int numbered;

    printf("path %c, ", path);
    answer = ahz_check_fcs(frame->octets, frame->length);
    if (answer != AHZ_DONE) {
        (void)refused("ahz_check_fcs", answer);
        return 0;
    }
    length = ahz_without_fcs(frame->octets, frame->length); /* all other calls take a frame without its check */
    answer = ahz_lookup(table, sizeof table, frame->octets, length, &handle);
    if (answer == AHZ_NO_STREAM) {
        printf("no stream\n");
        return 0;
    }
    if (answer != AHZ_STREAM) { /* the table was found good at the start, so it is the frame that is refused */
        (void)refused("ahz_lookup", answer);
        return 0;
    }
    if (handle >= STREAMS) {
        printf("handle %u is not one of the streams: the table is wrong\n", (unsigned)handle);
        return 1;
    }

    /* The handle picks the encoding and the state. The header says whether there is a number to be heard: a frame without one is not
     * number 0. */
    answer = read_number(handle, &header, frame->octets, length);
    if (answer != AHZ_DONE) return refused("the reading", answer);
    numbered = ahz_header_numbered(&header, &number);
    if (numbered) {
        printf("stream %u, number %u", (unsigned)handle, (unsigned)number);
        if (handle == PARTNER) printf(" by LAN %u", (unsigned)ahz_header_path_id(&header));
        verdict = ahz_state_numbered(&states[handle], number);
    } else {
        printf("stream %u, no number", (unsigned)handle);
        verdict = ahz_state_tagless(&states[handle]);
    }
    printf(": ");
    if (ahz_is_refusal(verdict)) return refused("the state", verdict);
    if (verdict == AHZ_DISCARD) {
        printf("discard\n");
        return 0;
    }
    if (numbered) {
        answer = take_number_off(handle, frame->octets, length, &bare);
        if (answer != AHZ_DONE) return refused("the removal", answer);
    } else {
        bare = *frame;
        bare.length = length;
    }
    payload = ahz_payload(bare.octets, bare.length);
    printf("pass, %u octets\n", (unsigned)bare.length);
    walk(bare.octets + bare.length - payload, payload);
    return 0;
}

/* The latent test has three answers: no error, an error, and a refusal, which says nothing of the paths. */
static int test_paths(const ahz_state_t *state) {
    const uint8_t answer = ahz_state_latent_test(state);
    if (ahz_is_refusal(answer)) return refused("ahz_latent_test", answer);
    printf("  latent test: %s\n", answer == AHZ_LATENT_OK ? "ok" : "error: a path is silent, or brings too much");
    return 0;
}

/* Silence: the reset comes with the last tick that is left, so after the full ticks of the timeout at the latest. */
static int wait_for_reset(ahz_state_t *state) {
    const ahz_setup_t setup = ahz_state_setup(state);
    const ahz_ticks_t full = ahz_full_ticks(setup.timeout, setup.rate);
    uint64_t tick;
    for (tick = 1; tick <= full.ticks; tick++) {
        const uint8_t answer = ahz_state_tick(state);
        if (ahz_is_refusal(answer)) return refused("ahz_tick", answer);
        if (answer == AHZ_RESET) {
            printf("  %" PRIu32 " ms of silence: reset with tick %" PRIu64 "\n", setup.timeout.ms, tick);
            return 0;
        }
    }
    printf("  no reset: the timer stands, since no packet has passed\n");
    return 0;
}

/* Lost counts places of the window, and not frames: each place that left it before a packet passed there. At the first packet the places
 * before its number are open, history - 1 of them, and they leave as the window moves on. So a run that missed nothing counts lost too.
 * Before-first counts these alone, so lost less before-first lies above the first packet. Match has no window, and counts neither. */
static void print_counters(const ahz_state_t *state) {
    const ahz_counters_t n = ahz_state_counters(state);
    printf("  passed=%" PRIu64 " discarded=%" PRIu64 " order=%" PRIu64 " rogue=%" PRIu64, n.passed, n.discarded, n.order, n.rogue);
    printf(" lost=%" PRIu64 " tagless=%" PRIu64 " resets=%" PRIu64 " latent-resets=%" PRIu64 " before-first=%" PRIu64 "\n", n.lost,
           n.tagless, n.resets, n.latent_resets, n.before_first);
    if (ahz_state_setup(state).rule == AHZ_RULE_VECTOR) printf("  lost above the first packet: %" PRIu64 "\n", n.lost - n.before_first);
}

/* The setups, constants as the table is. Two paths are merged here, so the use is sequence: only a packet that passes restarts the timer.
 * For one path alone, before they are merged, it would be individual. */
static const ahz_setup_t setups[STREAMS] = {
    {.rule = AHZ_RULE_VECTOR, .taken = AHZ_NOT_TAKEN, .use = AHZ_USE_SEQUENCE, .history = 8, .timeout = AHZ_MS(100),
     .rate = AHZ_PER_SECOND(100), .paths = 2, .difference = 2},
    {.rule = AHZ_RULE_MATCH, .taken = AHZ_TAKEN, .use = AHZ_USE_SEQUENCE, .history = 8, .timeout = AHZ_MS(25), .rate = AHZ_PER_SECOND(100),
     .paths = 2, .difference = 2},
    {.rule = AHZ_RULE_VECTOR, .taken = AHZ_NOT_TAKEN, .use = AHZ_USE_SEQUENCE, .history = 8, .timeout = AHZ_MS(50),
     .rate = AHZ_PER_SECOND(100), .paths = 2, .difference = 2},
};

int main(void) {
    ahz_state_t states[STREAMS];
    Frame j[JOURNAL_FRAMES], r[REPORT_FRAMES], by_a[PARTNER_FRAMES], by_b[PARTNER_FRAMES];
    Frame no_number = journal(9), no_number_either = report(9), stranger = journal(9), cut = journal(9), changed, padded = partner(9);
    Frame *const others[] = {&no_number, &no_number_either, &stranger, &cut, &padded};
    const struct {
        char path;
        const Frame *frame;
    } arrivals[] = {{'B', &j[0]},    {'B', &j[0]},      {'A', &j[0]},    {'A', &j[1]},   {'B', &j[3]},     {'A', &r[0]},
                    {'B', &j[2]},    {'A', &no_number}, {'A', &j[2]},    {'A', &r[1]},   {'B', &stranger}, {'A', &j[3]},
                    {'B', &j[4]},    {'A', &j[4]},      {'B', &cut},     {'A', &r[2]},   {'B', &changed},  {'A', &no_number_either},
                    {'A', &by_a[0]}, {'B', &by_b[0]},   {'B', &by_b[1]}, {'A', &padded}, {'A', &by_a[1]}};
    ahz_generator_t journal_generator = ahz_generator_fresh(), report_generator = ahz_generator_fresh();
    ahz_generator_t partner_generator = ahz_generator_fresh();
    uint8_t answer;
    unsigned i;

    if (!ahz_version_fits()) {
        printf("the archive is not one for version %d.%d\n", AHZ_VERSION_MAJOR, AHZ_VERSION_MINOR);
        return 1;
    }
    answer = ahz_check_table(table, sizeof table);
    if (answer != AHZ_DONE) return refused("ahz_check_table", answer);
    for (i = 0; i < STREAMS; i++) {
        answer = ahz_state_fresh(&states[i], setups[i]);
        if (answer != AHZ_DONE) return refused("ahz_fresh_v4", answer);
    }
    for (i = 0; i < JOURNAL_FRAMES; i++) {
        j[i] = journal(i);
        if (put_number(&j[i], &journal_generator) != 0 || put_check(&j[i]) != 0) return 1;
    }
    for (i = 0; i < REPORT_FRAMES; i++) {
        r[i] = report(i);
        if (put_number(&r[i], &report_generator) != 0 || put_check(&r[i]) != 0) return 1;
    }
    for (i = 0; i < PARTNER_FRAMES; i++) {
        const uint16_t number = ahz_generator_next(&partner_generator);
        by_a[i] = by_b[i] = partner(i);
        if (put_trailer(&by_a[i], number, LAN_A) != 0 || put_check(&by_a[i]) != 0) return 1;
        if (put_trailer(&by_b[i], number, LAN_B) != 0 || put_check(&by_b[i]) != 0) return 1;
    }
    stranger.octets[5] = 0x08; /* the last octet of its destination */
    cut.length = 16; /* behind its C-TAG, by its sender: so its check is good, and the frame is not */
    if (put_trailer(&padded, ahz_generator_next(&partner_generator), LAN_A) != 0) return 1;
    padded.octets[padded.length++] = 0; /* behind its trailer, which then is none */
    for (i = 0; i < sizeof others / sizeof others[0]; i++) {
        if (put_check(others[i]) != 0) return 1;
    }
    changed = j[4];
    changed.octets[21] ^= 0x01; /* its number, 4, is 5 now: without the check it would pass once more */

    for (i = 0; i < sizeof arrivals / sizeof arrivals[0]; i++) {
        if (arrive(arrivals[i].path, arrivals[i].frame, states) != 0) return 1;
    }
    for (i = 0; i < STREAMS; i++) {
        printf("stream %u\n", i);
        if (test_paths(&states[i]) != 0 || wait_for_reset(&states[i]) != 0) return 1;
        print_counters(&states[i]);
    }
    return 0;
}
