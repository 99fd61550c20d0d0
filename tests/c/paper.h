/* Document 01 as small functions, with document 02's CR 1, IP streams, CR 2, the use, CR 4, the longer history, CR 5, HSR and PRP, CR 6,
 * the frame check sequence, and CR 7, holes before the first packet. They say what is expected of the layer, are written from the papers,
 * and are slow and plain: bits are counted and divided one by one, and marks are an array. None of them calls the layer. */
#ifndef PAPER_H
#define PAPER_H

#include <ahozurime.h>

#include <stdio.h>
#include <string.h>

static inline uint32_t big_endian(const uint8_t *octets, size_t count) {
    uint32_t number = 0;
    size_t i;
    for (i = 0; i < count; i++) number = number * 256 + octets[i];
    return number;
}

/* ---- Reading a frame ---- */

/* What carries a stream's numbers, "chosen per stream". */
enum { BY_RTAG, BY_HSR, BY_PRP, ENCODINGS };

typedef struct {
    uint8_t refusal;
    uint64_t words[9]; /* destination, source, tagged, VLAN, numbered, number, type, start of the payload, path or LAN id */
    size_t tag;        /* where an R-TAG or an HSR tag is, or would be */
    int tag_there;     /* whether one of them is */
} PaperFrame;

/* "For every stream 892F is now a tag: 3, 4 and 6 cover both, mixed too. Number and 9 go by the stream's own encoding." */
static inline PaperFrame paper_read(int encoding, const uint8_t *frame, size_t octets) {
    PaperFrame got = {0, {0, 0, 0, 0, 0, 0, 0, 0, 0}, 12, 0};
    size_t at = 12, payload;
    if (octets < 14) got.refusal = 1;
    else if (octets > 1522) got.refusal = 2;
    if (got.refusal != 0) return got;
    got.words[0] = ((uint64_t)big_endian(frame, 2) << 32) + big_endian(frame + 2, 4);
    got.words[1] = ((uint64_t)big_endian(frame + 6, 2) << 32) + big_endian(frame + 8, 4);
    if (big_endian(frame + at, 2) == 0x8100) {
        if (octets < at + 4 + 2) got.refusal = 3;
        else if (big_endian(frame + at + 2, 2) % 4096 == 4095) got.refusal = 5;
        else if (big_endian(frame + at + 4, 2) == 0x8100) got.refusal = 4;
        if (got.refusal != 0) return got;
        got.words[2] = 1;
        got.words[3] = big_endian(frame + at + 2, 2) % 4096;
        at += 4;
    }
    got.tag = at;
    got.tag_there = big_endian(frame + at, 2) == 0xF1C1 || big_endian(frame + at, 2) == 0x892F;
    if (got.tag_there) {
        const uint32_t type = big_endian(frame + at, 2), next = octets < at + 6 + 2 ? 0 : big_endian(frame + at + 6, 2);
        if (octets < at + 6 + 2) got.refusal = 3;
        else if (next == 0x8100 || next == 0xF1C1 || next == 0x892F) got.refusal = 4;
        if (got.refusal != 0) return got;
        got.words[4] = (encoding == BY_RTAG && type == 0xF1C1) || (encoding == BY_HSR && type == 0x892F);
        if (got.words[4] == 1) got.words[5] = big_endian(frame + at + 4, 2);
        if (got.words[4] == 1 && encoding == BY_HSR) got.words[8] = big_endian(frame + at + 2, 2) / 4096;
        at += 6;
    }
    got.words[6] = big_endian(frame + at, 2);
    got.words[7] = at + 2;
    payload = octets - at - 2;
    /* "A PRP payload under 6 octets, of another size or without the suffix is a packet without a number." */
    if (encoding == BY_PRP && payload >= 6 && big_endian(frame + octets - 4, 2) % 4096 == payload &&
        big_endian(frame + octets - 2, 2) == 0x88FB) {
        got.words[4] = 1;
        got.words[5] = big_endian(frame + octets - 6, 2);
        got.words[8] = big_endian(frame + octets - 4, 2) / 4096;
    }
    return got;
}

/* "Reserved octets are written zero"; "the HSR tag (892F, path id 4 bits, size 12, number 16 ..) and the PRP trailer (number 16, LAN id 4,
 * size 12, 88FB ..)". */
static inline void paper_six(int encoding, unsigned number, unsigned id, size_t size, uint8_t *six) {
    const size_t first = encoding == BY_RTAG ? 0xF1C1 : encoding == BY_HSR ? 0x892F : number;
    const size_t second = encoding == BY_RTAG ? 0 : id * 4096 + size;
    const size_t third = encoding == BY_PRP ? 0x88FB : number;
    const size_t words[] = {first, second, third};
    size_t i;
    for (i = 0; i < 6; i++) six[i] = (uint8_t)(i % 2 == 0 ? words[i / 2] / 256 : words[i / 2] % 256);
}

/* 0 and the frame with its number in out, or the refusal, but for 8. An R-TAG has no id. */
static inline uint8_t paper_insert(int encoding, const uint8_t *frame, size_t octets, unsigned number, unsigned id, uint8_t *out) {
    const PaperFrame got = paper_read(encoding, frame, octets);
    const size_t at = encoding == BY_PRP ? octets : got.tag;
    if (got.refusal != 0) return got.refusal;
    if (encoding != BY_RTAG && id > 15) return 37;
    if (encoding != BY_PRP && got.tag_there) return 6;
    if (octets + 6 > 1522) return 7;
    memcpy(out, frame, at);
    /* "Size counts the octets after the last type, the six added ones included." */
    paper_six(encoding, number, id, octets - (size_t)got.words[7] + 6, out + at);
    memcpy(out + at + 6, frame + at, octets - at);
    return 0;
}

/* 0 and the frame without its number in out, or the refusal, but for 8. */
static inline uint8_t paper_remove(int encoding, const uint8_t *frame, size_t octets, uint8_t *out) {
    const PaperFrame got = paper_read(encoding, frame, octets);
    const size_t at = encoding == BY_PRP ? octets - 6 : got.tag;
    if (got.refusal != 0) return got.refusal;
    if (got.words[4] == 0) return 9;
    memcpy(out, frame, at);
    memcpy(out + at, frame + at + 6, octets - at - 6);
    return 0;
}

/* ---- The frame check sequence ---- */

/* IEEE 802.3, 3.2.9: the octets as a polynomial, the low bit of each octet first, and 32 zeros behind them; the first 32 bits complemented;
 * the remainder of a division by 04C11DB7 and x^32, complemented. Of this the coefficient of x^31 is the first bit, so the low bit of the
 * check's low octet. */
static inline uint32_t paper_crc32(const uint8_t *octets, size_t count) {
    const size_t bits = 8 * count;
    uint32_t remainder = 0, crc = 0;
    size_t i;
    for (i = 0; i < bits + 32; i++) {
        const uint32_t of_x32 = remainder >> 31;
        uint32_t bit = i < bits ? octets[i / 8] >> i % 8 & 1u : 0;
        if (i < 32) bit ^= 1;
        remainder = remainder << 1 | bit;
        if (of_x32 == 1) remainder ^= 0x04C11DB7;
    }
    remainder = ~remainder;
    for (i = 0; i < 32; i++) crc |= (remainder >> (31 - i) & 1) << i;
    return crc;
}

/* "The check stands low octet first." */
static inline void paper_fcs(const uint8_t *octets, size_t count, uint8_t *check) {
    const uint32_t crc = paper_crc32(octets, count);
    size_t i;
    for (i = 0; i < 4; i++) check[i] = (uint8_t)(crc >> 8 * i);
}

/* "A mismatch is refusal 28, a frame under 18 octets with its check is 1, above 1,526 is 2." */
static inline uint8_t paper_check_fcs(const uint8_t *frame, size_t octets) {
    uint8_t check[4];
    if (octets < 18) return 1;
    if (octets > 1526) return 2;
    paper_fcs(frame, octets - 4, check);
    return memcmp(frame + octets - 4, check, 4) == 0 ? 0 : 28;
}

/* ---- Stream tables ---- */

/* The octets of an entry with its kind; 0 where this is none. */
static inline size_t paper_entry(uint8_t kind) {
    if (kind == 1 || kind == 2) return 1 + 11;
    return kind == 4 ? 1 + 25 : 0;
}

static inline uint8_t paper_check_table(const uint8_t *table, size_t octets) {
    size_t at, entry = 0;
    for (at = 0; at < octets; at += paper_entry(table[at])) {
        const uint8_t kind = table[at];
        if (++entry == 257) return 13;
        if (paper_entry(kind) == 0) return 10;
        if (octets - at < paper_entry(kind)) return 11;
        if (table[at + 7] < 1 || table[at + 7] > 3 || big_endian(table + at + 8, 2) > 4094) return 12;
        /* "DSCP 1 (0 to 63, 255 ignores), next protocol 1 (1 none, 2 UDP, 3 TCP, 4 SCTP)." */
        if (kind == 4 && table[at + 18] > 63 && table[at + 18] != 255) return 12;
        if (kind == 4 && (table[at + 19] < 1 || table[at + 19] > 4)) return 12;
    }
    return 0;
}

/* Whether what an entry of kind 4 asks is so in the payload of a frame of that last type. */
static inline int paper_ip(const uint8_t *entry, uint64_t type, const uint8_t *payload, size_t octets) {
    static const uint8_t protocols[] = {17, 6, 132};
    const uint32_t source = big_endian(entry + 10, 4), destination = big_endian(entry + 14, 4);
    const uint32_t from = big_endian(entry + 20, 2), to = big_endian(entry + 22, 2);
    const unsigned dscp = entry[18], next = entry[19];
    size_t header;
    if (type != 0x0800 || octets == 0) return 0;
    header = payload[0] % 16u * 4;
    if (payload[0] / 16 != 4 || header < 20 || octets < header) return 0; /* bad, or cut */
    if (source != 0 && source != big_endian(payload + 12, 4)) return 0;
    if (destination != 0 && destination != big_endian(payload + 16, 4)) return 0;
    if (dscp != 255 && dscp != payload[1] / 4u) return 0;
    if (next == 1) return 1; /* "With none, protocol and ports aren't compared." */
    if (payload[9] != protocols[next - 2]) return 0;
    if (from == 0 && to == 0) return 1;
    /* "A later fragment where a port is asked", and "that plus four octets where a port is asked". */
    if (big_endian(payload + 6, 2) % 8192 != 0 || octets < header + 4) return 0;
    return (from == 0 || from == big_endian(payload + header, 2)) && (to == 0 || to == big_endian(payload + header + 2, 2));
}

static inline uint8_t paper_lookup(const uint8_t *table, size_t table_octets, const uint8_t *frame, size_t octets, uint16_t *handle) {
    const uint8_t bad = paper_check_table(table, table_octets);
    const PaperFrame got = paper_read(BY_RTAG, frame, octets);
    size_t at;
    if (bad != 0) return bad;
    if (got.refusal != 0) return got.refusal;
    for (at = 0; at < table_octets; at += paper_entry(table[at])) {
        const uint8_t kind = table[at], choice = table[at + 7];
        const uint32_t vlan = big_endian(table + at + 8, 2);
        const size_t payload = (size_t)got.words[7];
        const int allowed = choice == 3 || (choice == 1 && got.words[2] == 1) || (choice == 2 && got.words[3] == 0);
        if (memcmp(table + at + 1, kind == 2 ? frame + 6 : frame, 6) == 0 && allowed && (vlan == 0 || vlan == got.words[3]) &&
            (kind != 4 || paper_ip(table + at, got.words[6], frame + payload, octets - payload))) {
            *handle = (uint16_t)big_endian(table + at + paper_entry(kind) - 2, 2);
            return AHZ_STREAM;
        }
    }
    return AHZ_NO_STREAM;
}

/* ---- Numbering and recovery ---- */

typedef struct {
    uint64_t rule, taken, use, history, ms, rate, paths, difference;
} PaperSetup;

typedef struct {
    PaperSetup setup;
    uint64_t newest, marks[512], take_any, left;
    uint64_t first; /* the first packet's place: 1 where it is the newest, one more for each place below it, 0 outside the window */
    uint64_t passed, discarded, order, rogue, lost, tagless, resets, latent_resets, before_first, base;
} PaperState;

static inline uint64_t paper_ticks(uint64_t ms, uint64_t rate) {
    return (ms * rate + 999) / 1000;
}

static inline uint8_t paper_check_setup(PaperSetup setup) {
    if (setup.rule > 1) return 15;
    if (setup.taken > 1) return 27;
    if (setup.use > 1) return 27;
    if (setup.history < 2 || setup.history > 512) return 16; /* "Raise H to 512; refusal 16 and the sound state follow." */
    if (setup.ms < 1 || setup.ms > 3600000) return 17;
    if (setup.rate < 1 || setup.rate > 10000) return 18;
    if (setup.paths < 2 || setup.paths > 8) return 19;
    return 0;
}

/* "A reset starts that anew, the counters stay." */
static inline void paper_clear(PaperState *state) {
    memset(state->marks, 0, sizeof state->marks);
    state->first = 0;
    state->newest = 65535;
    state->take_any = 1;
    state->left = 0;
}

static inline PaperState paper_fresh(PaperSetup setup) {
    PaperState state;
    memset(&state, 0, sizeof state);
    state.setup = setup;
    paper_clear(&state);
    return state;
}

/* Where each word of a state is kept; not the format, 0, nor the marks, 10 to 17. */
static inline uint64_t *paper_field(PaperState *state, unsigned word) {
    uint64_t *const before[] = {&state->setup.rule, &state->setup.taken, &state->setup.use, &state->setup.history, &state->setup.ms,
                                &state->setup.rate, &state->setup.paths, &state->setup.difference, &state->newest};
    uint64_t *const behind[] = {&state->first, &state->take_any, &state->left, &state->passed, &state->discarded, &state->order,
                                &state->rogue, &state->lost, &state->tagless, &state->resets, &state->latent_resets, &state->before_first,
                                &state->base};
    if (word == 0 || (word >= 10 && word <= 17)) return NULL;
    return word < 10 ? before[word - 1] : behind[word - 18];
}

static inline void paper_words(PaperState *state, uint64_t *words) {
    unsigned k;
    words[0] = 0x41485A04;
    for (k = 10; k <= 17; k++) words[k] = 0;
    for (k = 0; k < 512; k++) words[10 + k / 64] += state->marks[k] << k % 64;
    for (k = 0; k < 31; k++) {
        if (paper_field(state, k) != NULL) words[k] = *paper_field(state, k);
    }
}

/* The state of those words: 0 where they are not those of a sound one. */
static inline int paper_state(const uint64_t *words, PaperState *state) {
    uint64_t any_mark = 0;
    unsigned k;
    for (k = 0; k < 31; k++) {
        if (paper_field(state, k) != NULL) *paper_field(state, k) = words[k];
    }
    for (k = 0; k < 512; k++) {
        state->marks[k] = words[10 + k / 64] >> k % 64 & 1;
        any_mark |= state->marks[k];
    }
    if (words[0] != 0x41485A04 || paper_check_setup(state->setup) != 0 || state->setup.difference > UINT32_MAX) return 0;
    for (k = 0; k < 512; k++) {
        if (k >= state->setup.history && state->marks[k] == 1) return 0;
    }
    if (state->newest > 65535 || state->take_any > 1) return 0;
    if (state->take_any == 1 && (state->newest != 65535 || any_mark)) return 0;
    if (state->take_any == 0 && state->left < 1) return 0;
    if (state->take_any == 0 && state->setup.rule == 0 && state->marks[0] == 0) return 0;
    if (state->setup.rule == 1 && any_mark) return 0;
    if (state->first > 0) { /* "a first place kept as still in the window has its mark set, and take-any and match keep none" */
        if (state->take_any == 1 || state->setup.rule == 1 || state->first > state->setup.history) return 0;
        if (state->marks[state->first - 1] == 0) return 0;
    }
    return state->left <= paper_ticks(state->setup.ms, state->setup.rate);
}

/* "In individual use a discarded packet also restarts the timer; in sequence use nothing changes." */
static inline uint8_t paper_verdict(PaperState *state, int passes) {
    if (passes) state->passed++;
    else state->discarded++;
    if (passes || state->setup.use == 1) state->left = paper_ticks(state->setup.ms, state->setup.rate);
    return passes ? AHZ_PASS : AHZ_DISCARD;
}

/* One place further: the last of the window leaves it. "Keep lost as the standard has it and add a ninth counter, before-first, for those
 * of them below the first packet's place." */
static inline void paper_move(PaperState *state) {
    const uint64_t last = state->setup.history;
    uint64_t k;
    if (state->marks[last - 1] == 0) {
        state->lost++;
        if (state->first > 0 && state->first < last) state->before_first++;
    }
    for (k = last - 1; k > 0; k--) state->marks[k] = state->marks[k - 1];
    state->marks[0] = 0;
    if (state->first > 0) state->first = state->first == last ? 0 : state->first + 1;
}

static inline uint8_t paper_numbered(PaperState *state, uint16_t number) {
    const int history = (int)state->setup.history;
    int d = (int)((number - state->newest) % 65536), moves;
    if (d >= 32768) d -= 65536;
    if (state->take_any == 1) {
        state->newest = number;
        state->marks[0] = state->setup.rule == 0;
        state->first = state->setup.rule == 0;
        state->take_any = 0;
        return paper_verdict(state, 1);
    }
    if (state->setup.rule == 1) {
        if (d == 0) return paper_verdict(state, 0);
        if (d != 1) state->order++;
        state->newest = number;
        return paper_verdict(state, 1);
    }
    if (d >= history || d <= -history) {
        state->rogue++;
        return paper_verdict(state, 0);
    }
    if (d <= 0) {
        if (state->marks[-d] == 1) return paper_verdict(state, 0);
        state->marks[-d] = 1;
        state->order++;
        return paper_verdict(state, 1);
    }
    if (d != 1) state->order++;
    for (moves = 0; moves < d; moves++) paper_move(state);
    state->marks[0] = 1;
    state->newest = number;
    return paper_verdict(state, 1);
}

static inline uint64_t paper_figure(const PaperState *state) {
    return state->passed * (state->setup.paths - 1) - state->discarded;
}

/* One event by the tape's kind of it. */
static inline uint8_t paper_event(PaperState *state, uint8_t kind, uint16_t number) {
    uint64_t apart;
    switch (kind) {
    case 1: return paper_numbered(state, number);
    case 2:
        state->tagless++;
        return paper_verdict(state, state->setup.taken == 1);
    case 3:
        if (state->left != 1) {
            if (state->left > 0) state->left--;
            return AHZ_TICK;
        }
        paper_clear(state);
        state->resets++;
        return AHZ_RESET;
    case 4:
        paper_clear(state);
        state->resets++;
        return AHZ_DONE;
    case 5:
        state->base = paper_figure(state);
        state->latent_resets++;
        return AHZ_DONE;
    default:
        apart = state->base - paper_figure(state);
        if (apart >> 63 == 1) apart = 0 - apart;
        return apart > state->setup.difference ? AHZ_LATENT_ERROR : AHZ_LATENT_OK;
    }
}

/* ---- Charge cards ---- */

typedef struct {
    uint8_t answer;
    uint32_t value;
    size_t octets, rest;
} PaperCard;

static inline PaperCard paper_card(const uint8_t *payload, size_t octets) {
    PaperCard card = {AHZ_END, 0, 0, 0};
    const uint8_t kind = octets == 0 ? 0 : payload[0];
    const size_t number = kind == 0x10 ? 4 : 2;
    if (kind == 0) return card;
    if (kind < 0x10 || kind > 0x12) card.answer = 20;
    else if (octets < 1 + number) card.answer = 21;
    if (card.answer != AHZ_END) return card;
    card.answer = kind == 0x10 ? AHZ_FLUSH_ORDER : kind == 0x11 ? AHZ_RAW_CODE : AHZ_MILLIVOLTS;
    card.value = big_endian(payload + 1, number);
    card.octets = 1 + number;
    card.rest = octets - card.octets;
    return card;
}

static inline uint8_t paper_volts(const uint8_t *payload, size_t octets, double gain, double offset, double *volts) {
    const PaperCard card = paper_card(payload, octets);
    if (!(gain > 0 && gain <= 1 && offset >= -100 && offset <= 100)) return 22;
    if (card.answer == 20 || card.answer == 21) return card.answer;
    if (card.answer == AHZ_RAW_CODE) {
        const volatile double product = card.value * gain; /* so that it is rounded by itself */
        *volts = product + offset;
        return AHZ_FROM_RAW_CODE;
    }
    if (card.answer == AHZ_MILLIVOLTS) {
        *volts = card.value / 1000.0;
        return AHZ_FROM_MILLIVOLTS;
    }
    return AHZ_NOT_A_READING;
}

/* ---- The bench tape ---- */

/* Writes the output and a zero after it, and answers its length. */
static inline size_t paper_tape(const uint8_t *tape, size_t octets, char *out) {
    PaperState state;
    char *to = out;
    size_t at = 0;
    unsigned fault = octets > 4096 ? 26 : octets == 0 ? 25 : 0;
    memset(&state, 0, sizeof state);
    while (fault == 0 && at < octets) {
        const uint8_t kind = tape[at], *body = tape + at + 1;
        const size_t body_octets = kind == 1 ? 2 : kind == 0x0F ? 16 : 0;
        if (kind != 0x0F && (kind < 1 || kind > 6)) fault = 23;
        else if (octets - at - 1 < body_octets) fault = 24;
        else if ((at == 0) != (kind == 0x0F)) fault = 25;
        else if (kind == 0x0F) {
            PaperSetup setup;
            setup.rule = body[0];
            setup.taken = body[1];
            setup.use = body[2];
            setup.history = big_endian(body + 3, 2);
            setup.ms = big_endian(body + 5, 4);
            setup.rate = big_endian(body + 9, 2);
            setup.paths = body[11];
            setup.difference = big_endian(body + 12, 4);
            fault = paper_check_setup(setup);
            state = paper_fresh(setup);
            if (fault == 0) to += sprintf(to, "ok\n");
        } else {
            const uint8_t answer = paper_event(&state, kind, (uint16_t)(kind == 1 ? big_endian(body, 2) : 0));
            to += sprintf(to, "%s\n", kind == 4 ? "reset" : kind == 5 ? "latent reset" : answer == AHZ_PASS ? "pass"
                          : answer == AHZ_DISCARD ? "discard" : answer == AHZ_TICK ? "tick" : answer == AHZ_RESET ? "reset"
                          : answer == AHZ_LATENT_OK ? "latent ok" : "latent error");
        }
        at += 1 + body_octets;
    }
    if (fault != 0) return (size_t)(to - out) + (size_t)sprintf(to, "fault %u\n", fault);
    to += sprintf(to, "passed=%llu discarded=%llu order=%llu rogue=%llu", (unsigned long long)state.passed,
                  (unsigned long long)state.discarded, (unsigned long long)state.order, (unsigned long long)state.rogue);
    to += sprintf(to, " lost=%llu tagless=%llu resets=%llu latent-resets=%llu", (unsigned long long)state.lost,
                  (unsigned long long)state.tagless, (unsigned long long)state.resets, (unsigned long long)state.latent_resets);
    to += sprintf(to, " before-first=%llu\n", (unsigned long long)state.before_first);
    return (size_t)(to - out);
}

#endif
