/* How much stack each call takes: it runs on a painted stack of its own, and what is no longer painted afterwards is counted. Each call
 * goes its ways, good and refused. In the figure is a little of this program's own, and what memcpy and memset take. It prints the figures,
 * and ends with 1 where one is above the bound that the header states. Needs the contexts of POSIX. */
#define _XOPEN_SOURCE 700
#include <ahozurime.h>

#include <stdio.h>
#include <string.h>
#include <ucontext.h>

enum { ROOM = 4 * AHZ_TAPE_STACK };

static union {
    uint8_t octets[ROOM];
    long double aligned;
} stack;
static ucontext_t here, there;

/* The octets of the stack that the function changed. */
static size_t changed(void (*function)(void), uint8_t paint) {
    size_t still;
    memset(stack.octets, paint, ROOM);
    if (getcontext(&there) != 0) return ROOM;
    there.uc_stack.ss_sp = stack.octets;
    there.uc_stack.ss_size = ROOM;
    there.uc_link = &here;
    makecontext(&there, function, 0);
    if (swapcontext(&here, &there) != 0) return ROOM;
    for (still = 0; still < ROOM && stack.octets[still] == paint;) still++;
    return ROOM - still;
}

/* Under two paints, since one might be what it wrote. */
static size_t taken(void (*function)(void)) {
    const size_t first = changed(function, 0xA5);
    const size_t second = changed(function, 0x5A);
    return first > second ? first : second;
}

#define ADDRESSES 0x02, 0, 0, 0, 0, 0x07, 0x02, 0, 0, 0, 0, 0x01
static const uint8_t plain[] = {ADDRESSES, 0x88, 0xB5, 0xAA, 0xBB, 0xCC};
static const uint8_t tagged[] = {ADDRESSES, 0x81, 0x00, 0x20, 0x05, 0x88, 0xB5, 0xAA, 0xBB, 0xCC};
static const uint8_t numbered[] = {ADDRESSES, 0xF1, 0xC1, 0x00, 0x00, 0x01, 0x02, 0x88, 0xB5, 0xAA, 0xBB, 0xCC};
static const uint8_t both[] = {ADDRESSES, 0x81, 0x00, 0x20, 0x05, 0xF1, 0xC1, 0x00, 0x00, 0x01, 0x02, 0x88, 0xB5, 0xAA, 0xBB, 0xCC};
static const uint8_t hsr[] = {ADDRESSES, 0x89, 0x2F, 0xA0, 0x09, 0x01, 0x02, 0x88, 0xB5, 0xAA, 0xBB, 0xCC};
static const uint8_t tagged_hsr[] = {ADDRESSES, 0x81, 0x00, 0x20, 0x05, 0x89, 0x2F, 0xA0, 0x09, 0x01, 0x02, 0x88, 0xB5, 0xAA, 0xBB, 0xCC};
static const uint8_t prp[] = {ADDRESSES, 0x88, 0xB5, 0xAA, 0xBB, 0xCC, 0x01, 0x02, 0xA0, 0x09, 0x88, 0xFB};
static const uint8_t ip[] = {ADDRESSES, 0x08, 0x00, 0x45, 0, 0, 28, 0, 1, 0, 0, 64, 17, 0, 0, 10, 0, 0, 1, 10, 0, 0, 2, 0, 80, 1, 187};
static const uint8_t hsr_prp[] = {ADDRESSES, 0x81, 0x00, 0x20, 0x05, 0x89, 0x2F, 0xA0, 0x0F, 0x01, 0x02, 0x88, 0xB5, 0xAA, 0xBB, 0xCC,
                                  0x01, 0x02, 0xA0, 0x09, 0x88, 0xFB};
static const struct {
    const uint8_t *octets;
    size_t count;
} frames[] = {{plain, 0}, {plain, sizeof plain}, {tagged, 17}, {tagged, sizeof tagged}, {numbered, sizeof numbered}, {both, 23},
              {both, sizeof both}, {hsr, 19}, {hsr, sizeof hsr}, {tagged_hsr, sizeof tagged_hsr}, {prp, sizeof prp},
              {prp, sizeof prp - 1}, {hsr_prp, sizeof hsr_prp}, {ip, 33}, {ip, sizeof ip - 1}, {ip, sizeof ip}};
enum { FRAMES = sizeof frames / sizeof frames[0] };
static const uint8_t checked[] = {ADDRESSES, 0x88, 0xB5, 0xAA, 0xBB, 0xCC, 0x34, 0x86, 0x4D, 0x10}; /* plain, with its check */
static const uint8_t longest[AHZ_FCS_LONGEST + 1] = {ADDRESSES, 0x88, 0xB5};
static const size_t lengths[] = {0, 1, 13, 14, 17, 18, 60, AHZ_FRAME_LONGEST, AHZ_FRAME_LONGEST + 1, AHZ_FCS_LONGEST, AHZ_FCS_LONGEST + 1};
enum { LENGTHS = sizeof lengths / sizeof lengths[0] };
static const uint8_t table[] = {2, 0x02, 0, 0, 0, 0, 0x06, 1, 0, 5, 0, 8, 4, 0x02, 0, 0, 0, 0, 0x07, 3, 0, 0, 10, 0, 0, 1, 10, 0, 0, 2, 0,
                                2, 0, 80, 1, 187, 0, 9, 1, 0x02, 0, 0, 0, 0, 0x07, 3, 0, 0, 0, 7};
static const uint8_t payload[] = {0x10, 0, 0, 0, 1, 0x11, 0, 10, 0x12, 0x0F, 0xA0, 0x00, 0x13};
static const uint8_t tape[] = {0x0F, 0, 0, 0, 0, 4, 0, 0, 0, 100, 0, 100, 2, 0, 0, 0, 1, 1, 0, 10, 1, 0, 10, 2, 3, 1, 0, 20, 4, 5, 6};
/* H 512: slides over some words and over all, late packets, one that is too far. */
static const uint8_t long_tape[] = {0x0F, 0, 0, 0, 2, 0, 0, 0, 0, 100, 0, 100, 2, 0, 0, 0, 1, 1, 0, 10, 1, 1, 0, 1, 0, 200, 1, 2, 0xFF,
                                    1, 1, 1, 1, 2, 0xFE, 1, 0, 0};

static uint64_t state[AHZ_S_WORDS], header[AHZ_H_ID_WORDS];
static uint8_t out[AHZ_TAPE_OUTPUT];
static size_t length;
static uint16_t handle;
static uint32_t value;
static double volts;
static volatile uint64_t answer; /* so that no answer is unused */
static unsigned i, rule, use;

static void none(void) { answer = 0; }
static void version(void) { answer = ahz_version(); }
static void reading(void) {
    for (i = 0; i < FRAMES; i++) answer = ahz_read(frames[i].octets, frames[i].count, header, AHZ_H_WORDS);
}
static void reading_hsr(void) {
    for (i = 0; i < FRAMES; i++) answer = ahz_read_hsr(frames[i].octets, frames[i].count, header, AHZ_H_ID_WORDS);
}
static void reading_prp(void) {
    for (i = 0; i < FRAMES; i++) answer = ahz_read_prp(frames[i].octets, frames[i].count, header, AHZ_H_ID_WORDS);
}
static void part(void) {
    for (i = 0; i < FRAMES; i++) answer = ahz_payload(frames[i].octets, frames[i].count);
}
static void insertion(void) {
    for (i = 0; i < FRAMES; i++) answer = ahz_insert(frames[i].octets, frames[i].count, 258, out, sizeof out, &length);
}
/* The path and LAN ids go up to 16, which is refused. */
static void insertion_hsr(void) {
    for (i = 0; i < 17 * FRAMES; i++) {
        answer = ahz_insert_hsr(frames[i / 17].octets, frames[i / 17].count, 258, (uint8_t)(i % 17), out, sizeof out, &length);
    }
}
static void insertion_prp(void) {
    for (i = 0; i < 17 * FRAMES; i++) {
        answer = ahz_insert_prp(frames[i / 17].octets, frames[i / 17].count, 258, (uint8_t)(i % 17), out, sizeof out, &length);
    }
}
static void removal(void) {
    for (i = 0; i < FRAMES; i++) answer = ahz_remove(frames[i].octets, frames[i].count, out, sizeof out, &length);
}
static void removal_hsr(void) {
    for (i = 0; i < FRAMES; i++) answer = ahz_remove_hsr(frames[i].octets, frames[i].count, out, sizeof out, &length);
}
static void removal_prp(void) {
    for (i = 0; i < FRAMES; i++) answer = ahz_remove_prp(frames[i].octets, frames[i].count, out, sizeof out, &length);
}
static void sum(void) {
    for (i = 0; i < LENGTHS; i++) answer = ahz_crc32(out, lengths[i]);
    answer = ahz_crc32(out, sizeof out);
}
static void check(void) {
    for (i = 0; i <= sizeof checked; i++) answer = ahz_check_fcs(checked, i);
    for (i = 0; i < LENGTHS; i++) answer = ahz_check_fcs(out, lengths[i]);
}
static void check_off(void) {
    for (i = 0; i <= sizeof checked; i++) answer = ahz_without_fcs(checked, i);
    for (i = 0; i < LENGTHS; i++) answer = ahz_without_fcs(out, lengths[i]);
}
static void check_on(void) {
    for (i = 0; i < LENGTHS; i++) answer = ahz_append_fcs(longest, lengths[i], out, sizeof out, &length);
    answer = ahz_append_fcs(longest, AHZ_FRAME_LONGEST, out, AHZ_FRAME_LONGEST, &length);
}
static void table_check(void) {
    for (i = 0; i <= sizeof table; i++) answer = ahz_check_table(table, i);
}
static void lookup(void) {
    for (i = 0; i < FRAMES; i++) answer = ahz_lookup(table, sizeof table, frames[i].octets, frames[i].count, &handle);
}
static void generator(void) { answer = ahz_generator(); }
static void generation(void) { answer = ahz_generate(&handle); }
static void generator_reset(void) { ahz_generator_reset(&handle); }
static void ticks(void) { answer = ahz_ticks(11, 100); }
static void setup_check(void) {
    for (i = 0; i < 3; i++) answer = ahz_check_setup_v2((uint8_t)i, 0, 0, 8, 100, 100, 2, 1);
}
static void fresh(void) {
    for (i = 0; i < 3; i++) answer = ahz_fresh_v4((uint8_t)(2 - i), 0, 0, 8, 100, 100, 2, 1, state, AHZ_S_WORDS);
}
/* Under both rules and in both uses, with a short window and the longest: a first packet, then each difference, near and far; and a state
 * that is not sound. */
static void packets(void) {
    for (rule = 0; rule < 2; rule++) {
        for (use = 0; use < 2; use++) {
            answer = ahz_fresh_v4((uint8_t)rule, 0, (uint8_t)use, 8, 100, 100, 2, 1, state, AHZ_S_WORDS);
            for (i = 0; i < 40; i++) answer = ahz_numbered(state, AHZ_S_WORDS, (uint16_t)(i * 7 % 20 + i));
            answer = ahz_fresh_v4((uint8_t)rule, 0, (uint8_t)use, AHZ_HISTORY_MOST, 100, 100, 2, 1, state, AHZ_S_WORDS);
            for (i = 0; i < 400; i++) answer = ahz_numbered(state, AHZ_S_WORDS, (uint16_t)(i * 211 % 600 + i));
        }
    }
    answer = ahz_numbered(state, 0, 0);
}
static void tagless(void) {
    for (i = 0; i < 8; i++) {
        answer = ahz_fresh_v4(0, (uint8_t)(i % 2), (uint8_t)(i / 2 % 2), i < 4 ? 8 : AHZ_HISTORY_MOST, 100, 100, 2, 1, state, AHZ_S_WORDS);
        answer = ahz_tagless(state, AHZ_S_WORDS);
    }
    answer = ahz_tagless(state, 0);
}
static void tick(void) {
    for (i = 0; i < 12; i++) answer = ahz_tick(state, AHZ_S_WORDS);
    answer = ahz_tick(state, 0);
}
static void resets(void) {
    answer = ahz_reset(state, AHZ_S_WORDS);
    answer = ahz_reset(state, 0);
}
static void latent_reset(void) {
    answer = ahz_latent_reset(state, AHZ_S_WORDS);
    answer = ahz_latent_reset(state, 0);
}
static void latent_test(void) {
    answer = ahz_latent_test(state, AHZ_S_WORDS);
    answer = ahz_latent_test(state, 0);
}
static void card(void) {
    for (i = 0; i < sizeof payload; i++) answer = ahz_card(payload + i, sizeof payload - i, &value);
}
static void card_part(void) {
    for (i = 0; i < sizeof payload; i++) answer = ahz_card_octets(payload + i, sizeof payload - i);
}
static void rest_part(void) {
    for (i = 0; i < sizeof payload; i++) answer = ahz_rest_octets(payload + i, sizeof payload - i);
}
static void reading_volts(void) {
    for (i = 0; i < sizeof payload; i++) answer = ahz_volts(payload + i, sizeof payload - i, 0.25, 0.5, &volts);
}
static void bench(void) {
    for (i = 0; i <= sizeof tape; i++) answer = ahz_tape_v3(tape, i, out, sizeof out, &length);
    answer = ahz_tape_v3(tape, sizeof tape, out, 0, &length);
    answer = ahz_tape_v3(long_tape, sizeof long_tape, out, sizeof out, &length);
}

int main(void) {
    static const struct {
        const char *call;
        void (*function)(void);
        size_t bound;
    } calls[] = {
        {"ahz_version", version, AHZ_STACK},          {"ahz_read", reading, AHZ_STACK},
        {"ahz_read_hsr", reading_hsr, AHZ_STACK},     {"ahz_read_prp", reading_prp, AHZ_STACK},
        {"ahz_payload", part, AHZ_STACK},             {"ahz_insert", insertion, AHZ_STACK},
        {"ahz_insert_hsr", insertion_hsr, AHZ_STACK}, {"ahz_insert_prp", insertion_prp, AHZ_STACK},
        {"ahz_remove", removal, AHZ_STACK},           {"ahz_remove_hsr", removal_hsr, AHZ_STACK},
        {"ahz_remove_prp", removal_prp, AHZ_STACK},   {"ahz_crc32", sum, AHZ_FCS_STACK},
        {"ahz_check_fcs", check, AHZ_FCS_STACK},      {"ahz_without_fcs", check_off, AHZ_FCS_STACK},
        {"ahz_append_fcs", check_on, AHZ_FCS_STACK},  {"ahz_check_table", table_check, AHZ_STACK},
        {"ahz_lookup", lookup, AHZ_STACK},            {"ahz_generator", generator, AHZ_STACK},
        {"ahz_generate", generation, AHZ_STACK},      {"ahz_generator_reset", generator_reset, AHZ_STACK},
        {"ahz_ticks", ticks, AHZ_STACK},              {"ahz_check_setup_v2", setup_check, AHZ_STACK},
        {"ahz_fresh_v4", fresh, AHZ_STACK},           {"ahz_numbered", packets, AHZ_STACK},
        {"ahz_tagless", tagless, AHZ_STACK},          {"ahz_tick", tick, AHZ_STACK},
        {"ahz_reset", resets, AHZ_STACK},             {"ahz_latent_reset", latent_reset, AHZ_STACK},
        {"ahz_latent_test", latent_test, AHZ_STACK},  {"ahz_card", card, AHZ_STACK},
        {"ahz_card_octets", card_part, AHZ_STACK},    {"ahz_rest_octets", rest_part, AHZ_STACK},
        {"ahz_volts", reading_volts, AHZ_STACK},      {"ahz_tape_v3", bench, AHZ_TAPE_STACK},
    };
    const size_t own = taken(none);
    int failed = 0;
    unsigned k;
    for (k = 0; k < sizeof calls / sizeof calls[0]; k++) {
        const size_t most = taken(calls[k].function);
        const size_t octets = most - own;
        printf("%-20s %6u octets of stack\n", calls[k].call, (unsigned)octets);
        if (most < own || octets > calls[k].bound) {
            printf("tests/c/stack.c: %s takes more than %u\n", calls[k].call, (unsigned)calls[k].bound);
            failed = 1;
        }
    }
    return failed;
}
