/* A program for version 3, as version1.c is one for version 1. The first name is gone; the others are there, and the step would refuse the
 * 24 words that it is lent. */
#include <stddef.h>
#include <stdint.h>

uint8_t ahz_fresh_v3(uint8_t rule, uint8_t taken, uint8_t use, uint16_t history, uint32_t milliseconds, uint16_t rate, uint8_t paths,
                     uint32_t difference, uint64_t *state, size_t state_words);
uint8_t ahz_tape_v3(const uint8_t *tape, size_t tape_octets, uint8_t *out, size_t out_octets, size_t *length);
uint8_t ahz_check_setup_v2(uint8_t rule, uint8_t taken, uint8_t use, uint16_t history, uint32_t milliseconds, uint16_t rate, uint8_t paths,
                           uint32_t difference);
uint8_t ahz_numbered(uint64_t *state, size_t state_words, uint16_t number);

int main(void) {
    static const uint8_t tape[] = {0x0F, 0, 0, 0, 0, 4, 0, 0, 0, 100, 0, 100, 2, 0, 0, 0, 1};
    static uint64_t state[24];
    static uint8_t out[100];
    size_t length;
    return ahz_fresh_v3(0, 0, 0, 4, 100, 100, 2, 1, state, 24) != 0 || ahz_tape_v3(tape, sizeof tape, out, sizeof out, &length) != 0 ||
           ahz_check_setup_v2(0, 0, 0, 4, 100, 100, 2, 1) != 0 || ahz_numbered(state, 24, 10) != 109;
}
