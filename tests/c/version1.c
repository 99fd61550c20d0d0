/* A program for version 1: declarations of its header, and a call of each. It compiles and does not link, since the first three names are
 * gone. The fourth, a step on a state, is there; the 21 words that it is lent here it would refuse, as tests/c/states.c shows. */
#include <stddef.h>
#include <stdint.h>

uint8_t ahz_check_setup(uint8_t rule, uint8_t taken, uint16_t history, uint32_t milliseconds, uint16_t rate, uint8_t paths,
                        uint32_t difference);
uint8_t ahz_fresh(uint8_t rule, uint8_t taken, uint16_t history, uint32_t milliseconds, uint16_t rate, uint8_t paths, uint32_t difference,
                  uint64_t *state, size_t state_words);
uint8_t ahz_tape(const uint8_t *tape, size_t tape_octets, uint8_t *out, size_t out_octets, size_t *length);
uint8_t ahz_numbered(uint64_t *state, size_t state_words, uint16_t number);

int main(void) {
    static const uint8_t tape[] = {0x0F, 0, 0, 0, 4, 0, 0, 0, 100, 0, 100, 2, 0, 0, 0, 1};
    static uint64_t state[21];
    static uint8_t out[100];
    size_t length;
    return ahz_check_setup(0, 0, 4, 100, 100, 2, 1) != 0 || ahz_fresh(0, 0, 4, 100, 100, 2, 1, state, 21) != 0 ||
           ahz_tape(tape, sizeof tape, out, sizeof out, &length) != 0 || ahz_numbered(state, 21, 10) != 109;
}
