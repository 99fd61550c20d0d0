/* Each mistake that the typed forms rule out, by its number: with -DMIXUP=N the one line under it does not compile, in C nor in C++. With
 * MIXUP 0 there is none, and the program runs. Where it says `warned` the languages ask for no more than a warning, in C++ of the answer
 * alone, and -Wall -Werror makes it an error. Where it says `in C++` it is a mistake there alone: C takes it, as the header says. */
#include <ahozurime.h>

#include <stdio.h>

#ifndef MIXUP
#define MIXUP 0
#endif

static const uint8_t payload[] = {AHZ_CARD_RAW_CODE, 0x00, 0x0A};

static const ahz_setup_t constant = {AHZ_RULE_VECTOR, AHZ_NOT_TAKEN, AHZ_USE_SEQUENCE, 8, AHZ_MS(100), AHZ_PER_SECOND(100), 2, 1};

int main(void) {
    ahz_setup_t setup = {AHZ_RULE_VECTOR, AHZ_NOT_TAKEN, AHZ_USE_SEQUENCE, 8, ahz_milliseconds(100), ahz_rate(100), 2, 1};
    ahz_ticks_t ticks = ahz_full_ticks(setup.timeout, setup.rate);
    ahz_calibration_t calibration = {0.25, 0.5};
    ahz_state_t state;
    ahz_header_t header;
    ahz_card_t card = ahz_card_next(payload, sizeof payload);
    ahz_volts_t volts;
    ahz_generator_t generator = ahz_generator_fresh();
    uint16_t number = ahz_generator_next(&generator);
    uint8_t answer = ahz_state_fresh(&state, setup);
    int right = answer == AHZ_DONE && ticks.ticks == 10 && setup.timeout.ms == 100 && setup.rate.per_second == 100;

    right = right && card.answer == AHZ_RAW_CODE && card.raw_code.code == 10;
    answer = ahz_card_volts(payload, sizeof payload, calibration, &volts);
    right = right && answer == AHZ_FROM_RAW_CODE && volts.volts == 3.0;
    answer = ahz_header_read(&header, payload, sizeof payload);
    right = right && answer == AHZ_R_FRAME_SHORT && answer != (right ? AHZ_DONE : AHZ_R_FRAME_SHORT);
    right = right && ahz_header_read_hsr(&header, payload, sizeof payload) == answer;
    right = right && ahz_header_read_prp(&header, payload, sizeof payload) == answer;
    ahz_generator_restart(&generator);
    right = right && generator.next == 0 && constant.rate.per_second == 100;
#ifndef __cplusplus /* C takes these without a warning, as the header says */
    ticks = (ahz_ticks_t){100};
    ticks.ticks += setup.timeout.ms;
    right = right && ticks.ticks == 200;
    setup = (ahz_setup_t){.history = 8, .timeout = setup.timeout, .rate = setup.rate, .paths = 2}; /* in sequence use, as version 1 */
    right = right && setup.use == AHZ_USE_SEQUENCE && ahz_setup_check(setup) == AHZ_DONE;
#endif

#if MIXUP == 1 /* ticks as milliseconds */
    setup.timeout = ticks;
#endif
#if MIXUP == 2 /* milliseconds as ticks */
    ticks = setup.timeout;
#endif
#if MIXUP == 3 /* a bare number as milliseconds */
    setup.timeout = 100;
#endif
#if MIXUP == 4 /* a rate as milliseconds */
    setup.timeout = ahz_rate(100);
#endif
#if MIXUP == 5 /* milliseconds as a rate */
    setup.rate = ahz_milliseconds(100);
#endif
#if MIXUP == 6 /* a bare number as a rate */
    setup.rate = 100;
#endif
#if MIXUP == 7 /* a rate and milliseconds changed about */
    ticks = ahz_full_ticks(setup.rate, setup.timeout);
#endif
#if MIXUP == 8 /* bare numbers to be converted */
    ticks = ahz_full_ticks(100, 100);
#endif
#if MIXUP == 9 /* milliseconds compared with ticks */
    right = right && setup.timeout == ahz_state_ticks_left(&state);
#endif
#if MIXUP == 10 /* ticks as a bare number of milliseconds */
    setup.timeout = ahz_milliseconds(ahz_state_ticks_left(&state));
#endif
#if MIXUP == 11 /* ticks that no conversion gave */
    ticks = 100;
#endif
#if MIXUP == 12 /* units where the proved call asks for bare numbers */
    right = right && ahz_ticks(setup.timeout, setup.rate) == 10;
#endif
#if MIXUP == 13 /* a setup as eight numbers in a row */
    answer = ahz_state_fresh(&state, 0, 0, 0, 8, 100, 100, 2, 1);
#endif
#if MIXUP == 14 /* a rate and milliseconds changed about in a setup's list */
    const ahz_setup_t row = {0, 0, 0, 8, ahz_rate(100), ahz_milliseconds(100), 2, 1};
#endif
#if MIXUP == 15 /* warned: bare numbers in a setup's list */
    const ahz_setup_t row = {0, 0, 0, 8, 100, 100, 2, 1}; right = right && row.paths == 2;
#endif
#if MIXUP == 16 /* a raw code as millivolts */
    card.millivolts = card.raw_code;
#endif
#if MIXUP == 17 /* blocks as a raw code */
    card.raw_code = card.blocks;
#endif
#if MIXUP == 18 /* a bare number as a raw code */
    card.raw_code = 10;
#endif
#if MIXUP == 19 /* millivolts as volts */
    volts = card.millivolts;
#endif
#if MIXUP == 20 /* a raw code scaled by hand, as if it were a number */
    volts.volts = card.raw_code * calibration.gain + calibration.offset;
#endif
#if MIXUP == 21 /* volts as a gain */
    calibration.gain = volts;
#endif
#if MIXUP == 22 /* gain and offset as two numbers, in whatever order */
    answer = ahz_card_volts(payload, sizeof payload, 0.25, 0.5, &volts);
#endif
#if MIXUP == 23 /* a gain as a calibration */
    answer = ahz_card_volts(payload, sizeof payload, calibration.gain, &volts);
#endif
#if MIXUP == 24 /* a card's number read as a bare one, of any unit */
    const uint32_t value = card;
#endif
#if MIXUP == 25 /* a header's number, without asking whether there is one */
    number = ahz_header_numbered(&header);
#endif
#if MIXUP == 26 /* a header where a number is asked */
    answer = ahz_state_numbered(&state, header);
#endif
#if MIXUP == 27 /* warned: an answer that nobody looks at */
    ahz_state_reset(&state);
#endif
#if MIXUP == 28 /* a generator sent as its number */
    answer = ahz_state_numbered(&state, generator);
#endif
#if MIXUP == 29 /* a bare number as a generator */
    generator = 0;
#endif
#if MIXUP == 30 /* warned: a state's pointer where a header's is asked */
    answer = ahz_header_read(&state, payload, sizeof payload);
#endif
#if MIXUP == 31 /* in C++: ticks made of a number */
    ticks = ahz_ticks_t{100};
#endif
#if MIXUP == 32 /* in C++: a raw code made of a number */
    card.raw_code = ahz_raw_code_t{10};
#endif
#if MIXUP == 33 /* in C++: millivolts made of a number */
    card.millivolts = ahz_millivolts_t(4000);
#endif
#if MIXUP == 34 /* in C++: blocks made of a number */
    card.blocks = ahz_blocks_t(1);
#endif
#if MIXUP == 35 /* in C++: volts made of a number */
    volts = ahz_volts_t(3.0);
#endif
#if MIXUP == 36 /* in C++: milliseconds of a list alone */
    setup.timeout = {100};
#endif
#if MIXUP == 37 /* in C++: a rate that its field cannot hold */
    setup.rate = ahz_rate_t{65536};
#endif
#if MIXUP == 38 /* a setup's list without a use, as version 1 had it */
    const ahz_setup_t row = {0, 0, 8, ahz_milliseconds(100), ahz_rate(100), 2, 1};
#endif
#if MIXUP == 39 /* warned: the same, with the braces of AHZ_MS */
    const ahz_setup_t row = {0, 0, 8, {100}, {100}, 2, 1}; right = right && row.paths == 2;
#endif
#if MIXUP == 40 /* warned: a setup checked by the call of version 1 */
    answer = ahz_check_setup(0, 0, 8, 100, 100, 2, 1);
#endif
#if MIXUP == 41 /* warned: a fresh state by the call of version 2 */
    answer = ahz_fresh_v2(0, 0, 0, 8, 100, 100, 2, 1, state.words, AHZ_S_WORDS);
#endif
#if MIXUP == 42 /* a first place, without asking whether it stands in the window */
    number = ahz_state_first(&state);
#endif
#if MIXUP == 43 /* warned: a fresh state by the call of version 3 */
    answer = ahz_fresh_v3(0, 0, 0, 8, 100, 100, 2, 1, state.words, AHZ_S_WORDS);
#endif
#if MIXUP == 44 /* warned: the marks as one word, as version 3 gave them */
    right = right && ahz_state_marks(&state) == 0;
#endif
#if MIXUP == 45 /* an HSR tag without a path id, as an R-TAG is put in */
    uint8_t out[16]; size_t length; answer = ahz_insert_hsr(payload, sizeof payload, number, out, sizeof out, &length);
#endif
#if MIXUP == 46 /* a PRP trailer without a LAN id */
    uint8_t out[16]; size_t length; answer = ahz_insert_prp(payload, sizeof payload, number, out, sizeof out, &length);
#endif
#if MIXUP == 47 /* an R-TAG with a path id, which it does not have */
    uint8_t out[16]; size_t length; answer = ahz_insert(payload, sizeof payload, number, 10, out, sizeof out, &length);
#endif
#if MIXUP == 48 /* a header where a path id is asked */
    uint8_t out[16]; size_t length; answer = ahz_insert_prp(payload, sizeof payload, number, header, out, sizeof out, &length);
#endif
    right = right && answer != AHZ_DONE && number == 0;
    if (!right) printf("tests/c/units.c: without a mistake, a wrong answer\n");
    return right ? 0 : 1;
}
