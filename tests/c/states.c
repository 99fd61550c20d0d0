/* Numbering, ticks, setups and recovery, and their typed forms: all 31 words of a state after each event against the papers, in long runs
 * of events from fresh states, and from states of every kind, sound and not, with counters that wrap. */
#include "check.h"
#include "paper.h"

static Space space;

/* ---- Numbering, ticks, setups ---- */

static void numbering(void) {
    uint16_t *generator;
    ahz_generator_t *typed, fresh = ahz_generator_fresh();
    uint32_t number;
    EXPECT(ahz_generator() == 0 && fresh.next == 0);
    for (number = 0; number < 65536; number++) {
        const uint16_t now = (uint16_t)number, next = (uint16_t)(number == 65535 ? 0 : number + 1);
        generator = (uint16_t *)lend_aligned(&space, &now, sizeof now);
        EXPECT(ahz_generate(generator) == now && holds(&space, &next, sizeof next));
        typed = (ahz_generator_t *)lend_aligned(&space, &now, sizeof now);
        EXPECT(ahz_generator_next(typed) == now && holds(&space, &next, sizeof next));
        generator = (uint16_t *)lend_aligned(&space, &now, sizeof now);
        ahz_generator_reset(generator);
        EXPECT(holds(&space, &fresh, sizeof now));
        typed = (ahz_generator_t *)lend_aligned(&space, &now, sizeof now);
        ahz_generator_restart(typed);
        EXPECT(holds(&space, &fresh, sizeof now));
    }
}

static void expect_ticks(uint32_t ms, uint16_t rate) {
    EXPECT(ahz_ticks(ms, rate) == paper_ticks(ms, rate));
    EXPECT(ahz_full_ticks(ahz_milliseconds(ms), ahz_rate(rate)).ticks == paper_ticks(ms, rate));
}

static void ticks(void) {
    static const uint32_t ms[] = {0, 1, 2, 3, 4, 9, 10, 11, 25, 99, 100, 101, 999, 1000, 1001, 3003, 3004, 65535, 65536, 429496, 429497,
                                  1000000, 3599999, 3600000, 3600001, 0x7FFFFFFF, 0x80000000, 0xFFFFFFFF};
    static const uint16_t rates[] = {0, 1, 2, 3, 10, 99, 100, 101, 255, 256, 333, 999, 1000, 1001, 9999, 10000, 10001, 32768, 65535};
    size_t i, k;
    EXPECT(ahz_ticks(100, 100) == 10 && ahz_ticks(1, 100) == 1 && ahz_ticks(11, 100) == 2);
    EXPECT(ahz_ticks(UINT32_MAX, UINT16_MAX) == UINT64_C(281470681678)); /* 281,470,681,677,825 / 1000 */
    for (i = 0; i < COUNT(ms); i++) {
        for (k = 0; k < COUNT(rates); k++) expect_ticks(ms[i], rates[k]);
    }
    for (i = 0; i < 3000; i++) expect_ticks((uint32_t)(roll() >> (32 + roll() % 24)), (uint16_t)(roll() >> (48 + roll() % 12)));
    EXPECT(ahz_milliseconds(3600000).ms == 3600000 && ahz_rate(10000).per_second == 10000);
}

/* A setup alone, and for a fresh state in so many words, both as bare numbers and typed. */
static void expect_setup(PaperSetup s, size_t words) {
    const uint8_t refusal = paper_check_setup(s), answer = refusal == 0 && words < 31 ? 8 : refusal;
    const uint8_t rule = (uint8_t)s.rule, taken = (uint8_t)s.taken, use = (uint8_t)s.use, paths = (uint8_t)s.paths;
    const uint16_t history = (uint16_t)s.history, rate = (uint16_t)s.rate;
    const uint32_t ms = (uint32_t)s.ms, difference = (uint32_t)s.difference;
    PaperState state = paper_fresh(s);
    uint64_t expected[AHZ_S_WORDS], *lent = (uint64_t *)lend_aligned(&space, NULL, words * 8);
    ahz_setup_t setup;
    paper_words(&state, expected);
    setup.rule = rule;
    setup.taken = taken;
    setup.use = use;
    setup.history = history;
    setup.timeout = ahz_milliseconds(ms);
    setup.rate = ahz_rate(rate);
    setup.paths = paths;
    setup.difference = difference;
    EXPECT(ahz_check_setup_v2(rule, taken, use, history, ms, rate, paths, difference) == refusal && ahz_setup_check(setup) == refusal);
    EXPECT(ahz_fresh_v4(rule, taken, use, history, ms, rate, paths, difference, lent, words) == answer);
    EXPECT(holds(&space, expected, answer == 0 ? sizeof expected : 0));
    if (words == AHZ_S_WORDS) {
        ahz_state_t *typed = (ahz_state_t *)lend_aligned(&space, NULL, sizeof(ahz_state_t));
        EXPECT(ahz_state_fresh(typed, setup) == refusal && holds(&space, expected, refusal == 0 ? sizeof expected : 0));
    }
}

/* The last digit of a number by that base; the number loses it. */
static size_t digit(size_t *number, size_t base) {
    const size_t last = *number % base;
    *number /= base;
    return last;
}

/* Numbers about the edges of each range, each with each, in a record for a state and some in longer and shorter ones; then every length of
 * a record, and every use. */
static void setups(void) {
    static const uint8_t flags[] = {0, 1, 2, 255}, paths[] = {0, 1, 2, 3, 8, 9, 255};
    static const uint16_t histories[] = {0, 1, 2, 65, 512, 513, 1026, 65535}, rates[] = {0, 1, 333, 10000, 10001, 65535};
    static const uint32_t ms[] = {0, 1, 3600000, 3600001, 0x80000000, 0x80000001}, differences[] = {0, 1, 0x80000000, 0xFFFFFFFF};
    const size_t all = COUNT(flags) * COUNT(flags) * COUNT(flags) * COUNT(histories) * COUNT(ms) * COUNT(rates) * COUNT(paths);
    PaperSetup s, good = {0, 0, 0, 4, 100, 100, 2, 1};
    size_t n, rest;
    for (n = 0; n < all; n++) {
        rest = n;
        s.rule = flags[digit(&rest, COUNT(flags))];
        s.taken = flags[digit(&rest, COUNT(flags))];
        s.use = flags[digit(&rest, COUNT(flags))];
        s.history = histories[digit(&rest, COUNT(histories))];
        s.ms = ms[digit(&rest, COUNT(ms))];
        s.rate = rates[digit(&rest, COUNT(rates))];
        s.paths = paths[digit(&rest, COUNT(paths))];
        s.difference = differences[roll() % COUNT(differences)];
        expect_setup(s, AHZ_S_WORDS);
        if (roll() % 16 == 0) expect_setup(s, roll() % 36);
    }
    for (n = 0; n < 36; n++) expect_setup(good, n);
    for (n = 0; n < 256; n++) {
        good.use = n;
        expect_setup(good, AHZ_S_WORDS);
    }
}

/* Every history length under both rules: 2 to 512 are taken, and a fresh state holds what it is given. */
static void histories(void) {
    PaperSetup s = {0, 0, 0, 0, 100, 100, 2, 1};
    uint32_t history;
    for (s.rule = 0; s.rule < 2; s.rule++) {
        for (history = 0; history < 65536; history++) {
            const uint8_t rule = (uint8_t)s.rule, answer = history >= 2 && history <= 512 ? AHZ_DONE : AHZ_R_HISTORY;
            EXPECT(ahz_check_setup_v2(rule, 0, 0, (uint16_t)history, 100, 100, 2, 1) == answer);
            s.history = history;
            if (history < 600 || history % 512 < 2) expect_setup(s, AHZ_S_WORDS);
        }
    }
}

/* A setup with nothing right, and its numbers put right one after the other: the order of the refusals, written out. */
static void setup_order(void) {
    static const uint8_t refusals[] = {15, 27, 27, 16, 17, 18, 19, 0};
    static const uint64_t right[] = {1, 1, 1, 512, 3600000, 10000, 8};
    PaperSetup s = {2, 2, 2, 513, 3600001, 10001, 9, 1};
    uint64_t *const numbers[] = {&s.rule, &s.taken, &s.use, &s.history, &s.ms, &s.rate, &s.paths};
    size_t i;
    for (i = 0; i < COUNT(refusals); i++) {
        EXPECT(paper_check_setup(s) == refusals[i]);
        expect_setup(s, AHZ_S_WORDS);
        if (i < COUNT(right)) *numbers[i] = right[i];
    }
}

/* ---- Recovery ---- */

/* One event by the tape's kind of it. */
static uint8_t event(uint64_t *words, size_t count, uint8_t kind, uint16_t number) {
    switch (kind) {
    case 1: return ahz_numbered(words, count, number);
    case 2: return ahz_tagless(words, count);
    case 3: return ahz_tick(words, count);
    case 4: return ahz_reset(words, count);
    case 5: return ahz_latent_reset(words, count);
    default: return ahz_latent_test(words, count);
    }
}

static uint8_t typed_event(ahz_state_t *state, uint8_t kind, uint16_t number) {
    switch (kind) {
    case 1: return ahz_state_numbered(state, number);
    case 2: return ahz_state_tagless(state);
    case 3: return ahz_state_tick(state);
    case 4: return ahz_state_reset(state);
    case 5: return ahz_state_latent_reset(state);
    default: return ahz_state_latent_test(state);
    }
}

/* An event on words that the paper takes for a state, or does not; the words go on to the next state's. */
static uint8_t expect_event(uint64_t *words, uint8_t kind, uint16_t number) {
    PaperState state;
    uint64_t next[AHZ_S_WORDS], longer[AHZ_S_WORDS + 5], *lent;
    uint8_t answer = AHZ_R_STATE;
    size_t written = 0;
    memcpy(next, words, sizeof next);
    if (paper_state(words, &state)) {
        answer = paper_event(&state, kind, number);
        written = kind == 6 ? 0 : sizeof next;
        paper_words(&state, next);
    }
    lent = (uint64_t *)lend_aligned(&space, words, sizeof next);
    EXPECT(event(lent, AHZ_S_WORDS, kind, number) == answer);
    EXPECT(holds(&space, next, written));
    memset(longer, 0xC7, sizeof longer);
    memcpy(longer, words, sizeof next);
    lent = (uint64_t *)lend_aligned(&space, longer, sizeof longer);
    EXPECT(event(lent, AHZ_S_WORDS + 5, kind, number) == answer);
    EXPECT(holds(&space, next, written));
    lent = (uint64_t *)lend_aligned(&space, words, sizeof next);
    EXPECT(typed_event((ahz_state_t *)(void *)lent, kind, number) == answer);
    EXPECT(holds(&space, next, written));
    memcpy(words, next, sizeof next);
    return answer;
}

/* One of each kind on the same words, the packets near the newest number, about the ends of the window and of a word, and far away. */
static void expect_each(const uint64_t *words) {
    const int history = (int)words[AHZ_S_HISTORY];
    const int near[] = {0, 1, -1, 2, 63, 64, -63, -64, 128, -448, history - 1, history, 1 - history, -history, 32767, -32768, -32767};
    uint64_t copy[AHZ_S_WORDS];
    size_t i;
    uint8_t kind;
    for (kind = 2; kind <= 6; kind++) {
        memcpy(copy, words, sizeof copy);
        (void)expect_event(copy, kind, 0);
    }
    for (i = 0; i < COUNT(near); i++) {
        memcpy(copy, words, sizeof copy);
        (void)expect_event(copy, 1, (uint16_t)(words[AHZ_S_NEWEST] + (uint64_t)(int64_t)near[i]));
    }
}

static PaperSetup any_setup(void) {
    static const uint16_t lengths[] = {2, 4, 64, 3, 63, 33, 512, 65, 128, 511, 129, 449};
    static const uint32_t timeouts[][2] = {{1, 1}, {2, 1000}, {100, 100}, {3600000, 10000}, {3, 333}, {3600000, 9999}};
    static const uint32_t differences[] = {0, 1, 5, 0x80000000, 0xFFFFFFFF};
    const size_t timeout = roll() % COUNT(timeouts);
    PaperSetup s;
    s.rule = roll() % 2;
    s.taken = roll() % 2;
    s.use = roll() % 2;
    s.history = lengths[roll() % COUNT(lengths)];
    s.ms = timeouts[timeout][0];
    s.rate = timeouts[timeout][1];
    s.paths = 2 + roll() % 7;
    s.difference = differences[roll() % COUNT(differences)];
    return s;
}

/* Long runs from a fresh state: mostly packets near the newest number, now and then silence until the timeout, or a leap. */
static void runs(void) {
    static const uint8_t answers_met[] = {AHZ_DONE, AHZ_PASS, AHZ_DISCARD, AHZ_TICK, AHZ_RESET, AHZ_LATENT_OK, AHZ_LATENT_ERROR};
    unsigned run, i, answered[256] = {0};
    uint64_t before = 0, missed = 0;
    for (run = 0; run < 60; run++) {
        PaperState fresh = paper_fresh(any_setup());
        uint64_t words[AHZ_S_WORDS];
        fresh.setup.rule = run % 2;
        fresh.setup.taken = run / 2 % 2;
        fresh.setup.use = run / 4 % 2;
        paper_words(&fresh, words);
        for (i = 0; i < 400; i++) {
            const uint64_t what = roll() % 64, history = words[AHZ_S_HISTORY], newest = words[AHZ_S_NEWEST];
            const uint64_t near = newest + roll() % (2 * history + 3) - history - 1;
            if (what < 12) answered[expect_event(words, 1, (uint16_t)(newest + 1))]++;
            else if (what < 40) answered[expect_event(words, 1, (uint16_t)near)]++;
            else if (what < 42) answered[expect_event(words, 1, (uint16_t)roll())]++;
            else if (what < 46) answered[expect_event(words, 2, 0)]++;
            else if (what < 58) answered[expect_event(words, 3, 0)]++;
            else if (what < 59) answered[expect_event(words, 4, 0)]++;
            else if (what < 60) answered[expect_event(words, 5, 0)]++;
            else answered[expect_event(words, 6, 0)]++;
        }
        before += words[AHZ_S_BEFORE_FIRST];
        missed += words[AHZ_S_LOST] - words[AHZ_S_BEFORE_FIRST];
    }
    for (i = 0; i < COUNT(answers_met); i++) EXPECT(answered[answers_met[i]] > 100);
    EXPECT(answered[AHZ_R_STATE] == 0 && before > 100 && missed > 100);
}

static uint64_t any_counter(void) {
    static const uint64_t counters[] = {0, 1, UINT64_MAX, UINT64_MAX - 1, UINT32_MAX, UINT64_C(1) << 32, UINT64_C(1) << 63};
    return roll() % 2 == 0 ? counters[roll() % COUNT(counters)] : roll();
}

/* A sound state of any kind, which no run need lead to. */
static PaperState any_state(void) {
    PaperState state = paper_fresh(any_setup());
    const uint64_t full = paper_ticks(state.setup.ms, state.setup.rate);
    uint64_t apart;
    unsigned k;
    state.left = roll() % 3 == 0 ? full : roll() % (full + 1);
    if (roll() % 8 != 0) {
        state.take_any = 0;
        state.newest = roll() % 4 == 0 ? (65533 + roll() % 6) % 65536 : roll() % 65536;
        if (state.left == 0) state.left = 1;
        for (k = 0; k < state.setup.history && state.setup.rule == 0; k++) state.marks[k] = k == 0 || roll() % 3 > 0;
        state.first = roll() % (state.setup.history + 1);
        if (state.first > 0 && state.marks[state.first - 1] == 0) state.first = 0;
    }
    for (k = AHZ_S_PASSED; k < AHZ_S_BASE; k++) *paper_field(&state, k) = any_counter();
    /* The base: about as far from the figure as the difference is, on both sides, and as far away as can be. */
    apart = state.setup.difference + roll() % 3 - 1;
    if (roll() % 8 == 0) apart = (UINT64_C(1) << 63) + roll() % 3 - 1;
    state.base = paper_figure(&state) + (roll() % 2 == 0 ? apart : 0 - apart);
    return state;
}

static void single_events(void) {
    unsigned n, answers[2] = {0, 0};
    for (n = 0; n < 600; n++) {
        PaperState state = any_state();
        uint64_t words[AHZ_S_WORDS], same[AHZ_S_WORDS];
        paper_words(&state, words);
        memcpy(same, words, sizeof same);
        expect_each(words);
        answers[expect_event(same, 6, 0) == AHZ_LATENT_ERROR]++;
    }
    EXPECT(answers[0] > 50 && answers[1] > 50);
    for (n = 0; n < 200; n++) { /* all nine counters at the last number before they wrap */
        PaperState state = any_state();
        uint64_t words[AHZ_S_WORDS];
        unsigned k;
        for (k = AHZ_S_PASSED; k < AHZ_S_BASE; k++) *paper_field(&state, k) = UINT64_MAX;
        paper_words(&state, words);
        expect_each(words);
    }
}

/* Words of sound states, one of them changed to a number about the edges of its range or beyond its field. */
static void unsound(void) {
    static const uint64_t numbers[] = {0, 1, 2, 3, 4, 7, 8, 9, 63, 64, 65, 255, 256, 257, 258, 511, 512, 513, 9999, 10000, 10001, 65534,
                                       65535, 65536, 3600000, 3600001, UINT32_MAX, UINT64_C(1) << 32, (UINT64_C(1) << 32) + 1,
                                       UINT64_C(1) << 63, UINT64_MAX, 0x41485A03, 0x41485A05, 0x045A4841};
    unsigned n, word, refused = 0;
    size_t i;
    for (n = 0; n < 12; n++) {
        PaperState state = any_state(), changed;
        uint64_t words[AHZ_S_WORDS], other[AHZ_S_WORDS];
        state.setup.rule = n % 2;
        state.take_any = n / 2 % 3 == 0;
        state.setup.use = n / 6;
        if (state.take_any == 1 || state.setup.rule == 1) memset(state.marks, 0, sizeof state.marks);
        if (state.take_any == 1) state.newest = 65535;
        if (state.take_any == 0 && state.left == 0) state.left = 1;
        if (state.take_any == 0 && state.setup.rule == 0) state.marks[0] = 1;
        state.first = state.take_any == 0 && state.setup.rule == 0;
        paper_words(&state, words);
        EXPECT(paper_state(words, &changed) == 1);
        for (word = 0; word <= AHZ_S_LEFT; word++) {
            const uint64_t full = paper_ticks(state.setup.ms, state.setup.rate), was = words[word];
            const uint64_t own[] = {was ^ 1, was + 256, was + 65536, was + (UINT64_C(1) << 32), was | UINT64_C(1) << 63, full, full + 1,
                                    was | UINT64_C(1) << state.setup.history % 64, was | UINT64_C(1) << (state.setup.history - 1) % 64};
            for (i = 0; i < COUNT(numbers) + COUNT(own); i++) {
                memcpy(other, words, sizeof other);
                other[word] = i < COUNT(numbers) ? numbers[i] : own[i - COUNT(numbers)];
                refused += paper_state(other, &changed) == 0;
                expect_each(other);
            }
        }
    }
    EXPECT(refused > 1000);
}

/* "Marks at the history length and above clear", up to the 512th: one mark more in states of every kind, about the ends of the window and
 * of each word. Within the window it is sound under vector where a number has been heard; else every step refuses it. */
static void marks_beyond(void) {
    unsigned n, k, sound[2] = {0, 0};
    for (n = 0; n < 240; n++) {
        PaperState state = any_state();
        uint64_t words[AHZ_S_WORDS], other[AHZ_S_WORDS];
        const unsigned history = (unsigned)state.setup.history;
        const int heard = state.setup.rule == 0 && state.take_any == 0;
        paper_words(&state, words);
        for (k = 0; k < 512; k++) {
            const int right = heard && k < history;
            uint8_t kind;
            if (k % 64 > 1 && k % 64 < 62 && k != history - 1 && k != history && k != 500) continue;
            sound[right]++;
            for (kind = 1; kind <= 6; kind++) {
                memcpy(other, words, sizeof other);
                other[AHZ_S_MARKS + k / 64] |= UINT64_C(1) << k % 64;
                EXPECT((expect_event(other, kind, (uint16_t)(words[AHZ_S_NEWEST] + 1)) == AHZ_R_STATE) == !right);
            }
        }
    }
    EXPECT(sound[0] > 1000 && sound[1] > 500);
}

/* Every number about the ends of the window and of each word, and numbers that no place has, for the first place of states of every kind.
 * It is sound where there is none, and under vector where a number has been heard and the mark of that place is set; else every step
 * refuses it. */
static void first_places(void) {
    static const uint64_t beyond[] = {1023, 1024, 1025, 65535, 65536, 65537, UINT32_MAX, UINT64_C(1) << 32, (UINT64_C(1) << 32) + 1,
                                      (UINT64_C(1) << 32) + 512, UINT64_C(1) << 63, (UINT64_C(1) << 63) + 1, UINT64_MAX};
    enum { PLACES = 516 };
    unsigned n, sound[2] = {0, 0};
    uint64_t i;
    uint8_t kind;
    for (n = 0; n < 120; n++) {
        PaperState state = any_state();
        uint64_t words[AHZ_S_WORDS], other[AHZ_S_WORDS];
        paper_words(&state, words);
        for (i = 0; i < PLACES + COUNT(beyond); i++) {
            const uint64_t first = i < PLACES ? i : beyond[i - PLACES], history = words[AHZ_S_HISTORY];
            const int heard = words[AHZ_S_RULE] == AHZ_RULE_VECTOR && words[AHZ_S_TAKE_ANY] == 0;
            const int right = first == 0 || (heard && first <= history && state.marks[first - 1] == 1);
            if (i > 8 && i < PLACES && i % 64 > 2 && i % 64 < 62 && (i + 2 < history || i > history + 2)) continue;
            words[AHZ_S_FIRST] = first;
            sound[right]++;
            for (kind = 1; kind <= 6; kind++) {
                memcpy(other, words, sizeof other);
                EXPECT((expect_event(other, kind, (uint16_t)(words[AHZ_S_NEWEST] + 1)) == AHZ_R_STATE) == !right);
            }
        }
    }
    EXPECT(sound[0] > 1000 && sound[1] > 500);
}

static void expect_no_state(const uint64_t *words, size_t count) {
    uint8_t kind;
    for (kind = 1; kind <= 6; kind++) {
        EXPECT(event((uint64_t *)lend_aligned(&space, words, count * 8), count, kind, 7) == AHZ_R_STATE && kept_but(&space, 0));
    }
}

/* Fewer words than a state has are none, whatever they hold. */
static void shorter(void) {
    PaperState state = any_state();
    uint64_t words[AHZ_S_WORDS];
    size_t count;
    paper_words(&state, words);
    for (count = 0; count < AHZ_S_WORDS; count++) expect_no_state(words, count);
}

/* The words that older versions had, by themselves and at the start of a longer record; and the words of this version under their formats.
 * Version 3 had one word of marks, version 2 no before-first and no first place either, and version 1 no use. */
static void older_versions(void) {
    static const struct {
        unsigned version, place, count; /* so many words at that place, which the version lacks and the next one has */
    } gone[] = {{3, AHZ_S_MARKS + 1, 7}, {2, 22, 1}, {2, 11, 1}, {1, AHZ_S_USE, 1}};
    unsigned n, k;
    for (n = 0; n < 100; n++) {
        PaperState state = any_state();
        uint64_t words[AHZ_S_WORDS], old[AHZ_S_WORDS + 7] = {0};
        size_t count;
        paper_words(&state, words);
        EXPECT(ahz_latent_test(words, AHZ_S_WORDS) != AHZ_R_STATE);
        memcpy(old, words, sizeof words);
        for (k = 0; k < COUNT(gone); k++) {
            const unsigned from = gone[k].place + gone[k].count;
            memmove(old + gone[k].place, old + from, (AHZ_S_WORDS - from) * sizeof old[0]);
            if (k + 1 < COUNT(gone) && gone[k + 1].version == gone[k].version) continue;
            words[0] = old[0] = 0x41485A00 + gone[k].version;
            expect_no_state(words, AHZ_S_WORDS);
            for (count = 21; count <= AHZ_S_WORDS + 7; count++) expect_no_state(old, count);
        }
        EXPECT(old[20] == words[AHZ_S_BASE] && old[9] == words[AHZ_S_MARKS]);
    }
}

/* A fresh state of that setup; its full ticks are 10. */
static void begin(uint64_t *words, unsigned rule, unsigned use, uint16_t history) {
    EXPECT(ahz_fresh_v4((uint8_t)rule, AHZ_NOT_TAKEN, (uint8_t)use, history, 100, 100, 2, 1, words, AHZ_S_WORDS) == AHZ_DONE);
}

/* The paper's edges, as it writes them: a rule, H, then numbers with their verdicts, order and rogue at the end. Both uses agree. */
static void edges(void) {
    static const struct {
        uint8_t rule;
        uint16_t history, numbers[4];
        uint8_t count;
        char verdicts[5];
        uint64_t order, rogue;
    } cases[] = {
        {0, 4, {10}, 1, "p", 0, 0},          {0, 4, {10, 13}, 2, "pp", 1, 0},          {0, 4, {10, 14}, 2, "pd", 0, 1},
        {0, 4, {10, 13, 11}, 3, "ppp", 2, 0}, {0, 4, {10, 13, 10}, 3, "ppd", 1, 0},    {0, 4, {10, 13, 9}, 3, "ppd", 1, 1},
        {0, 4, {65535, 0}, 2, "pp", 0, 0},   {0, 64, {0, 65473}, 2, "pp", 1, 0},       {0, 64, {0, 65472}, 2, "pd", 0, 1},
        {0, 64, {0, 32768}, 2, "pd", 0, 1},  {1, 8, {5, 6, 5}, 3, "ppp", 1, 0},        {1, 8, {5, 5}, 2, "pd", 0, 0},
        {0, 512, {0, 65025, 65024}, 3, "ppd", 1, 1}, {0, 512, {0, 65024}, 2, "pd", 0, 1}, {0, 512, {0, 511}, 2, "pp", 1, 0},
        {0, 512, {0, 512}, 2, "pd", 0, 1},
    };
    size_t i, k;
    for (i = 0; i < 2 * COUNT(cases); i++) {
        const size_t c = i / 2;
        uint64_t words[AHZ_S_WORDS];
        begin(words, cases[c].rule, i % 2, cases[c].history);
        for (k = 0; k < cases[c].count; k++) {
            const int passes = cases[c].verdicts[k] == 'p';
            EXPECT(ahz_numbered(words, AHZ_S_WORDS, cases[c].numbers[k]) == (passes ? AHZ_PASS : AHZ_DISCARD));
        }
        EXPECT(words[AHZ_S_ORDER] == cases[c].order && words[AHZ_S_ROGUE] == cases[c].rogue);
    }
}

/* Slides worked out by hand, which the paper's loop is held to as well: at the ends of a word, about its middle, and in windows that do not
 * fill one. H, d, the marks and the first place; then the marks and the first place after it, and how many clear ones left, in all and from
 * below the first place. The number and every counter that changes wrap. */
static void slides(void) {
    static const struct {
        uint16_t history, d;
        uint64_t marks, first, later, later_first, lost, before;
    } cases[] = {
        {2, 1, 0x1, 1, 0x3, 2, 1, 1}, /* only the newest is marked */
        {2, 1, 0x1, 0, 0x3, 0, 1, 0},
        {2, 1, 0x3, 1, 0x3, 2, 0, 0},
        {2, 1, 0x3, 2, 0x3, 0, 0, 0},
        {3, 2, 0x1, 1, 0x5, 3, 2, 2},
        {3, 2, 0x3, 2, 0x5, 0, 1, 1},
        {4, 3, 0xF, 1, 0x9, 4, 0, 0},
        {4, 1, 0x7, 3, 0xF, 4, 1, 1},
        {4, 3, 0x5, 3, 0x9, 0, 2, 1}, /* one above the first place, and one below it */
        {4, 2, 0x5, 3, 0x5, 0, 1, 1}, /* the first place leaves, and the one above it stays */
        {63, 1, UINT64_C(0x7FFFFFFFFFFFFFFF), 63, UINT64_C(0x7FFFFFFFFFFFFFFF), 0, 0, 0}, /* none comes to place 63 */
        {63, 1, UINT64_C(0x4000000000000001), 1, 0x3, 2, 0, 0},
        {63, 1, UINT64_C(0x2000000000000001), 62, UINT64_C(0x4000000000000003), 63, 1, 1},
        {63, 62, 0x1, 1, UINT64_C(0x4000000000000001), 63, 62, 62},
        {63, 62, UINT64_C(0x7FFFFFFFFFFFFFFF), 2, UINT64_C(0x4000000000000001), 0, 0, 0},
        {64, 1, 0x1, 1, 0x3, 2, 1, 1},
        {64, 1, UINT64_MAX, 64, UINT64_MAX, 0, 0, 0},
        {64, 1, UINT64_C(0x8000000000000001), 64, 0x3, 0, 0, 0}, /* the last leaves */
        {64, 1, UINT64_C(0x4000000000000001), 63, UINT64_C(0x8000000000000003), 64, 1, 1}, /* and the one before it becomes the last */
        {64, 1, UINT64_C(0x7FFFFFFFFFFFFFFF), 40, UINT64_MAX, 41, 1, 1},
        {64, 8, 0x80000001, 32, UINT64_C(0x8000000101), 40, 8, 8},
        {64, 32, UINT64_C(0x00000000FFFFFFFF), 32, UINT64_C(0xFFFFFFFF00000001), 64, 32, 32},
        {64, 32, UINT64_C(0xFFFFFFFF00000001), 33, UINT64_C(0x0000000100000001), 0, 0, 0},
        {64, 40, 0x80000001, 32, UINT64_C(0x0000010000000001), 0, 39, 32}, /* 7 above the first place, 32 below it */
        {64, 40, 0x80000001, 1, UINT64_C(0x0000010000000001), 41, 39, 39},
        {64, 62, 0x3, 2, UINT64_C(0xC000000000000001), 64, 62, 62},
        {64, 62, 0x5, 3, UINT64_C(0x4000000000000001), 0, 61, 61},
        {64, 63, 0x1, 1, UINT64_C(0x8000000000000001), 64, 63, 63}, /* all leave but the newest */
        {64, 63, 0x1, 0, UINT64_C(0x8000000000000001), 0, 63, 0},
        {64, 63, 0x3, 2, UINT64_C(0x8000000000000001), 0, 62, 62},
        {64, 63, UINT64_C(0x8000000000000001), 64, UINT64_C(0x8000000000000001), 0, 62, 0},
        {64, 63, UINT64_C(0xC000000000000001), 63, UINT64_C(0x8000000000000001), 0, 61, 0},
        {64, 63, UINT64_C(0x4000000000000001), 63, UINT64_C(0x8000000000000001), 0, 62, 1},
        {64, 63, UINT64_MAX, 1, UINT64_C(0x8000000000000001), 64, 0, 0},
    };
    size_t i;
    for (i = 0; i < COUNT(cases); i++) {
        const uint16_t d = cases[i].d, number = (uint16_t)(d - 1);
        uint64_t words[AHZ_S_WORDS], expected[AHZ_S_WORDS];
        begin(words, AHZ_RULE_VECTOR, AHZ_USE_SEQUENCE, cases[i].history);
        words[AHZ_S_NEWEST] = 65535;
        words[AHZ_S_MARKS] = cases[i].marks;
        words[AHZ_S_FIRST] = cases[i].first;
        words[AHZ_S_TAKE_ANY] = 0;
        words[AHZ_S_LEFT] = 3;
        words[AHZ_S_PASSED] = words[AHZ_S_ORDER] = words[AHZ_S_LOST] = words[AHZ_S_BEFORE_FIRST] = UINT64_MAX;
        memcpy(expected, words, sizeof expected);
        expected[AHZ_S_NEWEST] = number;
        expected[AHZ_S_MARKS] = cases[i].later;
        expected[AHZ_S_FIRST] = cases[i].later_first;
        expected[AHZ_S_LEFT] = 10;
        expected[AHZ_S_PASSED]++;
        expected[AHZ_S_ORDER] += d != 1;
        expected[AHZ_S_LOST] += cases[i].lost;
        expected[AHZ_S_BEFORE_FIRST] += cases[i].before;
        EXPECT(expect_event(words, 1, number) == AHZ_PASS && memcmp(words, expected, sizeof expected) == 0);
    }
}

/* Slides in windows of several words, worked out by hand as well. Marks are ranges of them; mark 0, which stands where a list is shorter,
 * is always set. */
typedef struct {
    uint16_t from, to;
} Range;

static void put_marks(uint64_t *words, const Range *ranges, size_t count) {
    size_t i;
    unsigned k;
    memset(words + AHZ_S_MARKS, 0, AHZ_MARK_WORDS * sizeof words[0]);
    for (i = 0; i < count; i++) {
        for (k = ranges[i].from; k <= ranges[i].to; k++) words[AHZ_S_MARKS + k / 64] |= UINT64_C(1) << k % 64;
    }
}

static void long_slides(void) {
    static const struct {
        uint16_t history, d;
        Range marks[4];
        uint64_t first;
        Range later[4];
        uint64_t later_first, lost, before;
    } cases[] = {
        {65, 1, {{0, 0}}, 1, {{0, 1}}, 2, 1, 1},                              /* one mark more than a word has */
        {65, 1, {{0, 63}}, 64, {{0, 64}}, 65, 1, 1},
        {65, 1, {{0, 64}}, 65, {{0, 64}}, 0, 0, 0},                           /* none comes to place 65 */
        {65, 1, {{0, 0}, {64, 64}}, 65, {{0, 1}}, 0, 0, 0},
        {65, 64, {{0, 0}}, 1, {{0, 0}, {64, 64}}, 65, 64, 64},
        {65, 64, {{0, 64}}, 2, {{0, 0}, {64, 64}}, 0, 0, 0},
        {127, 64, {{0, 62}}, 63, {{0, 0}, {64, 126}}, 127, 64, 64},
        {128, 1, {{0, 127}}, 128, {{0, 127}}, 0, 0, 0},
        {128, 63, {{0, 0}, {64, 64}}, 65, {{0, 0}, {63, 63}, {127, 127}}, 128, 63, 63},
        {128, 64, {{0, 63}}, 64, {{0, 0}, {64, 127}}, 128, 64, 64},           /* a whole word */
        {128, 64, {{0, 0}, {63, 64}}, 64, {{0, 0}, {64, 64}, {127, 127}}, 128, 63, 63},
        {128, 65, {{0, 63}}, 64, {{0, 0}, {65, 127}}, 0, 64, 64},
        {128, 127, {{0, 0}}, 1, {{0, 0}, {127, 127}}, 128, 127, 127},
        {449, 1, {{0, 448}}, 1, {{0, 448}}, 2, 0, 0},                         /* none comes to place 449 */
        {449, 1, {{0, 0}, {448, 448}}, 449, {{0, 1}}, 0, 0, 0},
        {449, 448, {{0, 448}}, 449, {{0, 0}, {448, 448}}, 0, 0, 0},
        {511, 1, {{0, 510}}, 511, {{0, 510}}, 0, 0, 0},
        {511, 510, {{0, 0}}, 1, {{0, 0}, {510, 510}}, 511, 510, 510},
        {512, 1, {{0, 0}}, 1, {{0, 1}}, 2, 1, 1},
        {512, 1, {{0, 511}}, 512, {{0, 511}}, 0, 0, 0},
        {512, 1, {{0, 0}, {511, 511}}, 512, {{0, 1}}, 0, 0, 0},               /* the last leaves */
        {512, 1, {{0, 0}, {510, 510}}, 511, {{0, 1}, {511, 511}}, 512, 1, 1}, /* and the one before it becomes the last */
        {512, 1, {{0, 63}, {127, 127}, {447, 448}}, 64, {{0, 64}, {128, 128}, {448, 449}}, 65, 1, 1},
        {512, 64, {{0, 447}}, 448, {{0, 0}, {64, 511}}, 512, 64, 64},
        {512, 64, {{0, 0}, {447, 448}}, 449, {{0, 0}, {64, 64}, {511, 511}}, 0, 63, 63},
        {512, 256, {{0, 255}}, 256, {{0, 0}, {256, 511}}, 512, 256, 256},     /* four words */
        {512, 320, {{0, 0}, {100, 191}, {300, 300}}, 301, {{0, 0}, {320, 320}, {420, 511}}, 0, 319, 211}, /* 108 above it */
        {512, 448, {{0, 0}, {63, 64}}, 65, {{0, 0}, {448, 448}, {511, 511}}, 0, 447, 447},
        {512, 500, {{0, 0}, {11, 12}}, 13, {{0, 0}, {500, 500}, {511, 511}}, 0, 499, 499},
        {512, 511, {{0, 0}}, 1, {{0, 0}, {511, 511}}, 512, 511, 511},         /* all leave but the newest */
        {512, 511, {{0, 0}}, 0, {{0, 0}, {511, 511}}, 0, 511, 0},
        {512, 511, {{0, 511}}, 1, {{0, 0}, {511, 511}}, 512, 0, 0},
        {512, 511, {{0, 0}, {2, 2}, {64, 64}, {511, 511}}, 65, {{0, 0}, {511, 511}}, 0, 508, 446},
    };
    size_t i;
    for (i = 0; i < COUNT(cases); i++) {
        const uint16_t d = cases[i].d, number = (uint16_t)(d - 1);
        uint64_t words[AHZ_S_WORDS], expected[AHZ_S_WORDS];
        begin(words, AHZ_RULE_VECTOR, AHZ_USE_SEQUENCE, cases[i].history);
        words[AHZ_S_TAKE_ANY] = 0;
        words[AHZ_S_LEFT] = 10;
        words[AHZ_S_FIRST] = cases[i].first;
        memcpy(expected, words, sizeof expected);
        put_marks(words, cases[i].marks, COUNT(cases[i].marks));
        put_marks(expected, cases[i].later, COUNT(cases[i].later));
        expected[AHZ_S_NEWEST] = number;
        expected[AHZ_S_FIRST] = cases[i].later_first;
        expected[AHZ_S_PASSED] = 1;
        expected[AHZ_S_ORDER] = d != 1;
        expected[AHZ_S_LOST] = cases[i].lost;
        expected[AHZ_S_BEFORE_FIRST] = cases[i].before;
        EXPECT(expect_event(words, 1, number) == AHZ_PASS && memcmp(words, expected, sizeof expected) == 0);
    }
}

/* Every number from the one that is too far ahead to the one that is too far behind, on marks without a pattern, with few holes and with
 * many, against the paper: each slide and each late packet that a window has. */
static void every_difference(void) {
    static const uint16_t lengths[] = {63, 64, 65, 66, 127, 128, 129, 192, 449, 511, 512};
    size_t i;
    unsigned many;
    for (i = 0; i < COUNT(lengths); i++) {
        for (many = 0; many < 2; many++) {
            const int history = lengths[i];
            int d, passed = 0;
            for (d = -history; d <= history; d++) {
                PaperState state = any_state();
                uint64_t words[AHZ_S_WORDS];
                int k;
                state.setup.rule = 0;
                state.setup.history = (uint64_t)history;
                state.take_any = 0;
                state.left = 1;
                for (k = 0; k < 512; k++) state.marks[k] = k == 0 || (k < history && (roll() % 8 == 0) == many);
                state.first = 1 + roll() % (uint64_t)history;
                state.marks[state.first - 1] = 1;
                paper_words(&state, words);
                passed += expect_event(words, 1, (uint16_t)(state.newest + (uint64_t)(int64_t)d)) == AHZ_PASS;
            }
            EXPECT(passed >= history - 1 && passed < 2 * history - 1);
        }
    }
}

/* A slow arm 500 places behind a fast one that drops every seventh packet: under H 512 each of those passes once, late, when the slow one
 * brings it, and all else that it brings is a repeat. Nothing is lost but what lies below the first packet. */
static void slow_arm(void) {
    enum { BEHIND = 500, PACKETS = 3000 };
    uint64_t words[AHZ_S_WORDS], late = 0;
    unsigned n;
    begin(words, AHZ_RULE_VECTOR, AHZ_USE_SEQUENCE, 512);
    for (n = 0; n < PACKETS; n++) {
        const uint16_t fast = (uint16_t)(65000 + n), slow = (uint16_t)(65000 + n - BEHIND);
        if (n % 7 != 3) EXPECT(expect_event(words, 1, fast) == AHZ_PASS);
        if (n < BEHIND) continue;
        EXPECT(expect_event(words, 1, slow) == ((n - BEHIND) % 7 == 3 ? AHZ_PASS : AHZ_DISCARD));
        late += (n - BEHIND) % 7 == 3;
    }
    EXPECT(late == 357 && words[AHZ_S_ROGUE] == 0 && words[AHZ_S_LOST] == 511 && words[AHZ_S_BEFORE_FIRST] == 511);
    EXPECT(words[AHZ_S_PASSED] == PACKETS - 429 + late && words[AHZ_S_DISCARDED] == PACKETS - BEHIND - late);
    EXPECT(words[AHZ_S_ORDER] == 428 + late); /* one for each gap: the last drop is the last packet */
}

/* ---- Holes before the first packet ---- */

/* Events that are no packet with a number: the tape's kinds of them, and a timeout. */
enum { TAGLESS = -2, TICK = -3, RESET = -4, LATENT_RESET = -5, TIMEOUT = -7 };

/* Worked out by hand: a rule, H and events, then lost and before-first, and the first place at the end. */
static void holes(void) {
    static const struct {
        uint8_t rule;
        uint16_t history;
        int32_t events[10];
        size_t count;
        uint64_t lost, before, first;
    } cases[] = {
        {0, 4, {10}, 1, 0, 0, 1},
        {0, 4, {10, 12, 11}, 3, 2, 2, 3},                  /* 7 and 8 have left; 9 is open */
        {0, 4, {10, 10, 12, 11, 20}, 5, 2, 2, 3},          /* the paper's tape: a repeat and a rogue leave all of it */
        {0, 4, {10, 13}, 2, 3, 3, 4},                      /* the first place is the last of the window */
        {0, 4, {10, 13, 14}, 3, 3, 3, 0},                  /* and leaves it: it has passed, and is no hole */
        {0, 4, {10, 12, 14}, 3, 3, 3, 0},                  /* 9, below it, and 10 itself */
        {0, 4, {10, 12, 15}, 3, 4, 3, 0},                  /* 9 below it, and 11 above it: from both sides in one slide */
        {0, 4, {10, 12, 15, 18}, 4, 6, 3, 0},              /* without it in the window, none is before it: 13 and 14 */
        {0, 4, {10, 8, 12}, 3, 1, 1, 3},                   /* 8 is below it, late, and passes: it is no hole, and 7 is */
        {0, 4, {10, 7, 8, 9, 13}, 5, 0, 0, 4},
        {0, 2, {10, 11}, 2, 1, 1, 2},                      /* the shortest window */
        {0, 2, {10, 11, 12, 13}, 4, 1, 1, 0},
        {0, 3, {10, 12, 13}, 3, 2, 2, 0},
        {0, 3, {10, 12, 13, 14}, 4, 3, 2, 0},              /* 11 is next to it and above it */
        {0, 8, {100, 103, 107}, 3, 7, 7, 8},               /* 93 to 99 */
        {0, 8, {100, 103, 107, 110}, 4, 9, 7, 0},          /* 101 and 102 */
        {0, 64, {1000, 1063}, 2, 63, 63, 64},              /* the longest */
        {0, 64, {1000, 1063, 1064}, 3, 63, 63, 0},
        {0, 64, {1000, 1063, 1126}, 3, 125, 63, 0},        /* 1001 to 1062 */
        {0, 64, {1000, 1001, 1064}, 3, 63, 63, 0},
        {0, 512, {1000, 1511}, 2, 511, 511, 512},
        {0, 512, {1000, 1511, 1512}, 3, 511, 511, 0},
        {0, 512, {1000, 1511, 2022}, 3, 1021, 511, 0},     /* 1001 to 1510 */
        {0, 512, {100, 600, 101, 612}, 4, 511, 511, 0},    /* 101 comes 499 behind, and stays */
        {0, 512, {100, 600, 613}, 3, 512, 511, 0},         /* and here it leaves */
        {0, 512, {65535, 510}, 2, 511, 511, 512},
        {0, 4, {65535, 1}, 2, 2, 2, 3},                    /* across 65,535 */
        {0, 4, {0, 2, 5}, 3, 4, 3, 0},
        {0, 4, {65533, 65535, 2}, 3, 4, 3, 0},
        {0, 4, {TAGLESS, TICK, 10, TAGLESS, TICK, 12}, 6, 2, 2, 3},
        {0, 4, {10, 12, LATENT_RESET}, 3, 2, 2, 3},        /* a latent reset leaves it */
        {0, 4, {10, 12, LATENT_RESET, 15}, 4, 4, 3, 0},
        {0, 4, {10, 12, RESET}, 3, 2, 2, 0},               /* a reset keeps the counters and no place */
        {0, 4, {10, 12, RESET, 10}, 4, 2, 2, 1},
        {0, 4, {10, 12, RESET, 100, 102, 105}, 6, 6, 5, 0}, /* three more below, 97, 98 and 99, and one above, 101 */
        {0, 4, {10, 12, TIMEOUT}, 3, 2, 2, 0},             /* as does a timeout */
        {0, 4, {10, 12, 15, TIMEOUT, 10, 11}, 6, 5, 4, 2},
        {0, 4, {RESET, RESET, 10, 11, RESET, 10, 11}, 7, 2, 2, 2},
        {1, 4, {5}, 1, 0, 0, 0},                           /* match keeps none */
        {1, 4, {5, 9, 7, RESET, 5, 8}, 6, 0, 0, 0},
    };
    size_t i, k;
    for (i = 0; i < COUNT(cases); i++) {
        uint64_t words[AHZ_S_WORDS];
        begin(words, cases[i].rule, AHZ_USE_SEQUENCE, cases[i].history);
        for (k = 0; k < cases[i].count; k++) {
            const int32_t what = cases[i].events[k];
            unsigned tick;
            if (what >= 0) (void)expect_event(words, 1, (uint16_t)what);
            else if (what != TIMEOUT) (void)expect_event(words, (uint8_t)-what, 0);
            for (tick = 1; what == TIMEOUT && tick <= 10; tick++) EXPECT(expect_event(words, 3, 0) == (tick < 10 ? AHZ_TICK : AHZ_RESET));
        }
        EXPECT(words[AHZ_S_LOST] == cases[i].lost && words[AHZ_S_BEFORE_FIRST] == cases[i].before);
        EXPECT(words[AHZ_S_FIRST] == cases[i].first);
    }
}

/* Spans from a start or a reset to the next, counted from their packets alone: of the places that the window has left, those that no packet
 * passed at are lost. Below the first place they are before-first, and above it what is left of lost. */
static void spans(void) {
    enum { FIRST = 512, PACKETS = 60, PLACES = FIRST + 511 * PACKETS };
    static const uint16_t lengths[] = {2, 3, 4, 8, 33, 63, 64, 65, 128, 511, 512};
    size_t i;
    unsigned span, packet;
    for (i = 0; i < COUNT(lengths); i++) {
        const int history = lengths[i];
        uint64_t words[AHZ_S_WORDS];
        begin(words, AHZ_RULE_VECTOR, AHZ_USE_SEQUENCE, lengths[i]);
        words[AHZ_S_LOST] = UINT64_MAX - 20;
        words[AHZ_S_BEFORE_FIRST] = UINT64_MAX - 10;
        for (span = 0; span < 20; span++) {
            const uint64_t lost = words[AHZ_S_LOST], before = words[AHZ_S_BEFORE_FIRST], number = roll();
            const int reach = span % 2 == 0 ? history : 2;
            uint8_t passed[PLACES] = {0};
            int newest = FIRST, place;
            for (packet = 0; packet < PACKETS; packet++) {
                const int at = packet == 0 ? FIRST : newest - reach + (int)(roll() % (2 * (unsigned)reach + 1));
                const int passes = at > newest - history && at < newest + history && passed[at] == 0;
                uint64_t below = 0, above = 0;
                EXPECT(ahz_numbered(words, AHZ_S_WORDS, (uint16_t)(number + (unsigned)at)) == (passes ? AHZ_PASS : AHZ_DISCARD));
                if (passes) passed[at] = 1;
                if (passes && at > newest) newest = at;
                for (place = FIRST - history + 1; place <= newest - history; place++) {
                    below += place < FIRST && passed[place] == 0;
                    above += place > FIRST && passed[place] == 0;
                }
                EXPECT(words[AHZ_S_BEFORE_FIRST] - before == below && words[AHZ_S_LOST] - lost == below + above);
            }
            EXPECT(ahz_reset(words, AHZ_S_WORDS) == AHZ_DONE);
        }
    }
}

/* ---- The timer in both uses, worked out by hand: what each kind of discarded packet does to it, and the stuck sender ---- */

static void expect_left(uint64_t *words, uint8_t kind, uint16_t number, uint8_t answer, uint64_t left) {
    EXPECT(expect_event(words, kind, number) == answer && words[AHZ_S_LEFT] == left);
}

/* After 8 and 10 and three ticks of ten; then a packet that is discarded, and at last one that passes. */
static void discards(void) {
    static const struct {
        uint8_t rule, kind;
        uint16_t number;
        uint64_t rogue, tagless;
    } packets[] = {
        {AHZ_RULE_VECTOR, 1, 10, 0, 0},    /* duplicates: of the newest, and of one further back */
        {AHZ_RULE_VECTOR, 1, 8, 0, 0},
        {AHZ_RULE_VECTOR, 1, 14, 1, 0},    /* rogues: above, below, and as far away as can be */
        {AHZ_RULE_VECTOR, 1, 6, 1, 0},
        {AHZ_RULE_VECTOR, 1, 32778, 1, 0},
        {AHZ_RULE_VECTOR, 2, 0, 0, 1},     /* without a number, and not taken */
        {AHZ_RULE_MATCH, 1, 10, 0, 0},
        {AHZ_RULE_MATCH, 2, 0, 0, 1},
    };
    unsigned i, use;
    for (i = 0; i < COUNT(packets); i++) {
        for (use = 0; use < 2; use++) {
            const uint64_t left = use == AHZ_USE_INDIVIDUAL ? 10 : 7;
            uint64_t words[AHZ_S_WORDS];
            begin(words, packets[i].rule, use, 4);
            expect_left(words, 1, 8, AHZ_PASS, 10);
            expect_left(words, 1, 10, AHZ_PASS, 10);
            expect_left(words, 3, 0, AHZ_TICK, 9);
            expect_left(words, 3, 0, AHZ_TICK, 8);
            expect_left(words, 3, 0, AHZ_TICK, 7);
            expect_left(words, packets[i].kind, packets[i].number, AHZ_DISCARD, left);
            EXPECT(words[AHZ_S_DISCARDED] == 1 && words[AHZ_S_ROGUE] == packets[i].rogue && words[AHZ_S_TAGLESS] == packets[i].tagless);
            expect_left(words, 3, 0, AHZ_TICK, left - 1);
            expect_left(words, 1, 11, AHZ_PASS, 10);
        }
    }
}

/* A packet without a number at a state that takes any, and ten ticks: in individual use the last of them is a timeout, a reset that is
 * counted, and in sequence use the timer stands. Either way the state takes any after it. */
static void before_any_number(void) {
    unsigned rule, use, tick;
    for (rule = 0; rule < 2; rule++) {
        for (use = 0; use < 2; use++) {
            const uint64_t full = use == AHZ_USE_INDIVIDUAL ? 10 : 0;
            uint64_t words[AHZ_S_WORDS], fresh[AHZ_S_WORDS];
            begin(words, rule, use, 4);
            memcpy(fresh, words, sizeof fresh);
            expect_left(words, 2, 0, AHZ_DISCARD, full);
            EXPECT(words[AHZ_S_TAKE_ANY] == 1 && words[AHZ_S_NEWEST] == 65535 && words[AHZ_S_MARKS] == 0);
            for (tick = 1; tick <= 9; tick++) expect_left(words, 3, 0, AHZ_TICK, full == 0 ? 0 : full - tick);
            expect_left(words, 3, 0, full == 0 ? AHZ_TICK : AHZ_RESET, 0);
            fresh[AHZ_S_DISCARDED] = fresh[AHZ_S_TAGLESS] = 1;
            fresh[AHZ_S_RESETS] = full == 0 ? 0 : 1;
            EXPECT(memcmp(words, fresh, sizeof words) == 0);
            expect_left(words, 2, 0, AHZ_DISCARD, full);
            expect_left(words, 1, 40000, AHZ_PASS, 10);
        }
    }
}

/* One number again and again, each after six ticks of ten: in sequence use the timer runs out under every second one, which passes. In
 * individual use it never does. */
static void stuck_sender(void) {
    unsigned rule, use, turn, tick;
    for (rule = 0; rule < 2; rule++) {
        for (use = 0; use < 2; use++) {
            const uint64_t out = use == AHZ_USE_SEQUENCE ? 30 : 0;
            uint64_t words[AHZ_S_WORDS];
            begin(words, rule, use, 4);
            expect_left(words, 1, 10, AHZ_PASS, 10);
            for (turn = 1; turn <= 60; turn++) {
                const int passes = use == AHZ_USE_SEQUENCE && turn % 2 == 0;
                for (tick = 1; tick <= 6; tick++) EXPECT(expect_event(words, 3, 0) == (passes && tick == 4 ? AHZ_RESET : AHZ_TICK));
                EXPECT(expect_event(words, 1, 10) == (passes ? AHZ_PASS : AHZ_DISCARD));
            }
            EXPECT(words[AHZ_S_RESETS] == out && words[AHZ_S_PASSED] == 1 + out && words[AHZ_S_DISCARDED] == 60 - out);
        }
    }
}

/* ---- What the typed forms read of a state, and of an answer ---- */

static void typed(void) {
    unsigned n, k;
    for (n = 0; n < 200; n++) {
        PaperState state = any_state();
        ahz_state_t words;
        ahz_setup_t setup;
        ahz_counters_t counters;
        uint16_t newest = 0x5A5A, below = 0xA5A5;
        paper_words(&state, words.words);
        setup = ahz_state_setup(&words);
        counters = ahz_state_counters(&words);
        EXPECT(setup.rule == state.setup.rule && setup.taken == state.setup.taken && setup.use == state.setup.use);
        EXPECT(setup.history == state.setup.history && setup.timeout.ms == state.setup.ms && setup.rate.per_second == state.setup.rate);
        EXPECT(setup.paths == state.setup.paths && setup.difference == state.setup.difference);
        EXPECT(counters.passed == state.passed && counters.discarded == state.discarded && counters.order == state.order);
        EXPECT(counters.rogue == state.rogue && counters.lost == state.lost && counters.tagless == state.tagless);
        EXPECT(counters.resets == state.resets && counters.latent_resets == state.latent_resets);
        EXPECT(counters.before_first == state.before_first);
        EXPECT(ahz_state_ticks_left(&words).ticks == state.left && ahz_state_base(&words) == state.base);
        for (k = 0; k < 512; k++) EXPECT(ahz_state_mark(&words, k) == (state.marks[k] == 1));
        EXPECT(ahz_state_mark(&words, 512) == 0 && ahz_state_mark(&words, 640) == 0 && ahz_state_mark(&words, SIZE_MAX) == 0);
        EXPECT(ahz_state_newest(&words, &newest) == (state.take_any == 0));
        EXPECT(newest == (state.take_any == 0 ? state.newest : 0x5A5A));
        EXPECT(ahz_state_first(&words, &below) == (state.first > 0));
        EXPECT(below == (state.first > 0 ? state.first - 1 : 0xA5A5));
    }
}

static void answers(void) {
    unsigned answer, other;
    EXPECT(ahz_version() == AHZ_VERSION && ahz_version_fits() == 1);
    for (answer = 0; answer < 256; answer++) EXPECT(ahz_is_refusal((uint8_t)answer) == (answer >= 1 && answer <= 99));
    for (answer = 0; answer < 256; answer++) {
        const int has_one = (answer >= 1 && answer <= 28) || answer == 37;
        EXPECT((strcmp(ahz_refusal_sentence((uint8_t)answer), "no refusal") != 0) == has_one);
        for (other = 1; has_one && other < answer; other++) {
            EXPECT(strcmp(ahz_refusal_sentence((uint8_t)answer), ahz_refusal_sentence((uint8_t)other)) != 0);
        }
    }
    EXPECT(strcmp(ahz_refusal_sentence(AHZ_R_TAKEN_OR_USE), "taken flag or use not 0 or 1") == 0);
    EXPECT(strcmp(ahz_refusal_sentence(AHZ_R_PATH_ID), "path or LAN id over 15") == 0);
}

int main(void) {
    static void (*const parts[])(void) = {edges, slides, long_slides, every_difference, slow_arm, holes, spans, discards, before_any_number,
                                          stuck_sender, numbering, ticks, setups, histories, setup_order, runs, single_events, unsound,
                                          marks_beyond, first_places, shorter, older_versions, typed, answers};
    return run_tests("tests/c/states.c", parts, COUNT(parts));
}
