/* A wrong layer. Each call forwards to the proved one, whose names have `real_` in front, and does one thing wrong where AHZ_FAULT names
 * it. Without AHZ_FAULT it is faithful. faults.txt has each fault with the test that is to catch it; tools/faults builds and runs this. */
#include <math.h>
#include <stdlib.h>
#include <string.h>

#include "ahozurime.h"

#define REAL(call) extern __typeof__(call) real_##call
REAL(ahz_version);
REAL(ahz_read);
REAL(ahz_payload);
REAL(ahz_insert);
REAL(ahz_remove);
REAL(ahz_read_hsr);
REAL(ahz_read_prp);
REAL(ahz_insert_hsr);
REAL(ahz_insert_prp);
REAL(ahz_remove_hsr);
REAL(ahz_remove_prp);
REAL(ahz_crc32);
REAL(ahz_check_fcs);
REAL(ahz_without_fcs);
REAL(ahz_append_fcs);
REAL(ahz_check_table);
REAL(ahz_lookup);
REAL(ahz_generator);
REAL(ahz_generate);
REAL(ahz_generator_reset);
REAL(ahz_ticks);
REAL(ahz_check_setup_v2);
REAL(ahz_fresh_v4);
REAL(ahz_numbered);
REAL(ahz_tagless);
REAL(ahz_tick);
REAL(ahz_reset);
REAL(ahz_latent_reset);
REAL(ahz_latent_test);
REAL(ahz_card);
REAL(ahz_card_octets);
REAL(ahz_rest_octets);
REAL(ahz_volts);
REAL(ahz_tape_v3);

static const char *chosen = "";
static volatile uint8_t looked_at;

__attribute__((constructor)) static void choose(void)
{
    const char *named = getenv("AHZ_FAULT");
    chosen = named ? named : "";
}

static int fault(const char *name)
{
    return strcmp(chosen, name) == 0;
}

uint32_t ahz_version(void)
{
    return real_ahz_version();
}

/* ---- Frames ---- */

static uint16_t two(const uint8_t *octets)
{
    return (uint16_t)(octets[0] << 8 | octets[1]);
}

static void put_two(uint8_t *octets, unsigned number)
{
    octets[0] = (uint8_t)(number >> 8);
    octets[1] = (uint8_t)number;
}

/* The two octets at a place of a frame; 0 where it ends before them. */
static uint16_t two_at(const uint8_t *frame, size_t frame_octets, size_t at)
{
    return at + 2 <= frame_octets ? two(frame + at) : 0;
}

/* Where an R-TAG or an HSR tag stands or would, and the type there. */
static size_t tag_place(const uint8_t *frame, size_t frame_octets)
{
    return two_at(frame, frame_octets, 12) == AHZ_TYPE_CTAG ? 16 : 12;
}

static uint16_t tag_type(const uint8_t *frame, size_t frame_octets)
{
    return two_at(frame, frame_octets, tag_place(frame, frame_octets));
}

static int has_tag(const uint8_t *frame, size_t frame_octets)
{
    const uint16_t type = tag_type(frame, frame_octets);

    return type == AHZ_TYPE_RTAG || type == AHZ_TYPE_HSR;
}

/* The frame with six octets put in at a place, and without the six that stand there. */
static uint8_t with_six(const uint8_t *frame, size_t frame_octets, size_t at, const uint8_t *six, uint8_t *out, size_t *length)
{
    memcpy(out, frame, at);
    memcpy(out + at, six, 6);
    memcpy(out + at + 6, frame + at, frame_octets - at);
    *length = frame_octets + 6;
    return AHZ_DONE;
}

static uint8_t without_six(const uint8_t *frame, size_t frame_octets, size_t at, uint8_t *out, size_t *length)
{
    memcpy(out, frame, at);
    memcpy(out + at, frame + at + 6, frame_octets - at - 6);
    *length = frame_octets - 6;
    return AHZ_DONE;
}

/* As much of a frame as there is room for. */
static void write_some(const uint8_t *frame, size_t frame_octets, uint8_t *out, size_t room)
{
    memcpy(out, frame, room < frame_octets ? room : frame_octets);
}

typedef uint8_t reader(const uint8_t *frame, size_t frame_octets, uint64_t *header, size_t header_words);

/* The place of a type that a reader takes for the last one, though it is a tag's or may not stand there; 0 where there is none. */
static size_t misplaced(reader *real, const uint8_t *frame, size_t frame_octets)
{
    const size_t at = tag_place(frame, frame_octets);
    const uint16_t type = two_at(frame, frame_octets, at), behind = two_at(frame, frame_octets, at + 6);

    if (frame_octets > AHZ_FRAME_LONGEST)
        return 0;
    if (fault("892f-no-tag") && real == real_ahz_read && type == AHZ_TYPE_HSR)
        return at;
    if ((fault("892f-after-r") && type == AHZ_TYPE_RTAG && behind == AHZ_TYPE_HSR) ||
        (fault("f1c1-after-hsr") && type == AHZ_TYPE_HSR && behind == AHZ_TYPE_RTAG) ||
        (fault("892f-after-hsr") && type == AHZ_TYPE_HSR && behind == AHZ_TYPE_HSR) ||
        (fault("8100-after-hsr") && type == AHZ_TYPE_HSR && behind == AHZ_TYPE_CTAG))
        return at + 6;
    return 0;
}

/* A reader that a type at a wrong place goes through. */
static uint8_t read_through(reader *real, const uint8_t *frame, size_t frame_octets, uint64_t *header, size_t header_words)
{
    const size_t at = misplaced(real, frame, frame_octets);
    uint8_t other[AHZ_FRAME_LONGEST], answer;

    if (fault("892f-after-c-is-4") && frame_octets >= 24 && frame_octets <= AHZ_FRAME_LONGEST && two(frame + 12) == AHZ_TYPE_CTAG &&
        (two(frame + 14) & 0xFFF) != 0xFFF && two(frame + 16) == AHZ_TYPE_HSR)
        return AHZ_R_TAG_TWICE;
    if (at == 0)
        return real(frame, frame_octets, header, header_words);
    memcpy(other, frame, frame_octets);
    put_two(other + at, 0x0800);
    answer = real(other, frame_octets, header, header_words);
    if (answer == AHZ_DONE)
        header[AHZ_H_TYPE] = two(frame + at);
    return answer;
}

uint8_t ahz_read(const uint8_t *frame, size_t frame_octets, uint64_t *header, size_t header_words)
{
    size_t octets = fault("length-16-bits") ? (uint16_t)frame_octets : frame_octets;
    uint8_t answer = read_through(real_ahz_read, frame, octets, header, header_words);

    if (fault("frame-changed") && frame_octets > 14)
        ((uint8_t *)frame)[frame_octets - 1] ^= 1;
    if (fault("read-behind"))
        looked_at = frame[frame_octets];
    if (answer != AHZ_DONE)
        return answer;
    if (fault("header-garbage"))
        header[AHZ_H_VLAN] |= UINT64_C(1) << 40;
    if (fault("number-without-tag") && !header[AHZ_H_NUMBERED])
        header[AHZ_H_NUMBER] = header[AHZ_H_TYPE];
    if (fault("hsr-number-in-r") && tag_type(frame, octets) == AHZ_TYPE_HSR) {
        header[AHZ_H_NUMBERED] = 1;
        header[AHZ_H_NUMBER] = two(frame + tag_place(frame, octets) + 4);
    }
    return answer;
}

size_t ahz_payload(const uint8_t *frame, size_t frame_octets)
{
    size_t octets = real_ahz_payload(frame, frame_octets);

    if (fault("892f-in-payload") && octets > 0 && tag_type(frame, frame_octets) == AHZ_TYPE_HSR)
        return octets + 6;
    return octets;
}

uint8_t ahz_insert(const uint8_t *frame, size_t frame_octets, uint16_t number, uint8_t *out, size_t out_octets, size_t *length)
{
    size_t room = fault("room-16-bits") ? (uint16_t)out_octets : out_octets;
    uint8_t answer = real_ahz_insert(frame, frame_octets, number, out, room, length);

    if (fault("octet-behind") && answer == AHZ_DONE)
        out[out_octets] = 0;
    if (fault("length-on-refusal") && answer == AHZ_R_OUTPUT_SHORT)
        *length = frame_octets + 6;
    if (fault("r-before-hsr") && answer == AHZ_R_TAG_THERE && tag_type(frame, frame_octets) == AHZ_TYPE_HSR &&
        out_octets >= frame_octets + 6) {
        const uint8_t tag[6] = {0xF1, 0xC1, 0, 0, (uint8_t)(number >> 8), (uint8_t)number};

        return with_six(frame, frame_octets, tag_place(frame, frame_octets), tag, out, length);
    }
    return answer;
}

uint8_t ahz_remove(const uint8_t *frame, size_t frame_octets, uint8_t *out, size_t out_octets, size_t *length)
{
    uint8_t answer = real_ahz_remove(frame, frame_octets, out, out_octets, length);

    if (fault("octet-before") && answer == AHZ_DONE)
        out[-1] = 0;
    if (fault("later-octets") && answer == AHZ_DONE)
        memset(out + *length, 0, out_octets - *length);
    if (fault("refusal-writes") && answer == AHZ_R_OUTPUT_SHORT)
        memcpy(out, frame, out_octets);
    if (fault("r-drops-hsr-tag") && answer == AHZ_R_NO_TAG && tag_type(frame, frame_octets) == AHZ_TYPE_HSR &&
        out_octets >= frame_octets - 6)
        return without_six(frame, frame_octets, tag_place(frame, frame_octets), out, length);
    return answer;
}

/* ---- HSR and PRP ---- */

static void number_found(uint64_t *header, unsigned number, unsigned id)
{
    header[AHZ_H_NUMBERED] = 1;
    header[AHZ_H_NUMBER] = number;
    header[AHZ_H_PATH_ID] = id;
}

static void number_lost(uint64_t *header)
{
    header[AHZ_H_NUMBERED] = header[AHZ_H_NUMBER] = header[AHZ_H_PATH_ID] = 0;
}

/* What an HSR stream reads of a good frame. */
static void read_tag(const uint8_t *frame, size_t frame_octets, uint64_t *header)
{
    const size_t at = tag_place(frame, frame_octets), payload = frame_octets - (size_t)header[AHZ_H_PAYLOAD];

    if (fault("hsr-size-compared") && header[AHZ_H_NUMBERED] && (two(frame + at + 2) & 0xFFF) != payload + 6)
        number_lost(header);
    if (fault("r-number-in-hsr") && two(frame + at) == AHZ_TYPE_RTAG)
        number_found(header, two(frame + at + 4), 0);
}

/* What a PRP stream reads of one. Each fault takes for a trailer what is none, or the other way round. */
static void read_trailer(const uint8_t *frame, size_t frame_octets, uint64_t *header)
{
    const size_t at = tag_place(frame, frame_octets), payload = frame_octets - (size_t)header[AHZ_H_PAYLOAD];
    const uint8_t *six = frame + frame_octets - 6;
    const unsigned bits = two(six + 2), size = bits & 0xFFF, suffix = two(six + 4);
    const int suffixed = payload >= 6 && suffix == AHZ_SUFFIX_PRP, sized = payload >= 6 && size == payload;
    const int tagged = has_tag(frame, frame_octets), was = header[AHZ_H_NUMBERED] == 1;
    int is = was;

    if (fault("prp-size-less-six"))
        is = suffixed && size == payload - 6;
    if (fault("prp-size-with-tag"))
        is = suffixed && size == payload + (tagged ? 6 : 0);
    if ((fault("prp-wrong-size") && suffixed) || (fault("prp-size-11-bits") && suffixed && (size & 0x7FF) == payload) ||
        (fault("prp-size-8-bits") && suffixed && (uint8_t)size == (uint8_t)payload) ||
        (fault("prp-suffix-either") && sized && suffix == 0xFB88) || (fault("prp-suffix-half") && sized && (uint8_t)suffix == 0xFB) ||
        (fault("trailer-in-5") && payload == 5 && size == 5 && suffix == AHZ_SUFFIX_PRP))
        is = 1;
    if ((fault("prp-id-in-size") && bits != payload) || (fault("no-trailer-in-6") && payload == 6) ||
        (fault("tag-hides-trailer") && tagged))
        is = 0;
    if (is && !was)
        number_found(header, two(six), bits >> 12);
    if (!is && was)
        number_lost(header);
    if (fault("tag-number-in-prp") && !is && tagged)
        number_found(header, two(frame + at + 4), 0);
}

/* A reader of nine words, for either encoding. */
static uint8_t read_nine(int prp, const uint8_t *frame, size_t frame_octets, uint64_t *header, size_t header_words)
{
    reader *real = prp ? real_ahz_read_prp : real_ahz_read_hsr;
    const size_t octets = fault("prp-length-16") && prp ? (uint16_t)frame_octets : frame_octets;
    uint8_t answer = read_through(real, frame, octets, header, header_words);
    uint64_t nine[AHZ_H_ID_WORDS];
    unsigned bits;

    if (fault("prp-looks-before") && prp)
        looked_at = frame[(ptrdiff_t)frame_octets - 6];
    if (fault("prp-looks-behind") && prp)
        looked_at = frame[frame_octets];
    if (fault("8-before-frame") && header_words < AHZ_H_ID_WORDS)
        return AHZ_R_OUTPUT_SHORT;
    if ((fault("eight-words-taken") || fault("words-on-8")) && answer == AHZ_R_OUTPUT_SHORT && header_words == AHZ_H_WORDS &&
        real(frame, octets, nine, AHZ_H_ID_WORDS) == AHZ_DONE) {
        memcpy(header, nine, AHZ_H_WORDS * sizeof *header);
        return fault("eight-words-taken") ? AHZ_DONE : answer;
    }
    if (fault("ninth-on-refusal") && answer != AHZ_DONE && header_words >= AHZ_H_ID_WORDS)
        header[AHZ_H_PATH_ID] = 0;
    if (answer != AHZ_DONE)
        return answer;
    if (fault("tenth-word") && header_words > AHZ_H_ID_WORDS)
        header[AHZ_H_ID_WORDS] = 0;
    if (prp)
        read_trailer(frame, octets, header);
    else
        read_tag(frame, octets, header);
    if (fault("number-not-own") && !header[AHZ_H_NUMBERED] && has_tag(frame, octets))
        header[AHZ_H_NUMBER] = two(frame + tag_place(frame, octets) + 4);
    bits = two_at(frame, octets, prp ? octets - 4 : tag_place(frame, octets) + 2);
    if (fault("id-not-answered"))
        header[AHZ_H_PATH_ID] = 0;
    if (fault("id-with-size") && header[AHZ_H_NUMBERED])
        header[AHZ_H_PATH_ID] = bits;
    if (fault("id-from-low-bits") && header[AHZ_H_NUMBERED])
        header[AHZ_H_PATH_ID] = bits & 15;
    if (fault("id-without-number") && !header[AHZ_H_NUMBERED])
        header[AHZ_H_PATH_ID] = bits >> 12;
    if (fault("size-mended") && !prp && header[AHZ_H_NUMBERED])
        put_two((uint8_t *)frame + tag_place(frame, octets) + 2,
                (bits & 0xF000) | (unsigned)(octets - (size_t)header[AHZ_H_PAYLOAD] + 6));
    return answer;
}

uint8_t ahz_read_hsr(const uint8_t *frame, size_t frame_octets, uint64_t *header, size_t header_words)
{
    return read_nine(0, frame, frame_octets, header, header_words);
}

uint8_t ahz_read_prp(const uint8_t *frame, size_t frame_octets, uint64_t *header, size_t header_words)
{
    return read_nine(1, frame, frame_octets, header, header_words);
}

/* The refusal of an insertion into a frame that reading refuses or not, by faults in their order or in a bound; 0 where there is none. */
static uint8_t refused_early(int prp, const uint8_t *frame, size_t frame_octets, uint8_t reading, uint8_t id, size_t room)
{
    const int over = id > AHZ_PATH_ID_LAST, good = reading == AHZ_DONE, tagged = has_tag(frame, frame_octets);

    if (over && (fault("37-first") || (fault("37-before-5") && reading == AHZ_R_VLAN)))
        return AHZ_R_PATH_ID;
    if (good && tagged && ((fault("37-after-6") && over && !prp) || (fault("prp-6") && !over && prp)))
        return AHZ_R_TAG_THERE;
    if (good && ((fault("37-after-7") && over && frame_octets > 1516) || (fault("1516-not-put-in") && !over && frame_octets == 1516)))
        return AHZ_R_RESULT_LONG;
    if (fault("37-after-8") && good && over && room < frame_octets + 6)
        return AHZ_R_OUTPUT_SHORT;
    if (fault("id-15-refused") && good && id == 15)
        return AHZ_R_PATH_ID;
    return AHZ_DONE;
}

/* The six octets that were put in, each fault being a mistake in one of their numbers. */
static void spoil(int prp, const uint8_t *frame, size_t frame_octets, uint8_t *six)
{
    const unsigned bits = two(six + 2), id = bits >> 12, size = bits & 0xFFF;
    uint8_t *number = prp ? six : six + 4;

    if (fault("id-size-swapped"))
        put_two(six + 2, size << 4 | id);
    if (fault("size-less-six"))
        put_two(six + 2, bits - 6);
    if (fault("size-with-type"))
        put_two(six + 2, bits + 2);
    if (fault("size-with-tag") && has_tag(frame, frame_octets))
        put_two(six + 2, bits + 6);
    if (fault("size-8-bits"))
        put_two(six + 2, bits & 0xF0FF);
    if (fault("id-left-out"))
        put_two(six + 2, size);
    if (fault("number-low-first"))
        put_two(number, __builtin_bswap16(two(number)));
    if (fault("hsr-as-r-tag") && !prp)
        put_two(six, AHZ_TYPE_RTAG);
    if (fault("suffix-swapped") && prp)
        put_two(six + 4, 0xFB88);
    if (fault("suffix-first") && prp) {
        put_two(six + 4, two(six));
        put_two(six, AHZ_SUFFIX_PRP);
    }
}

static uint8_t insert_six(int prp, const uint8_t *frame, size_t frame_octets, uint16_t number, uint8_t id, uint8_t *out, size_t out_octets,
                          size_t *length)
{
    __typeof__(ahz_insert_hsr) *real = prp ? real_ahz_insert_prp : real_ahz_insert_hsr;
    const size_t room = fault("put-in-room-16") ? (uint16_t)out_octets : out_octets;
    const size_t at = prp ? frame_octets : tag_place(frame, frame_octets);
    uint64_t header[AHZ_H_WORDS];
    const uint8_t reading = real_ahz_read(frame, frame_octets, header, AHZ_H_WORDS);
    uint8_t six[6], answer = refused_early(prp, frame, frame_octets, reading, id, out_octets);

    if (answer != AHZ_DONE)
        return answer;
    if (fault("id-cut") || (fault("id-16-taken") && id == 16))
        id &= 15;
    answer = real(frame, frame_octets, number, id, out, room, length);
    /* Any six octets do where there should be none. */
    memset(six, 0, sizeof six);
    if (((fault("6-for-own-tag") && answer == AHZ_R_TAG_THERE && tag_type(frame, frame_octets) == AHZ_TYPE_RTAG) ||
         (fault("1517-put-in") && answer == AHZ_R_RESULT_LONG && frame_octets == 1517)) &&
        out_octets >= frame_octets + 6)
        return with_six(frame, frame_octets, at, six, out, length);
    if ((fault("37-writes") && answer == AHZ_R_PATH_ID) || (fault("put-in-on-8") && answer == AHZ_R_OUTPUT_SHORT))
        write_some(frame, frame_octets, out, out_octets);
    if (fault("37-length") && answer == AHZ_R_PATH_ID)
        *length = frame_octets + 6;
    if (answer != AHZ_DONE)
        return answer;
    spoil(prp, frame, frame_octets, out + at);
    memcpy(six, out + at, 6);
    if (fault("trailer-in-front") && prp)
        return with_six(frame, frame_octets, (size_t)header[AHZ_H_PAYLOAD], six, out, length);
    if (fault("hsr-before-c-tag") && !prp)
        return with_six(frame, frame_octets, 12, six, out, length);
    if (fault("put-in-behind"))
        out[out_octets] = 0;
    return answer;
}

uint8_t ahz_insert_hsr(const uint8_t *frame, size_t frame_octets, uint16_t number, uint8_t path_id, uint8_t *out, size_t out_octets,
                       size_t *length)
{
    return insert_six(0, frame, frame_octets, number, path_id, out, out_octets, length);
}

uint8_t ahz_insert_prp(const uint8_t *frame, size_t frame_octets, uint16_t number, uint8_t lan_id, uint8_t *out, size_t out_octets,
                       size_t *length)
{
    return insert_six(1, frame, frame_octets, number, lan_id, out, out_octets, length);
}

/* A removal from a frame that has a number in the encoding or, at 9, none. Each fault drops other octets, or where there is nothing to. */
static uint8_t remove_six(int prp, const uint8_t *frame, size_t frame_octets, uint8_t *out, size_t out_octets, size_t *length)
{
    __typeof__(ahz_remove_hsr) *real = prp ? real_ahz_remove_prp : real_ahz_remove_hsr;
    const size_t at = tag_place(frame, frame_octets);
    uint64_t header[AHZ_H_WORDS];
    const int good = real_ahz_read(frame, frame_octets, header, AHZ_H_WORDS) == AHZ_DONE;
    const size_t payload_at = good ? (size_t)header[AHZ_H_PAYLOAD] : 0;
    const int roomy = good && out_octets >= frame_octets - 6;
    uint8_t answer;

    if (fault("9-by-hsr-size") && !prp && good && (two_at(frame, frame_octets, at + 2) & 0xFFF) != frame_octets - payload_at + 6)
        return AHZ_R_NO_TAG;
    answer = real(frame, frame_octets, out, out_octets, length);
    if (fault("8-before-9") && answer == AHZ_R_NO_TAG && !roomy)
        return AHZ_R_OUTPUT_SHORT;
    if (answer == AHZ_R_NO_TAG && roomy) {
        if (fault("hsr-drops-r-tag") && !prp && tag_type(frame, frame_octets) == AHZ_TYPE_RTAG)
            return without_six(frame, frame_octets, at, out, length);
        if (fault("prp-drops-any") && prp && frame_octets - payload_at >= 6)
            return without_six(frame, frame_octets, frame_octets - 6, out, length);
    }
    if (fault("taken-off-on-8") && answer == AHZ_R_OUTPUT_SHORT)
        write_some(frame, frame_octets, out, out_octets);
    if (answer != AHZ_DONE)
        return answer;
    if (fault("prp-drops-first") && prp)
        return without_six(frame, frame_octets, payload_at, out, length);
    if (fault("prp-drops-tag") && prp && has_tag(frame, frame_octets))
        return without_six(frame, frame_octets, at, out, length);
    if (fault("prp-drops-four") && prp && out_octets >= frame_octets - 4) {
        memcpy(out, frame, frame_octets - 4);
        *length = frame_octets - 4;
    }
    if (fault("trailer-cleared") && prp)
        memset(out + *length, 0, out_octets - *length < 6 ? out_octets - *length : 6);
    return answer;
}

uint8_t ahz_remove_hsr(const uint8_t *frame, size_t frame_octets, uint8_t *out, size_t out_octets, size_t *length)
{
    return remove_six(0, frame, frame_octets, out, out_octets, length);
}

uint8_t ahz_remove_prp(const uint8_t *frame, size_t frame_octets, uint8_t *out, size_t out_octets, size_t *length)
{
    return remove_six(1, frame, frame_octets, out, out_octets, length);
}

/* ---- The frame check sequence ---- */

/* Faults named crc-.. are in the CRC-32 itself: all calls over it then make them, and agree with each other. */
static int miscounts(void)
{
    return strncmp(chosen, "crc-", 4) == 0;
}

/* A CRC-32 by octets and the words of a table, each of them made by its eight steps. */
static uint32_t miscounted(const uint8_t *data, size_t octets)
{
    uint32_t sum = fault("crc-starts-at-0") ? 0 : UINT32_MAX;

    if (fault("crc-of-none") && octets == 0)
        return sum;
    if (fault("crc-16-bits"))
        octets = (uint16_t)octets;
    if (fault("crc-last-left-out") && octets > 0)
        octets -= 1;
    for (size_t at = 0; at < octets; at++) {
        const uint8_t index = (uint8_t)sum ^ data[at];
        uint32_t word = index;

        for (int step = 0; step < 8; step++)
            word = word >> 1 ^ (word & 1 ? 0xEDB88320 : 0);
        if (fault("crc-wrong-word") && index == 200)
            word ^= 0x10000;
        sum = sum >> 8 ^ word;
    }
    if (fault("crc-not-inverted"))
        return sum;
    return fault("crc-high-first") ? __builtin_bswap32(~sum) : ~sum;
}

uint32_t ahz_crc32(const uint8_t *data, size_t data_octets)
{
    if (fault("sum-looks-behind"))
        looked_at = data[data_octets];
    return miscounts() ? miscounted(data, data_octets) : real_ahz_crc32(data, data_octets);
}

/* Whether so many octets, the low one first, are those of a number. */
static int holds(const uint8_t *check, uint32_t number, int octets)
{
    for (int at = 0; at < octets; at++)
        if (check[at] != (uint8_t)(number >> 8 * at))
            return 0;
    return 1;
}

/* The verdict on the last four octets of a frame of any length. Each fault compares them with another number, with a second one too, in
 * part, or not at all. */
static uint8_t verdict(const uint8_t *frame, size_t frame_octets)
{
    const uint8_t *check = frame + frame_octets - 4;
    uint32_t number = ahz_crc32(frame, frame_octets - 4);

    if (fault("check-in-itself"))
        number = real_ahz_crc32(frame, frame_octets);
    if (fault("check-last-out"))
        number = real_ahz_crc32(frame, frame_octets - 5);
    if (fault("check-high-first"))
        number = __builtin_bswap32(number);
    if (holds(check, number, fault("check-3-octets") ? 3 : 4) || fault("mismatch-good") ||
        (fault("check-either-way") && holds(check, __builtin_bswap32(number), 4)) ||
        (fault("check-inverted-too") && holds(check, ~number, 4)))
        return AHZ_DONE;
    return AHZ_R_FCS;
}

uint8_t ahz_check_fcs(const uint8_t *frame, size_t frame_octets)
{
    const size_t octets = fault("check-16-bits") ? (uint16_t)frame_octets : frame_octets;
    uint64_t header[AHZ_H_WORDS];
    uint8_t answer = real_ahz_check_fcs(frame, octets);

    if ((fault("17-octets-checked") && octets == 17) || (fault("1527-checked") && octets == 1527))
        return verdict(frame, octets);
    if (fault("18-octets-refused") && octets == 18)
        return AHZ_R_FRAME_SHORT;
    if (fault("1526-refused") && octets == 1526)
        return AHZ_R_FRAME_LONG;
    if (((fault("28-before-1") && answer == AHZ_R_FRAME_SHORT && octets >= 4) || (fault("28-before-2") && answer == AHZ_R_FRAME_LONG)) &&
        verdict(frame, octets) == AHZ_R_FCS)
        return AHZ_R_FCS;
    if (fault("check-reads-tags") && answer == AHZ_DONE)
        return real_ahz_read(frame, octets - 4, header, AHZ_H_WORDS);
    if (fault("check-taken-off")) {
        if (answer == AHZ_DONE)
            memset((uint8_t *)frame + octets - 4, 0, 4);
        return answer;
    }
    /* A frame of a good length is judged here where there is a fault, and by the proved call where there is none. */
    return *chosen != '\0' && (answer == AHZ_DONE || answer == AHZ_R_FCS) ? verdict(frame, octets) : answer;
}

size_t ahz_without_fcs(const uint8_t *frame, size_t frame_octets)
{
    const int fits = frame_octets >= AHZ_FCS_SHORTEST && frame_octets <= AHZ_FCS_LONGEST;
    size_t octets = real_ahz_without_fcs(frame, frame_octets);

    if (miscounts() && fits)
        octets = verdict(frame, frame_octets) == AHZ_DONE ? frame_octets - 4 : 0;
    if ((fault("part-of-28") && fits) || (fault("part-of-1527") && frame_octets == 1527))
        return frame_octets - 4;
    if (fault("part-one-short") && octets > 0)
        return octets - 1;
    if (fault("part-one-long") && octets > 0)
        return octets + 1;
    return octets;
}

/* A frame of any length and its check, as far as there is room. */
static uint8_t append(const uint8_t *frame, size_t frame_octets, uint8_t *out, size_t room, size_t *length)
{
    uint32_t number = ahz_crc32(frame, frame_octets);

    if (fault("append-high-first"))
        number = __builtin_bswap32(number);
    for (size_t at = 0; at < frame_octets + 4 && at < room; at++)
        out[at] = at < frame_octets ? frame[at] : (uint8_t)(number >> 8 * (at - frame_octets));
    *length = frame_octets + 4;
    return AHZ_DONE;
}

uint8_t ahz_append_fcs(const uint8_t *frame, size_t frame_octets, uint8_t *out, size_t out_octets, size_t *length)
{
    const size_t result = frame_octets + 4, room = fault("append-room-16") ? (uint16_t)out_octets : out_octets;
    const int fits = frame_octets >= AHZ_FRAME_SHORTEST && frame_octets <= AHZ_FRAME_LONGEST;
    uint64_t header[AHZ_H_WORDS];
    uint8_t answer;

    if (fault("append-reads-tags") && (answer = real_ahz_read(frame, frame_octets, header, AHZ_H_WORDS)) != AHZ_DONE)
        return answer;
    if (fault("14-not-appended") && frame_octets == 14)
        return AHZ_R_FRAME_SHORT;
    if (fault("1522-not-appended") && frame_octets == 1522)
        return AHZ_R_FRAME_LONG;
    if (((fault("8-before-1") && frame_octets < 14) || (fault("8-before-2") && frame_octets > 1522)) && out_octets < result)
        return AHZ_R_OUTPUT_SHORT;
    if (((fault("13-appended") && frame_octets == 13) || (fault("1523-appended") && frame_octets == 1523)) && out_octets >= result)
        return append(frame, frame_octets, out, out_octets, length);
    if (fault("append-cut") && fits && out_octets == result - 1)
        return append(frame, frame_octets, out, out_octets, length);
    answer = real_ahz_append_fcs(frame, frame_octets, out, room, length);
    if (fault("append-on-refusal") && answer == AHZ_R_OUTPUT_SHORT)
        memcpy(out, frame, out_octets < frame_octets ? out_octets : frame_octets);
    if ((fault("append-length-on-8") && answer == AHZ_R_OUTPUT_SHORT) || (fault("append-length-on-2") && answer == AHZ_R_FRAME_LONG))
        *length = result;
    if (answer != AHZ_DONE)
        return answer;
    if (miscounts() || fault("append-high-first"))
        answer = append(frame, frame_octets, out, out_octets, length);
    if (fault("append-clears-next") && out_octets > result)
        out[result] = 0;
    if (fault("append-behind"))
        out[out_octets] = 0;
    if (fault("append-length-less"))
        *length = frame_octets;
    return answer;
}

/* ---- Stream tables ---- */

/* As much of a table as decides: the longest one, and the first octet of a 257th entry. */
enum { DECIDES = AHZ_TABLE_LONGEST + 1 };

static size_t entry_octets(uint8_t kind)
{
    return kind == AHZ_KIND_IP ? AHZ_IP_ENTRY_OCTETS : AHZ_ENTRY_OCTETS;
}

/* Where the 257th entry begins, or before it the first that is cut or of no known kind. */
static size_t walked(const uint8_t *table, size_t table_octets)
{
    size_t at = 0;

    for (int entry = 0; entry < AHZ_TABLE_ENTRIES && at < table_octets; entry++) {
        if ((table[at] != AHZ_KIND_DESTINATION && table[at] != AHZ_KIND_SOURCE && table[at] != AHZ_KIND_IP) ||
            table_octets - at < entry_octets(table[at]))
            break;
        at += entry_octets(table[at]);
    }
    return at;
}

/* A table that is read in a wrong way, as the one that is then checked or looked up in: as many octets of it as decide, or 0 where the two
 * are one. */
static size_t misread_table(const uint8_t *table, size_t table_octets, uint8_t *other)
{
    const size_t octets = table_octets < DECIDES ? table_octets : DECIDES;

    memcpy(other, table, octets);
    for (size_t at = 0; at < octets; at += entry_octets(other[at])) {
        uint8_t *entry = other + at;

        if ((fault("kind-3-taken") && entry[0] == 3) || (fault("kind-4-12-octets") && entry[0] == AHZ_KIND_IP))
            entry[0] = AHZ_KIND_DESTINATION;
        if (entry[0] != AHZ_KIND_IP || octets - at < AHZ_IP_ENTRY_OCTETS)
            continue;
        if (fault("dscp-64-taken") && entry[18] == 64)
            entry[18] = 63;
        if (fault("dscp-63-refused") && entry[18] == 63)
            entry[18] = 64;
        if (fault("dscp-255-refused") && entry[18] == 255)
            entry[18] = 254;
        if (fault("next-0-taken") && entry[19] == 0)
            entry[19] = AHZ_PROTOCOL_NONE;
        if (fault("next-5-taken") && entry[19] == 5)
            entry[19] = AHZ_PROTOCOL_SCTP;
    }
    return memcmp(other, table, octets) == 0 ? 0 : octets;
}

uint8_t ahz_check_table(const uint8_t *table, size_t table_octets)
{
    uint8_t other[DECIDES], answer;
    const size_t octets = misread_table(table, table_octets, other), last = walked(table, table_octets), over = table_octets - last;

    if (octets > 0)
        return real_ahz_check_table(other, octets);
    answer = real_ahz_check_table(table, table_octets);
    if (fault("3072-at-most") && answer == AHZ_DONE && table_octets > 3072)
        return AHZ_R_ENTRY_257;
    if (fault("range-before-cut") && answer == AHZ_R_ENTRY_CUT && over > 7 && (uint8_t)(table[last + 7] - 1) > 2)
        return AHZ_R_ENTRY_RANGE;
    if (fault("dscp-before-cut") && answer == AHZ_R_ENTRY_CUT && over > 18 && table[last + 18] > 63 && table[last + 18] < 255)
        return AHZ_R_ENTRY_RANGE;
    if (fault("table-changed") && answer == AHZ_R_ENTRY_RANGE)
        ((uint8_t *)table)[table_octets - 1] ^= 1;
    if (answer != AHZ_R_ENTRY_257)
        return answer;
    if (fault("entry-257-unknown") && table[last] != AHZ_KIND_DESTINATION && table[last] != AHZ_KIND_SOURCE && table[last] != AHZ_KIND_IP)
        return AHZ_R_ENTRY_KIND;
    if (fault("entry-257-cut") && over < entry_octets(table[last]))
        return AHZ_R_ENTRY_CUT;
    return answer;
}

static void exchange(uint8_t *one, uint8_t *other, size_t octets)
{
    for (size_t at = 0; at < octets; at++) {
        const uint8_t kept = one[at];

        one[at] = other[at];
        other[at] = kept;
    }
}

static int is_zero(const uint8_t *octets, size_t count)
{
    for (size_t at = 0; at < count; at++)
        if (octets[at] != 0)
            return 0;
    return 1;
}

/* Whether a header's sum is that of a header with a good checksum. */
static int summed(const uint8_t *ip, size_t octets)
{
    uint32_t sum = 0;

    for (size_t at = 0; at + 2 <= octets; at += 2)
        sum += two(ip + at);
    return octets > 0 && sum % 65535 == 0;
}

/* What an entry of kind 4 asks of a header that is whole and not bad, and the header, as a wrong layer takes them: 0 where they do not
 * match, and 1 where the proved call has to say. */
static int asks_header(uint8_t *entry, uint8_t *ip, size_t payload)
{
    const size_t header = (ip[0] & 15) * 4u;
    const int has_ports = payload >= header + 4;

    if (fault("ip-dscp-255-asked") && entry[18] == AHZ_DSCP_ANY)
        return 0;
    if (fault("ip-tos-compared") && entry[18] != AHZ_DSCP_ANY)
        entry[18] = (uint8_t)(ip[1] >> 2 ^ (entry[18] != ip[1]));
    if (fault("ip-ports-of-none") && entry[19] == AHZ_PROTOCOL_NONE) {
        entry[19] = AHZ_PROTOCOL_UDP;
        ip[9] = 17;
    }
    if (fault("ip-tcp-for-udp") && entry[19] == AHZ_PROTOCOL_UDP)
        entry[19] = AHZ_PROTOCOL_TCP;
    if (fault("ip-sctp-as-hex") && entry[19] == AHZ_PROTOCOL_SCTP) /* 132 hex, cut to an octet */
        ip[9] = ip[9] == 0x32 ? 132 : 0;
    if (fault("ip-zero-address") && ((is_zero(entry + 10, 4) && !is_zero(ip + 12, 4)) || (is_zero(entry + 14, 4) && !is_zero(ip + 16, 4))))
        return 0;
    if (fault("ip-zero-port") && entry[19] != AHZ_PROTOCOL_NONE && has_ports &&
        ((is_zero(entry + 20, 2) && !is_zero(ip + header, 2)) || (is_zero(entry + 22, 2) && !is_zero(ip + header + 2, 2))))
        return 0;
    if (fault("ip-later-ports"))
        put_two(ip + 6, two(ip + 6) & 0xE000);
    if (fault("ip-more-is-later") && (ip[6] & 0x20))
        ip[7] |= 1;
    if (fault("ip-cut-port-fits") && !has_ports)
        memset(entry + 20, 0, 4);
    if (fault("ip-checksum-read") && !summed(ip, header))
        return 0;
    if (fault("ip-length-read") && two(ip + 2) > payload)
        return 0;
    if (fault("ip-options-kept"))
        ip[0] = 0x45;
    return 1;
}

/* Faults named ip-.. are in how an entry of kind 4 is held against a good frame. Both are changed so that the proved call says of them what
 * the wrong one would of those that were lent. */
static uint8_t asks(const uint8_t *listed, const uint8_t *lent, size_t lent_octets, uint16_t *handle)
{
    const size_t tag = tag_place(lent, lent_octets), type = has_tag(lent, lent_octets) ? tag + 6 : tag;
    uint8_t entry[AHZ_IP_ENTRY_OCTETS], frame[AHZ_FRAME_LONGEST], answer;
    uint8_t *ip = frame + type + 2;
    uint64_t read[AHZ_H_ID_WORDS];
    size_t octets = lent_octets, payload, header;

    memcpy(entry, listed, sizeof entry);
    memcpy(frame, lent, lent_octets);
    if (fault("ip-by-source"))
        memcpy(frame, lent + 6, 6);
    if (fault("ip-any-destination"))
        memcpy(entry + 1, frame, 6);
    if (fault("ip-any-choice"))
        entry[7] = AHZ_CHOICE_ALL;
    if (fault("ip-any-vlan"))
        put_two(entry + 8, AHZ_VLAN_ANY);
    if (fault("ip-pair-exchanged"))
        exchange(entry + 10, entry + 14, 4);
    if (fault("ip-ports-exchanged"))
        exchange(entry + 20, entry + 22, 2);
    if (fault("ip-any-type"))
        put_two(frame + type, AHZ_TYPE_IP);
    if (fault("ip-type-at-tag") && type != tag)
        return AHZ_NO_STREAM;
    if (fault("ip-without-trailer") && real_ahz_read_prp(lent, lent_octets, read, AHZ_H_ID_WORDS) == AHZ_DONE && read[AHZ_H_NUMBERED])
        octets -= 6;
    payload = octets - type - 2;
    if (fault("ip-version-6") && payload > 0 && ip[0] >> 4 == 6)
        ip[0] = (uint8_t)(0x40 | (ip[0] & 15));
    if (fault("ip-4-words") && payload >= 20 && ip[0] == 0x44)
        ip[0] = 0x45;
    header = payload > 0 ? (ip[0] & 15) * 4u : 20;
    if (fault("ip-looks-behind") && payload < header + 4)
        looked_at = lent[lent_octets];
    if (fault("ip-cut-is-refused") && two(frame + type) == AHZ_TYPE_IP && payload < header)
        return AHZ_R_TAG_CUT;
    if (payload > 0 && ip[0] >> 4 == 4 && header >= 20 && payload >= header && !asks_header(entry, ip, payload))
        return AHZ_NO_STREAM;
    answer = real_ahz_lookup(entry, sizeof entry, frame, octets, handle);
    if (fault("ip-handle-at-10") && answer == AHZ_STREAM)
        *handle = two(listed + 10);
    return answer;
}

enum { ALL_KINDS, OTHER_KINDS, KIND_4 };

/* The first match among the entries of a good table, or only among those that are of kind 4 or are not, each asked by itself. */
static uint8_t entry_by_entry(int which, const uint8_t *table, size_t table_octets, const uint8_t *frame, size_t frame_octets,
                              uint16_t *handle)
{
    for (size_t at = 0; at < table_octets; at += entry_octets(table[at])) {
        const int by_ip = table[at] == AHZ_KIND_IP;
        uint8_t answer;

        if (which == (by_ip ? OTHER_KINDS : KIND_4))
            continue;
        answer = by_ip ? asks(table + at, frame, frame_octets, handle)
                       : real_ahz_lookup(table + at, AHZ_ENTRY_OCTETS, frame, frame_octets, handle);
        if (answer != AHZ_NO_STREAM)
            return answer;
    }
    return AHZ_NO_STREAM;
}

uint8_t ahz_lookup(const uint8_t *table, size_t table_octets, const uint8_t *frame, size_t frame_octets, uint16_t *handle)
{
    uint8_t misread[DECIDES], answer;
    const size_t octets = misread_table(table, table_octets, misread);
    uint16_t lent = *handle;

    if (octets > 0)
        return real_ahz_lookup(misread, octets, frame, frame_octets, handle);
    answer = real_ahz_lookup(table, table_octets, frame, frame_octets, handle);
    if (strncmp(chosen, "ip-", 3) == 0 && (answer == AHZ_STREAM || answer == AHZ_NO_STREAM)) {
        *handle = lent;
        if (!fault("ip-last"))
            return entry_by_entry(ALL_KINDS, table, table_octets, frame, frame_octets, handle);
        answer = entry_by_entry(OTHER_KINDS, table, table_octets, frame, frame_octets, handle);
        return answer == AHZ_STREAM ? answer : entry_by_entry(KIND_4, table, table_octets, frame, frame_octets, handle);
    }
    if (fault("892f-looked-up") && (answer == AHZ_R_TAG_CUT || answer == AHZ_R_TAG_TWICE) &&
        tag_type(frame, frame_octets) == AHZ_TYPE_HSR) {
        uint8_t other[AHZ_FRAME_LONGEST];

        memcpy(other, frame, frame_octets);
        put_two(other + tag_place(frame, frame_octets), 0x0800);
        return real_ahz_lookup(table, table_octets, other, frame_octets, handle);
    }
    if (fault("written-back") && frame_octets > 0)
        ((volatile uint8_t *)frame)[0] = frame[0];
    if (fault("dei-in-vlan") && answer == AHZ_STREAM && frame[12] == 0x81 && frame[13] == 0 && (frame[14] & 0x10)) {
        for (size_t at = 0; at < table_octets; at += entry_octets(table[at]))
            if (table[at + 8] == 0 && table[at + 9] == 0 &&
                real_ahz_lookup(table + at, entry_octets(table[at]), frame, frame_octets, handle) == AHZ_STREAM)
                return AHZ_STREAM;
        *handle = lent;
        return AHZ_NO_STREAM;
    }
    if (fault("first-entry") && answer == AHZ_STREAM)
        *handle = two(table + entry_octets(table[0]) - 2);
    if (fault("handle-of-none") && answer == AHZ_NO_STREAM)
        *handle = 0;
    if (fault("handle-0-as-none") && answer == AHZ_STREAM && *handle == 0)
        return AHZ_NO_STREAM;
    if ((fault("no-stream-for-2") && answer == AHZ_R_FRAME_LONG) || (fault("no-stream-for-3") && answer == AHZ_R_TAG_CUT) ||
        (fault("no-stream-for-4") && answer == AHZ_R_TAG_TWICE))
        return AHZ_NO_STREAM;
    return answer;
}

/* ---- Numbering ---- */

uint16_t ahz_generator(void)
{
    return real_ahz_generator();
}

uint16_t ahz_generate(uint16_t *generator)
{
    uint16_t number = real_ahz_generate(generator);

    if (fault("generator-stops") && number == 65535)
        *generator = number;
    return number;
}

void ahz_generator_reset(uint16_t *generator)
{
    real_ahz_generator_reset(generator);
}

/* ---- Recovery ---- */

uint64_t ahz_ticks(uint32_t milliseconds, uint16_t rate)
{
    if (fault("ticks-in-32-bits"))
        return (milliseconds * (uint32_t)rate + 999) / 1000;
    return real_ahz_ticks(milliseconds, rate) + (fault("ticks-at-333") && rate == 333);
}

uint8_t ahz_check_setup_v2(uint8_t rule, uint8_t taken, uint8_t use, uint16_t history, uint32_t milliseconds, uint16_t rate, uint8_t paths,
                           uint32_t difference)
{
    const uint8_t checked = (fault("use-2-checked") && use == 2) || fault("use-checked-last") ? AHZ_USE_SEQUENCE : use;
    uint8_t answer;

    if (fault("513-checked") && history == 513)
        history = 512;
    if (fault("512-refused") && history == 512)
        history = 513;
    answer = real_ahz_check_setup_v2(rule, taken, checked, history, milliseconds, rate, paths, difference);
    return fault("use-checked-last") && answer == AHZ_DONE && use > AHZ_USE_INDIVIDUAL ? AHZ_R_TAKEN_OR_USE : answer;
}

uint8_t ahz_fresh_v4(uint8_t rule, uint8_t taken, uint8_t use, uint16_t history, uint32_t milliseconds, uint16_t rate, uint8_t paths,
                     uint32_t difference, uint64_t *state, size_t state_words)
{
    const int two = fault("use-2-fresh") && use == 2, longer = fault("513-fresh") && history == 513;
    const uint64_t lent = state_words >= AHZ_S_WORDS ? state[AHZ_S_MARKS + 7] : 0;
    uint8_t answer = real_ahz_fresh_v4(rule, taken, two ? AHZ_USE_SEQUENCE : use, longer ? 512 : history, milliseconds, rate, paths,
                                       difference, state, state_words);

    if (two && answer == AHZ_DONE)
        state[AHZ_S_USE] = use;
    if (longer && answer == AHZ_DONE)
        state[AHZ_S_HISTORY] = history;
    if (fault("fresh-word-stays") && answer == AHZ_DONE)
        state[AHZ_S_MARKS + 7] = lent;
    if (fault("short-first") && state_words < AHZ_S_WORDS)
        return AHZ_R_OUTPUT_SHORT;
    if (fault("short-as-unsound") && answer == AHZ_R_OUTPUT_SHORT)
        return AHZ_R_STATE;
    return answer;
}

static uint64_t mark(const uint64_t *state, uint64_t k)
{
    return k < AHZ_HISTORY_MOST ? state[AHZ_S_MARKS + k / 64] >> k % 64 & 1 : 0;
}

/* How many marks are set from one on, up to another. */
static uint64_t ones(const uint64_t *state, uint64_t from, uint64_t to)
{
    uint64_t count = 0;

    for (uint64_t k = from; k < to; k++)
        count += mark(state, k);
    return count;
}

/* Marks 1 to h - 1 of a state as those of another moved by d, one by one, and mark 0 set. */
static void move(uint64_t *state, const uint64_t *before, uint64_t d, uint64_t h)
{
    memset(state + AHZ_S_MARKS, 0, AHZ_MARK_WORDS * sizeof *state);
    state[AHZ_S_MARKS] = 1;
    for (uint64_t k = d; k < h; k++)
        state[AHZ_S_MARKS + k / 64] |= mark(before, k - d) << k % 64;
}

/* A slide by d also moves the first packet's place on, until it leaves, and counts those of the lost places that lie below it. Each fault
 * is a mistake in what is counted, or in where the place then stands. */
static void slide_first(uint64_t *state, const uint64_t *before, uint64_t d)
{
    const uint64_t h = before[AHZ_S_HISTORY], first = before[AHZ_S_FIRST];
    const uint64_t more = state[AHZ_S_BEFORE_FIRST] - before[AHZ_S_BEFORE_FIRST], next = (first + 63) / 64 * 64;

    if (fault("before-all"))
        state[AHZ_S_BEFORE_FIRST] += state[AHZ_S_LOST] - before[AHZ_S_LOST] - more;
    if (fault("before-none"))
        state[AHZ_S_BEFORE_FIRST] -= more;
    if (fault("before-twice"))
        state[AHZ_S_BEFORE_FIRST] += more;
    if (fault("before-sticks") && state[AHZ_S_BEFORE_FIRST] < before[AHZ_S_BEFORE_FIRST])
        state[AHZ_S_BEFORE_FIRST] = UINT64_MAX;
    if (fault("lost-above-only"))
        state[AHZ_S_LOST] -= more;
    if (first == 0)
        return;
    /* The place has the mark first - 1, and leaves where that is h - d or above. The next word begins with the mark next. */
    if (fault("before-late-too"))
        state[AHZ_S_BEFORE_FIRST] += (first > h - d ? h - first : d) - more;
    if (fault("before-at-first"))
        state[AHZ_S_BEFORE_FIRST] += first > h - d;
    if (fault("before-above-first"))
        state[AHZ_S_BEFORE_FIRST] += first > h - d + 1 && !mark(before, first - 2);
    if (fault("before-next-missed"))
        state[AHZ_S_BEFORE_FIRST] -= first >= h - d && first < h && !mark(before, first);
    if (fault("before-first-word") && first > h - d && h > next)
        state[AHZ_S_BEFORE_FIRST] -= h - next - ones(before, next, h);
    if (fault("first-stands"))
        state[AHZ_S_FIRST] = first;
    if (fault("first-stays"))
        state[AHZ_S_FIRST] = first + d;
    if (fault("first-leaves-early") && state[AHZ_S_FIRST] == h)
        state[AHZ_S_FIRST] = 0;
    if (fault("first-8-bits"))
        state[AHZ_S_FIRST] = (uint8_t)state[AHZ_S_FIRST];
}

/* Marks of a history of more words moved by d. Each fault is a mistake at a border between two of them, or in which word goes where. */
static void slide_words(uint64_t *state, const uint64_t *before, uint64_t d)
{
    const uint64_t h = before[AHZ_S_HISTORY], last = (h - 1) / 64, whole = d / 64;
    uint64_t *marks = state + AHZ_S_MARKS;

    /* The lowest bits of a word are carried there from the word below. */
    if (fault("carry-lost-word-1") && whole == 0)
        marks[1] &= UINT64_MAX << d;
    if (fault("carry-lost-at-last") && whole < last)
        marks[last] &= UINT64_MAX << d % 64;
    if (fault("words-wrong-way") && whole > 0) {
        for (uint64_t word = 0; word <= last; word++)
            marks[word] = word + whole <= last ? before[AHZ_S_MARKS + word + whole] : 0;
        marks[0] |= 1;
    }
    if (fault("words-not-moved") && whole > 0)
        move(state, before, d % 64, h);
    if (fault("border-mark-lost") && (h - d) % 64 == 63)
        state[AHZ_S_LOST] += mark(before, h - d);
    /* The highest word whose marks all leave. */
    if (fault("word-not-counted") && h / 64 > (h - d + 63) / 64)
        state[AHZ_S_LOST] -= 64 - (uint64_t)__builtin_popcountll(before[AHZ_S_MARKS + h / 64 - 1]);
    if (fault("lost-of-last-word") && last * 64 > h - d)
        state[AHZ_S_LOST] -= last * 64 - (h - d) - ones(before, h - d, last * 64);
}

/* A packet that passed may have slid the window by d: the marks from h - d on left, and those that were clear are lost. Each fault is a
 * mistake in the shifts, the mask or the count by which that can be done at once. */
static void slide(uint64_t *state, const uint64_t *before, uint16_t number)
{
    const uint64_t d = (uint16_t)(number - before[AHZ_S_NEWEST]), h = before[AHZ_S_HISTORY], lost = before[AHZ_S_LOST];

    if (before[AHZ_S_RULE] != AHZ_RULE_VECTOR || before[AHZ_S_TAKE_ANY] != 0 || d == 0 || d >= h)
        return;
    if (fault("ones-as-lost"))
        state[AHZ_S_LOST] = lost + ones(before, h - d, h);
    if (fault("ones-in-32-bits"))
        state[AHZ_S_LOST] = lost + d - ones(before, h - d, d < 32 ? h : h - d + 32);
    if (fault("lost-stays-d"))
        state[AHZ_S_LOST] = lost + d;
    if (fault("mask-too-wide"))
        state[AHZ_S_LOST] += !mark(before, h - d - 1);
    if (fault("mask-too-narrow"))
        state[AHZ_S_LOST] -= !mark(before, h - d);
    if (fault("last-shift-off") && d == h - 1)
        state[AHZ_S_LOST] += mark(before, 1);
    if (fault("shift-by-d-less-1"))
        move(state, before, d - 1, h);
    if (fault("marks-not-cut"))
        move(state, before, d, AHZ_HISTORY_MOST);
    if (fault("mask-of-64-is-0") && h == 64)
        state[AHZ_S_MARKS] = 1;
    if (h > 64)
        slide_words(state, before, d);
    slide_first(state, before, d);
}

/* A first place that has to be refused is taken for none, or for the one that the low bits of its word name. */
static void first_let_through(uint64_t *state)
{
    const uint64_t first = state[AHZ_S_FIRST];

    if (fault("first-16-bits"))
        state[AHZ_S_FIRST] = (uint16_t)first;
    if ((fault("first-unmarked") && first - 1 < AHZ_HISTORY_MOST && !mark(state, first - 1)) ||
        (fault("first-beyond") && first > state[AHZ_S_HISTORY]) || (fault("first-at-take-any") && state[AHZ_S_TAKE_ANY] == 1) ||
        (fault("first-at-match") && state[AHZ_S_RULE] == AHZ_RULE_MATCH))
        state[AHZ_S_FIRST] = 0;
}

/* Marks that have to be refused are not looked at: all from H on, or those of the words behind that of the last mark. */
static void marks_let_through(uint64_t *state)
{
    const uint64_t h = state[AHZ_S_HISTORY], behind = (h + 63) / 64 * 64;
    const uint64_t from = fault("mark-beyond") ? h : fault("word-beyond") ? behind : AHZ_HISTORY_MOST;

    for (uint64_t k = from; k < AHZ_HISTORY_MOST; k++)
        state[AHZ_S_MARKS + k / 64] &= ~(UINT64_C(1) << k % 64);
}

/* A packet that came late has the mark k, which was clear and is set. Each fault looks at another word, or sets its mark there. */
static uint8_t late(uint64_t *state, const uint64_t *before, uint64_t k)
{
    const uint64_t full = state[AHZ_S_LEFT];

    if (fault("mark-64-as-0") && k == 64) {
        memcpy(state, before, AHZ_S_WORDS * sizeof *state);
        state[AHZ_S_DISCARDED] += 1;
        if (state[AHZ_S_USE] == AHZ_USE_INDIVIDUAL)
            state[AHZ_S_LEFT] = full;
        return AHZ_DISCARD;
    }
    if (fault("late-in-word-0")) {
        state[AHZ_S_MARKS + k / 64] = before[AHZ_S_MARKS + k / 64];
        state[AHZ_S_MARKS] |= UINT64_C(1) << k % 64;
    }
    if (fault("mark-forgotten"))
        memcpy(state + AHZ_S_MARKS, before + AHZ_S_MARKS, AHZ_MARK_WORDS * sizeof *state);
    if (fault("late-as-first") && state[AHZ_S_FIRST] != 0 && k >= state[AHZ_S_FIRST])
        state[AHZ_S_FIRST] = k + 1;
    return AHZ_PASS;
}

/* A packet that was discarded has restarted the timer in individual use, and left it alone in sequence use. Each fault is a mistake in
 * which of them do, or in what is then left. */
static void timer(uint64_t *state, const uint64_t *before)
{
    const uint64_t full = real_ahz_ticks((uint32_t)state[AHZ_S_MILLISECONDS], (uint16_t)state[AHZ_S_RATE]);

    if (state[AHZ_S_USE] == AHZ_USE_SEQUENCE) {
        if (fault("sequence-restarts"))
            state[AHZ_S_LEFT] = full;
        return;
    }
    if (fault("individual-stays") || (fault("rogue-stays") && state[AHZ_S_ROGUE] != before[AHZ_S_ROGUE]) ||
        (fault("tagless-stays") && state[AHZ_S_TAGLESS] != before[AHZ_S_TAGLESS]) ||
        (fault("match-stays") && state[AHZ_S_RULE] == AHZ_RULE_MATCH) || (fault("stopped-stays") && before[AHZ_S_LEFT] == 0))
        state[AHZ_S_LEFT] = before[AHZ_S_LEFT];
    if (fault("one-above-full"))
        state[AHZ_S_LEFT] = full + 1;
}

uint8_t ahz_numbered(uint64_t *state, size_t state_words, uint16_t number)
{
    uint64_t before[AHZ_S_WORDS];
    uint8_t answer;

    if (state_words < AHZ_S_WORDS)
        return real_ahz_numbered(state, state_words, number);
    memcpy(before, state, sizeof before);
    if (fault("format-ignored"))
        state[AHZ_S_FORMAT] = AHZ_STATE_FORMAT;
    if (fault("use-2-in-a-state") && state[AHZ_S_USE] == 2)
        state[AHZ_S_USE] = AHZ_USE_SEQUENCE;
    if (fault("513-in-a-state") && state[AHZ_S_HISTORY] == 513)
        state[AHZ_S_HISTORY] = 512;
    marks_let_through(state);
    first_let_through(state);
    answer = real_ahz_numbered(state, state_words, number);
    state[AHZ_S_FORMAT] = before[AHZ_S_FORMAT];
    state[AHZ_S_USE] = before[AHZ_S_USE];
    state[AHZ_S_HISTORY] = before[AHZ_S_HISTORY];
    if (answer == AHZ_R_STATE)
        memcpy(state, before, sizeof before);
    if (answer == AHZ_DISCARD)
        timer(state, before);
    if (answer != AHZ_PASS)
        return answer;
    if (fault("counter-sticks") && before[AHZ_S_PASSED] == UINT64_MAX)
        state[AHZ_S_PASSED] = UINT64_MAX;
    if (fault("lost-once") && state[AHZ_S_LOST] - before[AHZ_S_LOST] > 1)
        state[AHZ_S_LOST] = before[AHZ_S_LOST] + 1;
    if (fault("full-window") && state[AHZ_S_HISTORY] == 64 && state[AHZ_S_MARKS] == UINT64_MAX)
        state[AHZ_S_MARKS] >>= 1;
    if (fault("full-last-word") && state[AHZ_S_MARKS + 7] == UINT64_MAX)
        state[AHZ_S_MARKS + 7] >>= 1;
    if (fault("full-ticks-down") && state[AHZ_S_MILLISECONDS] * state[AHZ_S_RATE] > 1000000)
        state[AHZ_S_LEFT] = state[AHZ_S_MILLISECONDS] * state[AHZ_S_RATE] / 1000;
    if (state[AHZ_S_NEWEST] != number)
        return late(state, before, (uint16_t)(state[AHZ_S_NEWEST] - number));
    if (fault("first-not-kept") && before[AHZ_S_TAKE_ANY] == 1)
        state[AHZ_S_FIRST] = 0;
    if (fault("match-keeps-first") && state[AHZ_S_RULE] == AHZ_RULE_MATCH)
        state[AHZ_S_FIRST] = 1;
    slide(state, before, number);
    return answer;
}

uint8_t ahz_tagless(uint64_t *state, size_t state_words)
{
    uint64_t before[AHZ_S_WORDS];
    uint8_t answer;

    if (fault("tagless-as-0"))
        return real_ahz_numbered(state, state_words, 0);
    if (state_words < AHZ_S_WORDS)
        return real_ahz_tagless(state, state_words);
    memcpy(before, state, sizeof before);
    answer = real_ahz_tagless(state, state_words);
    if (answer == AHZ_DISCARD)
        timer(state, before);
    return answer;
}

uint8_t ahz_tick(uint64_t *state, size_t state_words)
{
    const int takes_any = state_words >= AHZ_S_WORDS && state[AHZ_S_TAKE_ANY] == 1;
    const uint64_t first = state_words >= AHZ_S_WORDS ? state[AHZ_S_FIRST] : 0;
    const uint64_t last_word = state_words >= AHZ_S_WORDS ? state[AHZ_S_MARKS + 7] : 0;
    uint8_t answer;

    if (fault("longer-refused") && state_words > AHZ_S_WORDS)
        return AHZ_R_STATE;
    if (fault("timer-early") && state_words >= AHZ_S_WORDS && state[AHZ_S_LEFT] == 2)
        state[AHZ_S_LEFT] = 1;
    answer = real_ahz_tick(state, state_words);
    if (fault("reset-not-counted") && takes_any && answer == AHZ_RESET)
        state[AHZ_S_RESETS] -= 1;
    if (fault("first-after-tick") && answer == AHZ_RESET)
        state[AHZ_S_FIRST] = first;
    if (fault("word-after-tick") && answer == AHZ_RESET)
        state[AHZ_S_MARKS + 7] = last_word;
    return answer;
}

uint8_t ahz_reset(uint64_t *state, size_t state_words)
{
    const uint64_t first = state_words >= AHZ_S_WORDS ? state[AHZ_S_FIRST] : 0;
    const uint64_t second_word = state_words >= AHZ_S_WORDS ? state[AHZ_S_MARKS + 1] : 0;
    uint8_t answer;

    if (fault("later-word") && state_words > AHZ_S_WORDS)
        state[AHZ_S_WORDS] = 0;
    answer = real_ahz_reset(state, state_words);
    if (fault("first-after-reset") && answer == AHZ_DONE)
        state[AHZ_S_FIRST] = first;
    if (fault("word-after-reset") && answer == AHZ_DONE)
        state[AHZ_S_MARKS + 1] = second_word;
    if (fault("before-cleared") && answer == AHZ_DONE)
        state[AHZ_S_BEFORE_FIRST] = 0;
    return answer;
}

uint8_t ahz_latent_reset(uint64_t *state, size_t state_words)
{
    uint8_t answer = real_ahz_latent_reset(state, state_words);

    if (fault("latent-drops-first") && answer == AHZ_DONE)
        state[AHZ_S_FIRST] = 0;
    return answer;
}

uint8_t ahz_latent_test(const uint64_t *state, size_t state_words)
{
    uint8_t answer = real_ahz_latent_test(state, state_words);

    if (fault("latent-test-resets") && answer == AHZ_LATENT_ERROR)
        return real_ahz_latent_reset((uint64_t *)state, state_words) == AHZ_DONE ? answer : AHZ_R_STATE;
    return answer;
}

/* ---- Charge cards ---- */

uint8_t ahz_card(const uint8_t *payload, size_t payload_octets, uint32_t *value)
{
    uint8_t answer = real_ahz_card(payload, payload_octets, value);

    return fault("millivolts-as-raw") && answer == AHZ_MILLIVOLTS ? AHZ_RAW_CODE : answer;
}

size_t ahz_card_octets(const uint8_t *payload, size_t payload_octets)
{
    return real_ahz_card_octets(payload, payload_octets);
}

size_t ahz_rest_octets(const uint8_t *payload, size_t payload_octets)
{
    size_t octets = real_ahz_rest_octets(payload, payload_octets);

    return fault("rest-8-bits") ? (uint8_t)octets : octets;
}

uint8_t ahz_volts(const uint8_t *payload, size_t payload_octets, double gain, double offset, double *volts)
{
    uint8_t answer = real_ahz_volts(payload, payload_octets, gain, offset, volts);

    if (fault("volts-fused") && answer == AHZ_FROM_RAW_CODE)
        *volts = fma(payload[1] << 8 | payload[2], gain, offset);
    if (fault("minus-zero") && answer == AHZ_FROM_RAW_CODE && *volts == 0)
        *volts = -0.0;
    return answer;
}

/* ---- The bench tape ---- */

/* A tape whose setup is read in a wrong way, as the one that is then run: how many octets that has, or 0 where the two are one. */
static size_t misread(const uint8_t *tape, size_t octets, uint8_t *other)
{
    if (octets < 17 || octets >= AHZ_TAPE_LONGEST || tape[0] != AHZ_EVENT_SETUP)
        return 0;
    memcpy(other, tape, octets);
    if (fault("difference-16-bits")) {
        other[13] = other[14] = 0;
        return octets;
    }
    if (fault("use-from-taken")) {
        other[3] = other[2];
        return octets;
    }
    if (fault("tape-history-513") && tape[4] == 2 && tape[5] == 1) {
        other[5] = 0;
        return octets;
    }
    if (fault("tape-history-512") && tape[4] == 2 && tape[5] == 0) {
        other[5] = 1;
        return octets;
    }
    if (fault("history-8-bits")) {
        other[4] = 0;
        return octets;
    }
    if (fault("setup-of-15-octets") && tape[3] == 0 && tape[4] >= AHZ_HISTORY_LEAST) {
        memcpy(other + 4, tape + 3, octets - 3);
        return octets + 1;
    }
    return 0;
}

uint8_t ahz_tape_v3(const uint8_t *tape, size_t tape_octets, uint8_t *out, size_t out_octets, size_t *length)
{
    uint8_t answer, other[AHZ_TAPE_LONGEST];
    size_t octets = misread(tape, tape_octets, other);

    if (octets > 0)
        return real_ahz_tape_v3(other, octets, out, out_octets, length);
    answer = real_ahz_tape_v3(tape, tape_octets, out, out_octets, length);
    if (fault("last-newline") && answer == AHZ_DONE)
        *length -= 1;
    if (fault("eight-counters") && answer == AHZ_DONE && out[*length - 3] == '=') {
        *length -= strlen(" before-first=0");
        out[*length - 1] = '\n';
    }
    if (fault("cut-as-repeated") && answer == AHZ_DONE && *length > 9 && memcmp(out + *length - 9, "fault 24\n", 9) == 0)
        out[*length - 2] = '5';
    return answer;
}
