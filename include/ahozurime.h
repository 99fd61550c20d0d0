/* Ahozurime: the proved link layer, for C (C99 and later) and C++ (C++11 and later).
 *
 * Link libahozurime.a, which tools/archive makes for x86_64 and for aarch64, and which `make install` puts in place with this header. The
 * refusals' numbers are those of the papers: of the scope, "When the layer says no", and of the requests since.
 *
 * Answers. Every call that can refuse answers one number:
 *   0            done
 *   1 to 99      refused: the paper's number, AHZ_R_..; nothing behind any pointer has changed
 *   100 and up   a named answer of that call, AHZ_..
 * An answer that a program does not look at is warned about where the compiler can: see AHZ_USE_ANSWER.
 *
 * Lent memory. A pointer and the length after it are a lent buffer: so many octets (or 64-bit words) must be readable there, and
 * writable where the pointer is not const. A pointer without a length is one number. What a call writes must not overlap anything else
 * that is lent to it: where it does, what happens is undefined. What is only read may overlap. No pointer is null unless its length is 0.
 * Words and single numbers are aligned as their types ask. Octets lie at any address; since the code reads and writes several of them at
 * once, they lie in memory that allows this: with no check of alignment switched on, and on Arm not in device memory.
 * Nothing else is asked: whatever numbers, octets and words are handed in, a call ends with an answer or a refusal.
 *
 * Calls that hand back a part of a buffer answer how many octets the part has; 0 on a refusal or end. The call beside it has the verdict.
 *
 * Between calls. The archive has no variables: nothing is kept after a call returns, no call allocates, and none calls back. So calls may
 * run in several threads at once, and in an interrupt that breaks into another call, on memory of their own: what one of them writes
 * must not be lent to another meanwhile. Beside its code the archive has constants, which are only read: the words that ahz_crc32 lays on
 * the stack as its tables are among them.
 *
 * From outside the archive needs memcpy and memset, and nothing else. Only ahz_tape_v3 uses them.
 *
 * Stack. A call takes at most AHZ_STACK octets, ahz_crc32 and those on a check sequence AHZ_FCS_STACK, and ahz_tape_v3 AHZ_TAPE_STACK;
 * tests/c/stack.c holds both targets to it. In this version it finds 54,424 octets on x86_64 for ahz_tape_v3, what its memcpy and memset
 * take among them; 1,104 for a check sequence; 472 for ahz_numbered, whose history may be long; and at most 168 for any other call. On
 * aarch64 an earlier compiler had 54,928, 1,216, 320 and 160. The bounds are the archive's own: what memcpy and memset take comes on top,
 * and what the dynamic linker takes where it looks these two up at their first call. On x86_64 the code also writes below its stack
 * pointer, into the red zone of the System V convention.
 *
 * Floating point. Only ahz_volts computes with doubles. It assumes that they are rounded to nearest, that subnormal numbers are not taken
 * for zero, and that no floating-point exception traps; it may raise their flags. Its doubles are handed over in floating-point registers,
 * as the usual conventions of both targets have it.
 *
 * Instructions. The code is for any x86-64, of which SSE2 is a part, and for Armv8-A with floating point and Advanced SIMD. Calls move
 * octets and words in vector registers too: these must be usable.
 */
#ifndef AHOZURIME_H
#define AHOZURIME_H

#include <stddef.h>
#include <stdint.h>

/* The version of this header. MAJOR goes up where a program written for the older header could go wrong: a call, a number, a field or a
 * meaning is changed or gone, the words of a state among them; MINOR is then 0 again. MINOR goes up where something is only added. So an
 * archive fits a program where its MAJOR is that of the program's header and its MINOR is not less: ahz_version_fits.
 *
 * What was compiled against an older header must not link and mean something else. So a call whose arguments, or the octets or words lent
 * to it, get another meaning gets a new name, with the MAJOR since which it is so, and the old name is gone; but from 4 to 5 none did, as
 * is said there. The words of a state have their format for this, and the steps on it keep their names: a state that an older version
 * stored, and the fewer words that an older object lends, are refused (14). Not found out is an older object that only holds, copies or
 * reads states, counters or headers, and in C++ one whose typed forms the linker joins with a newer object's: compile all of a program
 * against one header.
 *
 * From 1 to 2 a setup got a use, AHZ_USE_SEQUENCE or AHZ_USE_INDIVIDUAL: whether a discarded packet restarts the timer too.
 *   Names: ahz_check_setup, ahz_fresh and ahz_tape became ahz_check_setup_v2, ahz_fresh_v2 and ahz_tape_v2, and AHZ_R_TAKEN became
 *     AHZ_R_TAKEN_OR_USE. The use comes after taken: as an argument, in ahz_setup_t, in the words of a state, of which there were 21, and
 *     in the setup of a tape, which has 16 octets.
 *   Tapes of version 1: one that was good is a fault: 24 where it ends behind its setup, and 16 with a history length above 2. One of 2 is
 *     read as one of 512: 17 with a timeout above 14,062 ms; 18 where the rate modulo 256 is above 39; 19 with a difference below
 *     33,554,432 or above 150,994,943. With none of these it is taken for a tape of today and misread: give it its use.
 *   Sources: a setup whose initialiser names its fields, and not the use, is of sequence use and does what it did. One that lists its
 *     values without names does not compile or, where C lets it, has its history length for a use and is refused (27), since no history
 *     length is below 2. One that is filled field by field has to be given a use.
 *
 * From 2 to 3 a state got a ninth counter, before-first, and keeps for it where in the window the first packet's place stands.
 *   Names: ahz_fresh_v2 and ahz_tape_v2 became ahz_fresh_v3 and ahz_tape_v3, with the arguments that they had. A state had 24 words, and 22
 *     before: AHZ_S_FIRST comes after the marks, and AHZ_S_BEFORE_FIRST after the other counters, as before_first in ahz_counters_t.
 *   Tapes of version 2 run as they did; the output's last line ends with ` before-first=N`, and AHZ_TAPE_OUTPUT is 34 octets larger.
 *   Sources: one that makes the typed calls needs no change, and one that makes the others the new names of the two. Words have to be read
 *     by AHZ_S_..: from AHZ_S_TAKE_ANY on they stand elsewhere, and a bare number reads another word. With 22 words in place of
 *     AHZ_S_WORDS a fresh state is refused by 8 and a step by 14.
 *
 * From 3 to 4 the longest history length is 512, and was 64: the marks of a state are AHZ_MARK_WORDS words, and were one.
 *   Names: ahz_fresh_v3 is now ahz_fresh_v4, with the arguments that it had. A state has 31 words and had 24: from AHZ_S_FIRST on they
 *     stand 7 later. ahz_state_marks, which gave the one word, is gone; ahz_state_mark gives one mark. ahz_check_setup_v2 and ahz_tape_v3
 *     keep their names: history lengths from 65 to 512 are no longer refused there, and that is all.
 *   Tapes of versions 2 and 3 run as they did, but for those of such a history length: they were a fault, 16, and run.
 *   Sources: one that makes the typed calls needs no change where it does not read the marks, and one that makes the others the new name.
 *     Words have to be read by AHZ_S_.., as before. With 24 words in place of AHZ_S_WORDS a fresh state is refused by 8, a step by 14.
 *
 * From 4.0 to 4.1 the frame check sequence was added: ahz_crc32, ahz_check_fcs, ahz_without_fcs, ahz_append_fcs, AHZ_FCS_.. and refusal 28.
 *   Refusals 1 and 2 are for a frame with its check too, and their sentences say so. A program for 4.0 needs no change.
 *
 * From 4 to 5 the HSR tag and the PRP trailer were added, and 892F at a tag's place is a tag for every stream, as F1C1 is.
 *   Added: ahz_read_hsr, ahz_read_prp, ahz_insert_hsr, ahz_insert_prp, ahz_remove_hsr and ahz_remove_prp, with typed forms and constants,
 *     and refusal 37. Refusals 4, 6 and 9 are for the new encodings too, and their sentences say so.
 *   Frames: two kinds mean something else to ahz_read, ahz_payload, ahz_insert, ahz_remove and ahz_lookup. One with 892F behind its source
 *     address or its C-TAG had that for its type, and now has the type and the payload that stand six octets further on. It is refused by 3
 *     where it ends before that type, and by 4 where that is 8100, F1C1 or 892F; else ahz_insert, which put an R-TAG in, refuses it by 6.
 *     The other kind has 892F behind its R-TAG, and is refused by 4. So no frame has the type 892F any more: a program that looked for it
 *     calls ahz_read_hsr. All other frames are to these calls what they were.
 *   Names: all are kept, those of these five calls too: a sender of R-TAGs whose own frames are not of type 892F writes none of those two
 *     kinds, and of what it writes a program for 4.1 is told what it was told before. A program for 5 that makes no new call links with an
 *     archive of version 4 as well: ahz_version_fits tells.
 *   Sources: one that has no frames of those two kinds needs no change. ahz_header_t has AHZ_H_ID_WORDS words, and had AHZ_H_WORDS: the
 *     path id is one more. In C++ an older object whose ahz_header_read the linker joins with the new one lends one word too few, which is
 *     then written past. ahz_read writes AHZ_H_WORDS as before; with so few ahz_read_hsr and ahz_read_prp refuse by 8.
 *
 * From 5.0 to 5.1 stream tables got kind 4, for IP streams: AHZ_KIND_IP, AHZ_TYPE_IP and the constants of its fields. Kind 4 was refused
 *   by 10; a table without it is what it was. Refusal 12 is for the new fields too, and its sentence says so. The longest table is one of
 *   kind 4: AHZ_TABLE_LONGEST is 6,656, and was 3,072. A program for 5.0 needs no change; one that puts entries of kind 4 into its table
 *   and walks it has to go by the length of each kind. */
#define AHZ_VERSION_MAJOR 5
#define AHZ_VERSION_MINOR 1
#define AHZ_VERSION (AHZ_VERSION_MAJOR * 65536u + AHZ_VERSION_MINOR)

/* Octets of stack that are enough for ahz_tape_v3; for ahz_crc32 and the three calls with fcs in their name; and for every other call. */
#define AHZ_TAPE_STACK 55296
#define AHZ_FCS_STACK 1536
#define AHZ_STACK 512

/* Before each call and typed form that has an answer: a program that does not look at it is warned. With GCC before C23 and C++17 a cast to
 * void does not silence the warning. A program that wants none defines AHZ_USE_ANSWER as nothing before it includes this header. */
#ifndef AHZ_USE_ANSWER
#if defined(__cplusplus) && __cplusplus >= 201703L
#define AHZ_USE_ANSWER [[nodiscard]]
#elif !defined(__cplusplus) && defined(__STDC_VERSION__) && __STDC_VERSION__ > 201710L
#define AHZ_USE_ANSWER [[nodiscard]]
#elif defined(__GNUC__)
#define AHZ_USE_ANSWER __attribute__((warn_unused_result))
#else
#define AHZ_USE_ANSWER
#endif
#endif

#ifdef __cplusplus
extern "C" {
#endif

/* The answers, and the faults of a tape, which stand in its output as `fault N` and are never an answer. */
enum {
    AHZ_DONE = 0,

    /* The refusals. */
    AHZ_R_FRAME_SHORT = 1,     /* a frame under 14 octets, or under 18 with its check */
    AHZ_R_FRAME_LONG = 2,      /* a frame over 1,522 octets, or over 1,526 with its check */
    AHZ_R_TAG_CUT = 3,         /* the octets end before the type after a tag, be it a C-TAG, an R-TAG or an HSR tag */
    AHZ_R_TAG_TWICE = 4,       /* 8100 after a C-TAG; 8100, F1C1 or 892F after an R-TAG or an HSR tag */
    AHZ_R_VLAN = 5,            /* VLAN id 4,095 */
    AHZ_R_TAG_THERE = 6,       /* insertion: there is an R-TAG or an HSR tag */
    AHZ_R_RESULT_LONG = 7,     /* the result would be over 1,522 octets */
    AHZ_R_OUTPUT_SHORT = 8,    /* the lent output is shorter than the result */
    AHZ_R_NO_TAG = 9,          /* removal: there is no number in the stream's encoding */
    AHZ_R_ENTRY_KIND = 10,     /* table: an entry of no known kind */
    AHZ_R_ENTRY_CUT = 11,      /* table: the octets end inside an entry */
    AHZ_R_ENTRY_RANGE = 12,    /* table: an entry's choice or VLAN is out of range, or in kind 4 its DSCP or next protocol */
    AHZ_R_ENTRY_257 = 13,      /* table: a 257th entry */
    AHZ_R_STATE = 14,          /* the words hold no state of this format, or one that is not sound */
    AHZ_R_RULE = 15,           /* setup: rule not 0 or 1 */
    AHZ_R_HISTORY = 16,        /* setup: history length not 2 to 512 */
    AHZ_R_MILLISECONDS = 17,   /* setup: timeout not 1 to 3,600,000 ms */
    AHZ_R_RATE = 18,           /* setup: ticks per second not 1 to 10,000 */
    AHZ_R_PATHS = 19,          /* setup: paths not 2 to 8 */
    AHZ_R_CARD_KIND = 20,      /* a card of no known kind */
    AHZ_R_CARD_CUT = 21,       /* the octets end inside a card */
    AHZ_R_CALIBRATION = 22,    /* not 0 < gain <= 1 or not -100 <= offset <= 100, a NaN among them */
    AHZ_R_TAKEN_OR_USE = 27,   /* setup: taken flag or use not 0 or 1 */
    AHZ_R_FCS = 28,            /* the frame check sequence does not match */
    AHZ_R_PATH_ID = 37,        /* insertion: a path or LAN id over 15 */

    /* The faults of a tape. */
    AHZ_FAULT_KIND = 23,       /* an event of no known kind */
    AHZ_FAULT_CUT = 24,        /* the octets end inside an event */
    AHZ_FAULT_SETUP = 25,      /* the setup is missing or repeated */
    AHZ_FAULT_LONG = 26,       /* the tape is over 4,096 octets */

    /* The named answers. */
    AHZ_NAMED = 100,           /* an answer from here on is a named one, and one from 1 on below it a refusal */
    AHZ_FLUSH_ORDER = 100,     /* ahz_card: value is the blocks asked */
    AHZ_RAW_CODE = 101,        /* ahz_card: value is the raw code */
    AHZ_MILLIVOLTS = 102,      /* ahz_card: value is the millivolts */
    AHZ_END = 103,             /* ahz_card: 00 or no octet left */
    AHZ_FROM_RAW_CODE = 104,   /* ahz_volts: volts from a raw code */
    AHZ_FROM_MILLIVOLTS = 105, /* ahz_volts: volts from millivolts */
    AHZ_NOT_A_READING = 106,   /* ahz_volts: a flush order or an end */
    AHZ_STREAM = 107,          /* ahz_lookup: handle is the first match's */
    AHZ_NO_STREAM = 108,       /* ahz_lookup: no entry matches */
    AHZ_PASS = 109,            /* a packet passes */
    AHZ_DISCARD = 110,         /* a packet is discarded */
    AHZ_TICK = 111,            /* ahz_tick: a tick */
    AHZ_RESET = 112,           /* ahz_tick: the tick timed out, and a reset followed */
    AHZ_LATENT_OK = 113,       /* ahz_latent_test: no error */
    AHZ_LATENT_ERROR = 114     /* ahz_latent_test: error */
};

/* The version of the archive that is linked, as AHZ_VERSION is written. */
AHZ_USE_ANSWER uint32_t ahz_version(void);

/* ---- Frames: destination 6, source 6, an optional C-TAG, an optional R-TAG or HSR tag, a type of 2, a payload; no check sequence ---- */

/* All numbers in octets are big-endian, but for a frame's check. A C-TAG is 81 00 and 16 bits, the VLAN id in the low 12.
 *
 * A frame carries its number in one of three encodings. Which one, is chosen for each stream, and a call's name says by which it goes:
 *   R-TAG         F1 C1, two reserved octets, written zero and ignored on reading, the number; by the calls whose names have no ending
 *   HSR tag       89 2F, 16 bits with the path id in the high 4 and the size in the low 12, the number; by those in _hsr
 *   PRP trailer   the number, 16 bits with the LAN id in the high 4 and the size in the low 12, 88 FB; by those in _prp
 * The number has 16 bits, and each encoding six octets. A tag stands behind the C-TAG if there is one, else behind the source address; a
 * trailer is the last six octets of the frame. The size is the octets of the payload as it is before insertion, and 6 for these.
 *
 * Either tag is one to every call, whatever its encoding: the last type and the payload stand behind it. Its number is one to the calls of
 * its own encoding alone. The size of an HSR tag is not compared. To the calls in _prp the number is that of the trailer, whatever tag is
 * in front, and there is a trailer only where the payload, with it, has at least 6 octets, the size is that of this payload, and 88 FB ends
 * it. Else the frame has no number, and what stands there is payload.
 *
 * No call pads. Where a wire wants 60 octets before the check, pad the frame first: under PRP this has to be so, since the trailer stands
 * last and its size counts the padding. A frame that was padded behind its trailer has no number.
 *
 * All calls but ahz_check_fcs and ahz_without_fcs take a frame without its check. Where a rig leaves it on, call ahz_check_fcs, and hand
 * the first ahz_without_fcs octets to the others. */
enum {
    AHZ_FRAME_SHORTEST = 14,
    AHZ_FRAME_LONGEST = 1522,
    AHZ_CTAG_OCTETS = 4,
    AHZ_RTAG_OCTETS = 6,
    AHZ_HSR_OCTETS = 6,
    AHZ_PRP_OCTETS = 6,
    AHZ_TYPE_CTAG = 0x8100,
    AHZ_TYPE_RTAG = 0xF1C1,
    AHZ_TYPE_HSR = 0x892F,
    AHZ_TYPE_IP = 0x0800,      /* no tag: the last type of a frame that an entry of kind 4 can match */
    AHZ_SUFFIX_PRP = 0x88FB,
    AHZ_VLAN_LAST = 4094,      /* 4,095 is refused, in a frame and in a table */
    AHZ_PATH_ID_LAST = 15      /* of a path id and of a LAN id */
};

/* The words of a header. An address is its six octets as one big-endian number. */
enum {
    AHZ_H_DESTINATION = 0,
    AHZ_H_SOURCE = 1,
    AHZ_H_TAGGED = 2,          /* 1 with a C-TAG, else 0 */
    AHZ_H_VLAN = 3,            /* the VLAN id, 0 without a C-TAG */
    AHZ_H_NUMBERED = 4,        /* 1 with a number in the call's encoding, else 0 */
    AHZ_H_NUMBER = 5,          /* that number, 0 without one: look at AHZ_H_NUMBERED first */
    AHZ_H_TYPE = 6,            /* the last type */
    AHZ_H_PAYLOAD = 7,         /* where the payload starts; it goes to the end of the frame, a trailer with it */
    AHZ_H_WORDS = 8,           /* of ahz_read */
    AHZ_H_PATH_ID = 8,         /* the path or LAN id, 0 without a number; not of ahz_read */
    AHZ_H_ID_WORDS = 9         /* of ahz_read_hsr and ahz_read_prp */
};

/* Reads a frame of an R-TAG stream and writes AHZ_H_WORDS words to the start of header; later words of it stay. Answers 0.
 * Refusals, in this order: 1, 2, at a C-TAG 3, 5, 4, at an R-TAG or an HSR tag 3, 4; then 8 where header has fewer than AHZ_H_WORDS
 * words. */
AHZ_USE_ANSWER uint8_t ahz_read(const uint8_t *frame, size_t frame_octets, uint64_t *header, size_t header_words);

/* Reads a frame of an HSR stream and writes AHZ_H_ID_WORDS words to the start of header; later words of it stay. Answers 0.
 * Refusals, in this order: 1 to 5 as ahz_read; 8 where header has fewer than AHZ_H_ID_WORDS words. */
AHZ_USE_ANSWER uint8_t ahz_read_hsr(const uint8_t *frame, size_t frame_octets, uint64_t *header, size_t header_words);

/* Reads a frame of a PRP stream and writes AHZ_H_ID_WORDS words to the start of header; later words of it stay. Answers 0.
 * Refusals, in this order: 1 to 5 as ahz_read; 8 where header has fewer than AHZ_H_ID_WORDS words. */
AHZ_USE_ANSWER uint8_t ahz_read_prp(const uint8_t *frame, size_t frame_octets, uint64_t *header, size_t header_words);

/* How many octets the payload has: the last ones of the frame. 0 where ahz_read refuses the frame, and where its payload is empty. It is
 * for every stream: the payload of a frame with a trailer has this at its end. */
AHZ_USE_ANSWER size_t ahz_payload(const uint8_t *frame, size_t frame_octets);

/* Writes the frame with an R-TAG of that number to out, its octets after a C-TAG if there is one, else after the source address, and the
 * result's length to length. Later octets of out stay. Answers 0. out must have room for the result, frame_octets + AHZ_RTAG_OCTETS.
 * Refusals, in this order: 1 to 5 as ahz_read; 6 the frame has an R-TAG or an HSR tag; 7 the result is over 1,522; 8 out is shorter than
 * it. */
AHZ_USE_ANSWER uint8_t ahz_insert(const uint8_t *frame, size_t frame_octets, uint16_t number, uint8_t *out, size_t out_octets,
                                  size_t *length);

/* Writes the frame with an HSR tag of that number and path id to out, at the place of an R-TAG, and the result's length to length. Later
 * octets of out stay. Answers 0. out must have room for the result, frame_octets + AHZ_HSR_OCTETS.
 * Refusals, in this order: 1 to 5 as ahz_read; 37 the path id is 16 or over, be there a tag or not; 6 the frame has an R-TAG or an HSR tag;
 * 7 the result is over 1,522; 8 out is shorter than it. */
AHZ_USE_ANSWER uint8_t ahz_insert_hsr(const uint8_t *frame, size_t frame_octets, uint16_t number, uint8_t path_id, uint8_t *out,
                                      size_t out_octets, size_t *length);

/* Writes the frame with a PRP trailer of that number and LAN id behind it to out, and the result's length to length. Later octets of out
 * stay. Answers 0. out must have room for the result, frame_octets + AHZ_PRP_OCTETS.
 * Refusals, in this order: 1 to 5 as ahz_read; 37 the LAN id is 16 or over; 7 the result is over 1,522; 8 out is shorter than it. Never 6:
 * a tag stays where it is, and a trailer that the frame has already counts as payload. */
AHZ_USE_ANSWER uint8_t ahz_insert_prp(const uint8_t *frame, size_t frame_octets, uint16_t number, uint8_t lan_id, uint8_t *out,
                                      size_t out_octets, size_t *length);

/* Writes the frame without its R-TAG to out, and the result's length, frame_octets - AHZ_RTAG_OCTETS, to length. Later octets of out stay.
 * Answers 0. Refusals, in this order: 1 to 5 as ahz_read; 9 the frame has no R-TAG; 8 out is shorter than the result. */
AHZ_USE_ANSWER uint8_t ahz_remove(const uint8_t *frame, size_t frame_octets, uint8_t *out, size_t out_octets, size_t *length);

/* Writes the frame without its HSR tag to out, and the result's length, frame_octets - AHZ_HSR_OCTETS, to length. Later octets of out stay.
 * Answers 0. Refusals, in this order: 1 to 5 as ahz_read; 9 the frame has no HSR tag; 8 out is shorter than the result. */
AHZ_USE_ANSWER uint8_t ahz_remove_hsr(const uint8_t *frame, size_t frame_octets, uint8_t *out, size_t out_octets, size_t *length);

/* Writes the frame without its PRP trailer to out, and the result's length, frame_octets - AHZ_PRP_OCTETS, to length. Later octets of out
 * stay. Answers 0. Refusals, in this order: 1 to 5 as ahz_read; 9 the frame has no PRP trailer; 8 out is shorter than the result. Where
 * ahz_read_prp found a number, the result is the first octets of the frame, and a program may take them without a copy. */
AHZ_USE_ANSWER uint8_t ahz_remove_prp(const uint8_t *frame, size_t frame_octets, uint8_t *out, size_t out_octets, size_t *length);

/* ---- The frame check sequence: behind the payload 4 octets, the CRC-32 of all octets before them, low octet first ---- */

/* Tags are not read here: a frame whose check is good may still be refused by ahz_read. */
enum {
    AHZ_FCS_OCTETS = 4,
    AHZ_FCS_SHORTEST = 18,     /* of a frame with its check, as the next */
    AHZ_FCS_LONGEST = 1526
};

/* The CRC-32 of IEEE 802.3 of any octets, also of none: then it is 0. Of "123456789" it is 0xCBF43926. Refuses nothing. */
AHZ_USE_ANSWER uint32_t ahz_crc32(const uint8_t *data, size_t data_octets);

/* Checks a frame with its check. A good one: 0. Refusals, in this order: 1 under 18 octets; 2 over 1,526; 28 the check does not match. */
AHZ_USE_ANSWER uint8_t ahz_check_fcs(const uint8_t *frame, size_t frame_octets);

/* How many octets the frame has without its check: the first ones of what is lent. 0 where ahz_check_fcs refuses it, and only there. It
 * makes the check again: a program that has just had a 0 may take frame_octets - AHZ_FCS_OCTETS. */
AHZ_USE_ANSWER size_t ahz_without_fcs(const uint8_t *frame, size_t frame_octets);

/* Writes the frame and its check to out, and the result's length, frame_octets + AHZ_FCS_OCTETS, to length. Later octets of out stay.
 * Answers 0. It does not pad: where a wire wants 60 octets before the check, pad the frame first.
 * Refusals, in this order: 1 the frame is under 14 octets; 2 over 1,522; 8 out is shorter than the result. */
AHZ_USE_ANSWER uint8_t ahz_append_fcs(const uint8_t *frame, size_t frame_octets, uint8_t *out, size_t out_octets, size_t *length);

/* ---- Stream tables: entries of 12 octets, and of 26 for IP streams ---- */

/* An entry is its kind, an address of 6, a choice of 1, a VLAN of 2, in kind 4 what it asks of an IP header, and a handle of 2, any number.
 * What kind 4 asks are 14 octets: source IP 4, destination IP 4, DSCP 1, next protocol 1, source port 2, destination port 2. A table may
 * have entries of all kinds, in any order.
 *
 * An entry matches a frame where its address is the frame's destination (kinds 1 and 4) or source (kind 2), its choice allows the frame,
 * and its VLAN is 0 or the frame's. A frame without a C-TAG has VLAN id 0. One of kind 4 matches where beside this
 *   the last type is 0800, and the payload begins with an IPv4 header: version 4, a header length of at least 5 words, all of them there;
 *   the source IP is 0 or the header's, the destination IP is 0 or the header's, and the DSCP is 255 or the header's;
 *   the next protocol is none, or it is the header's and each port is 0 or the packet's, which stands behind the header and its options.
 *     Where a port is not 0, the four octets of both must be there, and the packet must not be a later fragment, which has none.
 * With none the ports are not compared, whatever they are. A frame of which this does not hold, be its payload cut or no IP at all, is no
 * match, and never a refusal. The header's checksum and total length are not read: the payload goes to the end of the frame, padding and a
 * PRP trailer with it, and these may stand for what a cut payload lacks. */
enum {
    AHZ_KIND_DESTINATION = 1,  /* the standard's Null stream identification */
    AHZ_KIND_SOURCE = 2,
    AHZ_KIND_IP = 4,
    AHZ_CHOICE_TAGGED = 1,     /* a frame with a C-TAG */
    AHZ_CHOICE_PRIORITY = 2,   /* a frame without one, or with VLAN id 0 */
    AHZ_CHOICE_ALL = 3,        /* any frame */
    AHZ_VLAN_ANY = 0,
    AHZ_IP_ANY = 0,            /* for the source IP and for the destination IP */
    AHZ_DSCP_LAST = 63,
    AHZ_DSCP_ANY = 255,
    AHZ_PROTOCOL_NONE = 1,     /* any protocol, and any ports */
    AHZ_PROTOCOL_UDP = 2,      /* 17 in the header */
    AHZ_PROTOCOL_TCP = 3,      /* 6 */
    AHZ_PROTOCOL_SCTP = 4,     /* 132 */
    AHZ_PORT_ANY = 0,          /* for either port */
    AHZ_ENTRY_OCTETS = 12,     /* of kinds 1 and 2 */
    AHZ_IP_ENTRY_OCTETS = 26,  /* of kind 4 */
    AHZ_TABLE_ENTRIES = 256,   /* at most */
    AHZ_TABLE_LONGEST = 6656   /* octets of so many entries of kind 4 */
};

/* Checks a table. An empty one is good (0).
 * Refusals, entry by entry, each in this order: 13 it is the 257th; 10 its kind; 11 it is cut; 12 its choice or VLAN, or in kind 4 a DSCP
 * from 64 to 254 or a next protocol that is not 1 to 4. */
AHZ_USE_ANSWER uint8_t ahz_check_table(const uint8_t *table, size_t table_octets);

/* Looks the frame's stream up. AHZ_STREAM: the first match's handle is in handle. AHZ_NO_STREAM: none matches, handle stays. The number
 * is not asked for, so it is for every encoding: look up first, and then read the frame in the encoding of its stream.
 * Refusals: first the table's, as ahz_check_table; then the frame's, 1 to 5 as ahz_read. */
AHZ_USE_ANSWER uint8_t ahz_lookup(const uint8_t *table, size_t table_octets, const uint8_t *frame, size_t frame_octets, uint16_t *handle);

/* ---- Numbering ---- */

/* A generator is its next number. A fresh one: 0. */
AHZ_USE_ANSWER uint16_t ahz_generator(void);

/* Answers the generator's number; the generator goes on to the next, 65,535 going to 0. Refuses nothing. */
AHZ_USE_ANSWER uint16_t ahz_generate(uint16_t *generator);

/* Sets the generator back to 0. Refuses nothing. */
void ahz_generator_reset(uint16_t *generator);

/* ---- Recovery ---- */

/* The numbers of a setup, each with its range. */
enum {
    AHZ_RULE_VECTOR = 0,
    AHZ_RULE_MATCH = 1,
    AHZ_NOT_TAKEN = 0,         /* packets without a number are discarded */
    AHZ_TAKEN = 1,             /* they pass */
    AHZ_USE_SEQUENCE = 0,      /* for paths that are merged: only a packet that passes restarts the timer */
    AHZ_USE_INDIVIDUAL = 1,    /* for one path alone: a discarded packet restarts it too, as the repeats of a stuck sender do */
    AHZ_HISTORY_LEAST = 2,
    AHZ_HISTORY_MOST = 512,
    AHZ_MILLISECONDS_LEAST = 1,
    AHZ_MILLISECONDS_MOST = 3600000,
    AHZ_RATE_LEAST = 1,
    AHZ_RATE_MOST = 10000,
    AHZ_PATHS_LEAST = 2,
    AHZ_PATHS_MOST = 8
};

/* Full ticks of a timeout: milliseconds x rate / 1000, rounded up. Any two numbers have an answer. */
AHZ_USE_ANSWER uint64_t ahz_ticks(uint32_t milliseconds, uint16_t rate);

/* Checks a setup: rule 0 vector or 1 match; taken 1 where packets without a number are taken, else 0; use 0 sequence or 1 individual;
 * history 2 to 512; milliseconds 1 to 3,600,000; rate, ticks per second, 1 to 10,000; paths 2 to 8; difference, the latent difference, any.
 * A good one: 0. Refusals, in this order: 15, 27 for taken, 27 for the use, 16, 17, 18, 19. */
AHZ_USE_ANSWER uint8_t ahz_check_setup_v2(uint8_t rule, uint8_t taken, uint8_t use, uint16_t history, uint32_t milliseconds, uint16_t rate,
                                          uint8_t paths, uint32_t difference);

/* The first word of a state: "AHZ", and 4. It changes whenever the words of a state or their meaning change, so that a state that another
 * version stored, or a machine of the other byte order, is refused (14) and never misread. */
#define AHZ_STATE_FORMAT 0x41485A04

/* The words of a state. A state that a call wrote may be kept, copied or stored by its words. It is the first AHZ_S_WORDS words of what is
 * lent; later ones are neither looked at nor changed. To check words that were stored, call ahz_latent_test: it changes nothing and refuses
 * what is no sound state of this format. Sound words are not therefore those that were stored: a bit that changed in a counter is not seen.
 * Store a check of your own beside them: ahz_crc32 of their octets is one. */
enum {
    AHZ_S_FORMAT = 0,          /* AHZ_STATE_FORMAT */
    AHZ_S_RULE = 1,            /* below 2^8 */
    AHZ_S_TAKEN = 2,           /* below 2^8 */
    AHZ_S_USE = 3,             /* below 2^8 */
    AHZ_S_HISTORY = 4,         /* below 2^16 */
    AHZ_S_MILLISECONDS = 5,    /* below 2^32 */
    AHZ_S_RATE = 6,            /* below 2^16 */
    AHZ_S_PATHS = 7,           /* below 2^8 */
    AHZ_S_DIFFERENCE = 8,      /* below 2^32 */
    AHZ_S_NEWEST = 9,          /* the newest number, below 2^16 */
    AHZ_S_MARKS = 10,          /* AHZ_MARK_WORDS words: mark k is bit k % 64 of the word AHZ_S_MARKS + k / 64, and set where the number
                                * k below the newest has passed; mark 0 is the newest */
    AHZ_S_FIRST = 18,          /* 1 + k: the first packet's place is that of mark k; 0: none of the window's places is */
    AHZ_S_TAKE_ANY = 19,       /* 0 or 1 */
    AHZ_S_LEFT = 20,           /* ticks left */
    AHZ_S_PASSED = 21,         /* the nine counters; they wrap */
    AHZ_S_DISCARDED = 22,
    AHZ_S_ORDER = 23,
    AHZ_S_ROGUE = 24,
    AHZ_S_LOST = 25,
    AHZ_S_TAGLESS = 26,
    AHZ_S_RESETS = 27,
    AHZ_S_LATENT_RESETS = 28,
    AHZ_S_BEFORE_FIRST = 29,   /* those of lost that lie below the first packet's place */
    AHZ_S_BASE = 30,           /* the latent base, modulo 2^64 */
    AHZ_S_WORDS = 31,
    AHZ_MARK_WORDS = 8         /* of them the marks, a bit for each place of the longest history */
};

/* Writes a fresh state of that setup to the first AHZ_S_WORDS words of state; later ones stay. Answers 0. Fresh: newest 65,535, no mark,
 * no first place, take-any, no ticks left, counters and base 0.
 * Refusals, in this order: 15, 27, 16, 17, 18, 19 as ahz_check_setup_v2; 8 where state_words is less than AHZ_S_WORDS. */
AHZ_USE_ANSWER uint8_t ahz_fresh_v4(uint8_t rule, uint8_t taken, uint8_t use, uint16_t history, uint32_t milliseconds, uint16_t rate,
                                    uint8_t paths, uint32_t difference, uint64_t *state, size_t state_words);

/* Each of these refuses by 14 alone: state_words is less than AHZ_S_WORDS, the first word is not AHZ_STATE_FORMAT, a word is one that its
 * field cannot hold, or the state is not sound (setup in range; marks at the history length and above clear; take-any means newest 65,535
 * and no mark; otherwise ticks left are 1 or more, and mark 0 is set under vector; match has no mark; a first place in the window has its
 * mark set, and take-any and match have none; ticks left are not above full ticks).
 * The words afterwards are the next state. A program that hands in only states that a call wrote never sees 14. */

/* A packet with a number: AHZ_PASS, and passed +1, or AHZ_DISCARD, and discarded +1. One that passes sets ticks left to full ticks; in
 * individual use one that is discarded, for whatever reason, does too.
 * Take-any: it passes and is the newest; take-any is off. Under vector it has mark 0, and its place is the first place until a reset.
 * Otherwise d is its number less the newest modulo 65,536, read from -32,768 to 32,767. Under vector, with history length H:
 *   d >= H or d <= -H: rogue +1, discarded;
 *   d <= 0: discarded where mark -d is set; else that mark is set, order +1, passed;
 *   d > 0: order +1 unless d is 1; the marks move d places, and the first place with them; for each clear mark that leaves the window
 *     lost +1, and before-first +1 too where it lies below the first place; it is the newest, with mark 0, passed.
 * Under match: discarded where d is 0; else order +1 unless d is 1, it is the newest, passed. */
AHZ_USE_ANSWER uint8_t ahz_numbered(uint64_t *state, size_t state_words, uint16_t number);

/* A packet without one: tagless +1. Where such are taken AHZ_PASS, and passed +1; else AHZ_DISCARD, and discarded +1. It sets ticks left as
 * one with a number does, under take-any too: so a timeout, which is a reset and is counted, may come before any number has passed. */
AHZ_USE_ANSWER uint8_t ahz_tagless(uint64_t *state, size_t state_words);

/* A tick: AHZ_TICK, with one tick less left, or still none; or AHZ_RESET where it was the last one left, and a reset followed. */
AHZ_USE_ANSWER uint8_t ahz_tick(uint64_t *state, size_t state_words);

/* A reset: 0. The state is as a fresh one, but setup, counters and base stay, and resets +1. */
AHZ_USE_ANSWER uint8_t ahz_reset(uint64_t *state, size_t state_words);

/* A latent reset: 0. The base is the latent figure, passed x (paths - 1) - discarded modulo 2^64, and latent resets +1. */
AHZ_USE_ANSWER uint8_t ahz_latent_reset(uint64_t *state, size_t state_words);

/* The latent error test, which changes nothing: AHZ_LATENT_ERROR where the base and the latent figure lie more than the setup's difference
 * apart (base less figure modulo 2^64, read with a sign), else AHZ_LATENT_OK. */
AHZ_USE_ANSWER uint8_t ahz_latent_test(const uint64_t *state, size_t state_words);

/* ---- Charge cards: a kind of 1 octet and its number; 00 ends ---- */

enum {
    AHZ_CARD_END = 0x00,
    AHZ_CARD_FLUSH_ORDER = 0x10, /* blocks asked, 4 octets */
    AHZ_CARD_RAW_CODE = 0x11,    /* 2 octets */
    AHZ_CARD_MILLIVOLTS = 0x12,  /* 2 octets */
    AHZ_FLUSH_ORDER_OCTETS = 5,
    AHZ_RAW_CODE_OCTETS = 3,
    AHZ_MILLIVOLTS_OCTETS = 3
};

/* What stands next in a payload: AHZ_FLUSH_ORDER, AHZ_RAW_CODE or AHZ_MILLIVOLTS, with its value in value; or AHZ_END, and value stays.
 * Refusals, in this order: 20 its kind, 21 it is cut. */
AHZ_USE_ANSWER uint8_t ahz_card(const uint8_t *payload, size_t payload_octets, uint32_t *value);

/* How many octets the next card has: the first ones of the payload. 0 on a refusal or end. */
AHZ_USE_ANSWER size_t ahz_card_octets(const uint8_t *payload, size_t payload_octets);

/* How many octets come after the next card: the last ones of the payload. 0 on a refusal or end, and where nothing comes after it. */
AHZ_USE_ANSWER size_t ahz_rest_octets(const uint8_t *payload, size_t payload_octets);

/* The volts of the next card: AHZ_FROM_RAW_CODE, raw x gain + offset, rounded after each operation, or AHZ_FROM_MILLIVOLTS,
 * millivolts / 1000, with the volts in volts; or AHZ_NOT_A_READING, and volts stays.
 * Refusals, in this order: 22 the calibration, whatever the card; 20, 21 as ahz_card. */
AHZ_USE_ANSWER uint8_t ahz_volts(const uint8_t *payload, size_t payload_octets, double gain, double offset, double *volts);

/* ---- The bench tape ---- */

/* The events of a tape, each by its kind. A setup is the first event, and there is no second: rule 1, taken 1, use 1, history 2,
 * milliseconds 4, rate 2, paths 1, difference 4. */
enum {
    AHZ_EVENT_NUMBERED = 0x01, /* a number, 2 octets */
    AHZ_EVENT_TAGLESS = 0x02,
    AHZ_EVENT_TICK = 0x03,
    AHZ_EVENT_RESET = 0x04,
    AHZ_EVENT_LATENT_RESET = 0x05,
    AHZ_EVENT_LATENT_TEST = 0x06,
    AHZ_EVENT_SETUP = 0x0F     /* 16 octets */
};

/* Octets of the longest tape that is no fault, and octets that hold the output of every tape. */
#define AHZ_TAPE_LONGEST 4096
#define AHZ_TAPE_OUTPUT 53513

/* Runs a bench tape and writes its lines to the start of out, and how many octets they are to length. Later octets of out stay. Answers 0.
 * A line for each event, and one with the counters at the end; each ends with a newline. A fault of the tape, AHZ_FAULT_.. or a refusal of
 * its setup, is the line `fault N` and the last one. So every tape has an output.
 * It takes AHZ_TAPE_STACK octets of stack. Refusal: 8 where out is shorter than the output. */
AHZ_USE_ANSWER uint8_t ahz_tape_v3(const uint8_t *tape, size_t tape_octets, uint8_t *out, size_t out_octets, size_t *length);

#ifdef __cplusplus
}
#endif

/* ---- Typed forms ----
 *
 * The calls above take and give bare numbers. Over them, the forms below take units, setups, states and generators as types of their own,
 * so that milliseconds given as ticks, or a raw code given as millivolts, do not compile. They are inline, decide nothing and refuse
 * nothing: each packs its arguments, makes the call that is named over it, and gives its answer, so that a refused one changes nothing
 * behind any pointer either. No pointer to a struct or to a number is null.
 *
 * A unit is a struct of one number. Its field is open: what a program reads or writes by it, as in `ticks.ticks = setup.timeout.ms`, is the
 * program's own word. A program writes milliseconds and rates itself, by ahz_milliseconds and ahz_rate, or by AHZ_MS and AHZ_PER_SECOND;
 * the others come from the form that is named beside them. In C++ no number becomes one of those: ahz_ticks_t(100) does not compile.
 * In C it does by its braces: {100} and (ahz_ticks_t){100} make ticks of a number without a warning. Without braces of its own in a list,
 * a number for a unit is taken too, but -Wall, by -Wmissing-braces, warns; elsewhere it does not compile. A pointer to one struct where one
 * to another is asked is no more than a warning in C before GCC 14. */

#ifdef __cplusplus
#define AHZ_INLINE inline
#define AHZ_CAST(type, value) static_cast<type>(value)
#define AHZ_WRITTEN_UNIT(name, type, field) \
    struct name { \
        type field; \
        name() = default; \
        constexpr explicit name(type number) : field(number) {} \
    }
#define AHZ_GIVEN_UNIT(name, type, field) \
    struct name { \
        type field; \
        name() = default; \
    private: \
        explicit name(type); \
    }
#else
#define AHZ_INLINE static inline
#define AHZ_CAST(type, value) ((type)(value))
#define AHZ_WRITTEN_UNIT(name, type, field) \
    typedef struct { \
        type field; \
    } name
#define AHZ_GIVEN_UNIT AHZ_WRITTEN_UNIT
#endif

AHZ_WRITTEN_UNIT(ahz_milliseconds_t, uint32_t, ms);
AHZ_WRITTEN_UNIT(ahz_rate_t, uint16_t, per_second);   /* ticks per second */
AHZ_GIVEN_UNIT(ahz_ticks_t, uint64_t, ticks);         /* from ahz_full_ticks and ahz_state_ticks_left */
AHZ_GIVEN_UNIT(ahz_raw_code_t, uint16_t, code);       /* from ahz_card_next, as the next two */
AHZ_GIVEN_UNIT(ahz_millivolts_t, uint16_t, mv);
AHZ_GIVEN_UNIT(ahz_blocks_t, uint32_t, blocks);
AHZ_GIVEN_UNIT(ahz_volts_t, double, volts);           /* from ahz_card_volts */

/* The two units that a program writes, as constants: a setup of them needs no code, and may lie in flash, as
 *     static const ahz_setup_t setups[] = {
 *         {AHZ_RULE_VECTOR, AHZ_NOT_TAKEN, AHZ_USE_SEQUENCE, 8, AHZ_MS(100), AHZ_PER_SECOND(100), 2, 1}};
 * In C they are braces with the number inside, and stand in an initialiser alone. */
#ifdef __cplusplus
#define AHZ_MS(n) ahz_milliseconds_t{n}
#define AHZ_PER_SECOND(n) ahz_rate_t{n}
#else
#define AHZ_MS(n) {(n)}
#define AHZ_PER_SECOND(n) {(n)}
#endif

/* A setup by name. See ahz_check_setup_v2 for the ranges. */
typedef struct {
    uint8_t rule;               /* AHZ_RULE_VECTOR or AHZ_RULE_MATCH */
    uint8_t taken;              /* AHZ_TAKEN or AHZ_NOT_TAKEN: packets without a number */
    uint8_t use;                /* AHZ_USE_SEQUENCE or AHZ_USE_INDIVIDUAL */
    uint16_t history;
    ahz_milliseconds_t timeout;
    ahz_rate_t rate;
    uint8_t paths;
    uint32_t difference;
} ahz_setup_t;

/* A recovery state. To store one, store its words. */
typedef struct {
    uint64_t words[AHZ_S_WORDS];
} ahz_state_t;

/* A generator, by its next number. */
typedef struct {
    uint16_t next;
} ahz_generator_t;

/* The nine counters of a state. lost counts each place that left the window before a packet passed there, and before_first those of them
 * below the place of the first packet after a start or a reset. So lost - before_first, modulo 2^64, counts only places above it. */
typedef struct {
    uint64_t passed;
    uint64_t discarded;
    uint64_t order;
    uint64_t rogue;
    uint64_t lost;
    uint64_t tagless;
    uint64_t resets;
    uint64_t latent_resets;
    uint64_t before_first;
} ahz_counters_t;

/* What was read of a frame, in whichever encoding. */
typedef struct {
    uint64_t words[AHZ_H_ID_WORDS];
} ahz_header_t;

/* What stands next in a payload: the answer, and the number that it names. Look at the answer first: a number that it does not name is 0,
 * which is a number too. It is no union, so that a raw code is never read as millivolts. */
typedef struct {
    uint8_t answer;
    ahz_blocks_t blocks;         /* AHZ_FLUSH_ORDER */
    ahz_raw_code_t raw_code;     /* AHZ_RAW_CODE */
    ahz_millivolts_t millivolts; /* AHZ_MILLIVOLTS */
} ahz_card_t;

/* Gain and offset of the raw codes' scale: 0 < gain <= 1 and -100 <= offset <= 100. */
typedef struct {
    double gain;
    double offset;
} ahz_calibration_t;

/* 1 where the archive that is linked fits this header, else 0. */
AHZ_USE_ANSWER AHZ_INLINE int ahz_version_fits(void) {
    const uint32_t version = ahz_version();
    return version >= AHZ_VERSION && version / 65536u == AHZ_VERSION_MAJOR;
}

/* 1 where an answer is a refusal, else 0. */
AHZ_USE_ANSWER AHZ_INLINE int ahz_is_refusal(uint8_t answer) {
    return answer != AHZ_DONE && answer < AHZ_NAMED;
}

/* What a refusal or a fault of a tape says, in a few words; of any other number, that it is neither. */
AHZ_USE_ANSWER AHZ_INLINE const char *ahz_refusal_sentence(uint8_t refusal) {
    switch (refusal) {
    case AHZ_R_FRAME_SHORT: return "frame under 14 octets, or under 18 with its check";
    case AHZ_R_FRAME_LONG: return "frame over 1,522 octets, or over 1,526 with its check";
    case AHZ_R_TAG_CUT: return "octets end before the type after a tag";
    case AHZ_R_TAG_TWICE: return "8100 after a C-TAG, or 8100, F1C1 or 892F after an R-TAG or an HSR tag";
    case AHZ_R_VLAN: return "VLAN id 4,095";
    case AHZ_R_TAG_THERE: return "insertion into a frame with an R-TAG or an HSR tag";
    case AHZ_R_RESULT_LONG: return "result over 1,522 octets";
    case AHZ_R_OUTPUT_SHORT: return "output shorter than the result";
    case AHZ_R_NO_TAG: return "removal from a frame without a number in the stream's encoding";
    case AHZ_R_ENTRY_KIND: return "table entry of no known kind";
    case AHZ_R_ENTRY_CUT: return "octets end inside a table entry";
    case AHZ_R_ENTRY_RANGE: return "choice, VLAN, DSCP or next protocol of a table entry out of range";
    case AHZ_R_ENTRY_257: return "257th table entry";
    case AHZ_R_STATE: return "no state of this format, or one that is not sound";
    case AHZ_R_RULE: return "rule not 0 or 1";
    case AHZ_R_HISTORY: return "history length not 2 to 512";
    case AHZ_R_MILLISECONDS: return "timeout not 1 to 3,600,000 ms";
    case AHZ_R_RATE: return "ticks per second not 1 to 10,000";
    case AHZ_R_PATHS: return "paths not 2 to 8";
    case AHZ_R_CARD_KIND: return "card of no known kind";
    case AHZ_R_CARD_CUT: return "octets end inside a card";
    case AHZ_R_CALIBRATION: return "not 0 < gain <= 1, or not -100 <= offset <= 100";
    case AHZ_FAULT_KIND: return "tape event of no known kind";
    case AHZ_FAULT_CUT: return "octets end inside a tape event";
    case AHZ_FAULT_SETUP: return "setup missing or repeated on a tape";
    case AHZ_FAULT_LONG: return "tape over 4,096 octets";
    case AHZ_R_TAKEN_OR_USE: return "taken flag or use not 0 or 1";
    case AHZ_R_FCS: return "frame check sequence does not match";
    case AHZ_R_PATH_ID: return "path or LAN id over 15";
    default: return "no refusal";
    }
}

/* The two units that a program writes, of any number. */
AHZ_USE_ANSWER AHZ_INLINE ahz_milliseconds_t ahz_milliseconds(uint32_t ms) {
    ahz_milliseconds_t unit;
    unit.ms = ms;
    return unit;
}

AHZ_USE_ANSWER AHZ_INLINE ahz_rate_t ahz_rate(uint16_t ticks_per_second) {
    ahz_rate_t unit;
    unit.per_second = ticks_per_second;
    return unit;
}

/* The one way from milliseconds to ticks: ahz_ticks. */
AHZ_USE_ANSWER AHZ_INLINE ahz_ticks_t ahz_full_ticks(ahz_milliseconds_t timeout, ahz_rate_t rate) {
    ahz_ticks_t unit;
    unit.ticks = ahz_ticks(timeout.ms, rate.per_second);
    return unit;
}

/* ahz_read; the path id, which an R-TAG does not have, is 0. */
AHZ_USE_ANSWER AHZ_INLINE uint8_t ahz_header_read(ahz_header_t *header, const uint8_t *frame, size_t frame_octets) {
    const uint8_t answer = ahz_read(frame, frame_octets, header->words, AHZ_H_WORDS);
    if (answer == AHZ_DONE) header->words[AHZ_H_PATH_ID] = 0;
    return answer;
}

/* ahz_read_hsr. */
AHZ_USE_ANSWER AHZ_INLINE uint8_t ahz_header_read_hsr(ahz_header_t *header, const uint8_t *frame, size_t frame_octets) {
    return ahz_read_hsr(frame, frame_octets, header->words, AHZ_H_ID_WORDS);
}

/* ahz_read_prp. */
AHZ_USE_ANSWER AHZ_INLINE uint8_t ahz_header_read_prp(ahz_header_t *header, const uint8_t *frame, size_t frame_octets) {
    return ahz_read_prp(frame, frame_octets, header->words, AHZ_H_ID_WORDS);
}

/* What a header says; of a header that one of the three wrote. The payload is where it starts in the frame. */
AHZ_USE_ANSWER AHZ_INLINE uint64_t ahz_header_destination(const ahz_header_t *header) {
    return header->words[AHZ_H_DESTINATION];
}

AHZ_USE_ANSWER AHZ_INLINE uint64_t ahz_header_source(const ahz_header_t *header) {
    return header->words[AHZ_H_SOURCE];
}

AHZ_USE_ANSWER AHZ_INLINE uint16_t ahz_header_type(const ahz_header_t *header) {
    return AHZ_CAST(uint16_t, header->words[AHZ_H_TYPE]);
}

AHZ_USE_ANSWER AHZ_INLINE size_t ahz_header_payload(const ahz_header_t *header) {
    return AHZ_CAST(size_t, header->words[AHZ_H_PAYLOAD]);
}

/* 1 with a C-TAG, and its VLAN id in vlan; else 0, and vlan stays. */
AHZ_USE_ANSWER AHZ_INLINE int ahz_header_tagged(const ahz_header_t *header, uint16_t *vlan) {
    if (header->words[AHZ_H_TAGGED] == 0) return 0;
    *vlan = AHZ_CAST(uint16_t, header->words[AHZ_H_VLAN]);
    return 1;
}

/* 1 with a number in the encoding that was read, and that number in number; else 0, and number stays: such a packet is one for
 * ahz_state_tagless. */
AHZ_USE_ANSWER AHZ_INLINE int ahz_header_numbered(const ahz_header_t *header, uint16_t *number) {
    if (header->words[AHZ_H_NUMBERED] == 0) return 0;
    *number = AHZ_CAST(uint16_t, header->words[AHZ_H_NUMBER]);
    return 1;
}

/* The path or LAN id beside that number, 0 to 15; 0 without a number, and under R-TAG. */
AHZ_USE_ANSWER AHZ_INLINE uint8_t ahz_header_path_id(const ahz_header_t *header) {
    return AHZ_CAST(uint8_t, header->words[AHZ_H_PATH_ID]);
}

/* ahz_generator. */
AHZ_USE_ANSWER AHZ_INLINE ahz_generator_t ahz_generator_fresh(void) {
    ahz_generator_t generator;
    generator.next = ahz_generator();
    return generator;
}

/* ahz_generate. */
AHZ_USE_ANSWER AHZ_INLINE uint16_t ahz_generator_next(ahz_generator_t *generator) {
    return ahz_generate(&generator->next);
}

/* ahz_generator_reset. */
AHZ_INLINE void ahz_generator_restart(ahz_generator_t *generator) {
    ahz_generator_reset(&generator->next);
}

/* ahz_check_setup_v2. */
AHZ_USE_ANSWER AHZ_INLINE uint8_t ahz_setup_check(ahz_setup_t setup) {
    return ahz_check_setup_v2(setup.rule, setup.taken, setup.use, setup.history, setup.timeout.ms, setup.rate.per_second, setup.paths,
                              setup.difference);
}

/* ahz_fresh_v4. */
AHZ_USE_ANSWER AHZ_INLINE uint8_t ahz_state_fresh(ahz_state_t *state, ahz_setup_t setup) {
    return ahz_fresh_v4(setup.rule, setup.taken, setup.use, setup.history, setup.timeout.ms, setup.rate.per_second, setup.paths,
                        setup.difference, state->words, AHZ_S_WORDS);
}

/* ahz_numbered. */
AHZ_USE_ANSWER AHZ_INLINE uint8_t ahz_state_numbered(ahz_state_t *state, uint16_t number) {
    return ahz_numbered(state->words, AHZ_S_WORDS, number);
}

/* ahz_tagless. */
AHZ_USE_ANSWER AHZ_INLINE uint8_t ahz_state_tagless(ahz_state_t *state) {
    return ahz_tagless(state->words, AHZ_S_WORDS);
}

/* ahz_tick. */
AHZ_USE_ANSWER AHZ_INLINE uint8_t ahz_state_tick(ahz_state_t *state) {
    return ahz_tick(state->words, AHZ_S_WORDS);
}

/* ahz_reset. */
AHZ_USE_ANSWER AHZ_INLINE uint8_t ahz_state_reset(ahz_state_t *state) {
    return ahz_reset(state->words, AHZ_S_WORDS);
}

/* ahz_latent_reset. */
AHZ_USE_ANSWER AHZ_INLINE uint8_t ahz_state_latent_reset(ahz_state_t *state) {
    return ahz_latent_reset(state->words, AHZ_S_WORDS);
}

/* ahz_latent_test. */
AHZ_USE_ANSWER AHZ_INLINE uint8_t ahz_state_latent_test(const ahz_state_t *state) {
    return ahz_latent_test(state->words, AHZ_S_WORDS);
}

/* What a state holds; of a state that a call wrote. Its setup: */
AHZ_USE_ANSWER AHZ_INLINE ahz_setup_t ahz_state_setup(const ahz_state_t *state) {
    ahz_setup_t setup;
    setup.rule = AHZ_CAST(uint8_t, state->words[AHZ_S_RULE]);
    setup.taken = AHZ_CAST(uint8_t, state->words[AHZ_S_TAKEN]);
    setup.use = AHZ_CAST(uint8_t, state->words[AHZ_S_USE]);
    setup.history = AHZ_CAST(uint16_t, state->words[AHZ_S_HISTORY]);
    setup.timeout.ms = AHZ_CAST(uint32_t, state->words[AHZ_S_MILLISECONDS]);
    setup.rate.per_second = AHZ_CAST(uint16_t, state->words[AHZ_S_RATE]);
    setup.paths = AHZ_CAST(uint8_t, state->words[AHZ_S_PATHS]);
    setup.difference = AHZ_CAST(uint32_t, state->words[AHZ_S_DIFFERENCE]);
    return setup;
}

/* Its counters: */
AHZ_USE_ANSWER AHZ_INLINE ahz_counters_t ahz_state_counters(const ahz_state_t *state) {
    ahz_counters_t counters;
    counters.passed = state->words[AHZ_S_PASSED];
    counters.discarded = state->words[AHZ_S_DISCARDED];
    counters.order = state->words[AHZ_S_ORDER];
    counters.rogue = state->words[AHZ_S_ROGUE];
    counters.lost = state->words[AHZ_S_LOST];
    counters.tagless = state->words[AHZ_S_TAGLESS];
    counters.resets = state->words[AHZ_S_RESETS];
    counters.latent_resets = state->words[AHZ_S_LATENT_RESETS];
    counters.before_first = state->words[AHZ_S_BEFORE_FIRST];
    return counters;
}

/* The ticks left before it is reset; 0 where the timer stands: */
AHZ_USE_ANSWER AHZ_INLINE ahz_ticks_t ahz_state_ticks_left(const ahz_state_t *state) {
    ahz_ticks_t unit;
    unit.ticks = state->words[AHZ_S_LEFT];
    return unit;
}

/* 1, and its newest number in newest; or 0 under take-any, where there is none, and newest stays: */
AHZ_USE_ANSWER AHZ_INLINE int ahz_state_newest(const ahz_state_t *state, uint16_t *newest) {
    if (state->words[AHZ_S_TAKE_ANY] != 0) return 0;
    *newest = AHZ_CAST(uint16_t, state->words[AHZ_S_NEWEST]);
    return 1;
}

/* Mark k: 1 where the number k below the newest has passed, else 0. There is none from the history length on, under take-any or match: */
AHZ_USE_ANSWER AHZ_INLINE int ahz_state_mark(const ahz_state_t *state, size_t k) {
    return k < AHZ_HISTORY_MOST && (state->words[AHZ_S_MARKS + k / 64] >> k % 64 & 1) != 0;
}

/* 1, and in below how far below the newest the first packet's place stands, which is 0 while it is the newest. Or 0, and below stays, where
 * no place of the window is the first packet's: no packet with a number yet, the window has left it, or match. */
AHZ_USE_ANSWER AHZ_INLINE int ahz_state_first(const ahz_state_t *state, uint16_t *below) {
    if (state->words[AHZ_S_FIRST] == 0) return 0;
    *below = AHZ_CAST(uint16_t, state->words[AHZ_S_FIRST] - 1);
    return 1;
}

/* Its latent base, modulo 2^64: */
AHZ_USE_ANSWER AHZ_INLINE uint64_t ahz_state_base(const ahz_state_t *state) {
    return state->words[AHZ_S_BASE];
}

/* ahz_card. */
AHZ_USE_ANSWER AHZ_INLINE ahz_card_t ahz_card_next(const uint8_t *payload, size_t payload_octets) {
    uint32_t value = 0;
    ahz_card_t card;
    card.answer = ahz_card(payload, payload_octets, &value);
    card.blocks.blocks = card.answer == AHZ_FLUSH_ORDER ? value : 0;
    card.raw_code.code = AHZ_CAST(uint16_t, card.answer == AHZ_RAW_CODE ? value : 0);
    card.millivolts.mv = AHZ_CAST(uint16_t, card.answer == AHZ_MILLIVOLTS ? value : 0);
    return card;
}

/* ahz_volts. */
AHZ_USE_ANSWER AHZ_INLINE uint8_t ahz_card_volts(const uint8_t *payload, size_t payload_octets, ahz_calibration_t calibration,
                                                    ahz_volts_t *volts) {
    return ahz_volts(payload, payload_octets, calibration.gain, calibration.offset, &volts->volts);
}

#undef AHZ_INLINE
#undef AHZ_CAST
#undef AHZ_WRITTEN_UNIT
#undef AHZ_GIVEN_UNIT

#endif
