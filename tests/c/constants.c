/* Each constant of the header against the numbers of documents 01 and 02, and each type against its width. It need only compile. */
#include <ahozurime.h>

#define JOINED(a, b) a##b
#define NAMED(line) JOINED(holds_, line)
#define HOLDS(what) typedef char NAMED(__LINE__)[(what) ? 1 : -1]

/* The version, as the preprocessor sees it too. */
#if AHZ_VERSION != 327681 || AHZ_VERSION_MAJOR != 5 || AHZ_VERSION_MINOR != 1
#error "the version is not 5.1"
#endif

/* When the layer says no. */
HOLDS(AHZ_R_FRAME_SHORT == 1 && AHZ_R_FRAME_LONG == 2 && AHZ_R_TAG_CUT == 3 && AHZ_R_TAG_TWICE == 4 && AHZ_R_VLAN == 5);
HOLDS(AHZ_R_TAG_THERE == 6 && AHZ_R_NO_TAG == 9 && AHZ_R_RESULT_LONG == 7 && AHZ_R_OUTPUT_SHORT == 8);
HOLDS(AHZ_R_ENTRY_KIND == 10 && AHZ_R_ENTRY_CUT == 11 && AHZ_R_ENTRY_RANGE == 12 && AHZ_R_ENTRY_257 == 13 && AHZ_R_STATE == 14);
HOLDS(AHZ_R_RULE == 15 && AHZ_R_HISTORY == 16 && AHZ_R_MILLISECONDS == 17 && AHZ_R_RATE == 18 && AHZ_R_PATHS == 19);
HOLDS(AHZ_R_TAKEN_OR_USE == 27 && AHZ_R_FCS == 28 && AHZ_R_PATH_ID == 37);
HOLDS(AHZ_R_CARD_KIND == 20 && AHZ_R_CARD_CUT == 21 && AHZ_R_CALIBRATION == 22);
HOLDS(AHZ_FAULT_KIND == 23 && AHZ_FAULT_CUT == 24 && AHZ_FAULT_SETUP == 25 && AHZ_FAULT_LONG == 26);

/* The named answers, which the paper leaves to us: a program that was compiled with them goes on to mean the same. */
HOLDS(AHZ_DONE == 0 && AHZ_NAMED == 100);
HOLDS(AHZ_FLUSH_ORDER == 100 && AHZ_RAW_CODE == 101 && AHZ_MILLIVOLTS == 102 && AHZ_END == 103);
HOLDS(AHZ_FROM_RAW_CODE == 104 && AHZ_FROM_MILLIVOLTS == 105 && AHZ_NOT_A_READING == 106);
HOLDS(AHZ_STREAM == 107 && AHZ_NO_STREAM == 108 && AHZ_PASS == 109 && AHZ_DISCARD == 110);
HOLDS(AHZ_TICK == 111 && AHZ_RESET == 112 && AHZ_LATENT_OK == 113 && AHZ_LATENT_ERROR == 114);

/* Reading a frame. */
HOLDS(AHZ_FRAME_SHORTEST == 6 + 6 + 2 && AHZ_FRAME_LONGEST == 1522 && AHZ_CTAG_OCTETS == 2 + 2 && AHZ_RTAG_OCTETS == 2 + 2 + 2);
HOLDS(AHZ_TYPE_CTAG == 0x8100 && AHZ_TYPE_RTAG == 0xF1C1 && AHZ_TYPE_IP == 0x0800 && AHZ_VLAN_LAST == 4094);
HOLDS(AHZ_H_DESTINATION == 0 && AHZ_H_SOURCE == 1 && AHZ_H_TAGGED == 2 && AHZ_H_VLAN == 3 && AHZ_H_NUMBERED == 4);
HOLDS(AHZ_H_NUMBER == 5 && AHZ_H_TYPE == 6 && AHZ_H_PAYLOAD == 7 && AHZ_H_WORDS == 8);

/* HSR and PRP: a type or suffix, 4 bits and 12, a number; an id of 4 bits, for which a header has a word more. */
HOLDS(AHZ_HSR_OCTETS == 2 + 2 + 2 && AHZ_PRP_OCTETS == 2 + 2 + 2 && AHZ_TYPE_HSR == 0x892F && AHZ_SUFFIX_PRP == 0x88FB);
HOLDS(AHZ_PATH_ID_LAST == 15 && AHZ_H_PATH_ID == 8 && AHZ_H_ID_WORDS == 8 + 1);

/* A frame with its check. */
HOLDS(AHZ_FCS_OCTETS == 4 && AHZ_FCS_SHORTEST == 14 + 4 && AHZ_FCS_LONGEST == 1522 + 4);

/* Stream tables, and IP streams in them. */
HOLDS(AHZ_KIND_DESTINATION == 1 && AHZ_KIND_SOURCE == 2 && AHZ_KIND_IP == 4);
HOLDS(AHZ_CHOICE_TAGGED == 1 && AHZ_CHOICE_PRIORITY == 2 && AHZ_CHOICE_ALL == 3 && AHZ_VLAN_ANY == 0);
HOLDS(AHZ_IP_ANY == 0 && AHZ_DSCP_LAST == 63 && AHZ_DSCP_ANY == 255 && AHZ_PORT_ANY == 0);
HOLDS(AHZ_PROTOCOL_NONE == 1 && AHZ_PROTOCOL_UDP == 2 && AHZ_PROTOCOL_TCP == 3 && AHZ_PROTOCOL_SCTP == 4);
HOLDS(AHZ_ENTRY_OCTETS == 1 + 6 + 1 + 2 + 2 && AHZ_IP_ENTRY_OCTETS == 1 + 6 + 1 + 2 + 4 + 4 + 1 + 1 + 2 + 2 + 2);
HOLDS(AHZ_TABLE_ENTRIES == 256 && AHZ_TABLE_LONGEST == 256 * 26);

/* Numbering and recovery. */
HOLDS(AHZ_RULE_VECTOR == 0 && AHZ_RULE_MATCH == 1 && AHZ_NOT_TAKEN == 0 && AHZ_TAKEN == 1);
HOLDS(AHZ_USE_SEQUENCE == 0 && AHZ_USE_INDIVIDUAL == 1);
HOLDS(AHZ_HISTORY_LEAST == 2 && AHZ_HISTORY_MOST == 512 && AHZ_MILLISECONDS_LEAST == 1 && AHZ_MILLISECONDS_MOST == 3600000);
HOLDS(AHZ_RATE_LEAST == 1 && AHZ_RATE_MOST == 10000 && AHZ_PATHS_LEAST == 2 && AHZ_PATHS_MOST == 8);

/* A state: a format, eight numbers of a setup, four of the window and the timer, the marks, nine counters, a base. */
HOLDS(AHZ_STATE_FORMAT == (('A' * 256 + 'H') * 256 + 'Z') * 256 + 4);
HOLDS(AHZ_S_FORMAT == 0 && AHZ_S_RULE == 1 && AHZ_S_TAKEN == 2 && AHZ_S_USE == 3 && AHZ_S_HISTORY == 4 && AHZ_S_MILLISECONDS == 5);
HOLDS(AHZ_S_RATE == 6 && AHZ_S_PATHS == 7 && AHZ_S_DIFFERENCE == 8);
HOLDS(AHZ_S_NEWEST == 9 && AHZ_S_MARKS == 10 && AHZ_MARK_WORDS == 8 && AHZ_MARK_WORDS * 64 == AHZ_HISTORY_MOST);
HOLDS(AHZ_S_FIRST == 18 && AHZ_S_TAKE_ANY == 19 && AHZ_S_LEFT == 20);
HOLDS(AHZ_S_PASSED == 21 && AHZ_S_DISCARDED == 22 && AHZ_S_ORDER == 23 && AHZ_S_ROGUE == 24 && AHZ_S_LOST == 25 && AHZ_S_TAGLESS == 26);
HOLDS(AHZ_S_RESETS == 27 && AHZ_S_LATENT_RESETS == 28 && AHZ_S_BEFORE_FIRST == 29 && AHZ_S_BASE == 30);
HOLDS(AHZ_S_WORDS == 1 + 8 + 4 + 8 + 9 + 1);

/* Charge cards, and the bench tape, of which 13 octets are the longest line for one octet and 265 the longest line of all. */
HOLDS(AHZ_CARD_END == 0x00 && AHZ_CARD_FLUSH_ORDER == 0x10 && AHZ_CARD_RAW_CODE == 0x11 && AHZ_CARD_MILLIVOLTS == 0x12);
HOLDS(AHZ_FLUSH_ORDER_OCTETS == 1 + 4 && AHZ_RAW_CODE_OCTETS == 1 + 2 && AHZ_MILLIVOLTS_OCTETS == 1 + 2);
HOLDS(AHZ_EVENT_NUMBERED == 1 && AHZ_EVENT_TAGLESS == 2 && AHZ_EVENT_TICK == 3 && AHZ_EVENT_RESET == 4);
HOLDS(AHZ_EVENT_LATENT_RESET == 5 && AHZ_EVENT_LATENT_TEST == 6 && AHZ_EVENT_SETUP == 0x0F);
HOLDS(AHZ_TAPE_LONGEST == 4096 && AHZ_TAPE_OUTPUT == 13 * 4096 + 265);
HOLDS(AHZ_TAPE_STACK == 55296 && AHZ_FCS_STACK == 1536 && AHZ_STACK == 512);

/* A unit is its number, and a state and a header are their words, so that each can be stored. */
HOLDS(sizeof(ahz_milliseconds_t) == 4 && sizeof(ahz_rate_t) == 2 && sizeof(ahz_ticks_t) == 8 && sizeof(ahz_volts_t) == 8);
HOLDS(sizeof(ahz_raw_code_t) == 2 && sizeof(ahz_millivolts_t) == 2 && sizeof(ahz_blocks_t) == 4);
HOLDS(sizeof(ahz_generator_t) == 2 && sizeof(ahz_state_t) == 31 * 8 && sizeof(ahz_header_t) == 9 * 8 && sizeof(ahz_counters_t) == 9 * 8);

/* A setup that a compiler works out, so that a program may keep it in flash. */
#define SETUP {AHZ_RULE_MATCH, AHZ_TAKEN, AHZ_USE_INDIVIDUAL, 8, AHZ_MS(AHZ_MILLISECONDS_MOST), AHZ_PER_SECOND(AHZ_RATE_MOST), 2, 1}
extern const ahz_setup_t setups[1];
#ifdef __cplusplus
constexpr ahz_setup_t setups[1] = {SETUP};
HOLDS(setups[0].use == 1 && setups[0].timeout.ms == 3600000 && setups[0].rate.per_second == 10000);
#else
const ahz_setup_t setups[1] = {SETUP};
#endif
