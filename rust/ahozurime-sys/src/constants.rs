// ---- The version ----

/// Goes up where a program written for an older header could go wrong.
pub const AHZ_VERSION_MAJOR: u32 = 5;
/// Goes up where something is only added.
pub const AHZ_VERSION_MINOR: u32 = 1;
/// The version that this package is written for; [`ahz_version`](crate::ahz_version) answers that of
/// the archive.
pub const AHZ_VERSION: u32 = AHZ_VERSION_MAJOR * 65_536 + AHZ_VERSION_MINOR;

// ---- Stack ----

/// Octets of stack that are enough for [`ahz_tape_v3`](crate::ahz_tape_v3).
pub const AHZ_TAPE_STACK: usize = 55_296;
/// Octets of stack that are enough for [`ahz_crc32`](crate::ahz_crc32),
/// [`ahz_check_fcs`](crate::ahz_check_fcs), [`ahz_without_fcs`](crate::ahz_without_fcs) and
/// [`ahz_append_fcs`](crate::ahz_append_fcs).
pub const AHZ_FCS_STACK: usize = 1_536;
/// Octets of stack that are enough for every other call.
pub const AHZ_STACK: usize = 512;

// ---- The refusals ----

/// A frame under 14 octets, or under 18 with its check.
pub const AHZ_R_FRAME_SHORT: u8 = 1;
/// A frame over 1,522 octets, or over 1,526 with its check.
pub const AHZ_R_FRAME_LONG: u8 = 2;
/// The octets end before the type after a tag, be it a C-TAG, an R-TAG or an HSR tag.
pub const AHZ_R_TAG_CUT: u8 = 3;
/// 8100 after a C-TAG; 8100, F1C1 or 892F after an R-TAG or an HSR tag.
pub const AHZ_R_TAG_TWICE: u8 = 4;
/// VLAN id 4,095.
pub const AHZ_R_VLAN: u8 = 5;
/// Insertion: there is an R-TAG or an HSR tag.
pub const AHZ_R_TAG_THERE: u8 = 6;
/// The result would be over 1,522 octets.
pub const AHZ_R_RESULT_LONG: u8 = 7;
/// The lent output is shorter than the result.
pub const AHZ_R_OUTPUT_SHORT: u8 = 8;
/// Removal: there is no number in the stream's encoding.
pub const AHZ_R_NO_TAG: u8 = 9;
/// Table: an entry of no known kind.
pub const AHZ_R_ENTRY_KIND: u8 = 10;
/// Table: the octets end inside an entry.
pub const AHZ_R_ENTRY_CUT: u8 = 11;
/// Table: an entry's choice or VLAN is out of range, or in kind 4 its DSCP or next protocol.
pub const AHZ_R_ENTRY_RANGE: u8 = 12;
/// Table: a 257th entry.
pub const AHZ_R_ENTRY_257: u8 = 13;
/// The words hold no state of this format, or one that is not sound.
pub const AHZ_R_STATE: u8 = 14;
/// Setup: rule not 0 or 1.
pub const AHZ_R_RULE: u8 = 15;
/// Setup: history length not 2 to 512.
pub const AHZ_R_HISTORY: u8 = 16;
/// Setup: timeout not 1 to 3,600,000 ms.
pub const AHZ_R_MILLISECONDS: u8 = 17;
/// Setup: ticks per second not 1 to 10,000.
pub const AHZ_R_RATE: u8 = 18;
/// Setup: paths not 2 to 8.
pub const AHZ_R_PATHS: u8 = 19;
/// A card of no known kind.
pub const AHZ_R_CARD_KIND: u8 = 20;
/// The octets end inside a card.
pub const AHZ_R_CARD_CUT: u8 = 21;
/// Not 0 < gain <= 1 or not -100 <= offset <= 100, a NaN among them.
pub const AHZ_R_CALIBRATION: u8 = 22;
/// Setup: taken flag or use not 0 or 1.
pub const AHZ_R_TAKEN_OR_USE: u8 = 27;
/// The frame check sequence does not match the octets before it.
pub const AHZ_R_FCS: u8 = 28;
/// Insertion: a path or LAN id over 15.
pub const AHZ_R_PATH_ID: u8 = 37;

// ---- The faults of a tape, which stand in its output and are never an answer ----

/// An event of no known kind.
pub const AHZ_FAULT_KIND: u8 = 23;
/// The octets end inside an event.
pub const AHZ_FAULT_CUT: u8 = 24;
/// The setup is missing or repeated.
pub const AHZ_FAULT_SETUP: u8 = 25;
/// The tape is over 4,096 octets.
pub const AHZ_FAULT_LONG: u8 = 26;

// ---- The named answers ----

/// Done.
pub const AHZ_DONE: u8 = 0;
/// An answer from here on is a named one, and one from 1 on below it a refusal.
pub const AHZ_NAMED: u8 = 100;
/// [`ahz_card`](crate::ahz_card): the value is the blocks asked.
pub const AHZ_FLUSH_ORDER: u8 = 100;
/// [`ahz_card`](crate::ahz_card): the value is the raw code.
pub const AHZ_RAW_CODE: u8 = 101;
/// [`ahz_card`](crate::ahz_card): the value is the millivolts.
pub const AHZ_MILLIVOLTS: u8 = 102;
/// [`ahz_card`](crate::ahz_card): 00 or no octet left.
pub const AHZ_END: u8 = 103;
/// [`ahz_volts`](crate::ahz_volts): volts from a raw code.
pub const AHZ_FROM_RAW_CODE: u8 = 104;
/// [`ahz_volts`](crate::ahz_volts): volts from millivolts.
pub const AHZ_FROM_MILLIVOLTS: u8 = 105;
/// [`ahz_volts`](crate::ahz_volts): a flush order or an end.
pub const AHZ_NOT_A_READING: u8 = 106;
/// [`ahz_lookup`](crate::ahz_lookup): the handle is the first match's.
pub const AHZ_STREAM: u8 = 107;
/// [`ahz_lookup`](crate::ahz_lookup): no entry matches.
pub const AHZ_NO_STREAM: u8 = 108;
/// A packet passes.
pub const AHZ_PASS: u8 = 109;
/// A packet is discarded.
pub const AHZ_DISCARD: u8 = 110;
/// [`ahz_tick`](crate::ahz_tick): a tick.
pub const AHZ_TICK: u8 = 111;
/// [`ahz_tick`](crate::ahz_tick): the tick timed out, and a reset followed.
pub const AHZ_RESET: u8 = 112;
/// [`ahz_latent_test`](crate::ahz_latent_test): no error.
pub const AHZ_LATENT_OK: u8 = 113;
/// [`ahz_latent_test`](crate::ahz_latent_test): error.
pub const AHZ_LATENT_ERROR: u8 = 114;

// ---- Frames ----

/// Octets of the shortest frame.
pub const AHZ_FRAME_SHORTEST: usize = 14;
/// Octets of the longest frame.
pub const AHZ_FRAME_LONGEST: usize = 1_522;
/// Octets of a C-TAG.
pub const AHZ_CTAG_OCTETS: usize = 4;
/// Octets of an R-TAG.
pub const AHZ_RTAG_OCTETS: usize = 6;
/// Octets of an HSR tag.
pub const AHZ_HSR_OCTETS: usize = 6;
/// Octets of a PRP trailer.
pub const AHZ_PRP_OCTETS: usize = 6;
/// What a C-TAG begins with.
pub const AHZ_TYPE_CTAG: u16 = 0x8100;
/// What an R-TAG begins with.
pub const AHZ_TYPE_RTAG: u16 = 0xF1C1;
/// What an HSR tag begins with.
pub const AHZ_TYPE_HSR: u16 = 0x892F;
/// No tag: the last type of a frame that an entry of kind 4 can match.
pub const AHZ_TYPE_IP: u16 = 0x0800;
/// What a PRP trailer ends with.
pub const AHZ_SUFFIX_PRP: u16 = 0x88FB;
/// The last VLAN id; 4,095 is refused, in a frame and in a table.
pub const AHZ_VLAN_LAST: u16 = 4_094;
/// The last path id, and the last LAN id.
pub const AHZ_PATH_ID_LAST: u8 = 15;

// ---- The words of a header ----

/// The destination's six octets as one big-endian number.
pub const AHZ_H_DESTINATION: usize = 0;
/// The source's six octets as one big-endian number.
pub const AHZ_H_SOURCE: usize = 1;
/// 1 with a C-TAG, else 0.
pub const AHZ_H_TAGGED: usize = 2;
/// The VLAN id, 0 without a C-TAG.
pub const AHZ_H_VLAN: usize = 3;
/// 1 with a number in the call's encoding, else 0.
pub const AHZ_H_NUMBERED: usize = 4;
/// That number, 0 without one: look at [`AHZ_H_NUMBERED`] first.
pub const AHZ_H_NUMBER: usize = 5;
/// The last type.
pub const AHZ_H_TYPE: usize = 6;
/// Where the payload starts; it goes to the end of the frame, a trailer with it.
pub const AHZ_H_PAYLOAD: usize = 7;
/// How many words a header of [`ahz_read`](crate::ahz_read) has.
pub const AHZ_H_WORDS: usize = 8;
/// The path or LAN id, 0 without a number; not of [`ahz_read`](crate::ahz_read).
pub const AHZ_H_PATH_ID: usize = 8;
/// How many words a header of [`ahz_read_hsr`](crate::ahz_read_hsr) or
/// [`ahz_read_prp`](crate::ahz_read_prp) has.
pub const AHZ_H_ID_WORDS: usize = 9;

// ---- The frame check sequence ----

/// Octets of the check.
pub const AHZ_FCS_OCTETS: usize = 4;
/// Octets of the shortest frame with its check.
pub const AHZ_FCS_SHORTEST: usize = 18;
/// Octets of the longest frame with its check.
pub const AHZ_FCS_LONGEST: usize = 1_526;

// ---- Stream tables ----

/// An entry by the frame's destination, the standard's Null stream identification.
pub const AHZ_KIND_DESTINATION: u8 = 1;
/// An entry by the frame's source.
pub const AHZ_KIND_SOURCE: u8 = 2;
/// An entry by the frame's destination and its IPv4 header.
pub const AHZ_KIND_IP: u8 = 4;
/// The choice of a frame with a C-TAG.
pub const AHZ_CHOICE_TAGGED: u8 = 1;
/// The choice of a frame without one, or with VLAN id 0.
pub const AHZ_CHOICE_PRIORITY: u8 = 2;
/// The choice of any frame.
pub const AHZ_CHOICE_ALL: u8 = 3;
/// The VLAN of an entry for every VLAN.
pub const AHZ_VLAN_ANY: u16 = 0;
/// The source or destination IP of an entry for every address.
pub const AHZ_IP_ANY: u32 = 0;
/// The last DSCP.
pub const AHZ_DSCP_LAST: u8 = 63;
/// The DSCP of an entry for every DSCP.
pub const AHZ_DSCP_ANY: u8 = 255;
/// The next protocol of an entry for every protocol and all ports.
pub const AHZ_PROTOCOL_NONE: u8 = 1;
/// The next protocol UDP, 17 in an IP header.
pub const AHZ_PROTOCOL_UDP: u8 = 2;
/// The next protocol TCP, 6 in an IP header.
pub const AHZ_PROTOCOL_TCP: u8 = 3;
/// The next protocol SCTP, 132 in an IP header.
pub const AHZ_PROTOCOL_SCTP: u8 = 4;
/// The source or destination port of an entry for every port.
pub const AHZ_PORT_ANY: u16 = 0;
/// Octets of an entry of kind 1 or 2.
pub const AHZ_ENTRY_OCTETS: usize = 12;
/// Octets of an entry of kind 4.
pub const AHZ_IP_ENTRY_OCTETS: usize = 26;
/// Entries of the longest table.
pub const AHZ_TABLE_ENTRIES: usize = 256;
/// Octets of the longest table, all of whose entries are of kind 4.
pub const AHZ_TABLE_LONGEST: usize = 6_656;

// ---- The numbers of a setup ----

/// The rule vector.
pub const AHZ_RULE_VECTOR: u8 = 0;
/// The rule match.
pub const AHZ_RULE_MATCH: u8 = 1;
/// Packets without a number are discarded.
pub const AHZ_NOT_TAKEN: u8 = 0;
/// Packets without a number pass.
pub const AHZ_TAKEN: u8 = 1;
/// The use of a state behind all paths: only a packet that passes restarts the timer.
pub const AHZ_USE_SEQUENCE: u8 = 0;
/// The use of a state for one member stream: a packet that is discarded restarts the timer too.
pub const AHZ_USE_INDIVIDUAL: u8 = 1;
/// The least history length.
pub const AHZ_HISTORY_LEAST: u16 = 2;
/// The greatest history length.
pub const AHZ_HISTORY_MOST: u16 = 512;
/// The shortest timeout.
pub const AHZ_MILLISECONDS_LEAST: u32 = 1;
/// The longest timeout.
pub const AHZ_MILLISECONDS_MOST: u32 = 3_600_000;
/// The least ticks per second.
pub const AHZ_RATE_LEAST: u16 = 1;
/// The most ticks per second.
pub const AHZ_RATE_MOST: u16 = 10_000;
/// The fewest paths.
pub const AHZ_PATHS_LEAST: u8 = 2;
/// The most paths.
pub const AHZ_PATHS_MOST: u8 = 8;

// ---- The words of a state ----

/// What [`AHZ_S_FORMAT`] holds: it changes whenever the words of a state or their meaning do.
pub const AHZ_STATE_FORMAT: u64 = 0x4148_5A04;

/// [`AHZ_STATE_FORMAT`]; a state of another format is refused by 14.
pub const AHZ_S_FORMAT: usize = 0;
/// 0 vector, 1 match.
pub const AHZ_S_RULE: usize = 1;
/// 1 where packets without a number are taken, else 0.
pub const AHZ_S_TAKEN: usize = 2;
/// 0 sequence, 1 individual.
pub const AHZ_S_USE: usize = 3;
/// The history length, 2 to 512.
pub const AHZ_S_HISTORY: usize = 4;
/// The timeout, 1 to 3,600,000.
pub const AHZ_S_MILLISECONDS: usize = 5;
/// Ticks per second, 1 to 10,000.
pub const AHZ_S_RATE: usize = 6;
/// Paths, 2 to 8.
pub const AHZ_S_PATHS: usize = 7;
/// The latent difference, below 2^32.
pub const AHZ_S_DIFFERENCE: usize = 8;
/// The newest number, below 2^16.
pub const AHZ_S_NEWEST: usize = 9;
/// The first of the marks' [`AHZ_MARK_WORDS`] words: bit k % 64 of the word k / 64 behind it is mark k, set
/// where the number k below the newest has passed. Mark 0 is the newest.
pub const AHZ_S_MARKS: usize = 10;
/// Which of the window's places is the first packet's, counted from the newest as 1, so one more than the
/// k of its mark; 0 where none of them is.
pub const AHZ_S_FIRST: usize = 18;
/// 1 where any number is taken next, else 0.
pub const AHZ_S_TAKE_ANY: usize = 19;
/// Ticks left.
pub const AHZ_S_LEFT: usize = 20;
/// Packets that passed. The nine counters wrap.
pub const AHZ_S_PASSED: usize = 21;
/// Packets that were discarded.
pub const AHZ_S_DISCARDED: usize = 22;
/// Packets that passed out of order.
pub const AHZ_S_ORDER: usize = 23;
/// Packets discarded for a number too far from the newest.
pub const AHZ_S_ROGUE: usize = 24;
/// Places that the window left and that nothing passed at.
pub const AHZ_S_LOST: usize = 25;
/// Packets without a number.
pub const AHZ_S_TAGLESS: usize = 26;
/// Resets, by call or by timeout.
pub const AHZ_S_RESETS: usize = 27;
/// Latent resets.
pub const AHZ_S_LATENT_RESETS: usize = 28;
/// Those of [`AHZ_S_LOST`] that lie below the first packet's place.
pub const AHZ_S_BEFORE_FIRST: usize = 29;
/// The latent base, modulo 2^64.
pub const AHZ_S_BASE: usize = 30;
/// How many words a state has.
pub const AHZ_S_WORDS: usize = 31;
/// How many of them are the marks, a bit for each place of the longest history.
pub const AHZ_MARK_WORDS: usize = 8;

// ---- Charge cards, by their first octet ----

/// No card: the payload's end.
pub const AHZ_CARD_END: u8 = 0x00;
/// Blocks asked, in 4 octets.
pub const AHZ_CARD_FLUSH_ORDER: u8 = 0x10;
/// A raw code, in 2 octets.
pub const AHZ_CARD_RAW_CODE: u8 = 0x11;
/// Millivolts, in 2 octets.
pub const AHZ_CARD_MILLIVOLTS: u8 = 0x12;
/// Octets of a flush order, its first one among them.
pub const AHZ_FLUSH_ORDER_OCTETS: usize = 5;
/// Octets of a raw code.
pub const AHZ_RAW_CODE_OCTETS: usize = 3;
/// Octets of a card of millivolts.
pub const AHZ_MILLIVOLTS_OCTETS: usize = 3;

// ---- The bench tape ----

/// A packet with a number, in 2 octets.
pub const AHZ_EVENT_NUMBERED: u8 = 0x01;
/// A packet without a number.
pub const AHZ_EVENT_TAGLESS: u8 = 0x02;
/// A tick.
pub const AHZ_EVENT_TICK: u8 = 0x03;
/// A reset.
pub const AHZ_EVENT_RESET: u8 = 0x04;
/// A latent reset.
pub const AHZ_EVENT_LATENT_RESET: u8 = 0x05;
/// A latent test.
pub const AHZ_EVENT_LATENT_TEST: u8 = 0x06;
/// The setup, in 16 octets: the first event, and there is no second.
pub const AHZ_EVENT_SETUP: u8 = 0x0F;

/// Octets of the longest tape that is no fault.
pub const AHZ_TAPE_LONGEST: usize = 4_096;

/// Octets that hold the output of every tape.
pub const AHZ_TAPE_OUTPUT: usize = 53_513;
