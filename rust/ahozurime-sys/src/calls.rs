extern "C" {
    /// The version of the archive that is linked, as [`AHZ_VERSION`](crate::AHZ_VERSION) is written.
    pub fn ahz_version() -> u32;

    /// Reads a frame of an R-TAG stream and writes [`AHZ_H_WORDS`](crate::AHZ_H_WORDS) words to the
    /// start of `header`; later words stay. Refuses 1, 2, at a C-TAG 3, 5, 4, at an R-TAG or an HSR tag
    /// 3, 4; then 8.
    pub fn ahz_read(
        frame: *const u8,
        frame_octets: usize,
        header: *mut u64,
        header_words: usize,
    ) -> u8;

    /// Reads a frame of an HSR stream and writes [`AHZ_H_ID_WORDS`](crate::AHZ_H_ID_WORDS) words to the
    /// start of `header`; later words stay. Refuses 1 to 5 as [`ahz_read`]; then 8.
    pub fn ahz_read_hsr(
        frame: *const u8,
        frame_octets: usize,
        header: *mut u64,
        header_words: usize,
    ) -> u8;

    /// Reads a frame of a PRP stream and writes [`AHZ_H_ID_WORDS`](crate::AHZ_H_ID_WORDS) words to the
    /// start of `header`; later words stay. Refuses 1 to 5 as [`ahz_read`]; then 8.
    pub fn ahz_read_prp(
        frame: *const u8,
        frame_octets: usize,
        header: *mut u64,
        header_words: usize,
    ) -> u8;

    /// How many octets the payload has: the last ones of the frame, a trailer among them. 0 where the
    /// frame is refused.
    pub fn ahz_payload(frame: *const u8, frame_octets: usize) -> usize;

    /// Writes the frame with an R-TAG of that number to `out`, and the result's length to `length`;
    /// later octets stay. Refuses 1 to 5 as [`ahz_read`]; 6, 7, 8.
    pub fn ahz_insert(
        frame: *const u8,
        frame_octets: usize,
        number: u16,
        out: *mut u8,
        out_octets: usize,
        length: *mut usize,
    ) -> u8;

    /// Writes the frame with an HSR tag of that number and path id to `out`, and the result's length to
    /// `length`; later octets stay. Refuses 1 to 5 as [`ahz_read`]; 37, 6, 7, 8.
    pub fn ahz_insert_hsr(
        frame: *const u8,
        frame_octets: usize,
        number: u16,
        path_id: u8,
        out: *mut u8,
        out_octets: usize,
        length: *mut usize,
    ) -> u8;

    /// Writes the frame with a PRP trailer of that number and LAN id behind it to `out`, and the
    /// result's length to `length`; later octets stay. Refuses 1 to 5 as [`ahz_read`]; 37, 7, 8.
    pub fn ahz_insert_prp(
        frame: *const u8,
        frame_octets: usize,
        number: u16,
        lan_id: u8,
        out: *mut u8,
        out_octets: usize,
        length: *mut usize,
    ) -> u8;

    /// Writes the frame without its R-TAG to `out`, and the result's length to `length`; later
    /// octets stay. Refuses 1 to 5 as [`ahz_read`]; 9, 8.
    pub fn ahz_remove(
        frame: *const u8,
        frame_octets: usize,
        out: *mut u8,
        out_octets: usize,
        length: *mut usize,
    ) -> u8;

    /// Writes the frame without its HSR tag to `out`, and the result's length to `length`; later
    /// octets stay. Refuses 1 to 5 as [`ahz_read`]; 9, 8.
    pub fn ahz_remove_hsr(
        frame: *const u8,
        frame_octets: usize,
        out: *mut u8,
        out_octets: usize,
        length: *mut usize,
    ) -> u8;

    /// Writes the frame without its PRP trailer to `out`, and the result's length to `length`; later
    /// octets stay. Refuses 1 to 5 as [`ahz_read`]; 9, 8.
    pub fn ahz_remove_prp(
        frame: *const u8,
        frame_octets: usize,
        out: *mut u8,
        out_octets: usize,
        length: *mut usize,
    ) -> u8;

    /// The CRC-32 of IEEE 802.3 over so many octets; over none it is 0. Refuses nothing.
    pub fn ahz_crc32(data: *const u8, data_octets: usize) -> u32;

    /// Checks a frame with its check, which is its last four octets, low octet first. Refuses 1 under
    /// [`AHZ_FCS_SHORTEST`](crate::AHZ_FCS_SHORTEST), 2 over
    /// [`AHZ_FCS_LONGEST`](crate::AHZ_FCS_LONGEST), 28.
    pub fn ahz_check_fcs(frame: *const u8, frame_octets: usize) -> u8;

    /// How many octets the frame has without its check: the first ones of what is lent. 0 where
    /// [`ahz_check_fcs`] refuses it.
    pub fn ahz_without_fcs(frame: *const u8, frame_octets: usize) -> usize;

    /// Writes the frame and its check to `out`, and the result's length to `length`; later octets
    /// stay. Refuses 1, 2 by the frame's length alone; 8.
    pub fn ahz_append_fcs(
        frame: *const u8,
        frame_octets: usize,
        out: *mut u8,
        out_octets: usize,
        length: *mut usize,
    ) -> u8;

    /// Checks a table. Refuses, entry by entry, 13, 10, 11, 12.
    pub fn ahz_check_table(table: *const u8, table_octets: usize) -> u8;

    /// Looks the frame's stream up: [`AHZ_STREAM`](crate::AHZ_STREAM) with the first match's handle
    /// in `handle`, or [`AHZ_NO_STREAM`](crate::AHZ_NO_STREAM), and `handle` stays. Refuses first as
    /// [`ahz_check_table`], then 1 to 5 as [`ahz_read`].
    pub fn ahz_lookup(
        table: *const u8,
        table_octets: usize,
        frame: *const u8,
        frame_octets: usize,
        handle: *mut u16,
    ) -> u8;

    /// A fresh generator: its next number, 0.
    pub fn ahz_generator() -> u16;

    /// Answers the generator's number; the generator goes on to the next, 65,535 going to 0.
    pub fn ahz_generate(generator: *mut u16) -> u16;

    /// Sets the generator back to 0.
    pub fn ahz_generator_reset(generator: *mut u16);

    /// Full ticks of a timeout: milliseconds x rate / 1000, rounded up.
    pub fn ahz_ticks(milliseconds: u32, rate: u16) -> u64;

    /// Checks a setup. Refuses 15, 27 for `taken` and then for `usage`, 16, 17, 18, 19. What the header
    /// calls `use`, which is a keyword of Rust, is `usage` here.
    pub fn ahz_check_setup_v2(
        rule: u8,
        taken: u8,
        usage: u8,
        history: u16,
        milliseconds: u32,
        rate: u16,
        paths: u8,
        difference: u32,
    ) -> u8;

    /// Writes a fresh state of that setup to the first [`AHZ_S_WORDS`](crate::AHZ_S_WORDS) words of
    /// `state`; later words stay. Refuses as [`ahz_check_setup_v2`]; then 8 where there are fewer
    /// words.
    pub fn ahz_fresh_v4(
        rule: u8,
        taken: u8,
        usage: u8,
        history: u16,
        milliseconds: u32,
        rate: u16,
        paths: u8,
        difference: u32,
        state: *mut u64,
        state_words: usize,
    ) -> u8;

    /// A packet with a number: [`AHZ_PASS`](crate::AHZ_PASS) or
    /// [`AHZ_DISCARD`](crate::AHZ_DISCARD). Refuses 14, as each call on a state does.
    pub fn ahz_numbered(state: *mut u64, state_words: usize, number: u16) -> u8;

    /// A packet without one: [`AHZ_PASS`](crate::AHZ_PASS) or [`AHZ_DISCARD`](crate::AHZ_DISCARD).
    pub fn ahz_tagless(state: *mut u64, state_words: usize) -> u8;

    /// A tick: [`AHZ_TICK`](crate::AHZ_TICK), or [`AHZ_RESET`](crate::AHZ_RESET) where it timed out.
    pub fn ahz_tick(state: *mut u64, state_words: usize) -> u8;

    /// A reset: 0.
    pub fn ahz_reset(state: *mut u64, state_words: usize) -> u8;

    /// A latent reset: 0.
    pub fn ahz_latent_reset(state: *mut u64, state_words: usize) -> u8;

    /// The latent error test, which changes nothing: [`AHZ_LATENT_OK`](crate::AHZ_LATENT_OK) or
    /// [`AHZ_LATENT_ERROR`](crate::AHZ_LATENT_ERROR).
    pub fn ahz_latent_test(state: *const u64, state_words: usize) -> u8;

    /// What stands next in a payload: [`AHZ_FLUSH_ORDER`](crate::AHZ_FLUSH_ORDER),
    /// [`AHZ_RAW_CODE`](crate::AHZ_RAW_CODE) or [`AHZ_MILLIVOLTS`](crate::AHZ_MILLIVOLTS) with its
    /// value in `value`; or [`AHZ_END`](crate::AHZ_END), and `value` stays. Refuses 20, 21.
    pub fn ahz_card(payload: *const u8, payload_octets: usize, value: *mut u32) -> u8;

    /// How many octets the next card has: the first ones of the payload. 0 on a refusal or end.
    pub fn ahz_card_octets(payload: *const u8, payload_octets: usize) -> usize;

    /// How many octets come after the next card: the last ones of the payload. 0 on a refusal or
    /// end.
    pub fn ahz_rest_octets(payload: *const u8, payload_octets: usize) -> usize;

    /// The volts of the next card: [`AHZ_FROM_RAW_CODE`](crate::AHZ_FROM_RAW_CODE) or
    /// [`AHZ_FROM_MILLIVOLTS`](crate::AHZ_FROM_MILLIVOLTS) with the volts in `volts`; or
    /// [`AHZ_NOT_A_READING`](crate::AHZ_NOT_A_READING), and `volts` stays. Refuses 22, 20, 21.
    pub fn ahz_volts(
        payload: *const u8,
        payload_octets: usize,
        gain: f64,
        offset: f64,
        volts: *mut f64,
    ) -> u8;

    /// Runs a bench tape and writes its lines to `out`, and how many octets they are to `length`;
    /// later octets stay. It takes [`AHZ_TAPE_STACK`](crate::AHZ_TAPE_STACK) octets of stack. Refuses
    /// 8.
    pub fn ahz_tape_v3(
        tape: *const u8,
        tape_octets: usize,
        out: *mut u8,
        out_octets: usize,
        length: *mut usize,
    ) -> u8;
}
