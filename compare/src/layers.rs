//! Every call, asked of each version: the plain one, the package `ahozurime` and the raw calls.
//!
//! A call has the plain version's form here and answers what all three say; where one says another
//! thing, or leaves another thing behind, it panics. So what is known by hand is asked of all, and
//! what is not known is compared. What the raw calls are lent beside it is unlike every answer.

use crate::plain::cards::{Calibration, Card, Volts};
use crate::plain::encoding::Encoding;
use crate::plain::frame::Header;
use crate::plain::recovery::{
    full_ticks, Counters, Generator, Marks, Milliseconds, Setup, State, Ticks, Verdict, INDIVIDUAL,
    MATCH, SEQUENCE, VECTOR,
};
use crate::words::{self, HEADER, HEADER_WITH_ID, STATE};
use crate::{guarded, plain};
use ahozurime::recovery as safe;
use ahozurime::{Refusal, TicksPerSecond};
use ahozurime_sys as sys;

/// Both rules of a setup, for what holds under each.
pub const RULES: [u8; 2] = [VECTOR, MATCH];
/// Both uses of a setup, for what holds in each.
pub const USES: [u8; 2] = [SEQUENCE, INDIVIDUAL];

/// The length of a result, or the refusal.
type Length = Result<usize, u8>;

fn verdict<T>(said: Result<T, u8>) -> u8 {
    said.err().unwrap_or(sys::AHZ_DONE)
}

/// What a raw call answers that writes words, and what those that it was lent then hold: the first
/// of them, if there are enough.
fn worded<const N: usize>(said: Result<[u64; N], u8>, lent: &[u64]) -> (u8, Vec<u64>) {
    match said {
        Err(refusal) => (refusal, lent.to_vec()),
        Ok(_) if lent.len() < N => (sys::AHZ_R_OUTPUT_SHORT, lent.to_vec()),
        Ok(words) => (sys::AHZ_DONE, [&words[..], &lent[N..]].concat()),
    }
}

/// The same part of what was lent; where a part that is empty starts is nobody's business.
fn same_part<'a>(whole: &[u8], plain: &'a [u8], package: &[u8], raw: usize) -> &'a [u8] {
    assert_eq!((package.len(), raw), (plain.len(), plain.len()), "of {whole:02X?}");
    assert!(plain.is_empty() || std::ptr::eq(package, plain), "another part of {whole:02X?}");
    plain
}

/// A call that writes octets to an output: the same answer, and the same octets.
fn same_writes(
    asked: &[u8],
    out: &mut [u8],
    plain: impl FnOnce(&mut [u8]) -> Length,
    package: impl FnOnce(&mut [u8]) -> Result<usize, Refusal>,
    raw: impl FnOnce(&[u8], usize) -> (u8, Vec<u8>, usize),
) -> Length {
    let mut lent = out.to_vec();
    let said = plain(out);
    let expected = (verdict(said), out.to_vec(), said.unwrap_or(usize::MAX));
    assert_eq!(raw(&lent, usize::MAX), expected, "{} for {asked:02X?}", lent.len());
    let answer = package(&mut lent).map_err(Refusal::number);
    assert_eq!((answer, &lent[..]), (said, &*out), "{} for {asked:02X?}", lent.len());
    said
}

// Frames. A call without an encoding in its name is for the R-TAG.

pub fn read(frame: &[u8]) -> Result<Header, u8> {
    read_in(Encoding::RTag, frame)
}

/// With any number of words lent to the raw call.
pub fn read_into(frame: &[u8], lent: &[u64]) -> Result<Header, u8> {
    read_in_into(Encoding::RTag, frame, lent)
}

pub fn read_in(encoding: Encoding, frame: &[u8]) -> Result<Header, u8> {
    match encoding {
        Encoding::RTag => read_in_into(encoding, frame, &[u64::MAX; HEADER]),
        Encoding::Hsr | Encoding::Prp => read_in_into(encoding, frame, &[u64::MAX; HEADER_WITH_ID]),
    }
}

/// With any number of words lent to the raw call.
pub fn read_in_into(encoding: Encoding, frame: &[u8], lent: &[u64]) -> Result<Header, u8> {
    let said = plain::frame::read_in(encoding, frame);
    let expected = match encoding {
        Encoding::RTag => worded(said.map(|header| words::of_header(&header)), lent),
        Encoding::Hsr | Encoding::Prp => {
            worded(said.map(|header| words::of_header_with_id(&header)), lent)
        }
    };
    assert_eq!(guarded::read(encoding, frame, lent), expected, "{encoding:?} {frame:02X?}");
    let package = match encoding {
        Encoding::RTag => ahozurime::frame::read(frame),
        Encoding::Hsr => ahozurime::frame::read_hsr(frame),
        Encoding::Prp => ahozurime::frame::read_prp(frame),
    };
    let package = package.map(|header| Header {
        destination: header.destination,
        source: header.source,
        has_c_tag: header.tagged,
        vlan: header.vlan,
        number: header.number,
        path_id: header.path_id,
        ethertype: header.ethertype,
        payload_at: header.payload_at,
    });
    assert_eq!(package.map_err(Refusal::number), said, "{encoding:?} {frame:02X?}");
    said
}

pub fn payload(frame: &[u8]) -> &[u8] {
    let raw = guarded::payload(frame);
    same_part(frame, plain::frame::payload(frame), ahozurime::frame::payload(frame), raw)
}

pub fn insert(frame: &[u8], number: u16, out: &mut [u8]) -> Length {
    insert_in(Encoding::RTag, frame, number, 0, out)
}

/// The R-TAG has no id: that of its calls here is for the plain version alone, which refuses one over
/// 15 in every encoding.
pub fn insert_in(encoding: Encoding, frame: &[u8], number: u16, id: u8, out: &mut [u8]) -> Length {
    same_writes(
        frame,
        out,
        |out| plain::frame::insert_in(encoding, frame, number, id, out),
        |out| match encoding {
            Encoding::RTag => ahozurime::frame::insert(frame, number, out),
            Encoding::Hsr => ahozurime::frame::insert_hsr(frame, number, id, out),
            Encoding::Prp => ahozurime::frame::insert_prp(frame, number, id, out),
        },
        |out, length| guarded::insert(encoding, frame, number, id, out, length),
    )
}

pub fn remove(frame: &[u8], out: &mut [u8]) -> Length {
    remove_in(Encoding::RTag, frame, out)
}

pub fn remove_in(encoding: Encoding, frame: &[u8], out: &mut [u8]) -> Length {
    same_writes(
        frame,
        out,
        |out| plain::frame::remove_in(encoding, frame, out),
        |out| match encoding {
            Encoding::RTag => ahozurime::frame::remove(frame, out),
            Encoding::Hsr => ahozurime::frame::remove_hsr(frame, out),
            Encoding::Prp => ahozurime::frame::remove_prp(frame, out),
        },
        |out, length| guarded::remove(encoding, frame, out, length),
    )
}

// Frame check sequences.

pub fn crc32(octets: &[u8]) -> u32 {
    let said = plain::fcs::crc32(octets);
    assert_eq!(guarded::crc32(octets), said, "of {octets:02X?}");
    assert_eq!(ahozurime::fcs::crc32(octets), said, "of {octets:02X?}");
    said
}

pub fn check_fcs(frame: &[u8]) -> Result<(), u8> {
    let said = plain::fcs::check(frame);
    assert_eq!(guarded::check_fcs(frame), verdict(said), "{frame:02X?}");
    assert_eq!(ahozurime::fcs::check(frame).map_err(Refusal::number), said, "{frame:02X?}");
    said
}

pub fn without_fcs(frame: &[u8]) -> &[u8] {
    let raw = guarded::without_fcs(frame);
    same_part(frame, plain::fcs::without(frame), ahozurime::fcs::without(frame), raw)
}

pub fn append_fcs(frame: &[u8], out: &mut [u8]) -> Length {
    same_writes(
        frame,
        out,
        |out| plain::fcs::append(frame, out),
        |out| ahozurime::fcs::append(frame, out),
        |out, length| guarded::append_fcs(frame, out, length),
    )
}

// Stream tables.

pub fn check_table(table: &[u8]) -> Result<(), u8> {
    let said = plain::streams::check_table(table);
    assert_eq!(guarded::check_table(table), verdict(said), "{table:?}");
    let package = ahozurime::streams::check_table(table);
    assert_eq!(package.map_err(Refusal::number), said, "{table:?}");
    said
}

pub fn lookup(table: &[u8], frame: &[u8]) -> Result<Option<u16>, u8> {
    let said = plain::streams::lookup(table, frame);
    let lent = said.ok().flatten().map_or(0x5AA5, |handle| !handle);
    let expected = match said {
        Ok(Some(handle)) => (sys::AHZ_STREAM, handle),
        Ok(None) => (sys::AHZ_NO_STREAM, lent),
        Err(refusal) => (refusal, lent),
    };
    assert_eq!(guarded::lookup(table, frame, lent), expected, "{frame:02X?} in {table:?}");
    let package = ahozurime::streams::lookup(table, frame).map(|found| found.map(|it| it.0));
    assert_eq!(package.map_err(Refusal::number), said, "{frame:02X?} in {table:?}");
    said
}

// Numbering and recovery.

/// The number given, and the generator after it.
pub fn generate(number: u16) -> (u16, u16) {
    let (given, Generator { number: next }) = Generator { number }.next();
    assert_eq!(guarded::generate(number), (given, next));
    let mut package = safe::Generator::from_number(number);
    assert_eq!((package.generate(), package.number()), (given, next));
    (given, next)
}

pub fn generator_reset(number: u16) -> u16 {
    let said = Generator { number }.reset().number;
    assert_eq!(guarded::generator_reset(number), said);
    let mut package = safe::Generator::from_number(number);
    package.reset();
    assert_eq!(package.number(), said);
    said
}

pub fn ticks(timeout: Milliseconds, rate: u16) -> Ticks {
    let said = full_ticks(timeout, rate);
    assert_eq!(guarded::ticks(timeout.0, rate), said.0, "{timeout:?} at {rate}");
    let package = ahozurime::Milliseconds(timeout.0).ticks(TicksPerSecond(rate));
    assert_eq!(package.count(), said.0, "{timeout:?} at {rate}");
    said
}

/// The setup in the package's types, which have no place for another rule, flag or use.
fn typed(setup: &Setup) -> Option<safe::Setup> {
    let rule = match setup.rule {
        VECTOR => safe::Rule::Vector,
        MATCH => safe::Rule::Match,
        _ => return None,
    };
    let take_tagless = match setup.taken {
        0 => false,
        1 => true,
        _ => return None,
    };
    let usage = match setup.usage {
        SEQUENCE => safe::Usage::Sequence,
        INDIVIDUAL => safe::Usage::Individual,
        _ => return None,
    };
    Some(safe::Setup {
        rule,
        take_tagless,
        usage,
        history: setup.history,
        timeout: ahozurime::Milliseconds(setup.timeout.0),
        rate: TicksPerSecond(setup.ticks_per_second),
        paths: setup.paths,
        difference: setup.difference,
    })
}

fn untyped(setup: &safe::Setup) -> Setup {
    Setup {
        rule: match setup.rule {
            safe::Rule::Vector => VECTOR,
            safe::Rule::Match => MATCH,
        },
        taken: setup.take_tagless.into(),
        usage: match setup.usage {
            safe::Usage::Sequence => SEQUENCE,
            safe::Usage::Individual => INDIVIDUAL,
        },
        history: setup.history,
        timeout: Milliseconds(setup.timeout.0),
        ticks_per_second: setup.rate.0,
        paths: setup.paths,
        difference: setup.difference,
    }
}

pub fn check_setup(setup: &Setup) -> Result<(), u8> {
    let said = setup.check();
    assert_eq!(guarded::check_setup(words::of_setup(setup)), verdict(said), "{setup:?}");
    if let Some(typed) = typed(setup) {
        assert_eq!(typed.check().map_err(Refusal::number), said, "{setup:?}");
    }
    said
}

pub fn fresh(setup: &Setup) -> Result<State, u8> {
    fresh_into(setup, &[u64::MAX; STATE])
}

/// With any number of words lent to the raw call.
pub fn fresh_into(setup: &Setup, lent: &[u64]) -> Result<State, u8> {
    let said = State::fresh(*setup);
    let expected = worded(said.map(|state| words::of_state(&state)), lent);
    assert_eq!(guarded::fresh(words::of_setup(setup), lent), expected, "{setup:?}");
    if let Some(typed) = typed(setup) {
        let package = safe::State::fresh(&typed).map(|state| held(&state));
        assert_eq!(package.map_err(Refusal::number), said, "{setup:?}");
    }
    said
}

#[derive(Clone, Copy, Debug, PartialEq, Eq)]
pub enum Event {
    Packet(Option<u16>),
    Tick,
    Reset,
    LatentReset,
    LatentTest,
}

/// Every kind of event, with a packet of that number.
pub fn events(number: u16) -> [Event; 6] {
    [
        Event::Packet(None),
        Event::Packet(Some(number)),
        Event::Tick,
        Event::Reset,
        Event::LatentReset,
        Event::LatentTest,
    ]
}

/// One event on a state: the answer's number, and the state after it.
pub fn event(state: &State, event: Event) -> (u8, State) {
    let mut kept = Kept::of(state);
    (kept.event(event), kept.plain)
}

/// A state as each version keeps it, over any number of events.
pub struct Kept {
    plain: State,
    package: Result<safe::State, Refusal>,
    words: Vec<u64>,
}

impl Kept {
    /// A state that is sound or not; the package makes none of one that is not.
    pub fn of(state: &State) -> Kept {
        let words = words::of_state(state);
        let package = safe::State::from_words(words);
        let unsound = package.as_ref().err().map(|refusal| refusal.number());
        assert_eq!(unsound, (!state.is_sound()).then_some(sys::AHZ_R_STATE), "{state:?}");
        Kept { plain: *state, package, words: words.to_vec() }
    }

    /// The answer's number. Every word of the state after it is compared.
    pub fn event(&mut self, event: Event) -> u8 {
        let before = self.plain;
        let said = plain_event(&mut self.plain, event);
        let words = words::of_state(&self.plain);
        let raw;
        (raw, self.words) = raw_event(&self.words, event);
        assert_eq!((raw, &self.words[..]), (said, &words[..]), "{event:?} at {before:?}");
        if let Ok(state) = &mut self.package {
            let package = (package_event(state, event), *state.words(), held(state));
            assert_eq!(package, (said, words, self.plain), "{event:?} at {before:?}");
        }
        said
    }

    pub fn state(&self) -> State {
        self.plain
    }
}

fn number<T>(answer: Result<T, u8>, name: impl FnOnce(T) -> u8) -> u8 {
    answer.map_or_else(|refusal| refusal, name)
}

fn plain_event(state: &mut State, event: Event) -> u8 {
    match event {
        Event::Packet(packet) => number(state.packet_in_place(packet), |verdict| match verdict {
            Verdict::Pass => sys::AHZ_PASS,
            Verdict::Discard => sys::AHZ_DISCARD,
        }),
        Event::Tick => number(state.tick_in_place(), |timed_out| match timed_out {
            false => sys::AHZ_TICK,
            true => sys::AHZ_RESET,
        }),
        Event::Reset => number(state.reset_in_place(), |()| sys::AHZ_DONE),
        Event::LatentReset => number(state.latent_reset_in_place(), |()| sys::AHZ_DONE),
        Event::LatentTest => number(state.latent_test(), |error| match error {
            false => sys::AHZ_LATENT_OK,
            true => sys::AHZ_LATENT_ERROR,
        }),
    }
}

fn package_event(state: &mut safe::State, event: Event) -> u8 {
    fn named<T>(answer: Result<T, Refusal>, name: impl FnOnce(T) -> u8) -> u8 {
        number(answer.map_err(Refusal::number), name)
    }
    match event {
        Event::Packet(packet) => named(state.hear(packet), |verdict| match verdict {
            safe::Verdict::Pass => sys::AHZ_PASS,
            safe::Verdict::Discard => sys::AHZ_DISCARD,
        }),
        Event::Tick => named(state.tick(), |ticked| match ticked {
            safe::Ticked::Tick => sys::AHZ_TICK,
            safe::Ticked::Reset => sys::AHZ_RESET,
        }),
        Event::Reset => named(state.reset(), |()| sys::AHZ_DONE),
        Event::LatentReset => named(state.latent_reset(), |()| sys::AHZ_DONE),
        Event::LatentTest => named(state.latent_test(), |latent| match latent {
            safe::Latent::Ok => sys::AHZ_LATENT_OK,
            safe::Latent::Error => sys::AHZ_LATENT_ERROR,
        }),
    }
}

/// The raw call on any words; its answer and the words after it.
pub fn raw_event(words: &[u64], event: Event) -> (u8, Vec<u64>) {
    match event {
        Event::Packet(Some(number)) => guarded::numbered(words, number),
        Event::Packet(None) => guarded::tagless(words),
        Event::Tick => guarded::tick(words),
        Event::Reset => guarded::reset(words),
        Event::LatentReset => guarded::latent_reset(words),
        Event::LatentTest => (guarded::latent_test(words), words.to_vec()),
    }
}

/// What the package shows of a state.
fn held(state: &safe::State) -> State {
    let safe::Counters {
        passed,
        discarded,
        order,
        rogue,
        lost,
        tagless,
        resets,
        latent_resets,
        before_first,
    } = state.counters();
    State {
        setup: untyped(&state.setup()),
        newest: state.newest().unwrap_or(65_535),
        marks: Marks(state.marks()),
        first: state.first_below(),
        take_any: state.take_any(),
        ticks_left: Ticks(state.ticks_left().count()),
        counters: Counters {
            passed,
            discarded,
            order,
            rogue,
            lost,
            tagless,
            resets,
            latent_resets,
            before_first,
        },
        base: state.base(),
    }
}

// Charge cards.

pub fn plain_card(card: ahozurime::cards::Card) -> Card {
    match card {
        ahozurime::cards::Card::FlushOrder(blocks) => Card::FlushOrder(blocks.0),
        ahozurime::cards::Card::RawCode(code) => Card::RawCode(code.0),
        ahozurime::cards::Card::Millivolts(count) => Card::Millivolts(count.0),
        ahozurime::cards::Card::End => Card::End,
    }
}

pub fn plain_volts(reading: ahozurime::cards::Reading) -> Volts {
    match reading {
        ahozurime::cards::Reading::FromRawCode(volts) => Volts::FromRawCode(volts.0),
        ahozurime::cards::Reading::FromMillivolts(volts) => Volts::FromMillivolts(volts.0),
        ahozurime::cards::Reading::NotAReading => Volts::NotAReading,
    }
}

pub fn next_card(payload: &[u8]) -> Result<Card, u8> {
    let said = plain::cards::next(payload);
    let (answer, value) = match said {
        Ok(Card::FlushOrder(blocks)) => (sys::AHZ_FLUSH_ORDER, Some(blocks)),
        Ok(Card::RawCode(code)) => (sys::AHZ_RAW_CODE, Some(code.into())),
        Ok(Card::Millivolts(count)) => (sys::AHZ_MILLIVOLTS, Some(count.into())),
        Ok(Card::End) => (sys::AHZ_END, None),
        Err(refusal) => (refusal, None),
    };
    let lent = value.map_or(0x5AA5_A55A, |value: u32| !value);
    let expected = (answer, value.unwrap_or(lent));
    assert_eq!(guarded::card(payload, lent), expected, "{payload:02X?}");
    let package = ahozurime::cards::next(payload).map(plain_card);
    assert_eq!(package.map_err(Refusal::number), said, "{payload:02X?}");
    said
}

pub fn card(payload: &[u8]) -> &[u8] {
    let raw = guarded::card_octets(payload);
    same_part(payload, plain::cards::card(payload), ahozurime::cards::part(payload), raw)
}

pub fn rest(payload: &[u8]) -> &[u8] {
    let raw = guarded::rest_octets(payload);
    same_part(payload, plain::cards::rest(payload), ahozurime::cards::rest(payload), raw)
}

/// Volts are compared as bits. What the raw call is lent for them is a signalling NaN, whose bits
/// stay where nothing is written.
pub fn volts(payload: &[u8], calibration: Calibration) -> Result<Volts, u8> {
    const LENT: u64 = 0x7FF0_0000_0000_0001;
    let numbers = |said| match said {
        Ok(Volts::FromRawCode(volts)) => (sys::AHZ_FROM_RAW_CODE, f64::to_bits(volts)),
        Ok(Volts::FromMillivolts(volts)) => (sys::AHZ_FROM_MILLIVOLTS, f64::to_bits(volts)),
        Ok(Volts::NotAReading) => (sys::AHZ_NOT_A_READING, LENT),
        Err(refusal) => (refusal, LENT),
    };
    let said = plain::cards::volts(payload, calibration);
    let asked = (payload, calibration);
    let Calibration { gain, offset } = calibration;
    assert_eq!(guarded::volts(payload, gain, offset, LENT), numbers(said), "{asked:02X?}");
    let package = ahozurime::cards::volts(payload, ahozurime::cards::Calibration { gain, offset });
    let package = package.map(plain_volts).map_err(Refusal::number);
    assert_eq!(numbers(package), numbers(said), "{asked:02X?}");
    said
}

// The bench tape.

pub fn run(tape: &[u8], out: &mut [u8]) -> Length {
    same_writes(
        tape,
        out,
        |out| plain::tape::run(tape, out),
        |out| ahozurime::tape::run(tape, out),
        |out, length| guarded::tape(tape, out, length),
    )
}

/// What a tape prints, into room for any tape.
pub fn lines(tape: &[u8]) -> Vec<u8> {
    let mut out = vec![0xA5; ahozurime::tape::OUTPUT];
    let length = run(tape, &mut out).expect("room for any tape");
    out.truncate(length);
    out
}
