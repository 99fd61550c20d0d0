//! The measures of docs/MEASURES.md: each call of the proved layer beside the plain version, on the
//! same inputs, in nanoseconds. What is printed is what stands there.
//!
//! A round runs one version many times; rounds alternate between the two, and a figure is the median
//! of its rounds. All figures are taken so five times over; of the five, a row has the one whose
//! ratio is in the middle, and the least and the greatest ratio.
//!
//! A call of the archive is never inlined, so the plain version is called through functions that are
//! not inlined either. `black_box` stands around every argument of both, so that the compiler knows
//! nothing of a frame, a number, a table, a state or a buffer. No buffer is cleared in between.

use ahozurime as ours;
use compare::plain::encoding::{Encoding, LENGTH};
use compare::{plain, words};
use ours::recovery::{Rule, Usage, Verdict};
use ours::Refusal;
use std::hint::black_box;
use std::process::Command;
use std::time::{Duration, Instant};

const PASSES: usize = 5;
const ROUNDS: usize = 61;
const ROUND: Duration = Duration::from_micros(500);

// The plain version, each call behind one call as the archive's are.
mod called {
    use compare::plain;
    use plain::cards::{Calibration, Card, Volts};
    use plain::encoding::Encoding;
    use plain::frame::Header;
    use plain::recovery::{Generator, State, Verdict};

    #[inline(never)]
    pub fn read(frame: &[u8]) -> Result<Header, u8> {
        plain::frame::read(frame)
    }

    #[inline(never)]
    pub fn insert(frame: &[u8], number: u16, out: &mut [u8]) -> Result<usize, u8> {
        plain::frame::insert(frame, number, out)
    }

    #[inline(never)]
    pub fn remove(frame: &[u8], out: &mut [u8]) -> Result<usize, u8> {
        plain::frame::remove(frame, out)
    }

    #[inline(never)]
    pub fn read_hsr(frame: &[u8]) -> Result<Header, u8> {
        plain::frame::read_in(Encoding::Hsr, frame)
    }

    #[inline(never)]
    pub fn insert_hsr(frame: &[u8], number: u16, id: u8, out: &mut [u8]) -> Result<usize, u8> {
        plain::frame::insert_in(Encoding::Hsr, frame, number, id, out)
    }

    #[inline(never)]
    pub fn remove_hsr(frame: &[u8], out: &mut [u8]) -> Result<usize, u8> {
        plain::frame::remove_in(Encoding::Hsr, frame, out)
    }

    #[inline(never)]
    pub fn read_prp(frame: &[u8]) -> Result<Header, u8> {
        plain::frame::read_in(Encoding::Prp, frame)
    }

    #[inline(never)]
    pub fn insert_prp(frame: &[u8], number: u16, id: u8, out: &mut [u8]) -> Result<usize, u8> {
        plain::frame::insert_in(Encoding::Prp, frame, number, id, out)
    }

    #[inline(never)]
    pub fn remove_prp(frame: &[u8], out: &mut [u8]) -> Result<usize, u8> {
        plain::frame::remove_in(Encoding::Prp, frame, out)
    }

    #[inline(never)]
    pub fn crc32(octets: &[u8]) -> u32 {
        plain::fcs::crc32(octets)
    }

    #[inline(never)]
    pub fn check_fcs(frame: &[u8]) -> Result<(), u8> {
        plain::fcs::check(frame)
    }

    #[inline(never)]
    pub fn append_fcs(frame: &[u8], out: &mut [u8]) -> Result<usize, u8> {
        plain::fcs::append(frame, out)
    }

    #[inline(never)]
    pub fn check_table(table: &[u8]) -> Result<(), u8> {
        plain::streams::check_table(table)
    }

    #[inline(never)]
    pub fn lookup(table: &[u8], frame: &[u8]) -> Result<Option<u16>, u8> {
        plain::streams::lookup(table, frame)
    }

    #[inline(never)]
    pub fn generate(generator: &mut Generator) -> u16 {
        let (number, next) = generator.next();
        *generator = next;
        number
    }

    #[inline(never)]
    pub fn packet(state: &mut State, number: Option<u16>) -> Result<Verdict, u8> {
        state.packet_in_place(number)
    }

    #[inline(never)]
    pub fn tick(state: &mut State) -> Result<bool, u8> {
        state.tick_in_place()
    }

    #[inline(never)]
    pub fn reset(state: &mut State) -> Result<(), u8> {
        state.reset_in_place()
    }

    #[inline(never)]
    pub fn latent_test(state: &State) -> Result<bool, u8> {
        state.latent_test()
    }

    #[inline(never)]
    pub fn next(payload: &[u8]) -> Result<Card, u8> {
        plain::cards::next(payload)
    }

    #[inline(never)]
    pub fn volts(payload: &[u8], calibration: Calibration) -> Result<Volts, u8> {
        plain::cards::volts(payload, calibration)
    }

    #[inline(never)]
    pub fn run(tape: &[u8], out: &mut [u8]) -> Result<usize, u8> {
        plain::tape::run(tape, out)
    }
}

/// A state or an output at the start of a cache line: where the two of a row lie would else be measured
/// too.
#[derive(Clone)]
#[repr(align(64))]
struct Lined<T>(T);

/// Nanoseconds of one call, in one pass.
struct Figure {
    what: String,
    ours: f64,
    plain: f64,
}

impl Figure {
    fn ratio(&self) -> f64 {
        self.ours / self.plain
    }
}

/// So many calls. Each answer is used where it lies: a copy of it is no part of the call.
fn repeat<T>(times: u32, mut call: impl FnMut() -> T) {
    for _ in 0..times {
        black_box(&call());
    }
}

/// Nanoseconds of one run, over as many runs as fill a round.
fn round(run: &mut dyn FnMut(u32), times: u32) -> f64 {
    let began = Instant::now();
    run(times);
    began.elapsed().as_nanos() as f64 / f64::from(times)
}

fn median(mut figures: Vec<f64>) -> f64 {
    figures.sort_by(f64::total_cmp);
    figures[figures.len() / 2]
}

/// The medians of the two. Each closure makes so many calls.
fn both(what: impl Into<String>, mut ours: impl FnMut(u32), mut plain: impl FnMut(u32)) -> Figure {
    let once = round(&mut ours, 1_000).max(round(&mut plain, 1_000)).max(0.1);
    let times = (ROUND.as_nanos() as f64 / once) as u32 + 1;
    let (mut of_ours, mut of_plain) = (Vec::new(), Vec::new());
    for _ in 0..ROUNDS {
        of_ours.push(round(&mut ours, times));
        of_plain.push(round(&mut plain, times));
    }
    Figure { what: what.into(), ours: median(of_ours), plain: median(of_plain) }
}

/// A frame of so many octets: a C-TAG where there is a VLAN, and a number in that encoding or none.
fn frame(octets: usize, stream: u8, vlan: Option<u16>, numbered: Option<Encoding>) -> Vec<u8> {
    let mut frame = vec![2, 0, 0, 0, 1, stream, 2, 0, 0, 0, 9, 9];
    if let Some(vlan) = vlan {
        frame.extend([0x81, 0x00]);
        frame.extend(vlan.to_be_bytes());
    }
    frame.extend([0x08, 0x00]);
    let Some(encoding) = numbered else {
        frame.resize(octets, 0x5A);
        return frame;
    };
    frame.resize(octets - LENGTH, 0x5A);
    let mut whole = vec![0; octets];
    let length = plain::frame::insert_in(encoding, &frame, 258, 10, &mut whole);
    assert_eq!(length, Ok(octets));
    whole
}

/// Entries by destination, one for each stream.
fn table(entries: usize) -> Vec<u8> {
    let entry = |i: usize| [1, 2, 0, 0, 0, 1, i as u8, 3, 0, 0, (i / 256) as u8, i as u8];
    (0..entries).flat_map(entry).collect()
}

/// What the setups of the states differ in: rule, use and history length.
type Kind = (Rule, Usage, u16);

const VECTOR: Kind = (Rule::Vector, Usage::Sequence, 64);
const MATCH: Kind = (Rule::Match, Usage::Sequence, 64);
const INDIVIDUAL: Kind = (Rule::Vector, Usage::Individual, 64);
const LONGEST: Kind = (Rule::Vector, Usage::Sequence, 512);

/// Both states of one setup, after one packet, which has the number 10.
fn begun(
    (rule, usage, history): Kind,
) -> (Lined<ours::recovery::State>, Lined<plain::recovery::State>) {
    let setup = ours::recovery::Setup {
        rule,
        take_tagless: false,
        usage,
        history,
        timeout: ours::Milliseconds(3_600_000),
        rate: ours::TicksPerSecond(10_000),
        paths: 2,
        difference: 1,
    };
    let mut ours = ours::recovery::State::fresh(&setup).expect("a setup in range");
    let mut plain = plain::recovery::State::fresh(plain::recovery::Setup {
        rule: match rule {
            Rule::Vector => plain::recovery::VECTOR,
            Rule::Match => plain::recovery::MATCH,
        },
        taken: setup.take_tagless.into(),
        usage: match usage {
            Usage::Sequence => plain::recovery::SEQUENCE,
            Usage::Individual => plain::recovery::INDIVIDUAL,
        },
        history,
        timeout: plain::recovery::Milliseconds(setup.timeout.0),
        ticks_per_second: setup.rate.0,
        paths: setup.paths,
        difference: setup.difference,
    })
    .expect("a setup in range");
    assert_eq!(ours.hear(Some(10)), Ok(Verdict::Pass));
    assert_eq!(plain.packet_in_place(Some(10)), Ok(plain::recovery::Verdict::Pass));
    assert_eq!(*ours.words(), words::of_state(&plain));
    (Lined(ours), Lined(plain))
}

/// Reading, insertion and removal in one encoding, by two calls each: ours and the plain version's.
fn in_one_encoding<Ours, Plain>(
    figures: &mut Vec<Figure>,
    (name, encoding): (&str, Encoding),
    read: (impl Fn(&[u8]) -> Ours, impl Fn(&[u8]) -> Plain),
    insert: (
        impl Fn(&[u8], &mut [u8]) -> Result<usize, Refusal>,
        impl Fn(&[u8], &mut [u8]) -> Result<usize, u8>,
    ),
    remove: (
        impl Fn(&[u8], &mut [u8]) -> Result<usize, Refusal>,
        impl Fn(&[u8], &mut [u8]) -> Result<usize, u8>,
    ),
) {
    for (what, octets, vlan) in
        [("64 octets", 64, None), ("64 octets, C-TAG", 64, Some(5)), ("1500 octets", 1_500, None)]
    {
        let (bare, whole) = (frame(octets, 7, vlan, None), frame(octets, 7, vlan, Some(encoding)));
        let (bare, whole) = (&bare[..], &whole[..]);
        let (mut out, mut other) = (Lined([0; 1_522]), Lined([0; 1_522]));
        figures.push(both(
            format!("read{name}, {what}"),
            |times| repeat(times, || read.0(black_box(whole))),
            |times| repeat(times, || read.1(black_box(whole))),
        ));
        figures.push(both(
            format!("insert{name}, {what}"),
            |times| repeat(times, || insert.0(black_box(bare), black_box(&mut out.0[..]))),
            |times| repeat(times, || insert.1(black_box(bare), black_box(&mut other.0[..]))),
        ));
        figures.push(both(
            format!("remove{name}, {what}"),
            |times| repeat(times, || remove.0(black_box(whole), black_box(&mut out.0[..]))),
            |times| repeat(times, || remove.1(black_box(whole), black_box(&mut other.0[..]))),
        ));
    }
}

/// The R-TAG's rows have no name of it.
fn frames(figures: &mut Vec<Figure>) {
    let number = || black_box(258);
    let id = || black_box(10);
    in_one_encoding(
        figures,
        ("", Encoding::RTag),
        (ours::frame::read, called::read),
        (
            |frame, out| ours::frame::insert(frame, number(), out),
            |frame, out| called::insert(frame, number(), out),
        ),
        (ours::frame::remove, called::remove),
    );
    in_one_encoding(
        figures,
        (" HSR", Encoding::Hsr),
        (ours::frame::read_hsr, called::read_hsr),
        (
            |frame, out| ours::frame::insert_hsr(frame, number(), id(), out),
            |frame, out| called::insert_hsr(frame, number(), id(), out),
        ),
        (ours::frame::remove_hsr, called::remove_hsr),
    );
    in_one_encoding(
        figures,
        (" PRP", Encoding::Prp),
        (ours::frame::read_prp, called::read_prp),
        (
            |frame, out| ours::frame::insert_prp(frame, number(), id(), out),
            |frame, out| called::insert_prp(frame, number(), id(), out),
        ),
        (ours::frame::remove_prp, called::remove_prp),
    );
}

/// The shortest frame, and those that are the shortest and the longest on a wire once the check has
/// added its four octets.
fn checks(figures: &mut Vec<Figure>) {
    for octets in [14, 60, 1_514] {
        let frame = frame(octets, 7, None, None);
        let frame = &frame[..];
        let (mut out, mut other) = (Lined([0; 1_526]), Lined([0; 1_526]));
        let checked = [frame, &plain::fcs::crc32(frame).to_le_bytes()].concat();
        let checked = &checked[..];
        assert_eq!(ours::fcs::check(checked), Ok(()));
        figures.push(both(
            format!("crc32, {octets} octets"),
            |times| repeat(times, || ours::fcs::crc32(black_box(frame))),
            |times| repeat(times, || called::crc32(black_box(frame))),
        ));
        figures.push(both(
            format!("fcs check, {} octets", checked.len()),
            |times| repeat(times, || ours::fcs::check(black_box(checked))),
            |times| repeat(times, || called::check_fcs(black_box(checked))),
        ));
        figures.push(both(
            format!("fcs append, {octets} octets"),
            |times| {
                repeat(times, || ours::fcs::append(black_box(frame), black_box(&mut out.0[..])))
            },
            |times| {
                repeat(times, || called::append_fcs(black_box(frame), black_box(&mut other.0[..])))
            },
        ));
    }
}

/// UDP from port 5001 to 6000 behind an R-TAG, in 64 octets.
fn ip_frame(stream: u8) -> Vec<u8> {
    let mut frame = frame(64, stream, None, Some(Encoding::RTag));
    let ip = [0x45, 0xB8, 0, 44, 0, 1, 0x40, 0, 64, 17, 0, 0, 10, 0, 0, 1, 10, 0, 0, 2];
    let ports = [0x13, 0x89, 0x17, 0x70];
    frame[20..44].copy_from_slice(&[&ip[..], &ports].concat());
    frame
}

/// Entries of kind 4 with every field in use, of which such a frame matches the last alone: the others
/// have another address, or its address and another port.
fn ip_table(entries: usize, same_address: bool) -> Vec<u8> {
    let entry = |i: usize| {
        let last = i + 1 == entries;
        let stream = if same_address { entries - 1 } else { i } as u8;
        let [high, low] = if last || !same_address { [0x17, 0x70] } else { [0x20, i as u8] };
        let mut entry = vec![4, 2, 0, 0, 0, 1, stream, 3, 0, 0];
        entry.extend([10, 0, 0, 1, 10, 0, 0, 2, 46, 2, 0x13, 0x89, high, low]);
        entry.extend((i as u16).to_be_bytes());
        entry
    };
    (0..entries).flat_map(entry).collect()
}

fn lookup(what: String, table: &[u8], frame: &[u8]) -> Figure {
    both(
        what,
        |times| repeat(times, || ours::streams::lookup(black_box(table), black_box(frame))),
        |times| repeat(times, || called::lookup(black_box(table), black_box(frame))),
    )
}

fn check_of(what: &str, table: &[u8]) -> Figure {
    both(
        what,
        |times| repeat(times, || ours::streams::check_table(black_box(table))),
        |times| repeat(times, || called::check_table(black_box(table))),
    )
}

fn lookups(figures: &mut Vec<Figure>) {
    for entries in [1, 16, 256] {
        let table = table(entries);
        let hit = frame(64, (entries - 1) as u8, None, Some(Encoding::RTag));
        let mut miss = hit.clone();
        miss[0] = 4;
        for (what, frame) in [("hit at the end", hit), ("miss", miss)] {
            figures.push(lookup(format!("lookup, {entries} entries, {what}"), &table, &frame));
        }
    }
    for entries in [1, 16, 256] {
        let hit = ip_frame((entries - 1) as u8);
        for (what, same_address) in [("other ports", true), ("other addresses", false)] {
            let table = ip_table(entries, same_address);
            let found = plain::streams::lookup(&table, &hit);
            assert_eq!(found, Ok(Some((entries - 1) as u16)), "the last entry was to match");
            let what = format!("lookup, {entries} IP entries, {what}, hit at the end");
            figures.push(lookup(what, &table, &hit));
        }
    }
    figures.push(check_of("check of a table, 256 entries", &table(256)));
    figures.push(check_of("check of a table, 256 IP entries", &ip_table(256, false)));
}

/// Packets on one state: the first number lies so far from 10, and then each so far from the one
/// before, the two distances in turn.
fn step(what: &str, kind: Kind, first: u16, far: [u16; 2]) -> Figure {
    let (mut ours, mut plain) = begun(kind);
    let (mut a, mut b) = (10 + first, 10 + first);
    let (mut i, mut j) = (0, 0);
    both(
        what,
        |times| {
            repeat(times, || {
                let number = a;
                a = a.wrapping_add(far[i % 2]);
                i += 1;
                black_box(&mut ours.0).hear(black_box(Some(number)))
            })
        },
        |times| {
            repeat(times, || {
                let number = b;
                b = b.wrapping_add(far[j % 2]);
                j += 1;
                called::packet(black_box(&mut plain.0), black_box(Some(number)))
            })
        },
    )
}

/// Packets without a number on one state, which takes none.
fn tagless(what: &str, kind: Kind) -> Figure {
    let (mut ours, mut plain) = begun(kind);
    let none = black_box(None);
    both(
        what,
        |times| repeat(times, || black_box(&mut ours.0).hear(black_box(none))),
        |times| repeat(times, || called::packet(black_box(&mut plain.0), black_box(none))),
    )
}

/// A reset and the packets after it, together: the first place stands in the window.
fn after_a_reset(what: &str, kind: Kind, numbers: &[u16]) -> Figure {
    let (mut ours, mut plain) = begun(kind);
    both(
        what,
        |times| {
            repeat(times, || {
                black_box(&black_box(&mut ours.0).reset());
                for &number in numbers {
                    black_box(&black_box(&mut ours.0).hear(black_box(Some(number))));
                }
            })
        },
        |times| {
            repeat(times, || {
                black_box(&called::reset(black_box(&mut plain.0)));
                for &number in numbers {
                    black_box(&called::packet(black_box(&mut plain.0), black_box(Some(number))));
                }
            })
        },
    )
}

/// Ticks on one state, which has too many left to time out.
fn tick(what: &str, kind: Kind) -> Figure {
    let (mut ours, mut plain) = begun(kind);
    both(
        what,
        |times| repeat(times, || black_box(&mut ours.0).tick()),
        |times| repeat(times, || called::tick(black_box(&mut plain.0))),
    )
}

/// The same with the longest history, whose marks are in eight words.
fn steps_of_the_longest(figures: &mut Vec<Figure>) {
    let back = 1u16.wrapping_neg();
    figures.push(step("step in order, H 512", LONGEST, 1, [1, 1]));
    figures.push(step("step, 2 ahead and 1 late in turn, H 512", LONGEST, 2, [back, 3]));
    figures.push(step("step duplicate, H 512", LONGEST, 0, [0, 0]));
    figures.push(step("step with a slide of 63, H 512", LONGEST, 63, [63, 63]));
    figures.push(step("step with a slide of 511, H 512", LONGEST, 511, [511, 511]));
    let with_a_slide = "reset, first packet and a slide of 511, H 512";
    figures.push(after_a_reset(with_a_slide, LONGEST, &[10, 521]));
    figures.push(tick("tick, H 512", LONGEST));
}

fn steps(figures: &mut Vec<Figure>) {
    let back = 1u16.wrapping_neg();
    figures.push(step("step in order, H 64", VECTOR, 1, [1, 1]));
    figures.push(step("step, 2 ahead and 1 late in turn, H 64", VECTOR, 2, [back, 3]));
    figures.push(step("step duplicate, H 64", VECTOR, 0, [0, 0]));
    figures.push(step("step rogue, H 64", VECTOR, 20_000, [0, 0]));
    let short = (Rule::Vector, Usage::Sequence, 4);
    figures.push(step("step with a slide of 3, H 4", short, 3, [3, 3]));
    figures.push(step("step with a slide of 63, H 64", VECTOR, 63, [63, 63]));
    // No slide above has a first place left in the window. The last step of the second of these has.
    figures.push(after_a_reset("reset and first packet, H 64", VECTOR, &[10]));
    let with_a_slide = "reset, first packet and a slide of 63, H 64";
    figures.push(after_a_reset(with_a_slide, VECTOR, &[10, 73]));
    figures.push(step("step in order, match", MATCH, 1, [1, 1]));
    figures.push(tagless("step without a number", VECTOR));
    // What is discarded restarts the timer here.
    figures.push(step("step duplicate, H 64, individual", INDIVIDUAL, 0, [0, 0]));
    figures.push(step("step rogue, H 64, individual", INDIVIDUAL, 20_000, [0, 0]));
    figures.push(tagless("step without a number, individual", INDIVIDUAL));
    figures.push(tick("tick", VECTOR));
    let (ours, plain) = begun(VECTOR);
    figures.push(both(
        "latent test",
        |times| repeat(times, || black_box(&ours.0).latent_test()),
        |times| repeat(times, || called::latent_test(black_box(&plain.0))),
    ));
    let (mut ours, mut plain) =
        (ours::recovery::Generator::fresh(), plain::recovery::Generator::default());
    figures.push(both(
        "generator",
        |times| repeat(times, || black_box(&mut ours).generate()),
        |times| repeat(times, || called::generate(black_box(&mut plain))),
    ));
}

fn cards(figures: &mut Vec<Figure>) {
    let fair = ours::cards::Calibration { gain: 0.25, offset: 0.5 };
    let plain_fair = plain::cards::Calibration { gain: fair.gain, offset: fair.offset };
    let (raw, millivolts) = (&[0x11, 0, 10][..], &[0x12, 0, 10][..]);
    figures.push(both(
        "card",
        |times| repeat(times, || ours::cards::next(black_box(raw))),
        |times| repeat(times, || called::next(black_box(raw))),
    ));
    for (what, payload) in [("raw code", raw), ("millivolts", millivolts)] {
        figures.push(both(
            format!("volts, {what}"),
            |times| repeat(times, || ours::cards::volts(black_box(payload), black_box(fair))),
            |times| repeat(times, || called::volts(black_box(payload), black_box(plain_fair))),
        ));
    }
}

/// A tape of 4,096 octets: a setup, packets in order and two ticks.
fn tape(figures: &mut Vec<Figure>) {
    let mut tape = vec![0x0F, 0, 0, 0, 0, 64, 0, 0, 0, 100, 0, 100, 2, 0, 0, 0, 1];
    for number in 0..1_359u16 {
        tape.push(1);
        tape.extend(number.to_be_bytes());
    }
    tape.extend([3, 3]);
    let tape = &tape[..];
    let mut out = vec![0; ours::tape::OUTPUT];
    let mut other = out.clone();
    figures.push(both(
        format!("tape of {} octets", tape.len()),
        |times| repeat(times, || ours::tape::run(black_box(tape), black_box(&mut out[..]))),
        |times| repeat(times, || called::run(black_box(tape), black_box(&mut other[..]))),
    ));
}

/// The whole receive path on 64-octet frames, one after another from each stream: read, lookup, the
/// stream's recovery step, and the tag taken off.
fn receive(entries: usize) -> Figure {
    let table = table(entries);
    let table = &table[..];
    let frames: Vec<Vec<u8>> =
        (0..entries).map(|i| frame(64, i as u8, None, Some(Encoding::RTag))).collect();
    let (ours, plain) = begun(VECTOR);
    let (mut ours, mut plain) = (vec![ours; entries], vec![plain; entries]);
    let (mut of_ours, mut of_plain) = (frames.clone(), frames);
    let (mut out, mut other) = (Lined([0; 1_522]), Lined([0; 1_522]));
    let (mut a, mut b) = (0, 0);
    both(
        format!("receive path, {entries} entries"),
        |times| {
            repeat(times, || {
                let frame = &mut of_ours[a % entries][..];
                frame[16..18].copy_from_slice(&((a / entries + 11) as u16).to_be_bytes());
                a += 1;
                let header = ours::frame::read(black_box(frame)).unwrap();
                let handle = ours::streams::lookup(black_box(table), black_box(frame)).unwrap();
                let state = &mut ours[usize::from(handle.unwrap().0)].0;
                let verdict = black_box(state).hear(header.number).unwrap();
                let length = ours::frame::remove(black_box(frame), black_box(&mut out.0[..]));
                (verdict, length.unwrap())
            })
        },
        |times| {
            repeat(times, || {
                let frame = &mut of_plain[b % entries][..];
                frame[16..18].copy_from_slice(&((b / entries + 11) as u16).to_be_bytes());
                b += 1;
                let header = called::read(black_box(frame)).unwrap();
                let handle = called::lookup(black_box(table), black_box(frame)).unwrap();
                let state = &mut plain[usize::from(handle.unwrap())].0;
                let verdict = called::packet(black_box(state), header.number).unwrap();
                let length = called::remove(black_box(frame), black_box(&mut other.0[..]));
                (verdict, length.unwrap())
            })
        },
    )
}

fn calls() -> Vec<Figure> {
    let mut figures = Vec::new();
    frames(&mut figures);
    checks(&mut figures);
    lookups(&mut figures);
    steps(&mut figures);
    steps_of_the_longest(&mut figures);
    cards(&mut figures);
    tape(&mut figures);
    figures
}

fn paths() -> Vec<Figure> {
    vec![receive(16), receive(256)]
}

/// A line for each figure, from the pass whose ratio is in the middle.
fn print(title: &str, passes: &[Vec<Figure>], shown: impl Fn(f64) -> String) {
    println!("\n| {title} | ratio of times | in five passes |\n|---|---|---|---|---|");
    for row in 0..passes[0].len() {
        let mut figures: Vec<&Figure> = passes.iter().map(|pass| &pass[row]).collect();
        figures.sort_by(|a, b| a.ratio().total_cmp(&b.ratio()));
        let middle = figures[PASSES / 2];
        println!(
            "| {} | {} | {} | {:.2} | {:.2} to {:.2} |",
            middle.what,
            shown(middle.ours),
            shown(middle.plain),
            middle.ratio(),
            figures[0].ratio(),
            figures[PASSES - 1].ratio(),
        );
    }
}

/// What stands behind the last colon of the first line that has the word, of all that a command says.
fn says(command: &mut Command, word: &str) -> Option<String> {
    let text = String::from_utf8(command.output().ok()?.stdout).ok()?;
    let line = text.lines().find(|line| line.contains(word))?;
    line.rsplit(':').next().map(|words| words.trim().to_owned())
}

fn main() {
    println!(
        "{}, {} {}; {}",
        says(&mut Command::new("lscpu"), "Model name").as_deref().unwrap_or("processor unknown"),
        std::env::consts::ARCH,
        std::env::consts::OS,
        says(Command::new("rustc").arg("--version"), "rustc").as_deref().unwrap_or("rustc unknown"),
    );
    let (calls, paths): (Vec<_>, Vec<_>) = (0..PASSES).map(|_| (calls(), paths())).unzip();
    print("call | ours, ns | plain Rust, ns", &calls, |ns| format!("{ns:.1}"));
    print("path | ours, million frames a second | plain Rust", &paths, |ns| {
        format!("{:.2}", 1_000.0 / ns)
    });
}
