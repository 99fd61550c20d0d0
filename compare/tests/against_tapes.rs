//! The proved layer against the plain version: "The bench tape".

mod common;

use ahozurime::tape::OUTPUT;
use common::report;
use compare::layers::run;
use compare::plain::tape::lines;
use compare::random::{Random, SEED};

/// Setup (vector, 0, individual, 4, 100, 100, 2, 1).
const SETUP: [u8; 17] = [0x0F, 0, 0, 1, 0, 4, 0, 0, 0, 100, 0, 100, 2, 0, 0, 0, 1];

/// A tape run into buffers of several lengths: one is longer than any output, and 16 bits of its
/// length are too short.
fn same(tape: &[u8]) -> u64 {
    let lines = lines(tape).len();
    assert!(lines <= OUTPUT, "{tape:?}");
    let lengths = [0, lines - 1, lines, lines + 7, OUTPUT, 65_536 + lines - 1];
    for length in lengths {
        let expected = if length < lines { Err(8) } else { Ok(lines) };
        assert_eq!(run(tape, &mut vec![0xA5; length]), expected, "{tape:?}");
    }
    2 * lengths.len() as u64
}

/// A setup whose fields are mostly in range; each octet of a timeout and a difference matters.
fn setup(random: &mut Random, tape: &mut Vec<u8>) {
    tape.extend([0x0F, random.pick(&[0, 0, 0, 1, 1, 2]), random.pick(&[0, 0, 1, 1, 1, 2])]);
    tape.push(random.pick(&[0, 0, 0, 0, 1, 1, 1, 1, 1, 2, 255]));
    let histories = [2u16, 3, 4, 16, 63, 64, 65, 128, 200, 511, 512, 512, 1, 513];
    tape.extend(random.pick(&histories).to_be_bytes());
    let timeouts = [1u32, 11, 100, 0x100, 0x1_0001, 0x10_0000, 3_600_000, 100, 0, 3_600_001];
    tape.extend(random.pick(&timeouts).to_be_bytes());
    tape.extend(random.pick(&[1u16, 100, 10_000, 100, 100, 0, 10_001]).to_be_bytes());
    tape.push(random.pick(&[2, 3, 8, 2, 2, 1, 9]));
    let differences = [0u32, 1, 3, 0x100, 0x1_0000, 0x100_0000, 1 << 31, u32::MAX];
    tape.extend(random.pick(&differences).to_be_bytes());
}

fn event(random: &mut Random, near: &mut u16, tape: &mut Vec<u8>) {
    match random.below(20) {
        0..=11 => {
            let far = random.between(-70, 600) as u16;
            *near = near.wrapping_add(random.pick(&[0, 1, 2, 3, 65_535, 1, 2, far]));
            tape.push(1);
            tape.extend(near.to_be_bytes());
        }
        12 => tape.extend([1, random.octet(), random.octet()]),
        13 => tape.push(2),
        14..=16 => tape.push(3),
        17 => tape.push(random.pick(&[4, 5])),
        18 => tape.push(6),
        _ if random.once_in(12) => tape.push(random.octet()),
        _ if random.once_in(12) => setup(random, tape),
        _ => tape.push(6),
    }
}

/// Tapes as a bench would bring them, some cut, with setups in range and out of it.
#[test]
fn tapes_of_events() {
    let mut random = Random::new(SEED);
    let mut cases = 0;
    for round in 0..4_000 {
        let mut tape = Vec::new();
        if !random.once_in(40) {
            setup(&mut random, &mut tape);
        }
        let mut near = random.number();
        let length = if round % 20 == 0 { 4_090 } else { random.below(200) as usize };
        while tape.len() < length {
            event(&mut random, &mut near, &mut tape);
        }
        if random.once_in(4) {
            tape.truncate(random.below(tape.len() as u64 + 1) as usize);
        }
        cases += same(&tape);
    }
    report("tapes against the plain version", cases);
}

/// "At most 4,096 octets"; those over it are 26, however long.
#[test]
fn tapes_at_the_longest() {
    let mut tape = SETUP.to_vec();
    let mut cases = 0;
    for kind in [3, 5, 6] {
        for length in [4_095, 4_096, 4_097, 5_000, 65_535, 65_536, 65_553, 65_600, 69_632] {
            tape.truncate(SETUP.len());
            tape.resize(length, kind);
            let faulty = lines(&tape) == b"fault 26\n";
            assert_eq!(faulty, length > 4_096, "{length}");
            cases += same(&tape);
        }
    }
    report("tapes of 4,095 octets and more", cases);
}

/// A second setup, cut or whole: 24 comes before 25, and 25 before what its fields say.
#[test]
fn tapes_with_a_second_setup() {
    const BAD: [u8; SETUP.len()] = [0x0F; SETUP.len()];
    let mut cases = 0;
    for second in [SETUP, BAD] {
        for length in 0..=second.len() {
            let tape = [&SETUP[..], &[1, 0, 9, 3], &second[..length]].concat();
            let fault = match length {
                0 => "passed=1",
                _ if length == second.len() => "fault 25\n",
                _ => "fault 24\n",
            };
            let printed = String::from_utf8(lines(&tape)).unwrap();
            assert!(printed.contains(fault), "{length}: {printed}");
            cases += same(&tape);
        }
    }
    report("tapes with a second setup", cases);
}

/// Short tapes of any octets, most of which are kinds.
#[test]
fn tapes_of_noise() {
    let mut random = Random::new(SEED + 1);
    let mut cases = 0;
    for _ in 0..20_000 {
        let tape: Vec<u8> = (0..random.below(24)).map(|_| random.octet() % 17).collect();
        cases += same(&tape);
    }
    report("tapes of noise", cases);
}
