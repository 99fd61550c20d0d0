//! Every call with what it is lent between fences: a read or a write outside of it, or any write to
//! an input, ends the program by a signal. With one thread for all tests, the last name printed is
//! the test that it was.

#![cfg(target_os = "linux")]

use compare::guarded::{within, Fence};
use compare::layers::*;
use compare::plain::cards::Calibration;
use compare::plain::encoding::Encoding;
use compare::plain::fcs;
use compare::plain::recovery::{Milliseconds, Setup, State, INDIVIDUAL, MATCH, SEQUENCE, VECTOR};

fn fenced(calls: impl Fn()) {
    within(Fence::Before, &calls);
    within(Fence::Behind, &calls);
}

/// Frames without a tag, with any and with two, and with bad ones; and behind the type, cards.
fn frames() -> Vec<Vec<u8>> {
    let tags: [&[u8]; 9] = [
        &[],
        &[0x81, 0, 0, 5],
        &[0xF1, 0xC1, 0, 0, 0, 1],
        &[0x81, 0, 0, 5, 0xF1, 0xC1, 0, 0, 0, 1],
        &[0x89, 0x2F, 0xA0, 18, 0, 1],
        &[0x81, 0, 0, 5, 0x89, 0x2F, 0xA0, 18, 0, 1],
        &[0x81, 0, 0x0F, 0xFF],
        &[0xF1, 0xC1, 0, 0, 0, 1, 0xF1, 0xC1],
        &[0x89, 0x2F, 0xA0, 18, 0, 1, 0x89, 0x2F],
    ];
    let behind = [8, 0, 0x11, 0, 1, 0x10, 0, 0, 0, 1, 0x12, 3, 4, 0];
    tags.map(|tags| [&[2; 12], tags, &behind].concat()).to_vec()
}

/// The same with a trailer behind the cards, and one that is all of its payload.
fn frames_with_trailers() -> Vec<Vec<u8>> {
    let trailer = |size| [0, 1, 0xA0, size, 0x88, 0xFB];
    let mut frames = frames();
    frames.iter_mut().for_each(|frame| frame.extend(trailer(18)));
    frames.push([&[2; 12][..], &[8, 0], &trailer(6)].concat());
    frames
}

/// Every cut of some octets, and longer ones.
fn lengths(octets: &[u8], longer: &[usize], call: impl Fn(&[u8])) {
    (0..=octets.len()).for_each(|length| call(&octets[..length]));
    for &length in longer {
        let mut octets = octets.to_vec();
        octets.resize(length, 7);
        call(&octets);
    }
}

/// Frames cut everywhere and too long; rooms and headers too short, just long enough and longer.
#[test]
fn calls_on_frames() {
    fenced(|| {
        for whole in frames() {
            lengths(&whole, &[1_516, 1_517, 1_522, 1_523, 65_536, 70_000], |frame| {
                for words in [0, 7, 8, 9] {
                    let _ = read_into(frame, &vec![7; words]);
                }
                let _ = payload(frame);
                let length = frame.len();
                for room in
                    [0, length.saturating_sub(7), length.saturating_sub(6), length + 6, 1_600]
                {
                    let _ = insert(frame, 9, &mut vec![7; room]);
                    let _ = remove(frame, &mut vec![7; room]);
                }
            });
        }
    });
}

/// The same of an HSR and of a PRP stream, with trailers too; ids good and refused.
#[test]
fn calls_on_hsr_and_prp() {
    fenced(|| {
        for whole in frames_with_trailers() {
            lengths(&whole, &[1_516, 1_517, 1_522, 1_523, 65_536], |frame| {
                let (less, more) = (frame.len().saturating_sub(6), frame.len() + 6);
                for encoding in [Encoding::Hsr, Encoding::Prp] {
                    for words in [0, 8, 9, 10] {
                        let _ = read_in_into(encoding, frame, &vec![7; words]);
                    }
                    for (room, id) in [(0, 10), (more - 1, 10), (more, 10), (more, 16)] {
                        let _ = insert_in(encoding, frame, 9, id, &mut vec![7; room]);
                    }
                    for room in [0, less.saturating_sub(1), less] {
                        let _ = remove_in(encoding, frame, &mut vec![7; room]);
                    }
                }
            });
        }
    });
}

/// Frames with their check, cut everywhere and too long; rooms too short, just long enough and longer.
#[test]
fn calls_on_checks() {
    fenced(|| {
        for frame in frames() {
            let whole = [&frame[..], &fcs::crc32(&frame).to_le_bytes()].concat();
            lengths(&whole, &[1_522, 1_523, 1_526, 1_527, 65_536, 70_000], |octets| {
                let _ = (crc32(octets), check_fcs(octets), without_fcs(octets));
                for room in [0, octets.len() + 3, octets.len() + 4, octets.len() + 9, 1_600] {
                    let _ = append_fcs(octets, &mut vec![7; room]);
                }
            });
        }
    });
}

/// Tables cut everywhere and full, with frames good and refused.
#[test]
fn calls_on_tables() {
    let entry = [1, 2, 2, 2, 2, 2, 2, 3, 0, 0, 0, 9].to_vec();
    let other = [2, 9, 2, 2, 2, 2, 2, 1, 0, 5, 0, 9].to_vec();
    let by_ip = by_ip(2, [0, 80, 1, 187]);
    let tables = [
        [&entry[..], &other].concat(),
        [&other[..], &entry].concat(),
        [&by_ip[..], &other].concat(),
        [&other[..], &by_ip, &by_ip].concat(),
        other.repeat(256),
        by_ip.repeat(256),
    ];
    let frames = frames();
    fenced(|| {
        for good in &tables {
            let cuts = (0..=good.len().min(64)).chain([good.len() - 1, good.len()]);
            for table in cuts.map(|cut| &good[..cut]) {
                let _ = check_table(table);
                for frame in &frames {
                    for cut in [0, 13, 14, 16, 18, 20, 24, frame.len()] {
                        let _ = lookup(table, &frame[..cut]);
                    }
                }
            }
        }
        for entry in [&entry, &by_ip] {
            let full = [&entry.repeat(256)[..], &[9]].concat();
            lengths(&full[255 * entry.len()..], &[65_536], |table| {
                let _ = check_table(table);
            });
        }
    });
}

/// An entry of kind 4 for what is sent to the frames' destination.
fn by_ip(next: u8, ports: [u8; 4]) -> Vec<u8> {
    let ip = [10, 0, 0, 1, 10, 0, 0, 2, 46, next];
    [&[4, 2, 2, 2, 2, 2, 2, 3, 0, 0][..], &ip, &ports, &[0, 9]].concat()
}

/// IP frames cut everywhere, with headers of every length, in tables that ask for all of the header and
/// for either port. What is cut at the fence is the header, an option or a port.
#[test]
fn calls_on_ip_frames() {
    let tags: [&[u8]; 4] =
        [&[], &[0x81, 0, 0, 5], &[0xF1, 0xC1, 0, 0, 0, 1], &[0x89, 0x2F, 0xA0, 34, 0, 1]];
    let tables = [
        by_ip(1, [0, 80, 1, 187]),
        by_ip(2, [0; 4]),
        by_ip(2, [0, 80, 1, 187]),
        [by_ip(2, [9, 80, 0, 0]), by_ip(2, [0, 0, 1, 187])].concat(),
    ];
    fenced(|| {
        for tags in tags {
            for words in 4..=15 {
                let mut ip = vec![0x40 | words, 46 << 2, 0, 28, 0, 1, 0, 0, 64, 17, 0, 0];
                ip.extend([10, 0, 0, 1, 10, 0, 0, 2]);
                ip.resize(20.max(4 * usize::from(words)), 1);
                let head = [&[2; 12], tags, &[8, 0]].concat();
                let whole = [&head[..], &ip, &[0, 80, 1, 187]].concat();
                for length in head.len()..=whole.len() {
                    let is_whole = words >= 5 && length >= head.len() + ip.len();
                    let has_ports = words >= 5 && length == whole.len();
                    for (table, matches) in
                        tables.iter().zip([is_whole, is_whole, has_ports, has_ports])
                    {
                        let found = matches.then_some(9);
                        assert_eq!(lookup(table, &whole[..length]), Ok(found), "{length}");
                    }
                }
            }
        }
    });
}

/// States fresh, in use, unsound, cut and longer, under both rules and in both uses; setups good and
/// refused.
#[test]
fn calls_on_generators_and_states() {
    let setup = Setup {
        rule: VECTOR,
        taken: 1,
        usage: SEQUENCE,
        history: 4,
        timeout: Milliseconds(100),
        ticks_per_second: 100,
        paths: 2,
        difference: 0,
    };
    let setups = [
        setup,
        Setup { rule: MATCH, ..setup },
        Setup { taken: 0, usage: INDIVIDUAL, ..setup },
        Setup { usage: 2, ..setup },
        Setup { history: 512, ..setup },
        Setup { history: 513, ..setup },
    ];
    fenced(|| {
        for number in [0, 7, 65_535] {
            let _ = (generate(number), generator_reset(number));
        }
        let _ = ticks(setup.timeout, 100);
        for setup in setups {
            let _ = check_setup(&setup);
            for words in [0, 1, 24, 29, 30, 31, 32, 300] {
                let _ = fresh_into(&setup, &vec![7; words]);
            }
            let Ok(fresh) = State::fresh(setup) else { continue };
            let mut kept = Kept::of(&fresh);
            // Slides by part of a word, by a word and by all but the newest mark, and late packets.
            let slides =
                [5, 8, 72, 510, 65_535, 1_021, 511].map(|number| Event::Packet(Some(number)));
            for asked in [&slides[..], &events(5), &events(5), &events(8), &events(6)].concat() {
                kept.event(asked);
                let state = kept.state();
                let beyond = [9, 200, 511].into_iter().collect();
                for state in [state, State { newest: 9, marks: beyond, ..state }] {
                    let _ = event(&state, asked);
                }
            }
            let words = compare::words::of_state(&kept.state());
            for asked in events(7) {
                for count in 0..words.len() {
                    assert_eq!(raw_event(&words[..count], asked).0, 14);
                }
                assert_ne!(raw_event(&[&words[..], &[7; 9]].concat(), asked).0, 14);
            }
        }
    });
}

/// Payloads from every place of a frame, cut everywhere and long.
#[test]
fn calls_on_payloads() {
    let good = Calibration { gain: 0.5, offset: 0.0 };
    fenced(|| {
        for whole in frames() {
            for start in 12..whole.len() {
                lengths(&whole[start..], &[256, 65_536], |payload| {
                    let _ = (next_card(payload), card(payload), rest(payload));
                    for calibration in [good, Calibration { gain: 2.0, ..good }] {
                        let _ = volts(payload, calibration);
                    }
                });
            }
        }
    });
}

/// Tapes cut everywhere, the longest and longer, into rooms too short and long enough.
#[test]
fn calls_on_tapes() {
    let setup = [15, 0, 0, 1, 0, 4, 0, 0, 0, 100, 0, 100, 2, 0, 0, 0, 1];
    let events = [1, 0, 10, 2, 3, 4, 5, 6, 1, 0, 9, 15];
    fenced(|| {
        for whole in [[&setup[..], &events].concat(), [&setup[..], &[5; 4_081]].concat()] {
            lengths(&whole[..29], &[4_096, 4_097, 65_536], |tape| {
                let length = lines(tape).len();
                for room in [0, length - 1, length, length + 9] {
                    let _ = run(tape, &mut vec![7; room]);
                }
            });
        }
    });
}
