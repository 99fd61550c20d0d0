//! CR 6, "Frame check sequence": published checks, the standard's own division, and checks that are
//! none. Every version is asked.

mod common;

use common::report;
use compare::division;
use compare::layers::{append_fcs, check_fcs, crc32, without_fcs};
use compare::random::{Random, SEED};

/// The CRC-32 over a frame and its check, whatever the frame. The known residue C704DD7B is the same
/// with the highest power in the highest bit, and before the remainder is complemented.
const RESIDUE: u32 = !0xC704_DD7B_u32.reverse_bits();

/// A frame and its check, as the standard's division has it.
fn checked(frame: &[u8]) -> Vec<u8> {
    [frame, &division::check(frame)].concat()
}

fn random_frame(random: &mut Random, length: usize) -> Vec<u8> {
    let mut frame = vec![0; length];
    random.fill(&mut frame);
    frame
}

/// What every list of CRCs gives for its one check value, the strings of RFC 1321, a pangram, the
/// octets that RFC 3720 tries its own CRC on, and four zeros, which leave the residue.
#[test]
fn published_values() {
    let counted: Vec<u8> = (0..32).collect();
    let values: [(&[u8], u32); 13] = [
        (b"123456789", 0xCBF4_3926),
        (b"", 0),
        (b"a", 0xE8B7_BE43),
        (b"abc", 0x3524_41C2),
        (b"message digest", 0x2015_9D7F),
        (b"abcdefghijklmnopqrstuvwxyz", 0x4C27_50BD),
        (b"ABCDEFGHIJKLMNOPQRSTUVWXYZabcdefghijklmnopqrstuvwxyz0123456789", 0x1FC2_E6D2),
        (&b"1234567890".repeat(8), 0x7CA9_4A72),
        (b"The quick brown fox jumps over the lazy dog", 0x414F_A339),
        (&[0; 32], 0x190A_55AD),
        (&[0xFF; 32], 0xFF6C_AB0B),
        (&counted, 0x9126_7E8A),
        (&[0; 4], RESIDUE),
    ];
    for (octets, value) in values {
        assert_eq!(crc32(octets), value, "{octets:02X?}");
        assert_eq!(division::check(octets), value.to_le_bytes(), "{octets:02X?}");
    }
    assert_eq!(RESIDUE, 0x2144_DF1C);
}

/// Octets that are counted from their places, and what `zlib.crc32` of Python says of them.
#[test]
fn values_by_zlib() {
    let octets: Vec<u8> = (0..1_000_000u64).map(|place| (place * place / 7) as u8).collect();
    let values = [
        (14, 0x302C_EBBB),
        (15, 0x9A80_F52D),
        (60, 0x925B_0A90),
        (61, 0xCC91_46EF),
        (64, 0x32FA_6DD3),
        (1_500, 0xF824_12A1),
        (1_514, 0x8513_22BC),
        (1_518, 0x2B08_E16B),
        (1_522, 0x130F_A666),
        (4_096, 0x4C42_DE96),
        (65_536, 0x0639_625A),
        (1_000_000, 0xED1F_34A8),
    ];
    for (length, value) in values {
        assert_eq!(crc32(&octets[..length]), value, "{length}");
    }
}

/// The long and the short random pattern of IEEE 802.3, annex 36A, which are frames with their
/// checks, and two UDP frames from tutorials on how to send one.
#[test]
fn published_frames() {
    let pattern = [0xBE, 0xD7, 0x23, 0x47, 0x6B, 0x8F, 0xB3, 0x14, 0x5E, 0xFB, 0x35, 0x59];
    let counted: Vec<u8> = (0..20).collect();
    let first = [
        0x00, 0x10, 0xA4, 0x7B, 0xEA, 0x80, 0x00, 0x12, 0x34, 0x56, 0x78, 0x90, 0x08, 0x00, 0x45,
        0x00, 0x00, 0x2E, 0xB3, 0xFE, 0x00, 0x00, 0x80, 0x11, 0x05, 0x40, 0xC0, 0xA8, 0x00, 0x2C,
        0xC0, 0xA8, 0x00, 0x04, 0x04, 0x00, 0x04, 0x00, 0x00, 0x1A, 0x2D, 0xE8,
    ];
    let second = [
        0x00, 0x0A, 0xE6, 0xF0, 0x05, 0xA3, 0x00, 0x12, 0x34, 0x56, 0x78, 0x90, 0x08, 0x00, 0x45,
        0x00, 0x00, 0x30, 0xB3, 0xFE, 0x00, 0x00, 0x80, 0x11, 0x72, 0xBA, 0x0A, 0x00, 0x00, 0x03,
        0x0A, 0x00, 0x00, 0x02, 0x04, 0x00, 0x04, 0x00, 0x00, 0x1C, 0x89, 0x4D,
    ];
    let frames = [
        (pattern.repeat(126), [0x94, 0xD2, 0x54, 0xAC]),
        (pattern.repeat(29), [0x2F, 0xE0, 0xAA, 0xEF]),
        ([&first, &counted[..18]].concat(), [0xB3, 0x31, 0x88, 0x1B]),
        ([&second, &counted[..]].concat(), [0x7A, 0xD5, 0x6B, 0xB3]),
    ];
    for (frame, check) in frames {
        let whole = [&frame[..], &check].concat();
        assert_eq!(whole, checked(&frame));
        assert_eq!(check_fcs(&whole), Ok(()));
        assert_eq!(without_fcs(&whole), frame);
        let mut out = [0; 1_526];
        assert_eq!(append_fcs(&frame, &mut out), Ok(whole.len()));
        assert_eq!(out[..whole.len()], whole);
    }
}

/// "It must equal the bit-by-bit division on any frame", and on what is longer or shorter.
#[test]
fn the_division_at_every_length() {
    let mut random = Random::new(SEED);
    let contents = [
        vec![0; 1_600],
        vec![0xFF; 1_600],
        [0x55, 0xAA].repeat(800),
        (0..1_600).map(|place| place as u8).collect(),
        random_frame(&mut random, 1_600),
        random_frame(&mut random, 1_600),
    ];
    let mut cases = 0;
    for octets in contents {
        for length in 0..=octets.len() {
            let octets = &octets[..length];
            assert_eq!(crc32(octets).to_le_bytes(), division::check(octets), "{octets:02X?}");
            cases += 1;
        }
    }
    report("checks as the division has them, at every length", cases);
}

/// One octet and two: each word of a table is looked up, first and then behind every other.
#[test]
fn the_division_for_every_octet() {
    let mut cases = 0;
    let mut same = |octets: &[u8]| {
        assert_eq!(crc32(octets).to_le_bytes(), division::check(octets), "{octets:02X?}");
        cases += 1;
    };
    for first in 0..=255 {
        same(&[first]);
        (0..=255).for_each(|second| same(&[first, second]));
    }
    report("checks as the division has them, of every octet", cases);
}

/// A frame and its check leave the same whatever they are, and with one bit of them wrong they do not.
#[test]
fn the_residue() {
    let mut random = Random::new(SEED);
    let mut cases = 0;
    for length in 0..=1_600 {
        let mut whole = checked(&random_frame(&mut random, length));
        assert_eq!(crc32(&whole), RESIDUE, "{whole:02X?}");
        let at = random.below(whole.len() as u64) as usize;
        whole[at] ^= 1 << random.below(8);
        assert_ne!(crc32(&whole), RESIDUE, "{whole:02X?}");
        cases += 2;
    }
    report("residues", cases);
}

/// "A mismatch is refusal 28, a frame under 18 octets with its check is 1, above 1,526 is 2", the
/// lengths first. The last lengths do not fit 16 bits.
#[test]
fn checks_at_every_bound() {
    let mut random = Random::new(SEED);
    let mut cases = 0;
    let lengths = (4..40).chain(1_500..1_560).chain([65_540, 65_554, 65_600, 67_062, 67_063]);
    for length in lengths {
        let frame = random_frame(&mut random, length - 4);
        let good = checked(&frame);
        let mut bad = good.clone();
        bad[length - 1] ^= 0x80;
        let of_its_length = match length {
            0..18 => Err(1),
            1_527.. => Err(2),
            _ => Ok(()),
        };
        assert_eq!(check_fcs(&good), of_its_length, "{length}");
        assert_eq!(check_fcs(&bad), of_its_length.and(Err(28)), "{length}");
        let part = if of_its_length.is_ok() { &frame[..] } else { &[] };
        assert_eq!(without_fcs(&good), part, "{length}");
        assert!(without_fcs(&bad).is_empty(), "{length}");
        cases += 4;
    }
    for length in 0..4 {
        assert_eq!(check_fcs(&[0; 4][..length]), Err(1));
        assert!(without_fcs(&[0; 4][..length]).is_empty());
        cases += 2;
    }
    report("frames checked at every bound", cases);
}

/// "The writer uses 8 for a short output", behind 1 and 2. Outputs of the longest result, of what the
/// result has, of less, and longer by what 16 bits do not hold.
#[test]
fn writes_at_every_bound() {
    let mut random = Random::new(SEED);
    let mut cases = 0;
    let lengths = (0..40).chain(1_500..1_560).chain([65_536, 65_550, 65_600, 67_058, 67_059]);
    for length in lengths {
        let frame = random_frame(&mut random, length);
        let whole = checked(&frame);
        for room in [0, length, length + 3, length + 4, length + 5, 1_526, 65_536 + length] {
            let mut out = vec![0xA5; room];
            let mut later = out.clone();
            let expected = match length {
                0..14 => Err(1),
                1_523.. => Err(2),
                _ if room < whole.len() => Err(8),
                _ => {
                    later[..whole.len()].copy_from_slice(&whole);
                    Ok(whole.len())
                }
            };
            assert_eq!(append_fcs(&frame, &mut out), expected, "{length} to {room}");
            assert_eq!(out, later, "{length} to {room}");
            cases += 1;
        }
    }
    report("checks written at every bound", cases);
}

/// What a check is not, though it comes of the same division: each is 28.
#[test]
fn other_checks() {
    let mut random = Random::new(SEED);
    let mut cases = 0;
    for length in [14, 15, 16, 17, 59, 60, 61, 64, 255, 256, 1_514, 1_518, 1_521, 1_522] {
        for _ in 0..40 {
            let frame = random_frame(&mut random, length);
            let right = division::check(&frame);
            let word = u32::from_le_bytes(right);
            // The check of zeros has the ones at the start alone in it: added to another check, it
            // takes them out.
            let of_zeros = u32::from_le_bytes(division::check(&vec![0; length]));
            let others = [
                ("high octet first", word.to_be_bytes()),
                ("each octet with its high bit first", right.map(u8::reverse_bits)),
                ("not complemented at the end", right.map(|octet| !octet)),
                ("not complemented at the start", (!(word ^ of_zeros)).to_le_bytes()),
                ("complemented nowhere", (word ^ of_zeros).to_le_bytes()),
                ("of all octets but the last", division::check(&frame[..length - 1])),
                ("of all octets but the first", division::check(&frame[1..])),
                ("of itself too", division::check(&checked(&frame))),
                ("of the frame and four zeros", division::check(&[&frame[..], &[0; 4]].concat())),
                ("none", [0; 4]),
            ];
            for (what, other) in others {
                let whole = [&frame[..], &other].concat();
                assert_eq!(check_fcs(&whole), Err(28), "{what}: {whole:02X?}");
                assert!(without_fcs(&whole).is_empty(), "{what}: {whole:02X?}");
                cases += 1;
            }
        }
    }
    report("checks that are none", cases);
}

/// "Tags aren't read": whatever stands behind the addresses, good or refused by reading.
#[test]
fn tags_are_not_read() {
    let tags: [&[u8]; 8] = [
        &[0x08, 0x00],
        &[0x81, 0x00],
        &[0xF1, 0xC1],
        &[0x81, 0x00, 0x0F, 0xFF, 0x08, 0x00],
        &[0x81, 0x00, 0x00, 0x05, 0x81, 0x00, 0x00, 0x05, 0x08, 0x00],
        &[0xF1, 0xC1, 0, 0, 0, 1, 0xF1, 0xC1, 0, 0, 0, 1, 0x08, 0x00],
        &[0xF1, 0xC1, 0, 0, 0, 1, 0x81, 0x00, 0x00, 0x05, 0x08, 0x00],
        &[0x81, 0x00, 0x00, 0x05, 0xF1, 0xC1, 0, 0, 0, 1, 0x08, 0x00],
    ];
    for tag in tags {
        for payload in [0, 1, 46, 1_490] {
            let frame = [&[7; 12], tag, &vec![0x5A; payload]].concat();
            let whole = checked(&frame);
            assert_eq!(check_fcs(&whole), Ok(()), "{tag:02X?}");
            assert_eq!(without_fcs(&whole), frame, "{tag:02X?}");
            let mut out = [0; 1_526];
            assert_eq!(append_fcs(&frame, &mut out), Ok(whole.len()), "{tag:02X?}");
            assert_eq!(out[..whole.len()], whole, "{tag:02X?}");
        }
    }
}
