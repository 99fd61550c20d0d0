//! "Reading a frame" on frames built from their fields, cut and damaged, and both round trips. Every
//! version is asked.

mod common;

use common::report;
use compare::layers::{insert, payload, read, read_in, remove};
use compare::plain::encoding::Encoding;
use compare::plain::frame::Header;
use compare::random::{Random, SEED};

/// A frame as a list of fields, from which its octets follow.
#[derive(Clone, Debug)]
struct Fields {
    addresses: [u8; 12],
    c_tag: Option<u16>,
    r_tag: Option<(u16, u16)>,
    ethertype: u16,
    payload: Vec<u8>,
}

impl Fields {
    fn random(random: &mut Random, payload: usize) -> Fields {
        let mut fields = Fields {
            addresses: [0; 12],
            c_tag: random.once_in(2).then(|| random.number()),
            r_tag: random.once_in(2).then(|| (random.number(), random.number())),
            ethertype: random.pick(&[0x0800, 0x8101, 0xF1C0, 0x88A8, 0, 46, 0xFFFF]),
            payload: vec![0; payload],
        };
        random.fill(&mut fields.addresses);
        random.fill(&mut fields.payload);
        // VLAN id 4,095 is refused, and tested on its own.
        fields.c_tag = fields.c_tag.map(|tci| if tci % 4_096 == 4_095 { tci - 1 } else { tci });
        fields
    }

    fn octets(&self) -> Vec<u8> {
        let mut octets = self.addresses.to_vec();
        if let Some(tci) = self.c_tag {
            octets.extend([0x81, 0x00, (tci / 256) as u8, (tci % 256) as u8]);
        }
        if let Some((reserved, number)) = self.r_tag {
            octets.extend([0xF1, 0xC1]);
            octets.extend(reserved.to_be_bytes());
            octets.extend(number.to_be_bytes());
        }
        octets.extend(self.ethertype.to_be_bytes());
        octets.extend(&self.payload);
        octets
    }

    fn header_length(&self) -> usize {
        14 + self.c_tag.map_or(0, |_| 4) + self.r_tag.map_or(0, |_| 6)
    }

    fn header(&self) -> Header {
        Header {
            destination: self.addresses[..6].try_into().unwrap(),
            source: self.addresses[6..].try_into().unwrap(),
            has_c_tag: self.c_tag.is_some(),
            vlan: self.c_tag.map_or(0, |tci| tci % 4_096),
            number: self.r_tag.map(|(_, number)| number),
            path_id: 0,
            ethertype: self.ethertype,
            payload_at: self.header_length(),
        }
    }
}

/// What a good frame cut or grown to a length gives: 1 and 2 by the length alone, 3 inside a
/// header.
fn expected(fields: &Fields, length: usize) -> Result<Header, u8> {
    match length {
        0..14 => Err(1),
        1_523.. => Err(2),
        _ if length < fields.header_length() => Err(3),
        _ => Ok(fields.header()),
    }
}

/// Reading at every length answers by the fields that the frame was built from.
#[test]
fn every_length_of_every_layout() {
    let mut random = Random::new(SEED);
    let mut cases = 0;
    for _ in 0..24 {
        let fields = Fields::random(&mut random, 1_600);
        let octets = fields.octets();
        for length in 0..=1_600 {
            let frame = &octets[..length];
            let answer = read(frame);
            assert_eq!(answer, expected(&fields, length), "{length} of {fields:?}");
            let part = payload(frame);
            match answer {
                Err(_) => assert!(part.is_empty()),
                Ok(header) => assert!(std::ptr::eq(part, &frame[header.payload_at..])),
            }
            cases += 1;
        }
    }
    report("frames read at every length", cases);
}

fn after_addresses(octets: &[u8]) -> Vec<u8> {
    let mut frame = vec![7; 12];
    frame.extend(octets);
    frame
}

/// At a C-TAG 3, 5, 4; at an R-TAG or an HSR tag 3, 4.
#[test]
fn checks_stand_in_the_papers_order() {
    let cases: [(&[u8], u8); 27] = [
        (&[0x81, 0x00], 3),
        (&[0x81, 0x00, 0x0F, 0xFF, 0x81], 3),
        (&[0x81, 0x00, 0x0F, 0xFF, 0x81, 0x00], 5),
        (&[0x81, 0x00, 0xFF, 0xFF, 0x08, 0x00], 5),
        (&[0x81, 0x00, 0x0F, 0xFF, 0xF1, 0xC1], 5),
        (&[0x81, 0x00, 0x0F, 0xFE, 0x81, 0x00], 4),
        (&[0x81, 0x00, 0x00, 0x05, 0xF1, 0xC1], 3),
        (&[0x81, 0x00, 0x00, 0x05, 0xF1, 0xC1, 0, 0, 0, 0, 0x81], 3),
        (&[0x81, 0x00, 0x00, 0x05, 0xF1, 0xC1, 0, 0, 0, 0, 0x81, 0x00], 4),
        (&[0x81, 0x00, 0x00, 0x05, 0xF1, 0xC1, 0, 0, 0, 0, 0xF1, 0xC1], 4),
        (&[0xF1, 0xC1], 3),
        (&[0xF1, 0xC1, 0, 0, 0, 0, 0x81], 3),
        (&[0xF1, 0xC1, 0, 0, 0, 0, 0x81, 0x00], 4),
        (&[0xF1, 0xC1, 0, 0, 0, 0, 0xF1, 0xC1], 4),
        (&[0xF1, 0xC1, 0, 0, 0, 0, 0x89, 0x2F], 4),
        (&[0x81, 0x00, 0x0F, 0xFF, 0x89, 0x2F], 5),
        (&[0x81, 0x00, 0x00, 0x05, 0x89, 0x2F], 3),
        (&[0x81, 0x00, 0x00, 0x05, 0x89, 0x2F, 0, 6, 0, 0, 0x89], 3),
        (&[0x81, 0x00, 0x00, 0x05, 0x89, 0x2F, 0, 6, 0, 0, 0x81, 0x00], 4),
        (&[0x81, 0x00, 0x00, 0x05, 0x89, 0x2F, 0, 6, 0, 0, 0xF1, 0xC1], 4),
        (&[0x81, 0x00, 0x00, 0x05, 0x89, 0x2F, 0, 6, 0, 0, 0x89, 0x2F], 4),
        (&[0x81, 0x00, 0x00, 0x05, 0xF1, 0xC1, 0, 0, 0, 0, 0x89, 0x2F], 4),
        (&[0x89, 0x2F], 3),
        (&[0x89, 0x2F, 0, 6, 0, 0, 0x08], 3),
        (&[0x89, 0x2F, 0, 6, 0, 0, 0x81, 0x00], 4),
        (&[0x89, 0x2F, 0, 6, 0, 0, 0xF1, 0xC1], 4),
        (&[0x89, 0x2F, 0, 6, 0, 0, 0x89, 0x2F], 4),
    ];
    for (octets, refusal) in cases {
        for encoding in Encoding::ALL {
            let answer = read_in(encoding, &after_addresses(octets));
            assert_eq!(answer, Err(refusal), "{encoding:?} {octets:02X?}");
        }
    }
    // Priority and the drop bit are no part of the VLAN id, and 4,094 is one.
    let header = read(&after_addresses(&[0x81, 0x00, 0xFF, 0xFE, 0x08, 0x00])).unwrap();
    assert_eq!((header.has_c_tag, header.vlan), (true, 4_094));
}

/// Calls with an output of every interesting length, and holds that only a result that fits is
/// written, and not an octet behind it.
fn outputs(expected: Result<Vec<u8>, u8>, call: impl Fn(&mut [u8]) -> Result<usize, u8>) -> u64 {
    let fits = expected.as_ref().map_or(0, Vec::len);
    let lengths = [0, fits.saturating_sub(1), fits, fits + 1, 1_522, 1_600];
    for length in lengths {
        let mut out = vec![0xA5; length];
        let answer = call(&mut out);
        let mut later = vec![0xA5; length];
        match &expected {
            Err(refusal) => assert_eq!(answer, Err(*refusal)),
            Ok(result) if length < result.len() => assert_eq!(answer, Err(8)),
            Ok(result) => {
                assert_eq!(answer, Ok(result.len()));
                later[..result.len()].copy_from_slice(result);
            }
        }
        assert_eq!(out, later);
    }
    lengths.len() as u64
}

/// Both calls write the frame that is built from the other fields, or refuse 2, 6, 7, 9 or 8.
#[test]
fn put_in_and_taken_off() {
    let mut random = Random::new(SEED);
    let mut cases = 0;
    for round in 0..4_000 {
        let length = if round % 2 == 0 { random.below(64) } else { random.below(1_512) };
        let fields = Fields::random(&mut random, length as usize);
        let frame = fields.octets();
        let number = random.number();
        let tagged = Fields { r_tag: Some((0, number)), ..fields.clone() }.octets();
        let bare = Fields { r_tag: None, ..fields.clone() }.octets();
        let inserted = match fields.r_tag {
            _ if frame.len() > 1_522 => Err(2),
            Some(_) => Err(6),
            None if tagged.len() > 1_522 => Err(7),
            None => Ok(tagged),
        };
        let removed = match fields.r_tag {
            _ if frame.len() > 1_522 => Err(2),
            None => Err(9),
            Some(_) => Ok(bare),
        };
        cases += outputs(inserted, |out| insert(&frame, number, out));
        cases += outputs(removed, |out| remove(&frame, out));
    }
    report("R-TAGs put in and taken off", cases);
}

/// "Insert then remove gives the first frame"; the other way round where the reserved octets are
/// zero.
#[test]
fn round_trips() {
    let mut random = Random::new(SEED + 1);
    let (mut there_and_back, mut same, mut other) = (0, 0, 0);
    for _ in 0..20_000 {
        let length = random.below(1_490) as usize;
        let mut fields = Fields::random(&mut random, length);
        if random.once_in(2) {
            fields.r_tag = fields.r_tag.map(|(_, number)| (0, number));
        }
        let frame = fields.octets();
        let (mut one, mut two) = ([0; 1_522], [0; 1_522]);
        let Some((reserved, number)) = fields.r_tag else {
            let number = random.number();
            let length = insert(&frame, number, &mut one).unwrap();
            let header = Header {
                number: Some(number),
                payload_at: fields.header_length() + 6,
                ..fields.header()
            };
            assert_eq!(read(&one[..length]), Ok(header));
            let length = remove(&one[..length], &mut two).unwrap();
            assert_eq!(two[..length], frame);
            there_and_back += 1;
            continue;
        };
        let length = remove(&frame, &mut one).unwrap();
        let length = insert(&one[..length], number, &mut two).unwrap();
        assert_eq!(two[..length] == frame, reserved == 0);
        *(if reserved == 0 { &mut same } else { &mut other }) += 1;
    }
    assert!(same > 0 && other > 0);
    report("put in, then taken off", there_and_back);
    report("taken off, then put in", same + other);
}

/// Both calls refuse what reading refuses, with its number, before they look at the output.
#[test]
fn damaged_frames() {
    let mut random = Random::new(SEED + 2);
    let mut cases = 0;
    for _ in 0..60 {
        let mut frame = Fields::random(&mut random, 3).octets();
        for at in 12..frame.len() {
            let kept = frame[at];
            for damage in [0x00, 0x81, 0xF1, 0xC1, 0x0F, 0xFF, random.octet()] {
                frame[at] = damage;
                let mut out = [0x5A; 40];
                match read(&frame) {
                    Err(refusal) => {
                        assert!(matches!(refusal, 3..=5));
                        assert_eq!(insert(&frame, 9, &mut out), Err(refusal));
                        assert_eq!(remove(&frame, &mut out[..0]), Err(refusal));
                        assert_eq!(out, [0x5A; 40]);
                    }
                    Ok(header) if header.number.is_some() => {
                        assert_eq!(insert(&frame, 9, &mut out[..0]), Err(6));
                    }
                    Ok(_) => assert_eq!(remove(&frame, &mut out[..0]), Err(9)),
                }
                cases += 1;
            }
            frame[at] = kept;
        }
    }
    report("damaged frames", cases);
}
