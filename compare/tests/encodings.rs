//! CR 5, "HSR and PRP": the three encodings on frames written out by hand, and on frames built from
//! their fields, with every mixture of tags and trailers. Every version is asked.

mod common;

use common::report;
use compare::guarded;
use compare::layers::{insert_in, payload, read_in, remove_in};
use compare::plain;
use compare::plain::encoding::Encoding::{self, Hsr, Prp, RTag};
use compare::plain::frame::Header;
use compare::random::{Random, SEED};

const ADDRESSES: [u8; 12] = [2, 3, 4, 5, 6, 7, 0xFF, 0xFE, 0xFD, 0xFC, 0xFB, 0xFA];
const C_TAG: [u8; 4] = [0x81, 0x00, 0xE0, 0x05];

/// Calls with just enough room, with one octet less, which is 8, and with more, of which the rest
/// stays; a refusal is one whatever the room, and writes nothing.
fn writes(expected: &Result<Vec<u8>, u8>, call: impl Fn(&mut [u8]) -> Result<usize, u8>) -> u64 {
    let fits = expected.as_ref().map_or(60, Vec::len);
    let rooms = [0, fits - 1, fits, fits + 7];
    for room in rooms {
        let (mut out, mut later) = (vec![0xA5; room], vec![0xA5; room]);
        let answer = match expected {
            Err(refusal) => Err(*refusal),
            Ok(result) if room < result.len() => Err(8),
            Ok(result) => {
                later[..result.len()].copy_from_slice(result);
                Ok(result.len())
            }
        };
        assert_eq!((call(&mut out), out), (answer, later));
    }
    rooms.len() as u64
}

fn number_and_id(encoding: Encoding, frame: &[u8]) -> Result<(Option<u16>, u8), u8> {
    read_in(encoding, frame).map(|header| (header.number, header.path_id))
}

/// Number 258, id 10 and a payload of four octets, as the six octets of each encoding have them.
#[test]
fn written_out_by_hand() {
    let behind = [0x08, 0x00, 0xDE, 0xAD, 0xBE, 0xEF];
    for c_tag in [&[][..], &C_TAG] {
        let head = [&ADDRESSES, c_tag].concat();
        let bare = [&head[..], &behind].concat();
        for (encoding, whole, payload_at, id) in [
            (RTag, [&head, &[0xF1, 0xC1, 0x00, 0x00, 0x01, 0x02][..], &behind].concat(), 20, 0),
            (Hsr, [&head, &[0x89, 0x2F, 0xA0, 0x0A, 0x01, 0x02][..], &behind].concat(), 20, 10),
            (Prp, [&head, &behind[..], &[0x01, 0x02, 0xA0, 0x0A, 0x88, 0xFB]].concat(), 14, 10),
        ] {
            writes(&Ok(whole.clone()), |out| insert_in(encoding, &bare, 258, 10, out));
            writes(&Ok(bare.clone()), |out| remove_in(encoding, &whole, out));
            let header = Header {
                destination: [2, 3, 4, 5, 6, 7],
                source: [0xFF, 0xFE, 0xFD, 0xFC, 0xFB, 0xFA],
                has_c_tag: !c_tag.is_empty(),
                vlan: if c_tag.is_empty() { 0 } else { 5 },
                number: Some(258),
                path_id: id,
                ethertype: 0x0800,
                payload_at: payload_at + c_tag.len(),
            };
            assert_eq!(read_in(encoding, &whole), Ok(header));
            let of_bare =
                Header { number: None, path_id: 0, payload_at: 14 + c_tag.len(), ..header };
            assert_eq!(read_in(encoding, &bare), Ok(of_bare));
            // A trailer is handed back with the payload.
            assert_eq!(payload(&whole), &whole[header.payload_at..]);
        }
    }
}

/// Two frames and their words: the eight of an R-TAG stream, and the id, which stands last.
#[test]
fn the_words_of_a_header_with_an_id() {
    let (destination, source) = (0x0203_0405_0607, 0xFFFE_FDFC_FBFA);
    let hsr =
        [&ADDRESSES[..], &C_TAG, &[0x89, 0x2F, 0xA0, 0x07, 0x01, 0x02, 0x88, 0xB5, 9]].concat();
    let prp = [&ADDRESSES[..], &[0x88, 0xB5, 9, 0x01, 0x02, 0xF0, 0x07, 0x88, 0xFB]].concat();
    let of_hsr = [destination, source, 1, 5, 1, 258, 0x88B5, 24];
    let of_prp = [destination, source, 0, 0, 1, 258, 0x88B5, 14];
    for (encoding, frame, words, id) in [(Hsr, &hsr, of_hsr, 10), (Prp, &prp, of_prp, 15)] {
        let words = [&words[..], &[id, u64::MAX, u64::MAX]].concat();
        assert_eq!(guarded::read(encoding, frame, &[u64::MAX; 9]), (0, words[..9].to_vec()));
        assert_eq!(guarded::read(encoding, frame, &[u64::MAX; 11]), (0, words));
        assert_eq!(guarded::read(encoding, frame, &[7; 8]), (8, vec![7; 8]));
        assert_eq!(guarded::read(encoding, &frame[..13], &[7; 9]), (1, vec![7; 9]));
    }
    // To the other's stream, and to one with R-TAGs, there is neither number nor id.
    let none = |of: [u64; 8]| [of[0], of[1], of[2], of[3], 0, 0, of[6], of[7]];
    for (encoding, frame, words) in [(Prp, &hsr, none(of_hsr)), (Hsr, &prp, none(of_prp))] {
        let with_id = [&words[..], &[0]].concat();
        assert_eq!(guarded::read(encoding, frame, &[u64::MAX; 9]), (0, with_id));
        assert_eq!(guarded::read(RTag, frame, &[u64::MAX; 8]), (0, words.to_vec()));
    }
}

/// A frame as a list of fields, from which its octets follow.
#[derive(Clone, Debug)]
struct Fields {
    addresses: [u8; 12],
    c_tag: Option<u16>,
    /// Whose tag it is, its 16 reserved bits or id and size, and the number.
    tag: Option<(Encoding, u16, u16)>,
    ethertype: u16,
    /// But for the trailer, or what looks like one.
    payload: Vec<u8>,
    /// Number, id and size, and suffix, right or wrong.
    trailer: Option<(u16, u16, u16)>,
}

impl Fields {
    fn random(random: &mut Random, length: usize) -> Fields {
        let mut fields = Fields {
            addresses: [0; 12],
            c_tag: random.once_in(2).then(|| random.number() & !1),
            tag: None,
            ethertype: random.pick(&[0x0800, 0x8101, 0xF1C0, 0x892E, 0x88FB, 0, 46, 0xFFFF]),
            payload: vec![0; length],
            trailer: None,
        };
        random.fill(&mut fields.addresses);
        random.fill(&mut fields.payload);
        fields
    }

    fn octets(&self) -> Vec<u8> {
        let mut octets = self.addresses.to_vec();
        let mut put =
            |numbers: &[u16]| octets.extend(numbers.iter().flat_map(|it| it.to_be_bytes()));
        if let Some(control) = self.c_tag {
            put(&[0x8100, control]);
        }
        if let Some((whose, bits, number)) = self.tag {
            put(&[if whose == Hsr { 0x892F } else { 0xF1C1 }, bits, number]);
        }
        put(&[self.ethertype]);
        octets.extend(&self.payload);
        let trailer = self.trailer.into_iter().flat_map(|(a, b, c)| [a, b, c]);
        octets.extend(trailer.flat_map(u16::to_be_bytes));
        octets
    }

    fn payload_at(&self) -> usize {
        14 + self.c_tag.map_or(0, |_| 4) + self.tag.map_or(0, |_| 6)
    }

    /// The octets after the last type.
    fn size(&self) -> u16 {
        self.payload.len() as u16 + self.trailer.map_or(0, |_| 6)
    }

    /// What a stream of an encoding reads: a number and an id.
    fn sequence(&self, encoding: Encoding) -> Option<(u16, u8)> {
        match (encoding, self.tag, self.trailer) {
            (RTag, Some((RTag, _, number)), _) => Some((number, 0)),
            (Hsr, Some((Hsr, bits, number)), _) => Some((number, (bits / 4_096) as u8)),
            (Prp, _, Some((number, bits, 0x88FB))) if bits % 4_096 == self.size() => {
                Some((number, (bits / 4_096) as u8))
            }
            _ => None,
        }
    }

    fn header(&self, encoding: Encoding) -> Header {
        let sequence = self.sequence(encoding);
        Header {
            destination: self.addresses[..6].try_into().unwrap(),
            source: self.addresses[6..].try_into().unwrap(),
            has_c_tag: self.c_tag.is_some(),
            vlan: self.c_tag.map_or(0, |control| control % 4_096),
            number: sequence.map(|(number, _)| number),
            path_id: sequence.map_or(0, |(_, id)| id),
            ethertype: self.ethertype,
            payload_at: self.payload_at(),
        }
    }

    fn put_in(&self, encoding: Encoding, number: u16, id: u8) -> Result<Vec<u8>, u8> {
        let (id, size) = (u16::from(id), self.size() + 6);
        let mut fields = self.clone();
        match encoding {
            Prp => {
                // One more trailer may stand behind what is there.
                fields.payload = self.octets().split_off(self.payload_at());
                fields.trailer = Some((number, id * 4_096 + size, 0x88FB));
            }
            _ if self.tag.is_some() => return Err(6),
            RTag => fields.tag = Some((RTag, 0, number)),
            Hsr => fields.tag = Some((Hsr, id * 4_096 + size, number)),
        }
        Ok(fields.octets())
    }

    fn taken_off(&self, encoding: Encoding) -> Result<Vec<u8>, u8> {
        let mut fields = self.clone();
        match encoding {
            _ if self.sequence(encoding).is_none() => return Err(9),
            Prp => fields.trailer = None,
            RTag | Hsr => fields.tag = None,
        }
        Ok(fields.octets())
    }
}

/// What stands at the end of a payload of so many octets in all: a trailer, and what is nearly one.
fn trailers(number: u16, id: u16, size: u16) -> [(u16, u16, u16); 13] {
    let shared = id << 12;
    [
        (number, shared | size, 0x88FB),
        (number, shared | (size - 1), 0x88FB),
        (number, shared | (size + 1), 0x88FB),
        (number, shared | (size - 6), 0x88FB),
        (number, shared | (size + 6), 0x88FB),
        (number, shared | size | 0x800, 0x88FB),
        (number, size << 4 | id, 0x88FB),
        (number, size.swap_bytes() | id, 0x88FB),
        (number, shared | size, 0xFB88),
        (number, shared | size, 0x88FA),
        (number, shared | size, 0x89FB),
        (number, shared | size, 0x892F),
        (0x88FB, shared | size, number),
    ]
}

/// With and without a C-TAG; no tag, an R-TAG and an HSR tag; no trailer, one, and nearly one.
fn mixtures(random: &mut Random, length: usize) -> Vec<Fields> {
    let mut all = Vec::new();
    let size = length as u16 + 6;
    for c_tag in [None, Some(0xE005)] {
        for tag in [None, Some(RTag), Some(Hsr)] {
            let tag = tag.map(|whose| (whose, random.number(), random.number()));
            let trailers = trailers(random.number(), random.number() % 16, size);
            for trailer in [None].into_iter().chain(trailers.map(Some)) {
                all.push(Fields { c_tag, tag, trailer, ..Fields::random(random, length) });
            }
        }
    }
    all
}

/// Every mixture, read, put in and taken off in every encoding, as its fields say.
#[test]
fn every_mixture_of_tags_and_trailers() {
    let mut random = Random::new(SEED);
    let mut cases = 0;
    for length in [0, 1, 2, 5, 6, 7, 40, 250, 1_400] {
        for fields in mixtures(&mut random, length) {
            let frame = fields.octets();
            for encoding in Encoding::ALL {
                let header = read_in(encoding, &frame);
                assert_eq!(header, Ok(fields.header(encoding)), "{encoding:?} of {fields:?}");
                for id in [0, 1, 10, 15] {
                    let number = random.number();
                    let put_in = fields.put_in(encoding, number, id);
                    cases += writes(&put_in, |out| insert_in(encoding, &frame, number, id, out));
                }
                let taken_off = fields.taken_off(encoding);
                cases += 1 + writes(&taken_off, |out| remove_in(encoding, &frame, out));
            }
        }
    }
    report("mixtures of tags and trailers", cases);
}

/// "Put in, then taken off, gives the first frame", and in between it reads as the first one but for
/// number, id and where the payload starts.
#[test]
fn put_in_then_taken_off() {
    let mut random = Random::new(SEED + 1);
    let mut cases = 0;
    for _ in 0..500 {
        let length = if random.once_in(2) { random.below(40) } else { random.below(1_470) };
        let start = random.below(5) as usize;
        for fields in mixtures(&mut random, length as usize).iter().skip(start).step_by(5) {
            let frame = fields.octets();
            for encoding in Encoding::ALL {
                let (number, id) = (random.number(), random.below(16) as u8);
                let (mut there, mut back) = ([0; 1_522], [0; 1_522]);
                let Ok(length) = insert_in(encoding, &frame, number, id, &mut there) else {
                    assert!(encoding != Prp && fields.tag.is_some(), "{encoding:?} of {fields:?}");
                    continue;
                };
                let header = Header {
                    number: Some(number),
                    path_id: if encoding == RTag { 0 } else { id },
                    payload_at: fields.payload_at() + if encoding == Prp { 0 } else { 6 },
                    ..fields.header(encoding)
                };
                assert_eq!(read_in(encoding, &there[..length]), Ok(header));
                // To a stream of another encoding it is what it was, but for where the payload starts.
                for other in Encoding::ALL {
                    if other != encoding {
                        let payload_at = header.payload_at;
                        let header = Header { payload_at, ..fields.header(other) };
                        assert_eq!(read_in(other, &there[..length]), Ok(header));
                    }
                }
                let length = remove_in(encoding, &there[..length], &mut back).unwrap();
                assert_eq!(back[..length], frame, "{encoding:?}");
                cases += 1;
            }
        }
    }
    report("put in, then taken off, in three encodings", cases);
}

/// Taken off, then put in with the same number and id, it is the first frame where what is not read
/// was written so: reserved octets of zero, and the size of an HSR tag. A trailer's size is read.
#[test]
fn taken_off_then_put_in() {
    let mut random = Random::new(SEED + 2);
    let (mut same, mut other) = ([0; 3], [0; 3]);
    for _ in 0..6_000 {
        let length = random.below(300) as usize;
        let (number, id) = (random.number(), random.below(16) as u8);
        let fields = Fields::random(&mut random, length);
        let (encoding, size) = (random.pick(&Encoding::ALL), fields.size() + 6);
        let wrong = if random.once_in(2) { 0 } else { random.number() % 4_096 };
        let shared = u16::from(id) << 12 | size;
        let fields = match encoding {
            RTag => Fields { tag: Some((RTag, wrong, number)), ..fields },
            Hsr => Fields { tag: Some((Hsr, shared ^ wrong, number)), ..fields },
            Prp => Fields { trailer: Some((number, shared, 0x88FB)), ..fields },
        };
        let frame = fields.octets();
        let (mut one, mut two) = ([0; 400], [0; 400]);
        let header = read_in(encoding, &frame).unwrap();
        assert_eq!(header.number, Some(number), "{fields:?}");
        let length = remove_in(encoding, &frame, &mut one).unwrap();
        let length = insert_in(encoding, &one[..length], number, header.path_id, &mut two).unwrap();
        let is_same = two[..length] == frame;
        assert_eq!(is_same, wrong == 0 || encoding == Prp, "{fields:?}");
        (if is_same { &mut same } else { &mut other })[encoding as usize] += 1;
    }
    assert!(same.iter().all(|&times| times > 500) && other[..2].iter().all(|&times| times > 500));
    report("taken off, then put in, in three encodings", 6_000);
}

/// A tag and a trailer in one frame: each is there for its own stream, and goes without the other.
#[test]
fn a_tag_and_trailers_together() {
    let bare = [&ADDRESSES[..], &C_TAG, &[0x88, 0xB5, 1, 2, 3]].concat();
    let add = |encoding, frame: &[u8], number| {
        let mut out = vec![0; frame.len() + 6];
        assert_eq!(insert_in(encoding, frame, number, 9, &mut out), Ok(out.len()));
        out
    };
    let take = |encoding, frame: &[u8]| {
        let mut out = vec![0; frame.len() - 6];
        assert_eq!(remove_in(encoding, frame, &mut out), Ok(out.len()));
        out
    };
    for tag in [RTag, Hsr] {
        let tagged = add(tag, &bare, 1);
        let both = add(Prp, &tagged, 2);
        let id = if tag == RTag { 0 } else { 9 };
        // The other way round it is the same frame, but for the size of an HSR tag, which counts what
        // is there when it is put in.
        let mut other_way = add(tag, &add(Prp, &bare, 2), 1);
        if tag == Hsr {
            assert_eq!((&both[18..20], &other_way[18..20]), (&[0x90, 9][..], &[0x90, 15][..]));
            other_way[19] = 9;
        }
        assert_eq!(both, other_way);
        assert_eq!(number_and_id(tag, &both), Ok((Some(1), id)));
        assert_eq!(number_and_id(Prp, &both), Ok((Some(2), 9)));
        assert_eq!(take(Prp, &both), tagged);
        assert_eq!(number_and_id(Prp, &take(tag, &both)), Ok((Some(2), 9)));
        assert_eq!(take(Prp, &take(tag, &both)), bare);
        // One trailer behind another: the last one is read, and the first again without it.
        let twice = add(Prp, &both, 3);
        assert_eq!(number_and_id(Prp, &twice), Ok((Some(3), 9)));
        assert_eq!(take(Prp, &twice), both);
    }
}

/// "Size counts the octets after the last type, the six added ones included", from 6 to 1,508.
#[test]
fn the_size_of_every_payload() {
    let mut cases = 0;
    for tags in [&[][..], &C_TAG, &[0xF1, 0xC1, 0, 0, 0, 1], &[0x89, 0x2F, 0, 0, 0, 1]] {
        let head = [&ADDRESSES, tags, &[0x08, 0x00]].concat();
        for length in 0..=1_516 - head.len() {
            let frame = [&head[..], &vec![0x88; length]].concat();
            let [high, low] = (length as u16 + 6).to_be_bytes();
            let mut out = [0; 1_522];
            let end = frame.len() + 6;
            assert_eq!(insert_in(Prp, &frame, 0x0304, 5, &mut out), Ok(end));
            assert_eq!(out[frame.len()..end], [3, 4, 0x50 | high, low, 0x88, 0xFB]);
            assert_eq!(number_and_id(Prp, &out[..end]), Ok((Some(0x0304), 5)), "{length}");
            cases += 2;
            if tags.len() < 6 {
                let at = 12 + tags.len();
                assert_eq!(insert_in(Hsr, &frame, 0x0304, 5, &mut out), Ok(end));
                assert_eq!(out[at..at + 6], [0x89, 0x2F, 0x50 | high, low, 3, 4], "{length}");
                cases += 1;
            }
        }
    }
    report("sizes of payloads", cases);
}

/// "The HSR size is written but not compared on reading": every one, with every id.
#[test]
fn the_size_of_a_tag_is_not_compared() {
    let bare = [&ADDRESSES[..], &[0x08, 0x00, 1, 2, 3]].concat();
    for bits in 0..=u16::MAX {
        let [high, low] = bits.to_be_bytes();
        let tag = [0x89, 0x2F, high, low, 0xAB, 0xCD];
        let frame = [&ADDRESSES[..], &tag, &bare[12..]].concat();
        assert_eq!(number_and_id(Hsr, &frame), Ok((Some(0xABCD), high >> 4)), "{bits:04X}");
        let mut out = [0; 17];
        assert_eq!(remove_in(Hsr, &frame, &mut out), Ok(17));
        assert_eq!(out[..], bare);
        // And an R-TAG's reserved octets are neither size nor id.
        let tag = [0xF1, 0xC1, high, low, 0xAB, 0xCD];
        let frame = [&ADDRESSES[..], &tag, &bare[12..]].concat();
        assert_eq!(number_and_id(RTag, &frame), Ok((Some(0xABCD), 0)), "{bits:04X}");
        assert_eq!(number_and_id(Hsr, &frame), Ok((None, 0)), "{bits:04X}");
    }
    report("sizes of tags", 4 * 65_536);
}

/// Of all sizes a trailer's is the payload's own, of all suffixes 88FB; any other is no number, and
/// nothing to take off.
#[test]
fn one_size_and_one_suffix() {
    let behind_type = |length: usize| [&ADDRESSES[..], &[0x08, 0x00], &vec![7; length]].concat();
    for length in [0, 1, 5, 6, 250, 251, 1_502] {
        let mut frame = behind_type(length + 6);
        let at = frame.len() - 6;
        for bits in 0..=u16::MAX {
            let [high, low] = bits.to_be_bytes();
            frame[at..].copy_from_slice(&[0xAB, 0xCD, high, low, 0x88, 0xFB]);
            let is_one = usize::from(bits % 4_096) == length + 6;
            let expected = if is_one { (Some(0xABCD), high >> 4) } else { (None, 0) };
            assert_eq!(number_and_id(Prp, &frame), Ok(expected), "{bits:04X} at {length}");
        }
    }
    let mut frame = behind_type(9);
    for suffix in 0..=u16::MAX {
        let [high, low] = suffix.to_be_bytes();
        frame[17..].copy_from_slice(&[0xAB, 0xCD, 0xA0, 9, high, low]);
        let (number, removed) = match suffix {
            0x88FB => ((Some(0xABCD), 10), Ok(17)),
            _ => ((None, 0), Err(9)),
        };
        assert_eq!(number_and_id(Prp, &frame), Ok(number), "{suffix:04X}");
        assert_eq!(remove_in(Prp, &frame, &mut [0; 17]), removed, "{suffix:04X}");
    }
    report("sizes and suffixes of trailers", 9 * 65_536);
}

/// "A PRP payload under 6 octets": what looks like a trailer there has octets of the header in it. A
/// tag in front is no part of the payload.
#[test]
fn no_trailer_in_a_short_payload() {
    let trailer = |size| [1, 2, 0xA0, size, 0x88, 0xFB];
    for tag in [&[][..], &C_TAG, &[0xF1, 0xC1, 0, 0, 9, 9], &[0x89, 0x2F, 0x10, 6, 9, 9]] {
        for length in 0..=5 {
            for size in 0..=24 {
                // The type's octets are the trailer's where the payload is too short for it.
                let whole = [&[8, 1][..], &trailer(size)].concat();
                let behind = &whole[whole.len() - 2 - length..];
                let frame = [&ADDRESSES, tag, behind].concat();
                assert_eq!(payload(&frame).len(), length, "{frame:02X?}");
                assert_eq!(number_and_id(Prp, &frame), Ok((None, 0)), "{frame:02X?}");
                assert_eq!(remove_in(Prp, &frame, &mut [0; 40]), Err(9), "{frame:02X?}");
            }
        }
        for size in 0..=24 {
            let frame = [&ADDRESSES, tag, &[8, 1], &trailer(size)].concat();
            let expected = if size == 6 { (Some(258), 10) } else { (None, 0) };
            assert_eq!(number_and_id(Prp, &frame), Ok(expected), "{frame:02X?}");
        }
    }
}

/// "A path or LAN id over 15 is refusal 37." The R-TAG has none, but the plain version's call.
#[test]
fn every_id() {
    let bare = [&ADDRESSES[..], &[0x08, 0x00, 1]].concat();
    for id in 0..=u8::MAX {
        for encoding in [Hsr, Prp] {
            let mut out = [0xA5; 30];
            let answer = insert_in(encoding, &bare, 258, id, &mut out);
            if id > 15 {
                assert_eq!((answer, out), (Err(37), [0xA5; 30]), "{encoding:?} {id}");
            } else {
                assert_eq!(answer, Ok(21), "{encoding:?} {id}");
                assert_eq!(number_and_id(encoding, &out[..21]), Ok((Some(258), id)));
            }
        }
        let answer = plain::frame::insert_in(RTag, &bare, 258, id, &mut [0; 30]);
        assert_eq!(answer, if id > 15 { Err(37) } else { Ok(21) });
    }
}

/// "37, after 5 and before 6"; then 6, but for PRP, 7 and 8. And of removal 9, then 8.
#[test]
fn refusals_stand_in_order() {
    let framed = |tags: &[u8], length: usize| {
        let mut frame = [&ADDRESSES, tags, &[8, 0]].concat();
        frame.resize(length, 0);
        frame
    };
    let refused_by_reading = [
        (framed(&[], 13), 1),
        (framed(&[], 1_523), 2),
        (framed(&[0x89, 0x2F, 0, 6, 0, 1], 19), 3),
        (framed(&[0xF1, 0xC1, 0, 0, 0, 1, 0x89, 0x2F], 40), 4),
        (framed(&[0x81, 0, 0x0F, 0xFF], 40), 5),
    ];
    for (frame, refusal) in refused_by_reading {
        for encoding in Encoding::ALL {
            assert_eq!(read_in(encoding, &frame), Err(refusal));
            writes(&Err(refusal), |out| remove_in(encoding, &frame, out));
            for id in [0, 15, 16, 255] {
                if encoding != RTag || id < 16 {
                    writes(&Err(refusal), |out| insert_in(encoding, &frame, 1, id, out));
                }
                let answer = plain::frame::insert_in(encoding, &frame, 1, id, &mut []);
                assert_eq!(answer, Err(refusal));
            }
        }
    }
    for tag in [[0xF1, 0xC1, 0, 0, 0, 1], [0x89, 0x2F, 0, 6, 0, 1]] {
        for (frame, over) in [(framed(&tag, 1_516), false), (framed(&tag, 1_517), true)] {
            for encoding in [Hsr, Prp] {
                writes(&Err(37), |out| insert_in(encoding, &frame, 1, 16, out));
            }
            writes(&Err(6), |out| insert_in(RTag, &frame, 1, 0, out));
            writes(&Err(6), |out| insert_in(Hsr, &frame, 1, 15, out));
            let room_for_all = if over { Err(7) } else { Ok(1_522) };
            assert_eq!(insert_in(Prp, &frame, 1, 15, &mut [0; 1_522]), room_for_all);
            let none = if over { Err(7) } else { Err(8) };
            assert_eq!(insert_in(Prp, &frame, 1, 15, &mut []), none);
            let other = if tag[0] == 0xF1 { Hsr } else { RTag };
            writes(&Err(9), |out| remove_in(other, &frame, out));
            writes(&Err(9), |out| remove_in(Prp, &frame, out));
        }
    }
    let bare = framed(&[], 1_517);
    for encoding in Encoding::ALL {
        writes(&Err(7), |out| insert_in(encoding, &bare, 1, 15, out));
        writes(&Err(9), |out| remove_in(encoding, &bare, out));
        assert_eq!(insert_in(encoding, &bare[..1_516], 1, 15, &mut [0; 1_521]), Err(8));
    }
    for encoding in [Hsr, Prp] {
        writes(&Err(37), |out| insert_in(encoding, &bare, 1, 16, out));
        writes(&Err(37), |out| insert_in(encoding, &bare[..40], 1, 16, out));
    }
}

/// For every stream alike 892F is a tag: type and payload stand behind it, whatever reads it.
#[test]
fn both_tags_are_tags_for_every_stream() {
    for c_tag in [&[][..], &C_TAG] {
        for tag in [[0xF1, 0xC1, 0xA0, 7, 1, 2], [0x89, 0x2F, 0xA0, 7, 1, 2]] {
            let frame = [&ADDRESSES, c_tag, &tag, &[0x88, 0xB5, 9]].concat();
            for encoding in Encoding::ALL {
                let header = read_in(encoding, &frame).unwrap();
                let own = [RTag, Hsr][usize::from(tag[0] == 0x89)] == encoding;
                let at = (header.ethertype, header.payload_at, header.number.is_some());
                assert_eq!(at, (0x88B5, 20 + c_tag.len(), own), "{encoding:?} {frame:02X?}");
                let removed = if own { Ok(frame.len() - 6) } else { Err(9) };
                assert_eq!(remove_in(encoding, &frame, &mut [0; 40]), removed);
                let inserted = if encoding == Prp { Ok(frame.len() + 6) } else { Err(6) };
                assert_eq!(insert_in(encoding, &frame, 1, 1, &mut [0; 40]), inserted);
            }
            assert_eq!(payload(&frame), [9]);
        }
        // Behind a C-TAG, and there alone, a tag's type is one; and other types are none.
        for other in [[0x89, 0x2E], [0x2F, 0x89], [0x89, 0xC1], [0xF1, 0x2F], [0x88, 0xFB]] {
            let frame = [&ADDRESSES, c_tag, &other, &[0xA0, 7, 1, 2, 0x88, 0xB5, 9]].concat();
            for encoding in Encoding::ALL {
                let header = read_in(encoding, &frame).unwrap();
                assert_eq!(header.ethertype.to_be_bytes(), other);
                assert_eq!((header.payload_at, header.number), (14 + c_tag.len(), None));
            }
        }
    }
}
