//! "Charge cards": the cards in a payload, a calibration, and volts.

const END: u8 = 0x00;
const FLUSH_ORDER: u8 = 0x10;
const RAW_CODE: u8 = 0x11;
const MILLIVOLTS: u8 = 0x12;

/// What stands at the head of a payload.
#[derive(Clone, Copy, Debug, PartialEq, Eq)]
pub enum Card {
    /// An empty payload, or a 00 whatever follows it.
    End,
    /// Blocks asked.
    FlushOrder(u32),
    RawCode(u16),
    Millivolts(u16),
}

/// Gain and offset "together as doubles"; any values may be handed in.
#[derive(Clone, Copy, Debug, PartialEq)]
pub struct Calibration {
    pub gain: f64,
    pub offset: f64,
}

/// The answer of a reading. A raw code was once read as millivolts, so the two stay apart here too.
#[derive(Clone, Copy, Debug, PartialEq)]
pub enum Volts {
    FromRawCode(f64),
    FromMillivolts(f64),
    NotAReading,
}

impl Card {
    /// How many octets of the payload it takes, its kind octet among them; an end takes none.
    fn length(self) -> usize {
        match self {
            Card::End => 0,
            Card::FlushOrder(_) => 5,
            Card::RawCode(_) | Card::Millivolts(_) => 3,
        }
    }
}

/// The verdict on the next card: refuses 20, then 21.
#[inline]
pub fn next(payload: &[u8]) -> Result<Card, u8> {
    match *payload {
        [] | [END, ..] => Ok(Card::End),
        [FLUSH_ORDER, a, b, c, d, ..] => Ok(Card::FlushOrder(u32::from_be_bytes([a, b, c, d]))),
        [RAW_CODE, high, low, ..] => Ok(Card::RawCode(u16::from_be_bytes([high, low]))),
        [MILLIVOLTS, high, low, ..] => Ok(Card::Millivolts(u16::from_be_bytes([high, low]))),
        [FLUSH_ORDER | RAW_CODE | MILLIVOLTS, ..] => Err(21),
        _ => Err(20),
    }
}

/// The next card as a part of the payload, its kind octet first; empty on a refusal or end.
#[inline]
pub fn card(payload: &[u8]) -> &[u8] {
    match next(payload) {
        Ok(card) => &payload[..card.length()],
        Err(_) => &[],
    }
}

/// The part of the payload after the next card; empty on a refusal or end.
#[inline]
pub fn rest(payload: &[u8]) -> &[u8] {
    match next(payload) {
        Err(_) | Ok(Card::End) => &[],
        Ok(card) => &payload[card.length()..],
    }
}

impl Calibration {
    /// 0 < gain <= 1 and -100 <= offset <= 100, else 22. No comparison holds for a NaN.
    #[inline]
    pub fn check(self) -> Result<(), u8> {
        let gain = 0.0 < self.gain && self.gain <= 1.0;
        let offset = -100.0 <= self.offset && self.offset <= 100.0;
        if gain && offset {
            Ok(())
        } else {
            Err(22)
        }
    }
}

/// The volts of the next card: refuses 22, then 20, then 21. Raw x gain + offset is "rounded after
/// each operation", so no `mul_add`.
#[inline]
pub fn volts(payload: &[u8], calibration: Calibration) -> Result<Volts, u8> {
    calibration.check()?;
    match *payload {
        [RAW_CODE, high, low, ..] => {
            let raw = f64::from(u16::from_be_bytes([high, low]));
            Ok(Volts::FromRawCode(raw * calibration.gain + calibration.offset))
        }
        [MILLIVOLTS, high, low, ..] => {
            let millivolts = f64::from(u16::from_be_bytes([high, low]));
            Ok(Volts::FromMillivolts(millivolts / 1000.0))
        }
        // An end, a flush order or a refusal.
        _ => next(payload).map(|_| Volts::NotAReading),
    }
}
