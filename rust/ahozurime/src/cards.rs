//! The charge cards of a payload: flush orders, raw codes and millivolts, up to an end.
//!
//! A card is its kind and its number, big-endian: [`KIND_FLUSH_ORDER`] and 4 octets,
//! [`KIND_RAW_CODE`] or [`KIND_MILLIVOLTS`] and 2. The end is [`KIND_END`], whatever follows it, or no
//! octet left.
//!
//! ```
//! use ahozurime::cards::{self, Calibration, Card, Reading};
//! use ahozurime::{Blocks, Millivolts, RawCode, Refusal, Volts};
//!
//! let payload = [0x10, 0, 0, 0, 4, 0x11, 0, 10, 0x12, 0x0F, 0xA0, 0x00];
//! let cards = cards::walk(&payload).collect::<Result<Vec<_>, _>>()?;
//! assert_eq!(
//!     cards,
//!     [
//!         Card::FlushOrder(Blocks(4)),
//!         Card::RawCode(RawCode(10)),
//!         Card::Millivolts(Millivolts(4_000)),
//!     ]
//! );
//!
//! let calibration = Calibration { gain: 0.25, offset: 0.5 };
//! let readings = cards::readings(&payload, calibration).collect::<Result<Vec<_>, _>>()?;
//! assert_eq!(
//!     readings,
//!     [
//!         Reading::NotAReading,
//!         Reading::FromRawCode(Volts(3.0)),
//!         Reading::FromMillivolts(Volts(4.0)),
//!     ]
//! );
//! # Ok::<(), Refusal>(())
//! ```

use crate::{raw, Blocks, Millivolts, RawCode, Refusal, Volts};
use ahozurime_sys as sys;

/// The octet that ends the cards.
pub const KIND_END: u8 = sys::AHZ_CARD_END;
/// The first octet of a flush order; 4 octets of blocks asked follow.
pub const KIND_FLUSH_ORDER: u8 = sys::AHZ_CARD_FLUSH_ORDER;
/// The first octet of a raw code; its 2 octets follow.
pub const KIND_RAW_CODE: u8 = sys::AHZ_CARD_RAW_CODE;
/// The first octet of a card of millivolts; their 2 octets follow.
pub const KIND_MILLIVOLTS: u8 = sys::AHZ_CARD_MILLIVOLTS;

/// Octets of a flush order, its kind among them.
pub const FLUSH_ORDER_OCTETS: usize = sys::AHZ_FLUSH_ORDER_OCTETS;
/// Octets of a raw code, its kind among them.
pub const RAW_CODE_OCTETS: usize = sys::AHZ_RAW_CODE_OCTETS;
/// Octets of a card of millivolts, its kind among them.
pub const MILLIVOLTS_OCTETS: usize = sys::AHZ_MILLIVOLTS_OCTETS;

/// What stands next in a payload.
#[derive(Clone, Copy, Debug, PartialEq, Eq, Hash)]
pub enum Card {
    /// An order to flush so many blocks.
    FlushOrder(Blocks),
    /// A charge as the gauge reads it.
    RawCode(RawCode),
    /// A charge in millivolts.
    Millivolts(Millivolts),
    /// No card: a 00, or no octet left.
    End,
}

/// How raw codes become volts: raw x gain + offset.
#[derive(Clone, Copy, Debug, PartialEq)]
pub struct Calibration {
    /// Volts for each step of the raw code: above 0, up to 1.
    pub gain: f64,
    /// Volts at raw code 0: -100 to 100.
    pub offset: f64,
}

/// The volts of a card, and what they come from.
#[derive(Clone, Copy, Debug, PartialEq)]
pub enum Reading {
    /// Raw x gain + offset, rounded after each operation.
    FromRawCode(Volts),
    /// Millivolts / 1000.
    FromMillivolts(Volts),
    /// A flush order or an end, which has no volts.
    NotAReading,
}

/// What stands next in the payload.
///
/// # Errors
///
/// In this order: 20 its kind, [`Refusal::CARD_KIND`]; 21 it is cut, [`Refusal::CARD_CUT`].
#[inline]
pub fn next(payload: &[u8]) -> Result<Card, Refusal> {
    let mut value = 0;
    match raw::card(payload, &mut value) {
        sys::AHZ_FLUSH_ORDER => Ok(Card::FlushOrder(Blocks(value))),
        // The value of these two is two octets of the payload: below 2^16.
        sys::AHZ_RAW_CODE => Ok(Card::RawCode(RawCode(value as u16))),
        sys::AHZ_MILLIVOLTS => Ok(Card::Millivolts(Millivolts(value as u16))),
        sys::AHZ_END => Ok(Card::End),
        refusal => Err(Refusal::from_number(refusal)),
    }
}

/// The next card as a part of the payload, its kind first: the first octets. It is empty at an end or
/// where [`next`] refuses the card.
#[must_use]
#[inline]
pub fn part(payload: &[u8]) -> &[u8] {
    &payload[..raw::card_octets(payload)]
}

/// What comes after the next card: the last octets of the payload. It is empty at an end or where
/// [`next`] refuses the card.
#[must_use]
#[inline]
pub fn rest(payload: &[u8]) -> &[u8] {
    &payload[payload.len() - raw::rest_octets(payload)..]
}

/// The volts of the next card.
///
/// # Errors
///
/// In this order: 22 the calibration is out of range, whatever the card, [`Refusal::CALIBRATION`]; 20,
/// 21 as [`next`].
#[inline]
pub fn volts(payload: &[u8], calibration: Calibration) -> Result<Reading, Refusal> {
    let mut volts = 0.0;
    match raw::volts(payload, calibration.gain, calibration.offset, &mut volts) {
        sys::AHZ_FROM_RAW_CODE => Ok(Reading::FromRawCode(Volts(volts))),
        sys::AHZ_FROM_MILLIVOLTS => Ok(Reading::FromMillivolts(Volts(volts))),
        sys::AHZ_NOT_A_READING => Ok(Reading::NotAReading),
        refusal => Err(Refusal::from_number(refusal)),
    }
}

/// The cards of the payload, one after another. A refusal is the last item; an end is none.
#[inline]
pub fn walk(payload: &[u8]) -> Walk<'_> {
    Walk { rest: payload }
}

/// The cards of a payload, from [`walk`].
#[derive(Clone, Debug)]
#[must_use]
pub struct Walk<'a> {
    rest: &'a [u8],
}

impl<'a> Walk<'a> {
    /// What comes after the cards so far.
    #[must_use]
    #[inline]
    pub fn rest(&self) -> &'a [u8] {
        self.rest
    }
}

impl Iterator for Walk<'_> {
    type Item = Result<Card, Refusal>;

    #[inline]
    fn next(&mut self) -> Option<Self::Item> {
        let card = next(self.rest);
        // Empty at an end and at a refusal, and an empty payload is an end.
        self.rest = rest(self.rest);
        (card != Ok(Card::End)).then_some(card)
    }
}

impl core::iter::FusedIterator for Walk<'_> {}

/// The volts of each card of the payload, one after another, as [`volts`] has them. A refusal is the
/// last item; an end is none.
#[inline]
pub fn readings(payload: &[u8], calibration: Calibration) -> Readings<'_> {
    Readings { rest: Some(payload), calibration }
}

/// The volts of a payload's cards, from [`readings`].
#[derive(Clone, Debug)]
#[must_use]
pub struct Readings<'a> {
    /// None behind an end or a refusal.
    rest: Option<&'a [u8]>,
    calibration: Calibration,
}

impl Iterator for Readings<'_> {
    type Item = Result<Reading, Refusal>;

    #[inline]
    fn next(&mut self) -> Option<Self::Item> {
        let payload = self.rest.take()?;
        let reading = volts(payload, self.calibration);
        if reading.is_ok() {
            if part(payload).is_empty() {
                return None;
            }
            self.rest = Some(rest(payload));
        }
        Some(reading)
    }
}

impl core::iter::FusedIterator for Readings<'_> {}
