//! Ahozurime, a proved IEEE 802.1CB link layer: frames sent twice, numbered, and one of the two kept,
//! with charge cards in the same frames.
//!
//! Every decision is made by the proved layer in the archive; this package packs what it is handed
//! and unpacks what the layer answers. No call panics or allocates, whatever it is handed: it answers,
//! or it refuses by a [`Refusal`], and then no state and no lent octet has changed.
//!
//! | module | what it does |
//! |---|---|
//! | [`frame`] | a frame read; its payload; its number put in and taken off, in any of three encodings |
//! | [`fcs`] | the frame check sequence checked, taken off and appended |
//! | [`streams`] | a stream table checked; a frame's stream looked up |
//! | [`recovery`] | numbers generated; a recovery state and its steps |
//! | [`cards`] | the charge cards of a payload, and their volts |
//! | [`tape`] | a bench tape run |
//!
//! Units are types of their own, such as [`Milliseconds`] and [`Ticks`], and one in the place of
//! another does not compile.
//!
//! # From a frame to its cards
//!
//! What a receiver does with each frame: find its stream, let the state of that stream decide, take
//! the tag off, and read the cards. Here the numbers stand in R-TAGs. For a stream of HSR tags or PRP
//! trailers it is the same with the calls of [`frame`] whose names end in `_hsr` or `_prp`.
//!
//! ```
//! use ahozurime::cards::{self, Calibration, Card, Reading};
//! use ahozurime::recovery::{Generator, Rule, Setup, State, Usage, Verdict};
//! use ahozurime::{frame, streams, Blocks, Milliseconds, Refusal, TicksPerSecond, Volts};
//!
//! /// The frame without its tag, in `out`: none where it belongs to no stream or is a repeat.
//! fn receive<'a>(
//!     table: &[u8],
//!     states: &mut [State],
//!     octets: &[u8],
//!     out: &'a mut [u8; frame::LONGEST],
//! ) -> Result<Option<&'a [u8]>, Refusal> {
//!     let Some(handle) = streams::lookup(table, octets)? else { return Ok(None) };
//!     let Some(state) = states.get_mut(usize::from(handle.0)) else { return Ok(None) };
//!     let header = frame::read(octets)?;
//!     // A frame without an R-TAG has no number, and is heard as one that has none.
//!     if state.hear(header.number)? == Verdict::Discard {
//!         return Ok(None);
//!     }
//!     let length = match header.number {
//!         Some(_) => frame::remove(octets, out)?,
//!         None => {
//!             out[..octets.len()].copy_from_slice(octets);
//!             octets.len()
//!         }
//!     };
//!     Ok(Some(&out[..length]))
//! }
//!
//! // One stream, to 02-00-00-00-00-01 in any VLAN, with the handle 0.
//! let table = [streams::KIND_DESTINATION, 2, 0, 0, 0, 0, 1, streams::CHOICE_ALL, 0, 0, 0, 0];
//! let setup = Setup {
//!     rule: Rule::Vector,
//!     take_tagless: false,
//!     usage: Usage::Sequence,
//!     history: 16,
//!     timeout: Milliseconds(100),
//!     rate: TicksPerSecond(1_000),
//!     paths: 2,
//!     difference: 1,
//! };
//! let mut states = [State::fresh(&setup)?];
//!
//! // The sender: addresses and type, a flush order of 4 blocks, a raw code of 10, the end; then the
//! // tag.
//! let mut bare = vec![2, 0, 0, 0, 0, 1, 2, 0, 0, 0, 0, 9, 0x88, 0xB5];
//! bare.extend([cards::KIND_FLUSH_ORDER, 0, 0, 0, 4]);
//! bare.extend([cards::KIND_RAW_CODE, 0, 10]);
//! bare.push(cards::KIND_END);
//! let mut generator = Generator::fresh();
//! let mut sent = [0; frame::LONGEST];
//! let length = frame::insert(&bare, generator.generate(), &mut sent)?;
//! let sent = &sent[..length];
//!
//! // Both paths bring it: the first arrival is kept, the second is a repeat.
//! let mut out = [0; frame::LONGEST];
//! let kept = receive(&table, &mut states, sent, &mut out)?.expect("the first arrival");
//! assert_eq!(kept, bare);
//! let calibration = Calibration { gain: 0.25, offset: 0.5 };
//! let mut walk = cards::walk(frame::payload(kept));
//! assert_eq!(walk.next(), Some(Ok(Card::FlushOrder(Blocks(4)))));
//! assert_eq!(cards::volts(walk.rest(), calibration)?, Reading::FromRawCode(Volts(3.0)));
//! assert_eq!(receive(&table, &mut states, sent, &mut out)?, None);
//! assert_eq!((states[0].counters().passed, states[0].counters().discarded), (1, 1));
//!
//! // Without its tag it has no number, and this setup takes no such packet.
//! assert_eq!(receive(&table, &mut states, &bare, &mut out)?, None);
//! assert_eq!(states[0].counters().tagless, 1);
//! # Ok::<(), Refusal>(())
//! ```
//!
//! # Linking
//!
//! The package `ahozurime-sys` links the archive `libahozurime.a` and says where it looks for it. The
//! archive has no variables: calls may run in several threads, and in an interrupt that breaks into
//! another call. It needs `memcpy` and `memset` from outside, which Rust brings, on bare metal too. Of
//! stack the archive takes at most [`STACK`] octets in a call, in those of [`fcs`] [`fcs::STACK`], and
//! in [`tape::run`] [`tape::STACK`]; what `memcpy`, `memset` and this package's own functions take
//! comes on top.
//! [`cards::volts`] assumes that doubles are rounded to nearest and that subnormal numbers are not
//! taken for zero, as Rust does.

#![no_std]
#![deny(missing_docs, unsafe_code)]

pub mod cards;
pub mod fcs;
pub mod frame;
#[allow(unsafe_code)]
mod raw;
pub mod recovery;
mod refusal;
pub mod streams;
pub mod tape;
mod units;
mod version;

pub use refusal::Refusal;
pub use units::{Blocks, Milliseconds, Millivolts, RawCode, Ticks, TicksPerSecond, Volts};
pub use version::{version, Version};

/// Octets of stack that are enough for the archive in every call but [`tape::run`] and those of [`fcs`].
pub const STACK: usize = ahozurime_sys::AHZ_STACK;
