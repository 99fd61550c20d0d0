//! What the proved link layer is held against.
//!
//! `plain` is a second version of every call, written from document 01, from the requests of document
//! 02 that have landed, and from their sources, and from nothing else but for the division of IEEE
//! 802.3, as it is commonly known and held to published values. The proved layer is called in two
//! ways: by the package `ahozurime`, as programs do, and by `guarded`, which has every raw call of
//! the archive but for its version, and watches over what is lent to it. `words` has what the plain
//! version's records are at that border, and `layers` every call, asked of all three. `division` has
//! a frame's check as the standard defines it, which all three are held against.

pub mod division;
pub mod guarded;
pub mod layers;
pub mod plain;
pub mod random;
pub mod words;
