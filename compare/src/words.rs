//! The plain version's records and answers as the numbers and words of `include/ahozurime.h`, field
//! by field in the header's order.

use crate::plain::frame::Header;
use crate::plain::recovery::{Counters, Setup, State};

pub const HEADER: usize = 8;
/// With a path or LAN id, which comes last.
pub const HEADER_WITH_ID: usize = 9;
pub const STATE: usize = 31;

/// "AHZ" and 4.
pub const FORMAT: u64 = 0x4148_5A04;

/// A setup's eight numbers.
pub type SetupNumbers = (u8, u8, u8, u16, u32, u16, u8, u32);

pub fn of_setup(setup: &Setup) -> SetupNumbers {
    let Setup { rule, taken, usage, history, timeout, ticks_per_second, paths, difference } =
        *setup;
    (rule, taken, usage, history, timeout.0, ticks_per_second, paths, difference)
}

fn address(octets: [u8; 6]) -> u64 {
    octets.iter().fold(0, |address, &octet| address * 256 + u64::from(octet))
}

pub fn of_header(header: &Header) -> [u64; HEADER] {
    [
        address(header.destination),
        address(header.source),
        header.has_c_tag.into(),
        header.vlan.into(),
        header.number.is_some().into(),
        header.number.unwrap_or(0).into(),
        header.ethertype.into(),
        header.payload_at as u64,
    ]
}

pub fn of_header_with_id(header: &Header) -> [u64; HEADER_WITH_ID] {
    let mut words = [header.path_id.into(); HEADER_WITH_ID];
    words[..HEADER].copy_from_slice(&of_header(header));
    words
}

pub fn of_state(state: &State) -> [u64; STATE] {
    let (rule, taken, usage, history, timeout, ticks_per_second, paths, difference) =
        of_setup(&state.setup);
    let Counters {
        passed,
        discarded,
        order,
        rogue,
        lost,
        tagless,
        resets,
        latent_resets,
        before_first,
    } = state.counters;
    let mut words = [0; STATE];
    words[..10].copy_from_slice(&[
        FORMAT,
        rule.into(),
        taken.into(),
        usage.into(),
        history.into(),
        timeout.into(),
        ticks_per_second.into(),
        paths.into(),
        difference.into(),
        state.newest.into(),
    ]);
    words[10..18].copy_from_slice(&state.marks.0);
    words[18..].copy_from_slice(&[
        state.first.map_or(0, |mark| u64::from(mark) + 1),
        state.take_any.into(),
        state.ticks_left.0,
        passed,
        discarded,
        order,
        rogue,
        lost,
        tagless,
        resets,
        latent_resets,
        before_first,
        state.base as u64,
    ]);
    words
}
