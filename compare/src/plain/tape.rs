//! "The bench tape": a tape of octets run against the layer, and the lines it prints.

use super::be16;
use super::recovery::{Counters, Milliseconds, Setup, State, Verdict};
use std::io::Write;

pub const LONGEST: usize = 4_096;

/// "latent reset" and its newline, which one octet asks for.
const LONGEST_LINE: usize = 13;
/// Nine counters of up to twenty digits with their names, or a fault.
const LAST_LINE: usize = 265;

const PACKET: u8 = 0x01;
const NO_NUMBER: u8 = 0x02;
const TICK: u8 = 0x03;
const RESET: u8 = 0x04;
const LATENT_RESET: u8 = 0x05;
const LATENT_TEST: u8 = 0x06;
const SETUP: u8 = 0x0F;

fn body_length(kind: u8) -> Option<usize> {
    match kind {
        PACKET => Some(2),
        NO_NUMBER..=LATENT_TEST => Some(0),
        SETUP => Some(16),
        _ => None,
    }
}

/// The lines of a tape, each with its newline. Never a refusal: a fault is a line, and the last
/// one.
pub fn lines(tape: &[u8]) -> Vec<u8> {
    let mut out = Vec::with_capacity(tape.len().min(LONGEST) * LONGEST_LINE + LAST_LINE);
    match play(tape, &mut out) {
        Ok(counters) => put_counters(&mut out, &counters),
        Err(number) => put(&mut out, format_args!("fault {number}")),
    }
    out
}

/// The lines written to a lent buffer, and their length. Refuses 8, and only 8, where the buffer is
/// shorter than the lines; it then stays as it was.
pub fn run(tape: &[u8], out: &mut [u8]) -> Result<usize, u8> {
    let lines = lines(tape);
    out.get_mut(..lines.len()).ok_or(8)?.copy_from_slice(&lines);
    Ok(lines.len())
}

fn put(out: &mut Vec<u8>, line: std::fmt::Arguments) {
    writeln!(out, "{line}").expect("a vector takes every octet");
}

/// Prints the events' lines up to the end or the first fault. "26 is checked before all else", then
/// 23, 24, 25 for each event; an empty tape has no setup.
fn play(tape: &[u8], out: &mut Vec<u8>) -> Result<Counters, u8> {
    if tape.len() > LONGEST {
        return Err(26);
    }
    let mut rest = tape;
    let mut state: Option<State> = None;
    while let Some((&kind, behind)) = rest.split_first() {
        let length = body_length(kind).ok_or(23)?;
        let (body, behind) = behind.split_at_checked(length).ok_or(24)?;
        match (kind, &mut state) {
            (SETUP, None) => {
                state = Some(State::fresh(setup(body))?);
                out.extend_from_slice(b"ok\n");
            }
            (SETUP, Some(_)) | (_, None) => return Err(25),
            (_, Some(state)) => event(state, kind, body, out),
        }
        rest = behind;
    }
    state.map(|state| state.counters).ok_or(25)
}

/// Rule 1, taken 1, use 1, H 2, ms 4, ticks 2, paths 1, difference 4.
fn setup(body: &[u8]) -> Setup {
    let be32 = |at| u32::from_be_bytes([body[at], body[at + 1], body[at + 2], body[at + 3]]);
    Setup {
        rule: body[0],
        taken: body[1],
        usage: body[2],
        history: be16(body, 3),
        timeout: Milliseconds(be32(5)),
        ticks_per_second: be16(body, 9),
        paths: body[11],
        difference: be32(12),
    }
}

/// One event after the setup, and its line. The state is the tape's own: fresh at first, so it is
/// sound and stays so, and no event looks at that again.
fn event(state: &mut State, kind: u8, body: &[u8], out: &mut Vec<u8>) {
    match kind {
        PACKET => put_verdict(out, state.hear(Some(be16(body, 0)))),
        NO_NUMBER => put_verdict(out, state.hear(None)),
        // "`reset` (04, and a tick that timed out)."
        TICK if !state.count_down() => out.extend_from_slice(b"tick\n"),
        TICK => out.extend_from_slice(b"reset\n"),
        RESET => {
            state.clear();
            out.extend_from_slice(b"reset\n");
        }
        LATENT_RESET => {
            state.rebase();
            out.extend_from_slice(b"latent reset\n");
        }
        _ if state.is_latent_error() => out.extend_from_slice(b"latent error\n"),
        _ => out.extend_from_slice(b"latent ok\n"),
    }
}

fn put_verdict(out: &mut Vec<u8>, verdict: Verdict) {
    match verdict {
        Verdict::Pass => out.extend_from_slice(b"pass\n"),
        Verdict::Discard => out.extend_from_slice(b"discard\n"),
    }
}

fn put_counters(out: &mut Vec<u8>, counters: &Counters) {
    let Counters {
        passed,
        discarded,
        order,
        rogue,
        lost,
        tagless,
        resets,
        latent_resets,
        before_first,
    } = counters;
    put(
        out,
        format_args!(
            "passed={passed} discarded={discarded} order={order} rogue={rogue} lost={lost} \
             tagless={tagless} resets={resets} latent-resets={latent_resets} \
             before-first={before_first}"
        ),
    );
}
