//! Every raw call of the archive, each with what it is lent inside larger buffers.
//!
//! A call takes what is to be lent and gives back the answer and what its outputs hold afterwards.
//! Whatever the answer, this is held after each call: nothing before or behind what was lent has
//! changed; no input has; on a refusal no output has; and of an output that is longer than what is
//! written to it, the later part has not. What was written is for the caller to look at.
//!
//! A read outside of what was lent leaves no trace, nor does an input that is written back as it was.
//! Both end the program where the calls run `within` fences.

#[cfg(target_os = "linux")]
mod fenced;

use crate::plain::encoding::Encoding;
use crate::words::{SetupNumbers, HEADER, HEADER_WITH_ID, STATE};
use ahozurime_sys as sys;
use std::cell::Cell;
use std::fmt::Debug;
use std::hint::black_box;
use std::sync::LazyLock;

/// How many octets lie before and behind a lent part: more than the longest frame, so that a whole
/// result that is written where it has no room is seen, and nothing else is written over.
const OCTETS: usize = 1_600;
/// How many words lie before and behind lent words.
const WORDS: usize = 32;
/// How many numbers lie before and behind a lent one.
const NUMBERS: usize = 8;

/// The same for the output of a tape: no octet of a tape prints more than 13, and the last line has
/// at most 265.
fn octets_of_a_tape(tape: &[u8]) -> usize {
    13 * tape.len().min(4_096) + 265
}

/// What lies there. No two neighbours are alike, and no number is a small one.
fn canary(place: usize) -> u64 {
    (place as u64 + 1).wrapping_mul(0x9E37_79B9_7F4A_7C15) | 0x8080_8080_8080_8080
}

trait Number: Copy + PartialEq + Debug + 'static {
    fn canaries() -> &'static [Self];
}

macro_rules! numbers {
    ($($number:ty)*) => {
        $(impl Number for $number {
            fn canaries() -> &'static [$number] {
                static CANARIES: LazyLock<Vec<$number>> =
                    LazyLock::new(|| (0..65_536).map(|place| canary(place) as $number).collect());
                &CANARIES
            }
        })*
    };
}

numbers! { u8 u16 u32 u64 usize }

thread_local! {
    /// How many parts this thread has lent.
    static TURN: Cell<usize> = const { Cell::new(0) };
    /// The fence of every part that this thread lends.
    static FENCE: Cell<Option<Fence>> = const { Cell::new(None) };
}

/// On which side of a lent part nothing may be touched.
#[derive(Clone, Copy)]
pub enum Fence {
    Before,
    Behind,
}

/// Runs calls with everything that they are lent at the very edge of memory, before or behind which
/// nothing may be touched, and with inputs in memory that may only be read.
#[cfg(target_os = "linux")]
pub fn within(fence: Fence, calls: impl FnOnce()) {
    FENCE.set(Some(fence));
    calls();
    FENCE.set(None);
}

enum Memory<T> {
    Heap(Vec<T>),
    #[cfg(target_os = "linux")]
    Fenced(fenced::Fenced<T>),
}

impl<T: Copy> Memory<T> {
    #[cfg_attr(not(target_os = "linux"), allow(unused_variables))]
    fn holding(whole: Vec<T>, may_write: bool) -> Memory<T> {
        match FENCE.get() {
            #[cfg(target_os = "linux")]
            Some(fence) => Memory::Fenced(fenced::Fenced::holding(&whole, fence, may_write)),
            _ => Memory::Heap(whole),
        }
    }
}

/// A part of a larger buffer, which is lent to a call. From turn to turn it starts one place further
/// on, so that octets lie at every alignment; at a fence nothing of the buffer lies on that side of it.
struct Lent<T> {
    whole: Memory<T>,
    start: usize,
    end: usize,
}

impl<T: Number> Lent<T> {
    fn input(part: &[T], margin: usize) -> Lent<T> {
        Lent::of(part, margin, false)
    }

    fn output(part: &[T], margin: usize) -> Lent<T> {
        Lent::of(part, margin, true)
    }

    fn of(part: &[T], margin: usize, may_write: bool) -> Lent<T> {
        let (before, behind) = match FENCE.get() {
            Some(Fence::Before) => (0, margin),
            Some(Fence::Behind) => (margin, 0),
            None => (margin + TURN.replace(TURN.get() + 1) % 16, margin),
        };
        let mut whole = Vec::with_capacity(before + part.len() + behind);
        whole.extend_from_slice(&T::canaries()[..before]);
        whole.extend_from_slice(part);
        whole.extend_from_slice(&T::canaries()[..behind]);
        let whole = Memory::holding(whole, may_write);
        Lent { whole, start: before, end: before + part.len() }
    }

    /// Where the part starts. A wrong call may write anywhere around it, so the pointer is one into
    /// the whole, and the compiler is not to know where it came from.
    fn at(&mut self) -> *mut T {
        let whole = match &mut self.whole {
            Memory::Heap(whole) => whole.as_mut_ptr(),
            #[cfg(target_os = "linux")]
            Memory::Fenced(whole) => whole.at,
        };
        black_box(whole.wrapping_add(self.start))
    }

    fn whole(&self) -> &[T] {
        match &self.whole {
            Memory::Heap(whole) => black_box(whole),
            // Safety: so many numbers lie there, which are written to by calls alone.
            #[cfg(target_os = "linux")]
            Memory::Fenced(whole) => unsafe { std::slice::from_raw_parts(whole.at, whole.length) },
        }
    }

    /// What the part holds after a call, and nothing around it has changed.
    fn part(&self, what: &str) -> &[T] {
        let (before, rest) = self.whole().split_at(self.start);
        let (part, behind) = rest.split_at(self.end - self.start);
        assert!(before == &T::canaries()[..before.len()], "{what} was written to before its start");
        assert!(behind == &T::canaries()[..behind.len()], "{what} was written to behind its end");
        part
    }

    /// An input: its part, too, is what it was.
    fn stayed(&self, was: &[T], what: &str) {
        assert!(self.part(what) == was, "{what} was changed");
    }

    /// An output that may have been written to up to a length: not at all on a refusal, and never
    /// from there on.
    fn written(&self, was: &[T], answer: u8, up_to: usize, what: &str) -> Vec<T> {
        let part = self.part(what);
        let up_to = if is_refusal(answer) { 0 } else { up_to.min(was.len()) };
        assert!(part[up_to..] == was[up_to..], "{what} was changed from {up_to} on at {answer}");
        part.to_vec()
    }
}

fn is_refusal(answer: u8) -> bool {
    (1..100).contains(&answer)
}

// Safety of each call below: a pointer comes with the length of the part that it points to, which
// lies in a buffer of its own; one without a length points to one number.

/// The answer and the header's words, of which only the R-TAG's lack an id.
pub fn read(encoding: Encoding, frame: &[u8], header: &[u64]) -> (u8, Vec<u64>) {
    type Read = unsafe extern "C" fn(*const u8, usize, *mut u64, usize) -> u8;
    let (call, count): (Read, usize) = match encoding {
        Encoding::RTag => (sys::ahz_read, HEADER),
        Encoding::Hsr => (sys::ahz_read_hsr, HEADER_WITH_ID),
        Encoding::Prp => (sys::ahz_read_prp, HEADER_WITH_ID),
    };
    let mut lent = Lent::input(frame, OCTETS);
    let mut words = Lent::output(header, WORDS);
    let answer = unsafe { call(lent.at(), frame.len(), words.at(), header.len()) };
    lent.stayed(frame, "the frame");
    (answer, words.written(header, answer, count, "the header"))
}

pub fn payload(frame: &[u8]) -> usize {
    let mut lent = Lent::input(frame, OCTETS);
    let answer = unsafe { sys::ahz_payload(lent.at(), frame.len()) };
    lent.stayed(frame, "the frame");
    answer
}

/// A call that writes a result behind a length to an output; its answer, the output and the length.
fn writes(
    input: &[u8],
    out: &[u8],
    length: usize,
    margin: usize,
    call: impl FnOnce(*const u8, *mut u8, *mut usize) -> u8,
) -> (u8, Vec<u8>, usize) {
    let mut lent = Lent::input(input, OCTETS);
    let mut output = Lent::output(out, margin);
    let mut told = Lent::output(&[length], NUMBERS);
    let answer = call(lent.at(), output.at(), told.at());
    lent.stayed(input, "the input");
    let told = told.written(&[length], answer, 1, "the length")[0];
    (answer, output.written(out, answer, told, "the output"), told)
}

/// The answer, the output and the length. The R-TAG has no id.
pub fn insert(
    encoding: Encoding,
    frame: &[u8],
    number: u16,
    id: u8,
    out: &[u8],
    length: usize,
) -> (u8, Vec<u8>, usize) {
    let (octets, room) = (frame.len(), out.len());
    writes(frame, out, length, OCTETS, |at, output, told| unsafe {
        match encoding {
            Encoding::RTag => sys::ahz_insert(at, octets, number, output, room, told),
            Encoding::Hsr => sys::ahz_insert_hsr(at, octets, number, id, output, room, told),
            Encoding::Prp => sys::ahz_insert_prp(at, octets, number, id, output, room, told),
        }
    })
}

/// The answer, the output and the length.
pub fn remove(encoding: Encoding, frame: &[u8], out: &[u8], length: usize) -> (u8, Vec<u8>, usize) {
    let (octets, room) = (frame.len(), out.len());
    writes(frame, out, length, OCTETS, |at, output, told| unsafe {
        match encoding {
            Encoding::RTag => sys::ahz_remove(at, octets, output, room, told),
            Encoding::Hsr => sys::ahz_remove_hsr(at, octets, output, room, told),
            Encoding::Prp => sys::ahz_remove_prp(at, octets, output, room, told),
        }
    })
}

pub fn crc32(octets: &[u8]) -> u32 {
    let mut lent = Lent::input(octets, OCTETS);
    let answer = unsafe { sys::ahz_crc32(lent.at(), octets.len()) };
    lent.stayed(octets, "the input");
    answer
}

pub fn check_fcs(frame: &[u8]) -> u8 {
    let mut lent = Lent::input(frame, OCTETS);
    let answer = unsafe { sys::ahz_check_fcs(lent.at(), frame.len()) };
    lent.stayed(frame, "the frame");
    answer
}

pub fn without_fcs(frame: &[u8]) -> usize {
    let mut lent = Lent::input(frame, OCTETS);
    let answer = unsafe { sys::ahz_without_fcs(lent.at(), frame.len()) };
    lent.stayed(frame, "the frame");
    answer
}

/// The answer, the output and the length.
pub fn append_fcs(frame: &[u8], out: &[u8], length: usize) -> (u8, Vec<u8>, usize) {
    writes(frame, out, length, OCTETS, |at, output, told| unsafe {
        sys::ahz_append_fcs(at, frame.len(), output, out.len(), told)
    })
}

/// The answer, the output and the length.
pub fn tape(tape: &[u8], out: &[u8], length: usize) -> (u8, Vec<u8>, usize) {
    writes(tape, out, length, octets_of_a_tape(tape), |at, output, told| unsafe {
        sys::ahz_tape_v3(at, tape.len(), output, out.len(), told)
    })
}

pub fn check_table(table: &[u8]) -> u8 {
    let mut lent = Lent::input(table, OCTETS);
    let answer = unsafe { sys::ahz_check_table(lent.at(), table.len()) };
    lent.stayed(table, "the table");
    answer
}

/// The answer and the handle.
pub fn lookup(table: &[u8], frame: &[u8], handle: u16) -> (u8, u16) {
    let mut lent_table = Lent::input(table, OCTETS);
    let mut lent_frame = Lent::input(frame, OCTETS);
    let mut found = Lent::output(&[handle], NUMBERS);
    let answer = unsafe {
        sys::ahz_lookup(lent_table.at(), table.len(), lent_frame.at(), frame.len(), found.at())
    };
    lent_table.stayed(table, "the table");
    lent_frame.stayed(frame, "the frame");
    let up_to = usize::from(answer != sys::AHZ_NO_STREAM);
    (answer, found.written(&[handle], answer, up_to, "the handle")[0])
}

pub fn generator() -> u16 {
    unsafe { sys::ahz_generator() }
}

/// The number given, and the generator.
pub fn generate(generator: u16) -> (u16, u16) {
    let mut lent = Lent::output(&[generator], NUMBERS);
    let number = unsafe { sys::ahz_generate(lent.at()) };
    (number, lent.part("the generator")[0])
}

/// The generator.
pub fn generator_reset(generator: u16) -> u16 {
    let mut lent = Lent::output(&[generator], NUMBERS);
    unsafe { sys::ahz_generator_reset(lent.at()) };
    lent.part("the generator")[0]
}

pub fn ticks(milliseconds: u32, rate: u16) -> u64 {
    unsafe { sys::ahz_ticks(black_box(milliseconds), black_box(rate)) }
}

pub fn check_setup(setup: SetupNumbers) -> u8 {
    let (rule, taken, usage, history, ms, rate, paths, difference) = setup;
    unsafe { sys::ahz_check_setup_v2(rule, taken, usage, history, ms, rate, paths, difference) }
}

/// A call on lent words; its answer and the words.
fn steps(state: &[u64], call: impl FnOnce(*mut u64) -> u8) -> (u8, Vec<u64>) {
    let mut lent = Lent::output(state, WORDS);
    let answer = call(lent.at());
    (answer, lent.written(state, answer, STATE, "the state"))
}

/// The answer and the state's words.
pub fn fresh(setup: SetupNumbers, state: &[u64]) -> (u8, Vec<u64>) {
    let (rule, taken, usage, history, ms, rate, paths, difference) = setup;
    let words = state.len();
    steps(state, |at| unsafe {
        sys::ahz_fresh_v4(rule, taken, usage, history, ms, rate, paths, difference, at, words)
    })
}

/// The answer and the state's words.
pub fn numbered(state: &[u64], number: u16) -> (u8, Vec<u64>) {
    steps(state, |at| unsafe { sys::ahz_numbered(at, state.len(), number) })
}

/// The answer and the state's words.
pub fn tagless(state: &[u64]) -> (u8, Vec<u64>) {
    steps(state, |at| unsafe { sys::ahz_tagless(at, state.len()) })
}

/// The answer and the state's words.
pub fn tick(state: &[u64]) -> (u8, Vec<u64>) {
    steps(state, |at| unsafe { sys::ahz_tick(at, state.len()) })
}

/// The answer and the state's words.
pub fn reset(state: &[u64]) -> (u8, Vec<u64>) {
    steps(state, |at| unsafe { sys::ahz_reset(at, state.len()) })
}

/// The answer and the state's words.
pub fn latent_reset(state: &[u64]) -> (u8, Vec<u64>) {
    steps(state, |at| unsafe { sys::ahz_latent_reset(at, state.len()) })
}

pub fn latent_test(state: &[u64]) -> u8 {
    let mut lent = Lent::input(state, WORDS);
    let answer = unsafe { sys::ahz_latent_test(lent.at(), state.len()) };
    lent.stayed(state, "the state");
    answer
}

/// The answer and the value.
pub fn card(payload: &[u8], value: u32) -> (u8, u32) {
    let mut lent = Lent::input(payload, OCTETS);
    let mut told = Lent::output(&[value], NUMBERS);
    let answer = unsafe { sys::ahz_card(lent.at(), payload.len(), told.at()) };
    lent.stayed(payload, "the payload");
    let up_to = usize::from(answer != sys::AHZ_END);
    (answer, told.written(&[value], answer, up_to, "the value")[0])
}

pub fn card_octets(payload: &[u8]) -> usize {
    let mut lent = Lent::input(payload, OCTETS);
    let answer = unsafe { sys::ahz_card_octets(lent.at(), payload.len()) };
    lent.stayed(payload, "the payload");
    answer
}

pub fn rest_octets(payload: &[u8]) -> usize {
    let mut lent = Lent::input(payload, OCTETS);
    let answer = unsafe { sys::ahz_rest_octets(lent.at(), payload.len()) };
    lent.stayed(payload, "the payload");
    answer
}

/// The answer and the volts, which are lent and given back as their bits.
pub fn volts(payload: &[u8], gain: f64, offset: f64, volts: u64) -> (u8, u64) {
    let mut lent = Lent::input(payload, OCTETS);
    let mut told = Lent::output(&[volts], NUMBERS);
    let answer =
        unsafe { sys::ahz_volts(lent.at(), payload.len(), gain, offset, told.at().cast::<f64>()) };
    lent.stayed(payload, "the payload");
    let up_to = usize::from(answer != sys::AHZ_NOT_A_READING);
    (answer, told.written(&[volts], answer, up_to, "the volts")[0])
}
