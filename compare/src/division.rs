//! The check of a frame as clause 3.2.9 of IEEE 802.3 defines it, by a long division: for the tests
//! alone, and far too slow for anything else.
//!
//! A polynomial is the list of its coefficients, that of the highest power first, which is the order
//! in which bits are sent. There is no table, no register and no word of 32 bits here: nothing is
//! shared with `plain`, and no trick either.

/// The powers in G(x).
const GENERATOR: [usize; 15] = [32, 26, 23, 22, 16, 12, 11, 10, 8, 7, 5, 4, 2, 1, 0];

/// Clause 3.3: of each octet the low bit is sent first.
fn bits_of(octets: &[u8]) -> Vec<bool> {
    octets.iter().flat_map(|octet| (0..8).map(move |bit| octet >> bit & 1 == 1)).collect()
}

fn octet_of(bits: &[bool]) -> u8 {
    bits.iter().rev().fold(0, |octet, &bit| octet * 2 + u8::from(bit))
}

/// What G(x) leaves of a dividend, which has 32 coefficients and more: it is taken off wherever the
/// highest of them is left.
fn remainder(mut dividend: Vec<bool>) -> Vec<bool> {
    let lowest = dividend.len() - 32;
    for at in 0..lowest {
        if dividend[at] {
            for power in GENERATOR {
                dividend[at + 32 - power] ^= true;
            }
        }
    }
    dividend.split_off(lowest)
}

/// The four octets that are sent behind a frame. The clause complements first and multiplies then,
/// which is the same for every frame. Where there are fewer than 32 bits, the zeros of x^32 are among
/// the first 32, as in every CRC-32.
pub fn check(frame: &[u8]) -> [u8; 4] {
    // c) M(x) is multiplied by x^32 ..
    let mut bits = bits_of(frame);
    bits.extend([false; 32]);
    // a) The first 32 bits are complemented.
    bits[..32].iter_mut().for_each(|bit| *bit = !*bit);
    // .. and divided by G(x). e) The remainder is complemented.
    let mut bits = remainder(bits);
    bits.iter_mut().for_each(|bit| *bit = !*bit);
    // The coefficient of x^31 is sent first.
    [0, 8, 16, 24].map(|at| octet_of(&bits[at..at + 8]))
}
