//! Numbers to ask with: words, indices and sheets, in range and at its edges.

use super::headers::{sheet, Plan};
use super::rng::Rng;
use crate::reader::words::{letters, outer_bits};

/// A number near 0, near `limit`, anywhere up to it, or anywhere at all.
pub fn near(rng: &mut Rng, limit: u32) -> u32 {
    match rng.below(8) {
        0 => rng.range(0, 2),
        1 | 2 => limit.saturating_add(1).saturating_sub(rng.range(0, 2)),
        3 => rng.pick(&[u32::MAX, 1 << 31, 1 << 24, (1 << 24) - 1]),
        4 => rng.word(),
        _ => rng.range(0, limit),
    }
}

/// A word of some kind: drawn, all ones, one bit, or a run of ones.
fn any_bits(rng: &mut Rng, bits: u32) -> u32 {
    let full = u32::MAX >> (32 - bits);
    match rng.below(6) {
        0 => full,
        1 => 1 << rng.below(bits.into()),
        2 => full << rng.below(bits.into()) & full,
        3 => full >> rng.below(bits.into()),
        _ => rng.word() & full,
    }
}

/// An exponent and a word for one of the twelve codes, at times too wide.
pub fn any_word(rng: &mut Rng, code: u16) -> (u32, u32) {
    let c = rng.below(1 << outer_bits(code)) as u32;
    let word = any_bits(rng, letters(code).len() as u32);
    match rng.below(20) {
        0 => (near(rng, c), word),
        1 => (c, any_bits(rng, 32)),
        _ => (c, word),
    }
}

/// A crew's sheet, mostly of the right length for the plan.
pub fn any_sheet(rng: &mut Rng, plan: &Plan) -> Vec<u8> {
    let mut lent = sheet(rng, plan);
    match rng.below(8) {
        0 => lent.push(rng.byte()),
        1 => drop(lent.pop()),
        2 => lent.clear(),
        _ => {}
    }
    lent
}
