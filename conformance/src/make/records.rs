//! Long records: sizes and changes that records drawn at random never have.

use super::bodies::even_body;
use super::headers::{header, plain, set, Plan};
use super::rng::Rng;
use super::traces::even_traces;
use crate::reader::body::Body;

/// A header block and its body.
pub type Record = (Vec<u8>, Body);

fn record(rng: &mut Rng, plan: &Plan, scans: usize) -> Record {
    let block = header(rng, plan);
    (block, even_body(rng, plan, scans))
}

/// A shot of 90 s at 2 ms: T starts again after 65,536 ms.
pub fn long_shot(rng: &mut Rng, code: u16, channels: u32) -> Record {
    record(rng, &plain(code, vec![vec![set(channels, 0)]]), 45_000)
}

/// The paper's example 6: twelve channels at half a millisecond, and from
/// halfway on 48 at 2 ms. Its sets of six channels cannot be in 0015.
pub fn switched_interval(rng: &mut Rng, code: u16, scans: usize) -> Record {
    let first = vec![set(4, 0), set(6, 2), set(6, 2)];
    let second = vec![set(4, 0), set(48, 0), set(0, 0)];
    record(rng, &plain(code, vec![first, second]), scans)
}

/// The paper's E9, with the sets of its E2: blocks of 173 x 2^2 scans, which are
/// of 378 bytes in 0015.
pub fn large_blocks(rng: &mut Rng, code: u16, blocks: usize) -> Record {
    let gapless = plain(code, vec![vec![set(4, 0), set(96, 0), set(12, 2)]]);
    let plan = Plan { block_exponent: 2, block_scans: 173, ..gapless };
    record(rng, &plan, blocks * 173 * 4)
}

/// Scans of 999,999 bytes, the longest there can be. Their skew is too long to be
/// recorded.
pub fn longest_scans(rng: &mut Rng, scans: usize) -> Record {
    let recorded = plain(0x0022, vec![vec![set(1_953, 9), set(55, 0)]]);
    record(rng, &Plan { skew_fields: 0, ..recorded }, scans)
}

/// Two traces of a demultiplexed record, of so many samples each and of twice as many.
pub fn long_trace(rng: &mut Rng, code: u16, samples: usize) -> Record {
    let plan = plain(code, vec![vec![set(1, 0), set(1, 1)]]);
    let block = header(rng, &plan);
    let body = even_traces(rng, &plan, &block, &[samples]);
    (block, body)
}

/// The paper's example 6, demultiplexed: so many scans of each scan type.
pub fn switched_traces(rng: &mut Rng, code: u16, scans: usize) -> Record {
    let first = vec![set(4, 0), set(6, 2), set(6, 2)];
    let second = vec![set(4, 0), set(48, 0), set(0, 0)];
    let plan = plain(code, vec![first, second]);
    let block = header(rng, &plan);
    let body = even_traces(rng, &plan, &block, &[scans, 2 * scans]);
    (block, body)
}
