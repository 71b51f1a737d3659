//! Header blocks to ask about, and how to show them.

use super::Results;
use crate::make::headers::{damaged_header, header, small_plan, wide_plan, Plan};
use crate::make::questions::near;
use crate::make::rng::Rng;
use crate::reader::words::{in_table, CODES, TRACE_CODES};

/// The rows that a header may be turned away by. Row 3 is no longer one of them.
pub const HEADER_ROWS: [u8; 9] = [1, 2, 4, 5, 6, 7, 8, 9, 10];

/// Bytes of a block that are shown.
const SHOWN: usize = 1_024;

/// A block's bytes in hexadecimal; a long one is cut.
pub fn hex(bytes: &[u8]) -> String {
    let shown: String = bytes.iter().take(SHOWN).map(|byte| format!("{byte:02X}")).collect();
    let cut = if bytes.len() > SHOWN { ".." } else { "" };
    format!("{} bytes {shown}{cut}", bytes.len())
}

/// Mostly small, so that many are asked about; wide ones take a thousand times
/// as long.
fn any_plan(rng: &mut Rng, code: u16) -> Plan {
    if rng.once_in(1_500) {
        wide_plan(rng, code)
    } else {
        small_plan(rng, code)
    }
}

/// The start of one damaged block and the end of another: which refusal comes
/// first shows only where there is more than one.
fn damaged_twice(rng: &mut Rng, plan: &Plan) -> Vec<u8> {
    let mut block = damaged_header(rng, plan);
    let other = damaged_header(rng, plan);
    let most = block.len().min(other.len());
    let from = if rng.once_in(2) { most.min(32) } else { rng.index(most + 1) };
    block[from..most].copy_from_slice(&other[from..most]);
    block
}

/// A sound block with random bytes in its descriptors.
fn damaged_sets(rng: &mut Rng, plan: &Plan) -> Vec<u8> {
    let mut block = header(rng, plan);
    for _ in 0..rng.range(1, 3) {
        let place = 32 + rng.index(block.len() - 32);
        block[place] = rng.byte();
    }
    block
}

fn any_block(rng: &mut Rng, plan: &Plan) -> Vec<u8> {
    match rng.below(8) {
        0..=2 => header(rng, plan),
        3..=5 => damaged_header(rng, plan),
        6 => damaged_twice(rng, plan),
        _ => damaged_sets(rng, plan),
    }
}

/// The code that a block has, if it is one of the table's.
fn code_of(block: &[u8]) -> Option<u16> {
    let code = u16::from_be_bytes(*block.get(2..)?.first_chunk()?);
    in_table(code).then_some(code)
}

/// The code of the n-th input: each multiplexed code twice for each demultiplexed
/// one, which has the same header but for B.
fn code_in_turn(n: u64) -> u16 {
    let turns = [CODES, CODES, TRACE_CODES];
    turns[n as usize / 6 % turns.len()][n as usize % 6]
}

/// Draws blocks, sound and damaged, of each code in turn, and asks about each.
pub fn each_block(
    results: &mut Results,
    seed: u64,
    count: u64,
    mut ask: impl FnMut(&mut Rng, &Plan, &[u8]),
) {
    let mut rng = Rng::new(seed);
    for n in 0..count {
        let plan = any_plan(&mut rng, code_in_turn(n));
        let block = any_block(&mut rng, &plan);
        if let Some(code) = code_of(&block) {
            results.code(code, 1);
        }
        ask(&mut rng, &plan, &block);
    }
}

/// Numbers that count from 1 to ask with: all of them where they are few or by
/// draw, and one too many on either side; else some, mostly at the edges.
pub fn numbers(rng: &mut Rng, most: u32) -> Vec<u32> {
    if most <= 5 || rng.once_in(20) {
        return (0..=most + 1).collect();
    }
    (0..6).map(|_| near(rng, most)).collect()
}

/// A number that counts from 1, mostly one that is there.
pub fn any_number(rng: &mut Rng, most: u32) -> u32 {
    if most == 0 || rng.once_in(5) {
        near(rng, most)
    } else {
        rng.range(1, most)
    }
}
