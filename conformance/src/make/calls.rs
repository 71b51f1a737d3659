//! Cuts a body into calls.

use super::rng::Rng;
use crate::reader::body::Body;
use crate::reader::calls::{Call, Lent};

/// A length of a portion: none, one byte, a few, or up to all that is left.
fn any_length(rng: &mut Rng, left: usize) -> usize {
    let length = match rng.below(8) {
        0 => 0,
        1 | 2 => 1,
        3 | 4 => rng.index(12),
        5 | 6 => rng.index(200),
        _ => rng.index(left + 1),
    };
    length.min(left)
}

/// A portion whose output is long enough, mostly by nothing.
fn roomy(rng: &mut Rng, bytes: &[u8]) -> Call {
    let spare = if rng.once_in(3) { rng.index(5) } else { 0 };
    Call::Portion { bytes: bytes.to_vec(), room: bytes.len() * 2 + spare }
}

/// The same portion with too little room, if it can have too little.
fn cramped(rng: &mut Rng, bytes: &[u8]) -> Option<Call> {
    let room = if rng.once_in(2) { bytes.len() * 2 } else { rng.index(bytes.len() * 2 + 1) };
    let short = Call::Portion { bytes: bytes.to_vec(), room: room.saturating_sub(1) };
    (!bytes.is_empty()).then_some(short)
}

/// Portions that bring all of the bytes, with closings and cramped portions
/// between them.
fn portions(rng: &mut Rng, mut bytes: &[u8], calls: &mut Vec<Call>) {
    while !bytes.is_empty() {
        let (head, tail) = bytes.split_at(any_length(rng, bytes.len()));
        if rng.once_in(12) {
            calls.extend(cramped(rng, head));
        }
        calls.push(roomy(rng, head));
        if rng.once_in(12) {
            calls.push(Call::Close);
        }
        bytes = tail;
    }
    if rng.once_in(4) {
        calls.push(roomy(rng, &[]));
    }
}

/// The calls of a body cut at random; the last one closes.
pub fn cut(rng: &mut Rng, body: &Body) -> Vec<Call> {
    let mut calls = Vec::new();
    for block in &body.blocks {
        portions(rng, block, &mut calls);
        calls.push(Call::BlockEnd);
        if rng.once_in(4) {
            calls.push(Call::Close);
        }
    }
    portions(rng, &body.rest, &mut calls);
    calls.push(Call::Close);
    calls
}

/// The calls of a body with each block as one portion.
pub fn in_one(body: &Body) -> Vec<Call> {
    let portion = |bytes: &Vec<u8>| Call::Portion { bytes: bytes.clone(), room: bytes.len() * 2 };
    let ended = body.blocks.iter().flat_map(|block| [portion(block), Call::BlockEnd]);
    ended.chain([portion(&body.rest), Call::Close]).collect()
}

/// The calls on a body of traces, each lent its header block. Between them the next
/// call is put with another block: one that is too short, or one of the others.
pub fn lend(rng: &mut Rng, block: &[u8], others: &[Vec<u8>], calls: &[Call]) -> Vec<Lent> {
    let with = |block: &[u8], call: &Call| Lent { block: block.to_vec(), call: call.clone() };
    let mut lent = Vec::new();
    for call in calls {
        match rng.below(30) {
            0 => lent.push(with(&block[..rng.index(block.len())], call)),
            1 | 2 => lent.push(with(&others[rng.index(others.len())], call)),
            _ => {}
        }
        lent.push(with(block, call));
    }
    lent
}
