//! Bodies of scans, sound and damaged.

use super::headers::Plan;
use super::rng::Rng;
use crate::reader::body::Body;

const TWI: u8 = 0x40;
const ITB: u8 = 0x20;
const DP: u8 = 0x10;

/// Scans in a block, or nothing for a body of one block.
fn block_scans(plan: &Plan) -> Option<usize> {
    let scans = usize::from(plan.block_scans) << plan.block_exponent;
    (scans > 0).then_some(scans)
}

/// A number of scans that fills blocks and has room for every scan type.
fn any_scan_count(rng: &mut Rng, plan: &Plan) -> usize {
    let wanted = plan.scan_types.len() + rng.index(8);
    match block_scans(plan) {
        Some(scans) => wanted.div_ceil(scans) * scans,
        None => wanted,
    }
}

/// Which scans start a new scan type.
fn any_flips(rng: &mut Rng, plan: &Plan, scans: usize) -> Vec<bool> {
    let mut flips: Vec<bool> = (1..scans).map(|n| n < plan.scan_types.len()).collect();
    rng.shuffle(&mut flips);
    flips.insert(0, false);
    flips
}

/// A first T: any, nothing, or so late that it starts again within a few scans.
fn any_first_timing(rng: &mut Rng, plan: &Plan) -> u32 {
    match rng.below(4) {
        0 => 0,
        1 => rng.word() >> 8,
        _ => (1 << 24) - 16 * u32::from(plan.interval) * rng.range(1, 4),
    }
}

/// TWI and ITB of scan n: TWI never, from some scan on, or by draw; ITB by draw.
fn any_status(rng: &mut Rng, window: usize, n: usize) -> u8 {
    let twi = if n >= window || rng.once_in(40) { TWI } else { 0 };
    let itb = if rng.once_in(3) { ITB } else { 0 };
    twi | itb
}

/// The eight bytes before the samples.
fn start_of_scan(rng: &mut Rng, dynamic: bool, status: u8, timing: u32) -> Vec<u8> {
    let free = rng.byte() & 0x8C;
    let dp = if dynamic { DP } else { 0 };
    let mut bytes = vec![0xFF, 0xFF, 0xFF, free | status | dp | 1];
    bytes.extend(&timing.to_be_bytes()[1..]);
    bytes.push(0);
    bytes
}

/// Sample bytes: drawn, with many zeros, ones and start codes among them.
pub(super) fn any_sample_bytes(rng: &mut Rng, count: usize) -> Vec<u8> {
    let dense = rng.once_in(3);
    (0..count)
        .map(|_| match rng.below(if dense { 6 } else { 40 }) {
            0 => 0xFF,
            1 => 0x00,
            2 => 0x80,
            _ => rng.byte(),
        })
        .collect()
}

/// What is drawn or set of a sound body before its scans are.
struct Course {
    /// which scans start a new scan type; as many as there are scans
    flips: Vec<bool>,
    /// the first T
    first: u32,
    /// the scan from which on TWI is set
    window: usize,
}

fn any_course(rng: &mut Rng, plan: &Plan, count: usize) -> Course {
    let flips = any_flips(rng, plan, count);
    let first = any_first_timing(rng, plan);
    Course { flips, first, window: rng.index(count * 2) }
}

/// The scans of a sound body, one after the other.
fn scans(rng: &mut Rng, plan: &Plan, course: &Course) -> Vec<Vec<u8>> {
    let step = 16 * u64::from(plan.interval);
    let mut dynamic = false;
    (0..course.flips.len())
        .map(|n| {
            dynamic ^= course.flips[n];
            let timing = (u64::from(course.first) + n as u64 * step) % (1 << 24);
            let status = any_status(rng, course.window, n);
            let mut scan = start_of_scan(rng, dynamic, status, timing as u32);
            scan.extend(any_sample_bytes(rng, plan.bytes_per_scan() as usize - 8));
            scan
        })
        .collect()
}

/// The scans put into blocks as the plan has them.
fn in_blocks(plan: &Plan, scans: &[Vec<u8>]) -> Body {
    let per_block = block_scans(plan).unwrap_or(scans.len());
    Body { blocks: scans.chunks(per_block).map(|block| block.concat()).collect(), rest: vec![] }
}

/// A sound body of the plan. Meant for small plans.
pub fn sound_body(rng: &mut Rng, plan: &Plan) -> Body {
    let count = any_scan_count(rng, plan);
    let course = any_course(rng, plan, count);
    in_blocks(plan, &scans(rng, plan, &course))
}

/// A sound body of that many scans whose first T is 0 and whose scan types are
/// equally long. TWI is set from halfway on, and by draw before.
pub fn even_body(rng: &mut Rng, plan: &Plan, count: usize) -> Body {
    let each = count / plan.scan_types.len();
    let flips = (0..count).map(|n| n > 0 && n % each == 0).collect();
    let course = Course { flips, first: 0, window: count / 2 };
    in_blocks(plan, &scans(rng, plan, &course))
}

/// Changes a bit of one of the eight bytes before the samples of some scan.
fn flip_start_bit(rng: &mut Rng, plan: &Plan, block: &mut [u8]) {
    let scan = rng.index(block.len() / plan.bytes_per_scan() as usize);
    let place = scan * plan.bytes_per_scan() as usize + rng.index(8);
    block[place] ^= 1 << rng.below(8);
}

/// Turns DP over from some scan of the block on to the block's end.
fn extra_flip(rng: &mut Rng, plan: &Plan, block: &mut [u8]) {
    let length = plan.bytes_per_scan() as usize;
    let from = rng.index(block.len() / length);
    for scan in block.chunks_mut(length).skip(from) {
        scan[3] ^= DP;
    }
}

/// Leaves out, puts in or repeats a few bytes of a block.
pub(super) fn shift_bytes(rng: &mut Rng, block: &mut Vec<u8>) {
    let place = rng.index(block.len());
    match rng.below(3) {
        0 => drop(block.remove(place)),
        1 => block.insert(place, rng.byte()),
        _ => block.truncate(place),
    }
}

/// Repeats the first bytes of a scan's length, or leaves them out.
fn shift_scan(rng: &mut Rng, plan: &Plan, block: &mut Vec<u8>) {
    let length = plan.bytes_per_scan() as usize;
    if rng.once_in(2) {
        block.drain(..length);
    } else {
        block.extend_from_within(..length);
    }
}

/// Damage to the places of the block ends.
pub(super) fn move_ends(rng: &mut Rng, body: &mut Body) {
    let i = rng.index(body.blocks.len());
    match rng.below(5) {
        0 => body.blocks.insert(i, vec![]),
        1 => body.blocks.push(vec![]),
        2 => {
            let cut = rng.index(body.blocks[i].len() + 1);
            let tail = body.blocks[i].split_off(cut);
            body.blocks.insert(i + 1, tail);
        }
        3 => {
            let block = body.blocks.remove(i);
            let into = if i == 0 { 0 } else { i - 1 };
            match body.blocks.get_mut(into) {
                Some(other) => other.extend(block),
                None => body.rest = block,
            }
        }
        _ => body.rest = body.blocks.pop().unwrap_or_default(),
    }
}

/// A body that ends too soon or goes on after its end.
fn change_length(rng: &mut Rng, plan: &Plan, body: &mut Body) {
    let i = rng.index(body.blocks.len() + 1);
    match rng.below(4) {
        0 => body.blocks.truncate(i),
        1 => {
            body.rest = body.blocks.pop().unwrap_or_default();
            body.rest.truncate(rng.index(body.rest.len() + 1));
        }
        2 => body.rest = rng.bytes(3),
        _ => body.rest = vec![0xFF; rng.index(plan.bytes_per_scan() as usize)],
    }
}

/// Writes a random byte over one place of the body, if it has any.
pub(super) fn scribble(rng: &mut Rng, body: &mut Body) {
    let parts = body.blocks.iter_mut().chain([&mut body.rest]);
    let mut filled: Vec<&mut Vec<u8>> = parts.filter(|part| !part.is_empty()).collect();
    if !filled.is_empty() {
        let i = rng.index(filled.len());
        let place = rng.index(filled[i].len());
        filled[i][place] = rng.byte();
    }
}

/// A sound body with some damage, at times twice; it may happen to be none.
pub fn damaged_body(rng: &mut Rng, plan: &Plan) -> Body {
    let mut body = sound_body(rng, plan);
    let i = rng.index(body.blocks.len());
    match rng.below(7) {
        0 => flip_start_bit(rng, plan, &mut body.blocks[i]),
        1 => extra_flip(rng, plan, &mut body.blocks[i]),
        2 => shift_bytes(rng, &mut body.blocks[i]),
        3 => shift_scan(rng, plan, &mut body.blocks[i]),
        4 => move_ends(rng, &mut body),
        5 => change_length(rng, plan, &mut body),
        _ => scribble(rng, &mut body),
    }
    if rng.once_in(4) {
        scribble(rng, &mut body);
    }
    body
}
