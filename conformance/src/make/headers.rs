//! Header blocks, sound and damaged.

use super::rng::Rng;
use crate::reader::words::{is_demultiplexed, CODES, TRACE_CODES};

/// A channel set: its channels, none in a dummy set, and its exponent S/C.
#[derive(Clone, Copy, Debug, PartialEq, Eq)]
pub struct Set {
    pub channels: u32,
    pub exponent: u32,
}

impl Set {
    pub fn samples(&self) -> u32 {
        self.channels << self.exponent
    }
}

/// What a header is to say where it matters to the body. All else is drawn.
#[derive(Clone, Debug, PartialEq, Eq)]
pub struct Plan {
    pub code: u16,
    /// the sets of each scan type; all scan types have as many samples
    pub scan_types: Vec<Vec<Set>>,
    pub skew_fields: u32,
    pub extended_fields: u32,
    pub external_fields: u32,
    pub interval: u8,
    pub block_exponent: u8,
    pub block_scans: u8,
}

impl Plan {
    /// S/S
    pub fn samples(&self) -> u32 {
        self.scan_types[0].iter().map(Set::samples).sum()
    }

    /// B, as it is recorded: 0 in the codes 80xx
    pub fn bytes_per_scan(&self) -> u32 {
        if is_demultiplexed(self.code) {
            return 0;
        }
        8 + self.samples() * half_bytes(self.code) / 2
    }

    /// SK where it is recorded
    pub fn full_skew(&self) -> u32 {
        self.samples().div_ceil(32)
    }
}

/// I of a base scan interval of 2 ms, in 1/16 ms.
const TWO_MS: u8 = 32;

pub fn set(channels: u32, exponent: u32) -> Set {
    Set { channels, exponent }
}

/// A plan at 2 ms, with skew and without extras, as the paper's examples are.
/// Its body is one block.
pub fn plain(code: u16, scan_types: Vec<Vec<Set>>) -> Plan {
    let mut plan = Plan {
        code,
        scan_types,
        skew_fields: 0,
        extended_fields: 0,
        external_fields: 0,
        interval: TWO_MS,
        block_exponent: 0,
        block_scans: 0,
    };
    plan.skew_fields = plan.full_skew();
    plan
}

/// Twice the bytes of a sample of a multiplexed code.
fn half_bytes(code: u16) -> u32 {
    match code {
        0x0015 => 5,
        0x0022 | 0x0042 => 2,
        0x0024 | 0x0044 => 4,
        _ => 8,
    }
}

/// Channels come in fours in 0015, and not in 8015.
fn channel_unit(code: u16) -> u32 {
    if code == 0x0015 {
        4
    } else {
        1
    }
}

/// A set of at most `most` samples; a dummy set if there is no room or by draw.
fn any_set(rng: &mut Rng, code: u16, most: u32) -> Set {
    let unit = channel_unit(code);
    let exponent = if rng.once_in(2) { 0 } else { rng.range(0, 9) };
    let channels = (most >> exponent).min(9999) / unit;
    if channels == 0 || rng.once_in(6) {
        return Set { channels: 0, exponent };
    }
    Set { channels: unit * rng.range(1, channels), exponent }
}

/// Sets of one scan type, at most `most` samples together.
fn any_sets(rng: &mut Rng, code: u16, count: u32, most: u32) -> Vec<Set> {
    let mut left = most;
    let mut sets = Vec::new();
    for _ in 0..count {
        let set = any_set(rng, code, left);
        left -= set.samples();
        sets.push(set);
    }
    rng.shuffle(&mut sets);
    sets
}

/// Half the channels, each sampled twice as often, where that can be.
fn halve(set: &mut Set, unit: u32) {
    if set.exponent < 9 && set.channels.is_multiple_of(2 * unit) {
        *set = Set { channels: set.channels / 2, exponent: set.exponent + 1 };
    }
}

/// Moves some channels of one set into a dummy set, where there is one.
fn share(rng: &mut Rng, sets: &mut [Set], from: usize, unit: u32) {
    let dummy = sets.iter().position(|set| set.channels == 0);
    let units = sets[from].channels / unit;
    if let (Some(to), true) = (dummy, units > 1) {
        let moved = unit * rng.range(1, units - 1);
        sets[to] = Set { channels: moved, exponent: sets[from].exponent };
        sets[from].channels -= moved;
    }
}

/// Other sets with as many samples.
fn reshaped(rng: &mut Rng, code: u16, sets: &[Set]) -> Vec<Set> {
    let mut sets = sets.to_vec();
    for _ in 0..rng.below(4) {
        let i = rng.index(sets.len());
        halve(&mut sets[i], channel_unit(code));
        let i = rng.index(sets.len());
        share(rng, &mut sets, i, channel_unit(code));
    }
    rng.shuffle(&mut sets);
    sets
}

/// Scan types of `sets` channel sets, at most `most` samples in a scan.
fn any_scan_types(rng: &mut Rng, code: u16, count: u32, sets: u32, most: u32) -> Vec<Vec<Set>> {
    let first = any_sets(rng, code, sets, most);
    let mut scan_types = vec![first];
    for _ in 1..count {
        let next = reshaped(rng, code, &scan_types[0]);
        scan_types.push(next);
    }
    scan_types
}

/// A plan of the given size; skew recorded or not by draw, where SK can say it.
fn any_plan(rng: &mut Rng, code: u16, scan_types: u32, sets: u32, most: u32) -> Plan {
    let mut plan = Plan {
        code,
        scan_types: any_scan_types(rng, code, scan_types, sets, most),
        skew_fields: 0,
        extended_fields: if rng.once_in(2) { 0 } else { rng.range(0, 3) },
        external_fields: if rng.once_in(2) { 0 } else { rng.range(0, 3) },
        interval: 1 << rng.below(8),
        block_exponent: rng.below(3) as u8,
        block_scans: if rng.once_in(3) { 0 } else { rng.range(1, 3) as u8 },
    };
    if plan.full_skew() <= 99 && rng.once_in(2) {
        plan.skew_fields = plan.full_skew();
    }
    plan
}

/// A plan whose bodies are short, at times with very many scan types.
pub fn small_plan(rng: &mut Rng, code: u16) -> Plan {
    if rng.once_in(30) {
        return any_plan(rng, code, 99, 2, 12);
    }
    let scan_types = if rng.once_in(2) { 1 } else { rng.range(1, 4) };
    let sets = rng.range(1, 4);
    let most = rng.pick(&[0, 4, 12, 40, 80]);
    any_plan(rng, code, scan_types, sets, most)
}

/// A plan whose traces are few and short, at times with very many scan types.
pub fn trace_plan(rng: &mut Rng, code: u16) -> Plan {
    if rng.once_in(60) {
        return any_plan(rng, code, 99, 2, 2);
    }
    let scan_types = if rng.once_in(2) { 1 } else { rng.range(1, 4) };
    let sets = rng.range(1, 4);
    let most = rng.pick(&[0, 1, 4, 12, 12, 40]);
    any_plan(rng, code, scan_types, sets, most)
}

/// The most samples that a scan can have: those that B can count, and in the codes
/// 80xx, where nothing counts them, those of 99 sets of the greatest.
fn most_samples(code: u16) -> u32 {
    if is_demultiplexed(code) {
        99 * (9_999 << 9)
    } else {
        (999_999 - 8) * 2 / half_bytes(code)
    }
}

/// A plan with up to 99 scan types and sets and samples up to their limit. Its
/// blocks may have any length.
pub fn wide_plan(rng: &mut Rng, code: u16) -> Plan {
    let scan_types = rng.pick(&[1, 2, 9, 50, 99]);
    let sets = rng.pick(&[1, 3, 20, 99]);
    let most = rng.pick(&[100, 3_168, 10_000, most_samples(code)]);
    let mut plan = any_plan(rng, code, scan_types, sets, most);
    plan.extended_fields = rng.pick(&[0, 1, 99]);
    plan.external_fields = rng.pick(&[0, 1, 99]);
    plan.block_exponent = rng.range(0, 15) as u8;
    plan.block_scans = rng.byte();
    plan
}

/// A plan whose header is the longest that is listed, 65,536 bytes, or the least
/// that is too long for that: 23 scan types of 89 sets, and at times a field more.
pub fn largest_plan(rng: &mut Rng, code: u16) -> Plan {
    let plan = any_plan(rng, code, 23, 89, 12);
    Plan { skew_fields: 0, extended_fields: rng.range(0, 1), external_fields: 0, ..plan }
}

/// One of the six multiplexed codes.
pub fn any_code(rng: &mut Rng) -> u16 {
    rng.pick(&CODES)
}

/// One of the six demultiplexed codes.
pub fn any_trace_code(rng: &mut Rng) -> u16 {
    rng.pick(&TRACE_CODES)
}

/// A number from 0 to 99 as a packed pair.
pub fn pair(number: u32) -> u8 {
    (number / 10 * 16 + number % 10) as u8
}

/// A number as that many packed pairs.
fn pairs(number: u32, count: u32) -> Vec<u8> {
    (0..count).rev().map(|i| pair(number / 100u32.pow(i) % 100)).collect()
}

/// The 32 bytes of a sound general header.
fn general_header(rng: &mut Rng, plan: &Plan) -> Vec<u8> {
    let mut bytes = pairs(rng.range(0, 9999), 2);
    bytes.extend(plan.code.to_be_bytes());
    bytes.extend(rng.bytes(6));
    bytes.extend(pairs(rng.range(0, 99), 1));
    bytes.extend(pairs(rng.range(1, 366), 2));
    bytes.extend(pairs(rng.range(0, 23), 1));
    bytes.extend(pairs(rng.range(0, 59), 1));
    bytes.extend(pairs(rng.range(0, 59), 1));
    bytes.extend(pairs(rng.range(0, 999_999), 3));
    bytes.extend(pairs(plan.bytes_per_scan(), 3));
    bytes.push(plan.interval);
    bytes.push(rng.below(16) as u8 * 16 + plan.block_exponent);
    bytes.push(plan.block_scans);
    bytes.push(rng.below(16) as u8 * 16 + rng.below(10) as u8);
    bytes.push(pair(rng.range(0, 99)));
    bytes.push(pair(plan.scan_types.len() as u32));
    bytes.push(pair(plan.scan_types[0].len() as u32));
    bytes.push(pair(plan.skew_fields));
    bytes.push(pair(plan.extended_fields));
    bytes.push(pair(plan.external_fields));
    bytes
}

/// The 32 bytes of a sound descriptor.
fn descriptor(rng: &mut Rng, scan_type: usize, number: usize, set: Set) -> Vec<u8> {
    let mut bytes = vec![pair(scan_type as u32), pair(number as u32)];
    bytes.extend(rng.bytes(6));
    bytes.extend(pairs(set.channels, 2));
    bytes.push(rng.below(16) as u8 * 16);
    bytes.push(set.exponent as u8 * 16 + rng.below(16) as u8);
    bytes.extend(pairs(rng.range(0, 9999), 2));
    bytes.extend(pairs(rng.range(0, 999), 2));
    bytes.extend(pairs(rng.range(0, 9999), 2));
    bytes.extend(pairs(rng.range(0, 999), 2));
    bytes.extend(pairs(rng.range(0, 999_999), 3));
    bytes.extend(pairs(rng.range(0, 999_999), 3));
    bytes.extend(rng.bytes(6));
    bytes
}

/// The header block of a plan; sound if the plan's skew fields are.
pub fn header(rng: &mut Rng, plan: &Plan) -> Vec<u8> {
    let mut block = general_header(rng, plan);
    for (i, sets) in plan.scan_types.iter().enumerate() {
        for (j, set) in sets.iter().enumerate() {
            block.extend(descriptor(rng, i + 1, j + 1, *set));
        }
        block.extend(rng.bytes(32 * plan.skew_fields as usize));
    }
    let extras = plan.extended_fields + plan.external_fields;
    block.extend(rng.bytes(32 * extras as usize));
    block
}

/// A crew's sheet of the right length for the plan.
pub fn sheet(rng: &mut Rng, plan: &Plan) -> Vec<u8> {
    rng.bytes(plan.scan_types.len() * plan.samples() as usize)
}

/// A header block of the plan with SK as it should not be, otherwise sound.
pub fn wrong_skew(rng: &mut Rng, plan: &Plan) -> Vec<u8> {
    let full = plan.full_skew();
    let near = [full.saturating_sub(1), full + 1, rng.range(1, 99)];
    let wrong: Vec<u32> = near.into_iter().filter(|n| *n != full && (1..=99).contains(n)).collect();
    let skew_fields = if wrong.is_empty() { 99 } else { rng.pick(&wrong) };
    header(rng, &Plan { skew_fields, ..plan.clone() })
}

/// Writes random bytes over a few places anywhere.
fn scribble(rng: &mut Rng, block: &mut [u8]) {
    for _ in 0..rng.range(1, 3) {
        let i = rng.index(block.len());
        block[i] = rng.byte();
    }
}

/// Another code: of the six or of the other six, near to one of them, or any.
fn change_code(rng: &mut Rng, block: &mut [u8]) {
    let code = any_code(rng);
    let changed = match rng.below(4) {
        0 => any_trace_code(rng),
        1 => code ^ (1 << rng.below(16)),
        2 => code,
        _ => rng.word() as u16,
    };
    block[2..4].copy_from_slice(&changed.to_be_bytes());
}

/// A half above 9 in one of the general header's bytes.
fn spoil_digit(rng: &mut Rng, block: &mut [u8]) {
    let i = rng.index(32);
    let half = rng.range(10, 15) as u8;
    block[i] = if rng.once_in(2) { block[i] % 16 + half * 16 } else { block[i] / 16 * 16 + half };
}

/// A value at or over the edge of its range.
fn spoil_range(rng: &mut Rng, block: &mut [u8]) {
    let edges: [(usize, &[u8]); 14] = [
        (12, &[0x00, 0x00]),
        (12, &[0x03, 0x66]),
        (12, &[0x03, 0x67]),
        (12, &[0x10, 0x01]),
        (14, &[0x23]),
        (14, &[0x24]),
        (15, &[0x60]),
        (16, &[0x60]),
        (20, &[0x00, 0x00, 0x00]),
        (20, &[0x99, 0x99, 0x99]),
        (23, &[0x00]),
        (23, &[0x03]),
        (28, &[0x00]),
        (29, &[0x00]),
    ];
    let (first, bytes) = rng.pick(&edges);
    block[first - 1..first - 1 + bytes.len()].copy_from_slice(bytes);
}

/// A block that is longer or shorter.
fn spoil_length(rng: &mut Rng, block: &mut Vec<u8>) {
    match rng.below(4) {
        0 => block.truncate(rng.index(block.len() + 1)),
        1 => block.truncate(rng.index(34).min(block.len())),
        2 => block.extend(vec![0; rng.range(1, 64) as usize]),
        _ => block[27 + rng.index(5)] = pair(rng.range(0, 99)),
    }
}

/// A byte of some descriptor, found by the plan.
fn descriptor_byte(rng: &mut Rng, plan: &Plan, n: usize) -> usize {
    let sets = plan.scan_types[0].len();
    let scan_type = rng.index(plan.scan_types.len());
    32 + 32 * (scan_type * (sets + plan.skew_fields as usize) + rng.index(sets)) + n - 1
}

/// Spoils any byte of a descriptor, or sets its channels or exponent anew.
fn spoil_descriptor(rng: &mut Rng, plan: &Plan, block: &mut [u8]) {
    let n = match rng.below(3) {
        0 => rng.range(1, 32) as usize,
        1 => 10,
        _ => 12,
    };
    let place = descriptor_byte(rng, plan, n);
    block[place] = match n {
        10 => pair(rng.range(0, 99)),
        12 => rng.range(0, 10) as u8 * 16,
        _ => rng.byte(),
    };
}

/// Sets the channels of a descriptor anew: FOUR in 0015, else mostly SIZE.
fn spoil_channels(rng: &mut Rng, plan: &Plan, block: &mut [u8]) {
    let place = descriptor_byte(rng, plan, 10);
    block[place] = pair(rng.range(0, 99));
}

/// Another B.
fn spoil_size(rng: &mut Rng, block: &mut [u8]) {
    let place = 19 + rng.index(3);
    block[place] = pair(rng.range(0, 99));
}

/// A header block of the plan with some damage, which may happen to be none.
pub fn damaged_header(rng: &mut Rng, plan: &Plan) -> Vec<u8> {
    let mut block = header(rng, plan);
    match rng.below(10) {
        0 => scribble(rng, &mut block),
        1 => scribble(rng, &mut block[..32]),
        2 => change_code(rng, &mut block),
        3 => spoil_digit(rng, &mut block),
        4 => spoil_range(rng, &mut block),
        5 => spoil_length(rng, &mut block),
        6 => spoil_descriptor(rng, plan, &mut block),
        7 => spoil_size(rng, &mut block),
        8 => spoil_channels(rng, plan, &mut block),
        _ => block = wrong_skew(rng, plan),
    }
    block
}
