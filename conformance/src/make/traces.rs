//! Bodies of traces, sound and damaged.

use super::bodies::{any_sample_bytes, move_ends, scribble, shift_bytes};
use super::headers::{pair, Plan, Set};
use super::rng::Rng;
use crate::reader::body::Body;

/// Bytes of a trace before its samples.
pub const HEADER: usize = 20;

/// A channel's turn: its scan type and set, both from 0, and the channel from 1.
#[derive(Clone, Copy)]
struct Turn {
    scan_type: usize,
    set: usize,
    channel: u32,
}

/// The turns of a plan, in the order of the tape.
fn turns(plan: &Plan) -> Vec<Turn> {
    let of_set = |scan_type, (set, planned): (usize, &Set)| {
        (1..=planned.channels).map(move |channel| Turn { scan_type, set, channel })
    };
    let types = plan.scan_types.iter().enumerate();
    types
        .flat_map(|(scan_type, sets)| {
            sets.iter().enumerate().flat_map(move |each| of_set(scan_type, each))
        })
        .collect()
}

/// Half bytes of so many samples.
fn half_bytes(code: u16, samples: usize) -> usize {
    let each = match code {
        0x8015 => 5,
        0x8022 | 0x8042 => 2,
        0x8024 | 0x8044 => 4,
        _ => 8,
    };
    samples * each
}

/// Scans of a scan type. In 8015 they are so many that no channel's samples break a
/// group of four.
fn any_scans(rng: &mut Rng, code: u16, sets: &[Set]) -> usize {
    let filled = sets.iter().filter(|set| set.channels > 0);
    let least = filled.map(|set| set.exponent).min().unwrap_or(0);
    let unit = if code == 0x8015 { 4 >> least.min(2) } else { 1 };
    unit * rng.range(1, 3) as usize
}

/// The skew byte of a channel's subscan 0 as the block has it, where it has any.
fn recorded_skew(plan: &Plan, block: &[u8], turn: Turn) -> Option<u8> {
    let sets = &plan.scan_types[turn.scan_type];
    let fields = turn.scan_type * (sets.len() + plan.skew_fields as usize) + sets.len();
    let before: u32 = sets[..turn.set].iter().map(Set::samples).sum();
    let k = before + turn.channel - 1;
    (plan.skew_fields > 0).then(|| block[32 + 32 * fields + k as usize])
}

/// The twenty bytes before a trace's samples.
fn trace_header(rng: &mut Rng, plan: &Plan, block: &[u8], turn: Turn) -> Vec<u8> {
    let Turn { scan_type, set, channel } = turn;
    let mut bytes = block[..2].to_vec();
    bytes.extend([scan_type as u32 + 1, set as u32 + 1, channel / 100, channel % 100].map(pair));
    bytes.extend(rng.bytes(3));
    bytes.push(0);
    bytes.push(recorded_skew(plan, block, turn).unwrap_or_else(|| rng.byte()));
    bytes.push(0);
    bytes.extend(rng.bytes(3));
    bytes.extend([0; 5]);
    bytes
}

/// A sound body of the plan, whose header block this is. Meant for small plans. Where
/// no set has a channel it has no trace.
pub fn sound_traces(rng: &mut Rng, plan: &Plan, block: &[u8]) -> Body {
    let scans: Vec<usize> =
        plan.scan_types.iter().map(|sets| any_scans(rng, plan.code, sets)).collect();
    even_traces(rng, plan, block, &scans)
}

/// A sound body with so many scans of each scan type; in 8015 no channel's samples may
/// break a group of four.
pub fn even_traces(rng: &mut Rng, plan: &Plan, block: &[u8], scans: &[usize]) -> Body {
    let blocks = turns(plan).into_iter().map(|turn| {
        let set = plan.scan_types[turn.scan_type][turn.set];
        let samples = scans[turn.scan_type] << set.exponent;
        let mut trace = trace_header(rng, plan, block, turn);
        trace.extend(any_sample_bytes(rng, half_bytes(plan.code, samples) / 2));
        trace
    });
    Body { blocks: blocks.collect(), rest: Vec::new() }
}

/// The first trace of a plan of any size, with a few bytes of samples: whole words and
/// groups, or any number of bytes. Where no set has a channel there are only bytes.
pub fn first_trace(rng: &mut Rng, plan: &Plan, block: &[u8]) -> Vec<u8> {
    let count = if rng.once_in(2) { 20 * rng.index(3) } else { rng.index(40) };
    let sets = plan.scan_types.iter().enumerate().flat_map(|(scan_type, sets)| {
        sets.iter().enumerate().map(move |(set, planned)| (scan_type, set, planned.channels))
    });
    let first = sets.into_iter().find(|(_, _, channels)| *channels > 0);
    let mut trace = first.map_or(Vec::new(), |(scan_type, set, _)| {
        trace_header(rng, plan, block, Turn { scan_type, set, channel: 1 })
    });
    trace.extend(any_sample_bytes(rng, count));
    trace
}

/// Writes another byte over some byte of the trace header, the free ones too.
fn spoil_header(rng: &mut Rng, trace: &mut [u8]) {
    let place = rng.index(HEADER.min(trace.len()));
    trace[place] = match rng.below(3) {
        0 => trace[place] ^ 1 << rng.below(8),
        1 => trace[place].wrapping_add(1),
        _ => rng.byte(),
    };
}

/// Leaves a few of the last bytes out, or adds some: parts of words and of groups,
/// whole words, scans; at times none is left but the trace header, or a part of it.
fn change_samples(rng: &mut Rng, trace: &mut Vec<u8>) {
    let few = rng.range(1, 12) as usize;
    match rng.below(6) {
        0 | 1 => trace.truncate(trace.len() - few.min(trace.len())),
        2 | 3 => trace.extend(rng.bytes(few)),
        4 => trace.truncate(HEADER),
        _ => trace.truncate(rng.index(HEADER + 3)),
    }
}

/// Doubles a trace's samples or leaves out half of them: whole scans, as a rule, but
/// not as many as in the scan type's other traces.
fn change_scans(rng: &mut Rng, trace: &mut Vec<u8>) {
    if rng.once_in(2) {
        trace.extend_from_within(HEADER..);
    } else {
        trace.truncate(HEADER + (trace.len() - HEADER) / 2);
    }
}

/// Leaves a trace out, repeats it, or puts it in another's turn.
fn misplace(rng: &mut Rng, blocks: &mut Vec<Vec<u8>>) {
    let (i, j) = (rng.index(blocks.len()), rng.index(blocks.len()));
    match rng.below(3) {
        0 => drop(blocks.remove(i)),
        1 => blocks.insert(i, blocks[i].clone()),
        _ => blocks.swap(i, j),
    }
}

/// A body that ends too soon or goes on after its end: without its last block ends, in
/// a trace, or with a byte, a trace or a block end more.
fn change_length(rng: &mut Rng, body: &mut Body) {
    let i = rng.index(body.blocks.len());
    match rng.below(5) {
        0 => body.blocks.truncate(i),
        1 => {
            body.rest = body.blocks.split_off(i).swap_remove(0);
            body.rest.truncate(rng.index(body.rest.len() + 1));
        }
        2 => body.rest = body.blocks.pop().unwrap_or_default(),
        3 => body.blocks.push(body.blocks[i].clone()),
        _ => body.rest = rng.bytes(3),
    }
}

/// Bytes where no trace is: a byte, an empty block or a whole trace.
fn out_of_nothing(rng: &mut Rng) -> Body {
    let bytes = rng.bytes(24);
    match rng.below(3) {
        0 => Body { blocks: Vec::new(), rest: bytes },
        1 => Body { blocks: vec![Vec::new()], rest: Vec::new() },
        _ => Body { blocks: vec![bytes], rest: Vec::new() },
    }
}

/// A sound body with some damage, at times twice; it may happen to be none.
pub fn damaged_traces(rng: &mut Rng, plan: &Plan, block: &[u8]) -> Body {
    let mut body = sound_traces(rng, plan, block);
    if body.blocks.is_empty() {
        return out_of_nothing(rng);
    }
    let i = rng.index(body.blocks.len());
    match rng.below(9) {
        0 | 1 => spoil_header(rng, &mut body.blocks[i]),
        2 | 3 => change_samples(rng, &mut body.blocks[i]),
        4 => change_scans(rng, &mut body.blocks[i]),
        5 => shift_bytes(rng, &mut body.blocks[i]),
        6 => misplace(rng, &mut body.blocks),
        7 => change_length(rng, &mut body),
        _ => move_ends(rng, &mut body),
    }
    if rng.once_in(4) {
        scribble(rng, &mut body);
    }
    body
}
