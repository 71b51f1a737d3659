//! Whether both readers agree: every answer, every number of the output, and the closing.

use crate::answers::{Closing, Gave, Reading};
use crate::ours::{OurTraces, Ours};
use crate::reader::Reader;
use crate::record::{Draws, Kind, Plan, Record};
use crate::traces::{TraceReader, TRACE_HEADER};

/// What output holds before a call. No M and no X is so large.
const UNTOUCHED: i32 = 0x5AA5_5AA5;

/// Damaged bodies of each record.
const DAMAGED: u64 = 40;

/// All that a reader says of a body, with the output of each portion.
type Transcript = (Vec<(Gave, Vec<i32>)>, Closing);

fn portion(reader: &mut impl Reading, bytes: &[u8]) -> (Gave, Vec<i32>) {
    let mut out = vec![UNTOUCHED; 2 * bytes.len()];
    (reader.portion(bytes, &mut out), out)
}

/// Reads a record whose blocks are cut into portions of the lengths drawn from a seed, at most `most`.
fn transcript(mut reader: impl Reading, record: &Record, most: usize, seed: u64) -> Transcript {
    let mut draws = Draws::new(seed);
    let mut answers = Vec::new();
    let mut start = 0;
    let ends = record.ends.iter().map(|end| (*end, true));
    for (end, marked) in ends.chain([(record.body.len(), false)]) {
        while start < end {
            let length = (end - start).min(1 + draws.below(most as u64) as usize);
            answers.push(portion(&mut reader, &record.body[start..start + length]));
            start += length;
        }
        if marked {
            answers.push((reader.block_end(), Vec::new()));
        }
    }
    (answers, reader.close())
}

/// Changes a byte, or a block end.
fn damage(record: &mut Record, seed: u64) {
    let mut draws = Draws::new(seed);
    match &record.kind {
        Kind::Scans(shape) => {
            let scan = shape.scan as usize;
            damage_scans(record, &mut draws, scan);
        }
        Kind::Traces(_) => damage_traces(record, &mut draws),
    }
    let length = record.body.len();
    record.ends.retain(|end| *end <= length);
    record.ends.sort_unstable();
}

/// Takes bytes out of the body, or puts as many in: the ends after them move along.
fn shift(record: &mut Record, place: usize, count: usize, longer: bool) {
    if longer {
        record.body.splice(place..place, vec![0x10; count]);
    } else {
        record.body.drain(place - count..place);
    }
    for end in record.ends.iter_mut().filter(|end| **end >= place) {
        *end = if longer { *end + count } else { *end - count };
    }
}

/// A byte of a trace header, the length of a trace, or an end.
fn damage_traces(record: &mut Record, draws: &mut Draws) {
    let n = draws.below(record.ends.len() as u64) as usize;
    let begin = if n == 0 { 0 } else { record.ends[n - 1] };
    let place = begin + draws.below(TRACE_HEADER as u64) as usize;
    let few = 1 + draws.below(12) as usize;
    match draws.below(8) {
        0 => drop(record.ends.remove(n)),
        1 => record.ends.push(place),
        2 => record.body.truncate(place + draws.below(30) as usize),
        3 | 4 => {
            shift(record, record.ends[n], few.min(record.ends[n] - begin), draws.below(2) == 0)
        }
        5 => {
            record.body.push(0);
            record.ends.push(record.body.len());
        }
        _ => record.body[place] ^= 1 << draws.below(8),
    }
}

/// A byte, mostly one of a scan's start, or a block end.
fn damage_scans(record: &mut Record, draws: &mut Draws, scan: usize) {
    let begin = draws.below((record.body.len() / scan) as u64) as usize * scan;
    let place = begin + draws.below(9.min(scan as u64)) as usize;
    match draws.below(6) {
        0 => record.ends = record.ends[1..].to_vec(),
        1 => record.ends.insert(0, begin),
        2 => record.body.truncate(place),
        3 => record.body[begin + 3] ^= 0x10,
        _ => record.body[place] ^= 1 << draws.below(8),
    }
}

/// What both readers say, ours first.
fn transcripts(record: &Record, most: usize, seed: u64) -> (Transcript, Transcript) {
    match &record.kind {
        Kind::Scans(shape) => (
            transcript(Ours::open(&record.header), record, most, seed),
            transcript(Reader::new(*shape), record, most, seed),
        ),
        Kind::Traces(shape) => (
            transcript(OurTraces::open(&record.header), record, most, seed),
            transcript(TraceReader::new(shape), record, most, seed),
        ),
    }
}

fn agree(record: &Record, most: usize, seed: u64) -> bool {
    let (ours, theirs) = transcripts(record, most, seed);
    if ours == theirs {
        return true;
    }
    let first = ours.0.iter().zip(&theirs.0).position(|(a, b)| a != b);
    println!("differ: {:?}, seed {seed}, portions to {most} bytes", record.kind);
    match first {
        Some(n) => println!("  call {n}: ours {:?}, Rust {:?}", ours.0[n].0, theirs.0[n].0),
        None => println!("  closing: ours {:?}, Rust {:?}", ours.1, theirs.1),
    }
    false
}

/// How many readings of a plan's record, sound and damaged, are the same by both readers, and how many are not.
pub fn compare(plan: Plan) -> (u32, u32) {
    let cuts = [2, 13, 512, 65_536, 1 << 20];
    let sound = cuts.iter().map(|most| agree(&plan.record(1), *most, *most as u64));
    let damaged = (1..=DAMAGED).map(|seed| {
        let mut record = plan.record(seed);
        damage(&mut record, seed);
        agree(&record, cuts[seed as usize % cuts.len()], seed)
    });
    sound.chain(damaged).fold(
        (0, 0),
        |(same, other), agreed| {
            if agreed {
                (same + 1, other)
            } else {
                (same, other + 1)
            }
        },
    )
}
