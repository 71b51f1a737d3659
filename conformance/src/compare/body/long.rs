//! Long records, read in portions of several sizes with the same result.

use crate::compare::{Effort, Group, Results};
use crate::make::records::{large_blocks, long_shot, longest_scans, switched_interval, Record};
use crate::make::records::{long_trace, switched_traces};
use crate::make::rng::Rng;
use crate::ours::body as ours;
use crate::ours::body::Opened;
use crate::reader::body::{open, Kind, Report, Sample};
use crate::reader::calls::Answer;
use crate::reader::scans::read_scans;
use crate::reader::traces::read_traces;
use crate::reader::words::{CODES, TRACE_CODES};
use crate::reader::Refusal;

const SIZES: [usize; 3] = [1, 7, 65_536];

/// A brief run leaves out portions of one byte, which are a call each: bodies that
/// are cut at random have them too.
fn sizes(effort: Effort) -> impl Iterator<Item = usize> {
    SIZES.into_iter().filter(move |size| effort != Effort::Brief || *size > 1)
}

pub fn compare(results: &mut Results, effort: Effort) {
    let mut rng = Rng::new(610);
    let (channels, scans) = (effort.of(4, 24) as u32, effort.of(3_000, 45_000) as usize);
    let codes = || CODES.into_iter().take(effort.of(2, 6) as usize);
    compare_records(results, effort, "a shot of 90 s, T starting again", codes(), |code| {
        long_shot(&mut rng, code, channels)
    });
    let unlike_0015 = CODES.into_iter().filter(|code| *code != 0x0015);
    let several = unlike_0015.take(effort.of(2, 5) as usize);
    compare_records(results, effort, "the sampling interval changed halfway", several, |code| {
        switched_interval(&mut rng, code, scans)
    });
    compare_records(results, effort, "two blocks of 261576 bytes", [0x0015].into_iter(), |_| {
        large_blocks(&mut rng, 0x0015, 2)
    });
    compare_records(results, effort, "scans of 999999 bytes", [0x0022].into_iter(), |_| {
        longest_scans(&mut rng, effort.of(1, 8) as usize)
    });
    compare_traces(results, effort);
}

/// Records of traces, each code in turn.
fn compare_traces(results: &mut Results, effort: Effort) {
    let mut rng = Rng::new(614);
    let samples = effort.of(8_000, 100_000) as usize;
    compare_records(results, effort, "traces of many samples", TRACE_CODES.into_iter(), |code| {
        long_trace(&mut rng, code, samples)
    });
    let scans = effort.of(60, 2_000) as usize;
    let codes = TRACE_CODES.into_iter();
    compare_records(
        results,
        effort,
        "traces, the sampling interval changed halfway",
        codes,
        |code| switched_traces(&mut rng, code, scans),
    );
}

/// What a record comes to: all numbers, and the closing.
type Read = (Vec<i32>, Result<Report, Refusal>);

/// A record is shown by its code and length alone: it is too long, and the same
/// each time.
fn compare_records(
    results: &mut Results,
    effort: Effort,
    name: &str,
    codes: impl Iterator<Item = u16>,
    mut make: impl FnMut(u16) -> Record,
) {
    let mut group = Group::new(name, &[0]);
    for code in codes {
        let record = make(code);
        let wanted = uncut(&record);
        for size in sizes(effort) {
            let ours = in_portions(&record, size);
            group.values(difference(ours, &wanted), None, || {
                format!("code {code:04X} in portions of {size}")
            });
        }
        results.code(code, sizes(effort).count() as u64);
    }
    results.add(group);
}

fn uncut((block, body): &Record) -> Read {
    let read = match open(block).expect("the header of a record is sound") {
        Kind::Scans => read_scans(block, body),
        Kind::Traces => read_traces(block, body),
    };
    let reading = read.expect("its body is of that kind");
    let report = reading.closing.expect("and so is its body");
    let pair = |sample: &Sample| [sample.m, sample.x];
    (reading.samples.iter().flat_map(pair).collect(), Ok(report))
}

/// The first thing that differs, so that a million numbers are not shown.
fn difference(ours: Result<Read, String>, wanted: &Read) -> Option<String> {
    let (numbers, closing) = match ours {
        Ok(read) => read,
        Err(told) => return Some(told),
    };
    let (most, due) = (numbers.len(), wanted.0.len());
    if let Some(i) = (0..most.min(due)).find(|i| numbers[*i] != wanted.0[*i]) {
        return Some(format!("number {i} is {} and not {}", numbers[i], wanted.0[i]));
    }
    let told = format!("{most} numbers of {due}, {closing:?} and not {:?}", wanted.1);
    ((most, &closing) != (due, &wanted.1)).then_some(told)
}

/// Reads a record that has to go on to its end.
fn in_portions((block, body): &Record, size: usize) -> Result<Read, String> {
    let mut opened = ours::open(block).map_err(|refusal| format!("not opened: {refusal:?}"))?;
    let mut numbers = Vec::new();
    for bytes in &body.blocks {
        for portion in bytes.chunks(size) {
            numbers.extend(going_on(&mut opened, block, portion)?);
        }
        let ended = opened.block_end(block)?;
        if ended != Answer::BlockEnd(None) {
            return Err(format!("{ended:?} left {opened:?}"));
        }
    }
    Ok((numbers, opened.close(block)))
}

/// The numbers of a portion that goes on.
fn going_on(opened: &mut Opened, block: &[u8], bytes: &[u8]) -> Result<Vec<i32>, String> {
    match opened.portion(block, bytes, 2 * bytes.len())? {
        Answer::Portion { numbers, refusal: None } => Ok(numbers),
        other => Err(format!("{other:?} left {opened:?}")),
    }
}
