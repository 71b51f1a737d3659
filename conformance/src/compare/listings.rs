//! The listings of reels, drawn and long, line by line and as a whole.

use super::inputs::{hex, HEADER_ROWS};
use super::{Effort, Group, Results};
use crate::make::images::{any_reel, file, in_portions, reel, LONGEST_PORTION};
use crate::make::records::{large_blocks, long_shot, longest_scans, switched_interval};
use crate::make::records::{long_trace, switched_traces};
use crate::make::rng::Rng;
use crate::ours::lister::listing;
use crate::reader::image::list;
use crate::reader::words::{CODES, TRACE_CODES};
use crate::reader::{BLOCK, COUNT, FOUR, LARGE, MISSING, PHASE, SYNC, TIMING, TRACE};
use std::thread;

pub fn compare(results: &mut Results, effort: Effort) {
    compare_drawn(results, effort);
    compare_long(results);
}

/// The rows that a body of whole items may be turned away by, and the lister's
/// own. LONG takes an image of four thousand million bytes; PART and OPEN cannot be,
/// since every item ends in a block end.
const BODY_ROWS: [u8; 8] = [BLOCK, SYNC, TIMING, PHASE, MISSING, LARGE, TRACE, COUNT];

/// The second word of a refused record's line.
const REFUSED: &str = "refused";

/// What stands for that word where row 8 is no header's but stops a body.
const STOPPED: &str = "stopped";

const ENDINGS: [&str; 3] = ["reel ok", "reel cut", "reel version"];

/// A group for each kind of line: the code of a record that is listed, in the
/// order of the codes, then those that are refused, then each last line.
struct Kinds {
    groups: Vec<(String, Group)>,
}

impl Kinds {
    fn new() -> Kinds {
        let kind = |kind: &str, about: &str, due: &[u8]| (kind.to_string(), Group::new(about, due));
        let listed = listed_codes().map(|code| {
            let digits = format!("{code:04X}");
            kind(&digits, &format!("records of {digits} listed"), &[0])
        });
        let rows = [&HEADER_ROWS[..], &BODY_ROWS].concat();
        let refused = kind(REFUSED, "records refused", &rows);
        let stopped = kind(STOPPED, "records of 8015 stopped", &[FOUR]);
        let endings = ENDINGS.map(|last| kind(last, &format!("listings to `{last}`"), &[0]));
        Kinds { groups: listed.chain([refused, stopped]).chain(endings).collect() }
    }

    /// Compares what stands for a line of the reader's.
    fn under(&mut self, line: &str, ours: &str, wanted: &str, input: impl Fn() -> String) {
        let (kind, row) = kind_of(line);
        let about = self.groups.iter_mut().find(|(name, _)| *name == kind);
        let (_, group) = about.expect("the kinds have every line of the reader");
        group.under(row, ours, wanted, input);
    }
}

/// The codes in the order of their groups.
fn listed_codes() -> impl Iterator<Item = u16> {
    CODES.into_iter().chain(TRACE_CODES)
}

/// The kind of a line, and its row.
fn kind_of(line: &str) -> (&str, usize) {
    match line.split(' ').collect::<Vec<_>>()[..] {
        [_, "file", _, "format", code, ..] => (code, 0),
        [_, REFUSED, "8", "at", place] if place != "0" => (STOPPED, FOUR.into()),
        [_, REFUSED, number, "at", _] => (REFUSED, number.parse().expect("a row's number")),
        _ => (line, 0),
    }
}

/// A drawn reel, listed by both.
struct Drawn {
    image: Vec<u8>,
    ours: String,
    wanted: String,
}

/// The reel of a number, the same each time.
fn drawn(number: u64) -> Drawn {
    let mut rng = Rng::new(701_000_000 + number);
    let image = any_reel(&mut rng);
    let ours = listing(&in_portions(&mut rng, &image));
    let wanted = list(&image);
    Drawn { image, ours, wanted }
}

/// Reels listed side by side: a process takes longer to start than to list one.
const AT_ONCE: u64 = 8;

fn side_by_side(first: u64) -> Vec<Drawn> {
    thread::scope(|scope| {
        let numbers = first..first + AT_ONCE;
        let started: Vec<_> = numbers.map(|n| scope.spawn(move || drawn(n))).collect();
        started.into_iter().map(|one| one.join().expect("both have listed it")).collect()
    })
}

fn compare_drawn(results: &mut Results, effort: Effort) {
    let mut kinds = Kinds::new();
    let firsts = (0..effort.of(5_000, 100_000)).step_by(AT_ONCE as usize);
    for (n, Drawn { image, ours, wanted }) in (0..).zip(firsts.flat_map(side_by_side)) {
        compare_lines(&mut kinds, &ours, &wanted, || format!("reel {n}, {}", hex(&image)));
    }
    for (code, (_, group)) in listed_codes().zip(&kinds.groups) {
        results.code(code, group.asked());
    }
    kinds.groups.into_iter().for_each(|(_, group)| results.add(group));
}

/// Each line but the last for itself; for the last the whole text, byte for byte.
fn compare_lines(kinds: &mut Kinds, ours: &str, wanted: &str, input: impl Fn() -> String) {
    let mut told = ours.split_inclusive('\n');
    let (records, last) = split_last(wanted);
    for line in records.split_inclusive('\n') {
        kinds.under(line.trim_end(), told.next().unwrap_or(""), line, &input);
    }
    kinds.under(last, ours, wanted, &input);
}

/// The lines of the records, and the last line without its end.
fn split_last(listing: &str) -> (&str, &str) {
    let last = listing.lines().last().expect("a listing has a last line");
    (&listing[..listing.len() - last.len() - 1], last)
}

/// One reel of the long records, in portions of each size.
fn compare_long(results: &mut Results) {
    let mut rng = Rng::new(702);
    let records = [
        long_shot(&mut rng, 0x0022, 4),
        switched_interval(&mut rng, 0x0044, 3_000),
        large_blocks(&mut rng, 0x0015, 2),
        longest_scans(&mut rng, 1),
        long_trace(&mut rng, 0x8048, 20_000),
        switched_traces(&mut rng, 0x8015, 1_000),
    ];
    let image = reel(&records.map(file));
    let wanted = list(&image);
    let mut group = Group::new("listings of long records", &[0]);
    for size in [61, 4_096, LONGEST_PORTION] {
        let portions: Vec<&[u8]> = image.chunks(size).collect();
        group.values(listing(&portions), wanted.clone(), || format!("in portions of {size}"));
    }
    results.add(group);
}
