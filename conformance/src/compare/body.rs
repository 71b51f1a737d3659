//! The body, cut at random, against the uncut body of the reader.

mod forged;
mod limit;
mod long;

use super::inputs::{each_block, hex, HEADER_ROWS};
use super::{Effort, Group, Results, Sorted};
use crate::make::bodies::{damaged_body, sound_body};
use crate::make::calls::cut;
use crate::make::headers::{damaged_header, header, small_plan, wide_plan, Plan};
use crate::make::rng::Rng;
use crate::ours::body as ours;
use crate::ours::body::{Opened, Shape, State};
use crate::ours::traces::Traces;
use crate::reader::body::{kind_of as body_kind, Body, Kind};
use crate::reader::calls::{answers, uncut, Answer, Call};
use crate::reader::header::{read_header, Header};
use crate::reader::words::{CODES, TRACE_CODES};
use crate::reader::{Refusal, BLOCK, MISSING, OPEN, PART, PHASE, ROOM, STATE, SYNC, TIMING};

pub fn compare(results: &mut Results, effort: Effort) {
    compare_openings(results, effort);
    compare_first_bytes(results, effort);
    compare_cut(results, effort, "gapped", 602);
    compare_cut(results, effort, ONE_BLOCK, 603);
    compare_unopened(results, effort);
    compare_opened_traces(results, effort);
    forged::compare(results, effort);
    limit::compare(results, effort);
    long::compare(results, effort);
}

const ONE_BLOCK: &str = "one block";

pub(super) use forged::each_call;

/// The fields of a state whose meaning before the first byte is written down: the
/// header's, and what is counted so far.
#[derive(Debug, PartialEq, Eq)]
enum Fresh {
    Scans(Shape, [u32; 6]),
    Traces(u16, [u32; 8]),
}

fn fresh_fields(opened: Opened) -> Fresh {
    match opened {
        Opened::Scans(State { shape, place, ends, off, track, stop, .. }) => {
            Fresh::Scans(shape, [place, ends, off, track.seen, track.twi, stop])
        }
        Opened::Traces(Traces {
            code,
            place,
            ends,
            at,
            samples,
            off,
            present,
            scans,
            stop,
            ..
        }) => Fresh::Traces(code, [place, ends, at, samples, off, present, scans, stop]),
    }
}

/// What a header says of its body, nothing counted.
fn fresh_state(header: &Header) -> Opened {
    if body_kind(header) == Kind::Traces {
        return Opened::Traces(Traces { code: header.code, ..Traces::default() });
    }
    let shape = Shape {
        code: header.code,
        scan: header.bytes_per_scan,
        advance: (16 * header.interval) << 8,
        types: header.scan_types,
        block: header.block_scans << header.block_exponent,
    };
    Opened::Scans(State { shape, ..State::default() })
}

/// Openings; those of traces are counted apart, so that they have to come up.
fn compare_openings(results: &mut Results, effort: Effort) {
    let kinds: [(&str, &[u8]); 2] = [("accepted", &[0]), ("header refused", &HEADER_ROWS)];
    let mut sorted = Sorted::new("openings", &kinds);
    let mut traces = Group::new("openings, of traces", &[0]);
    each_block(results, 601, effort.of(100_000, 1_000_000), |_, _, block| {
        let said = ours::open(block).map(fresh_fields);
        let wanted = read_header(block).map(|header| fresh_fields(fresh_state(&header)));
        match wanted {
            Ok(Fresh::Traces(..)) => traces.answers(said, wanted, || hex(block)),
            _ => sorted.answers(said, wanted, || hex(block)),
        }
    });
    results.add_sorted(sorted);
    results.add(traces);
}

/// The eight bytes before a scan's samples, and a few of those.
fn first_bytes(rng: &mut Rng) -> Vec<u8> {
    let (timing, samples) = (rng.bytes(3), rng.index(40));
    [vec![0xFF, 0xFF, 0xFF, 0x01], timing, vec![0], rng.bytes(samples)].concat()
}

/// The states of headers of any size are fit: calls on them are not turned away.
fn compare_first_bytes(results: &mut Results, effort: Effort) {
    let mut rng = Rng::new(612);
    let mut group = Group::new("first bytes of records of any size", &[0, BLOCK, PART]);
    for n in 0..effort.of(300, 6_000) {
        let plan = wide_plan(&mut rng, CODES[n as usize % CODES.len()]);
        let block = header(&mut rng, &plan);
        let body = Body { blocks: vec![first_bytes(&mut rng)], rest: Vec::new() };
        let calls = cut(&mut rng, &body);
        ask_each(std::slice::from_mut(&mut group), |_| 0, &block, &calls);
    }
    results.add(group);
}

/// The groups of portions, block ends and closings.
fn groups_of_calls(shape: &str) -> [Group; 3] {
    let stops = [0, BLOCK, SYNC, TIMING, PHASE];
    let group = |name: &str, more: &[u8]| {
        Group::new(&format!("{name}, {shape}"), &[&stops[..], more].concat())
    };
    [
        group("portions", &[ROOM]),
        group("block ends", &[]),
        group("closings", &[PART, OPEN, MISSING]),
    ]
}

/// The call's place among those groups.
pub(super) fn kind_of(call: &Call) -> usize {
    match call {
        Call::Portion { .. } => 0,
        Call::BlockEnd => 1,
        Call::Close => 2,
    }
}

pub(super) fn refusal_in(answer: &Answer) -> Option<&Refusal> {
    match answer {
        Answer::Portion { refusal, .. } | Answer::BlockEnd(refusal) => refusal.as_ref(),
        Answer::Close(report) => report.as_ref().err(),
    }
}

/// The answer of a call that hands out nothing but a refusal.
pub(super) fn turned_away(call: &Call, refusal: Refusal) -> Answer {
    match call {
        Call::Portion { .. } => Answer::Portion { numbers: Vec::new(), refusal: Some(refusal) },
        Call::BlockEnd => Answer::BlockEnd(Some(refusal)),
        Call::Close => Answer::Close(Err(refusal)),
    }
}

/// Puts a call, and compares its answer.
fn ask(
    group: &mut Group,
    state: &mut State,
    call: &Call,
    wanted: &Answer,
    input: impl Fn() -> String,
) {
    let said = ours::call(state, call);
    let row = refusal_in(wanted).map_or(0, |refusal| refusal.number.into());
    group.under(row, said, Ok(wanted.clone()), input);
}

fn show_call(call: &Call) -> String {
    match call {
        Call::Portion { bytes, room } => format!("{}/{room}", bytes.len()),
        Call::BlockEnd => "end".to_string(),
        Call::Close => "close".to_string(),
    }
}

/// The header, the calls up to the one that is asked about, and what they
/// bring, the refused portions left out.
pub(super) fn show(block: &[u8], calls: &[Call]) -> String {
    let Body { blocks, rest } = uncut(calls);
    let bytes: Vec<u8> = blocks.into_iter().chain([rest]).flatten().collect();
    let calls: Vec<String> = calls.iter().map(show_call).collect();
    format!("header {} calls {} body {}", hex(block), calls.join(" "), hex(&bytes))
}

/// A small plan whose body is gapped or is one block.
fn any_plan(rng: &mut Rng, code: u16, shape: &str) -> Plan {
    let plan = small_plan(rng, code);
    let block_scans = if shape == ONE_BLOCK { 0 } else { rng.range(1, 3) as u8 };
    Plan { block_scans, ..plan }
}

fn any_body(rng: &mut Rng, plan: &Plan) -> Body {
    if rng.once_in(2) {
        sound_body(rng, plan)
    } else {
        damaged_body(rng, plan)
    }
}

/// Bodies of each code in turn, sound and damaged, cut at random.
fn compare_cut(results: &mut Results, effort: Effort, shape: &str, seed: u64) {
    let mut rng = Rng::new(seed);
    let mut groups = groups_of_calls(shape);
    for n in 0..effort.of(12_000, 300_000) {
        let code = CODES[n as usize % CODES.len()];
        let plan = any_plan(&mut rng, code, shape);
        let block = header(&mut rng, &plan);
        let body = any_body(&mut rng, &plan);
        let calls = cut(&mut rng, &body);
        ask_each(&mut groups, kind_of, &block, &calls);
        results.code(code, calls.len() as u64);
    }
    groups.into_iter().for_each(|group| results.add(group));
}

/// Opens and puts the calls one after the other, each counted in its group.
fn ask_each(groups: &mut [Group], kind: fn(&Call) -> usize, block: &[u8], calls: &[Call]) {
    let (_, wanted) = answers(block, calls);
    let mut state = ours::opened_state(block);
    for (i, call) in calls.iter().enumerate() {
        ask(&mut groups[kind(call)], &mut state, call, &wanted[i], || show(block, &calls[..=i]));
    }
}

/// A header that is refused.
pub(super) fn refused_header(rng: &mut Rng, plan: &Plan) -> Vec<u8> {
    loop {
        let block = damaged_header(rng, plan);
        if read_header(&block).is_err() {
            return block;
        }
    }
}

/// The calls of a sound body on what a refused opening handed out.
fn compare_unopened(results: &mut Results, effort: Effort) {
    let mut rng = Rng::new(604);
    let mut group = Group::new("calls after a refused opening", &[STATE]);
    for n in 0..effort.of(3_000, 60_000) {
        let plan = small_plan(&mut rng, CODES[n as usize % CODES.len()]);
        let block = refused_header(&mut rng, &plan);
        let body = sound_body(&mut rng, &plan);
        let calls = cut(&mut rng, &body);
        ask_each(std::slice::from_mut(&mut group), |_| 0, &block, &calls);
    }
    results.add(group);
}

/// The calls of a sound body of scans on what an opening of traces handed out.
fn compare_opened_traces(results: &mut Results, effort: Effort) {
    let mut rng = Rng::new(613);
    let mut group = Group::new("calls on scans after an opening of traces", &[STATE]);
    for n in 0..effort.of(1_500, 30_000) as usize {
        let of_traces = small_plan(&mut rng, TRACE_CODES[n % TRACE_CODES.len()]);
        let block = header(&mut rng, &of_traces);
        let plan = small_plan(&mut rng, CODES[n % CODES.len()]);
        let body = sound_body(&mut rng, &plan);
        let calls = cut(&mut rng, &body);
        ask_each(std::slice::from_mut(&mut group), |_| 0, &block, &calls);
    }
    results.add(group);
}
