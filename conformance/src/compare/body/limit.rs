//! Bodies near the place that no byte may have.
//!
//! Nobody reads four thousand million bytes to get there: a state is set forward
//! by whole scans, or whole blocks with their ends. What comes after has to be
//! answered as if nothing had been done, with the places and counts that much
//! greater, up to the byte that is too far.

use super::{any_body, any_plan, ask, refusal_in, show, turned_away, ONE_BLOCK};
use crate::compare::{Effort, Group, Results};
use crate::make::calls::cut;
use crate::make::headers::{header, Plan, Set};
use crate::make::rng::Rng;
use crate::ours::body as ours;
use crate::ours::body::State;
use crate::reader::body::{Report, TOO_FAR};
use crate::reader::calls::{answers, Answer, Call};
use crate::reader::words::CODES;
use crate::reader::{refusal_with, Refusal, BLOCK, LONG, PART};

pub fn compare(results: &mut Results, effort: Effort) {
    compare_opened(results);
    compare_forward(results, effort.of(4_000, 100_000), "gapped", 607);
    compare_forward(results, effort.of(4_000, 100_000), ONE_BLOCK, 608);
    compare_forward(results, effort.of(400, 10_000), ENDLESS, 611);
}

/// Blocks of more bytes than a body can have, so that none is ever full.
const ENDLESS: &str = "endless blocks";

fn too_long() -> Refusal {
    refusal_with(LONG, &[TOO_FAR as u32])
}

/// How far a state is set forward.
struct Leap {
    bytes: u64,
    scans: u64,
    ends: u64,
    samples: u64,
}

impl Leap {
    /// Over whole scans or blocks, as many as leave at least `left` bytes up to
    /// the place that is too far.
    fn over(plan: &Plan, left: u64) -> Leap {
        let block = u64::from(plan.block_scans) << plan.block_exponent;
        let scan = u64::from(plan.bytes_per_scan());
        let by_blocks = block > 0 && block * scan <= TOO_FAR;
        let unit = if by_blocks { block } else { 1 };
        let units = (TOO_FAR - left) / (unit * scan);
        let scans = units * unit;
        Leap {
            bytes: scans * scan,
            scans,
            ends: if by_blocks { units } else { 0 },
            samples: scans * u64::from(plan.samples()),
        }
    }

    fn state(&self, state: &State) -> State {
        let place = state.place.wrapping_add(self.bytes as u32);
        State { place, ends: state.ends.wrapping_add(self.ends as u32), ..*state }
    }

    /// The place in the body, as the reader has it, that is too far.
    fn limit(&self) -> u64 {
        TOO_FAR - self.bytes
    }

    /// Stops have a place, and nothing else that is answered here has a value.
    fn refusal(&self, refusal: Refusal) -> Refusal {
        let moved = |value: &u32| value + self.bytes as u32;
        Refusal { values: refusal.values.iter().map(moved).collect(), ..refusal }
    }

    fn report(&self, report: Report) -> Report {
        let scans = report.scans + self.scans as u32;
        Report { scans, samples: report.samples + self.samples as u32, ..report }
    }

    fn answer(&self, answer: Answer) -> Answer {
        let moved = |refusal: Option<Refusal>| refusal.map(|refusal| self.refusal(refusal));
        match answer {
            Answer::Portion { numbers, refusal } => {
                Answer::Portion { numbers, refusal: moved(refusal) }
            }
            Answer::BlockEnd(refusal) => Answer::BlockEnd(moved(refusal)),
            Answer::Close(report) => Answer::Close(
                report.map(|r| self.report(r)).map_err(|refusal| self.refusal(refusal)),
            ),
        }
    }
}

fn brought(call: &Call) -> u64 {
    match call {
        Call::Portion { bytes, .. } => bytes.len() as u64,
        _ => 0,
    }
}

/// The call that brings the byte at the limit, and the bytes before that call.
fn crossing(calls: &[Call], limit: u64) -> Option<(usize, u64)> {
    let starts = calls.iter().scan(0, |sum, call| {
        let start = *sum;
        *sum += brought(call);
        Some(start)
    });
    let found = |(i, start): &(usize, u64)| start + brought(&calls[*i]) > limit;
    starts.enumerate().find(found)
}

/// The answers of calls none of which brings the byte at the limit.
fn short_of_limit(block: &[u8], calls: &[Call], leap: &Leap) -> Vec<Answer> {
    let (_, wanted) = answers(block, calls);
    wanted.into_iter().map(|answer| leap.answer(answer)).collect()
}

/// The call that crosses answers what its bytes before the limit come to, and
/// then that it is too long; all calls after it repeat its refusal.
fn wanted(block: &[u8], calls: &[Call], leap: &Leap) -> Vec<Answer> {
    let Some((i, start)) = crossing(calls, leap.limit()) else {
        return short_of_limit(block, calls, leap);
    };
    let mut shorter = calls[..=i].to_vec();
    if let Call::Portion { bytes, .. } = &mut shorter[i] {
        bytes.truncate((leap.limit() - start) as usize);
    }
    let mut wanted = short_of_limit(block, &shorter, leap);
    if let Answer::Portion { refusal, .. } = &mut wanted[i] {
        refusal.get_or_insert(too_long());
    }
    let stop = refusal_in(&wanted[i]).expect("the call that crosses stops").clone();
    wanted.extend(calls[i + 1..].iter().map(|call| turned_away(call, stop.clone())));
    wanted
}

/// How many calls it takes until a whole scan is there: from then on a state says
/// all that the next scan is judged by.
fn lead(calls: &[Call], scan: u64) -> Option<usize> {
    let sums = calls.iter().scan(0, |sum, call| {
        *sum += brought(call);
        Some(*sum)
    });
    sums.enumerate().find(|(_, sum)| *sum >= scan).map(|(i, _)| i + 1)
}

/// A plan of one set.
fn plan_of(code: u16, channels: u32) -> Plan {
    Plan {
        code,
        scan_types: vec![vec![Set { channels, exponent: 0 }]],
        skew_fields: 0,
        extended_fields: 0,
        external_fields: 0,
        interval: 32,
        block_exponent: 0,
        block_scans: 0,
    }
}

/// The plans of one set, the shortest scans first.
fn plans_of(code: u16) -> impl Iterator<Item = Plan> {
    let unit = if code == 0x0015 { 4 } else { 1 };
    (1..=9_999 / unit).map(move |n| plan_of(code, n * unit))
}

/// A plan whose blocks come to 2^32 bytes or more. With 128 x 2^15 scans of 1024
/// bytes a product that starts again at 2^32 is 0, with a little more it is small.
fn endless_plan(rng: &mut Rng, code: u16) -> Plan {
    let long = |plan: &Plan| plan.bytes_per_scan() >= 1_024;
    let plan = plans_of(code).filter(long).nth(rng.index(3)).expect("so many channels");
    let block_scans = if rng.once_in(2) { 128 } else { rng.range(128, 255) as u8 };
    Plan { block_scans, block_exponent: 15, ..plan }
}

/// The calls of a body without those that lack room. No body fills an endless
/// block, so it is made as one of one block is.
fn roomy_calls(rng: &mut Rng, plan: &Plan, shape: &str) -> Vec<Call> {
    let block_scans = if shape == ENDLESS { 0 } else { plan.block_scans };
    let body = any_body(rng, &Plan { block_scans, ..plan.clone() });
    let mut calls = cut(rng, &body);
    calls.retain(|call| !matches!(call, Call::Portion { bytes, room } if *room < 2 * bytes.len()));
    calls
}

fn compare_forward(results: &mut Results, count: u64, shape: &str, seed: u64) {
    let mut rng = Rng::new(seed);
    let mut group =
        Group::new(&format!("calls near place {TOO_FAR}, {shape}"), &[0, LONG, BLOCK, PART]);
    for n in 0..count {
        let code = CODES[n as usize % CODES.len()];
        let plan = match shape {
            ENDLESS => endless_plan(&mut rng, code),
            _ => any_plan(&mut rng, code, shape),
        };
        let block = header(&mut rng, &plan);
        let calls = roomy_calls(&mut rng, &plan, shape);
        if let Some(first) = lead(&calls, plan.bytes_per_scan().into()) {
            ask_forward(&mut group, &mut rng, &plan, &block, &calls, first);
        }
    }
    results.add(group);
}

/// Puts the first calls, sets the state forward and puts the others.
fn ask_forward(
    group: &mut Group,
    rng: &mut Rng,
    plan: &Plan,
    block: &[u8],
    calls: &[Call],
    first: usize,
) {
    let mut state = ours::opened_state(block);
    for call in &calls[..first] {
        let _ = ours::call(&mut state, call);
    }
    if state.stop != 0 {
        return;
    }
    let [so_far, later]: [u64; 2] =
        [&calls[..first], &calls[first..]].map(|calls| calls.iter().map(brought).sum());
    let leap = Leap::over(plan, so_far + rng.below(later + 1));
    let wanted = wanted(block, calls, &leap);
    let mut state = leap.state(&state);
    for i in first..calls.len() {
        ask(group, &mut state, &calls[i], &wanted[i], || {
            format!(
                "forward {} bytes before call {first}, {}",
                leap.bytes,
                show(block, &calls[..=i])
            )
        });
    }
}

/// A plan of one set whose scans leave at most three bytes up to the limit:
/// there the state of an opening is enough, since only those bytes of a scan are
/// judged that say nothing of a scan before.
fn plan_to_limit(code: u16, block_scans: u8) -> Plan {
    let close = |plan: &Plan| TOO_FAR % u64::from(plan.bytes_per_scan()) <= 3;
    let plan = plans_of(code).find(close).expect("such a length of scan");
    Plan { block_scans, ..plan }
}

/// The states of openings, set forward as far as they can be.
fn compare_opened(results: &mut Results) {
    let mut rng = Rng::new(609);
    let mut group = Group::new("openings set forward to the limit", &[0, LONG, BLOCK]);
    for code in CODES {
        for scans in [0, 1] {
            let plan = plan_to_limit(code, scans);
            let block = header(&mut rng, &plan);
            ask_opened(&mut group, &plan, &block);
        }
    }
    for code in [0x0022, 0x0042] {
        for scans in [0, 1, 17] {
            let plan = Plan { block_scans: scans, ..plan_of(code, 7) };
            let block = header(&mut rng, &plan);
            ask_filled(&mut group, &plan, &block);
        }
    }
    results.add(group);
}

fn portion_of_ones(count: u64) -> Call {
    Call::Portion { bytes: vec![0xFF; count as usize], room: 2 * count as usize }
}

fn going_on() -> Answer {
    Answer::Portion { numbers: Vec::new(), refusal: None }
}

/// All bytes up to the limit go on; one more is too far, alone or with them.
fn ask_opened(group: &mut Group, plan: &Plan, block: &[u8]) {
    let leap = Leap::over(plan, 0);
    let state = leap.state(&ours::opened_state(block));
    let (left, one) = (portion_of_ones(leap.limit()), portion_of_ones(1));
    let stopped = turned_away(&one, too_long());
    let asked = || format!("an opening at {}, {}", state.place, show(block, &[]));
    let mut apart = state;
    ask(group, &mut apart, &left, &going_on(), asked);
    ask(group, &mut apart, &one, &stopped, asked);
    ask(group, &mut apart, &Call::BlockEnd, &Answer::BlockEnd(Some(too_long())), asked);
    let both = portion_of_ones(leap.limit() + 1);
    ask(group, &mut { state }, &both, &stopped, asked);
}

/// The last block is full up to the limit and lacks its end, or an only block has
/// it: one more byte is past its block, but too far before that. Only odd scans
/// get there, such as those of 15 bytes.
fn ask_filled(group: &mut Group, plan: &Plan, block: &[u8]) {
    let leap = Leap::over(plan, 0);
    let only = plan.block_scans == 0;
    let ends = if only { 1 } else { leap.ends as u32 - 1 };
    let state = State { ends, ..leap.state(&ours::opened_state(block)) };
    let asked = || format!("an opening at {} with {ends} ends, {}", state.place, show(block, &[]));
    let one = portion_of_ones(1);
    ask(group, &mut { state }, &one, &turned_away(&one, too_long()), asked);
    let second_end = only.then(|| refusal_with(BLOCK, &[TOO_FAR as u32]));
    ask(group, &mut { state }, &Call::BlockEnd, &Answer::BlockEnd(second_end), asked);
}
