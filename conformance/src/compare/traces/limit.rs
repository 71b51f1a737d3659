//! Bodies near the place that no byte may have: a state in a trace is set forward by
//! whole samples. What comes after has to be answered as if nothing had been done, with
//! the places and the samples that much greater, up to the byte that is too far.

use super::{ask, lend_all, ours, show_lent};
use crate::compare::body::turned_away;
use crate::compare::{Effort, Group, Results};
use crate::make::headers::{header, trace_plan, Plan};
use crate::make::rng::Rng;
use crate::make::traces::first_trace;
use crate::ours::traces::Traces;
use crate::reader::body::{Report, TOO_FAR};
use crate::reader::calls::{standings, trace_answers, Answer, Call};
use crate::reader::layout::unit;
use crate::reader::traces::Standing;
use crate::reader::words::{grouped, TRACE_CODES};
use crate::reader::{refusal_with, Refusal, COUNT, FOUR, LONG, OPEN, PART};

/// How far a state is set forward in its first trace.
struct Leap {
    bytes: u64,
    samples: u64,
    scans: u64,
}

/// As many samples as a scan of a channel can have: a leap is over a whole number of them.
const MOST_SUBSCANS: u64 = 512;

impl Leap {
    /// Over whole scans of the first channel, so far that at least `left` bytes are left
    /// up to the place that is too far.
    fn over(plan: &Plan, left: u64) -> Leap {
        let filled = plan.scan_types[0].iter().find(|set| set.channels > 0);
        let subscans = filled.map_or(1, |set| 1 << set.exponent);
        let step = MOST_SUBSCANS * unit(plan.code);
        let bytes = (TOO_FAR - left) / step * step;
        let samples = bytes / unit(plan.code) * if grouped(plan.code) { 4 } else { 1 };
        Leap { bytes, samples, scans: samples / subscans }
    }

    fn state(&self, state: &Traces) -> Traces {
        let bytes = self.bytes as u32;
        let (place, at) = (state.place + bytes, state.at + bytes);
        Traces { place, at, samples: state.samples + self.samples as u32, ..*state }
    }

    /// The first trace has the bytes of the leap, and once it has ended its scans.
    fn standing(&self, standing: Standing) -> Standing {
        let (bytes, scans) = if standing.ends == 0 { (self.bytes, 0) } else { (0, self.scans) };
        Standing {
            place: standing.place + self.bytes,
            at: standing.at + bytes,
            samples: standing.samples + self.samples as usize,
            present: standing.present + scans,
            scans: standing.scans + scans,
            stop: standing.stop.map(|(row, place)| (row, place + self.bytes as u32)),
            ..standing
        }
    }

    /// The place in the body, as the reader has it, that is too far.
    fn limit(&self) -> u64 {
        TOO_FAR - self.bytes
    }

    /// What has a value here is a stop, whose place is the last.
    fn refusal(&self, mut refusal: Refusal) -> Refusal {
        if let Some(place) = refusal.values.last_mut() {
            *place += self.bytes as u32;
        }
        refusal
    }

    fn report(&self, report: Report) -> Report {
        let scans = report.scans + self.scans as u32;
        Report { scans, samples: report.samples + self.samples as u32, ..report }
    }

    fn answer(&self, answer: Answer) -> Answer {
        let moved = |refusal: Option<Refusal>| refusal.map(|refusal| self.refusal(refusal));
        match answer {
            Answer::Portion { numbers, refusal } => {
                Answer::Portion { numbers, refusal: moved(refusal) }
            }
            Answer::BlockEnd(refusal) => Answer::BlockEnd(moved(refusal)),
            Answer::Close(report) => Answer::Close(
                report.map(|r| self.report(r)).map_err(|refusal| self.refusal(refusal)),
            ),
        }
    }
}

fn portion(bytes: &[u8]) -> Call {
    Call::Portion { bytes: bytes.to_vec(), room: 2 * bytes.len() }
}

/// Two portions, and the other calls.
fn calls(first: &[u8], rest: &[u8]) -> [Call; 5] {
    [portion(first), portion(rest), Call::Close, Call::BlockEnd, Call::Close]
}

/// What each call has to answer, and how the state stands after it. Where the second
/// portion brings the byte that is too far, it answers what its bytes before that come
/// to, and then that it is too long; the calls after it repeat that.
fn wanted(block: &[u8], first: &[u8], rest: &[u8], leap: &Leap) -> Vec<(Answer, Standing)> {
    let taken = rest.len().min((leap.limit() - first.len() as u64) as usize);
    let calls = lend_all(block, &calls(first, &rest[..taken]));
    let answers = trace_answers(block, &calls).1.into_iter().map(|answer| leap.answer(answer));
    let standings = standings(block, &calls).expect("an accepted header of traces");
    let standings = standings.into_iter().map(|standing| leap.standing(standing));
    let mut wanted: Vec<_> = answers.zip(standings).collect();
    if taken < rest.len() {
        let too_long = refusal_with(LONG, &[TOO_FAR as u32]);
        let stop = Some((LONG, TOO_FAR as u32));
        let standing = Standing { stop, ..wanted[1].1 };
        if let Answer::Portion { refusal, .. } = &mut wanted[1].0 {
            *refusal = Some(too_long.clone());
        }
        wanted[1].1 = standing;
        for (wanted, lent) in wanted.iter_mut().zip(&calls).skip(2) {
            *wanted = (turned_away(&lent.call, too_long.clone()), standing);
        }
    }
    wanted
}

pub fn compare(results: &mut Results, effort: Effort) {
    let mut rng = Rng::new(656);
    let due = [0, FOUR, LONG, PART, OPEN, COUNT];
    let mut group = Group::new(&format!("calls on traces near place {TOO_FAR}"), &due);
    for n in 0..effort.of(400, 10_000) {
        let plan = trace_plan(&mut rng, TRACE_CODES[n as usize % TRACE_CODES.len()]);
        if plan.samples() > 0 {
            let block = header(&mut rng, &plan);
            ask_forward(&mut group, &mut rng, &plan, &block);
        }
    }
    results.add(group);
}

/// Puts a first portion, sets the state forward and puts the others.
fn ask_forward(group: &mut Group, rng: &mut Rng, plan: &Plan, block: &[u8]) {
    let first = first_trace(rng, plan, block);
    let scans = MOST_SUBSCANS * unit(plan.code);
    let count = if rng.once_in(2) { scans } else { 1 + rng.below(2 * scans) } as usize;
    let rest = rng.bytes(count);
    let leap = Leap::over(plan, first.len() as u64 + rng.below(count as u64 + 1));
    let calls = lend_all(block, &calls(&first, &rest));
    let mut state = ours::opened_traces(block);
    let _ = ours::call(&mut state, &calls[0]);
    let mut state = leap.state(&state);
    let wanted = wanted(block, &first, &rest, &leap);
    for (lent, (answer, standing)) in calls.iter().zip(&wanted).skip(1) {
        ask(group, &mut state, lent, (answer, (plan.code, *standing)), || {
            format!(
                "forward {} bytes after a first portion, {}",
                leap.bytes,
                show_lent(block, &calls)
            )
        });
    }
}
