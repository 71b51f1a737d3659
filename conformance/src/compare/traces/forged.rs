//! States that no call gave: with a field out of its range, or of any numbers.
//!
//! include/segd.h says which states are fit for a block. Those that are not are turned
//! away by every call; of those that are it is asked only that they are not, since it is
//! nowhere said what they come to.

use super::{any_traces, lend_all, ours, STATE};
use crate::compare::body::{each_call, refusal_in, turned_away};
use crate::compare::inputs::hex;
use crate::compare::{Effort, Group, Results};
use crate::make::calls::cut;
use crate::make::headers::{header, trace_plan};
use crate::make::questions::near;
use crate::make::rng::Rng;
use crate::ours::body::Said;
use crate::ours::traces::Traces;
use crate::reader::calls::{Call, Lent};
use crate::reader::traces::is_fit;
use crate::reader::words::TRACE_CODES;
use crate::reader::{refusal, FOUR};

pub fn compare(results: &mut Results, effort: Effort) {
    compare_fields(results, effort);
    compare_numbers(results, effort);
}

type Field = fn(&mut Traces) -> &mut u32;

/// The numbers of a state in its order.
const FIELDS: [(&str, Field); 11] = [
    ("place", |s| &mut s.place),
    ("ends", |s| &mut s.ends),
    ("at", |s| &mut s.at),
    ("samples", |s| &mut s.samples),
    ("off", |s| &mut s.off),
    ("present", |s| &mut s.present),
    ("scans", |s| &mut s.scans),
    ("held", |s| &mut s.held),
    ("exponents", |s| &mut s.exponents),
    ("stop", |s| &mut s.stop),
    ("stopat", |s| &mut s.stopat),
];

fn numbers(state: &Traces) -> [u32; 11] {
    FIELDS.map(|(_, field)| *field(&mut { *state }))
}

fn fit(block: &[u8], state: &Traces) -> bool {
    is_fit(block, state.code, &numbers(state)).expect("an accepted header")
}

/// Whether a call says that its state is unfit.
fn says_unfit(said: &Said) -> Result<bool, String> {
    let answer = said.as_ref().map_err(String::clone)?;
    Ok(refusal_in(answer).is_some_and(|refusal| refusal.number == STATE))
}

/// A stop that no body has: one of row 8 before the first byte, which is told as a
/// header's refusal is.
fn stopped_nowhere(state: &Traces) -> bool {
    state.stop == FOUR.into() && state.stopat == 0
}

/// Every call on an unfit state answers so, and no call on a fit one. That a call that
/// is turned away writes nothing and leaves the state alone is looked at where it is put.
fn ask_fitness(group: &mut Group, block: &[u8], state: Traces, bytes: &[u8], told: &str) {
    let fit = fit(block, &state);
    if fit && stopped_nowhere(&state) {
        return;
    }
    for call in each_call(bytes) {
        let away = turned_away(&call, refusal(STATE));
        let lent = Lent { block: block.to_vec(), call };
        let said = ours::call(&mut { state }, &lent);
        let input = || format!("{told}: {state:?} {:?} under {}", lent.call, hex(block));
        if fit {
            group.under(0, says_unfit(&said), Ok(false), input);
        } else {
            group.under(STATE.into(), said, Ok(away), input);
        }
    }
}

/// A header block, a state that calls gave on it, going on or stopped, and bytes to go
/// on with.
fn any_state(rng: &mut Rng, code: u16) -> (Vec<u8>, Traces, Vec<u8>) {
    let plan = trace_plan(rng, code);
    let block = header(rng, &plan);
    let body = any_traces(rng, &plan, &block);
    let calls = cut(rng, &body);
    let mut state = ours::opened_traces(&block);
    let so_far = rng.index(calls.len());
    for lent in lend_all(&block, &calls[..so_far]) {
        let _ = ours::call(&mut state, &lent);
    }
    let next = calls[so_far..].iter().find_map(|call| match call {
        Call::Portion { bytes, .. } => Some(bytes.clone()),
        _ => None,
    });
    let next = next.unwrap_or_else(|| rng.bytes(9));
    (block, state, next)
}

/// Numbers at the edges of every range, within it and beyond.
fn edges(state: &Traces) -> Vec<u32> {
    let around = |number: u32| [number.wrapping_sub(1), number, number.wrapping_add(1)];
    let counts = [0, state.ends, state.at, state.place - state.at, state.place, 0xFFFF, u32::MAX];
    let rows = [7, 8, 9, 13, 14, 15, 16, 18, 19, 23, 24, 25, 26];
    counts.into_iter().flat_map(around).chain(rows).collect()
}

/// The codes of the other records, and one of none.
fn other_codes(code: u16) -> impl Iterator<Item = u16> {
    TRACE_CODES
        .into_iter()
        .chain([0, code & 0x7FFF, code + 1, u16::MAX])
        .filter(move |c| *c != code)
}

/// Each field of states that calls gave, with numbers in range and out of it.
fn compare_fields(results: &mut Results, effort: Effort) {
    let mut rng = Rng::new(654);
    let mut group = Group::new("states of traces with a field changed", &[0, STATE]);
    for n in 0..effort.of(60, 6_000) {
        let code = TRACE_CODES[n as usize % TRACE_CODES.len()];
        let (block, state, bytes) = any_state(&mut rng, code);
        for code in other_codes(code) {
            let other = Traces { code, ..state };
            ask_fitness(&mut group, &block, other, &bytes, &format!("code {code:04X}"));
        }
        for (name, field) in FIELDS {
            for number in edges(&state) {
                let mut other = state;
                *field(&mut other) = number;
                ask_fitness(&mut group, &block, other, &bytes, &format!("{name} {number}"));
            }
        }
    }
    results.add(group);
}

/// A state of drawn numbers, at times all of them near to a place, so that it may be fit.
fn any_numbers(rng: &mut Rng, code: u16) -> Traces {
    let mut state = Traces { code, ..Traces::default() };
    let small = rng.once_in(2);
    let place = if small { rng.range(0, 300) } else { rng.word() };
    for (_, field) in FIELDS {
        *field(&mut state) = if small { near(rng, place / 3) } else { near(rng, place) };
    }
    state.place = place;
    state.stop =
        if rng.once_in(8) { rng.range(0, 30) } else { rng.pick(&[0, 0, 8, 14, 15, 24, 25]) };
    state
}

fn compare_numbers(results: &mut Results, effort: Effort) {
    let mut rng = Rng::new(655);
    let mut group = Group::new("states of traces of any numbers", &[0, STATE]);
    for n in 0..effort.of(30_000, 1_500_000) {
        let code = TRACE_CODES[n as usize % TRACE_CODES.len()];
        let plan = trace_plan(&mut rng, code);
        let block = header(&mut rng, &plan);
        let count = rng.index(20);
        let bytes = rng.bytes(count);
        let state = if n == 0 { Traces::default() } else { any_numbers(&mut rng, code) };
        ask_fitness(&mut group, &block, state, &bytes, "drawn");
    }
    results.add(group);
}
