//! States that no call gave: with a field out of its range, or of any numbers.
//!
//! Which states are fit is the library's to define. Those asked about here have
//! a field beyond what the format or a count leaves it, so that no definition
//! that keeps to the ranges can let them pass.

use super::{any_body, ask, turned_away, STATE};
use crate::compare::{Effort, Group, Results};
use crate::make::calls::cut;
use crate::make::headers::{header, small_plan};
use crate::make::rng::Rng;
use crate::ours::body as ours;
use crate::ours::body::{Shape, State, Track};
use crate::reader::calls::Call;
use crate::reader::refusal;
use crate::reader::words::CODES;

pub fn compare(results: &mut Results, effort: Effort) {
    compare_fields(results, effort);
    compare_numbers(results, effort);
}

type Field = fn(&mut State) -> &mut u32;

/// Each field that has a range, with numbers below its least and above its most.
/// No more words, block ends and stops can be than there were bytes.
fn ranges(state: &State) -> Vec<(&'static str, Field, Vec<u32>)> {
    let above = |most: u32| vec![most + 1, most + 2, u32::MAX];
    let (bytes, types) = (state.place, state.shape.types);
    vec![
        ("B", |s| &mut s.shape.scan, vec![0, 1, 7, 1_000_000, u32::MAX]),
        ("advance", |s| &mut s.shape.advance, above((16 * 128) << 8)),
        ("types", |s| &mut s.shape.types, vec![0, 100, u32::MAX]),
        ("block", |s| &mut s.shape.block, above(255 << 15)),
        ("ends", |s| &mut s.ends, above(bytes)),
        ("off", |s| &mut s.off, above(bytes)),
        ("seen", |s| &mut s.track.seen, above(types)),
        ("itb", |s| &mut s.track.itb, above(1)),
        ("twi", |s| &mut s.track.twi, above(1)),
        ("exponents", |s| &mut s.exponents, above(0xFFFF)),
        ("stop", |s| &mut s.stop, [&[1, 12, 13][..], &above(18)].concat()),
        ("stopat", |s| &mut s.stopat, above(bytes)),
    ]
}

fn with_code(state: &State, code: u16) -> State {
    State { shape: Shape { code, ..state.shape }, ..*state }
}

/// Codes without scans: those of demultiplexed records, and some of no row.
fn wrong_codes(rng: &mut Rng) -> Vec<u16> {
    let drawn = (rng.word() >> 16) as u16;
    let near = CODES.iter().flat_map(|code| [code | 0x8000, code + 1, code - 1]);
    let codes = near.chain([0, u16::MAX, drawn]);
    codes.filter(|code| !CODES.contains(code)).collect()
}

/// The state with one field out of its range, for each field and number.
fn spoiled(rng: &mut Rng, state: &State) -> Vec<(String, State)> {
    let codes = wrong_codes(rng);
    let mut all: Vec<(String, State)> =
        codes.iter().map(|code| (format!("code {code:04X}"), with_code(state, *code))).collect();
    for (name, field, numbers) in ranges(state) {
        for number in numbers {
            let mut other = *state;
            *field(&mut other) = number;
            all.push((format!("{name} {number}"), other));
        }
    }
    all
}

/// Portions with room, without room and without bytes, and the other calls.
pub(in crate::compare) fn each_call(bytes: &[u8]) -> Vec<Call> {
    let portion = |bytes: &[u8], room: usize| Call::Portion { bytes: bytes.to_vec(), room };
    let room = bytes.len() * 2;
    vec![
        portion(bytes, room),
        portion(bytes, room.saturating_sub(1)),
        portion(&[], 0),
        portion(&[], 3),
        Call::BlockEnd,
        Call::Close,
    ]
}

/// Every call on an unfit state answers so. That it writes nothing and leaves
/// the state alone is looked at where the call is put.
fn ask_unfit(group: &mut Group, state: State, bytes: &[u8], told: &str) {
    for call in each_call(bytes) {
        let wanted = turned_away(&call, refusal(STATE));
        ask(group, &mut { state }, &call, &wanted, || format!("{told}: {state:?} {call:?}"));
    }
}

/// A state that calls gave, going on or stopped, and bytes to go on with.
fn any_state(rng: &mut Rng, code: u16) -> (State, Vec<u8>) {
    let plan = small_plan(rng, code);
    let block = header(rng, &plan);
    let body = any_body(rng, &plan);
    let calls = cut(rng, &body);
    let mut state = ours::opened_state(&block);
    let so_far = rng.index(calls.len());
    for call in &calls[..so_far] {
        let _ = ours::call(&mut state, call);
    }
    let next = calls[so_far..].iter().find_map(|call| match call {
        Call::Portion { bytes, .. } => Some(bytes.clone()),
        _ => None,
    });
    (state, next.unwrap_or_else(|| rng.bytes(9)))
}

fn compare_fields(results: &mut Results, effort: Effort) {
    let mut rng = Rng::new(605);
    let mut group = Group::new("states with a field out of its range", &[STATE]);
    for n in 0..effort.of(2_000, 40_000) {
        let (state, bytes) = any_state(&mut rng, CODES[n as usize % CODES.len()]);
        for (told, unfit) in spoiled(&mut rng, &state) {
            ask_unfit(&mut group, unfit, &bytes, &told);
        }
    }
    results.add(group);
}

/// Numbers for all fields; that they make a fit state does not come up.
fn any_numbers(rng: &mut Rng) -> State {
    let shape = Shape {
        code: rng.pick(&CODES),
        scan: rng.word(),
        advance: rng.word(),
        types: rng.word(),
        block: rng.word(),
    };
    let track = Track {
        timing: rng.word(),
        seen: rng.word(),
        itb: rng.word(),
        twi: rng.word(),
        window: rng.word(),
    };
    State {
        shape,
        place: rng.word(),
        ends: rng.word(),
        off: rng.word(),
        track,
        held: rng.word(),
        exponents: rng.word(),
        stop: rng.word(),
        stopat: rng.word(),
    }
}

fn compare_numbers(results: &mut Results, effort: Effort) {
    let mut rng = Rng::new(606);
    let mut group = Group::new("states of any numbers", &[STATE]);
    ask_unfit(&mut group, State::default(), &[0xFF; 9], "all 0");
    for _ in 0..effort.of(100_000, 3_000_000) {
        let count = rng.index(20);
        let bytes = rng.bytes(count);
        ask_unfit(&mut group, any_numbers(&mut rng), &bytes, "drawn");
    }
    results.add(group);
}
