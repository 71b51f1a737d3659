//! Bodies of traces, cut at random, against the uncut body of the reader: every answer,
//! and how the state stands after it.

mod each;
mod forged;
mod limit;

use super::body::{kind_of, refusal_in, refused_header, show};
use super::inputs::{hex, HEADER_ROWS};
use super::{Effort, Group, Results};
use crate::make::calls::{cut, lend};
use crate::make::headers::{any_code, header, small_plan, trace_plan, wide_plan, Plan};
use crate::make::rng::Rng;
use crate::make::traces::{damaged_traces, first_trace, sound_traces};
use crate::ours::traces as ours;
use crate::ours::traces::Traces;
use crate::reader::body::Body;
use crate::reader::calls::{standings, trace_answers, Answer, Call, Lent};
use crate::reader::traces::Standing;
use crate::reader::words::{CODES, TRACE_CODES};
use crate::reader::{BLOCK, COUNT, FOUR, MISSING, OPEN, PART, ROOM, STATE, TRACE};

pub fn compare(results: &mut Results, effort: Effort) {
    compare_first_bytes(results, effort);
    compare_cut(results, effort);
    compare_unopened(results, effort);
    each::compare(results, effort);
    forged::compare(results, effort);
    limit::compare(results, effort);
}

/// The code in a state, and what it says of the body so far.
type Stands = (u16, Standing);

fn stands(state: &Traces) -> Stands {
    let standing = Standing {
        place: state.place.into(),
        ends: state.ends as usize,
        at: state.at.into(),
        samples: state.samples as usize,
        off: state.off,
        present: state.present.into(),
        scans: state.scans.into(),
        stop: (state.stop != 0).then_some((state.stop as u8, state.stopat)),
    };
    (state.code, standing)
}

/// Puts a call, and compares its answer and the state after it.
fn ask(
    group: &mut Group,
    state: &mut Traces,
    lent: &Lent,
    wanted: (&Answer, Stands),
    input: impl Fn() -> String,
) {
    let said = ours::call(state, lent);
    let row = refusal_in(wanted.0).map_or(0, |refusal| refusal.number.into());
    group.under(row, (said, stands(state)), (Ok(wanted.0.clone()), wanted.1), input);
}

/// The groups of portions, block ends and closings, and of calls that are lent another
/// header block than that of the opening.
fn groups_of_calls() -> [Group; 4] {
    let stops = [0, FOUR, BLOCK, TRACE, COUNT];
    let group = |name: &str, more: &[u8]| {
        Group::new(&format!("{name}, traces"), &[&stops[..], more].concat())
    };
    [
        group("portions", &[ROOM]),
        group("block ends", &[]),
        group("closings", &[PART, OPEN, MISSING]),
        Group::new("calls on traces lent another header", &[&HEADER_ROWS[..], &[STATE]].concat()),
    ]
}

/// The opening's block, the last call with its own, and what the calls bring.
fn show_lent(block: &[u8], calls: &[Lent]) -> String {
    let last = calls.last().map_or(String::new(), |lent| match lent.block == *block {
        true => String::new(),
        false => format!(" the last lent {}", hex(&lent.block)),
    });
    let own = calls.iter().filter(|lent| lent.block == *block);
    let own: Vec<Call> = own.map(|lent| lent.call.clone()).collect();
    show(block, &own) + &last
}

/// The place of a call among those groups.
fn group_of(block: &[u8], lent: &Lent) -> usize {
    if lent.block == *block {
        kind_of(&lent.call)
    } else {
        3
    }
}

/// Opens and puts the calls one after the other, each counted in its group.
fn ask_each(groups: &mut [Group], group_of: impl Fn(&Lent) -> usize, block: &[u8], calls: &[Lent]) {
    let (_, wanted) = trace_answers(block, calls);
    let standings = standings(block, calls).expect("an accepted header of traces");
    let code = u16::from_be_bytes([block[2], block[3]]);
    let mut state = ours::opened_traces(block);
    for (i, lent) in calls.iter().enumerate() {
        let wanted = (&wanted[i], (code, standings[i]));
        ask(&mut groups[group_of(lent)], &mut state, lent, wanted, || {
            show_lent(block, &calls[..=i])
        });
    }
}

/// The calls, each lent the block of the opening.
fn lend_all(block: &[u8], calls: &[Call]) -> Vec<Lent> {
    calls.iter().map(|call| Lent { block: block.to_vec(), call: call.clone() }).collect()
}

fn any_traces(rng: &mut Rng, plan: &Plan, block: &[u8]) -> Body {
    if rng.once_in(2) {
        sound_traces(rng, plan, block)
    } else {
        damaged_traces(rng, plan, block)
    }
}

/// Blocks that no call on the body may be lent: one that is refused, one of scans, and
/// one of traces in another code.
fn other_blocks(rng: &mut Rng, code: u16) -> Vec<Vec<u8>> {
    let other = TRACE_CODES.into_iter().cycle().skip_while(|each| *each != code).nth(1);
    let (multiplexed, other) = (any_code(rng), other.expect("there are six"));
    let of_any = if rng.once_in(2) { multiplexed } else { code };
    let [refused, scans, traces] = [of_any, multiplexed, other].map(|code| small_plan(rng, code));
    vec![refused_header(rng, &refused), header(rng, &scans), header(rng, &traces)]
}

/// Bodies of each code in turn, sound and damaged, cut at random.
fn compare_cut(results: &mut Results, effort: Effort) {
    let mut rng = Rng::new(651);
    let mut groups = groups_of_calls();
    for n in 0..effort.of(12_000, 300_000) {
        let code = TRACE_CODES[n as usize % TRACE_CODES.len()];
        let plan = trace_plan(&mut rng, code);
        let block = header(&mut rng, &plan);
        let body = any_traces(&mut rng, &plan, &block);
        let calls = cut(&mut rng, &body);
        let others = other_blocks(&mut rng, code);
        let calls = lend(&mut rng, &block, &others, &calls);
        ask_each(&mut groups, |lent| group_of(&block, lent), &block, &calls);
        results.code(code, calls.len() as u64);
    }
    groups.into_iter().for_each(|group| results.add(group));
}

/// The states of headers of any size are fit: calls on them are not turned away.
fn compare_first_bytes(results: &mut Results, effort: Effort) {
    let mut rng = Rng::new(652);
    let mut group = Group::new("first traces of records of any size", &[0, BLOCK, MISSING]);
    for n in 0..effort.of(300, 6_000) {
        let plan = wide_plan(&mut rng, TRACE_CODES[n as usize % TRACE_CODES.len()]);
        let block = header(&mut rng, &plan);
        let bytes = first_trace(&mut rng, &plan, &block);
        let room = 2 * bytes.len();
        let calls = [Call::Portion { bytes, room }, Call::BlockEnd, Call::Close];
        let calls = lend_all(&block, &calls);
        let (_, wanted) = trace_answers(&block, &calls);
        let mut state = ours::opened_traces(&block);
        for (i, lent) in calls.iter().enumerate() {
            let said = ours::call(&mut state, lent);
            let row = refusal_in(&wanted[i]).map_or(0, |refusal| refusal.number.into());
            group.under(row, said, Ok(wanted[i].clone()), || show_lent(&block, &calls[..=i]));
        }
    }
    results.add(group);
}

/// The calls of a sound body on what a refused opening handed out, or one of scans.
fn compare_unopened(results: &mut Results, effort: Effort) {
    let mut rng = Rng::new(653);
    let mut group = Group::new("calls on traces after another opening", &[STATE]);
    for n in 0..effort.of(2_000, 40_000) as usize {
        let plan = trace_plan(&mut rng, TRACE_CODES[n % TRACE_CODES.len()]);
        let block = header(&mut rng, &plan);
        let scans = small_plan(&mut rng, CODES[n % CODES.len()]);
        let other = match n / 6 % 2 {
            0 => header(&mut rng, &scans),
            _ => refused_header(&mut rng, &scans),
        };
        let body = sound_traces(&mut rng, &plan, &block);
        let calls = cut(&mut rng, &body);
        let calls = lend_all(&block, &calls);
        let (_, wanted) = trace_answers(&other, &calls);
        let mut state = ours::opened_traces(&other);
        for (i, lent) in calls.iter().enumerate() {
            let wanted = (&wanted[i], (0, Standing::default()));
            ask(&mut group, &mut state, lent, wanted, || show_lent(&block, &calls[..=i]));
        }
    }
    results.add(group);
}
