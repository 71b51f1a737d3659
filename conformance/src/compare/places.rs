//! Where a sample stands in its scan, asked both ways, and in its trace.

use super::inputs::{any_number, each_block, hex, numbers, HEADER_ROWS};
use super::{Effort, Results, Sorted};
use crate::make::headers::{Plan, Set};
use crate::make::questions::near;
use crate::make::rng::Rng;
use crate::ours::places as ours;
use crate::ours::traces as ours_of_traces;
use crate::reader::layout::{sample_index, sample_place};
use crate::reader::traces::trace_place;
use crate::reader::INDEX;

/// Samples of a scan up to which each is asked about.
const FEW: u32 = 40;

pub fn compare(results: &mut Results, effort: Effort) {
    let kinds: [(&str, &[u8]); 3] =
        [("found", &[0]), ("no such sample", &[INDEX]), ("header refused", &HEADER_ROWS)];
    let mut indices = Sorted::new("index of a sample", &kinds);
    let mut places = Sorted::new("place of a sample", &kinds);
    each_block(results, 301, effort.of(30_000, 400_000), |rng, plan, block| {
        let scan_type = any_number(rng, plan.scan_types.len() as u32);
        ask_places(&mut places, rng, plan, block, scan_type);
        ask_indices(&mut indices, rng, plan, block, scan_type);
    });
    results.add_sorted(indices);
    results.add_sorted(places);
    compare_traces(results, effort);
}

/// Samples of traces: the record has to be demultiplexed and to have such a trace.
fn compare_traces(results: &mut Results, effort: Effort) {
    let kinds: [(&str, &[u8]); 3] =
        [("found", &[0]), ("no such trace", &[INDEX]), ("header refused", &HEADER_ROWS)];
    let mut places = Sorted::new("place of a sample of a trace", &kinds);
    each_block(results, 302, effort.of(30_000, 400_000), |rng, plan, block| {
        for trace in any_traces(rng, plan) {
            let most = rng.pick(&[3, 1_000, u32::MAX - 1]);
            let sample = near(rng, most);
            let ours = ours_of_traces::trace_place(block, trace, sample);
            let wanted = trace_place(block, trace, sample);
            places
                .answers(ours, wanted, || format!("trace {trace} sample {sample} {}", hex(block)));
        }
    });
    results.add_sorted(places);
}

/// Each trace of a small record and one too many, else some.
fn any_traces(rng: &mut Rng, plan: &Plan) -> Vec<u32> {
    let traces = plan.scan_types.iter().flatten().map(|set| set.channels).sum();
    if traces <= FEW && rng.once_in(4) {
        return (0..=traces).collect();
    }
    (0..4).map(|_| near(rng, traces)).collect()
}

/// Each k of a short scan and one too many, else some.
fn any_samples(rng: &mut Rng, plan: &Plan) -> Vec<u32> {
    let samples = plan.samples();
    if samples <= FEW {
        return (0..=samples).chain([near(rng, samples)]).collect();
    }
    (0..8).map(|_| near(rng, samples - 1)).collect()
}

fn ask_places(places: &mut Sorted, rng: &mut Rng, plan: &Plan, block: &[u8], scan_type: u32) {
    for k in any_samples(rng, plan) {
        let (ours, wanted) =
            (ours::sample_place(block, scan_type, k), sample_place(block, scan_type, k));
        places.answers(ours, wanted, || format!("scan type {scan_type} k {k} {}", hex(block)));
    }
}

/// The planned set, or none where there is no such place.
fn planned(plan: &Plan, scan_type: u32, set: u32) -> Set {
    let sets = plan.scan_types.get(scan_type.wrapping_sub(1) as usize);
    let planned = sets.and_then(|sets| sets.get(set.wrapping_sub(1) as usize));
    planned.copied().unwrap_or(Set { channels: 1, exponent: 0 })
}

/// Each channel and subscan of a short scan, with one too many of both.
fn every_place(set: Set) -> Vec<(u32, u32)> {
    let subscans = 0..=1u32 << set.exponent;
    subscans.flat_map(|subscan| (0..=set.channels + 1).map(move |c| (c, subscan))).collect()
}

/// Some channels and subscans, mostly there.
fn any_places(rng: &mut Rng, set: Set) -> Vec<(u32, u32)> {
    let mut place = || {
        let channel = any_number(rng, set.channels);
        (channel, any_number(rng, 1 << set.exponent).wrapping_sub(1))
    };
    (0..4).map(|_| place()).collect()
}

fn ask_indices(indices: &mut Sorted, rng: &mut Rng, plan: &Plan, block: &[u8], scan_type: u32) {
    let every = plan.samples() <= FEW && rng.once_in(10);
    for set in numbers(rng, plan.scan_types[0].len() as u32) {
        let planned = planned(plan, scan_type, set);
        let places = if every { every_place(planned) } else { any_places(rng, planned) };
        for (channel, subscan) in places {
            ask_index(indices, block, [scan_type, set, channel, subscan]);
        }
    }
}

fn ask_index(indices: &mut Sorted, block: &[u8], place: [u32; 4]) {
    let [scan_type, set, channel, subscan] = place;
    let ours = ours::sample_index(block, scan_type, set, channel, subscan);
    let wanted = sample_index(block, scan_type, set, channel, subscan);
    indices.answers(ours, wanted, || {
        format!("scan type, set, channel, subscan {place:?} {}", hex(block))
    });
}
