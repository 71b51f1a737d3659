//! Packed pairs, the header block and its descriptors.

use super::inputs::{each_block, hex, numbers, HEADER_ROWS};
use super::{Effort, Group, Results, Sorted};
use crate::make::headers::{header, small_plan, Plan};
use crate::make::rng::Rng;
use crate::ours::header as ours;
use crate::reader::header::{descriptor, packed, read_header, Header};
use crate::reader::words::{CODES, TRACE_CODES};
use crate::reader::{Refusal, FOUR, INDEX, SHORT, SKEW};

/// Two-byte fields, by their name and the place of their first byte from 0. The
/// places from 32 on are those of the first descriptor.
const FIELDS: [(&str, usize); 12] = [
    ("file number", 0),
    ("format code", 2),
    ("year and day", 10),
    ("day", 11),
    ("hour and minute", 13),
    ("B, upper", 19),
    ("B, lower", 20),
    ("ST/R and CS", 27),
    ("scan type and set", 32),
    ("channels", 32 + 8),
    ("channel type, S/C and gain", 32 + 10),
    ("alias slope", 32 + 14),
];

pub fn compare(results: &mut Results, effort: Effort) {
    compare_pairs(results);
    compare_drawn(results, effort);
    for code in CODES.into_iter().chain(TRACE_CODES) {
        compare_each_byte(results, effort, code);
    }
    for (name, place) in FIELDS {
        compare_field(results, effort, name, place);
    }
    compare_descriptors(results, effort);
}

fn compare_pairs(results: &mut Results) {
    let mut group = Group::new("packed pairs", &[0]);
    for byte in 0..=u8::MAX {
        let wanted = packed(byte).map_or((0, 0), |value| (1, value));
        group.values(ours::packed(byte), wanted, || format!("byte {byte:02X}"));
    }
    results.add(group);
}

/// The reader's answer without the constants, which the library hands out as a
/// part and not as a field.
fn wanted(block: &[u8]) -> Result<Header, Refusal> {
    read_header(block).map(|header| Header { constants: [0; 6], ..header })
}

fn compare_drawn(results: &mut Results, effort: Effort) {
    let names: Vec<String> = HEADER_ROWS.iter().map(|row| format!("refused {row}")).collect();
    let refused = names.iter().zip(&HEADER_ROWS);
    let refused = refused.map(|(name, row)| (name.as_str(), std::slice::from_ref(row)));
    let kinds: Vec<(&str, &[u8])> = [("accepted", &[0][..])].into_iter().chain(refused).collect();
    let mut sorted = Sorted::new("headers", &kinds);
    each_block(results, 201, effort.of(600_000, 4_000_000), |_, _, block| {
        sorted.answers(ours::read_header(block), wanted(block), || hex(block));
    });
    results.add_sorted(sorted);
}

/// A plan with more than one scan type and set and with all parts, so that
/// every kind of byte is in its block.
fn rich_plan(rng: &mut Rng, code: u16) -> Plan {
    let rich = |plan: &Plan| {
        let (scan_types, sets) = (plan.scan_types.len(), plan.scan_types[0].len());
        (2..5).contains(&scan_types) && sets > 1 && plan.skew_fields > 0
    };
    let mut plan = small_plan(rng, code);
    while !rich(&plan) {
        plan = small_plan(rng, code);
    }
    Plan { extended_fields: 1, external_fields: 1, ..plan }
}

/// Each byte of a sound header with each value. No byte alone makes it SHORT;
/// only 0015 knows FOUR; and for SKEW another S/S would have to fit B too, or the
/// other scan types.
fn compare_each_byte(results: &mut Results, effort: Effort, code: u16) {
    let due: Vec<u8> =
        [0].into_iter().chain(HEADER_ROWS).filter(|row| may_come(code, *row)).collect();
    let name = format!("headers of {code:04X}, each byte with each value{}", effort.thinned());
    let mut group = Group::new(&name, &due);
    let mut rng = Rng::new(202 + u64::from(code));
    for _ in 0..effort.of(1, 8) {
        let plan = rich_plan(&mut rng, code);
        let block = header(&mut rng, &plan);
        each_byte(&mut group, block, effort.step());
    }
    results.code(code, group.asked());
    results.add(group);
}

fn may_come(code: u16, row: u8) -> bool {
    row != SHORT && row != SKEW && (row != FOUR || code == 0x0015)
}

/// A step of more than 1 begins at another value in the next byte.
fn each_byte(group: &mut Group, mut block: Vec<u8>, step: usize) {
    for place in 0..block.len() {
        let kept = block[place];
        for byte in (0..=u8::MAX).skip(place % step).step_by(step) {
            block[place] = byte;
            ask(group, &block);
        }
        block[place] = kept;
    }
}

fn ask(group: &mut Group, block: &[u8]) {
    group.answers(ours::read_header(block), wanted(block), || hex(block));
}

/// Two bytes that belong together with each of their 65,536 values.
fn compare_field(results: &mut Results, effort: Effort, name: &str, place: usize) {
    let mut group = Group::new(&format!("headers with every {name}"), &[0]);
    let mut rng = Rng::new(203);
    let codes = CODES.into_iter().zip(TRACE_CODES).take(effort.of(1, 6) as usize);
    for code in codes.flat_map(|(scans, traces)| [scans, traces]) {
        let plan = rich_plan(&mut rng, code);
        let mut block = header(&mut rng, &plan);
        for value in 0..=u16::MAX {
            block[place..place + 2].copy_from_slice(&value.to_be_bytes());
            ask(&mut group, &block);
        }
        results.code(code, 1 << 16);
    }
    results.add(group);
}

/// The descriptors of drawn headers, with scan types and sets that are not there.
fn compare_descriptors(results: &mut Results, effort: Effort) {
    let kinds: [(&str, &[u8]); 3] =
        [("described", &[0]), ("no such set", &[INDEX]), ("header refused", &HEADER_ROWS)];
    let mut sorted = Sorted::new("descriptors", &kinds);
    each_block(results, 204, effort.of(30_000, 400_000), |rng, plan, block| {
        for scan_type in numbers(rng, plan.scan_types.len() as u32) {
            for set in numbers(rng, plan.scan_types[0].len() as u32) {
                ask_set(&mut sorted, block, scan_type, set);
            }
        }
    });
    results.add_sorted(sorted);
}

fn ask_set(sorted: &mut Sorted, block: &[u8], scan_type: u32, set: u32) {
    let (ours, wanted) =
        (ours::descriptor(block, scan_type, set), descriptor(block, scan_type, set));
    sorted.answers(ours, wanted, || format!("scan type {scan_type} set {set} {}", hex(block)));
}
