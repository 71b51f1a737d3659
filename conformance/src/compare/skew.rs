//! Skew bytes, of the block or of the crew's sheet, and sample times.

use super::inputs::{any_number, each_block, hex, HEADER_ROWS};
use super::{Effort, Results, Sorted};
use crate::make::headers::Plan;
use crate::make::questions::{any_sheet, near};
use crate::make::rng::Rng;
use crate::ours::skew as ours;
use crate::reader::layout::{sample_time, skew, skew_at};
use crate::reader::{INDEX, SHEET};

/// The longest sheet that is drawn; a longer one would take all the time.
const LONGEST_SHEET: u64 = 200_000;

/// The three questions' groups.
struct Asked {
    parts: Sorted,
    bytes: Sorted,
    times: Sorted,
}

pub fn compare(results: &mut Results, effort: Effort) {
    let kinds: [(&str, &[u8]); 4] = [
        ("answered", &[0]),
        ("out of range", &[INDEX]),
        ("sheet refused", &[SHEET]),
        ("header refused", &HEADER_ROWS),
    ];
    let mut asked = Asked {
        parts: Sorted::new("skew of a scan type", &kinds),
        bytes: Sorted::new("skew of a sample", &kinds),
        times: Sorted::new("time of a sample", &kinds),
    };
    each_block(results, 501, effort.of(120_000, 1_000_000), |rng, plan, block| {
        let sheet = lent_sheet(rng, plan);
        for _ in 0..3 {
            ask(&mut asked, rng, plan, block, &sheet);
        }
    });
    [asked.parts, asked.bytes, asked.times].into_iter().for_each(|each| results.add_sorted(each));
}

fn lent_sheet(rng: &mut Rng, plan: &Plan) -> Vec<u8> {
    let needed = plan.scan_types.len() as u64 * u64::from(plan.samples());
    if needed > LONGEST_SHEET {
        return rng.bytes(32);
    }
    any_sheet(rng, plan)
}

fn ask(asked: &mut Asked, rng: &mut Rng, plan: &Plan, block: &[u8], sheet: &[u8]) {
    let scan_type = any_number(rng, plan.scan_types.len() as u32);
    let k = any_number(rng, plan.samples()).wrapping_sub(1);
    let t = near(rng, (1 << 24) - 1);
    let input = || {
        let sheet = hex(sheet);
        format!("scan type {scan_type} k {k} T {t} sheet {sheet} block {}", hex(block))
    };
    asked.parts.answers(ours::skew(block, sheet, scan_type), skew(block, sheet, scan_type), input);
    asked.bytes.answers(
        ours::skew_at(block, sheet, scan_type, k),
        skew_at(block, sheet, scan_type, k),
        input,
    );
    asked.times.answers(
        ours::sample_time(block, sheet, scan_type, k, t),
        sample_time(block, sheet, scan_type, k, t),
        input,
    );
}
