//! The parts of the header block that are handed out as they stand.

use super::inputs::{each_block, hex, HEADER_ROWS};
use super::{Effort, Results, Sorted};
use crate::ours::parts as ours;
use crate::reader::layout::{constants, extended, external};

pub fn compare(results: &mut Results, effort: Effort) {
    let kinds: [(&str, &[u8]); 2] = [("handed out", &[0]), ("header refused", &HEADER_ROWS)];
    let mut sorted = ["constants", "extended header", "external header"]
        .map(|question| Sorted::new(question, &kinds));
    each_block(results, 401, effort.of(120_000, 1_000_000), |_, _, block| {
        sorted[0].answers(ours::constants(block), constants(block), || hex(block));
        sorted[1].answers(ours::extended(block), extended(block), || hex(block));
        sorted[2].answers(ours::external(block), external(block), || hex(block));
    });
    sorted.into_iter().for_each(|question| results.add_sorted(question));
}
