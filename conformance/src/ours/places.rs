//! Where a sample stands in its scan.

use super::{unfold, Told};
use crate::reader::Refusal;

#[repr(C)]
struct SegdIndex {
    refusal: Told,
    k: u32,
}

#[repr(C)]
struct SegdPlace {
    refusal: Told,
    set: u32,
    channel: u32,
    subscan: u32,
}

extern "C" {
    fn segd_sample_index(
        block: *const u8,
        length: usize,
        scan_type: u32,
        set: u32,
        channel: u32,
        subscan: u32,
    ) -> SegdIndex;
    fn segd_sample_place(block: *const u8, length: usize, scan_type: u32, k: u32) -> SegdPlace;
}

pub fn sample_index(
    block: &[u8],
    scan_type: u32,
    set: u32,
    channel: u32,
    subscan: u32,
) -> Result<u32, Refusal> {
    let (start, length) = (block.as_ptr(), block.len());
    let flat = unsafe { segd_sample_index(start, length, scan_type, set, channel, subscan) };
    unfold(flat.refusal, flat.k, Some)
}

pub fn sample_place(block: &[u8], scan_type: u32, k: u32) -> Result<(u32, u32, u32), Refusal> {
    let flat = unsafe { segd_sample_place(block.as_ptr(), block.len(), scan_type, k) };
    unfold(flat.refusal, (flat.set, flat.channel, flat.subscan), Some)
}
