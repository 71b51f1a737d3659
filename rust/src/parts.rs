//! The parts of the block that are handed out as they stand; skew and time.

use crate::{ffi, Refusal};

/// Where the library says that a part lies, in what was lent.
fn part(lent: &[u8], offset: u64, length: u64) -> &[u8] {
    &lent[offset as usize..][..length as usize]
}

fn of_block(block: &[u8], told: ffi::Part) -> Result<&[u8], Refusal> {
    told.refusal.or(()).map(|()| part(block, told.offset, told.length))
}

/// The six constants, bytes 5 to 10 of the block.
///
/// Refuses as [`crate::read_header`] does.
pub fn constants(block: &[u8]) -> Result<&[u8], Refusal> {
    of_block(block, ffi::constants(block))
}

/// The extended header.
///
/// Refuses as [`crate::read_header`] does.
pub fn extended(block: &[u8]) -> Result<&[u8], Refusal> {
    of_block(block, ffi::extended(block))
}

/// The external header.
///
/// Refuses as [`crate::read_header`] does.
pub fn external(block: &[u8]) -> Result<&[u8], Refusal> {
    of_block(block, ffi::external(block))
}

/// The skew bytes of a scan type, one for each sample of its scans: of the block where skew is recorded, else of the crew's sheet,
/// which has those of every scan type in order.
///
/// Refuses as [`crate::read_header`] does, then [`Refusal::Index`] where there is no such scan type, then [`Refusal::Sheet`] where the
/// sheet is used and its length is wrong.
pub fn skew<'a>(block: &'a [u8], sheet: &'a [u8], scan_type: u32) -> Result<&'a [u8], Refusal> {
    let told = ffi::skew(block, sheet, scan_type);
    let lent = if told.of_sheet == 1 { sheet } else { block };
    told.refusal.or(()).map(|()| part(lent, told.offset, told.length))
}

/// The skew byte of sample `k`, in 1/256 of the base scan interval.
///
/// Refuses as [`skew`] does, and [`Refusal::Index`] where there is no such sample.
pub fn skew_at(block: &[u8], sheet: &[u8], scan_type: u32, k: u32) -> Result<u8, Refusal> {
    let byte = ffi::skew_at(block, sheet, scan_type, k);
    byte.refusal.or(byte.value)
}

/// The time of sample `k` in 1/4096 ms, in a scan whose timing word is `t` (in 1/256 ms).
///
/// Refuses as [`skew_at`] does, and [`Refusal::Index`] where `t` has more than 24 bits.
pub fn sample_time(
    block: &[u8],
    sheet: &[u8],
    scan_type: u32,
    k: u32,
    t: u32,
) -> Result<u32, Refusal> {
    let time = ffi::sample_time(block, sheet, scan_type, k, t);
    time.refusal.or(time.time)
}
