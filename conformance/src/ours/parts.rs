//! The parts of the header block that are handed out as they stand.

use super::{unfold, Told};
use crate::reader::Refusal;

#[repr(C)]
struct SegdPart {
    refusal: Told,
    offset: u64,
    length: u64,
}

extern "C" {
    fn segd_constants(block: *const u8, length: usize) -> SegdPart;
    fn segd_extended(block: *const u8, length: usize) -> SegdPart;
    fn segd_external(block: *const u8, length: usize) -> SegdPart;
}

/// Offset and length in the block.
fn part(flat: SegdPart) -> Result<(usize, usize), Refusal> {
    unfold(flat.refusal, (flat.offset, flat.length), |(offset, length)| {
        Some((offset.try_into().ok()?, length.try_into().ok()?))
    })
}

pub fn constants(block: &[u8]) -> Result<(usize, usize), Refusal> {
    part(unsafe { segd_constants(block.as_ptr(), block.len()) })
}

pub fn extended(block: &[u8]) -> Result<(usize, usize), Refusal> {
    part(unsafe { segd_extended(block.as_ptr(), block.len()) })
}

pub fn external(block: &[u8]) -> Result<(usize, usize), Refusal> {
    part(unsafe { segd_external(block.as_ptr(), block.len()) })
}
