//! Skew bytes, of the block or of the crew's sheet, and sample times.

use super::{flag, unfold, Told};
use crate::reader::layout::Source;
use crate::reader::Refusal;

#[repr(C)]
struct SegdSkew {
    refusal: Told,
    of_sheet: u8,
    offset: u64,
    length: u64,
}

#[repr(C)]
struct SegdByte {
    refusal: Told,
    value: u8,
}

#[repr(C)]
struct SegdTime {
    refusal: Told,
    time: u32,
}

extern "C" {
    fn segd_skew(
        block: *const u8,
        block_length: usize,
        sheet: *const u8,
        sheet_length: usize,
        scan_type: u32,
    ) -> SegdSkew;
    fn segd_skew_at(
        block: *const u8,
        block_length: usize,
        sheet: *const u8,
        sheet_length: usize,
        scan_type: u32,
        k: u32,
    ) -> SegdByte;
    fn segd_sample_time(
        block: *const u8,
        block_length: usize,
        sheet: *const u8,
        sheet_length: usize,
        scan_type: u32,
        k: u32,
        t: u32,
    ) -> SegdTime;
}

fn source(of_sheet: u8) -> Option<Source> {
    flag(of_sheet).map(|sheet| if sheet { Source::Sheet } else { Source::Block })
}

pub fn skew(block: &[u8], sheet: &[u8], scan_type: u32) -> Result<(Source, usize, usize), Refusal> {
    let flat =
        unsafe { segd_skew(block.as_ptr(), block.len(), sheet.as_ptr(), sheet.len(), scan_type) };
    unfold(flat.refusal, (flat.of_sheet, flat.offset, flat.length), |(of_sheet, offset, length)| {
        Some((source(of_sheet)?, offset.try_into().ok()?, length.try_into().ok()?))
    })
}

pub fn skew_at(block: &[u8], sheet: &[u8], scan_type: u32, k: u32) -> Result<u8, Refusal> {
    let flat = unsafe {
        segd_skew_at(block.as_ptr(), block.len(), sheet.as_ptr(), sheet.len(), scan_type, k)
    };
    unfold(flat.refusal, flat.value, Some)
}

pub fn sample_time(
    block: &[u8],
    sheet: &[u8],
    scan_type: u32,
    k: u32,
    t: u32,
) -> Result<u32, Refusal> {
    let flat = unsafe {
        segd_sample_time(block.as_ptr(), block.len(), sheet.as_ptr(), sheet.len(), scan_type, k, t)
    };
    unfold(flat.refusal, flat.time, Some)
}
