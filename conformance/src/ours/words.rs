//! Formats and sample words.

use super::{flag, unfold, Told};
use crate::reader::Refusal;

/// A format's row; all 0 where there is none.
#[repr(C)]
#[derive(Clone, Copy, Debug, Default, PartialEq, Eq)]
pub struct SegdFormat {
    pub found: u8,
    /// 1: negatives complemented; 2: sign and magnitude; 3: the same, left justified
    pub kind: u8,
    /// bits of a sample, the exponent that stands apart among them
    pub width: u32,
    /// bits of exponent that stand apart from the word
    pub apart: u32,
    /// bits of fraction
    pub fraction: u32,
    /// how much one more in the exponent adds to X
    pub base: u32,
    /// bits of exponent
    pub exponent: u32,
    /// the exponent that stands for none
    pub bias: u32,
}

#[repr(C)]
struct SegdWord {
    refusal: Told,
    m: i32,
    x: i32,
    off: u8,
}

extern "C" {
    fn segd_format(code: u16) -> SegdFormat;
    fn segd_read_word(code: u16, c: u32, word: u32) -> SegdWord;
}

pub fn format(code: u16) -> SegdFormat {
    unsafe { segd_format(code) }
}

pub fn read_word(code: u16, c: u32, word: u32) -> Result<(i32, i32, bool), Refusal> {
    let flat = unsafe { segd_read_word(code, c, word) };
    let rest = (flat.m, flat.x, flat.off);
    unfold(flat.refusal, rest, |(m, x, off)| Some((m, x, flag(off)?)))
}
