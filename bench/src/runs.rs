//! Whole sample words at once: a loop for each code.

use crate::words::*;

/// Words of W bytes: fills the output with M and X of each, and counts those off rule.
fn words<const W: usize>(bytes: &[u8], out: &mut [i32], word: impl Fn([u8; W]) -> Word) -> u32 {
    let mut off = 0;
    for (bytes, pair) in bytes.as_chunks::<W>().0.iter().zip(out.as_chunks_mut::<2>().0) {
        let (m, x, wrong) = word(*bytes);
        *pair = [m, x];
        off += u32::from(wrong);
    }
    off
}

/// One-byte words, looked up. The count is a loop of its own: it runs over many bytes at a time.
fn looked_up(bytes: &[u8], out: &mut [i32], table: &Table, wrong: impl Fn(u8) -> bool) -> u32 {
    for (byte, pair) in bytes.iter().zip(out.as_chunks_mut::<2>().0) {
        *pair = table[usize::from(*byte)];
    }
    bytes.iter().map(|byte| u32::from(wrong(*byte))).sum()
}

pub fn run_0022(bytes: &[u8], out: &mut [i32]) -> u32 {
    looked_up(bytes, out, &TABLE_0022, |w| word_0022(w).2)
}

pub fn run_0042(bytes: &[u8], out: &mut [i32]) -> u32 {
    looked_up(bytes, out, &TABLE_0042, |w| word_0042(w).2)
}

pub fn run_0024(bytes: &[u8], out: &mut [i32]) -> u32 {
    words(bytes, out, |w| word_0024(u16::from_be_bytes(w).into()))
}

pub fn run_0044(bytes: &[u8], out: &mut [i32]) -> u32 {
    words(bytes, out, |w| word_0044(u16::from_be_bytes(w).into()))
}

pub fn run_0048(bytes: &[u8], out: &mut [i32]) -> u32 {
    words(bytes, out, |w| word_0048(u32::from_be_bytes(w)))
}

pub fn run_0015(bytes: &[u8], out: &mut [i32]) -> u32 {
    groups(bytes, out, word_0015)
}

pub fn run_8015(bytes: &[u8], out: &mut [i32]) -> u32 {
    groups(bytes, out, word_8015)
}

/// Groups of ten bytes: four exponents, then four words.
#[inline(always)]
fn groups(bytes: &[u8], out: &mut [i32], word: impl Fn(u32, u32) -> Word) -> u32 {
    let mut off = 0;
    for (group, samples) in bytes.as_chunks::<10>().0.iter().zip(out.as_chunks_mut::<8>().0) {
        let pair = |i: usize| u32::from(u16::from_be_bytes([group[i], group[i + 1]]));
        let exponents = pair(0);
        for k in 0..4 {
            let (m, x, wrong) = word(exponents >> (12 - 4 * k) & 0xF, pair(2 + 2 * k));
            samples[2 * k] = m;
            samples[2 * k + 1] = x;
            off += u32::from(wrong);
        }
    }
    off
}
