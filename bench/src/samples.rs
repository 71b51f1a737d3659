//! The samples of a scan or of a trace: whole groups at once, and those that a portion's end cuts.

use crate::runs;
use crate::words;
use crate::words::Word;

#[derive(Clone, Copy, Debug, PartialEq, Eq)]
pub enum Code {
    C0015,
    C0022,
    C0024,
    C0042,
    C0044,
    C0048,
    C8015,
}

impl Code {
    /// Bytes of a group of samples on tape: one sample, or four in 0015 and 8015.
    pub fn group(self) -> usize {
        match self {
            Code::C0022 | Code::C0042 => 1,
            Code::C0024 | Code::C0044 => 2,
            Code::C0048 => 4,
            Code::C0015 | Code::C8015 => 10,
        }
    }

    pub fn samples_of_group(self) -> u32 {
        if self.group() == 10 {
            4
        } else {
            1
        }
    }
}

/// The output of a portion, and how much of it is filled.
pub struct Output<'a> {
    pub numbers: &'a mut [i32],
    pub filled: usize,
}

impl Output<'_> {
    fn put(&mut self, m: i32, x: i32) {
        self.numbers[self.filled..self.filled + 2].copy_from_slice(&[m, x]);
        self.filled += 2;
    }
}

/// Samples as they come, and the off-rule words so far.
#[derive(Clone, Copy, Debug)]
pub struct Samples {
    pub code: Code,
    pub off: u32,
    /// the bytes so far of a group that a portion's end cut
    cut: [u8; 10],
    cut_length: usize,
}

impl Samples {
    pub fn new(code: Code) -> Samples {
        Samples { code, off: 0, cut: [0; 10], cut_length: 0 }
    }

    /// Bytes of a group that has begun.
    pub fn begun(&self) -> usize {
        self.cut_length
    }

    /// What completes a group that was cut, whole groups, and what begins one.
    pub fn take(&mut self, bytes: &[u8], out: &mut Output) {
        let group = self.code.group();
        let lead = if self.cut_length == 0 { 0 } else { bytes.len().min(group - self.cut_length) };
        let (lead, rest) = bytes.split_at(lead);
        self.cut_bytes(lead, out);
        let (whole, tail) = rest.split_at(rest.len() - rest.len() % group);
        self.groups(whole, out);
        self.cut_bytes(tail, out);
    }

    fn groups(&mut self, bytes: &[u8], out: &mut Output) {
        let code = self.code;
        let numbers = bytes.len() / code.group() * 2 * code.samples_of_group() as usize;
        let room = &mut out.numbers[out.filled..out.filled + numbers];
        self.off += match code {
            Code::C0015 => runs::run_0015(bytes, room),
            Code::C0022 => runs::run_0022(bytes, room),
            Code::C0024 => runs::run_0024(bytes, room),
            Code::C0042 => runs::run_0042(bytes, room),
            Code::C0044 => runs::run_0044(bytes, room),
            Code::C0048 => runs::run_0048(bytes, room),
            Code::C8015 => runs::run_8015(bytes, room),
        };
        out.filled += numbers;
    }

    /// Bytes of a group that a portion's end cuts.
    fn cut_bytes(&mut self, bytes: &[u8], out: &mut Output) {
        for byte in bytes {
            self.cut[self.cut_length] = *byte;
            self.cut_length += 1;
            if let Some((m, x, wrong)) = self.cut_word() {
                out.put(m, x);
                self.off += u32::from(wrong);
            }
            if self.cut_length == self.code.group() {
                self.cut_length = 0;
            }
        }
    }

    /// The word that the last byte of a cut group completed. A one-byte word is never cut.
    fn cut_word(&self) -> Option<Word> {
        let pair = |i: usize| u32::from(u16::from_be_bytes([self.cut[i], self.cut[i + 1]]));
        let exponent = |n: usize| pair(0) >> (20 - 2 * n) & 0xF;
        match (self.code, self.cut_length) {
            (Code::C0024, 2) => Some(words::word_0024(pair(0))),
            (Code::C0044, 2) => Some(words::word_0044(pair(0))),
            (Code::C0048, 4) => Some(words::word_0048(pair(0) << 16 | pair(2))),
            (Code::C0015, n @ (4 | 6 | 8 | 10)) => Some(words::word_0015(exponent(n), pair(n - 2))),
            (Code::C8015, n @ (4 | 6 | 8 | 10)) => Some(words::word_8015(exponent(n), pair(n - 2))),
            _ => None,
        }
    }
}
