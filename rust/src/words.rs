//! Formats and sample words.

use crate::{ffi, Refusal};

/// A sample: M x 2^X, before its set's factor.
#[repr(C)]
#[derive(Clone, Copy, Debug, Default, PartialEq, Eq)]
pub struct Sample {
    /// The signed whole number.
    pub m: i32,
    /// The power of two.
    pub x: i32,
}

impl Sample {
    /// M x 2^X as a double.
    pub fn value(self) -> f64 {
        f64::from(self.m) * f64::from(self.x).exp2()
    }
}

/// A word read by itself.
#[derive(Clone, Copy, Debug, PartialEq, Eq)]
pub struct Word {
    /// What it stands for.
    pub sample: Sample,
    /// Whether it is off rule (read all the same).
    pub off: bool,
}

/// How a format keeps its fractions.
#[derive(Clone, Copy, Debug, PartialEq, Eq)]
pub enum Kind {
    /// Negatives are complemented.
    OnesComplement,
    /// A sign stands beside the magnitude.
    SignMagnitude,
    /// The same, left justified in hexadecimal digits.
    Justified,
}

/// A row of the format table.
#[derive(Clone, Copy, Debug, PartialEq, Eq)]
pub struct Format {
    /// How fractions are kept.
    pub kind: Kind,
    /// Bits of a sample on tape.
    pub width: u32,
    /// Those of them that are an exponent apart from the word.
    pub apart: u32,
    /// Fraction bits.
    pub fraction: u32,
    /// How much one more in the exponent adds to X.
    pub base: u32,
    /// Exponent bits.
    pub exponent: u32,
    /// What is taken from an exponent.
    pub bias: u32,
}

/// The row of one of the twelve codes, `None` for any other.
///
/// ```
/// let hexadecimal = segd::format(0x0048).unwrap();
/// assert_eq!((hexadecimal.width, hexadecimal.fraction, hexadecimal.base), (32, 23, 4));
/// assert_eq!(segd::format(0x0023), None);
/// ```
pub fn format(code: u16) -> Option<Format> {
    let row = ffi::format(code);
    let kind = match row.kind {
        1 => Kind::OnesComplement,
        2 => Kind::SignMagnitude,
        _ => Kind::Justified,
    };
    let ffi::Row { width, apart, fraction, base, exponent, bias, .. } = row;
    (row.found == 1).then_some(Format { kind, width, apart, fraction, base, exponent, bias })
}

/// The sample that a word of a format stands for. In 0015 and 8015 `c` is its exponent, which stands apart; in the other codes it is 0.
///
/// Refuses [`Refusal::Format`] by the code, then [`Refusal::Index`] where `word` or `c` is wider than the code's.
///
/// ```
/// let word = segd::read_word(0x0048, 0, 0x4110_0000)?;
/// assert_eq!((word.sample.m, word.sample.x, word.off), (524_288, -19, false));
/// assert_eq!(word.sample.value(), 1.0);
/// # Ok::<(), segd::Refusal>(())
/// ```
pub fn read_word(code: u16, c: u32, word: u32) -> Result<Word, Refusal> {
    let read = ffi::read_word(code, c, word);
    read.refusal.or(Word { sample: read.sample, off: read.off == 1 })
}
