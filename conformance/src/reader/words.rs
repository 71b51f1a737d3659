//! Sample words: from the bits on the tape to (M, X), and whether the word is
//! one that a recorder should not have written.

use super::{demand, Refusal, FORMAT, INDEX};

/// The six multiplexed codes.
pub const CODES: [u16; 6] = [0x0015, 0x0022, 0x0024, 0x0042, 0x0044, 0x0048];

/// The six demultiplexed codes: the others with a leading 8.
pub const TRACE_CODES: [u16; 6] = [0x8015, 0x8022, 0x8024, 0x8042, 0x8044, 0x8048];

/// Whether a code is among the twelve.
pub fn in_table(code: u16) -> bool {
    CODES.contains(&code) || TRACE_CODES.contains(&code)
}

/// Whether a code is one of the six of records that are kept trace by trace.
pub fn is_demultiplexed(code: u16) -> bool {
    TRACE_CODES.contains(&code)
}

/// Passes the twelve codes; any other is FORMAT.
pub fn check_code(code: u16) -> Result<(), Refusal> {
    demand(in_table(code), FORMAT)
}

/// A letter for each bit of the word, the most significant first: S the sign,
/// c the exponent, Q the fraction, 0 a bit that should be zero. In 0015 and 8015
/// the exponent stands apart from the word. 8015 has no start code to keep clear
/// of, so its last bit belongs to the fraction; the other five are as without the 8.
pub fn letters(code: u16) -> &'static str {
    match code {
        0x0015 => "SQQQQQQQQQQQQQQ0",
        0x8015 => "SQQQQQQQQQQQQQQQ",
        0x0022 | 0x8022 => "ScccQQQQ",
        0x0024 | 0x8024 => "ScccQQQQQQQQQQQQ",
        0x0042 | 0x8042 => "SccQQQQQ",
        0x0044 | 0x8044 => "SccQQQQQQQQQQQQQ",
        0x0048 | 0x8048 => "ScccccccQQQQQQQQQQQQQQQQQQQQQQQ0",
        _ => "",
    }
}

/// How many bits carry `letter`.
pub fn count(code: u16, letter: char) -> u32 {
    letters(code).chars().filter(|l| *l == letter).count() as u32
}

/// The bits that carry `letter`, taken in order as one number.
fn field(code: u16, letter: char, word: u32) -> i64 {
    let bits = letters(code).len() as u32;
    letters(code)
        .chars()
        .zip((0..bits).rev())
        .filter(|(l, _)| *l == letter)
        .fold(0, |number, (_, place)| number * 2 + i64::from(word >> place & 1))
}

/// Whether four samples stand together, their exponents before their words.
pub fn grouped(code: u16) -> bool {
    matches!(code, 0x0015 | 0x8015)
}

/// Bits of exponent that stand outside the word: four in 0015 and 8015, else none.
pub fn outer_bits(code: u16) -> u32 {
    if grouped(code) {
        4
    } else {
        0
    }
}

fn fits(value: u32, bits: u32) -> bool {
    u64::from(value) >> bits == 0
}

/// The column X of the word table.
fn power(code: u16, c: i64) -> i64 {
    match code {
        0x0015 => c - 14,
        0x8015 => c - 15,
        0x0022 | 0x8022 => 2 * c - 4,
        0x0024 | 0x8024 => 2 * c - 12,
        0x0042 | 0x8042 => 4 * c - 5,
        0x0044 | 0x8044 => 4 * c - 13,
        _ => 4 * (c - 64) - 23,
    }
}

/// Binary and quaternary codes write negative fractions in one's complement.
fn complements(code: u16) -> bool {
    matches!(code, 0x0015 | 0x8015 | 0x0022 | 0x8022 | 0x0024 | 0x8024)
}

/// M from the sign and the fraction.
fn mantissa(code: u16, word: u32) -> i64 {
    let q = field(code, 'Q', word);
    let full = (1 << count(code, 'Q')) - 1;
    match (field(code, 'S', word), complements(code)) {
        (0, _) => q,
        (_, true) => -(full - q),
        (_, false) => -q,
    }
}

/// In 0048 and 8048: a zero fraction under a sign or an exponent, or a fraction that is
/// not zero and starts with four zero bits.
fn badly_placed(word: u32) -> bool {
    let q = field(0x0048, 'Q', word);
    let above = field(0x0048, 'S', word) + field(0x0048, 'c', word);
    let first_four = q >> (23 - 4);
    (q == 0 && above != 0) || (q != 0 && first_four == 0)
}

/// The words that are still read but counted as off rule. 8015 has no spare bit,
/// so that only its negative zero is, FFFF.
fn off_rule(code: u16, word: u32) -> bool {
    let minus_zero = field(code, 'S', word) == 1 && mantissa(code, word) == 0;
    let last_bit = word & 1 == 1;
    match code {
        0x0022 | 0x8022 | 0x0024 | 0x8024 | 0x8015 => minus_zero,
        0x0015 => minus_zero || last_bit,
        0x0042 | 0x8042 => word == 0xFF,
        0x0044 | 0x8044 => word == 0xFFFF,
        _ => last_bit || badly_placed(word),
    }
}

/// The word question: the code first, then whether the word and `c` are as
/// narrow as the code has them. `c` counts in 0015 and 8015 and is 0 elsewhere.
pub fn read_word(code: u16, c: u32, word: u32) -> Result<(i32, i32, bool), Refusal> {
    check_code(code)?;
    let narrow = fits(word, letters(code).len() as u32) && fits(c, outer_bits(code));
    demand(narrow, INDEX)?;
    let exponent = if grouped(code) { i64::from(c) } else { field(code, 'c', word) };
    let (m, x) = (mantissa(code, word), power(code, exponent));
    Ok((m as i32, x as i32, off_rule(code, word)))
}
