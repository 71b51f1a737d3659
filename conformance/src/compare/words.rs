//! Formats and sample words.

use super::{Effort, Group, Results};
use crate::make::questions::near;
use crate::make::rng::Rng;
use crate::ours::words as ours;
use crate::ours::words::SegdFormat;
use crate::reader::words::{count, in_table, letters, outer_bits, read_word};
use crate::reader::words::{CODES, TRACE_CODES};
use crate::reader::{FORMAT, INDEX};

const INDEX_OR_NOT: [u8; 2] = [0, INDEX];

pub fn compare(results: &mut Results, effort: Effort) {
    compare_rows(results);
    compare_absent_rows(results);
    for code in [0x0022, 0x0042, 0x0024, 0x0044, 0x0015] {
        compare_every_word(results, effort, code);
        compare_every_word(results, effort, code | 0x8000);
    }
    let long = "words of 0048, every sign and exponent";
    compare_long_words(results, long, 0x0048, effort.of(36_000, 400_000));
    let long = "words of 8048, every sign and exponent";
    compare_long_words(results, long, 0x8048, effort.of(2_000, 100_000));
    compare_wide(results, effort);
    compare_unknown(results);
}

/// The twelve codes, each demultiplexed one after its multiplexed one.
fn all_codes() -> impl Iterator<Item = u16> {
    CODES.into_iter().zip(TRACE_CODES).flat_map(|(scans, traces)| [scans, traces])
}

/// A word of the code whose exponent is `c` and all else 0, as the question
/// takes it: in 0015 and 8015 the exponent stands apart.
fn exponent_word(code: u16, c: u32) -> (u32, u32) {
    if outer_bits(code) > 0 {
        (c, 0)
    } else {
        (0, c << letters(code).rfind('c').map_or(0, |place| letters(code).len() - 1 - place))
    }
}

/// X of a word that has only an exponent.
fn x_of(code: u16, c: u32) -> i32 {
    let (apart, word) = exponent_word(code, c);
    read_word(code, apart, word).expect("an exponent in its bits").1
}

/// A negative fraction of zeros is not zero where negatives are complemented.
fn kind(code: u16) -> u8 {
    let sign = 1 << (letters(code).len() - 1);
    let complemented = read_word(code, 0, sign).expect("a sign in its bit").0 != 0;
    match (complemented, letters(code).ends_with('0')) {
        (true, _) => 1,
        (false, false) => 2,
        (false, true) => 3,
    }
}

/// A row's columns, out of the reader's letters and what it makes of words.
fn row(code: u16) -> SegdFormat {
    let step = x_of(code, 1) - x_of(code, 0);
    let fraction = count(code, 'Q');
    SegdFormat {
        found: 1,
        kind: kind(code),
        width: letters(code).len() as u32 + outer_bits(code),
        apart: outer_bits(code),
        fraction,
        base: step as u32,
        exponent: outer_bits(code) + count(code, 'c'),
        bias: (-(x_of(code, 0) + fraction as i32) / step) as u32,
    }
}

fn compare_rows(results: &mut Results) {
    for code in all_codes() {
        let mut group = Group::new(&format!("row of {code:04X}"), &[0]);
        group.values(ours::format(code), row(code), || format!("code {code:04X}"));
        results.add(group);
    }
}

fn compare_absent_rows(results: &mut Results) {
    let mut group = Group::new("rows of all other codes", &[0]);
    for code in (0..=u16::MAX).filter(|code| !in_table(*code)) {
        group.values(ours::format(code), SegdFormat::default(), || format!("code {code:04X}"));
    }
    results.add(group);
}

fn ask(group: &mut Group, code: u16, c: u32, word: u32) {
    group.answers(ours::read_word(code, c, word), read_word(code, c, word), || {
        format!("code {code:04X} c {c:X} word {word:X}")
    });
}

/// Adds the group and counts its questions under their code.
fn add(results: &mut Results, code: u16, group: Group) {
    results.code(code, group.asked());
    results.add(group);
}

/// Every exponent and word of a code, both also with one bit too many. Where an
/// exponent stands apart they are so many that a brief run leaves some out.
fn compare_every_word(results: &mut Results, effort: Effort, code: u16) {
    let effort = if outer_bits(code) > 0 { effort } else { Effort::Bounded };
    let name = format!("words of {code:04X}, every one{}", effort.thinned());
    let mut group = Group::new(&name, &INDEX_OR_NOT);
    for c in 0..2u32 << outer_bits(code) {
        for word in (0..2u32 << letters(code).len()).step_by(effort.step()) {
            ask(&mut group, code, c, word);
        }
    }
    add(results, code, group);
}

/// Fractions of 23 bits at the edges of the rules, each with the last bit off
/// and on: one bit, and ones up to it or from it on.
fn edge_tails() -> Vec<u32> {
    let bits = (0..24).flat_map(|place| {
        let bit = 1u32 << place;
        [bit, bit - 1, bit + 1, 0xFF_FFFF & !(bit - 1), 0xFF_FFFF ^ bit]
    });
    [0, 1].into_iter().chain(bits).flat_map(|tail| [tail & !1, tail | 1]).collect()
}

/// Every sign and exponent of 0048 or 8048, with all edge fractions and some drawn.
fn compare_long_words(results: &mut Results, name: &str, code: u16, drawn: u64) {
    let mut group = Group::new(name, &[0]);
    let edges = edge_tails();
    let mut rng = Rng::new(101);
    for head in 0..256u32 {
        edges.iter().for_each(|tail| ask(&mut group, code, 0, head << 24 | tail));
        for _ in 0..drawn {
            ask(&mut group, code, 0, head << 24 | rng.word() >> 8);
        }
    }
    add(results, code, group);
}

/// Exponents and words of any width, mostly at the edges.
fn compare_wide(results: &mut Results, effort: Effort) {
    let mut rng = Rng::new(102);
    for code in all_codes() {
        let mut group = Group::new(&format!("words of {code:04X}, any width"), &INDEX_OR_NOT);
        let (most_c, most) =
            ((1u32 << outer_bits(code)) - 1, u32::MAX >> (32 - letters(code).len()));
        for _ in 0..effort.of(50_000, 2_000_000) {
            let c = if rng.once_in(3) { 0 } else { near(&mut rng, most_c) };
            ask(&mut group, code, c, near(&mut rng, most));
        }
        add(results, code, group);
    }
}

/// Codes that have no words to read, with exponents and words of any width.
fn compare_unknown(results: &mut Results) {
    let mut rng = Rng::new(103);
    let mut group = Group::new("words of unknown codes", &[FORMAT]);
    let widths = [(0, 0xFF), (0, 0xFFFF), (15, 0xFFFF), (0, u32::MAX)];
    for code in (0..=u16::MAX).filter(|code| !in_table(*code)) {
        for (most_c, most) in widths {
            ask(&mut group, code, near(&mut rng, most_c), near(&mut rng, most));
        }
    }
    results.add(group);
}
