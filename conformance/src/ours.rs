//! The compiled library's calls, answering in the reader's own types, and the
//! compiled lister.
//!
//! A module for each group of calls. The structs mirror those of
//! `crates/deck/src` and of the crates below it, field by field.

pub mod body;
pub mod header;
pub mod lister;
pub mod parts;
pub mod places;
pub mod skew;
pub mod traces;
pub mod words;

use crate::reader::{refusal_with, Refusal};

/// A refusal in numbers. Number 0 is none.
#[repr(C)]
#[derive(Clone, Copy, Debug, Default, PartialEq, Eq)]
pub struct Told {
    pub number: u32,
    pub first: u32,
    pub second: u32,
    /// the place of 8 where it is a stop; no stop of that row is at place 0
    pub third: u32,
}

/// How many values a refusal has by its row.
fn values_of_row(told: Told) -> usize {
    match told.number {
        8 if told.third != 0 => 3,
        7 | 8 => 2,
        9 | 14..=18 | 24 | 25 => 1,
        _ => 0,
    }
}

/// An answer that the boundary's own rules leave no room for. No row has the
/// number 0, so whatever the reader says it shows as a difference.
fn unheard_of(told: Told) -> Refusal {
    refusal_with(0, &[told.number, told.first, told.second, told.third])
}

/// The row and its values; the others have to be 0.
fn row(told: Told) -> Refusal {
    let values = [told.first, told.second, told.third];
    let (named, rest) = values.split_at(values_of_row(told));
    match u8::try_from(told.number) {
        Ok(number) if rest.iter().all(|value| *value == 0) => refusal_with(number, named),
        _ => unheard_of(told),
    }
}

/// An answer laid flat, taken apart: refused with all else 0, or not refused
/// and read by `read`, which gives nothing where the numbers make no sense.
fn unfold<F, T>(told: Told, flat: F, read: impl FnOnce(F) -> Option<T>) -> Result<T, Refusal>
where
    F: Default + PartialEq,
{
    if told == Told::default() {
        return read(flat).ok_or(unheard_of(told));
    }
    Err(if flat == F::default() { row(told) } else { unheard_of(told) })
}

/// A test's byte: 1 or 0.
fn flag(byte: u8) -> Option<bool> {
    match byte {
        0 => Some(false),
        1 => Some(true),
        _ => None,
    }
}
