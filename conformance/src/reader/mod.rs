//! The reader, one module for each part of the description.

pub mod body;
pub mod calls;
pub mod header;
pub mod image;
pub mod layout;
pub mod scans;
pub mod traces;
pub mod words;

pub const SHORT: u8 = 1;
pub const FORMAT: u8 = 2;
/// Answered by nothing that reads.
pub const DEMUX: u8 = 3;
pub const DIGIT: u8 = 4;
pub const RANGE: u8 = 5;
pub const LENGTH: u8 = 6;
pub const DESCRIPTOR: u8 = 7;
pub const FOUR: u8 = 8;
pub const SIZE: u8 = 9;
pub const SKEW: u8 = 10;
pub const INDEX: u8 = 11;
pub const SHEET: u8 = 12;
pub const ROOM: u8 = 13;
pub const LONG: u8 = 14;
pub const BLOCK: u8 = 15;
pub const SYNC: u8 = 16;
pub const TIMING: u8 = 17;
pub const PHASE: u8 = 18;
pub const PART: u8 = 19;
pub const OPEN: u8 = 20;
pub const MISSING: u8 = 21;
pub const LARGE: u8 = 22;
pub const STATE: u8 = 23;
pub const TRACE: u8 = 24;
pub const COUNT: u8 = 25;

/// A row of the table of what is turned away, with the values its row names:
/// 7 and 8 carry scan type and set, 9 the scan type, 14 to 18, 24 and 25 the place
/// of the stop, all others nothing. Where 8 is a stop, its place comes last.
#[derive(Clone, Debug, PartialEq, Eq, Hash)]
pub struct Refusal {
    pub number: u8,
    pub values: Vec<u32>,
}

/// A refusal without values.
pub fn refusal(number: u8) -> Refusal {
    Refusal { number, values: Vec::new() }
}

/// A refusal with the values of its row.
pub fn refusal_with(number: u8, values: &[u32]) -> Refusal {
    Refusal { number, values: values.to_vec() }
}

/// Refuses with `number` unless `sound`.
pub fn demand(sound: bool, number: u8) -> Result<(), Refusal> {
    if sound {
        Ok(())
    } else {
        Err(refusal(number))
    }
}
