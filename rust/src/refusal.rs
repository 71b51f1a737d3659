//! What is turned away.

use std::fmt;

/// Why a call was refused: the 25 rows of the description's "What is turned away", with those that bodies of traces added.
#[derive(Clone, Copy, Debug, PartialEq, Eq, Hash)]
pub enum Refusal {
    /// 1: the header block is under 32 bytes.
    Short,
    /// 2: no such format code.
    Format,
    /// 3: a demultiplexed record, one of a code 80xx. Nothing here says so: they are read.
    Demux,
    /// 4: a digit of the general header is above 9.
    Digit,
    /// 5: a value of the general header is out of its range; in the codes 80xx that of the bytes per scan is 0.
    Range,
    /// 6: the block is not as long as its general header says.
    Length,
    /// 7: this descriptor, by its place, breaks a rule.
    Descriptor {
        /// From 1.
        scan_type: u8,
        /// From 1.
        set: u8,
    },
    /// 8: in 0015 the channels of this set do not divide by 4; in 8015, where it stops a body, the samples of a trace of this set.
    Four {
        /// From 1.
        scan_type: u8,
        /// From 1.
        set: u8,
        /// Bytes of the body before the stop; nothing of a header.
        place: Option<u32>,
    },
    /// 9: the bytes per scan are not what this scan type has, the first such one; in the codes 80xx, its samples are not as many as those
    /// of scan type 1.
    Size {
        /// From 1.
        scan_type: u8,
    },
    /// 10: the number of skew fields is neither 0 nor what the samples need.
    Skew,
    /// 11: asked with a number that does not exist, or is too wide.
    Index,
    /// 12: the skew sheet is used and its length is wrong.
    Sheet,
    /// 13: the output lent is too short.
    Room,
    /// 14: the body goes on past the last place that is counted.
    Long {
        /// Bytes of the body before the stop.
        place: u32,
    },
    /// 15: a block ends where none may, or goes on where it must end. Of traces: it ends in a trace header, or comes after the last trace.
    Block {
        /// Bytes of the body before the stop.
        place: u32,
    },
    /// 16: a start byte of a scan is wrong.
    Sync {
        /// Bytes of the body before the stop.
        place: u32,
    },
    /// 17: a timing word is out of step, or the byte after it is not zero.
    Timing {
        /// Bytes of the body before the stop.
        place: u32,
    },
    /// 18: the scan type bit is set in the first scan, or flips past the last scan type.
    Phase {
        /// Bytes of the body before the stop.
        place: u32,
    },
    /// 19: closed inside a scan; of traces, inside a trace header, a word, or in 8015 a group of four samples.
    Part,
    /// 20: closed with bytes after the last block end.
    Open,
    /// 21: closed with fewer scan types seen than the header has; of traces, with fewer traces.
    Missing,
    /// 22: a reel's header item is above 65,536 bytes. No call of the library says so; [`crate::reel`] does.
    Large,
    /// 23: an unfit state was handed in. Never here: a [`crate::Body`] holds a fit one, and a [`crate::Traces`] one that is fit for its block.
    State,
    /// 24: a byte of a trace header is not what it has to be.
    Trace {
        /// Bytes of the body before the stop.
        place: u32,
    },
    /// 25: at the end of a trace, bytes are left over, or its samples are not whole scans, at least one, and as many as in the first trace
    /// of its scan type.
    Count {
        /// Bytes of the body before the stop.
        place: u32,
    },
}

impl Refusal {
    /// The refusal's number in the description's table, 1 to 25.
    pub fn number(self) -> u8 {
        self.row().0
    }

    /// The refusal's name in that table.
    pub fn name(self) -> &'static str {
        self.row().1
    }

    /// Where a body stopped, counting its bytes from 0: rows 14 to 18, 24, 25 and, of traces, 8 have a place.
    pub fn place(self) -> Option<u32> {
        match self {
            Refusal::Long { place }
            | Refusal::Block { place }
            | Refusal::Sync { place }
            | Refusal::Timing { place }
            | Refusal::Phase { place }
            | Refusal::Trace { place }
            | Refusal::Count { place } => Some(place),
            Refusal::Four { place, .. } => place,
            _ => None,
        }
    }

    fn row(self) -> (u8, &'static str) {
        match self {
            Refusal::Short => (1, "SHORT"),
            Refusal::Format => (2, "FORMAT"),
            Refusal::Demux => (3, "DEMUX"),
            Refusal::Digit => (4, "DIGIT"),
            Refusal::Range => (5, "RANGE"),
            Refusal::Length => (6, "LENGTH"),
            Refusal::Descriptor { .. } => (7, "DESCRIPTOR"),
            Refusal::Four { .. } => (8, "FOUR"),
            Refusal::Size { .. } => (9, "SIZE"),
            Refusal::Skew => (10, "SKEW"),
            Refusal::Index => (11, "INDEX"),
            Refusal::Sheet => (12, "SHEET"),
            Refusal::Room => (13, "ROOM"),
            Refusal::Long { .. } => (14, "LONG"),
            Refusal::Block { .. } => (15, "BLOCK"),
            Refusal::Sync { .. } => (16, "SYNC"),
            Refusal::Timing { .. } => (17, "TIMING"),
            Refusal::Phase { .. } => (18, "PHASE"),
            Refusal::Part => (19, "PART"),
            Refusal::Open => (20, "OPEN"),
            Refusal::Missing => (21, "MISSING"),
            Refusal::Large => (22, "LARGE"),
            Refusal::State => (23, "STATE"),
            Refusal::Trace { .. } => (24, "TRACE"),
            Refusal::Count { .. } => (25, "COUNT"),
        }
    }
}

impl fmt::Display for Refusal {
    fn fmt(&self, f: &mut fmt::Formatter) -> fmt::Result {
        write!(f, "refused {} {}", self.number(), self.name())?;
        match *self {
            Refusal::Descriptor { scan_type, set } | Refusal::Four { scan_type, set, .. } => {
                write!(f, " in scan type {scan_type}, set {set}")?
            }
            Refusal::Size { scan_type } => write!(f, " in scan type {scan_type}")?,
            _ => {}
        }
        self.place().map_or(Ok(()), |place| write!(f, " at {place}"))
    }
}

impl std::error::Error for Refusal {}

/// A refusal as the library tells it: its number and its values, in order. Number 0 is none.
#[repr(C)]
#[derive(Clone, Copy)]
pub(crate) struct Told {
    number: u32,
    first: u32,
    second: u32,
    third: u32,
}

impl Told {
    /// The answer, unless there is a refusal.
    pub(crate) fn or<T>(self, answer: T) -> Result<T, Refusal> {
        self.refusal().map_or(Ok(answer), Err)
    }

    pub(crate) fn refusal(self) -> Option<Refusal> {
        // A header has at most 99 scan types and sets.
        let (scan_type, set) = (self.first as u8, self.second as u8);
        let place = self.first;
        // Only FOUR has a third value, the place of a stop, and none stops before its trace header.
        let four_at = (self.third != 0).then_some(self.third);
        Some(match self.number {
            0 => return None,
            1 => Refusal::Short,
            2 => Refusal::Format,
            3 => Refusal::Demux,
            4 => Refusal::Digit,
            5 => Refusal::Range,
            6 => Refusal::Length,
            7 => Refusal::Descriptor { scan_type, set },
            8 => Refusal::Four { scan_type, set, place: four_at },
            9 => Refusal::Size { scan_type },
            10 => Refusal::Skew,
            11 => Refusal::Index,
            12 => Refusal::Sheet,
            13 => Refusal::Room,
            14 => Refusal::Long { place },
            15 => Refusal::Block { place },
            16 => Refusal::Sync { place },
            17 => Refusal::Timing { place },
            18 => Refusal::Phase { place },
            19 => Refusal::Part,
            20 => Refusal::Open,
            21 => Refusal::Missing,
            22 => Refusal::Large,
            23 => Refusal::State,
            24 => Refusal::Trace { place },
            25 => Refusal::Count { place },
            other => unreachable!("the library has no refusal {other}"),
        })
    }
}

#[cfg(test)]
mod tests {
    use super::*;

    fn told(number: u32, first: u32, second: u32, third: u32) -> Refusal {
        Told { number, first, second, third }.refusal().expect("a row")
    }

    #[test]
    fn every_row_is_told_by_its_number_and_values() {
        for number in 1..=25 {
            let refusal = told(number, 3, 5, 0);
            assert_eq!(u32::from(refusal.number()), number);
            assert_eq!(refusal.place(), matches!(number, 14..=18 | 24 | 25).then_some(3));
        }
        assert_eq!(told(8, 3, 5, 0).to_string(), "refused 8 FOUR in scan type 3, set 5");
        assert_eq!(told(8, 3, 5, 44).to_string(), "refused 8 FOUR in scan type 3, set 5 at 44");
        assert_eq!(told(8, 3, 5, 44).place(), Some(44));
        assert_eq!(told(16, 3, 0, 0).to_string(), "refused 16 SYNC at 3");
        assert_eq!(told(24, 3, 0, 0).to_string(), "refused 24 TRACE at 3");
        assert_eq!(Told { number: 0, first: 0, second: 0, third: 0 }.or(1), Ok(1));
    }
}
