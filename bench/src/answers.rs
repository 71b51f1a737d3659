//! What both readers answer, in the same terms.

/// What stopped a body: the number of its row, and the place.
#[derive(Clone, Copy, Debug, PartialEq, Eq)]
pub struct Stop {
    pub number: u32,
    pub place: u32,
    /// the scan type and set of FOUR; else 0
    pub set: (u32, u32),
}

impl Stop {
    /// A stop whose row names no more than the place.
    pub fn at(number: u32, place: u32) -> Stop {
        Stop { number, place, set: (0, 0) }
    }
}

/// The answer to a portion or to a block end.
#[derive(Clone, Copy, Debug, PartialEq, Eq)]
pub struct Gave {
    pub samples: usize,
    pub stop: Option<Stop>,
    /// the row of a refusal that changed nothing, or 0
    pub refused: u32,
}

#[derive(Clone, Copy, Debug, PartialEq, Eq)]
pub struct Report {
    pub scans: u32,
    pub samples: u64,
    pub off: u32,
    pub last_type: u32,
    /// ITB of the first scan; traces have none
    pub itb: Option<bool>,
    /// T of the first scan with TWI set
    pub window: Option<u32>,
}

/// The answer to the closing question: the report, or a row and its place.
pub type Closing = Result<Report, (u32, u32)>;

/// A body being read, by either reader.
pub trait Reading: Copy {
    fn portion(&mut self, bytes: &[u8], out: &mut [i32]) -> Gave;
    fn block_end(&mut self) -> Gave;
    fn close(&self) -> Closing;
}
