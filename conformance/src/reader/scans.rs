//! A body of scans, of a multiplexed record: by scan number and place in the scan.

use super::body::{fault, kind_of, off_rule, read, Body, Fault, Kind};
use super::body::{Reading, Report, Rules, Sample, Tape};
use super::header::{read_header, Header};
use super::layout::{word_end, SCAN_START};
use super::{demand, refusal, Refusal};
use super::{BLOCK, MISSING, OPEN, PART, PHASE, STATE, SYNC, TIMING};

const TWI: u8 = 0x40;
const ITB: u8 = 0x20;
const DP: u8 = 0x10;

struct Scans {
    header: Header,
    tape: Tape,
    /// the scan type of each scan whose byte 4 is there
    types: Vec<u32>,
}

impl Scans {
    fn new(header: Header, body: &Body) -> Scans {
        let mut scans = Scans { header, tape: Tape::new(body), types: Vec::new() };
        scans.types = scans.scan_types();
        scans
    }

    /// B
    fn scan_length(&self) -> u64 {
        self.header.bytes_per_scan.into()
    }

    /// The byte at a place (from 0) of a scan (from 0).
    fn byte(&self, scan: u64, place: u64) -> u8 {
        self.tape.byte(scan * self.scan_length() + place)
    }

    /// Bytes 5 to 7 of a scan.
    fn timing(&self, scan: u64) -> u32 {
        (4..7).fold(0, |t, place| t * 256 + u32::from(self.byte(scan, place)))
    }

    fn bit(&self, scan: u64, bit: u8) -> bool {
        self.byte(scan, 3) & bit != 0
    }

    /// Scan type 1, and one more for each scan whose DP differs from that of
    /// the scan before.
    fn scan_types(&self) -> Vec<u32> {
        let begun = (self.tape.length() + self.scan_length() - 4) / self.scan_length();
        let flips = (0..begun).map(|n| n > 0 && self.bit(n, DP) != self.bit(n - 1, DP));
        flips
            .scan(1, |scan_type, flip| {
                *scan_type += u32::from(flip);
                Some(*scan_type)
            })
            .collect()
    }

    /// Bytes of a full block, or nothing where the body is a single block.
    fn block_length(&self) -> Option<u64> {
        let scans = u64::from(self.header.block_scans) << self.header.block_exponent;
        (self.header.block_scans != 0).then_some(scans * self.scan_length())
    }

    /// A byte beyond what its block may hold: past the scans of a full block,
    /// or past the only block.
    fn outside_block(&self, place: u64) -> bool {
        let n = self.tape.block_of(place);
        match self.block_length() {
            Some(full) => place - self.tape.start(n) >= full,
            None => n > 0,
        }
    }

    /// Bytes 1 to 3 are all ones, and byte 4 ends in 01.
    fn start_wrong(&self, scan: u64, place: u64) -> bool {
        match place {
            0..=2 => self.byte(scan, place) != 0xFF,
            3 => self.byte(scan, place) % 4 != 1,
            _ => false,
        }
    }

    /// At byte 4: the first DP is set, or there is no such scan type.
    fn phase_wrong(&self, scan: u64, place: u64) -> bool {
        let first_set = scan == 0 && place == 3 && self.bit(0, DP);
        place == 3 && (first_set || self.types[scan as usize] > self.header.scan_types)
    }

    /// At byte 8: not zero, or T is not the first T and 16 I for each scan since.
    fn timing_wrong(&self, scan: u64, place: u64) -> bool {
        if place != 7 {
            return false;
        }
        let steps = scan * 16 * u64::from(self.header.interval);
        let due = (u64::from(self.timing(0)) + steps) % (1 << 24);
        self.byte(scan, 7) != 0 || u64::from(self.timing(scan)) != due
    }

    /// Where the samples of a scan begin.
    fn begin(&self, scan: u64) -> u64 {
        scan * self.scan_length() + SCAN_START
    }

    /// The report on a body of whole scans, at least one.
    fn report(&self, samples: &[Sample]) -> Report {
        let scans = self.tape.length() / self.scan_length();
        let windowed = (0..scans).find(|scan| self.bit(*scan, TWI));
        Report {
            scans: scans as u32,
            samples: samples.len() as u32,
            off: off_rule(samples),
            scan_type: self.types[scans as usize - 1],
            itb: Some(self.bit(0, ITB)),
            window: windowed.map(|scan| self.timing(scan)),
        }
    }
}

impl Rules for Scans {
    fn tape(&self) -> &Tape {
        &self.tape
    }

    fn byte_fault(&self, at: u64) -> Option<Fault> {
        let (scan, place) = (at / self.scan_length(), at % self.scan_length());
        if self.outside_block(at) {
            Some(fault(BLOCK))
        } else if self.start_wrong(scan, place) {
            Some(fault(SYNC))
        } else if self.phase_wrong(scan, place) {
            Some(fault(PHASE))
        } else if self.timing_wrong(scan, place) {
            Some(fault(TIMING))
        } else {
            None
        }
    }

    /// A block is full; an only block is whole scans, at least one, and nothing
    /// ends after it.
    fn end_fault(&self, n: usize) -> Option<Fault> {
        let length = self.tape.block_length(n);
        let wrong = match self.block_length() {
            Some(full) => length != full,
            None => n > 0 || length == 0 || !length.is_multiple_of(self.scan_length()),
        };
        wrong.then(|| fault(BLOCK))
    }

    fn samples_before(&self, limit: u64) -> Vec<Sample> {
        let (code, each) = (self.header.code, u64::from(self.header.samples_per_scan));
        let scans = limit.div_ceil(self.scan_length());
        (0..scans)
            .flat_map(|scan| (0..each).map(move |k| (self.begin(scan), k)))
            .filter(|(begin, k)| begin + word_end(code, *k) <= limit)
            .map(|(begin, k)| self.tape.sample(code, begin, k))
            .collect()
    }

    fn closing(&self, samples: &[Sample]) -> Result<Report, Refusal> {
        let seen = self.types.last().copied().unwrap_or(0);
        if !self.tape.length().is_multiple_of(self.scan_length()) {
            Err(refusal(PART))
        } else if self.tape.rest() > 0 {
            Err(refusal(OPEN))
        } else if seen < self.header.scan_types {
            Err(refusal(MISSING))
        } else {
            Ok(self.report(samples))
        }
    }
}

/// Reads a whole body of scans. A refused header is a refused opening. A body of
/// traces has no state that these rules could go on from, which is STATE.
pub fn read_scans(block: &[u8], body: &Body) -> Result<Reading, Refusal> {
    let header = read_header(block)?;
    demand(kind_of(&header) == Kind::Scans, STATE)?;
    Ok(read(&Scans::new(header, body)))
}
