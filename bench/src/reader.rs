//! A reader of multiplexed bodies written by hand: what the library is measured against.
//!
//! It does the same work by the same rules: every check of a scan's start, block ends, off-rule words, stops with their
//! place, words cut by a portion's end, and the report.

use crate::answers::{Closing, Gave, Reading, Report, Stop};
use crate::samples::{Code, Output, Samples};

pub const ROOM: u32 = 13;
pub const LONG: u32 = 14;
pub const BLOCK: u32 = 15;
const SYNC: u32 = 16;
const TIMING: u32 = 17;
const PHASE: u32 = 18;
pub const PART: u32 = 19;
pub const OPEN: u32 = 20;
pub const MISSING: u32 = 21;

/// The place that no byte may have.
pub const TOO_FAR: u32 = u32::MAX;

/// Bytes of a scan before its samples.
const START: u32 = 8;

/// What the header says of a body.
#[derive(Clone, Copy, Debug)]
pub struct Shape {
    pub code: Code,
    /// B
    pub scan: u32,
    /// I, in 1/16 ms
    pub interval: u8,
    /// ST/R
    pub types: u32,
    /// scans of a block; 0: the body is one block
    pub block: u32,
}

#[derive(Clone, Copy, Debug)]
pub struct Reader {
    shape: Shape,
    /// bytes so far
    place: u32,
    /// bytes of the present scan so far
    at: u32,
    /// whole scans so far
    scans: u32,
    /// whole scans of the present block
    in_block: u32,
    /// block ends so far
    ends: u32,
    /// scan types so far
    seen: u32,
    itb: bool,
    window: Option<u32>,
    /// the next scan's T in the top three bytes, as bytes 5 to 8 of a scan hold it
    due: u32,
    /// the bytes so far of a scan's start that a portion's end cut
    cut: [u8; START as usize],
    words: Samples,
    stop: Option<Stop>,
}

impl Reader {
    pub fn new(shape: Shape) -> Reader {
        Reader {
            shape,
            place: 0,
            at: 0,
            scans: 0,
            in_block: 0,
            ends: 0,
            seen: 0,
            itb: false,
            window: None,
            due: 0,
            cut: [0; START as usize],
            words: Samples::new(shape.code),
            stop: None,
        }
    }

    fn read(&mut self, bytes: &[u8], out: &mut Output) -> Result<(), u32> {
        let mut left = bytes;
        while !left.is_empty() {
            let taken = if self.at < START { self.start(left)? } else { self.samples(left, out) };
            left = &left[taken..];
        }
        Ok(())
    }

    /// Goes on by some bytes of the present scan.
    fn advance(&mut self, count: u32) {
        self.place += count;
        self.at += count;
        if self.at == self.shape.scan {
            self.at = 0;
            self.scans += 1;
            self.in_block += 1;
        }
    }

    /// The start of a scan: all of it, where it is there and sound, or a byte.
    fn start(&mut self, bytes: &[u8]) -> Result<usize, u32> {
        if self.at == 0 {
            if let Some(start) = bytes.first_chunk() {
                if self.whole_start(start) {
                    return Ok(START as usize);
                }
            }
        }
        self.start_byte(bytes[0])?;
        Ok(1)
    }

    /// Takes the start of a scan if nothing is wrong with it.
    fn whole_start(&mut self, start: &[u8; 8]) -> bool {
        let [s1, s2, s3, flags, t1, t2, t3, zero] = *start;
        let sync = u32::from_be_bytes([s1, s2, s3, flags]) & 0xFFFF_FF03 == 0xFFFF_FF01;
        let timing = u32::from_be_bytes([t1, t2, t3, zero]);
        if !sync || self.block_full() || !self.phase_fits(flags) || !self.in_step(timing) {
            return false;
        }
        self.mark(flags);
        self.time(flags, timing);
        self.advance(START);
        true
    }

    fn start_byte(&mut self, byte: u8) -> Result<(), u32> {
        let at = self.at as usize;
        self.cut[at] = byte;
        match at {
            0 if self.block_full() => return Err(BLOCK),
            0..=2 if byte != 0xFF => return Err(SYNC),
            3 if byte & 3 != 1 => return Err(SYNC),
            3 if !self.phase_fits(byte) => return Err(PHASE),
            3 => self.mark(byte),
            7 => self.last_start_byte()?,
            _ => {}
        }
        self.advance(1);
        Ok(())
    }

    fn last_start_byte(&mut self) -> Result<(), u32> {
        let [_, _, _, flags, t1, t2, t3, zero] = self.cut;
        let timing = u32::from_be_bytes([t1, t2, t3, zero]);
        if !self.in_step(timing) {
            return Err(TIMING);
        }
        self.time(flags, timing);
        Ok(())
    }

    /// Whether no byte may follow before a block end, or at all.
    fn block_full(&self) -> bool {
        if self.shape.block == 0 {
            self.ends > 0
        } else {
            self.in_block == self.shape.block
        }
    }

    /// The scan type of a scan: DP is 0 in those of odd number. 0 where the first DP is 1.
    fn scan_type(&self, flags: u8) -> u32 {
        let dp = u32::from(flags >> 4 & 1);
        self.seen + u32::from(dp == self.seen % 2)
    }

    fn phase_fits(&self, flags: u8) -> bool {
        (1..=self.shape.types).contains(&self.scan_type(flags))
    }

    fn mark(&mut self, flags: u8) {
        if self.scans == 0 {
            self.itb = flags & 0x20 != 0;
        }
        self.seen = self.scan_type(flags);
    }

    /// Whether bytes 5 to 8 are T as it has to be, and zero.
    fn in_step(&self, timing: u32) -> bool {
        if self.scans == 0 {
            timing & 0xFF == 0
        } else {
            timing == self.due
        }
    }

    fn time(&mut self, flags: u8, timing: u32) {
        self.due = timing.wrapping_add(u32::from(self.shape.interval) << 12);
        if flags & 0x40 != 0 && self.window.is_none() {
            self.window = Some(timing >> 8);
        }
    }

    /// Samples of the present scan.
    fn samples(&mut self, bytes: &[u8], out: &mut Output) -> usize {
        let here = bytes.len().min((self.shape.scan - self.at) as usize);
        self.words.take(&bytes[..here], out);
        self.advance(here as u32);
        here
    }

    fn report(&self) -> Report {
        let code = self.shape.code;
        let per_scan = (self.shape.scan - START) / code.group() as u32 * code.samples_of_group();
        Report {
            scans: self.scans,
            samples: u64::from(self.scans) * u64::from(per_scan),
            off: self.words.off,
            last_type: self.seen,
            itb: Some(self.itb),
            window: self.window,
        }
    }
}

impl Reading for Reader {
    fn portion(&mut self, bytes: &[u8], out: &mut [i32]) -> Gave {
        if self.stop.is_some() {
            return Gave { samples: 0, stop: self.stop, refused: 0 };
        }
        if out.len() / 2 < bytes.len() {
            return Gave { samples: 0, stop: None, refused: ROOM };
        }
        let mut out = Output { numbers: out, filled: 0 };
        let allowed = bytes.len().min((TOO_FAR - self.place) as usize);
        let read = self.read(&bytes[..allowed], &mut out);
        let number = match read {
            Ok(()) if allowed < bytes.len() => LONG,
            Ok(()) => return Gave { samples: out.filled / 2, stop: None, refused: 0 },
            Err(number) => number,
        };
        self.stop = Some(Stop::at(number, self.place));
        Gave { samples: out.filled / 2, stop: self.stop, refused: 0 }
    }

    fn block_end(&mut self) -> Gave {
        if self.stop.is_none() {
            let due = match self.shape.block {
                0 => self.ends == 0 && self.scans > 0,
                block => self.in_block == block,
            };
            if self.at == 0 && due {
                self.ends += 1;
                self.in_block = 0;
            } else {
                self.stop = Some(Stop::at(BLOCK, self.place));
            }
        }
        Gave { samples: 0, stop: self.stop, refused: 0 }
    }

    fn close(&self) -> Closing {
        let shut = if self.shape.block == 0 {
            self.scans == 0 || self.ends > 0
        } else {
            self.in_block == 0
        };
        match self.stop {
            Some(stop) => Err((stop.number, stop.place)),
            None if self.at != 0 => Err((PART, 0)),
            None if !shut => Err((OPEN, 0)),
            None if self.seen < self.shape.types => Err((MISSING, 0)),
            None => Ok(self.report()),
        }
    }
}
