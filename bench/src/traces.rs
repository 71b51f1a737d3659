//! A reader of bodies of traces written by hand, beside that of scans: every byte of a trace header, block ends, samples
//! of a trace, off-rule words, stops with their place, words cut by a portion's end, and the report.

use crate::answers::{Closing, Gave, Reading, Report, Stop};
use crate::reader::{BLOCK, LONG, MISSING, OPEN, PART, ROOM, TOO_FAR};
use crate::samples::{Code, Output, Samples};

const FOUR: u32 = 8;
const TRACE: u32 = 24;
const COUNT: u32 = 25;

/// Bytes of a trace before its samples.
pub const TRACE_HEADER: usize = 20;

/// Bytes of a trace header that are not looked at where no skew is recorded: timing, skew and window.
const FREE: [usize; 7] = [6, 7, 8, 10, 12, 13, 14];

/// A channel set of a scan type, with the number of its first trace.
#[derive(Clone, Copy, Debug)]
pub struct Set {
    pub scan_type: u32,
    pub set: u32,
    pub channels: u32,
    /// S/C
    pub exponent: u32,
    pub first: u32,
}

/// What the header says of a body of traces. Skew is not recorded.
#[derive(Clone, Debug)]
pub struct TraceShape {
    pub code: Code,
    /// the file number's digits
    pub file: [u8; 2],
    /// ST/R
    pub types: u32,
    /// the sets that have channels
    pub sets: Vec<Set>,
}

impl TraceShape {
    fn traces(&self) -> u32 {
        self.sets.last().map_or(0, |set| set.first + set.channels)
    }
}

#[derive(Clone, Copy, Debug)]
pub struct TraceReader<'a> {
    shape: &'a TraceShape,
    /// bytes so far
    place: u32,
    /// bytes of the present trace so far
    at: u32,
    /// traces that have ended
    ends: u32,
    /// the place of the present trace's set among the sets
    set: usize,
    /// what the present trace's header has to be
    due: [u8; TRACE_HEADER],
    samples: u32,
    /// scans of the present scan type, 0 before its first trace has ended
    present: u32,
    /// scans of the scan types before it
    earlier: u32,
    words: Samples,
    stop: Option<Stop>,
}

/// A number up to 99 as a digit pair.
fn pair(number: u32) -> u8 {
    (number / 10 * 16 + number % 10) as u8
}

impl TraceReader<'_> {
    pub fn new(shape: &TraceShape) -> TraceReader<'_> {
        let words = Samples::new(shape.code);
        let mut reader = TraceReader {
            shape,
            place: 0,
            at: 0,
            ends: 0,
            set: 0,
            due: [0; TRACE_HEADER],
            samples: 0,
            present: 0,
            earlier: 0,
            words,
            stop: None,
        };
        reader.expect();
        reader
    }

    /// Works out the header of the present trace.
    fn expect(&mut self) {
        let Some(set) = self.shape.sets.get(self.set) else { return };
        let channel = self.ends - set.first + 1;
        let turn = [set.scan_type, set.set, channel / 100, channel % 100].map(pair);
        self.due[..2].copy_from_slice(&self.shape.file);
        self.due[2..6].copy_from_slice(&turn);
    }

    fn read(&mut self, bytes: &[u8], out: &mut Output) -> Result<(), u32> {
        let mut rest = bytes;
        if self.at < TRACE_HEADER as u32 {
            rest = self.header(bytes)?;
        }
        self.words.take(rest, out);
        self.go_on(rest.len());
        Ok(())
    }

    fn go_on(&mut self, count: usize) {
        self.place += count as u32;
        self.at += count as u32;
    }

    /// Takes bytes of the trace header, and gives those after it.
    fn header<'b>(&mut self, bytes: &'b [u8]) -> Result<&'b [u8], u32> {
        if self.ends == self.shape.traces() {
            return if bytes.is_empty() { Ok(bytes) } else { Err(BLOCK) };
        }
        let at = self.at as usize;
        let (here, rest) = bytes.split_at(bytes.len().min(TRACE_HEADER - at));
        for (i, byte) in here.iter().enumerate() {
            if *byte != self.due[at + i] && !FREE.contains(&(at + i)) {
                self.go_on(i);
                return Err(TRACE);
            }
        }
        self.go_on(here.len());
        Ok(rest)
    }

    fn stop_at(&mut self, number: u32) {
        let set = self.shape.sets.get(self.set).filter(|_| number == FOUR);
        let set = set.map_or((0, 0), |set| (set.scan_type, set.set));
        self.stop = Some(Stop { number, place: self.place, set });
    }

    /// The scans of the trace that ends here, or why it may not.
    fn scans(&self) -> Result<u32, u32> {
        let bytes =
            self.at.checked_sub(TRACE_HEADER as u32).filter(|_| self.ends < self.shape.traces());
        let (bytes, code) = (bytes.ok_or(BLOCK)?, self.shape.code);
        let begun = self.words.begun();
        if code.samples_of_group() == 4 && begun >= 4 {
            return Err(FOUR);
        }
        let samples = bytes / code.group() as u32 * code.samples_of_group();
        let exponent = self.shape.sets[self.set].exponent;
        let scans = samples >> exponent;
        let whole = begun == 0 && scans > 0 && scans << exponent == samples;
        if whole && (self.present == 0 || self.present == scans) {
            Ok(scans)
        } else {
            Err(COUNT)
        }
    }

    /// The next trace, of the same set or another.
    fn next_trace(&mut self, scans: u32) {
        let set = &self.shape.sets[self.set];
        (self.at, self.ends, self.present) = (0, self.ends + 1, scans);
        if self.ends == set.first + set.channels {
            self.set += 1;
            let next = self.shape.sets.get(self.set);
            if next.is_none_or(|next| next.scan_type != set.scan_type) {
                (self.earlier, self.present) = (self.earlier + scans, 0);
            }
        }
        self.expect();
    }
}

impl Reading for TraceReader<'_> {
    fn portion(&mut self, bytes: &[u8], out: &mut [i32]) -> Gave {
        if self.stop.is_some() {
            return Gave { samples: 0, stop: self.stop, refused: 0 };
        }
        if out.len() / 2 < bytes.len() {
            return Gave { samples: 0, stop: None, refused: ROOM };
        }
        let mut out = Output { numbers: out, filled: 0 };
        let allowed = bytes.len().min((TOO_FAR - self.place) as usize);
        match self.read(&bytes[..allowed], &mut out) {
            Ok(()) if allowed < bytes.len() => self.stop_at(LONG),
            Ok(()) => {}
            Err(number) => self.stop_at(number),
        }
        self.samples += (out.filled / 2) as u32;
        Gave { samples: out.filled / 2, stop: self.stop, refused: 0 }
    }

    fn block_end(&mut self) -> Gave {
        if self.stop.is_none() {
            match self.scans() {
                Ok(scans) => self.next_trace(scans),
                Err(number) => self.stop_at(number),
            }
        }
        Gave { samples: 0, stop: self.stop, refused: 0 }
    }

    fn close(&self) -> Closing {
        let part = self.at < TRACE_HEADER as u32 || self.words.begun() > 0;
        match self.stop {
            Some(stop) => Err((stop.number, stop.place)),
            None if self.at > 0 && part => Err((PART, 0)),
            None if self.at > 0 => Err((OPEN, 0)),
            None if self.ends < self.shape.traces() || self.ends == 0 => Err((MISSING, 0)),
            None => Ok(Report {
                scans: self.earlier,
                samples: self.samples.into(),
                off: self.words.off,
                last_type: self.shape.types,
                itb: None,
                window: None,
            }),
        }
    }
}
