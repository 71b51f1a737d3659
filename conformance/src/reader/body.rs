//! An uncut body. Everything is said about the whole list of blocks: by the
//! place of a byte and by the number of a block. Nothing is carried from byte to
//! byte. Here is what bodies of scans and of traces have in common; the rules of
//! each are a module of their own.

use super::header::{read_header, Header};
use super::layout::{exponent_offset, word_end, word_offset};
use super::words::{is_demultiplexed, read_word};
use super::{refusal_with, Refusal, LONG};

/// What a body is made of.
#[derive(Clone, Copy, Debug, PartialEq, Eq)]
pub enum Kind {
    /// multiplexed: scans, each with a sample of every channel
    Scans,
    /// demultiplexed: traces, each with all samples of a channel
    Traces,
}

/// The kind of body that an accepted header has.
pub fn kind_of(header: &Header) -> Kind {
    if is_demultiplexed(header.code) {
        Kind::Traces
    } else {
        Kind::Scans
    }
}

/// Opening a body: the header's refusals, or the kind of the body.
pub fn open(block: &[u8]) -> Result<Kind, Refusal> {
    read_header(block).map(|header| kind_of(&header))
}

/// The blocks that have their ends, then the bytes after the last block end.
#[derive(Clone, Debug, Default, PartialEq, Eq)]
pub struct Body {
    pub blocks: Vec<Vec<u8>>,
    pub rest: Vec<u8>,
}

/// A sample and the place in the body of its last byte.
#[derive(Clone, Copy, Debug, PartialEq, Eq)]
pub struct Sample {
    pub m: i32,
    pub x: i32,
    pub off: bool,
    pub end: u64,
}

/// What stopped the body: the byte at the place, or block end number n from 0.
#[derive(Clone, Copy, Debug, PartialEq, Eq)]
pub enum Cause {
    Byte,
    End(usize),
}

/// What is wrong with a byte or a block end: its row, and the scan type and set
/// where the row names them.
#[derive(Clone, Copy, Debug, PartialEq, Eq)]
pub struct Fault {
    pub number: u8,
    pub set: Option<(u32, u32)>,
}

/// A fault whose row names no more than the place.
pub fn fault(number: u8) -> Fault {
    Fault { number, set: None }
}

#[derive(Clone, Copy, Debug, PartialEq, Eq)]
pub struct Stop {
    pub fault: Fault,
    pub place: u32,
    pub cause: Cause,
}

impl Stop {
    /// The stop as an answer: its number, then scan type and set where its row names
    /// them, as they stand where a header is refused by it, then its place.
    pub fn refusal(&self) -> Refusal {
        let named = self.fault.set.map(|(scan_type, set)| vec![scan_type, set]);
        let values = [named.unwrap_or_default(), vec![self.place]].concat();
        refusal_with(self.fault.number, &values)
    }
}

/// What the closing question reports on a body without fault.
#[derive(Clone, Copy, Debug, PartialEq, Eq)]
pub struct Report {
    pub scans: u32,
    pub samples: u32,
    pub off: u32,
    pub scan_type: u32,
    /// ITB of the first scan; traces have none
    pub itb: Option<bool>,
    /// T of the first scan with TWI set
    pub window: Option<u32>,
}

/// All that an uncut body comes to.
#[derive(Clone, Debug, PartialEq, Eq)]
pub struct Reading {
    pub samples: Vec<Sample>,
    pub stop: Option<Stop>,
    pub closing: Result<Report, Refusal>,
}

/// The place that no byte may have.
pub const TOO_FAR: u64 = 4_294_967_295;

/// The body as one run of bytes, with the places of the block ends.
pub struct Tape {
    pub bytes: Vec<u8>,
    /// end n comes after the first `ends[n]` bytes
    pub ends: Vec<u64>,
}

impl Tape {
    pub fn new(body: &Body) -> Tape {
        let bytes = body.blocks.iter().chain([&body.rest]).flatten().copied().collect();
        let ends = body.blocks.iter().scan(0, |sum, block| {
            *sum += block.len() as u64;
            Some(*sum)
        });
        Tape { bytes, ends: ends.collect() }
    }

    pub fn length(&self) -> u64 {
        self.bytes.len() as u64
    }

    pub fn byte(&self, place: u64) -> u8 {
        self.bytes[place as usize]
    }

    /// The number of the block that holds the byte at a place.
    pub fn block_of(&self, place: u64) -> usize {
        self.ends.partition_point(|end| *end <= place)
    }

    /// Where block n starts: at the end before it.
    pub fn start(&self, n: usize) -> u64 {
        if n == 0 {
            0
        } else {
            self.ends[n - 1]
        }
    }

    /// Bytes of block n, which has its end.
    pub fn block_length(&self, n: usize) -> u64 {
        self.ends[n] - self.start(n)
    }

    /// Bytes after the last block end.
    pub fn rest(&self) -> u64 {
        self.length() - self.start(self.ends.len())
    }

    /// Sample i of the samples that begin at a place, its bytes being there.
    pub fn sample(&self, code: u16, begin: u64, i: u64) -> Sample {
        let word = (begin + word_offset(code, i)..begin + word_end(code, i))
            .fold(0, |word, place| word << 8 | u32::from(self.byte(place)));
        let c = exponent_offset(code, i).map_or(0, |(offset, upper)| {
            let pair = u32::from(self.byte(begin + offset));
            if upper {
                pair / 16
            } else {
                pair % 16
            }
        });
        let (m, x, off) = read_word(code, c, word).expect("a word cut to its width");
        Sample { m, x, off, end: begin + word_end(code, i) - 1 }
    }
}

/// How many of the samples are off rule.
pub fn off_rule(samples: &[Sample]) -> u32 {
    samples.iter().filter(|sample| sample.off).count() as u32
}

/// The rules of a kind of body, over its whole tape.
pub trait Rules {
    fn tape(&self) -> &Tape;

    /// What is wrong with the byte at a place, given that nothing was wrong before
    /// it and that its place can be counted.
    fn byte_fault(&self, at: u64) -> Option<Fault>;

    /// What is wrong with block end n, given that nothing was wrong before it.
    fn end_fault(&self, n: usize) -> Option<Fault>;

    /// The samples whose last byte comes before a place up to which nothing is wrong.
    fn samples_before(&self, limit: u64) -> Vec<Sample>;

    /// What closing answers where nothing stopped the body: these are its samples.
    fn closing(&self, samples: &[Sample]) -> Result<Report, Refusal>;
}

fn byte_stop(rules: &impl Rules) -> Option<Stop> {
    (0..rules.tape().length()).find_map(|at| {
        let fault = if at >= TOO_FAR { Some(fault(LONG)) } else { rules.byte_fault(at) };
        Some(Stop { fault: fault?, place: at as u32, cause: Cause::Byte })
    })
}

/// An end beyond the place that no byte may have is never reached.
fn end_stop(rules: &impl Rules) -> Option<Stop> {
    let ends = &rules.tape().ends;
    let mut reached = 0..ends.partition_point(|end| *end <= TOO_FAR);
    reached.find_map(|n| {
        let fault = rules.end_fault(n)?;
        Some(Stop { fault, place: ends[n] as u32, cause: Cause::End(n) })
    })
}

/// The earlier of the two; a block end comes before the byte at its place.
fn stop(rules: &impl Rules) -> Option<Stop> {
    match (byte_stop(rules), end_stop(rules)) {
        (Some(byte), Some(end)) if byte.place < end.place => Some(byte),
        (byte, None) => byte,
        (_, end) => end,
    }
}

/// What a body comes to by its rules.
pub fn read(rules: &impl Rules) -> Reading {
    let stop = stop(rules);
    let limit = stop.map_or(rules.tape().length(), |stop| stop.place.into());
    let samples = rules.samples_before(limit);
    let closing = match stop {
        Some(stop) => Err(stop.refusal()),
        None => rules.closing(&samples),
    };
    Reading { samples, stop, closing }
}
