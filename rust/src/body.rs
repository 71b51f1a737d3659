//! The body of a record, of scans or of traces, read in portions of any size.

use crate::{ffi, trace_place, Refusal, Sample, TracePlace};

/// What a portion came to.
#[derive(Clone, Copy, Debug, PartialEq, Eq)]
pub struct Given {
    /// The samples written, from the front of the output.
    pub samples: usize,
    /// Why the body stopped, in this portion or before it: rows 14 to 18, of traces 8, 14, 15, 24 and 25.
    pub stop: Option<Refusal>,
}

/// What a whole body had.
#[derive(Clone, Copy, Debug, PartialEq, Eq)]
pub struct Report {
    /// Scans; of traces those of each scan type, summed.
    pub scans: u32,
    /// Samples.
    pub samples: u64,
    /// Off-rule words.
    pub off: u32,
    /// The scan type of the last scan or trace, from 1.
    pub last_type: u32,
    /// The internal time break bit of the first scan; traces have none.
    pub itb: Option<bool>,
    /// The timing word of the first scan with the time break window bit set.
    pub window: Option<u32>,
}

/// The outcome of a call that changed nothing; the others are going on and stopped.
const REFUSED: u32 = 2;

/// The kind of a body of traces; that of scans is 1.
const TRACES: u8 = 2;

impl<S> ffi::Gave<S> {
    /// What a portion gave: a stop is an answer, a refusal is none.
    fn given(&self) -> Result<Given, Refusal> {
        match (self.outcome, self.refusal.refusal()) {
            (REFUSED, Some(refusal)) => Err(refusal),
            (_, stop) => Ok(Given { samples: self.samples as usize, stop }),
        }
    }
}

impl ffi::Closing {
    fn report(self) -> Result<Report, Refusal> {
        self.refusal.or(Report {
            scans: self.scans,
            samples: self.samples,
            off: self.off,
            last_type: self.last_type,
            itb: (self.itb_known == 1).then_some(self.itb == 1),
            window: (self.window_known == 1).then_some(self.window),
        })
    }
}

/// What an accepted header block opens. It has the calls that both kinds of body have, for a program to which they are alike.
#[derive(Clone, Debug)]
pub enum Opened<'a> {
    /// The body of a multiplexed record, before its first byte.
    Scans(Body),
    /// The body of a demultiplexed record, one of a code 80xx, before its first byte.
    Traces(Traces<'a>),
}

impl<'a> Opened<'a> {
    /// The body, where it is one of scans.
    pub fn scans(self) -> Option<Body> {
        match self {
            Opened::Scans(body) => Some(body),
            Opened::Traces(_) => None,
        }
    }

    /// The body, where it is one of traces.
    pub fn traces(self) -> Option<Traces<'a>> {
        match self {
            Opened::Scans(_) => None,
            Opened::Traces(traces) => Some(traces),
        }
    }

    /// [`Body::portion`] or [`Traces::portion`].
    pub fn portion(&mut self, bytes: &[u8], out: &mut [Sample]) -> Result<Given, Refusal> {
        match self {
            Opened::Scans(body) => body.portion(bytes, out),
            Opened::Traces(traces) => traces.portion(bytes, out),
        }
    }

    /// [`Body::block_end`] or [`Traces::end`].
    pub fn block_end(&mut self) -> Result<(), Refusal> {
        match self {
            Opened::Scans(body) => body.block_end(),
            Opened::Traces(traces) => traces.end(),
        }
    }

    /// [`Body::close`] or [`Traces::close`].
    pub fn close(&self) -> Result<Report, Refusal> {
        match self {
            Opened::Scans(body) => body.close(),
            Opened::Traces(traces) => traces.close(),
        }
    }
}

/// Opens the body of the record that this header block begins.
///
/// Refuses as [`crate::read_header`] does.
pub fn open(block: &[u8]) -> Result<Opened<'_>, Refusal> {
    let opened = ffi::open(block);
    let body = match opened.kind {
        TRACES => Opened::Traces(Traces { block, state: opened.traces }),
        _ => Opened::Scans(Body(opened.state)),
    };
    opened.refusal.or(body)
}

/// A body of scans being read. [`open`] hands it out.
#[derive(Clone, Debug)]
pub struct Body(ffi::State);

impl Body {
    /// Reads the next bytes of the body. Each sample is written when its last byte comes.
    ///
    /// A stop is an answer: the samples before it are written, and every later call gives the same stop.
    ///
    /// Refuses [`Refusal::Room`] where `out` has fewer samples than `bytes` has bytes, and then reads nothing.
    pub fn portion(&mut self, bytes: &[u8], out: &mut [Sample]) -> Result<Given, Refusal> {
        let gave = ffi::portion(self.0, bytes, out);
        self.0 = gave.state;
        gave.given()
    }

    /// Says that a block of the tape ends here.
    ///
    /// Refuses with the stop, [`Refusal::Block`] or an earlier one; every later call gives the same.
    pub fn block_end(&mut self) -> Result<(), Refusal> {
        let gave = ffi::block_end(self.0);
        self.0 = gave.state;
        gave.refusal.or(())
    }

    /// Asks what the body had, if it is whole. It changes nothing and may be asked at any time.
    ///
    /// Refuses with an earlier stop, then [`Refusal::Part`], [`Refusal::Open`] and [`Refusal::Missing`].
    pub fn close(&self) -> Result<Report, Refusal> {
        ffi::close(self.0).report()
    }
}

/// A body of traces being read: each block is a trace header of 20 bytes and then all samples of a channel. [`open`] hands it out. It
/// borrows the header block, so that each call is lent the one that was opened, unchanged.
#[derive(Clone, Debug)]
pub struct Traces<'a> {
    block: &'a [u8],
    state: ffi::Traces,
}

impl Traces<'_> {
    /// Reads the next bytes of the body. Each sample is written when its last byte comes.
    ///
    /// A stop is an answer: the samples before it are written, and every later call gives the same stop.
    ///
    /// Refuses [`Refusal::Room`] where `out` has fewer samples than `bytes` has bytes, and then reads nothing.
    pub fn portion(&mut self, bytes: &[u8], out: &mut [Sample]) -> Result<Given, Refusal> {
        let gave = ffi::trace_portion(self.block, self.state, bytes, out);
        self.state = gave.state;
        gave.given()
    }

    /// Says that a trace, which is a block of the tape, ends here.
    ///
    /// Refuses with the stop, [`Refusal::Block`], [`Refusal::Four`] or [`Refusal::Count`] or an earlier one; every later call gives the same.
    pub fn end(&mut self) -> Result<(), Refusal> {
        let gave = ffi::trace_end(self.block, self.state);
        self.state = gave.state;
        gave.refusal.or(())
    }

    /// Asks what the body had, if it is whole. It changes nothing and may be asked at any time.
    ///
    /// Refuses with an earlier stop, then [`Refusal::Part`], [`Refusal::Open`] and [`Refusal::Missing`].
    pub fn close(&self) -> Result<Report, Refusal> {
        ffi::trace_close(self.block, self.state).report()
    }

    /// Whose sample a sample of a trace is, both counted from 0.
    ///
    /// Refuses [`Refusal::Index`] where there is no such trace.
    pub fn place(&self, trace: u32, sample: u32) -> Result<TracePlace, Refusal> {
        trace_place(self.block, trace, sample)
    }
}
