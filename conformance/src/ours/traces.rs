//! A body of traces: its calls, which are lent the header block each time, and whose
//! sample a sample of a trace is.

use super::body::{end_said, open, output, portion_said, report};
use super::body::{Closing, Gave, Opened, Said, Stops};
use super::{unfold, Told};
use crate::reader::body::Report;
use crate::reader::calls::{Answer, Call, Lent};
use crate::reader::traces::TracePlace;
use crate::reader::Refusal;

#[repr(C)]
#[derive(Clone, Copy, Debug, Default, PartialEq, Eq)]
pub struct Traces {
    pub code: u16,
    /// bytes so far
    pub place: u32,
    /// block ends so far
    pub ends: u32,
    /// bytes of the present trace
    pub at: u32,
    /// samples so far
    pub samples: u32,
    /// off-rule words so far
    pub off: u32,
    /// scans of the scan type of the trace that ended last
    pub present: u32,
    /// scans of all scan types whose first trace has ended
    pub scans: u32,
    pub held: u32,
    pub exponents: u32,
    /// 0, or the row that stopped the body, and its place
    pub stop: u32,
    pub stopat: u32,
}

impl Stops for Traces {
    fn stopped(&self) -> bool {
        self.stop != 0
    }
}

#[repr(C)]
struct SegdTracePlace {
    refusal: Told,
    scan_type: u32,
    set: u32,
    channel: u32,
    scan: u32,
    subscan: u32,
}

extern "C" {
    fn segd_trace_portion(
        block: *const u8,
        block_length: usize,
        state: Traces,
        bytes: *const u8,
        length: usize,
        out: *mut i32,
        room: usize,
    ) -> Gave<Traces>;
    fn segd_trace_end(block: *const u8, block_length: usize, state: Traces) -> Gave<Traces>;
    fn segd_trace_close(block: *const u8, block_length: usize, state: Traces) -> Closing;
    fn segd_trace_place(
        block: *const u8,
        block_length: usize,
        trace: u32,
        sample: u32,
    ) -> SegdTracePlace;
}

/// The state of a body of traces that an opening hands out, refused or not.
pub fn opened_traces(block: &[u8]) -> Traces {
    match open(block) {
        Ok(Opened::Traces(traces)) => traces,
        _ => Traces::default(),
    }
}

pub fn portion(block: &[u8], state: &mut Traces, bytes: &[u8], room: usize) -> Said {
    let (before, mut out) = (*state, output(room));
    let (start, length) = (block.as_ptr(), block.len());
    let (from, count) = (bytes.as_ptr(), bytes.len());
    let gave =
        unsafe { segd_trace_portion(start, length, before, from, count, out.as_mut_ptr(), room) };
    *state = gave.state;
    portion_said(before, &gave, out, room)
}

pub fn end(block: &[u8], state: &mut Traces) -> Said {
    let before = *state;
    let gave = unsafe { segd_trace_end(block.as_ptr(), block.len(), before) };
    *state = gave.state;
    end_said(before, &gave)
}

pub fn close(block: &[u8], state: Traces) -> Result<Report, Refusal> {
    report(unsafe { segd_trace_close(block.as_ptr(), block.len(), state) })
}

/// Puts a call, and goes on with the state that it gives.
pub fn call(state: &mut Traces, Lent { block, call }: &Lent) -> Said {
    match call {
        Call::Portion { bytes, room } => portion(block, state, bytes, *room),
        Call::BlockEnd => end(block, state),
        Call::Close => Ok(Answer::Close(close(block, *state))),
    }
}

pub fn trace_place(block: &[u8], trace: u32, sample: u32) -> Result<TracePlace, Refusal> {
    let flat = unsafe { segd_trace_place(block.as_ptr(), block.len(), trace, sample) };
    let SegdTracePlace { refusal, scan_type, set, channel, scan, subscan } = flat;
    unfold(refusal, TracePlace { scan_type, set, channel, scan, subscan }, Some)
}
