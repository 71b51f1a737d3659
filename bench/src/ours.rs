//! The compiled library. The structs mirror those of `crates/deck/src/bodies.rt` and of the crates below it.

use crate::answers::{Closing, Gave, Reading, Report, Stop};

#[repr(C)]
#[derive(Clone, Copy)]
struct Told {
    number: u32,
    first: u32,
    second: u32,
    third: u32,
}

impl Told {
    /// A stop: of FOUR, row 8, the place is the third value.
    fn stop(&self) -> Stop {
        let Told { number, first, second, third } = *self;
        match number {
            8 => Stop { number, place: third, set: (first, second) },
            _ => Stop::at(number, first),
        }
    }
}

#[repr(C)]
#[derive(Clone, Copy)]
struct Shape {
    code: u16,
    scan: u32,
    advance: u32,
    types: u32,
    block: u32,
}

#[repr(C)]
#[derive(Clone, Copy)]
struct Track {
    timing: u32,
    seen: u32,
    itb: u32,
    twi: u32,
    window: u32,
}

#[repr(C)]
#[derive(Clone, Copy)]
struct State {
    shape: Shape,
    place: u32,
    ends: u32,
    off: u32,
    track: Track,
    held: u32,
    exponents: u32,
    stop: u32,
    stopat: u32,
}

#[repr(C)]
struct SegdOpened {
    refusal: Told,
    kind: u8,
    state: State,
    traces: Traces,
}

/// The state of a body of traces.
#[repr(C)]
#[derive(Clone, Copy)]
struct Traces {
    code: u16,
    place: u32,
    ends: u32,
    at: u32,
    samples: u32,
    off: u32,
    present: u32,
    scans: u32,
    held: u32,
    exponents: u32,
    stop: u32,
    stopat: u32,
}

#[repr(C)]
struct SegdGave<S> {
    state: S,
    outcome: u32,
    refusal: Told,
    samples: u64,
}

#[repr(C)]
struct SegdClosing {
    refusal: Told,
    scans: u32,
    off: u32,
    samples: u64,
    last_type: u32,
    itb_known: u32,
    itb: u32,
    window_known: u32,
    window: u32,
}

extern "C" {
    fn segd_open(block: *const u8, length: usize) -> SegdOpened;
    fn segd_portion(
        state: State,
        bytes: *const u8,
        length: usize,
        out: *mut i32,
        room: usize,
    ) -> SegdGave<State>;
    fn segd_block_end(state: State) -> SegdGave<State>;
    fn segd_close(state: State) -> SegdClosing;
    fn segd_trace_portion(
        block: *const u8,
        block_length: usize,
        state: Traces,
        bytes: *const u8,
        length: usize,
        out: *mut i32,
        room: usize,
    ) -> SegdGave<Traces>;
    fn segd_trace_end(block: *const u8, block_length: usize, state: Traces) -> SegdGave<Traces>;
    fn segd_trace_close(block: *const u8, block_length: usize, state: Traces) -> SegdClosing;
}

/// The kinds of a body: that of a multiplexed record, and that of a demultiplexed one.
const SCANS: u8 = 1;
const TRACES: u8 = 2;

/// The outcome of a body that stops. One that goes on has 0.
const STOPPED: u32 = 1;

impl<S> SegdGave<S> {
    fn gave(&self) -> Gave {
        let stopped = self.outcome == STOPPED;
        Gave {
            samples: self.samples as usize,
            stop: stopped.then(|| self.refusal.stop()),
            refused: if stopped { 0 } else { self.refusal.number },
        }
    }
}

impl SegdClosing {
    fn closing(self) -> Closing {
        if self.refusal.number != 0 {
            return Err((self.refusal.number, self.refusal.stop().place));
        }
        Ok(Report {
            scans: self.scans,
            samples: self.samples,
            off: self.off,
            last_type: self.last_type,
            itb: (self.itb_known == 1).then_some(self.itb == 1),
            window: (self.window_known == 1).then_some(self.window),
        })
    }
}

fn open(header: &[u8], kind: u8) -> SegdOpened {
    let opened = unsafe { segd_open(header.as_ptr(), header.len()) };
    assert_eq!(opened.refusal.number, 0, "the header is accepted");
    assert_eq!(opened.kind, kind, "its body is of the kind that is read");
    opened
}

/// A body of scans that the library reads.
#[derive(Clone, Copy)]
pub struct Ours(State);

impl Ours {
    pub fn open(header: &[u8]) -> Ours {
        Ours(open(header, SCANS).state)
    }

    fn take(&mut self, gave: SegdGave<State>) -> Gave {
        self.0 = gave.state;
        gave.gave()
    }
}

/// A body of traces that the library reads, with the header block that its calls are lent.
#[derive(Clone, Copy)]
pub struct OurTraces<'a> {
    block: &'a [u8],
    state: Traces,
}

impl OurTraces<'_> {
    pub fn open(block: &[u8]) -> OurTraces<'_> {
        OurTraces { block, state: open(block, TRACES).traces }
    }

    fn take(&mut self, gave: SegdGave<Traces>) -> Gave {
        self.state = gave.state;
        gave.gave()
    }
}

impl Reading for OurTraces<'_> {
    fn portion(&mut self, bytes: &[u8], out: &mut [i32]) -> Gave {
        let (block, length) = (self.block.as_ptr(), self.block.len());
        let (from, count) = (bytes.as_ptr(), bytes.len());
        let gave = unsafe {
            segd_trace_portion(block, length, self.state, from, count, out.as_mut_ptr(), out.len())
        };
        self.take(gave)
    }

    fn block_end(&mut self) -> Gave {
        let gave = unsafe { segd_trace_end(self.block.as_ptr(), self.block.len(), self.state) };
        self.take(gave)
    }

    fn close(&self) -> Closing {
        unsafe { segd_trace_close(self.block.as_ptr(), self.block.len(), self.state) }.closing()
    }
}

impl Reading for Ours {
    fn portion(&mut self, bytes: &[u8], out: &mut [i32]) -> Gave {
        let gave = unsafe {
            segd_portion(self.0, bytes.as_ptr(), bytes.len(), out.as_mut_ptr(), out.len())
        };
        self.take(gave)
    }

    fn block_end(&mut self) -> Gave {
        let gave = unsafe { segd_block_end(self.0) };
        self.take(gave)
    }

    fn close(&self) -> Closing {
        unsafe { segd_close(self.0) }.closing()
    }
}
