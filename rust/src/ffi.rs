//! The library's calls, in C's terms: slices as a pointer and a length, structs of numbers that
//! mirror those of `crates/deck/src` and of the crates below it field by field. All `unsafe` is here.

use crate::header::{ChannelSet, Header};
use crate::refusal::Told;
use crate::words::Sample;

#[repr(C)]
pub struct Pair {
    pub found: u8,
    pub value: u8,
}

#[repr(C)]
pub struct Row {
    pub found: u8,
    pub kind: u8,
    pub width: u32,
    pub apart: u32,
    pub fraction: u32,
    pub base: u32,
    pub exponent: u32,
    pub bias: u32,
}

#[repr(C)]
pub struct Read {
    pub refusal: Told,
    pub sample: Sample,
    pub off: u8,
}

#[repr(C)]
pub struct HeaderRead {
    pub refusal: Told,
    pub header: Header,
}

#[repr(C)]
pub struct Described {
    pub refusal: Told,
    pub set: ChannelSet,
}

#[repr(C)]
pub struct Index {
    pub refusal: Told,
    pub k: u32,
}

#[repr(C)]
pub struct Sits {
    pub refusal: Told,
    pub set: u32,
    pub channel: u32,
    pub subscan: u32,
}

#[repr(C)]
pub struct TraceSits {
    pub refusal: Told,
    pub scan_type: u32,
    pub set: u32,
    pub channel: u32,
    pub scan: u32,
    pub subscan: u32,
}

#[repr(C)]
pub struct Part {
    pub refusal: Told,
    pub offset: u64,
    pub length: u64,
}

#[repr(C)]
pub struct SkewPart {
    pub refusal: Told,
    pub of_sheet: u8,
    pub offset: u64,
    pub length: u64,
}

#[repr(C)]
pub struct SkewByte {
    pub refusal: Told,
    pub value: u8,
}

#[repr(C)]
pub struct Time {
    pub refusal: Told,
    pub time: u32,
}

#[repr(C)]
#[derive(Clone, Copy, Debug)]
pub struct Shape {
    code: u16,
    scan: u32,
    advance: u32,
    types: u32,
    block: u32,
}

#[repr(C)]
#[derive(Clone, Copy, Debug)]
pub struct Track {
    timing: u32,
    seen: u32,
    itb: u32,
    twi: u32,
    window: u32,
}

/// The body reader's state. Its fields are the library's own affair.
#[repr(C)]
#[derive(Clone, Copy, Debug)]
pub struct State {
    shape: Shape,
    place: u32,
    ends: u32,
    off: u32,
    track: Track,
    held: u32,
    exponents: u32,
    stop: u32,
    stopat: u32,
}

/// The same of a body of traces.
#[repr(C)]
#[derive(Clone, Copy, Debug)]
pub struct Traces {
    code: u16,
    place: u32,
    ends: u32,
    at: u32,
    samples: u32,
    off: u32,
    present: u32,
    scans: u32,
    held: u32,
    exponents: u32,
    stop: u32,
    stopat: u32,
}

#[repr(C)]
pub struct Opened {
    pub refusal: Told,
    pub kind: u8,
    pub state: State,
    pub traces: Traces,
}

/// What a portion or a block end gave, with the state of its kind of body.
#[repr(C)]
pub struct Gave<S> {
    pub state: S,
    pub outcome: u32,
    pub refusal: Told,
    pub samples: u64,
}

#[repr(C)]
pub struct Closing {
    pub refusal: Told,
    pub scans: u32,
    pub off: u32,
    pub samples: u64,
    pub last_type: u32,
    pub itb_known: u32,
    pub itb: u32,
    pub window_known: u32,
    pub window: u32,
}

/// A safe function for each call that reads slices, if any, and takes plain values beside them.
macro_rules! reading {
    ($($name:ident = $call:ident([$($slice:ident),*] $($value:ident: $type:ty),*) -> $answer:ty;)*) => {$(
        pub fn $name($($slice: &[u8],)* $($value: $type),*) -> $answer {
            extern "C" {
                fn $call($($slice: *const u8, _: usize,)* $($value: $type),*) -> $answer;
            }
            // SAFETY: each pointer and length are those of one slice, borrowed for the whole call. The call reads
            // these bytes alone, keeps no pointer, and is total: any bytes and numbers have an answer.
            unsafe { $call($($slice.as_ptr(), $slice.len(),)* $($value),*) }
        }
    )*};
}

reading! {
    packed = segd_packed([] byte: u8) -> Pair;
    format = segd_format([] code: u16) -> Row;
    read_word = segd_read_word([] code: u16, c: u32, word: u32) -> Read;
    read_header = segd_read_header([block]) -> HeaderRead;
    descriptor = segd_descriptor([block] scan_type: u32, set: u32) -> Described;
    sample_index = segd_sample_index([block] scan_type: u32, set: u32, channel: u32, subscan: u32) -> Index;
    sample_place = segd_sample_place([block] scan_type: u32, k: u32) -> Sits;
    constants = segd_constants([block]) -> Part;
    extended = segd_extended([block]) -> Part;
    external = segd_external([block]) -> Part;
    skew = segd_skew([block, sheet] scan_type: u32) -> SkewPart;
    skew_at = segd_skew_at([block, sheet] scan_type: u32, k: u32) -> SkewByte;
    sample_time = segd_sample_time([block, sheet] scan_type: u32, k: u32, t: u32) -> Time;
    open = segd_open([block]) -> Opened;
    block_end = segd_block_end([] state: State) -> Gave<State>;
    close = segd_close([] state: State) -> Closing;
    trace_end = segd_trace_end([block] state: Traces) -> Gave<Traces>;
    trace_close = segd_trace_close([block] state: Traces) -> Closing;
    trace_place = segd_trace_place([block] trace: u32, sample: u32) -> TraceSits;
}

/// Output in C's terms: the numbers, and how many there are.
fn room_of(out: &mut [Sample]) -> (*mut i32, usize) {
    // No slice has more than isize::MAX bytes, so twice its length in samples does not overflow.
    (out.as_mut_ptr().cast::<i32>(), 2 * out.len())
}

pub fn portion(state: State, bytes: &[u8], out: &mut [Sample]) -> Gave<State> {
    extern "C" {
        fn segd_portion(
            state: State,
            bytes: *const u8,
            length: usize,
            out: *mut i32,
            room: usize,
        ) -> Gave<State>;
    }
    let (numbers, room) = room_of(out);
    // SAFETY: `bytes` as above. `out` is borrowed for this call alone; a `Sample` is two `i32` side by side
    // (`repr(C)`), so it is `room` of them, and the call writes nowhere else.
    unsafe { segd_portion(state, bytes.as_ptr(), bytes.len(), numbers, room) }
}

pub fn trace_portion(
    block: &[u8],
    state: Traces,
    bytes: &[u8],
    out: &mut [Sample],
) -> Gave<Traces> {
    extern "C" {
        fn segd_trace_portion(
            block: *const u8,
            block_length: usize,
            state: Traces,
            bytes: *const u8,
            length: usize,
            out: *mut i32,
            room: usize,
        ) -> Gave<Traces>;
    }
    let (numbers, room) = room_of(out);
    let (start, length) = (block.as_ptr(), block.len());
    // SAFETY: `block` and `bytes` as above, `out` as for `portion`.
    unsafe { segd_trace_portion(start, length, state, bytes.as_ptr(), bytes.len(), numbers, room) }
}
