//! The body: opening, portions, block ends and closing over a state of numbers. What
//! is answered on a body of traces comes in the same terms, and is read here too.

use super::traces::{self, Traces};
use super::{row, unfold, Told};
use crate::reader::body::Report;
use crate::reader::calls::{Answer, Call};
use crate::reader::Refusal;
use std::fmt::Debug;

/// What the header says of the body.
#[repr(C)]
#[derive(Clone, Copy, Debug, Default, PartialEq, Eq)]
pub struct Shape {
    pub code: u16,
    /// B
    pub scan: u32,
    /// 16 I in the top three bytes
    pub advance: u32,
    /// ST/R
    pub types: u32,
    /// scans of a block; 0: the body is one block
    pub block: u32,
}

/// What the starts of the scans told so far.
#[repr(C)]
#[derive(Clone, Copy, Debug, Default, PartialEq, Eq)]
pub struct Track {
    pub timing: u32,
    /// scan types so far
    pub seen: u32,
    pub itb: u32,
    /// 1 once a scan had TWI set
    pub twi: u32,
    pub window: u32,
}

#[repr(C)]
#[derive(Clone, Copy, Debug, Default, PartialEq, Eq)]
pub struct State {
    pub shape: Shape,
    /// bytes so far
    pub place: u32,
    /// block ends so far
    pub ends: u32,
    /// off-rule words so far
    pub off: u32,
    pub track: Track,
    pub held: u32,
    pub exponents: u32,
    /// 0, or the row that stopped the body, and its place
    pub stop: u32,
    pub stopat: u32,
}

#[repr(C)]
struct SegdOpened {
    refusal: Told,
    /// 0 where refused, 1 for scans, 2 for traces
    kind: u8,
    state: State,
    traces: Traces,
}

/// The answer to a portion or to a block end, on a body of either kind.
#[repr(C)]
pub(super) struct Gave<S> {
    pub state: S,
    outcome: u32,
    refusal: Told,
    samples: u64,
}

/// The answer to the closing question, likewise.
#[repr(C)]
pub(super) struct Closing {
    refusal: Told,
    scans: u32,
    off: u32,
    samples: u64,
    last_type: u32,
    itb_known: u32,
    itb: u32,
    window_known: u32,
    window: u32,
}

extern "C" {
    fn segd_open(block: *const u8, length: usize) -> SegdOpened;
    fn segd_portion(
        state: State,
        bytes: *const u8,
        length: usize,
        out: *mut i32,
        room: usize,
    ) -> Gave<State>;
    fn segd_block_end(state: State) -> Gave<State>;
    fn segd_close(state: State) -> Closing;
}

/// An answer, or what about it no answer may be.
pub type Said = Result<Answer, String>;

const GOING_ON: u32 = 0;
const STOPPED: u32 = 1;
const REFUSED: u32 = 2;

/// What output holds before a call. No M and no X is so large.
const UNTOUCHED: i32 = 0x5AA5_5AA5;

/// Numbers kept after the output lent, to see that no call writes there.
const BEYOND: usize = 4;

/// The kind of the body and the state before its first byte.
#[derive(Clone, Copy, Debug, PartialEq, Eq)]
pub enum Opened {
    Scans(State),
    Traces(Traces),
}

/// The calls on a body of either kind. The header block is for those on traces.
impl Opened {
    pub fn portion(&mut self, block: &[u8], bytes: &[u8], room: usize) -> Said {
        match self {
            Opened::Scans(state) => portion(state, bytes, room),
            Opened::Traces(state) => traces::portion(block, state, bytes, room),
        }
    }

    pub fn block_end(&mut self, block: &[u8]) -> Said {
        match self {
            Opened::Scans(state) => block_end(state),
            Opened::Traces(state) => traces::end(block, state),
        }
    }

    pub fn close(&self, block: &[u8]) -> Result<Report, Refusal> {
        match self {
            Opened::Scans(state) => close(*state),
            Opened::Traces(state) => traces::close(block, *state),
        }
    }
}

/// Opens a body. A refused opening has to hand out no kind and nothing but 0 in both
/// states, and an accepted one nothing but 0 in the state of the other kind.
pub fn open(block: &[u8]) -> Result<Opened, Refusal> {
    let SegdOpened { refusal, kind, state, traces } =
        unsafe { segd_open(block.as_ptr(), block.len()) };
    unfold(refusal, (kind, state, traces), |_| match kind {
        1 if traces == Traces::default() => Some(Opened::Scans(state)),
        2 if state == State::default() => Some(Opened::Traces(traces)),
        _ => None,
    })
}

/// The state of a body of scans that an opening hands out, refused or not.
pub fn opened_state(block: &[u8]) -> State {
    match open(block) {
        Ok(Opened::Scans(state)) => state,
        _ => State::default(),
    }
}

pub(super) fn demand(sound: bool, told: impl Fn() -> String) -> Result<(), String> {
    if sound {
        Ok(())
    } else {
        Err(told())
    }
}

/// The outcome that belongs to a refusal. Row 8 is a stop where it has a place, and
/// else one of a header.
fn outcome_of_row(told: Told) -> u32 {
    match told.number {
        0 => GOING_ON,
        8 if told.third != 0 => STOPPED,
        14..=18 | 24 | 25 => STOPPED,
        _ => REFUSED,
    }
}

/// What a state of either kind says of its stop.
pub(super) trait Stops: Copy + PartialEq + Debug {
    fn stopped(&self) -> bool;
}

impl Stops for State {
    fn stopped(&self) -> bool {
        self.stop != 0
    }
}

/// The refusal of a portion or of a block end. Its outcome has to be that of its
/// row, and a call that is refused, or that answers an earlier stop, may not change
/// the state.
fn refusal_of<S: Stops>(before: S, gave: &Gave<S>) -> Result<Option<Refusal>, String> {
    let (told, state) = (gave.refusal, gave.state);
    let outcome = outcome_of_row(told);
    demand(gave.outcome == outcome, || format!("outcome {} with {told:?}", gave.outcome))?;
    let turned_away = outcome == REFUSED || before.stopped();
    demand(!turned_away || state == before, || format!("{told:?} left {state:?}"))?;
    Ok((told != Told::default()).then(|| row(told)))
}

/// Output for a portion, and what follows it: what no call may write to.
pub(super) fn output(room: usize) -> Vec<i32> {
    vec![UNTOUCHED; room + BEYOND]
}

/// What a portion answered, with what it left in its output.
pub(super) fn portion_said<S: Stops>(
    before: S,
    gave: &Gave<S>,
    out: Vec<i32>,
    room: usize,
) -> Said {
    let refusal = refusal_of(before, gave)?;
    Ok(Answer::Portion { numbers: written(out, room, gave.samples)?, refusal })
}

/// What a block end answered.
pub(super) fn end_said<S: Stops>(before: S, gave: &Gave<S>) -> Said {
    let refusal = refusal_of(before, gave)?;
    demand(gave.samples == 0, || format!("a block end with {} samples", gave.samples))?;
    Ok(Answer::BlockEnd(refusal))
}

/// The numbers written. All after them has to be as it was.
fn written(mut out: Vec<i32>, room: usize, samples: u64) -> Result<Vec<i32>, String> {
    let count = usize::try_from(samples).unwrap_or(usize::MAX).saturating_mul(2);
    demand(count <= room, || format!("{samples} samples in a room of {room}"))?;
    let touched = out[count..].iter().position(|number| *number != UNTOUCHED);
    demand(touched.is_none(), || format!("{samples} samples, and then wrote at {touched:?}"))?;
    out.truncate(count);
    Ok(out)
}

pub fn portion(state: &mut State, bytes: &[u8], room: usize) -> Said {
    let (before, mut out) = (*state, output(room));
    let gave = unsafe { segd_portion(before, bytes.as_ptr(), bytes.len(), out.as_mut_ptr(), room) };
    *state = gave.state;
    portion_said(before, &gave, out, room)
}

pub fn block_end(state: &mut State) -> Said {
    let before = *state;
    let gave = unsafe { segd_block_end(before) };
    *state = gave.state;
    end_said(before, &gave)
}

/// A number with a mark that says whether there is one; without it, it is 0.
fn known(mark: u32, number: u32) -> Option<Option<u32>> {
    match (mark, number) {
        (1, number) => Some(Some(number)),
        (0, 0) => Some(None),
        _ => None,
    }
}

/// A bit, likewise.
fn bit(mark: u32, number: u32) -> Option<Option<bool>> {
    match known(mark, number)? {
        Some(bit) => (bit <= 1).then_some(Some(bit == 1)),
        None => Some(None),
    }
}

/// The report of a closing on a body of either kind; which of its marks are set is for
/// the comparison to say.
pub(super) fn report(flat: Closing) -> Result<Report, Refusal> {
    let counts = (flat.scans, flat.samples, flat.off, flat.last_type);
    let marks = (flat.itb_known, flat.itb, flat.window_known, flat.window);
    unfold(flat.refusal, (counts, marks), |_| {
        Some(Report {
            scans: flat.scans,
            samples: flat.samples.try_into().ok()?,
            off: flat.off,
            scan_type: flat.last_type,
            itb: bit(flat.itb_known, flat.itb)?,
            window: known(flat.window_known, flat.window)?,
        })
    })
}

pub fn close(state: State) -> Result<Report, Refusal> {
    report(unsafe { segd_close(state) })
}

/// Puts a call, and goes on with the state that it gives.
pub fn call(state: &mut State, call: &Call) -> Said {
    match call {
        Call::Portion { bytes, room } => portion(state, bytes, *room),
        Call::BlockEnd => block_end(state),
        Call::Close => Ok(Answer::Close(close(*state))),
    }
}
