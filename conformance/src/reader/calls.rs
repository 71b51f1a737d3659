//! What each call of a cut reading has to answer, taken from the uncut body.
//!
//! A call is judged by where it lies: the bytes and the block ends before it. That
//! is the same for bodies of scans and of traces; a call on traces is lent the header
//! block besides.

use super::body::{open, read, Body, Cause, Kind, Reading, Report, Sample, Stop};
use super::header::read_header;
use super::scans::read_scans;
use super::traces::{read_traces, Standing, Traces};
use super::{refusal, Refusal, ROOM, STATE};

/// A call on an opened state. `room` is the length of the output lent.
#[derive(Clone, Debug, PartialEq, Eq)]
pub enum Call {
    Portion { bytes: Vec<u8>, room: usize },
    BlockEnd,
    Close,
}

/// A call on a body of traces, with the header block that is lent to it.
#[derive(Clone, Debug, PartialEq, Eq)]
pub struct Lent {
    pub block: Vec<u8>,
    pub call: Call,
}

/// What a call answers. A portion's numbers are M, X, M, X and so on; the
/// samples it says it wrote are half as many, stopped or not.
#[derive(Clone, Debug, PartialEq, Eq)]
pub enum Answer {
    Portion { numbers: Vec<i32>, refusal: Option<Refusal> },
    BlockEnd(Option<Refusal>),
    Close(Result<Report, Refusal>),
}

/// Output is too short if it is less than two numbers for each byte.
fn too_short(call: &Call) -> bool {
    matches!(call, Call::Portion { bytes, room } if room / 2 < bytes.len())
}

/// The body that the calls bring. A portion without room brings nothing: it is
/// either refused or comes after a stop.
pub fn uncut(calls: &[Call]) -> Body {
    let mut body = Body::default();
    for call in calls.iter().filter(|call| !too_short(call)) {
        match call {
            Call::Portion { bytes, .. } => body.rest.extend(bytes),
            Call::BlockEnd => body.blocks.push(std::mem::take(&mut body.rest)),
            Call::Close => {}
        }
    }
    body
}

/// Bytes and block ends that the calls bring.
fn extent(calls: &[Call]) -> (u64, usize) {
    let brought = |call: &Call| match call {
        Call::Portion { bytes, .. } if !too_short(call) => bytes.len() as u64,
        _ => 0,
    };
    let ends = calls.iter().filter(|call| **call == Call::BlockEnd).count();
    (calls.iter().map(brought).sum(), ends)
}

/// Whether the stop's byte or block end is among those given.
fn within(stop: &Stop, extent: (u64, usize)) -> bool {
    match stop.cause {
        Cause::Byte => u64::from(stop.place) < extent.0,
        Cause::End(n) => n < extent.1,
    }
}

/// M and X of the samples whose last byte lies in the range.
fn numbers(samples: &[Sample], from: u64, to: u64) -> Vec<i32> {
    let inside = samples.iter().filter(|sample| (from..to).contains(&sample.end));
    inside.flat_map(|sample| [sample.m, sample.x]).collect()
}

/// An answer that hands out nothing but the refusal.
fn refused(call: &Call, refusal: Refusal) -> Answer {
    match call {
        Call::Portion { .. } => Answer::Portion { numbers: Vec::new(), refusal: Some(refusal) },
        Call::BlockEnd => Answer::BlockEnd(Some(refusal)),
        Call::Close => Answer::Close(Err(refusal)),
    }
}

/// How an opened body is read whole.
type Reader<'a> = &'a dyn Fn(&Body) -> Reading;

/// The answer of call `i`: an earlier stop, then ROOM, then what it brings.
fn answer(read: Reader, calls: &[Call], i: usize, reading: &Reading) -> Answer {
    let (before, after) = (extent(&calls[..i]), extent(&calls[..=i]));
    let call = &calls[i];
    let earlier = reading.stop.filter(|stop| within(stop, before));
    let here = reading.stop.filter(|stop| within(stop, after));
    if let Some(stop) = earlier {
        return refused(call, stop.refusal());
    }
    if too_short(call) {
        return refused(call, refusal(ROOM));
    }
    let refusal = here.map(|stop| stop.refusal());
    match call {
        Call::Portion { .. } => {
            Answer::Portion { numbers: numbers(&reading.samples, before.0, after.0), refusal }
        }
        Call::BlockEnd => Answer::BlockEnd(refusal),
        // Closing is asked about the body so far, as if it were all.
        Call::Close => Answer::Close(read(&uncut(&calls[..i])).closing),
    }
}

/// The answers of all calls on an opened body.
fn each_answer(read: Reader, calls: &[Call]) -> Vec<Answer> {
    let reading = read(&uncut(calls));
    (0..calls.len()).map(|i| answer(read, calls, i, &reading)).collect()
}

/// The opening's answer, and every call's on scans. After a refused opening, and after
/// that of a body of traces, the state is unfit and every call answers so.
pub fn answers(block: &[u8], calls: &[Call]) -> (Result<Kind, Refusal>, Vec<Answer>) {
    let opened = open(block);
    let each = match opened {
        Ok(Kind::Scans) => {
            let read = |body: &Body| read_scans(block, body).expect("it was opened");
            each_answer(&read, calls)
        }
        _ => calls.iter().map(|call| refused(call, refusal(STATE))).collect(),
    };
    (opened, each)
}

/// What turns a call on traces away before its state is looked into: the refusals of
/// the block that it is lent, then STATE. The state of an opening is fit for its own
/// block. Which other blocks it would be fit for is the library's to define, so that
/// nothing is asked about those of the same code.
fn turned_away(opening: &[u8], calls: &[Lent]) -> Vec<Option<Refusal>> {
    let opened = open(opening);
    let away = |lent: &Lent| match opened {
        Ok(Kind::Traces) if *lent.block == *opening => None,
        _ => Some(read_header(&lent.block).err().unwrap_or(refusal(STATE))),
    };
    calls.iter().map(away).collect()
}

/// The calls that are not turned away.
fn taken(calls: &[Lent], away: &[Option<Refusal>]) -> Vec<Call> {
    let both = calls.iter().zip(away);
    both.filter(|(_, away)| away.is_none()).map(|(lent, _)| lent.call.clone()).collect()
}

/// How the state stands after each call on traces, on an accepted opening.
pub fn standings(opening: &[u8], calls: &[Lent]) -> Result<Vec<Standing>, Refusal> {
    let away = turned_away(opening, calls);
    let traces = Traces::new(opening, &uncut(&taken(calls, &away)))?;
    let reading = read(&traces);
    let after = calls.iter().zip(&away).scan((0, 0), |so_far, (lent, away)| {
        if away.is_none() {
            let (bytes, ends) = extent(std::slice::from_ref(&lent.call));
            *so_far = (so_far.0 + bytes, so_far.1 + ends);
        }
        let stop = reading.stop.filter(|stop| within(stop, *so_far));
        Some(traces.standing(&reading, stop, *so_far))
    });
    Ok(after.collect())
}

/// The opening's answer, and every call's on traces. A call that is turned away brings
/// nothing, and the others answer as if it had not been put.
pub fn trace_answers(opening: &[u8], calls: &[Lent]) -> (Result<Kind, Refusal>, Vec<Answer>) {
    let away = turned_away(opening, calls);
    let both = || calls.iter().zip(&away);
    let taken = taken(calls, &away);
    let read = |body: &Body| read_traces(opening, body).expect("it was opened");
    let given = if taken.is_empty() { Vec::new() } else { each_answer(&read, &taken) };
    let mut given = given.into_iter();
    let each = both().map(|(lent, away)| match away {
        Some(refusal) => refused(&lent.call, refusal.clone()),
        None => given.next().expect("an answer for each call that is taken"),
    });
    (open(opening), each.collect())
}
