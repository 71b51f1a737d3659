//! A body of traces, of a demultiplexed record: each block is one channel's trace,
//! by its turn and the place in its block.

use super::body::{fault, kind_of, off_rule, read, Body, Cause, Fault, Kind};
use super::body::{Reading, Report, Rules, Sample, Stop, Tape};
use super::header::{descriptors, packed, read_header, Descriptor, Header};
use super::layout::{index_in, nothing_over, skew_part, whole_words, Source};
use super::words::{grouped, is_demultiplexed};
use super::{demand, refusal, Refusal};
use super::{BLOCK, COUNT, FOUR, INDEX, MISSING, OPEN, PART, STATE, TRACE};

/// Bytes of a trace before its samples.
const TRACE_START: u64 = 20;

/// Which channel a trace is of.
#[derive(Clone, Copy)]
struct Turn {
    scan_type: u32,
    set: u32,
    channel: u32,
    /// the channel's samples in a scan, 2^(S/C)
    subscans: u64,
}

pub(super) struct Traces<'a> {
    block: &'a [u8],
    header: Header,
    /// the sets of each scan type
    sets: Vec<Vec<Descriptor>>,
    tape: Tape,
    /// the turns of as many blocks as there are, the last without its end
    turns: Vec<Turn>,
    /// the block of each scan type's first trace among them, which sets the scans of all
    firsts: Vec<Option<usize>>,
}

/// A trace for each channel of a set, from 1; none for a dummy set.
fn turns_of(set: &Descriptor) -> impl Iterator<Item = Turn> + '_ {
    let subscans = 2u64.pow(set.subscan_exponent);
    let turn = move |channel| Turn { scan_type: set.scan_type, set: set.set, channel, subscans };
    (1..=set.channels).map(turn)
}

/// The sets of each scan type.
fn all_sets(block: &[u8], header: &Header) -> Vec<Vec<Descriptor>> {
    (1..=header.scan_types).map(|scan_type| descriptors(block, header, scan_type)).collect()
}

impl<'a> Traces<'a> {
    /// A body of traces under its header. A refused header is a refused opening, and a
    /// body of scans is not for these rules, which is STATE.
    pub(super) fn new(block: &'a [u8], body: &Body) -> Result<Traces<'a>, Refusal> {
        let header = read_header(block)?;
        demand(kind_of(&header) == Kind::Traces, STATE)?;
        let sets = all_sets(block, &header);
        let blocks = body.blocks.len() + 1;
        let turns: Vec<Turn> = sets.iter().flatten().flat_map(turns_of).take(blocks).collect();
        let first = |scan_type| turns.iter().position(|turn| turn.scan_type == scan_type);
        let firsts = (1..=header.scan_types).map(first).collect();
        Ok(Traces { block, header, sets, tape: Tape::new(body), turns, firsts })
    }

    /// How many traces the record has: one for each channel of each scan type.
    fn count(&self) -> u64 {
        self.sets.iter().flatten().map(|set| u64::from(set.channels)).sum()
    }

    /// The skew byte of the channel's subscan 0, where skew is recorded.
    fn first_skew(&self, turn: &Turn) -> Option<u8> {
        let sets = &self.sets[turn.scan_type as usize - 1];
        let k = index_in(sets, turn.set, turn.channel, 0);
        let (source, offset, _) = skew_part(&self.header, &[], turn.scan_type).ok()?;
        (source == Source::Block).then(|| self.block[offset + k as usize])
    }

    /// Whether byte `number` of a trace header, from 1, is what it has to be. The
    /// timing and window bytes are free.
    fn header_byte_sound(&self, turn: &Turn, number: u64, byte: u8) -> bool {
        let digits = |value: u32| packed(byte).map(u32::from) == Some(value);
        match number {
            1 | 2 => byte == self.block[number as usize - 1],
            3 => digits(turn.scan_type),
            4 => digits(turn.set),
            5 => digits(turn.channel / 100),
            6 => digits(turn.channel % 100),
            11 => self.first_skew(turn).is_none_or(|skew| byte == skew),
            10 | 12 | 16..=20 => byte == 0,
            _ => true,
        }
    }

    /// Bytes of samples in block n; nothing where its trace header is not whole.
    fn sample_bytes(&self, n: usize) -> Option<u64> {
        self.tape.block_length(n).checked_sub(TRACE_START)
    }

    /// The scans of the trace in block n: nothing where bytes are left over, where the
    /// last scan lacks a sample, or where there is none.
    fn scans(&self, n: usize) -> Option<u64> {
        let (turn, bytes) = (self.turns.get(n)?, self.sample_bytes(n)?);
        let samples = whole_words(self.header.code, bytes);
        let whole = nothing_over(self.header.code, bytes);
        let sound = whole && samples > 0 && samples.is_multiple_of(turn.subscans);
        sound.then(|| samples / turn.subscans)
    }

    /// The scans that every trace of a scan type has.
    fn scans_of(&self, scan_type: u32) -> Option<u64> {
        self.scans(self.firsts[scan_type as usize - 1]?)
    }

    /// The report on a body all of whose traces have ended: scans are counted once for
    /// each scan type.
    fn report(&self, samples: &[Sample]) -> Report {
        let types = 1..=self.header.scan_types;
        let scans = types.map(|scan_type| self.scans_of(scan_type).expect("its first trace ended"));
        Report {
            scans: scans.sum::<u64>() as u32,
            samples: samples.len() as u32,
            off: off_rule(samples),
            scan_type: self.header.scan_types,
            itb: None,
            window: None,
        }
    }
}

impl Rules for Traces<'_> {
    fn tape(&self) -> &Tape {
        &self.tape
    }

    fn byte_fault(&self, at: u64) -> Option<Fault> {
        let n = self.tape.block_of(at);
        let Some(turn) = self.turns.get(n) else {
            return Some(fault(BLOCK));
        };
        let place = at - self.tape.start(n);
        let sound =
            place >= TRACE_START || self.header_byte_sound(turn, place + 1, self.tape.byte(at));
        (!sound).then(|| fault(TRACE))
    }

    /// BLOCK in a trace header or after the last trace; then FOUR where a group of 8015
    /// lacks a sample; then COUNT.
    fn end_fault(&self, n: usize) -> Option<Fault> {
        let (Some(turn), Some(bytes)) = (self.turns.get(n), self.sample_bytes(n)) else {
            return Some(fault(BLOCK));
        };
        let code = self.header.code;
        if grouped(code) && !whole_words(code, bytes).is_multiple_of(4) {
            return Some(Fault { number: FOUR, set: Some((turn.scan_type, turn.set)) });
        }
        let scans = self.scans(n);
        let sound = scans.is_some() && scans == self.scans_of(turn.scan_type);
        (!sound).then(|| fault(COUNT))
    }

    fn samples_before(&self, limit: u64) -> Vec<Sample> {
        let code = self.header.code;
        let begun = self.tape.block_of(limit.saturating_sub(1)) + 1;
        let within = |n: usize| {
            let begin = self.tape.start(n) + TRACE_START;
            let end = self.tape.ends.get(n).map_or(limit, |end| limit.min(*end));
            let words = whole_words(code, end.saturating_sub(begin));
            (0..words).map(move |i| self.tape.sample(code, begin, i))
        };
        (0..begun).flat_map(within).collect()
    }

    fn closing(&self, samples: &[Sample]) -> Result<Report, Refusal> {
        let rest = self.tape.rest();
        let whole = rest.checked_sub(TRACE_START);
        let whole = whole.is_some_and(|bytes| nothing_over(self.header.code, bytes));
        if rest > 0 && !whole {
            Err(refusal(PART))
        } else if rest > 0 {
            Err(refusal(OPEN))
        } else if self.count() == 0 || (self.tape.ends.len() as u64) < self.count() {
            Err(refusal(MISSING))
        } else {
            Ok(self.report(samples))
        }
    }
}

/// Reads a whole body of traces.
pub fn read_traces(block: &[u8], body: &Body) -> Result<Reading, Refusal> {
    Ok(read(&Traces::new(block, body)?))
}

/// What a state has to say after so much of a body: what was taken, and the stop.
#[derive(Clone, Copy, Debug, Default, PartialEq, Eq)]
pub struct Standing {
    pub place: u64,
    pub ends: usize,
    /// bytes of the present trace
    pub at: u64,
    pub samples: usize,
    pub off: u32,
    /// scans of the scan type of the trace that ended last
    pub present: u64,
    /// scans of all scan types whose first trace has ended
    pub scans: u64,
    /// the stop's row and place
    pub stop: Option<(u8, u32)>,
}

impl Traces<'_> {
    /// The bytes and block ends that come before a stop: its own is not taken.
    fn before(&self, stop: &Stop) -> (u64, usize) {
        let place = stop.place.into();
        match stop.cause {
            Cause::End(n) => (place, n),
            Cause::Byte => (place, self.tape.block_of(place)),
        }
    }

    /// How a state stands that has taken so many bytes and block ends, or fewer where
    /// there was a stop among them.
    pub(super) fn standing(
        &self,
        reading: &Reading,
        stop: Option<Stop>,
        taken: (u64, usize),
    ) -> Standing {
        let (place, ends) = stop.as_ref().map_or(taken, |stop| self.before(stop));
        let given = reading.samples.partition_point(|sample| sample.end < place);
        let begun = self.firsts.iter().flatten().filter(|first| **first < ends);
        let last = ends.checked_sub(1).and_then(|n| self.turns.get(n));
        Standing {
            place,
            ends,
            at: place - self.tape.start(ends),
            samples: given,
            off: off_rule(&reading.samples[..given]),
            present: last.and_then(|turn| self.scans_of(turn.scan_type)).unwrap_or(0),
            scans: begun.map(|first| self.scans(*first).unwrap_or(0)).sum(),
            stop: stop.map(|stop| (stop.fault.number, stop.place)),
        }
    }
}

/// Whose sample a sample of a trace is.
#[derive(Clone, Copy, Debug, Default, PartialEq, Eq)]
pub struct TracePlace {
    pub scan_type: u32,
    pub set: u32,
    pub channel: u32,
    /// the scan of its scan type, from 0
    pub scan: u32,
    pub subscan: u32,
}

/// The place of a sample of a trace, both from 0: header, INDEX. It is asked of no body,
/// so that any sample will do.
pub fn trace_place(block: &[u8], trace: u32, sample: u32) -> Result<TracePlace, Refusal> {
    let header = read_header(block)?;
    demand(is_demultiplexed(header.code), INDEX)?;
    let sets: Vec<Descriptor> = all_sets(block, &header).concat();
    let with_firsts = sets.iter().scan(0, |sum, set| {
        let first = *sum;
        *sum += set.channels;
        Some((first, set))
    });
    let mut holding =
        with_firsts.filter(|(first, set)| (*first..first + set.channels).contains(&trace));
    let (first, set) = holding.next().ok_or(refusal(INDEX))?;
    let subscans = 2u32.pow(set.subscan_exponent);
    Ok(TracePlace {
        scan_type: set.scan_type,
        set: set.set,
        channel: trace - first + 1,
        scan: sample / subscans,
        subscan: sample % subscans,
    })
}

/// What makes a state fit for a header that is accepted, as include/segd.h has it: the
/// numbers of a state in its order, after the code.
pub fn is_fit(block: &[u8], code: u16, numbers: &[u32; 11]) -> Result<bool, Refusal> {
    let header = read_header(block)?;
    let [place, ends, at, samples, off, present, scans, _, exponents, stop, stopat] = *numbers;
    let traces: u64 =
        all_sets(block, &header).concat().iter().map(|set| u64::from(set.channels)).sum();
    let before = place.checked_sub(at);
    Ok(is_demultiplexed(code)
        && code == header.code
        && u64::from(ends) <= traces
        && before.is_some_and(|before| ends <= before && scans <= before)
        && [present, samples, off, stopat].iter().all(|number| *number <= place)
        && exponents <= 0xFFFF
        && [0, 8, 14, 15, 24, 25].contains(&stop))
}
