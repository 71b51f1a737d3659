//! A record's samples as traces: a channel's values by time.

use segd::reel::{Reading, Record};
use segd::{Header, Place, Refusal, Sample};
use std::collections::BTreeMap;

/// Times are in 1/4096 ms, from the first scan's timing word on.
pub const MS: f64 = 4096.0;

/// A timing word starts again after 2^24 of its 1/256 ms.
const LAP: i64 = 16 << 24;

/// Bytes of a demultiplexed trace before its samples.
const TRACE_HEADER: usize = 20;

/// The part of a trace's samples that stay below its level.
const BELOW: f64 = 0.99;

#[derive(Clone, Copy, Debug, PartialEq)]
pub struct Point {
    pub time: i64,
    /// In millivolts.
    pub value: f64,
}

/// A channel of a set. Where scan types differ, each scan's samples are as its own scan type has them.
pub struct Trace {
    pub set: u32,
    pub channel: u32,
    /// What all but a few of the samples stay below; the greatest where that is zero.
    pub level: f64,
    pub points: Vec<Point>,
}

pub struct Traces {
    pub all: Vec<Trace>,
    pub course: Course,
    /// Scans that were read whole; of a demultiplexed record that stops, those of the scan types that were begun.
    pub scans: usize,
    /// The time of a base scan.
    pub scan: i64,
    /// The first scan's time and the last one's end, or the narrower times that are kept.
    pub from: i64,
    pub to: i64,
    pub skew_recorded: bool,
}

impl Traces {
    /// Keeps what lies between two times, in ms, and the traces that have any of it.
    pub fn keep(&mut self, from: f64, to: f64) {
        self.from = self.from.max((from * MS) as i64);
        self.to = self.to.min((to * MS) as i64);
        let kept = |point: &Point| (self.from..self.to).contains(&point.time);
        self.all.iter_mut().for_each(|trace| trace.points.retain(kept));
        self.all.retain(|trace| !trace.points.is_empty());
    }
}

/// How time went on from scan to scan.
pub struct Course {
    /// The first scan's timing word, in 1/256 ms.
    pub first: i64,
    /// When the timing word is 0 again.
    pub restarts: Vec<i64>,
    /// When another scan type begins, and its number.
    pub switches: Vec<(i64, usize)>,
    /// Each scan's time, and its scan type.
    scans: Vec<(i64, usize)>,
}

/// What is known of sample k of a scan before the scan comes.
struct Slot {
    set: u32,
    channel: u32,
    /// How long after its scan's timing word it was taken.
    delay: i64,
    factor: f64,
}

/// The slots of a scan type. Where skew is not recorded, a channel's subscans are spread evenly over the scan.
fn slots(block: &[u8], header: &Header, scan_type: u32) -> Result<Vec<Slot>, Refusal> {
    let sets = (1..=header.channel_sets.into())
        .map(|set| segd::descriptor(block, scan_type, set))
        .collect::<Result<Vec<_>, _>>()?;
    let slot = |k| {
        let place = segd::sample_place(block, scan_type, k)?;
        let set = &sets[place.set as usize - 1];
        let delay = if header.skew_fields == 0 {
            scan_time(header) * i64::from(place.subscan) / i64::from(set.subscans())
        } else {
            segd::sample_time(block, &[], scan_type, k, 0)?.into()
        };
        Ok(Slot { set: place.set, channel: place.channel, delay, factor: set.factor() })
    };
    (0..header.samples_per_scan).map(slot).collect()
}

/// The base scan interval, of which the header has sixteenths of a millisecond.
fn scan_time(header: &Header) -> i64 {
    256 * i64::from(header.interval)
}

/// A scan's start: its timing word, and the bit that flips with each scan type.
fn start(scan: &[u8]) -> (i64, u8) {
    (u32::from_be_bytes([0, scan[4], scan[5], scan[6]]).into(), scan[3] & 0x10)
}

/// The course of these scans. The reader has found their timing words in step, so one that is less than the last has started again.
fn course<'a>(scans: impl Iterator<Item = &'a [u8]>) -> Course {
    let mut starts = scans.map(start).peekable();
    let (first, mut phase) = starts.peek().copied().unwrap_or((0, 0));
    let (mut last, mut lap, mut scan_type) = (first, -16 * first, 1);
    let mut course = Course { first, restarts: vec![], switches: vec![], scans: vec![] };
    for (t, bit) in starts {
        if t < last {
            lap += LAP;
            course.restarts.push(lap);
        }
        let time = lap + 16 * t;
        if bit != phase {
            scan_type += 1;
            course.switches.push((time, scan_type));
        }
        course.scans.push((time, scan_type));
        (last, phase) = (t, bit);
    }
    course
}

/// The course of a demultiplexed record, whose scan types have so many scans: each follows the one before in step. The first timing word
/// is all that is taken from the tape.
fn even_course(first: i64, counts: &[usize], step: i64) -> Course {
    let mut course = Course { first, restarts: vec![], switches: vec![], scans: vec![] };
    for (scan_type, count) in counts.iter().enumerate() {
        let from = course.scans.len() as i64;
        if scan_type > 0 {
            course.switches.push((from * step, scan_type + 1));
        }
        course.scans.extend((from..from + *count as i64).map(|n| (n * step, scan_type + 1)));
    }
    let end = course.scans.len() as i64 * step;
    course.restarts = (1..).map(|lap| lap * LAP - 16 * first).take_while(|t| *t < end).collect();
    course
}

fn level(points: &[Point]) -> f64 {
    let mut sizes: Vec<f64> = points.iter().map(|point| point.value.abs()).collect();
    sizes.sort_by(f64::total_cmp);
    let most = sizes[(BELOW * (sizes.len() - 1) as f64) as usize];
    if most > 0.0 {
        most
    } else {
        sizes[sizes.len() - 1]
    }
}

/// The points of each channel, by set and channel.
type Gathered = BTreeMap<(u32, u32), Vec<Point>>;

fn gather(gathered: &mut Gathered, slot: &Slot, time: i64, sample: &Sample) {
    let point = Point { time: time + slot.delay, value: sample.value() * slot.factor };
    gathered.entry((slot.set, slot.channel)).or_default().push(point);
}

/// A multiplexed record: the slots of its scan type, scan after scan.
fn of_scans(record: &Record, reading: &Reading, types: &[Vec<Slot>]) -> (Course, Gathered) {
    let header = &reading.header;
    let samples = reading.samples.chunks(header.samples_per_scan.max(1) as usize);
    let body = record.blocks.concat();
    let course = course(body.chunks(header.bytes_per_scan as usize).take(samples.len()));
    let mut gathered = Gathered::new();
    for (&(time, scan_type), samples) in course.scans.iter().zip(samples) {
        for (slot, sample) in types[scan_type - 1].iter().zip(samples) {
            gather(&mut gathered, slot, time, sample);
        }
    }
    (course, gathered)
}

/// A trace as the tape has it: its samples, and the slots of its subscans in its scan type.
struct OnTape<'a> {
    scan_type: usize,
    slots: Vec<&'a Slot>,
    samples: &'a [Sample],
}

/// The traces that have samples: as many as their blocks hold, or what is left of them where the body stopped.
fn on_tape<'a>(
    record: &Record,
    reading: &'a Reading,
    types: &'a [Vec<Slot>],
) -> Result<Vec<OnTape<'a>>, Refusal> {
    let width = segd::format(reading.header.code).map_or(8, |row| row.width as usize);
    let (mut rest, mut traces) = (&reading.samples[..], Vec::new());
    for (n, block) in (0..).zip(&record.blocks) {
        let held = block.len().saturating_sub(TRACE_HEADER) * 8 / width;
        let (samples, after) = rest.split_at(held.min(rest.len()));
        if samples.is_empty() {
            break;
        }
        rest = after;
        let segd::TracePlace { scan_type, set, channel, .. } =
            segd::trace_place(record.header, n, 0)?;
        let subscans = segd::descriptor(record.header, scan_type, set)?.subscans();
        let slot = |subscan| {
            let place = Place { set, channel, subscan };
            let k = segd::sample_index(record.header, scan_type, place)?;
            Ok(&types[scan_type as usize - 1][k as usize])
        };
        let slots = (0..subscans).map(slot).collect::<Result<_, _>>()?;
        traces.push(OnTape { scan_type: scan_type as usize, slots, samples });
    }
    Ok(traces)
}

/// A demultiplexed record: the first trace of each scan type says how many scans that has.
fn of_traces(
    record: &Record,
    reading: &Reading,
    types: &[Vec<Slot>],
) -> Result<(Course, Gathered), Refusal> {
    let traces = on_tape(record, reading, types)?;
    let mut counts = Vec::new();
    for trace in &traces {
        if trace.scan_type > counts.len() {
            counts.push(trace.samples.len().div_ceil(trace.slots.len()));
        }
    }
    let first = record.blocks.first().and_then(|block| block.get(6..9));
    let first = first.map_or(0, |t| u32::from_be_bytes([0, t[0], t[1], t[2]]));
    let course = even_course(first.into(), &counts, scan_time(&reading.header));
    let mut gathered = Gathered::new();
    for trace in &traces {
        let from = course.scans.iter().filter(|(_, scan_type)| *scan_type == trace.scan_type);
        for ((time, _), samples) in from.zip(trace.samples.chunks(trace.slots.len())) {
            for (slot, sample) in trace.slots.iter().zip(samples) {
                gather(&mut gathered, slot, *time, sample);
            }
        }
    }
    Ok((course, gathered))
}

/// The traces of a record as far as it was read.
pub fn traces(record: &Record, reading: &Reading) -> Result<Traces, Refusal> {
    let header = &reading.header;
    let types = (1..=header.scan_types.into())
        .map(|scan_type| slots(record.header, header, scan_type))
        .collect::<Result<Vec<_>, _>>()?;
    // Only a demultiplexed record has no bytes per scan.
    let (course, gathered) = if header.bytes_per_scan == 0 {
        of_traces(record, reading, &types)?
    } else {
        of_scans(record, reading, &types)
    };
    let scans = match header.bytes_per_scan {
        0 => course.scans.len(),
        _ => reading.samples.len() / header.samples_per_scan.max(1) as usize,
    };
    let trace = |((set, channel), mut points): ((u32, u32), Vec<Point>)| {
        points.sort_by_key(|point| point.time);
        Trace { set, channel, level: level(&points), points }
    };
    let all = gathered.into_iter().map(trace).collect();
    let (scan, skew_recorded) = (scan_time(header), header.skew_fields > 0);
    let to = course.scans.last().map_or(0, |(time, _)| time + scan);
    Ok(Traces { all, course, scans, scan, from: 0, to, skew_recorded })
}

#[cfg(test)]
mod tests {
    use super::*;
    use segd::reel::records;

    fn image(name: &str) -> Vec<u8> {
        std::fs::read(format!("{}/../crates/cases/data/{name}", env!("CARGO_MANIFEST_DIR")))
            .expect("an image of crates/cases")
    }

    fn traces_of(record: &Record) -> Traces {
        traces(record, &record.read().expect("an accepted header")).expect("traces")
    }

    fn ms(time: i64) -> f64 {
        time as f64 / MS
    }

    #[test]
    fn a_shot_of_90_s_goes_on_past_the_restart() {
        let image = image("shot");
        let shot = traces_of(&records(&image).0[0]);
        let times: Vec<f64> = shot.all[0].points.iter().map(|point| ms(point.time)).collect();
        assert_eq!(times.len(), 11_250);
        assert!(times.iter().zip(0..).all(|(time, n)| *time == 8.0 * f64::from(n)));
        assert_eq!(shot.course.restarts.iter().map(|t| ms(*t)).collect::<Vec<_>>(), [65_536.0]);
        assert_eq!(ms(shot.to), 90_000.0);
    }

    #[test]
    fn scan_types_give_a_channel_its_own_samples() {
        let image = image("switched");
        let switched = traces_of(&records(&image).0[0]);
        assert_eq!(switched.course.switches, [((6.0 * MS) as i64, 2)]);
        let points = |set, channel| {
            let trace = switched.all.iter().find(|t| (t.set, t.channel) == (set, channel));
            trace.map_or(0, |trace| trace.points.len())
        };
        // three scans of scan type 1, with four subscans in sets 2 and 3, then five of scan type 2
        assert_eq!((points(1, 1), points(2, 1), points(2, 48), points(3, 6)), (8, 17, 5, 12));
    }

    /// Case L with its four samples a scan as two channels of two subscans, and a descale exponent of 4 quarters.
    #[test]
    fn subscans_are_interleaved_and_descaled() {
        let image = image("case_l");
        let record = &records(&image).0[0];
        let mut header = record.header.to_vec();
        header[32 + 7] = 4;
        header[32 + 9] = 2;
        header[32 + 11] = 0x10;
        let pairs = traces_of(&Record { header: &header, blocks: record.blocks.clone() });
        let points = |n: usize| {
            let points = pairs.all[n].points.iter();
            points.map(|point| (ms(point.time), point.value)).collect::<Vec<_>>()
        };
        assert_eq!(points(0), [(0.0, 4.0), (1.0, 0.0), (2.0, 4.0), (3.0, 0.0)]);
        assert_eq!(points(1), [(0.0, -4.0), (1.0, 0.0), (2.0, -4.0), (3.0, 0.0)]);
    }

    /// The paper's example 6, demultiplexed as it is read: each channel has the points that it has of scans.
    #[test]
    fn a_demultiplexed_record_has_the_same_points() {
        let (scans, traces) = (image("switched"), image("switched_traces"));
        let [scans, traces] = [&scans, &traces].map(|image| traces_of(&records(image).0[0]));
        assert_eq!((traces.scans, scans.scans), (8, 8));
        assert_eq!(traces.course.switches, scans.course.switches);
        assert_eq!(traces.all.len(), scans.all.len());
        for (ours, theirs) in traces.all.iter().zip(&scans.all) {
            assert_eq!((ours.set, ours.channel), (theirs.set, theirs.channel));
            assert_eq!(ours.points, theirs.points);
        }
    }

    /// T starts again in the second of three scans of 8 ms.
    #[test]
    fn the_timing_word_of_traces_starts_again() {
        let course = even_course((1 << 24) - 1024, &[1, 2], (8.0 * MS) as i64);
        assert_eq!(course.restarts.iter().map(|t| ms(*t)).collect::<Vec<_>>(), [4.0]);
        assert_eq!(course.switches, [((8.0 * MS) as i64, 2)]);
        assert_eq!(course.scans.len(), 3);
    }

    #[test]
    fn what_is_kept_lies_between_the_times() {
        let image = image("shot");
        let mut shot = traces_of(&records(&image).0[0]);
        shot.keep(65_000.0, 66_000.0);
        assert_eq!(
            (ms(shot.from), ms(shot.to), shot.all[0].points.len()),
            (65_000.0, 66_000.0, 125)
        );
    }
}
