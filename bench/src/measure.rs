//! Both readers over the same record, in the same portions.

use crate::answers::Reading;
use crate::ours::{OurTraces, Ours};
use crate::reader::Reader;
use crate::record::{Kind, Record};
use crate::traces::TraceReader;

/// How often each reader reads the record, in turn with the other. The best counts: whatever else the machine does only
/// ever adds to it.
const ROUNDS: usize = 25;

/// Reads a whole record, and tells the samples. The output is the same memory for each portion, and is not cleared.
#[inline(never)]
pub fn read_through<R: Reading>(
    fresh: R,
    record: &Record,
    portion: usize,
    out: &mut [i32],
) -> usize {
    let mut reader = fresh;
    let mut samples = 0;
    let mut start = 0;
    for end in &record.ends {
        for bytes in record.body[start..*end].chunks(portion) {
            samples += reader.portion(bytes, &mut out[..2 * bytes.len()]).samples;
        }
        reader.block_end();
        start = *end;
    }
    samples
}

/// Output for portions of a length, touched before any time is taken.
fn output(portion: usize) -> Vec<i32> {
    vec![1; 2 * portion]
}

#[repr(C)]
struct Timespec {
    seconds: i64,
    nanoseconds: i64,
}

extern "C" {
    fn clock_gettime(clock: i32, time: *mut Timespec) -> i32;
}

/// Linux's clock of the time that this thread had a processor: other programs' turns are not in it.
const THREAD_TIME: i32 = 3;

fn thread_nanoseconds() -> i64 {
    let mut time = Timespec { seconds: 0, nanoseconds: 0 };
    assert_eq!(unsafe { clock_gettime(THREAD_TIME, &mut time) }, 0, "the clock is read");
    time.seconds * 1_000_000_000 + time.nanoseconds
}

fn nanoseconds_per_byte<R: Reading>(
    fresh: R,
    record: &Record,
    portion: usize,
    out: &mut [i32],
) -> f64 {
    let began = thread_nanoseconds();
    std::hint::black_box(read_through(fresh, record, portion, out));
    (thread_nanoseconds() - began) as f64 / record.body.len() as f64
}

/// Nanoseconds for a byte of both readers, ours first.
pub fn time(record: &Record, portion: usize) -> [f64; 2] {
    match &record.kind {
        Kind::Scans(shape) => {
            time_both(Ours::open(&record.header), Reader::new(*shape), record, portion)
        }
        Kind::Traces(shape) => {
            time_both(OurTraces::open(&record.header), TraceReader::new(shape), record, portion)
        }
    }
}

fn time_both(
    ours: impl Reading,
    theirs: impl Reading,
    record: &Record,
    portion: usize,
) -> [f64; 2] {
    let mut out = output(portion);
    let mut best = [f64::INFINITY; 2];
    for _ in 0..ROUNDS {
        best[0] = best[0].min(nanoseconds_per_byte(ours, record, portion, &mut out));
        best[1] = best[1].min(nanoseconds_per_byte(theirs, record, portion, &mut out));
    }
    best
}

/// One reading, for whoever counts the instructions of `read_through`: a count ends where this function does.
#[inline(never)]
fn counted_once(fresh: impl Reading, record: &Record, portion: usize, out: &mut [i32]) {
    std::hint::black_box(read_through(fresh, record, portion, out));
}

/// Reads the record once by each, ours first.
pub fn once(record: &Record, portion: usize) {
    let mut out = output(portion);
    match &record.kind {
        Kind::Scans(shape) => {
            counted_once(Ours::open(&record.header), record, portion, &mut out);
            counted_once(Reader::new(*shape), record, portion, &mut out);
        }
        Kind::Traces(shape) => {
            counted_once(OurTraces::open(&record.header), record, portion, &mut out);
            counted_once(TraceReader::new(shape), record, portion, &mut out);
        }
    }
}
