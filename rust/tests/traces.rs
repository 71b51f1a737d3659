//! Bodies of traces: any cut gives the same, each stop is told with its values and stays, a sample of a trace has its place.

mod common;

use common::{case_l, general, set, traces};
use segd::{Given, Refusal, Report, Sample, TracePlace};

/// Two channels in one set and one of two subscans in another, in a code 80xx.
fn header(code: u16) -> Vec<u8> {
    let mut block = general(code, 0, 32, 1, 2, 0);
    block.extend(set(1, 1, 2, 0));
    block.extend(set(1, 2, 1, 1));
    block
}

/// A trace of file 7: its header, the free bytes of it not 0, and its samples.
fn trace(set: u8, channel: u8, samples: &[u8]) -> Vec<u8> {
    let start = [0, 7, 1, set, 0, channel, 0xA1, 0xB2, 0xC3, 0, 0x5A, 0, 0xD4, 0xE5, 0xF6];
    [&start[..], &[0; 5], samples].concat()
}

/// Two groups of four samples in 8015.
const TWO_GROUPS: [u8; 20] =
    *b"\x0F\x1E\x00\x01\x80\x00\xFF\xFF\x7F\xFF\x01\x23\x00\x02\x00\x04\xFF\xFE\x7F\xFE";

/// The traces of a record of 8015: four scans.
fn record() -> Vec<Vec<u8>> {
    let one = &TWO_GROUPS[..10];
    vec![trace(1, 1, one), trace(1, 2, one), trace(2, 1, &TWO_GROUPS)]
}

fn read_in_portions(size: usize) -> (Vec<Sample>, Result<Report, Refusal>) {
    let block = header(0x8015);
    let mut body = traces(&block);
    let mut samples = Vec::new();
    for bytes in record() {
        for portion in bytes.chunks(size) {
            let mut out = vec![Sample::default(); portion.len()];
            let given = body.portion(portion, &mut out).expect("room enough");
            assert_eq!(given.stop, None);
            samples.extend(&out[..given.samples]);
        }
        body.end().expect("a whole trace");
    }
    (samples, body.close())
}

#[test]
fn portions_of_1_7_and_all_bytes_give_the_same() {
    let whole = read_in_portions(usize::MAX);
    let report = Report { scans: 4, samples: 16, off: 3, last_type: 1, itb: None, window: None };
    assert_eq!((whole.0.len(), whole.1), (16, Ok(report)));
    let group = [(1, -15), (-32767, 0), (0, -14), (32767, -1)];
    assert_eq!(whole.0[..4], group.map(|(m, x)| Sample { m, x }));
    assert_eq!(read_in_portions(1), whole);
    assert_eq!(read_in_portions(7), whole);
}

/// How a body of these traces ends: the first end that is refused, with the closing after it.
fn ends(code: u16, blocks: &[Vec<u8>]) -> (Option<Refusal>, Result<u32, Refusal>) {
    let block = header(code);
    let mut body = traces(&block);
    let refused = blocks.iter().find_map(|bytes| {
        let given = body.portion(bytes, &mut vec![Sample::default(); bytes.len()]);
        assert_eq!(given.expect("room enough").stop, None);
        body.end().err()
    });
    (refused, body.close().map(|report| report.scans))
}

#[test]
fn a_trace_ends_where_it_must() {
    let stopped = |refusal: Refusal| (Some(refusal), Err(refusal));
    let two = || trace(1, 1, &[0x18, 0x97]);
    let whole = [two(), trace(1, 2, &[1, 2]), trace(2, 1, &[1, 2, 3, 4])];
    assert_eq!(ends(0x8022, &whole), (None, Ok(2)));
    assert_eq!(ends(0x8022, &whole[..2]), (None, Err(Refusal::Missing)));
    let short = vec![two(), trace(1, 2, &[1])];
    assert_eq!(ends(0x8022, &short), stopped(Refusal::Count { place: 43 }));
    assert_eq!(ends(0x8024, &[trace(1, 1, &[1])]), stopped(Refusal::Count { place: 21 }));
    assert_eq!(ends(0x8022, &[trace(1, 1, &[])]), stopped(Refusal::Count { place: 20 }));
    assert_eq!(ends(0x8022, &[two()[..19].to_vec()]), stopped(Refusal::Block { place: 19 }));
    let four = Refusal::Four { scan_type: 1, set: 2, place: Some(30 + 30 + 34) };
    let [first, second, _] = <[Vec<u8>; 3]>::try_from(record()).expect("three traces");
    let cut = trace(2, 1, &TWO_GROUPS[..14]);
    assert_eq!(ends(0x8015, &[first, second, cut]), stopped(four));
    assert_eq!(four.place(), Some(94));
}

#[test]
fn a_stop_keeps_what_came_before_and_stays() {
    let block = header(0x8022);
    let mut body = traces(&block);
    let mut out = [Sample::default(); 64];
    let stop = Refusal::Trace { place: 22 + 5 };
    assert_eq!(body.close(), Err(Refusal::Missing));
    let first = trace(1, 1, &[0x18, 0x97]);
    assert_eq!(body.portion(&first, &mut out[..21]), Err(Refusal::Room));
    assert_eq!(body.portion(&first, &mut out), Ok(Given { samples: 2, stop: None }));
    assert_eq!(out[..2], [Sample { m: 8, x: -2 }, Sample { m: -8, x: -2 }]);
    assert_eq!(body.close(), Err(Refusal::Open));
    assert_eq!(body.end(), Ok(()));
    let given = Ok(Given { samples: 0, stop: Some(stop) });
    assert_eq!(body.portion(&trace(1, 3, &[0]), &mut out), given);
    assert_eq!(body.portion(&[], &mut out), given);
    assert_eq!(body.end(), Err(stop));
    assert_eq!(body.close(), Err(stop));
}

#[test]
fn a_sample_of_a_trace_has_its_place() {
    let block = header(0x8022);
    let body = traces(&block);
    let place = TracePlace { scan_type: 1, set: 2, channel: 1, scan: 3, subscan: 1 };
    assert_eq!(body.place(2, 7), Ok(place));
    assert_eq!(body.place(1, 7).map(|p| (p.channel, p.scan, p.subscan)), Ok((2, 7, 0)));
    assert_eq!(body.place(3, 0), Err(Refusal::Index));
    assert_eq!(segd::trace_place(&case_l(), 0, 0), Err(Refusal::Index));
    assert_eq!(segd::trace_place(&block[..31], 0, 0), Err(Refusal::Short));
}
