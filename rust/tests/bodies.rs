//! Bodies in portions: any cut gives the same, a stop stays, a refused portion changes nothing.

mod common;

use common::{case_l, general, scans, set, L_BODY};
use segd::{Given, Refusal, Report, Sample};

/// A record of 0015, twelve scans of 8 + 4 x 2 samples, in blocks of three.
fn record() -> (Vec<u8>, Vec<Vec<u8>>) {
    let mut block = general(0x0015, 8 + 40, 32, 1, 2, 0);
    block[24] = 3;
    block.extend(set(1, 1, 8, 0));
    block.extend(set(1, 2, 4, 1));
    let scan = |n: u32| {
        let t = (n * 512).to_be_bytes();
        let start = [0xFF, 0xFF, 0xFF, 0x01, t[1], t[2], t[3], 0];
        start.into_iter().chain((0..40).map(move |k| (k * 37 + n * 11) as u8 & 0xFE))
    };
    let blocks = (0..4).map(|b| (3 * b..3 * b + 3).flat_map(scan).collect()).collect();
    (block, blocks)
}

fn read_in_portions(size: usize) -> (Vec<Sample>, Result<Report, Refusal>) {
    let (block, blocks) = record();
    let mut body = scans(&block);
    let mut samples = Vec::new();
    for bytes in blocks {
        for portion in bytes.chunks(size) {
            let mut out = vec![Sample::default(); portion.len()];
            let given = body.portion(portion, &mut out).expect("room enough");
            assert_eq!(given.stop, None);
            samples.extend(&out[..given.samples]);
        }
        body.block_end().expect("three scans");
    }
    (samples, body.close())
}

#[test]
fn portions_of_1_7_and_all_bytes_give_the_same() {
    let whole = read_in_portions(usize::MAX);
    assert_eq!((whole.0.len(), whole.1.map(|report| report.scans)), (192, Ok(12)));
    assert_eq!(read_in_portions(1), whole);
    assert_eq!(read_in_portions(7), whole);
}

#[test]
fn a_stop_keeps_what_came_before_and_stays() {
    let mut bytes = L_BODY;
    bytes[18] = 1;
    let stop = Refusal::Timing { place: 19 };
    let mut body = scans(&case_l());
    let mut out = [Sample::default(); 24];
    assert_eq!(body.portion(&bytes, &mut out), Ok(Given { samples: 4, stop: Some(stop) }));
    assert_eq!(out[0], Sample { m: 8, x: -2 });
    assert_eq!(body.portion(&bytes, &mut out), Ok(Given { samples: 0, stop: Some(stop) }));
    assert_eq!(body.block_end(), Err(stop));
    assert_eq!(body.close(), Err(stop));
}

#[test]
fn a_portion_without_room_changes_nothing() {
    let mut body = scans(&case_l());
    assert_eq!(body.portion(&L_BODY, &mut [Sample::default(); 23]), Err(Refusal::Room));
    let given = body.portion(&L_BODY, &mut [Sample::default(); 24]);
    assert_eq!(given, Ok(Given { samples: 8, stop: None }));
}

#[test]
fn closing_early_says_what_is_missing() {
    let mut body = scans(&case_l());
    assert_eq!(body.close(), Err(Refusal::Missing));
    assert_eq!(body.portion(&L_BODY[..5], &mut [Sample::default(); 5]).map(|g| g.samples), Ok(0));
    assert_eq!(body.close(), Err(Refusal::Part));
    assert_eq!(body.block_end(), Err(Refusal::Block { place: 5 }));
}

/// Byte 4 of a scan: its last bits 01, and the bits of the time break window, the internal time break and the scan type.
const TWI: u8 = 0x41;
const ITB: u8 = 0x21;
const SECOND_TYPE: u8 = 0x11;

#[test]
fn the_report_tells_itb_window_and_last_type() {
    let mut block = case_l();
    block[27] = 0x02;
    block.extend(set(2, 1, 4, 0));
    let mut bytes = L_BODY;
    (bytes[3], bytes[15]) = (ITB, TWI | SECOND_TYPE);
    let mut body = scans(&block);
    body.portion(&bytes, &mut [Sample::default(); 24]).expect("room enough");
    body.block_end().expect("one block");
    let report = body.close().expect("whole");
    assert_eq!((report.itb, report.window, report.last_type), (Some(true), Some(0x200), 2));
}
