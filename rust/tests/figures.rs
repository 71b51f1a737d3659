//! The description's "Bench figures" and case L, put to the compiled library.

mod common;

use common::{case_l, general, scans, set, L_BODY};
use segd::{Header, Kind, Opened, Place, Refusal, Sample};

fn accepted(block: &[u8]) -> Header {
    segd::read_header(block).expect("an accepted header")
}

fn read(code: u16, c: u32, word: u32) -> (i32, i32, bool) {
    let word = segd::read_word(code, c, word).expect("a word of its code");
    (word.sample.m, word.sample.x, word.off)
}

#[test]
fn words() {
    assert_eq!(read(0x0022, 0, 0x97), (-8, -2, false));
    assert_eq!(read(0x0022, 0, 0xFF), (0, 10, true));
    assert_eq!(read(0x0042, 0, 0xFE), (-30, 7, false));
    assert_eq!(read(0x0042, 0, 0xFF), (-31, 7, true));
    assert_eq!(read(0x0044, 0, 0xFFFF), (-8191, -1, true));
    assert_eq!(read(0x0048, 0, 0x4110_0000), (524_288, -19, false));
    assert!(read(0x0048, 0, 0x4108_0000).2);
    assert_eq!(read(0x0048, 0, 0x8000_0000), (0, -279, true));
    assert_eq!(read(0x0015, 15, 0x8000), (-16383, 1, false));
}

/// 8015 has 15 bits of fraction; the others are as without the 8.
#[test]
fn words_of_traces() {
    assert_eq!(read(0x8015, 15, 0x8000), (-32767, 0, false));
    assert_eq!(read(0x8015, 0, 0x0001), (1, -15, false));
    assert_eq!(read(0x8015, 3, 0xFFFF), (0, -12, true));
    assert_eq!(read(0x8022, 0, 0x97), (-8, -2, false));
    assert_eq!(read(0x8042, 0, 0xFF), (-31, 7, true));
    assert_eq!(read(0x8048, 0, 0x4110_0000), (524_288, -19, false));
}

#[test]
fn formats() {
    let kind = |code| segd::format(code).map(|format| format.kind);
    assert_eq!(kind(0x0015), Some(Kind::OnesComplement));
    assert_eq!(kind(0x0042), Some(Kind::SignMagnitude));
    assert_eq!(kind(0x8048), Some(Kind::Justified));
    assert_eq!(kind(0x0016), None);
    let row = segd::format(0x0015).expect("a row");
    assert_eq!((row.width, row.apart, row.fraction), (20, 4, 14));
    assert_eq!((row.base, row.exponent, row.bias), (1, 4, 0));
}

#[test]
fn words_refused() {
    assert_eq!(segd::read_word(0x0023, 0, 0), Err(Refusal::Format));
    assert_eq!(segd::read_word(0x8023, 0, 0), Err(Refusal::Format));
    assert_eq!(segd::read_word(0x8022, 0, 0x100), Err(Refusal::Index));
    assert_eq!(segd::read_word(0x8015, 16, 0), Err(Refusal::Index));
    assert_eq!(segd::read_word(0x0022, 0, 0x100), Err(Refusal::Index));
    assert_eq!(segd::read_word(0x0022, 1, 0), Err(Refusal::Index));
}

/// Sets of 4, 96 and 12 x 4 channels in 0015: B 378, SK 5, a header of 288 bytes.
fn three_sets() -> Vec<u8> {
    let mut block = general(0x0015, 378, 32, 1, 3, 5);
    for (n, channels, sc) in [(1, 4, 0), (2, 96, 0), (3, 12, 2)] {
        block.extend(set(1, n, channels, sc));
    }
    block.extend((0..160).map(|k| k as u8));
    block
}

#[test]
fn places_of_samples() {
    let block = three_sets();
    assert_eq!(block.len(), 288);
    assert_eq!(accepted(&block).samples_per_scan, 148);
    let place = Place { set: 3, channel: 1, subscan: 1 };
    assert_eq!(segd::sample_place(&block, 1, 112), Ok(place));
    assert_eq!(segd::sample_index(&block, 1, place), Ok(112));
    assert_eq!(segd::sample_place(&block, 1, 148), Err(Refusal::Index));
    assert_eq!(segd::descriptor(&block, 1, 3).map(|set| set.subscans()), Ok(4));
    assert_eq!(segd::descriptor(&block, 1, 4), Err(Refusal::Index));
}

/// A block of 0024 whose fields all differ.
fn every_field() -> Vec<u8> {
    let mut block = general(0x0024, 8 + 2 * 16, 64, 1, 1, 0);
    block[..2].copy_from_slice(&[0x12, 0x34]);
    block[10..19].copy_from_slice(&[0x81, 0x01, 0x23, 0x21, 0x43, 0x54, 0x45, 0x67, 0x89]);
    block[23..27].copy_from_slice(&[0x3A, 200, 0x71, 0x26]);
    block[30..32].copy_from_slice(&[0x02, 0x03]);
    block.extend(set(1, 1, 4, 2));
    block[34..40].copy_from_slice(&[0x01, 0x02, 0x03, 0x04, 0xEE, 0x85]);
    block[42..44].copy_from_slice(&[0x90, 0x2B]);
    block[44..52].copy_from_slice(&[0x12, 0x50, 0x00, 0x72, 0x00, 0x08, 0x00, 0x18]);
    block[52..58].copy_from_slice(&[0x05, 0x00, 0x06, 0x00, 0x16, 0x66]);
    block.extend([0; 160]);
    block
}

#[test]
fn fields() {
    let block = every_field();
    let h = accepted(&block);
    assert_eq!((h.file, h.code, h.bytes_per_scan, h.interval), (1234, 0x0024, 40, 64));
    assert_eq!((h.year, h.day, h.hour, h.minute, h.second), (81, 123, 21, 43, 54));
    assert_eq!((h.manufacturer, h.serial), (45, 6789));
    assert_eq!((h.polarity, h.block_exponent, h.block_scans), (3, 10, 200));
    assert_eq!((h.record_type, h.record_length), (7, 126));
    assert_eq!((h.scan_types, h.channel_sets, h.skew_fields), (1, 1, 0));
    assert_eq!((h.extended_fields, h.external_fields, h.samples_per_scan), (2, 3, 16));
    let s = segd::descriptor(&block, 1, 1).expect("the set");
    assert_eq!((s.start, s.end, s.descale, s.channels), (0x0102, 0x0304, -5, 4));
    assert_eq!((s.channel_type, s.subscan_exponent, s.gain), (9, 2, 11));
    assert_eq!((s.alias_frequency, s.alias_slope), (1250, 72));
    assert_eq!((s.low_cut, s.low_cut_slope), (8, 18));
    assert_eq!((s.first_notch, s.second_notch, s.third_notch), (500, 600, 1666));
    assert_eq!((s.subscans(), s.factor()), (4, 2f64.powf(-1.25)));
}

#[test]
fn days() {
    let on = |day: [u8; 2]| {
        let mut block = case_l();
        block[11..13].copy_from_slice(&day);
        segd::read_header(&block).map(|header| header.day)
    };
    assert_eq!(on([0x03, 0x66]), Ok(366));
    assert_eq!(on([0x03, 0x67]), Err(Refusal::Range));
    assert_eq!(on([0x00, 0x00]), Err(Refusal::Range));
}

#[test]
fn refusals_with_values() {
    let mut block = three_sets();
    block[32 + 64 + 9] = 0x13;
    assert_eq!(segd::read_header(&block), Err(Refusal::Four { scan_type: 1, set: 3, place: None }));
    block[32 + 33] = 0x07;
    assert_eq!(segd::read_header(&block), Err(Refusal::Descriptor { scan_type: 1, set: 2 }));
    let mut block = case_l();
    block[21] = 0x13;
    assert_eq!(segd::read_header(&block), Err(Refusal::Size { scan_type: 1 }));
    assert_eq!(segd::open(&block).err(), Some(Refusal::Size { scan_type: 1 }));
}

#[test]
fn skew_of_the_block_or_of_the_sheet() {
    let block = three_sets();
    let skew = segd::skew(&block, &[], 1).expect("recorded skew");
    assert!(std::ptr::eq(skew, &block[128..276]));
    assert_eq!(segd::skew_at(&block, &[], 1, 147), Ok(147));
    let (block, sheet) = (case_l(), [0, 1, 2, 3]);
    let skew = segd::skew(&block, &sheet, 1).expect("the sheet's");
    assert!(std::ptr::eq(skew, &sheet[..]));
    assert_eq!(segd::sample_time(&block, &sheet, 1, 1, 512), Ok(8224));
    assert_eq!(segd::sample_time(&block, &sheet, 1, 1, 1 << 24), Err(Refusal::Index));
    assert_eq!(segd::skew(&block, &sheet[1..], 1), Err(Refusal::Sheet));
}

#[test]
fn parts_are_the_very_parts() {
    let mut block = case_l();
    block[30..32].copy_from_slice(&[0x01, 0x02]);
    block.extend([0; 96]);
    assert!(std::ptr::eq(segd::constants(&block).expect("constants"), &block[4..10]));
    assert!(std::ptr::eq(segd::extended(&block).expect("extended"), &block[64..96]));
    assert!(std::ptr::eq(segd::external(&block).expect("external"), &block[96..160]));
    assert_eq!(segd::extended(&block[1..]), Err(Refusal::Format));
}

/// A demultiplexed record: B is 0, the channels are any, and every scan type has as many samples as the first.
#[test]
fn headers_of_traces() {
    let mut block = general(0x8015, 0, 32, 2, 1, 0);
    block.extend(set(1, 1, 6, 0));
    block.extend(set(2, 1, 3, 1));
    let h = accepted(&block);
    assert_eq!((h.code, h.bytes_per_scan, h.samples_per_scan), (0x8015, 0, 6));
    assert!(matches!(segd::open(&block), Ok(Opened::Traces(_))));
    let place = Place { set: 1, channel: 3, subscan: 1 };
    assert_eq!(segd::sample_place(&block, 2, 5), Ok(place));
    block[64 + 9] = 0x04;
    assert_eq!(segd::open(&block).err(), Some(Refusal::Size { scan_type: 2 }));
    block[21] = 0x18;
    assert_eq!(segd::read_header(&block), Err(Refusal::Range));
}

#[test]
fn the_record_of_case_l() {
    let block = case_l();
    let header = accepted(&block);
    assert_eq!((header.file, header.code, header.year, header.day), (7, 0x0022, 80, 45));
    assert_eq!((header.bytes_per_scan, header.interval, header.scan_types), (12, 32, 1));
    let mut samples = [Sample::default(); 24];
    let mut body = scans(&block);
    let given = body.portion(&L_BODY, &mut samples).expect("room enough");
    assert_eq!((given.samples, given.stop), (8, None));
    assert_eq!(body.close(), Err(Refusal::Open));
    assert_eq!(body.block_end(), Ok(()));
    let report = body.close().expect("whole");
    assert_eq!((report.scans, report.samples, report.off), (2, 8, 1));
    assert_eq!((report.last_type, report.itb, report.window), (1, Some(false), None));
    let sample = |m, x| Sample { m, x };
    assert_eq!(samples[..3], [sample(8, -2), sample(-8, -2), sample(0, 10)]);
    assert_eq!(samples[8..], [Sample::default(); 16]);
}

#[test]
fn the_timing_word_starts_again() {
    let mut block = general(0x0022, 12, 128, 1, 1, 0);
    block.extend(set(1, 1, 4, 0));
    let mut bytes = L_BODY;
    bytes[4..7].copy_from_slice(&[0xFF, 0xF8, 0x00]);
    bytes[16..19].copy_from_slice(&[0x00, 0x00, 0x00]);
    let mut body = scans(&block);
    let given = body.portion(&bytes, &mut [Sample::default(); 24]).expect("room enough");
    assert_eq!((given.samples, given.stop), (8, None));
}
