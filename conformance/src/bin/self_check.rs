//! Checks the reader against the figures of the description and the worked
//! examples of the paper, and the makers against the reader.

#[path = "self_check/traces.rs"]
mod traces;

use conformance::make::bodies::{damaged_body, sound_body};
use conformance::make::calls::{cut, in_one};
use conformance::make::headers::{
    any_code, any_trace_code, damaged_header, header, plain, set, sheet, small_plan, wide_plan,
    Plan,
};
use conformance::make::images::{any_reel, reel};
use conformance::make::questions::{any_sheet, any_word, near};
use conformance::make::records::{
    large_blocks, long_shot, longest_scans, switched_interval, Record,
};
use conformance::make::rng::Rng;
use conformance::reader::body::{fault, open, Body, Cause, Kind, Report, Stop};
use conformance::reader::calls::{answers, uncut, Answer, Call};
use conformance::reader::header::{descriptor, packed, read_header, Header};
use conformance::reader::image::list;
use conformance::reader::layout::*;
use conformance::reader::scans::read_scans;
use conformance::reader::words::{count, letters, read_word, CODES, TRACE_CODES};
use conformance::reader::{refusal, refusal_with, Refusal};
use conformance::tally::Tally;
use std::fmt::Debug;

#[derive(Default)]
struct Checks {
    passed: u32,
    failed: u32,
}

impl Checks {
    fn equal<T: PartialEq + Debug>(&mut self, name: &str, got: T, wanted: T) {
        if got == wanted {
            self.passed += 1;
        } else {
            self.failed += 1;
            eprintln!("{name}: got {got:?}, wanted {wanted:?}");
        }
    }

    fn holds(&mut self, name: &str, sound: bool) {
        self.equal(name, sound, true);
    }
}

/// The code of a round: each of the twelve in turn.
fn code_in_turn(round: usize) -> u16 {
    [CODES, TRACE_CODES][round / 6 % 2][round % 6]
}

/// Bytes from hexadecimal text, blanks left out.
fn hex(text: &str) -> Vec<u8> {
    let digits: Vec<u32> = text.chars().filter_map(|c| c.to_digit(16)).collect();
    digits.chunks(2).map(|pair| (pair[0] * 16 + pair[1]) as u8).collect()
}

const L_GENERAL: &str = "0007 0022 000000000000 80 0045 093000 000001 000012
    20 00 00 80 05 01 01 00 00 00";
const L_SET: &str = "01 01 0000 0002 00 00 0004 10 00";
const L_BODY: &str = "FFFFFF01 00000000 1897FF00 FFFFFF01 00020000 18970000";

/// The header block of case L.
fn l_header() -> Vec<u8> {
    [hex(L_GENERAL), hex(L_SET), vec![0; 20]].concat()
}

/// Case L's header block with some bytes replaced, the first counted from 1.
fn l_with(first: usize, bytes: &str) -> Vec<u8> {
    let mut block = l_header();
    let bytes = hex(bytes);
    block[first - 1..first - 1 + bytes.len()].copy_from_slice(&bytes);
    block
}

/// Case L's header block in a code 80xx: B is 0.
fn l_of_traces(code: u16) -> Vec<u8> {
    let mut block = l_with(20, "000000");
    block[2..4].copy_from_slice(&code.to_be_bytes());
    block
}

/// The paper's 4, 96 and 12 channels, the last sampled four times, in 0015.
fn paper_plan() -> Plan {
    plain(0x0015, vec![vec![set(4, 0), set(96, 0), set(12, 2)]])
}

fn check_pairs(checks: &mut Checks) {
    checks.equal("0x99", packed(0x99), Some(99));
    checks.equal("0x9A", packed(0x9A), None);
    checks.equal("0xA0", packed(0xA0), None);
    checks.equal("pairs", (0..=255).filter_map(packed).collect::<Vec<_>>(), (0..100).collect());
}

fn check_word_figures(checks: &mut Checks) {
    let figures = [
        (0x0022, 0, 0x97, (-8, -2, false)),
        (0x0022, 0, 0xFF, (0, 10, true)),
        (0x0022, 0, 0x18, (8, -2, false)),
        (0x0042, 0, 0xFE, (-30, 7, false)),
        (0x0042, 0, 0xFF, (-31, 7, true)),
        (0x0042, 0, 0x80, (0, -5, false)),
        (0x0044, 0, 0xFFFF, (-8191, -1, true)),
        (0x0048, 0, 0x4110_0000, (524_288, -19, false)),
        (0x0048, 0, 0x4108_0000, (262_144, -19, true)),
        (0x0048, 0, 0x8000_0000, (0, -279, true)),
        (0x0048, 0, 0x0000_0000, (0, -279, false)),
        (0x0048, 0, 0x4110_0001, (524_288, -19, true)),
        (0x0048, 0, 0xFFFF_FFFE, (-8_388_607, 229, false)),
        (0x0024, 0, 0x8000, (-4095, -12, false)),
        (0x0024, 0, 0xFFFF, (0, 2, true)),
        (0x0015, 15, 0x8000, (-16383, 1, false)),
        (0x0015, 0, 0xFFFE, (0, -14, true)),
        (0x0015, 0, 0x0003, (1, -14, true)),
    ];
    for (code, c, word, wanted) in figures {
        checks.equal(&format!("{code:04X} {c} {word:X}"), read_word(code, c, word), Ok(wanted));
    }
}

/// 8015 has 15 fraction bits and no spare one. The others are as without the 8.
fn check_trace_word_figures(checks: &mut Checks) {
    let figures = [
        (0x8015, 15, 0x8000, (-32767, 0, false)),
        (0x8015, 15, 0x7FFF, (32767, 0, false)),
        (0x8015, 0, 0x0001, (1, -15, false)),
        (0x8015, 0, 0xFFFE, (-1, -15, false)),
        (0x8015, 3, 0xFFFF, (0, -12, true)),
        (0x8015, 0, 0x0000, (0, -15, false)),
        (0x8022, 0, 0x97, (-8, -2, false)),
        (0x8022, 0, 0xFF, (0, 10, true)),
        (0x8024, 0, 0x8000, (-4095, -12, false)),
        (0x8042, 0, 0xFE, (-30, 7, false)),
        (0x8042, 0, 0xFF, (-31, 7, true)),
        (0x8044, 0, 0xFFFF, (-8191, -1, true)),
        (0x8048, 0, 0x4110_0000, (524_288, -19, false)),
        (0x8048, 0, 0x4110_0001, (524_288, -19, true)),
    ];
    for (code, c, word, wanted) in figures {
        checks.equal(&format!("{code:04X} {c} {word:X}"), read_word(code, c, word), Ok(wanted));
    }
    for code in [0x0022, 0x0024, 0x0042, 0x0044] {
        let alike = |word| read_word(code, 0, word) == read_word(code | 0x8000, 0, word);
        checks.holds(&format!("{code:04X} with an 8"), (0..1 << letters(code).len()).all(alike));
    }
}

fn check_word_refusals(checks: &mut Checks) {
    let refused = [
        (0x0200, 0, 0, 2),
        (0x0000, 0, 0, 2),
        (0x8000, 99, 0x1_0000, 2),
        (0x8023, 0, 0, 2),
        (0x4015, 0, 0, 2),
        (0x8044, 99, 0x1_0000, 11),
        (0x8022, 0, 0x100, 11),
        (0x8022, 1, 0, 11),
        (0x8048, 1, 0, 11),
        (0x8015, 16, 0, 11),
        (0x8015, 0, 0x1_0000, 11),
        (0x0022, 0, 0x100, 11),
        (0x0022, 1, 0, 11),
        (0x0048, 1, 0, 11),
        (0x0044, 0, 0x1_0000, 11),
        (0x0015, 16, 0, 11),
        (0x0015, 0, 0x1_0000, 11),
    ];
    for (code, c, word, number) in refused {
        let name = format!("{code:04X} {c} {word:X} refused");
        checks.equal(&name, read_word(code, c, word), Err(refusal(number)));
    }
}

/// Fraction bits and widths, and how many words of each short code are off.
fn check_word_rows(checks: &mut Checks) {
    let rows = [
        (0x0015, 16, 14, 32_769),
        (0x0022, 8, 4, 8),
        (0x0024, 16, 12, 8),
        (0x0042, 8, 5, 1),
        (0x0044, 16, 13, 1),
        (0x8015, 16, 15, 1),
        (0x8022, 8, 4, 8),
        (0x8024, 16, 12, 8),
        (0x8042, 8, 5, 1),
        (0x8044, 16, 13, 1),
    ];
    for (code, bits, fraction, off) in rows {
        let off_words = (0..1u32 << bits).filter(|w| read_word(code, 0, *w).unwrap().2).count();
        checks.equal("width", letters(code).len(), bits);
        checks.equal("fraction bits", count(code, 'Q'), fraction);
        checks.equal("off words", off_words, off);
    }
    for code in [0x0048, 0x8048] {
        checks.equal("0048 width", letters(code).len(), 32);
        checks.equal("0048 fraction bits", count(code, 'Q'), 23);
    }
}

/// Turning over the sign, and the fraction where complements are written,
/// turns M over and leaves X alone.
fn check_word_signs(checks: &mut Checks) {
    let turned = [
        (0x0022, 0x8F),
        (0x0024, 0x8FFF),
        (0x0015, 0xFFFE),
        (0x8015, 0xFFFF),
        (0x0042, 0x80),
        (0x0044, 0x8000),
    ];
    for (code, mask) in turned {
        let sound = (0..1u32 << letters(code).len()).all(|word| {
            let (m, x, _) = read_word(code, 0, word).unwrap();
            let (n, y, _) = read_word(code, 0, word ^ mask).unwrap();
            m == -n && x == y && (m >= 0 || word >> (letters(code).len() - 1) == 1)
        });
        checks.holds(&format!("{code:04X} signs"), sound);
    }
}

fn check_header_fields(checks: &mut Checks) {
    let wanted = Header {
        file: 7,
        code: 0x0022,
        constants: [0; 6],
        year: 80,
        day: 45,
        hour: 9,
        minute: 30,
        second: 0,
        manufacturer: 0,
        serial: 1,
        bytes_per_scan: 12,
        interval: 32,
        polarity: 0,
        block_exponent: 0,
        block_scans: 0,
        record_type: 8,
        r1: 0,
        r2: 0,
        r3: 5,
        scan_types: 1,
        sets: 1,
        skew_fields: 0,
        extended_fields: 0,
        external_fields: 0,
        samples_per_scan: 4,
    };
    checks.equal("case L header", read_header(&l_header()), Ok(wanted));
    let set = descriptor(&l_header(), 1, 1).unwrap();
    checks.equal("case L set", (set.scan_type, set.set, set.start, set.end), (1, 1, 0, 2));
    checks.equal("case L channels", (set.channels, set.channel_type), (4, 1));
}

fn check_descale(checks: &mut Checks) {
    for (byte, quarters) in [("01", 1), ("81", -1), ("7F", 127), ("80", 0), ("FF", -127)] {
        let got = descriptor(&l_with(40, byte), 1, 1).map(|set| set.descale);
        checks.equal(&format!("MP {byte}"), got, Ok(quarters));
    }
}

/// Bytes of case L's header replaced, and the refusal that follows, 0 for none.
#[rustfmt::skip]
fn check_header_edges(checks: &mut Checks) {
    let edges = [
        (12, "0366", 0), (12, "0367", 5), (12, "0000", 5), (12, "1045", 5), (12, "A045", 5),
        (12, "0A45", 4), (14, "23", 0), (14, "24", 5), (15, "60", 5), (16, "59", 0), (16, "60", 5),
        (1, "9A", 4), (5, "FFFFFFFFFFFF", 0), (11, "A0", 4), (17, "0A", 4), (20, "000000", 5),
        (20, "000013", 9), (23, "80", 0), (23, "03", 5), (23, "00", 5), (24, "FF", 0), (25, "FF", 0),
        (26, "F9", 0), (26, "0A", 4), (27, "A0", 4), (28, "00", 5), (29, "00", 5), (28, "02", 6),
        (30, "01", 6), (31, "01", 6), (32, "99", 6), (32, "9A", 4), (3, "0200", 2), (3, "0000", 2),
        (3, "8022", 5), (3, "8015", 5), (3, "8000", 2), (3, "0042", 0), (3, "0044", 9), (3, "0015", 9),
    ];
    for (first, bytes, number) in edges {
        let got = read_header(&l_with(first, bytes)).map_or_else(|r| r.number, |_| 0);
        checks.equal(&format!("byte {first}: {bytes}"), got, number);
    }
}

/// Bytes of case L's header in 8022, B 0, replaced; row 3 is given by none.
#[rustfmt::skip]
fn check_trace_header_edges(checks: &mut Checks) {
    let edges = [
        (20, "000000", 0), (20, "000001", 5), (20, "000012", 5), (20, "999999", 5), (20, "00000A", 4),
        (20, "0A0000", 4), (3, "0022", 5), (3, "8015", 0), (3, "8024", 0), (3, "8042", 0), (3, "8044", 0),
        (3, "8048", 0), (3, "8023", 2), (11, "8A", 4), (12, "0367", 5), (28, "02", 6), (33, "02", 7),
        (42, "03", 0), (41, "9999", 0), (44, "90", 0), (44, "A0", 7), (41, "0000", 0),
    ];
    for (first, bytes, number) in edges {
        let mut block = l_of_traces(0x8022);
        let bytes = hex(bytes);
        block[first - 1..first - 1 + bytes.len()].copy_from_slice(&bytes);
        let got = read_header(&block).map_or_else(|r| r.number, |_| 0);
        checks.equal(&format!("8022, byte {first}: {bytes:02X?}"), got, number);
    }
}

/// The same for the bytes of the descriptor, counted from 1 in it.
#[rustfmt::skip]
fn check_descriptor_edges(checks: &mut Checks) {
    let edges = [
        (1, "02", 7), (1, "0A", 7), (2, "00", 7), (3, "FFFFFFFFFFFF", 0), (9, "000A", 7), (11, "F0", 0),
        (11, "01", 7), (12, "0F", 0), (12, "A0", 7), (12, "10", 9), (13, "9999", 0), (14, "0A", 7),
        (15, "0999", 0), (15, "1000", 7), (16, "A0", 7), (19, "10", 7), (19, "09", 0), (21, "999999999999", 0),
        (26, "0A", 7), (27, "FFFFFFFFFFFF", 0), (10, "05", 9), (9, "0000", 9),
    ];
    for (first, bytes, number) in edges {
        let got = read_header(&l_with(32 + first, bytes)).map_or_else(|r| r.number, |_| 0);
        checks.equal(&format!("descriptor byte {first}: {bytes}"), got, number);
    }
}

/// Values that go with refusals 7, 8 and 9, by place.
fn check_header_values(checks: &mut Checks) {
    let mut rng = Rng::new(1);
    let plan = plain(0x0015, vec![vec![set(4, 0), set(8, 1)], vec![set(12, 0), set(8, 0)]]);
    let block = header(&mut rng, &plan);
    let second = 32 + 32 * 3;
    let spoilt = |place: usize, byte: u8| {
        let mut block = block.clone();
        block[place] = byte;
        read_header(&block).err()
    };
    checks.equal("sound", read_header(&block).is_ok(), true);
    checks.equal("7 by place", spoilt(second + 32, 0x01), Some(refusal_with(7, &[2, 2])));
    checks.equal("8", spoilt(second + 9, 0x06), Some(refusal_with(8, &[2, 1])));
    checks.equal("9", spoilt(second + 9, 0x16), Some(refusal_with(9, &[2])));
    checks.equal("9 from B", spoilt(21, 0x99), Some(refusal_with(9, &[1])));
    checks.equal(
        "10",
        read_header(&header(&mut rng, &Plan { skew_fields: 2, ..plan })).err(),
        Some(refusal(10)),
    );
    checks.equal("1", read_header(&block[..31]).err(), Some(refusal(1)));
}

/// In 80xx every scan type has as many samples as the first; 8015 asks nothing of
/// the channels; and SK goes by the samples as before.
fn check_trace_headers(checks: &mut Checks) {
    let mut rng = Rng::new(13);
    let third = vec![set(3, 0), set(1, 1)];
    let plan = plain(0x8015, vec![vec![set(3, 0), set(2, 0)], vec![set(1, 0), set(1, 2)], third]);
    let block = header(&mut rng, &plan);
    let read = read_header(&block).map(|h| (h.samples_per_scan, h.bytes_per_scan, h.skew_fields));
    checks.equal("8015 of 3 channels", read, Ok((5, 0, 1)));
    let spoilt = |place: usize, byte: u8| {
        let mut block = block.clone();
        block[place] = byte;
        read_header(&block).err()
    };
    let (second, third) = (32 + 32 * 3, 32 + 32 * 6);
    checks.equal("9, second", spoilt(second + 9, 0x02), Some(refusal_with(9, &[2])));
    checks.equal("9, third", spoilt(third + 9, 0x04), Some(refusal_with(9, &[3])));
    checks.equal("9, against the first", spoilt(32 + 9, 0x04), Some(refusal_with(9, &[2])));
    checks.equal("5 before 9", spoilt(21, 0x18), Some(refusal(5)));
    let wrong = header(&mut rng, &Plan { skew_fields: 2, ..plan });
    checks.equal("10", read_header(&wrong).err(), Some(refusal(10)));
    let greatest = Plan { skew_fields: 0, ..plain(0x8048, vec![vec![set(9_999, 9); 99]; 2]) };
    let block = header(&mut rng, &greatest);
    let samples = read_header(&block).map(|h| h.samples_per_scan);
    checks.equal("the most samples", samples, Ok(506_829_312));
    checks.equal("the last", sample_place(&block, 2, 506_829_311), Ok((99, 9_999, 511)));
    checks.equal("its index", sample_index(&block, 2, 99, 9_999, 511), Ok(506_829_311));
    checks.equal("one more", sample_place(&block, 2, 506_829_312), Err(refusal(11)));
    checks.equal("its sheet", skew(&block, &[0; 9], 1), Err(refusal(12)));
}

/// Questions on a header of 80xx are answered as on any; its body is another kind.
fn check_trace_questions(checks: &mut Checks) {
    let (block, sheet) = (l_of_traces(0x8022), [0, 1, 255, 7]);
    checks.equal("place", sample_place(&block, 1, 3), Ok((1, 4, 0)));
    checks.equal("set", descriptor(&block, 1, 1).map(|set| set.channels), Ok(4));
    checks.equal("time", sample_time(&block, &sheet, 1, 1, 512), Ok(8224));
    checks.equal("sheet", skew(&block, &sheet[1..], 1), Err(refusal(12)));
    checks.equal("constants", constants(&block), Ok((4, 6)));
    checks.equal("scans opened", open(&l_header()), Ok(Kind::Scans));
    checks.equal("not opened", open(&block[..31]), Err(refusal(1)));
    for code in TRACE_CODES {
        checks.equal("traces opened", open(&l_of_traces(code)), Ok(Kind::Traces));
    }
    let calls = [Call::Portion { bytes: hex("FF"), room: 2 }, Call::BlockEnd, Call::Close];
    let unfit = vec![
        Answer::Portion { numbers: Vec::new(), refusal: Some(refusal(23)) },
        Answer::BlockEnd(Some(refusal(23))),
        Answer::Close(Err(refusal(23))),
    ];
    checks.equal("calls on scans", answers(&block, &calls), (Ok(Kind::Traces), unfit));
}

fn check_paper_figures(checks: &mut Checks) {
    let mut rng = Rng::new(2);
    let block = header(&mut rng, &paper_plan());
    let read = read_header(&block).unwrap();
    checks.equal("header length", block.len(), 288);
    checks.equal("S/S", read.samples_per_scan, 148);
    checks.equal("B", read.bytes_per_scan, 378);
    checks.equal("SK", read.skew_fields, 5);
    checks.equal("k 112", sample_place(&block, 1, 112), Ok((3, 1, 1)));
    checks.equal("index of it", sample_index(&block, 1, 3, 1, 1), Ok(112));
    checks.equal("k 148", sample_place(&block, 1, 148), Err(refusal(11)));
    checks.equal("first word", sample_bytes(&block, 1, 0), Ok((10, 2)));
    checks.equal("last word", sample_bytes(&block, 1, 147), Ok((376, 2)));
    checks.equal("exponent of 147", exponent_offset(0x0015, 147), Some((361, false)));
}

/// The header lengths of the paper's six examples.
fn check_paper_lengths(checks: &mut Checks) {
    let examples = [
        (vec![vec![set(4, 0), set(24, 0)]], 128),
        (vec![vec![set(4, 0), set(12, 0), set(12, 0)]], 160),
        (vec![vec![set(4, 0), set(240, 0)]], 352),
        (vec![vec![set(4, 0), set(48, 0), set(12, 2)]], 256),
        (vec![vec![set(4, 0), set(12, 2)], vec![set(4, 0), set(48, 0)]], 288),
        (vec![vec![set(4, 0), set(6, 2), set(6, 2)], vec![set(4, 0), set(48, 0), set(0, 0)]], 352),
    ];
    for (scan_types, length) in examples {
        let block = header(&mut Rng::new(3), &plain(0x0024, scan_types));
        checks.equal("example length", block.len(), length);
        checks.holds("example accepted", read_header(&block).is_ok());
    }
}

/// E8: channel 11 of set 2 in scan type 2, first and second subscan.
fn check_paper_skew(checks: &mut Checks) {
    let first = vec![set(4, 0), set(24, 1), set(12, 2)];
    let second = vec![set(4, 0), set(48, 1), set(0, 0)];
    let block = header(&mut Rng::new(4), &plain(0x0022, vec![first, second]));
    for (subscan, byte) in [(0, 367), (1, 415)] {
        let k = sample_index(&block, 2, 2, 11, subscan).unwrap();
        let (source, offset, length) = skew(&block, &[], 2).unwrap();
        checks.equal("E8", (source, offset + k as usize + 1, length), (Source::Block, byte, 100));
        checks.equal("E8 byte", skew_at(&block, &[], 2, k), Ok(block[byte - 1]));
    }
    checks.equal("dummy set", sample_index(&block, 2, 3, 1, 0), Err(refusal(11)));
    checks.equal("no set", sample_index(&block, 2, 4, 1, 0), Err(refusal(11)));
    checks.equal("no scan type", sample_index(&block, 0, 1, 1, 0), Err(refusal(11)));
    checks.equal("no subscan", sample_index(&block, 2, 2, 1, 2), Err(refusal(11)));
}

/// Sample times and the crew's sheet, on case L's header without skew.
fn check_times(checks: &mut Checks) {
    let (block, sheet) = (l_header(), [0, 1, 255, 7]);
    checks.equal("8224", sample_time(&block, &sheet, 1, 1, 512), Ok(8224));
    checks.equal(
        "last T",
        sample_time(&block, &sheet, 1, 2, 0xFF_FFFF),
        Ok(16 * 0xFF_FFFF + 255 * 32),
    );
    checks.equal("T too large", sample_time(&block, &[], 1, 1, 1 << 24), Err(refusal(11)));
    checks.equal("k too large", sample_time(&block, &[], 1, 4, 0), Err(refusal(11)));
    checks.equal("sheet short", sample_time(&block, &sheet[..3], 1, 1, 0), Err(refusal(12)));
    checks.equal("sheet long", skew(&block, &[0; 5], 1), Err(refusal(12)));
    checks.equal("sheet", skew(&block, &sheet, 1), Ok((Source::Sheet, 0, 4)));
    checks.equal("sheet, no scan type", skew(&block, &[0; 5], 2), Err(refusal(11)));
    checks.equal("refused header", skew(&block[..32], &sheet, 1), Err(refusal(6)));
}

/// Parts of a block with everything in it.
fn check_parts(checks: &mut Checks) {
    let plan = Plan { extended_fields: 2, external_fields: 3, ..paper_plan() };
    let block = header(&mut Rng::new(5), &plan);
    checks.equal("constants", constants(&block), Ok((4, 6)));
    checks.equal("extended", extended(&block), Ok((288, 64)));
    checks.equal("external", external(&block), Ok((352, 96)));
    checks.equal("skew", skew(&block, &[1], 1), Ok((Source::Block, 128, 148)));
}

fn blocks(texts: &[&str], rest: &str) -> Body {
    Body { blocks: texts.iter().map(|text| hex(text)).collect(), rest: hex(rest) }
}

fn check_case_l(checks: &mut Checks) {
    let reading = read_scans(&l_header(), &blocks(&[L_BODY], "")).unwrap();
    let numbers: Vec<_> = reading.samples.iter().map(|s| (s.m, s.x, s.off)).collect();
    let wanted = [(8, -2, false), (-8, -2, false), (0, 10, true), (0, -4, false)];
    checks.equal("case L samples", &numbers[..4], &wanted[..]);
    checks.equal(
        "case L ends",
        reading.samples.iter().map(|s| s.end).collect::<Vec<_>>(),
        (8..12).chain(20..24).collect(),
    );
    let report =
        Report { scans: 2, samples: 8, off: 1, scan_type: 1, itb: Some(false), window: None };
    checks.equal("case L report", reading.closing, Ok(report));
    let text = "1 file 0007 format 0022 scans 2 samples 8 off 1\nreel ok\n";
    let image = hex(&format!(
        "01 00000040 {L_GENERAL} {L_SET} {} 00000018 {L_BODY} 00000000 00000000",
        "00".repeat(20)
    ));
    checks.equal("case L listed", list(&image).as_str(), text);
    checks.equal("reel", reel(&[vec![l_header(), hex(L_BODY)]]), image);
}

/// Bodies under case L's header, I 32: the stop or the closing number and place.
fn check_stops(checks: &mut Checks) {
    let scan = "FFFFFF01 00000000 00000000";
    let next = "FFFFFF01 00020000 00000000";
    let both = format!("{scan}{next}");
    let cases: [(&[&str], &str, u8, u32); 16] = [
        (&["FFFFFF01 00000000 00000000 FE"], "", 16, 12),
        (&["FFFE"], "", 16, 1),
        (&["FFFFFF03"], "", 16, 3),
        (&["FFFFFF00"], "", 16, 3),
        (&["FFFFFF11"], "", 18, 3),
        (&["FFFFFF13"], "", 16, 3),
        (&["FFFFFF01 00000001"], "", 17, 7),
        (&["FFFFFF01 00000000 00000000 FFFFFF11"], "", 18, 15),
        (&["FFFFFF01 00000000 00000000 FFFFFF01 00020100"], "", 17, 19),
        (&["FFFFFF01 00000000 00000000 FFFFFF01 00020001"], "", 17, 19),
        (&[scan, next], "", 15, 12),
        (&[scan, ""], "", 15, 12),
        (&[""], "", 15, 0),
        (&["FFFFFF"], "", 15, 3),
        (&[scan], "FF", 15, 12),
        (&[both.as_str(), ""], "00", 15, 24),
    ];
    for (texts, rest, number, place) in cases {
        let got = read_scans(&l_header(), &blocks(texts, rest)).unwrap();
        checks.equal(
            &format!("{texts:?} {rest}"),
            got.closing,
            Err(refusal_with(number, &[place])),
        );
    }
}

fn check_closings(checks: &mut Checks) {
    let cases: [(&[&str], &str, u8); 4] = [
        (&[], "", 21),
        (&[], "FFFFFF01", 19),
        (&[], "FFFFFF01 00000000 00000000", 20),
        (&[], L_BODY, 20),
    ];
    for (texts, rest, number) in cases {
        let got = read_scans(&l_header(), &blocks(texts, rest)).unwrap();
        checks.equal(&format!("closing {rest}"), got.closing, Err(refusal(number)));
    }
}

/// Blocks of two scans under case L's header: S/B 1, S/BX 1.
fn check_gapped(checks: &mut Checks) {
    let block = l_with(24, "01 01");
    let scans: Vec<String> =
        (0..5u32).map(|n| format!("FFFFFF01{:06X}00 00000000", n * 512)).collect();
    let whole = [scans[..2].concat(), scans[2..4].concat()];
    let close = |texts: &[&str], rest: &str| read_scans(&block, &blocks(texts, rest)).unwrap();
    let two = close(&[&whole[0], &whole[1]], "");
    checks.equal("two blocks", two.closing.map(|r| (r.scans, r.samples)), Ok((4, 16)));
    checks.equal("one scan", close(&[&scans[0]], "").closing, Err(refusal_with(15, &[12])));
    checks.equal(
        "three scans",
        close(&[&scans[..3].concat()], "").closing,
        Err(refusal_with(15, &[24])),
    );
    let end_first = close(&[&scans[0], "00"], "").stop;
    let stop = Stop { fault: fault(15), place: 12, cause: Cause::End(0) };
    checks.equal("end before byte", end_first, Some(stop));
    checks.equal("open block", close(&[&whole[0]], &scans[2]).closing, Err(refusal(20)));
    checks.equal("open full block", close(&[], &whole[0]).closing, Err(refusal(20)));
    checks.equal("part", close(&[&whole[0]], "FF").closing, Err(refusal(19)));
    let empty = close(&[&whole[0], "", &whole[1]], "");
    let stop = Stop { fault: fault(15), place: 24, cause: Cause::End(1) };
    checks.equal("empty block", (empty.stop, empty.samples.len()), (Some(stop), 8));
}

/// I 128: after FFF800 comes 000000; and the bits of byte 4.
fn check_status(checks: &mut Checks) {
    let block = l_with(23, "80");
    let texts = ["FFFFFF2D FFF80000 00000000 FFFFFFC1 00000000 00000000"];
    let report = read_scans(&block, &blocks(&texts, "")).unwrap().closing.unwrap();
    checks.equal("T starts again", (report.itb, report.window), (Some(true), Some(0)));
    let stays = ["FFFFFF01 FFF80000 00000000 FFFFFF01 FFF80000 00000000"];
    let closing = read_scans(&block, &blocks(&stays, "")).unwrap().closing;
    checks.equal("T stays", closing, Err(refusal_with(17, &[19])));
}

/// Two scan types of eight-byte scans: DP has to turn over once.
fn check_scan_types(checks: &mut Checks) {
    let plan = Plan { interval: 1, ..plain(0x0048, vec![vec![set(0, 0)], vec![set(0, 9)]]) };
    let block = header(&mut Rng::new(6), &plan);
    let close = |bits: &[u8]| {
        let scans =
            bits.iter().enumerate().map(|(n, bit)| format!("FFFFFF{bit:02X}{:06X}00", n * 16));
        read_scans(&block, &blocks(&[&scans.collect::<String>()], "")).unwrap().closing
    };
    checks.equal("B 8", read_header(&block).map(|h| h.bytes_per_scan), Ok(8));
    checks.equal(
        "both seen",
        close(&[0x01, 0x11, 0x11]).map(|r| (r.scans, r.samples, r.scan_type)),
        Ok((3, 0, 2)),
    );
    checks.equal("one seen", close(&[0x01, 0x01]), Err(refusal(21)));
    checks.equal("three seen", close(&[0x01, 0x11, 0x01]), Err(refusal_with(18, &[19])));
}

/// An exponent group of 0015, and ROOM, and what an earlier stop answers.
fn check_calls(checks: &mut Checks) {
    let plan = Plan { skew_fields: 0, ..plain(0x0015, vec![vec![set(4, 0)]]) };
    let block = header(&mut Rng::new(7), &plan);
    let portion = |text: &str, room| Call::Portion { bytes: hex(text), room };
    let calls = [
        portion("FFFFFF01 000000", 13),
        portion("FFFFFF01 00000000 0F1E 0002 8000 7F", 30),
        portion("FE 0001 00", 8),
        portion("00", 0),
        portion("", 0),
        Call::BlockEnd,
        Call::Close,
    ];
    let answer = |numbers: &[i32], refusal| Answer::Portion { numbers: numbers.to_vec(), refusal };
    let stop = refusal_with(16, &[18]);
    let wanted = vec![
        answer(&[], Some(refusal(13))),
        answer(&[1, -14, -16383, 1], None),
        answer(&[16383, -13, 0, 0], Some(stop.clone())),
        answer(&[], Some(stop.clone())),
        answer(&[], Some(stop.clone())),
        Answer::BlockEnd(Some(stop.clone())),
        Answer::Close(Err(stop)),
    ];
    checks.equal("calls", answers(&block, &calls), (Ok(Kind::Scans), wanted));
    let unfit = vec![answer(&[], Some(refusal(23))), Answer::BlockEnd(Some(refusal(23)))];
    let asked = [portion("00", 0), Call::BlockEnd];
    checks.equal("unfit", answers(&block[..9], &asked), (Err(refusal(1)), unfit));
}

fn check_lists(checks: &mut Checks) {
    let whole = reel(&[vec![l_header(), hex(L_BODY)]]);
    let line = "1 file 0007 format 0022 scans 2 samples 8 off 1\n";
    checks.equal("empty", list(&[]).as_str(), "reel cut\n");
    checks.equal("version", list(&[2, 0]).as_str(), "reel version\n");
    checks.equal("version byte alone", list(&[1]).as_str(), "reel cut\n");
    checks.equal("no file", list(&reel(&[])).as_str(), "reel cut\n");
    checks.equal("marks only", list(&hex("01 00000000 00000000 05")).as_str(), "reel ok\n");
    checks.equal(
        "one mark missing",
        list(&whole[..whole.len() - 1]),
        line.to_string() + "reel cut\n",
    );
    checks.equal("both missing", list(&whole[..whole.len() - 5]).as_str(), "reel cut\n");
    let large = reel(&[vec![vec![0; 65_537]], vec![vec![0; 65_536]], vec![l_header()]]);
    let text = "1 refused 22 at 0\n2 refused 2 at 0\n3 refused 21 at 0\nreel ok\n";
    checks.equal("large", list(&large).as_str(), text);
    let twice = reel(&[vec![l_header(), hex(L_BODY), hex("FF")]]);
    checks.equal("two blocks", list(&twice).as_str(), "1 refused 15 at 24\nreel ok\n");
    let of_traces = [l_of_traces(0x8022), l_of_traces(0x8023), l_with(3, "8022")];
    let files = of_traces.map(|block| vec![block, hex(L_BODY)]);
    let text = "1 refused 24 at 0\n2 refused 2 at 0\n3 refused 5 at 0\nreel ok\n";
    checks.equal("scans for traces", list(&reel(&files)).as_str(), text);
}

/// Every planned header is accepted and its samples are numbered both ways.
fn check_made_headers(checks: &mut Checks, tally: &mut Tally) {
    let mut rng = Rng::new(8);
    for round in 0..1_200 {
        let code = code_in_turn(round);
        let wide = round % 20 < 6;
        let plan = if wide { wide_plan(&mut rng, code) } else { small_plan(&mut rng, code) };
        let block = header(&mut rng, &plan);
        let read = read_header(&block);
        tally.code(code);
        checks.equal("made header", read.map(|h| h.samples_per_scan), Ok(plan.samples()));
        check_numbering(checks, &mut rng, &plan, &block);
    }
}

/// Scans of so many samples are those of no multiplexed code, and a sheet for them
/// would have gigabytes.
const LONGEST_SCAN: u32 = 1_000_000;

fn check_numbering(checks: &mut Checks, rng: &mut Rng, plan: &Plan, block: &[u8]) {
    if plan.samples() == 0 {
        return;
    }
    let scan_type = rng.range(1, plan.scan_types.len() as u32);
    let k = rng.below(plan.samples().into()) as u32;
    let (set, channel, subscan) = sample_place(block, scan_type, k).unwrap();
    checks.equal("numbered", sample_index(block, scan_type, set, channel, subscan), Ok(k));
    if plan.samples() < LONGEST_SCAN {
        let lent = sheet(rng, plan);
        checks.holds("skew", skew_at(block, &lent, scan_type, k).is_ok());
    }
    check_edges(checks, rng, plan, block);
}

/// Numbers in range or not: an index is INDEX or leads back to its place.
fn check_edges(checks: &mut Checks, rng: &mut Rng, plan: &Plan, block: &[u8]) {
    let scan_type = near(rng, plan.scan_types.len() as u32);
    let (set, channel, subscan) =
        (near(rng, plan.scan_types[0].len() as u32), near(rng, 12), near(rng, 4));
    match sample_index(block, scan_type, set, channel, subscan) {
        Ok(k) => {
            checks.equal("back", sample_place(block, scan_type, k), Ok((set, channel, subscan)))
        }
        Err(other) => checks.equal("index", other, refusal(11)),
    }
}

/// Drawn words: read with M inside the fraction, or too wide.
fn check_made_words(checks: &mut Checks) {
    let mut rng = Rng::new(12);
    for round in 0..12_000 {
        let code = code_in_turn(round);
        let (c, word) = any_word(&mut rng, code);
        let sound = match read_word(code, c, word) {
            Ok((m, _, _)) => m.unsigned_abs() < 1 << count(code, 'Q'),
            Err(other) => other == refusal(11),
        };
        checks.holds("made word", sound);
    }
}

fn tally_damaged_headers(tally: &mut Tally) {
    let mut rng = Rng::new(9);
    for round in 0..30_000 {
        let code = if round % 3 == 0 { any_trace_code(&mut rng) } else { any_code(&mut rng) };
        let plan = small_plan(&mut rng, code);
        let block = damaged_header(&mut rng, &plan);
        tally.answer(&read_header(&block));
        let lent = any_sheet(&mut rng, &plan);
        tally.answer(&sample_time(&block, &lent, rng.range(0, 2), 0, 0));
    }
}

/// Cut or not, a body gives the same samples and the same closing.
fn check_made_bodies(checks: &mut Checks, tally: &mut Tally) {
    let mut rng = Rng::new(10);
    for round in 0..3_000 {
        let plan = small_plan(&mut rng, CODES[round % 6]);
        let block = header(&mut rng, &plan);
        let sound = round % 3 == 0;
        let body = if sound { sound_body(&mut rng, &plan) } else { damaged_body(&mut rng, &plan) };
        let calls = cut(&mut rng, &body);
        checks.equal("uncut again", &uncut(&calls), &body);
        let (in_parts, at_once) = (answers(&block, &calls).1, answers(&block, &in_one(&body)).1);
        checks.equal("closing", in_parts.last(), at_once.last());
        checks.equal("numbers", written(&in_parts), written(&at_once));
        if sound {
            checks.holds("sound", matches!(in_parts.last(), Some(Answer::Close(Ok(_)))));
        }
        in_parts.iter().filter_map(refused).for_each(|refusal| tally.refusal(refusal));
    }
}

fn written(answers: &[Answer]) -> Vec<i32> {
    let numbers = answers.iter().filter_map(|answer| match answer {
        Answer::Portion { numbers, .. } => Some(numbers),
        _ => None,
    });
    numbers.flatten().copied().collect()
}

fn refused(answer: &Answer) -> Option<&Refusal> {
    match answer {
        Answer::Portion { refusal, .. } | Answer::BlockEnd(refusal) => refusal.as_ref(),
        Answer::Close(closing) => closing.as_ref().err(),
    }
}

/// The report on a record that has to be sound.
fn report((block, body): &Record) -> Report {
    let reading = read_scans(block, body).expect("the header is accepted");
    reading.closing.expect("nothing is wrong with the body")
}

/// The long records are sound, and are what they are said to be.
fn check_made_records(checks: &mut Checks) {
    let mut rng = Rng::new(12);
    let shot = long_shot(&mut rng, 0x0022, 4);
    let (scans, last) = (report(&shot).scans, shot.1.blocks[0].len() - 12);
    checks.equal("scans of 90 s", scans, 45_000);
    checks.equal("T after 90 s", &shot.1.blocks[0][last + 4..last + 7], &hex("5F8E00")[..]);
    let switched = switched_interval(&mut rng, 0x0044, 3_000);
    checks.equal("header of example 6", switched.0.len(), 352);
    checks.equal("scan type at the end", report(&switched).scan_type, 2);
    let dynamic = |scan: usize| switched.1.blocks[0][scan * 112 + 3] & 0x10 != 0;
    checks.equal("the change", [0, 1_499, 1_500, 2_999].map(dynamic), [false, false, true, true]);
    let large = large_blocks(&mut rng, 0x0015, 2);
    let lengths: Vec<usize> = large.1.blocks.iter().map(Vec::len).collect();
    checks.equal("blocks of E9", lengths, vec![261_576; 2]);
    checks.equal("samples of E9", report(&large).samples, 2 * 692 * 148);
    let longest = longest_scans(&mut rng, 1);
    checks.equal("the longest scan", longest.1.blocks[0].len(), 999_999);
    checks.equal("samples of the longest scan", report(&longest).samples, 999_991);
}

/// Every image has one of the three last lines.
fn check_made_reels(checks: &mut Checks) {
    let mut rng = Rng::new(11);
    for _ in 0..200 {
        let text = list(&any_reel(&mut rng));
        let last = text.lines().last().unwrap_or("").to_string();
        checks.holds("last line", ["reel ok", "reel cut", "reel version"].contains(&last.as_str()));
    }
}

/// The makers reach every refusal but 3 and 22, which are the lister's, 14, which
/// takes four thousand million bytes, and 23, which is a state's.
fn check_coverage(checks: &mut Checks, tally: &Tally) {
    checks.holds("no header is refused by 3", !tally.seen(3));
    for number in [1, 2].into_iter().chain(4..=13).chain(15..=21) {
        checks.holds(&format!("refusal {number} reached"), tally.seen(number));
    }
}

#[rustfmt::skip]
fn main() {
    let mut checks = Checks::default();
    let mut tally = Tally::default();
    let fixed = [
        check_pairs, check_word_figures, check_trace_word_figures, check_word_refusals, check_word_rows,
        check_word_signs, check_header_fields, check_descale, check_header_edges,
        check_trace_header_edges, check_descriptor_edges, check_header_values, check_trace_headers,
        check_trace_questions, check_paper_figures, check_paper_lengths, check_paper_skew, check_times,
        check_parts, check_case_l, check_stops, check_closings, check_gapped, check_status,
        check_scan_types, check_calls, check_lists, check_made_reels, check_made_words,
        check_made_records, traces::check,
    ];
    fixed.iter().for_each(|check| check(&mut checks));
    check_made_headers(&mut checks, &mut tally);
    tally_damaged_headers(&mut tally);
    check_made_bodies(&mut checks, &mut tally);
    check_coverage(&mut checks, &tally);
    println!("{} passed, {} failed", checks.passed, checks.failed);
    std::process::exit(i32::from(checks.failed > 0));
}
