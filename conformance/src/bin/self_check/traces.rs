//! Bodies of traces: figures made by hand, and what is drawn of them.

use crate::{blocks, hex, l_header, l_of_traces, refused, written, Checks};
use conformance::make::calls::{cut, in_one, lend};
use conformance::make::headers::{header, plain, set, trace_plan, Plan, Set};
use conformance::make::images::reel;
use conformance::make::rng::Rng;
use conformance::make::traces::{damaged_traces, sound_traces};
use conformance::reader::body::{Body, Reading, Report};
use conformance::reader::calls::{standings, trace_answers, Answer, Call, Lent};
use conformance::reader::image::list;
use conformance::reader::traces::{read_traces, trace_place, Standing};
use conformance::reader::words::TRACE_CODES;
use conformance::reader::{refusal, refusal_with, Refusal};
use std::collections::BTreeSet;

/// A trace of file 7 with free bytes that are not 0, then its samples.
fn trace(scan_type: u32, set: u32, channel: u32, samples: &str) -> String {
    format!("0007 {scan_type:02} {set:02} {channel:04} A1B2C3 00 5A 00 D4E5F6 0000000000 {samples}")
}

/// Reads blocks of text under a header block that is accepted.
fn read(block: &[u8], texts: &[&str], rest: &str) -> Reading {
    read_traces(block, &blocks(texts, rest)).expect("an accepted header of traces")
}

/// A header of file 7 in a code 80xx, without skew, with these sets in each scan type.
fn header_of(code: u16, scan_types: Vec<Vec<Set>>) -> Vec<u8> {
    let plan = Plan { skew_fields: 0, ..plain(code, scan_types) };
    let mut block = header(&mut Rng::new(21), &plan);
    block[..2].copy_from_slice(&[0x00, 0x07]);
    block
}

/// The four traces of case L's channels, of two samples each.
fn four_traces() -> [String; 4] {
    [(1, "1897"), (2, "FF00"), (3, "0000"), (4, "1818")].map(|(n, words)| trace(1, 1, n, words))
}

fn check_sound(checks: &mut Checks) {
    let texts = four_traces();
    let reading = read(&l_of_traces(0x8022), &texts.each_ref().map(String::as_str), "");
    let numbers: Vec<_> = reading.samples.iter().map(|s| (s.m, s.x, s.off)).collect();
    let wanted = [(8, -2, false), (-8, -2, false), (0, 10, true), (0, -4, false)];
    checks.equal("samples of traces", &numbers[..4], &wanted[..]);
    let ends: Vec<u64> = reading.samples.iter().map(|s| s.end).collect();
    checks.equal("their places", ends, vec![20, 21, 42, 43, 64, 65, 86, 87]);
    let report = Report { scans: 2, samples: 8, off: 1, scan_type: 1, itb: None, window: None };
    checks.equal("report on traces", reading.closing, Ok(report));
}

/// Each byte of a trace header one greater, in the first trace and in the second.
fn check_header_bytes(checks: &mut Checks) {
    let free = [7, 8, 9, 11, 13, 14, 15];
    for (n, start) in [(0, 0), (1, 22)] {
        for number in 1..=20u32 {
            let mut body = blocks(&four_traces().each_ref().map(String::as_str), "");
            body.blocks[n][number as usize - 1] += 1;
            let closing = read_traces(&l_of_traces(0x8022), &body).unwrap().closing;
            let stop = refusal_with(24, &[start + number - 1]);
            let wanted = if free.contains(&number) { None } else { Some(stop) };
            checks.equal(&format!("trace {n}, byte {number}"), closing.err(), wanted);
        }
    }
}

/// Digit pairs, not binary numbers; the first wrong byte counts; a short one is judged.
fn check_turns(checks: &mut Checks) {
    let block = header_of(0x8042, vec![vec![set(101, 0)]]);
    let traces: Vec<String> = (1..=101).map(|n| trace(1, 1, n, "80")).collect();
    let texts: Vec<&str> = traces.iter().map(String::as_str).collect();
    let closing = read(&block, &texts, "").closing.map(|r| (r.scans, r.samples, r.off));
    checks.equal("101 channels", closing, Ok((1, 101, 0)));
    let mut binary = blocks(&texts, "");
    binary.blocks[9][5] = 0x0A;
    let closing = read_traces(&block, &binary).unwrap().closing;
    checks.equal("ten in binary", closing, Err(refusal_with(24, &[9 * 21 + 5])));
    let cases: [(&str, u8, u32); 4] =
        [("0008", 24, 1), ("0007 01 02", 24, 3), ("0007 01 01 0002", 24, 5), ("0007 01", 15, 3)];
    for (text, number, place) in cases {
        let stop = refusal_with(number, &[place]);
        checks.equal(text, read(&block, &[text], "").closing, Err(stop));
    }
    checks.equal(
        "second first",
        read(&block, &texts[1..], "").closing,
        Err(refusal_with(24, &[5])),
    );
}

/// Block ends, and bytes after the last trace.
fn check_ends(checks: &mut Checks) {
    let block = l_of_traces(0x8022);
    let [one, two, three, four] = four_traces();
    let (none, three_samples, one_sample) =
        (trace(1, 1, 1, ""), trace(1, 1, 2, "000000"), trace(1, 1, 2, "00"));
    let in_header = &none[..none.len() - 3];
    let all: Vec<&str> = vec![&one, &two, &three, &four];
    let and = |more: &[&'static str]| [&all[..], more].concat();
    let cases: [(Vec<&str>, &str, u8, u32); 9] = [
        (vec![""], "", 15, 0),
        (vec![in_header], "", 15, 19),
        (vec![&none], "", 25, 20),
        (vec![&one, &three_samples], "", 25, 45),
        (vec![&one, &one_sample, &three], "", 25, 43),
        (vec![&one, ""], "", 15, 22),
        (and(&[""]), "", 15, 88),
        (and(&["00"]), "", 15, 88),
        (all.clone(), "00", 15, 88),
    ];
    for (texts, rest, number, place) in cases {
        let stop = refusal_with(number, &[place]);
        checks.equal(&format!("{texts:?} {rest}"), read(&block, &texts, rest).closing, Err(stop));
    }
    let long = read(&block, &[&one, &three_samples], "");
    checks.equal("a long trace's samples", long.samples.len(), 5);
    let stopped = read(&block, &[&one, "0007 01 02", &three], "");
    checks.equal("samples before a stop", stopped.samples.len(), 2);
}

fn check_closings(checks: &mut Checks) {
    let [one, two, three, four] = four_traces();
    let bytes = hex(&one);
    for code in [0x8022, 0x8024, 0x8048] {
        let word = match code {
            0x8022 => 1,
            0x8024 => 2,
            _ => 4,
        };
        for length in 0..=28 {
            let rest = bytes.iter().copied().chain([0; 8]).take(length).collect();
            let body = Body { blocks: Vec::new(), rest };
            let closing = read_traces(&l_of_traces(code), &body).unwrap().closing;
            let whole = length >= 20 && (length - 20) % word == 0;
            let number = if length == 0 { 21 } else { 20 - u8::from(!whole) };
            checks.equal(&format!("{code:04X}, {length} bytes"), closing, Err(refusal(number)));
        }
    }
    let block = l_of_traces(0x8022);
    checks.equal("three", read(&block, &[&one, &two, &three], "").closing, Err(refusal(21)));
    checks.equal("open", read(&block, &[&one, &two, &three], &four).closing, Err(refusal(20)));
}

/// Left over at a block end, in words of two and of four bytes.
fn check_left_over(checks: &mut Checks) {
    for (code, word) in [(0x8024, 2), (0x8044, 2), (0x8048, 4)] {
        for length in 0..=9u32 {
            let text = trace(1, 1, 1, &"00".repeat(length as usize));
            let closing = read(&l_of_traces(code), &[&text], "").closing;
            let sound = length > 0 && length % word == 0;
            let wanted = if sound { refusal(21) } else { refusal_with(25, &[20 + length]) };
            checks.equal(&format!("{code:04X}, {length} bytes ended"), closing, Err(wanted));
        }
    }
}

const GROUP: &str = "0F1E 0001 8000 FFFF 7FFF";

/// Groups of four in 8015: what is past the whole ones is FOUR from 4 bytes on.
fn check_groups(checks: &mut Checks) {
    let block = l_of_traces(0x8015);
    let reading = read(&block, &[&trace(1, 1, 1, GROUP)], "");
    let samples: Vec<_> = reading.samples.iter().map(|s| (s.m, s.x, s.off, s.end)).collect();
    let wanted =
        [(1, -15, false, 23), (-32767, 0, false, 25), (0, -14, true, 27), (32767, -1, false, 29)];
    checks.equal("a group of 8015", samples, wanted.to_vec());
    let two = hex(&GROUP.repeat(2));
    for length in 0..=20usize {
        let body = [hex(&trace(1, 1, 1, "")), two[..length].to_vec()].concat();
        let place = 20 + length as u32;
        let wanted = match length % 10 {
            0 if length > 0 => refusal(21),
            0..=3 => refusal_with(25, &[place]),
            _ => refusal_with(8, &[1, 1, place]),
        };
        let ended = Body { blocks: vec![body.clone()], rest: Vec::new() };
        let reading = read_traces(&block, &ended).unwrap();
        checks.equal(&format!("{length} bytes, ended"), reading.closing, Err(wanted));
        let whole = length / 10 * 4 + (length % 10).saturating_sub(2) / 2;
        checks.equal(&format!("{length} bytes, samples"), reading.samples.len(), whole);
        let number = if length % 10 == 0 { 20 } else { 19 };
        let open = read_traces(&block, &Body { blocks: Vec::new(), rest: body }).unwrap();
        checks.equal(&format!("{length} bytes, open"), open.closing, Err(refusal(number)));
    }
}

/// FOUR names the trace's set by its place; it comes before COUNT.
fn check_four(checks: &mut Checks) {
    let block = header_of(0x8015, vec![vec![set(1, 0), set(0, 3), set(1, 1)]]);
    let first = trace(1, 1, 1, GROUP);
    let second = |samples: &str| trace(1, 3, 1, samples);
    let sound = read(&block, &[&first, &second(&GROUP.repeat(2))], "").closing;
    checks.equal("8015", sound.map(|r| (r.scans, r.samples, r.off)), Ok((4, 12, 3)));
    let cut = format!("{GROUP} 0000 0000");
    let closing = read(&block, &[&first, &second(&cut)], "").closing;
    checks.equal("set 3", closing, Err(refusal_with(8, &[1, 3, 30 + 34])));
    let closing = read(&block, &[&first, &second(GROUP)], "").closing;
    checks.equal("two scans", closing, Err(refusal_with(25, &[30 + 30])));
}

/// Dual sampling, with a dummy set that keeps its number; scans go by the first trace.
fn check_subscans(checks: &mut Checks) {
    let zeros = |count: usize| "00".repeat(count);
    let block = header_of(0x8022, vec![vec![set(2, 0), set(0, 9), set(1, 2)]]);
    let close = |counts: [usize; 3]| {
        let [a, b, c] = counts.map(zeros);
        let texts = [trace(1, 1, 1, &a), trace(1, 1, 2, &b), trace(1, 3, 1, &c)];
        read(&block, &texts.each_ref().map(String::as_str), "").closing
    };
    checks.equal("dual", close([3, 3, 12]).map(|r| (r.scans, r.samples)), Ok((3, 18)));
    checks.equal("a part of a scan", close([3, 3, 11]), Err(refusal_with(25, &[46 + 31])));
    checks.equal("a scan too few", close([3, 3, 8]), Err(refusal_with(25, &[46 + 28])));
    checks.equal("a scan too many", close([3, 4, 12]), Err(refusal_with(25, &[23 + 24])));
    let block = header_of(0x8022, vec![vec![set(1, 2), set(1, 0)]]);
    let close = |first: usize, second: usize| {
        let texts = [trace(1, 1, 1, &zeros(first)), trace(1, 2, 1, &zeros(second))];
        read(&block, &texts.each_ref().map(String::as_str), "").closing
    };
    checks.equal("the fast set first", close(8, 2).map(|r| r.scans), Ok(2));
    checks.equal("no whole scans", close(6, 1), Err(refusal_with(25, &[26])));
    checks.equal("none at all", close(3, 1), Err(refusal_with(25, &[23])));
}

/// The paper's example 6 in small: each scan type has its own scans, and trace numbers
/// start again at 1 in each set.
fn check_switched(checks: &mut Checks) {
    let first = vec![set(1, 0), set(1, 1), set(1, 1)];
    let second = vec![set(1, 0), set(4, 0), set(0, 0)];
    let block = header_of(0x8042, vec![first, second]);
    let of =
        |scan_type, set, channel, samples| trace(scan_type, set, channel, &"01".repeat(samples));
    let texts = [
        [of(1, 1, 1, 3), of(1, 2, 1, 6), of(1, 3, 1, 6)].to_vec(),
        [of(2, 1, 1, 2)].to_vec(),
        (1..=4).map(|channel| of(2, 2, channel, 2)).collect(),
    ];
    let texts = texts.concat();
    let texts: Vec<&str> = texts.iter().map(String::as_str).collect();
    let closing = read(&block, &texts, "").closing;
    let report = Report { scans: 5, samples: 25, off: 0, scan_type: 2, itb: None, window: None };
    checks.equal("switched", closing, Ok(report));
    checks.equal("first type alone", read(&block, &texts[..3], "").closing, Err(refusal(21)));
    checks.equal("all but one", read(&block, &texts[..7], "").closing, Err(refusal(21)));
}

/// Byte 11 is the skew byte of the channel's first sample, where skew is recorded.
fn check_skew(checks: &mut Checks) {
    let plan = plain(0x8022, vec![vec![set(2, 1), set(1, 0)]]);
    let mut block = header(&mut Rng::new(22), &plan);
    block[..2].copy_from_slice(&[0x00, 0x07]);
    block[96..101].copy_from_slice(&[10, 11, 12, 13, 14]);
    let traces = [(1, 1, 10), (1, 2, 11), (2, 1, 14)].map(|(set, channel, skew)| {
        let samples = if set == 1 { "0000" } else { "00" };
        let mut bytes = hex(&trace(1, set, channel, samples));
        bytes[10] = skew;
        bytes
    });
    let body = Body { blocks: traces.to_vec(), rest: Vec::new() };
    let closing = read_traces(&block, &body).unwrap().closing.map(|r| (r.scans, r.samples));
    checks.equal("recorded skew", closing, Ok((1, 5)));
    for (n, place) in [(0, 10), (1, 32), (2, 54)] {
        let mut body = body.clone();
        body.blocks[n][10] ^= 1;
        let closing = read_traces(&block, &body).unwrap().closing;
        checks.equal("another skew", closing, Err(refusal_with(24, &[place])));
    }
}

/// S/S 0 has no trace: nothing may come, and it ends MISSING. S/B is not looked at.
fn check_no_trace(checks: &mut Checks) {
    let block = header_of(0x8015, vec![vec![set(0, 0)], vec![set(0, 3)]]);
    checks.equal("no trace", read(&block, &[], "").closing, Err(refusal(21)));
    checks.equal("a byte", read(&block, &[], "00").closing, Err(refusal_with(15, &[0])));
    checks.equal("an end", read(&block, &[""], "").closing, Err(refusal_with(15, &[0])));
    let mut gapped = l_of_traces(0x8022);
    gapped[23..25].copy_from_slice(&[0x01, 0x03]);
    let texts = four_traces();
    let closing = read(&gapped, &texts.each_ref().map(String::as_str), "").closing;
    checks.equal("S/B", closing.map(|r| r.scans), Ok(2));
    let scans = read_traces(&l_header(), &Body::default());
    checks.equal("scans", scans, Err(refusal(23)));
    checks.equal("refused", read_traces(&gapped[..31], &Body::default()), Err(refusal(1)));
}

/// The order in which a call on traces is turned away: the lent block's refusals, STATE,
/// an earlier stop, ROOM.
fn check_calls(checks: &mut Checks) {
    let (block, scans) = (l_of_traces(0x8022), l_header());
    let short = block[..31].to_vec();
    let portion = |text: &str, room| Call::Portion { bytes: hex(text), room };
    let (head, end, close) = (trace(1, 1, 1, "18"), Call::BlockEnd, Call::Close);
    let answer = |numbers: &[i32], refusal| Answer::Portion { numbers: numbers.to_vec(), refusal };
    let away = |number| answer(&[], Some(refusal(number)));
    let stop = refusal_with(24, &[21]);
    let stopped = answer(&[], Some(stop.clone()));
    let asked = [
        (&short, portion("00", 0), away(1)),
        (&scans, portion("00", 0), away(23)),
        (&block, portion("00", 1), away(13)),
        (&scans, end.clone(), Answer::BlockEnd(Some(refusal(23)))),
        (&short, end.clone(), Answer::BlockEnd(Some(refusal(1)))),
        (&block, portion(&head, 42), answer(&[8, -2], None)),
        (&short, close.clone(), Answer::Close(Err(refusal(1)))),
        (&block, close.clone(), Answer::Close(Err(refusal(20)))),
        (&block, end.clone(), Answer::BlockEnd(None)),
        (&block, close.clone(), Answer::Close(Err(refusal(21)))),
        (&block, portion("01", 2), stopped.clone()),
        (&short, portion("00", 2), away(1)),
        (&scans, portion("00", 2), away(23)),
        (&block, portion("00", 0), stopped.clone()),
        (&block, portion("", 0), stopped),
        (&block, end, Answer::BlockEnd(Some(stop.clone()))),
        (&block, close, Answer::Close(Err(stop))),
    ];
    let (calls, wanted): (Vec<Lent>, Vec<Answer>) = asked
        .into_iter()
        .map(|(block, call, wanted)| (Lent { block: block.clone(), call }, wanted))
        .unzip();
    checks.equal("calls on traces", trace_answers(&block, &calls).1, wanted);
    let unfit = trace_answers(&scans, &calls[5..6]).1;
    checks.equal("a state of scans", unfit, vec![away(23)]);
    checks.equal("not opened", trace_answers(&short, &calls[5..6]).1, vec![away(23)]);
}

/// A line of a sound record, and of one stopped by each row that has a place.
fn check_listed(checks: &mut Checks) {
    let of = |code, texts: &[&str]| {
        let blocks = texts.iter().map(|text| hex(text));
        [l_of_traces(code)].into_iter().chain(blocks).collect::<Vec<_>>()
    };
    let texts = four_traces();
    let four = texts.each_ref().map(String::as_str);
    let cut = trace(1, 1, 1, "0F1E 0001 8000");
    let image = reel(&[
        of(0x8022, &four),
        of(0x8022, &four[..3]),
        of(0x8022, &[&four[..], &["00"]].concat()),
        of(0x8022, &four[1..]),
        of(0x8024, &[four[0], &trace(1, 1, 2, "00000000")]),
        of(0x8015, &[&cut]),
    ]);
    let lines = "1 file 0007 format 8022 scans 2 samples 8 off 1\n2 refused 21 at 66\n\
                 3 refused 15 at 88\n4 refused 24 at 5\n5 refused 25 at 46\n\
                 6 refused 8 at 26\nreel ok\n";
    checks.equal("traces listed", list(&image).as_str(), lines);
}

/// Whose sample a sample of a trace is, in the paper's example 6.
fn check_places(checks: &mut Checks) {
    let first = vec![set(4, 0), set(6, 2), set(6, 2)];
    let second = vec![set(4, 0), set(48, 0), set(0, 0)];
    let block = header_of(0x8044, vec![first, second]);
    let place = |trace, sample| {
        trace_place(&block, trace, sample)
            .map(|p| (p.scan_type, p.set, p.channel, p.scan, p.subscan))
    };
    checks.equal("first trace", place(0, 0), Ok((1, 1, 1, 0, 0)));
    checks.equal("an auxiliary channel", place(3, 9), Ok((1, 1, 4, 9, 0)));
    checks.equal("a fast channel", place(4, 9), Ok((1, 2, 1, 2, 1)));
    checks.equal("last of type 1", place(15, 7), Ok((1, 3, 6, 1, 3)));
    checks.equal("first of type 2", place(16, 7), Ok((2, 1, 1, 7, 0)));
    checks.equal("last trace", place(67, u32::MAX), Ok((2, 2, 48, u32::MAX, 0)));
    checks.equal("no such trace", place(68, 0), Err(refusal(11)));
    checks.equal("of scans", trace_place(&l_header(), 0, 0), Err(refusal(11)));
    checks.equal("no header", trace_place(&block[..31], 0, 0), Err(refusal(1)));
}

/// How a state stands after each call: what was taken before a stop, and no more.
fn check_standings(checks: &mut Checks) {
    let block = header_of(0x8022, vec![vec![set(1, 1)], vec![set(2, 0)]]);
    let traces = [trace(1, 1, 1, "18970000"), trace(2, 1, 1, "FF"), trace(2, 1, 2, "0000")];
    let body = blocks(&traces.each_ref().map(String::as_str), "");
    let calls = in_one(&body).into_iter().map(|call| Lent { block: block.clone(), call });
    let standings = standings(&block, &calls.collect::<Vec<_>>()).expect("it is opened");
    let told =
        |s: &Standing| ([s.place, s.at, s.present, s.scans], [s.ends, s.samples], s.off, s.stop);
    let wanted = [
        ([24, 24, 0, 0], [0, 4], 0, None),
        ([24, 0, 2, 2], [1, 4], 0, None),
        ([45, 21, 2, 2], [1, 5], 1, None),
        ([45, 0, 1, 3], [2, 5], 1, None),
        ([67, 22, 1, 3], [2, 7], 1, None),
        ([67, 22, 1, 3], [2, 7], 1, Some((25, 67))),
    ];
    checks.equal("standings", standings[..6].iter().map(told).collect(), wanted.to_vec());
    checks.equal("after a stop", standings[6..].iter().all(|s| *s == standings[5]), true);
}

/// What came up in drawn bodies: the code, the row, and whether it names a set.
type Seen = BTreeSet<(u16, u8, bool)>;

fn tally(seen: &mut Seen, code: u16, answers: &[Answer]) {
    let refusals = answers.iter().filter_map(refused);
    seen.extend(refusals.map(|r: &Refusal| (code, r.number, r.values.len() == 3)));
}

/// A sound body closes with as many samples as its scans have, or has no trace.
fn check_closed(checks: &mut Checks, plan: &Plan, last: Option<&Answer>) {
    match last {
        Some(Answer::Close(Ok(report))) => {
            checks.equal("scans x S/S", report.samples, report.scans * plan.samples())
        }
        other => {
            let missing = Answer::Close(Err(refusal(21)));
            checks.equal("no trace", (plan.samples(), other), (0, Some(&missing)));
        }
    }
}

/// Cut or not, lent other blocks between or not: the same samples and the same closing.
fn check_made(checks: &mut Checks) {
    let mut rng = Rng::new(23);
    let mut seen = Seen::new();
    for round in 0..1_200 {
        let code = TRACE_CODES[round % 6];
        let plan = trace_plan(&mut rng, code);
        let block = header(&mut rng, &plan);
        let sound = round / 6 % 3 == 0;
        let make = if sound { sound_traces } else { damaged_traces };
        let body = make(&mut rng, &plan, &block);
        let calls = cut(&mut rng, &body);
        let lent = lend(&mut rng, &block, &[l_header()], &calls);
        let whole = in_one(&body).into_iter().map(|call| Lent { block: block.clone(), call });
        let in_parts = trace_answers(&block, &lent).1;
        let at_once = trace_answers(&block, &whole.collect::<Vec<_>>()).1;
        checks.equal("traces closed", in_parts.last(), at_once.last());
        checks.equal("traces' numbers", written(&in_parts), written(&at_once));
        if sound {
            check_closed(checks, &plan, in_parts.last());
        }
        tally(&mut seen, code, &in_parts);
    }
    check_seen(checks, &seen);
}

/// Every stop and closing of traces comes up in each code; FOUR in 8015 alone, where it
/// names a set.
fn check_seen(checks: &mut Checks, seen: &Seen) {
    for code in TRACE_CODES {
        for row in [1, 13, 15, 19, 20, 21, 23, 24, 25] {
            checks.holds(&format!("{code:04X}: {row} reached"), seen.contains(&(code, row, false)));
        }
        let four = seen.iter().any(|(of, row, named)| (*of, *row, *named) == (code, 8, true));
        checks.equal(&format!("{code:04X}: 8 reached"), four, code == 0x8015);
    }
    let stray = seen.iter().filter(|(_, row, _)| [3, 14, 16, 17, 18, 22].contains(row));
    checks.equal("rows of other bodies", stray.count(), 0);
}

pub fn check(checks: &mut Checks) {
    let each = [
        check_sound,
        check_header_bytes,
        check_turns,
        check_ends,
        check_closings,
        check_left_over,
        check_groups,
        check_four,
        check_subscans,
        check_switched,
        check_skew,
        check_no_trace,
        check_calls,
        check_listed,
        check_places,
        check_standings,
        check_made,
    ];
    each.iter().for_each(|one| one(checks));
}
