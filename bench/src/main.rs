//! Measures the compiled library's body reader beside one written by hand in Rust. `run` says how it is called.

mod answers;
mod check;
mod measure;
mod ours;
mod reader;
mod record;
mod runs;
mod samples;
mod traces;
mod words;

use record::{Plan, Record, CODES, NARROW, TRACE_CODES, WIDE};
use std::io::BufRead;

const PORTIONS: [usize; 3] = [512, 65_536, 1 << 20];

/// Bytes of a block of a gapped body, about: those of the paper's example are 261,576.
const BLOCK: u32 = 1 << 18;

/// Bytes of a body that is measured, and of one that is only compared.
const LONG_BODY: u32 = 4 << 20;
const SHORT_BODY: u32 = 80_000;

/// All codes, scans of both sizes, in blocks of about so many bytes and in one block, and then traces.
fn plans(bytes: u32, block_bytes: u32) -> Vec<Plan> {
    let mut plans = Vec::new();
    for code in CODES {
        for sets in [NARROW, WIDE] {
            for block_bytes in [block_bytes, 0] {
                plans.push(Plan { code, sets, traces: false, block_bytes, bytes });
            }
        }
    }
    for code in TRACE_CODES {
        for sets in [NARROW, WIDE] {
            plans.push(Plan { code, sets, traces: true, block_bytes: 0, bytes });
        }
    }
    plans
}

/// Both figures of a plan's record, ours first, for each portion.
struct Row {
    plan: Plan,
    figures: Vec<[f64; 2]>,
}

/// Prints a table: a row for each plan, and in it for each portion both figures and their ratio.
fn table(unit: &str, mut figures: impl FnMut(&Record, usize) -> [f64; 2]) -> Vec<Row> {
    println!("{unit} a byte of input: ours, Rust's, and ours by Rust's");
    println!("| code | B | body | 512 B | | | 64 KiB | | | 1 MiB | | |");
    println!("|---|---|---|---|---|---|---|---|---|---|---|---|");
    let mut rows = Vec::new();
    for plan in plans(LONG_BODY, BLOCK) {
        let record = plan.record(1);
        let form = match plan.block_bytes {
            _ if plan.traces => format!("{} traces", record.ends.len()),
            0 => "one block".to_string(),
            _ => "gapped".to_string(),
        };
        let figures: Vec<_> = PORTIONS.iter().map(|portion| figures(&record, *portion)).collect();
        print!("| {:04X} | {} | {form} |", plan.tape_code(), plan.scan());
        for [ours, theirs] in &figures {
            print!(" {ours:.2} | {theirs:.2} | {:.2} |", ours / theirs);
        }
        println!();
        rows.push(Row { plan, figures });
    }
    rows
}

/// A reader's figure for a sample and for the rest of a scan, from two scan lengths in portions of 64 KiB.
fn apart(narrow: &Row, wide: &Row, reader: usize) -> (f64, f64) {
    let scan = |row: &Row| row.figures[1][reader] * f64::from(row.plan.scan());
    let samples = |row: &Row| f64::from(row.plan.samples());
    let sample = (scan(wide) - scan(narrow)) / (samples(wide) - samples(narrow));
    (sample, scan(narrow) - sample * samples(narrow))
}

/// Prints a second table, of one-block bodies: what a sample takes and what the rest of a scan does.
fn taken_apart(rows: &[Row]) {
    println!("\ninstructions of a sample and of the rest of a scan");
    println!("| code | a sample: ours | Rust | the rest of a scan: ours | Rust |");
    println!("|---|---|---|---|---|");
    let of_scans = rows.iter().filter(|row| !row.plan.traces);
    let whole: Vec<_> = of_scans.filter(|row| row.plan.block_bytes == 0).collect();
    for pair in whole.chunks(2) {
        let (ours, our_rest) = apart(pair[0], pair[1], 0);
        let (theirs, their_rest) = apart(pair[0], pair[1], 1);
        let code = pair[0].plan.tape_code();
        println!("| {code:04X} | {ours:.1} | {theirs:.1} | {our_rest:.0} | {their_rest:.0} |");
    }
}

/// Compares both readers, and says in the last line how often they agreed.
fn check() -> bool {
    let (mut passed, mut failed) = (0, 0);
    for plan in plans(SHORT_BODY, SHORT_BODY / 3) {
        let (same, other) = check::compare(plan);
        passed += same;
        failed += other;
    }
    println!("{passed} passed, {failed} failed");
    failed == 0
}

/// Prints the table of times.
fn time() {
    table("nanoseconds", measure::time);
}

/// The counts on standard input, one to a line, in the order of `once`.
fn counted() {
    let mut counts = std::io::stdin().lock().lines().map(|line| {
        line.expect("standard input is read").trim().parse::<f64>().expect("a line is a count")
    });
    let rows = table("instructions", |record, _| {
        let mut next =
            || counts.next().expect("a count for each figure") / record.body.len() as f64;
        [next(), next()]
    });
    taken_apart(&rows);
}

fn main() {
    let word = std::env::args().nth(1).unwrap_or_default();
    match word.as_str() {
        "check" => std::process::exit(if check() { 0 } else { 1 }),
        "time" => time(),
        "once" => {
            for plan in plans(LONG_BODY, BLOCK) {
                let record = plan.record(1);
                PORTIONS.iter().for_each(|portion| measure::once(&record, *portion));
            }
        }
        "counted" => counted(),
        _ => panic!("one of check, time, once, counted"),
    }
}
