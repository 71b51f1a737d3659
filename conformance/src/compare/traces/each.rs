//! What is not left to the draw: each byte of a trace header with each value, and traces
//! of each length.

use super::{ask_each, lend_all, ours};
use crate::compare::body::refusal_in;
use crate::compare::inputs::hex;
use crate::compare::{Effort, Group, Results};
use crate::make::headers::{header, plain, set, Plan};
use crate::make::rng::Rng;
use crate::make::traces::{even_traces, HEADER};
use crate::reader::calls::{trace_answers, Call};
use crate::reader::words::TRACE_CODES;
use crate::reader::{BLOCK, COUNT, FOUR, TRACE};

pub fn compare(results: &mut Results, effort: Effort) {
    let mut rng = Rng::new(657);
    compare_bytes(results, &mut rng, effort);
    compare_lengths(results, &mut rng, effort);
}

/// Two sets, the second of two subscans, with skew recorded or not.
fn plan(code: u16, skew: bool) -> Plan {
    let recorded = plain(code, vec![vec![set(1, 0), set(2, 1)]]);
    if skew {
        recorded
    } else {
        Plan { skew_fields: 0, ..recorded }
    }
}

fn portion(bytes: &[u8]) -> Call {
    Call::Portion { bytes: bytes.to_vec(), room: 2 * bytes.len() }
}

/// The header of the second trace, after a first one that is sound.
fn compare_bytes(results: &mut Results, rng: &mut Rng, effort: Effort) {
    let mut group = Group::new("trace headers, each byte with each value", &[0, TRACE]);
    for n in 0..12 * effort.of(1, 8) as usize {
        let code = TRACE_CODES[n / 2 % TRACE_CODES.len()];
        let plan = plan(code, n % 2 == 0);
        let block = header(rng, &plan);
        let body = even_traces(rng, &plan, &block, &[4]);
        let mut state = ours::opened_traces(&block);
        let first = lend_all(&block, &[portion(&body.blocks[0]), Call::BlockEnd]);
        first.iter().for_each(|lent| drop(ours::call(&mut state, lent)));
        let mut second = body.blocks[1][..HEADER].to_vec();
        for place in 0..HEADER {
            let kept = second[place];
            for byte in 0..=u8::MAX {
                second[place] = byte;
                let calls = [&first[..], &lend_all(&block, &[portion(&second)])].concat();
                let wanted = trace_answers(&block, &calls).1.pop().expect("three answers");
                let row = refusal_in(&wanted).map_or(0, |refusal| refusal.number.into());
                let said = ours::call(&mut { state }, &calls[2]);
                group.under(row, said, Ok(wanted), || {
                    format!("byte {} is {byte:02X} under {}", place + 1, hex(&block))
                });
            }
            second[place] = kept;
        }
        results.code(code, 256 * HEADER as u64);
    }
    results.add(group);
}

/// The longest trace that is tried, with its header.
const LONGEST: usize = HEADER + 64;

/// Each trace of a record in turn with each length, the others sound.
fn compare_lengths(results: &mut Results, rng: &mut Rng, effort: Effort) {
    let mut group = Group::new("traces of each length", &[0, FOUR, BLOCK, COUNT]);
    for n in 0..effort.of(1, 8) as usize * TRACE_CODES.len() {
        let code = TRACE_CODES[n % TRACE_CODES.len()];
        let plan = plan(code, false);
        let block = header(rng, &plan);
        let body = even_traces(rng, &plan, &block, &[4]);
        for changed in 0..body.blocks.len() {
            for length in 0..=LONGEST {
                let mut body = body.clone();
                body.blocks[changed].resize(length, 0x18);
                let calls: Vec<Call> =
                    body.blocks.iter().flat_map(|trace| [portion(trace), Call::BlockEnd]).collect();
                let calls = [&calls[..], &[Call::Close]].concat();
                let calls = lend_all(&block, &calls);
                ask_each(std::slice::from_mut(&mut group), |_| 0, &block, &calls);
            }
        }
    }
    results.add(group);
}
