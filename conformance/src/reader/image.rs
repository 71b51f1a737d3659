//! The lister's text for a whole reel image.

use super::body::{open, Body, Kind, Report};
use super::header::read_header;
use super::scans::read_scans;
use super::traces::read_traces;
use super::{refusal, Refusal, LARGE};

/// The longest header item that is read.
pub const LARGEST_HEADER: usize = 65_536;

/// The items up to two marks in a row, a mark being an empty item; and whether
/// those two marks came.
fn items(mut input: &[u8]) -> (Vec<&[u8]>, bool) {
    let mut items: Vec<&[u8]> = Vec::new();
    while let Some((item, rest)) = item(input) {
        let second_mark = item.is_empty() && items.last().is_some_and(|last| last.is_empty());
        items.push(item);
        if second_mark {
            return (items, true);
        }
        input = rest;
    }
    (items, false)
}

/// The first item and what follows it, if it is all there.
fn item(input: &[u8]) -> Option<(&[u8], &[u8])> {
    let (length, rest) = input.split_first_chunk::<4>()?;
    rest.split_at_checked(u32::from_be_bytes(*length) as usize)
}

/// The files that have an item and their mark.
fn files<'a>(items: &'a [&'a [u8]]) -> Vec<&'a [&'a [u8]]> {
    let marked = items.iter().rposition(|item| item.is_empty()).unwrap_or(0);
    let runs = items[..marked].split(|item| item.is_empty());
    runs.filter(|run| !run.is_empty()).collect()
}

/// A file's closing report, or its refusal and the place that goes with it.
fn judge(file: &[&[u8]]) -> Result<Report, (Refusal, u64)> {
    let (block, blocks) = (file[0], &file[1..]);
    if block.len() > LARGEST_HEADER {
        return Err((refusal(LARGE), 0));
    }
    let body = Body { blocks: blocks.iter().map(|b| b.to_vec()).collect(), rest: Vec::new() };
    let reading = open(block).and_then(|kind| match kind {
        Kind::Scans => read_scans(block, &body),
        Kind::Traces => read_traces(block, &body),
    });
    let reading = reading.map_err(|refusal| (refusal, 0))?;
    let length = blocks.iter().map(|b| b.len() as u64).sum();
    let place = reading.stop.map_or(length, |stop| stop.place.into());
    reading.closing.map_err(|refusal| (refusal, place))
}

/// A file's line, without its end.
fn line(record: u64, file: &[&[u8]]) -> String {
    match judge(file) {
        Err((refusal, place)) => format!("{record} refused {} at {place}", refusal.number),
        Ok(report) => {
            let header = read_header(file[0]).expect("the body was read under it");
            format!(
                "{record} file {:04} format {:04X} scans {} samples {} off {}",
                header.file, header.code, report.scans, report.samples, report.off
            )
        }
    }
}

/// The whole text for an image.
pub fn list(image: &[u8]) -> String {
    let Some((version, rest)) = image.split_first() else {
        return "reel cut\n".to_string();
    };
    if *version != 1 {
        return "reel version\n".to_string();
    }
    let (items, ended) = items(rest);
    let lines = files(&items).into_iter().zip(1..).map(|(file, n)| line(n, file) + "\n");
    lines.collect::<String>() + if ended { "reel ok\n" } else { "reel cut\n" }
}
