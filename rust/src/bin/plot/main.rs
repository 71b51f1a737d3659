//! Draws a record of a reel image: time down, channels across.

mod area;
mod canvas;
mod chart;
mod ink;
mod options;
mod png;
mod traces;

use options::Options;
use segd::reel::{line, records};
use std::fs;

fn main() {
    if let Err(why) = run() {
        eprintln!("plot: {why}");
        std::process::exit(1);
    }
}

fn run() -> Result<(), String> {
    let options = Options::parse(std::env::args().skip(1))?;
    let image = fs::read(&options.image).map_err(|e| format!("{}: {e}", options.image))?;
    let (records, _) = records(&image);
    let record = options.record.checked_sub(1).and_then(|n| records.get(n)).ok_or_else(|| {
        let (image, asked) = (&options.image, options.record);
        format!("{image} has {} records, and no record {asked}", records.len())
    })?;
    let read = record.read();
    let told = format!("{} {}", options.record, line(&read));
    let reading = read.map_err(|_| format!("{told}: nothing to draw"))?;
    let mut traces = traces::traces(record, &reading).map_err(|refusal| refusal.to_string())?;
    traces.keep(options.from, options.to);
    if traces.all.is_empty() {
        return Err(format!("{told}: no samples to draw"));
    }
    let picture = chart::Chart::new(&options, &reading, &traces).drawn();
    fs::write(&options.out, png::png(&picture)).map_err(|e| format!("{}: {e}", options.out))?;
    println!("{told}");
    Ok(())
}
