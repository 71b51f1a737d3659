//! What the caller asks for.

use std::str::FromStr;

pub const USAGE: &str = "usage: plot IMAGE RECORD OUT.png [--wiggle | --density] [--global] [--gain X] [--from MS] [--to MS]";

#[derive(Clone, Copy, Debug, PartialEq, Eq)]
pub enum Style {
    Wiggle,
    Density,
}

#[derive(Debug, PartialEq)]
pub struct Options {
    pub image: String,
    /// The record's number as the lister counts, from 1.
    pub record: usize,
    pub out: String,
    /// `None` leaves it to the number of channels.
    pub style: Option<Style>,
    /// One level for all traces, and not each its own.
    pub global: bool,
    pub gain: f64,
    /// The times to draw, in ms.
    pub from: f64,
    pub to: f64,
}

impl Options {
    pub fn parse(mut words: impl Iterator<Item = String>) -> Result<Options, String> {
        let (Some(image), Some(record), Some(out)) = (words.next(), words.next(), words.next())
        else {
            return Err(USAGE.to_string());
        };
        let record = number(Some(record))?;
        let (style, global, gain, from, to) = (None, false, 1.0, f64::MIN, f64::MAX);
        let mut options = Options { image, record, out, style, global, gain, from, to };
        while let Some(word) = words.next() {
            match word.as_str() {
                "--wiggle" => options.style = Some(Style::Wiggle),
                "--density" => options.style = Some(Style::Density),
                "--global" => options.global = true,
                "--gain" => options.gain = number(words.next())?,
                "--from" => options.from = number(words.next())?,
                "--to" => options.to = number(words.next())?,
                _ => return Err(USAGE.to_string()),
            }
        }
        Ok(options)
    }
}

fn number<T: FromStr>(word: Option<String>) -> Result<T, String> {
    word.and_then(|word| word.parse().ok()).ok_or_else(|| USAGE.to_string())
}
