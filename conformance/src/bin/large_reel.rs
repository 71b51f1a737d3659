//! Writes an image of at least so many bytes, and the listing that it must have.
//!
//! The image is one run of records over and over: of each code a shot of 90 s in
//! one block, and one in blocks of 692 scans. The reader lists the run; where it
//! comes again only the record numbers go on.

use conformance::make::images::{file, reel, File};
use conformance::make::records::{large_blocks, long_shot};
use conformance::make::rng::Rng;
use conformance::reader::image::list;
use conformance::reader::words::CODES;
use std::fs::File as Output;
use std::io::{Result, Write};

const CHANNELS: u32 = 24;
const BLOCKS: usize = 8;

fn run_of_records() -> Vec<File> {
    let mut rng = Rng::new(801);
    let both = CODES.map(|code| {
        [long_shot(&mut rng, code, CHANNELS), large_blocks(&mut rng, code, BLOCKS)].map(file)
    });
    both.concat()
}

/// The image of a reel without its version and its last mark.
fn files_alone(image: &[u8]) -> &[u8] {
    &image[1..image.len() - 4]
}

fn write_image(name: &str, image: &[u8], times: usize) -> Result<()> {
    let (mut output, files) = (Output::create(name)?, files_alone(image));
    output.write_all(&image[..1])?;
    for _ in 0..times {
        output.write_all(files)?;
    }
    output.write_all(&[0; 4])
}

/// The lines of the run as often as it comes, numbered on.
fn write_listing(name: &str, listing: &str, times: usize) -> Result<()> {
    let mut output = Output::create(name)?;
    let (records, last) = listing.split_at(listing.len() - "reel ok\n".len());
    let lines = std::iter::repeat_n(records, times).flat_map(str::lines);
    for (number, line) in (1..).zip(lines) {
        let (_, said) = line.split_once(' ').expect("a line begins with its number");
        writeln!(output, "{number} {said}")?;
    }
    output.write_all(last.as_bytes())
}

fn main() -> Result<()> {
    let words: Vec<String> = std::env::args().skip(1).collect();
    let [least, image_name, listing_name] = &words[..] else {
        eprintln!("large_reel BYTES IMAGE LISTING");
        std::process::exit(2);
    };
    let least: usize = least.parse().expect("BYTES is a number");
    let image = reel(&run_of_records());
    let times = least.div_ceil(files_alone(&image).len());
    write_image(image_name, &image, times)?;
    write_listing(listing_name, &list(&image), times)
}
