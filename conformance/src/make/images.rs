//! Reel images.

use super::bodies::{damaged_body, sound_body};
use super::headers::{any_code, any_trace_code, damaged_header, header};
use super::headers::{largest_plan, small_plan, trace_plan, wide_plan};
use super::records::Record;
use super::rng::Rng;
use super::traces::{damaged_traces, sound_traces};

/// A file of a reel: its header item, then its blocks. None may be empty.
pub type File = Vec<Vec<u8>>;

/// An item with its length before it.
fn item(bytes: &[u8]) -> Vec<u8> {
    [&(bytes.len() as u32).to_be_bytes(), bytes].concat()
}

/// The items of a whole reel, a mark being an empty one: files with a mark after
/// each, and one more mark.
fn items(files: &[File]) -> Vec<Vec<u8>> {
    let mark = Vec::new;
    let marked = files.iter().flat_map(|file| file.iter().cloned().chain([mark()]));
    marked.chain([mark()]).collect()
}

/// The image of these items: the version first.
fn image(items: &[Vec<u8>]) -> Vec<u8> {
    let mut image = vec![1];
    items.iter().for_each(|bytes| image.extend(item(bytes)));
    image
}

/// The image of a whole reel.
pub fn reel(files: &[File]) -> Vec<u8> {
    image(&items(files))
}

/// A record as a file.
pub fn file((block, body): Record) -> File {
    let parts = [block].into_iter().chain(body.blocks).chain([body.rest]);
    parts.filter(|bytes| !bytes.is_empty()).collect()
}

/// A file of a demultiplexed record, sound or damaged; its header is at times the
/// longest that is listed.
fn trace_file(rng: &mut Rng) -> File {
    let code = any_trace_code(rng);
    let plan = if rng.once_in(40) { largest_plan(rng, code) } else { trace_plan(rng, code) };
    let block = header(rng, &plan);
    let make = if rng.once_in(2) { sound_traces } else { damaged_traces };
    let body = make(rng, &plan, &block);
    let lent = if rng.once_in(12) { damaged_header(rng, &plan) } else { block };
    file((lent, body))
}

/// A file that may be sound, damaged or too large, of scans or of traces; at times the
/// header announces the other of them.
pub fn any_file(rng: &mut Rng) -> File {
    if rng.once_in(3) {
        return trace_file(rng);
    }
    let code = any_code(rng);
    let plan = if rng.once_in(40) { largest_plan(rng, code) } else { small_plan(rng, code) };
    let body = if rng.once_in(2) { sound_body(rng, &plan) } else { damaged_body(rng, &plan) };
    let block = match rng.below(40) {
        0 | 1 => vec![0; rng.range(65_535, 65_537) as usize],
        2 => {
            let wide = wide_plan(rng, code);
            header(rng, &wide)
        }
        3..=8 => damaged_header(rng, &plan),
        9 => {
            let code = any_trace_code(rng);
            let traces = small_plan(rng, code);
            header(rng, &traces)
        }
        _ => header(rng, &plan),
    };
    file((block, body))
}

/// Mostly a few files, at times so many that their numbers have two digits.
fn any_files(rng: &mut Rng) -> Vec<File> {
    let count = if rng.once_in(20) { rng.range(9, 12) } else { rng.range(0, 3) };
    (0..count).map(|_| any_file(rng)).collect()
}

/// Puts a mark in or leaves one out: a file is cut in two, two become one, or the
/// reel ends elsewhere.
fn misplace_mark(rng: &mut Rng, items: &mut Vec<Vec<u8>>) {
    let marks: Vec<usize> = (0..items.len()).filter(|i| items[*i].is_empty()).collect();
    if rng.once_in(2) {
        items.insert(rng.index(items.len() + 1), Vec::new());
    } else {
        items.remove(rng.pick(&marks));
    }
}

/// Changes the length before some item.
fn spoil_length(rng: &mut Rng, items: &[Vec<u8>], image: &mut [u8]) {
    let before = &items[..rng.index(items.len())];
    let place = 1 + before.iter().map(|bytes| 4 + bytes.len()).sum::<usize>() + rng.index(4);
    image[place] = match rng.below(3) {
        0 => image[place].wrapping_add(1),
        1 => image[place].wrapping_sub(1),
        _ => rng.byte(),
    };
}

/// Ends the image anywhere, or within its last two marks.
fn cut_short(rng: &mut Rng, image: &mut Vec<u8>) {
    let from = if rng.once_in(2) { 0 } else { image.len().saturating_sub(9) };
    image.truncate(from + rng.index(image.len() - from));
}

/// A reel of some files, at times cut, followed by more, of another version, or
/// with its marks or lengths out of place.
pub fn any_reel(rng: &mut Rng) -> Vec<u8> {
    let mut items = items(&any_files(rng));
    let damage = rng.below(10);
    if damage < 2 {
        misplace_mark(rng, &mut items);
    }
    let mut image = image(&items);
    match damage {
        2 => spoil_length(rng, &items, &mut image),
        3 => cut_short(rng, &mut image),
        4 => image.extend(rng.bytes(9)),
        5 => image[0] = rng.byte(),
        _ => {}
    }
    image
}

/// The longest portion that an image is cut into: all that one read of the lister
/// takes.
pub const LONGEST_PORTION: usize = 65_536;

/// An image cut at random. Long ones are not cut into very short portions, which
/// takes too long.
pub fn in_portions<'a>(rng: &mut Rng, mut image: &'a [u8]) -> Vec<&'a [u8]> {
    let lengths = [LONGEST_PORTION, 300, 7, 1];
    let most = rng.pick(if image.len() > 8_192 { &lengths[..2] } else { &lengths });
    let mut portions = Vec::new();
    while !image.is_empty() {
        let (portion, rest) = image.split_at(1 + rng.index(most.min(image.len())));
        portions.push(portion);
        image = rest;
    }
    portions
}
