//! Reel images: a version byte 1, then items, each a length of four bytes (the greatest first) and that many bytes. An item of no
//! bytes is a file mark, and two in a row end the reel.

use crate::{open, read_header, Header, Refusal, Report, Sample};

/// The longest header item that is read.
const LARGEST_HEADER: usize = 65_536;

/// The bytes of a body that are read at a time.
const PORTION: usize = 65_536;

/// How an image ends.
#[derive(Clone, Copy, Debug, PartialEq, Eq)]
pub enum Ending {
    /// By two marks.
    Whole,
    /// Before them.
    Cut,
    /// Its version is not 1, and nothing of it is read.
    OtherVersion,
}

/// A file of a reel that has an item and its mark.
#[derive(Clone, Debug)]
pub struct Record<'a> {
    /// The header item.
    pub header: &'a [u8],
    /// The blocks of the body.
    pub blocks: Vec<&'a [u8]>,
}

/// The records of an image in order, and how it ends.
pub fn records(image: &[u8]) -> (Vec<Record<'_>>, Ending) {
    let mut rest = match image.split_first() {
        None => return (Vec::new(), Ending::Cut),
        Some((1, rest)) => rest,
        Some(_) => return (Vec::new(), Ending::OtherVersion),
    };
    let (mut records, mut file, mut marked) = (Vec::new(), Vec::new(), false);
    while let Some((item, after)) = first_item(rest) {
        rest = after;
        if !item.is_empty() {
            file.push(item);
        } else if marked {
            return (records, Ending::Whole);
        } else if let Some((header, blocks)) = file.split_first() {
            records.push(Record { header, blocks: blocks.to_vec() });
            file.clear();
        }
        marked = item.is_empty();
    }
    (records, Ending::Cut)
}

/// The first item and what follows it, if all of it is there.
fn first_item(bytes: &[u8]) -> Option<(&[u8], &[u8])> {
    let (length, rest) = bytes.split_first_chunk::<4>()?;
    rest.split_at_checked(u32::from_be_bytes(*length) as usize)
}

/// A record read, up to its stop if there is one.
#[derive(Clone, Debug)]
pub struct Reading {
    /// The header's fields.
    pub header: Header,
    /// Every sample that was read, in order.
    pub samples: Vec<Sample>,
    /// The report; or why there is none, and the lister's place for it: the stop's, or the body's length.
    pub closing: Result<Report, (Refusal, usize)>,
}

impl Record<'_> {
    /// Reads the record.
    ///
    /// Refuses [`Refusal::Large`] where the header item is above 65,536 bytes, then as [`crate::read_header`] does.
    pub fn read(&self) -> Result<Reading, Refusal> {
        if self.header.len() > LARGEST_HEADER {
            return Err(Refusal::Large);
        }
        let header = read_header(self.header)?;
        let mut body = open(self.header)?;
        let (mut samples, mut count) = (Vec::new(), 0);
        for block in &self.blocks {
            for portion in block.chunks(PORTION) {
                samples.resize(count + portion.len(), Sample::default());
                count += body.portion(portion, &mut samples[count..])?.samples;
            }
            // A stop is told again at the closing.
            let _ = body.block_end();
        }
        samples.truncate(count);
        let length = self.blocks.iter().map(|block| block.len()).sum();
        let place = |refusal: Refusal| refusal.place().map_or(length, |place| place as usize);
        let closing = body.close().map_err(|refusal| (refusal, place(refusal)));
        Ok(Reading { header, samples, closing })
    }
}

/// A record's line as the lister prints it, after the record number.
pub fn line(read: &Result<Reading, Refusal>) -> String {
    let refused = |refusal: Refusal, place| format!("refused {} at {place}", refusal.number());
    match read {
        Err(refusal) => refused(*refusal, 0),
        Ok(Reading { closing: Err((refusal, place)), .. }) => refused(*refusal, *place),
        Ok(Reading { header, closing: Ok(report), .. }) => format!(
            "file {:04} format {:04X} scans {} samples {} off {}",
            header.file, header.code, report.scans, report.samples, report.off
        ),
    }
}
