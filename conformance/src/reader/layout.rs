//! Where things lie: samples in a scan, parts in the header block, and the time
//! at which a sample was taken.

use super::header::{check_scan_type, descriptors, header_length, read_header};
use super::header::{scan_type_offset, set_samples, Descriptor, Header};
use super::words::{grouped, letters};
use super::{demand, Refusal, INDEX, SHEET};

/// Which of the two lent slices a skew part belongs to.
#[derive(Clone, Copy, Debug, PartialEq, Eq)]
pub enum Source {
    Block,
    Sheet,
}

/// The number of the first sample of each set, the sets in order.
fn firsts(sets: &[Descriptor]) -> Vec<u64> {
    (0..sets.len()).map(|i| sets[..i].iter().map(set_samples).sum()).collect()
}

/// k of a sample that a scan type of these sets has: all of the earlier sets, then
/// all of the earlier subscans of this set, then the earlier channels of this subscan.
pub fn index_in(sets: &[Descriptor], set: u32, channel: u32, subscan: u32) -> u64 {
    let i = set as usize - 1;
    let inside = u64::from(subscan) * u64::from(sets[i].channels) + u64::from(channel - 1);
    firsts(sets)[i] + inside
}

/// The question for k.
pub fn sample_index(
    block: &[u8],
    scan_type: u32,
    set: u32,
    channel: u32,
    subscan: u32,
) -> Result<u32, Refusal> {
    let header = read_header(block)?;
    check_scan_type(&header, scan_type)?;
    demand((1..=header.sets).contains(&set), INDEX)?;
    let sets = descriptors(block, &header, scan_type);
    let chosen = &sets[set as usize - 1];
    demand((1..=chosen.channels).contains(&channel), INDEX)?;
    demand(subscan < 2u32.pow(chosen.subscan_exponent), INDEX)?;
    Ok(index_in(&sets, set, channel, subscan) as u32)
}

/// The set, channel and subscan whose sample is number k.
pub fn sample_place(block: &[u8], scan_type: u32, k: u32) -> Result<(u32, u32, u32), Refusal> {
    let header = sample_asked(block, scan_type, k)?;
    let sets = descriptors(block, &header, scan_type);
    let firsts = firsts(&sets);
    let holds = |i: &usize| (firsts[*i]..firsts[*i] + set_samples(&sets[*i])).contains(&k.into());
    let i = (0..sets.len()).find(holds).expect("k is below the sum over the sets");
    let inside = k - firsts[i] as u32;
    let channels = sets[i].channels;
    Ok((i as u32 + 1, inside % channels + 1, inside / channels))
}

/// The header, if it is accepted and has such a scan type and such a sample.
fn sample_asked(block: &[u8], scan_type: u32, k: u32) -> Result<Header, Refusal> {
    let header = read_header(block)?;
    check_scan_type(&header, scan_type)?;
    demand(k < header.samples_per_scan, INDEX)?;
    Ok(header)
}

/// Bytes of the word of a sample; in 0015 and 8015 without the group's exponents.
pub fn word_length(code: u16) -> u32 {
    letters(code).len() as u32 / 8
}

/// Bytes of the least run of whole samples: a word, or in 0015 and 8015 two bytes of
/// exponents and four words.
pub fn unit(code: u16) -> u64 {
    if grouped(code) {
        10
    } else {
        word_length(code).into()
    }
}

/// Where the word of sample i starts, from where the samples of a scan or of a trace
/// begin.
pub fn word_offset(code: u16, i: u64) -> u64 {
    if grouped(code) {
        unit(code) * (i / 4) + 2 + 2 * (i % 4)
    } else {
        unit(code) * i
    }
}

/// The place after the last byte of sample i's word, counted likewise.
pub fn word_end(code: u16, i: u64) -> u64 {
    word_offset(code, i) + u64::from(word_length(code))
}

/// In 0015 and 8015, the byte that holds sample i's exponent, counted likewise, and
/// whether it is the upper half. The four of a group stand in the order of the samples.
pub fn exponent_offset(code: u16, i: u64) -> Option<(u64, bool)> {
    grouped(code).then(|| (unit(code) * (i / 4) + i % 4 / 2, i.is_multiple_of(2)))
}

/// How many words are whole in the first so many bytes of samples.
pub fn whole_words(code: u16, bytes: u64) -> u64 {
    if grouped(code) {
        bytes / unit(code) * 4 + (bytes % unit(code)).saturating_sub(2) / 2
    } else {
        bytes / unit(code)
    }
}

/// Whether so many bytes of samples are whole words, or whole groups of four.
pub fn nothing_over(code: u16, bytes: u64) -> bool {
    bytes.is_multiple_of(unit(code))
}

/// Bytes of a scan before its samples.
pub const SCAN_START: u64 = 8;

/// Where the word of sample k starts in its scan, from 0.
fn word_start(code: u16, k: u32) -> u32 {
    (SCAN_START + word_offset(code, k.into())) as u32
}

/// The byte place of sample k's word in a scan and its length, as a question.
pub fn sample_bytes(block: &[u8], scan_type: u32, k: u32) -> Result<(u32, u32), Refusal> {
    let header = sample_asked(block, scan_type, k)?;
    Ok((word_start(header.code, k), word_length(header.code)))
}

/// The six unchecked bytes 5 to 10, as offset and length in the block.
pub fn constants(block: &[u8]) -> Result<(usize, usize), Refusal> {
    read_header(block)?;
    Ok((4, 6))
}

/// The extended header follows the last scan type.
pub fn extended(block: &[u8]) -> Result<(usize, usize), Refusal> {
    let header = read_header(block)?;
    let offset = scan_type_offset(&header, header.scan_types + 1);
    Ok((offset, 32 * header.extended_fields as usize))
}

/// The external header ends the block.
pub fn external(block: &[u8]) -> Result<(usize, usize), Refusal> {
    let header = read_header(block)?;
    let length = 32 * header.external_fields as usize;
    Ok((header_length(&header) - length, length))
}

/// One byte for each sample: after the scan type's descriptors if SK is not 0,
/// else out of the sheet, which then has to be as long as all scan types need.
pub fn skew_part(
    header: &Header,
    sheet: &[u8],
    scan_type: u32,
) -> Result<(Source, usize, usize), Refusal> {
    let length = header.samples_per_scan as usize;
    if header.skew_fields != 0 {
        let offset = scan_type_offset(header, scan_type) + 32 * header.sets as usize;
        return Ok((Source::Block, offset, length));
    }
    demand(sheet.len() == header.scan_types as usize * length, SHEET)?;
    Ok((Source::Sheet, (scan_type as usize - 1) * length, length))
}

/// The skew part question: header, INDEX, SHEET.
pub fn skew(block: &[u8], sheet: &[u8], scan_type: u32) -> Result<(Source, usize, usize), Refusal> {
    let header = read_header(block)?;
    check_scan_type(&header, scan_type)?;
    skew_part(&header, sheet, scan_type)
}

/// The skew byte of sample k.
pub fn skew_at(block: &[u8], sheet: &[u8], scan_type: u32, k: u32) -> Result<u8, Refusal> {
    let header = sample_asked(block, scan_type, k)?;
    let (source, offset, _) = skew_part(&header, sheet, scan_type)?;
    let lent = if source == Source::Block { block } else { sheet };
    Ok(lent[offset + k as usize])
}

/// 16 T + SS x I, in 1/4096 ms. A T of 2^24 or more is INDEX, before SHEET.
pub fn sample_time(
    block: &[u8],
    sheet: &[u8],
    scan_type: u32,
    k: u32,
    t: u32,
) -> Result<u32, Refusal> {
    let header = sample_asked(block, scan_type, k)?;
    demand(t < 1 << 24, INDEX)?;
    let skew = skew_at(block, sheet, scan_type, k)?;
    Ok(16 * t + u32::from(skew) * header.interval)
}
