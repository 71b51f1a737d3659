//! The header block: the general header and the channel set descriptors.
//!
//! Bytes are numbered from 1 here, as the description numbers them.

use super::words::{check_code, is_demultiplexed};
use super::{demand, refusal_with, Refusal};
use super::{DESCRIPTOR, DIGIT, FOUR, INDEX, LENGTH, RANGE, SHORT, SIZE, SKEW};

/// What the general header says, and the samples per scan that follow from the
/// descriptors.
#[derive(Clone, Debug, PartialEq, Eq)]
pub struct Header {
    pub file: u32,
    pub code: u16,
    pub constants: [u8; 6],
    pub year: u32,
    pub day: u32,
    pub hour: u32,
    pub minute: u32,
    pub second: u32,
    pub manufacturer: u32,
    pub serial: u32,
    /// B; 0 in the codes 80xx
    pub bytes_per_scan: u32,
    /// I, in 1/16 ms
    pub interval: u32,
    pub polarity: u32,
    /// S/BX
    pub block_exponent: u32,
    /// S/B
    pub block_scans: u32,
    pub record_type: u32,
    pub r1: u32,
    pub r2: u32,
    pub r3: u32,
    /// ST/R
    pub scan_types: u32,
    /// CS
    pub sets: u32,
    /// SK
    pub skew_fields: u32,
    /// EC
    pub extended_fields: u32,
    /// EX
    pub external_fields: u32,
    /// S/S
    pub samples_per_scan: u32,
}

/// What one channel set descriptor says.
#[derive(Clone, Debug, PartialEq, Eq)]
pub struct Descriptor {
    pub scan_type: u32,
    pub set: u32,
    /// in steps of 2 ms
    pub start: u32,
    /// in steps of 2 ms
    pub end: u32,
    /// MP in quarters
    pub descale: i32,
    pub channels: u32,
    pub channel_type: u32,
    /// S/C
    pub subscan_exponent: u32,
    pub gain: u32,
    pub alias_frequency: u32,
    pub alias_slope: u32,
    pub low_cut: u32,
    pub low_cut_slope: u32,
    pub notches: [u32; 3],
}

fn upper(byte: u8) -> u8 {
    byte / 16
}

fn lower(byte: u8) -> u8 {
    byte % 16
}

/// A packed pair is ten times the upper half plus the lower, if both are digits.
pub fn packed(byte: u8) -> Option<u8> {
    let digits = upper(byte) <= 9 && lower(byte) <= 9;
    digits.then(|| upper(byte) * 10 + lower(byte))
}

/// Byte `n`, counting from 1.
fn at(bytes: &[u8], n: usize) -> u8 {
    bytes[n - 1]
}

/// Bytes `first` to `last` as one decimal number. Halves above 9 are the
/// caller's to rule out.
fn decimal(bytes: &[u8], first: usize, last: usize) -> u32 {
    (first..=last).fold(0, |number, n| {
        number * 100 + u32::from(upper(at(bytes, n))) * 10 + u32::from(lower(at(bytes, n)))
    })
}

/// Bytes `first` and the one after it as a binary number.
fn binary(bytes: &[u8], first: usize) -> u32 {
    u32::from(at(bytes, first)) * 256 + u32::from(at(bytes, first + 1))
}

/// All the halves that row 4 lists are digits.
fn digits_sound(block: &[u8]) -> bool {
    let whole = [1, 2, 11].into_iter().chain(13..=22).chain(27..=32);
    let pairs = whole.into_iter().all(|n| packed(at(block, n)).is_some());
    pairs && lower(at(block, 12)) <= 9 && lower(at(block, 26)) <= 9
}

/// The general header's fields, taken as they stand.
fn general(block: &[u8]) -> Header {
    Header {
        file: decimal(block, 1, 2),
        code: binary(block, 3) as u16,
        constants: std::array::from_fn(|i| at(block, 5 + i)),
        year: decimal(block, 11, 11),
        day: decimal(block, 12, 13),
        hour: decimal(block, 14, 14),
        minute: decimal(block, 15, 15),
        second: decimal(block, 16, 16),
        manufacturer: decimal(block, 17, 17),
        serial: decimal(block, 18, 19),
        bytes_per_scan: decimal(block, 20, 22),
        interval: at(block, 23).into(),
        polarity: upper(at(block, 24)).into(),
        block_exponent: lower(at(block, 24)).into(),
        block_scans: at(block, 25).into(),
        record_type: upper(at(block, 26)).into(),
        r1: lower(at(block, 26)).into(),
        r2: upper(at(block, 27)).into(),
        r3: lower(at(block, 27)).into(),
        scan_types: decimal(block, 28, 28),
        sets: decimal(block, 29, 29),
        skew_fields: decimal(block, 30, 30),
        extended_fields: decimal(block, 31, 31),
        external_fields: decimal(block, 32, 32),
        samples_per_scan: 0,
    }
}

/// B is from 1 on; a record that is kept trace by trace has no scans on tape, and
/// records B as 0.
fn scan_bytes_sound(header: &Header) -> bool {
    (header.bytes_per_scan == 0) == is_demultiplexed(header.code)
}

/// The values that digits alone do not keep in range. A day whose first half is
/// not zero is out of range whatever it comes to.
fn ranges_sound(block: &[u8], header: &Header) -> bool {
    upper(at(block, 12)) == 0
        && (1..=366).contains(&header.day)
        && header.hour <= 23
        && header.minute <= 59
        && header.second <= 59
        && scan_bytes_sound(header)
        && [1, 2, 4, 8, 16, 32, 64, 128].contains(&header.interval)
        && header.scan_types >= 1
        && header.sets >= 1
}

/// Formula E4.
pub fn header_length(header: &Header) -> usize {
    let fields = header.scan_types * (header.sets + header.skew_fields)
        + 1
        + header.extended_fields
        + header.external_fields;
    32 * fields as usize
}

/// Where a scan type's descriptors start in the block, from 0.
pub fn scan_type_offset(header: &Header, scan_type: u32) -> usize {
    32 + 32 * ((scan_type - 1) * (header.sets + header.skew_fields)) as usize
}

/// The 32 bytes of one descriptor, by its place (E6).
fn descriptor_bytes<'a>(block: &'a [u8], header: &Header, scan_type: u32, set: u32) -> &'a [u8] {
    let offset = scan_type_offset(header, scan_type) + 32 * (set - 1) as usize;
    &block[offset..offset + 32]
}

/// Every rule of a descriptor but the divisibility by four.
fn descriptor_sound(bytes: &[u8], scan_type: u32, set: u32) -> bool {
    let mut pairs = [1, 2, 9, 10].into_iter().chain(13..=26);
    pairs.all(|n| packed(at(bytes, n)).is_some())
        && decimal(bytes, 1, 1) == scan_type
        && decimal(bytes, 2, 2) == set
        && lower(at(bytes, 11)) == 0
        && upper(at(bytes, 12)) <= 9
        && upper(at(bytes, 15)) == 0
        && upper(at(bytes, 19)) == 0
}

/// MP: the first bit is the sign, the other seven the number of quarters.
fn quarters(byte: u8) -> i32 {
    let magnitude = i32::from(byte % 128);
    if byte >= 128 {
        -magnitude
    } else {
        magnitude
    }
}

/// A sound descriptor's fields.
fn describe(bytes: &[u8]) -> Descriptor {
    Descriptor {
        scan_type: decimal(bytes, 1, 1),
        set: decimal(bytes, 2, 2),
        start: binary(bytes, 3),
        end: binary(bytes, 5),
        descale: quarters(at(bytes, 8)),
        channels: decimal(bytes, 9, 10),
        channel_type: upper(at(bytes, 11)).into(),
        subscan_exponent: upper(at(bytes, 12)).into(),
        gain: lower(at(bytes, 12)).into(),
        alias_frequency: decimal(bytes, 13, 14),
        alias_slope: decimal(bytes, 15, 16),
        low_cut: decimal(bytes, 17, 18),
        low_cut_slope: decimal(bytes, 19, 20),
        notches: [decimal(bytes, 21, 22), decimal(bytes, 23, 24), decimal(bytes, 25, 26)],
    }
}

/// One descriptor: its own rules first, then the division by four of 0015. In
/// 8015 four samples of one channel stand together, so that nothing is asked of
/// the channels.
fn check_descriptor(
    block: &[u8],
    header: &Header,
    scan_type: u32,
    set: u32,
) -> Result<(), Refusal> {
    let bytes = descriptor_bytes(block, header, scan_type, set);
    if !descriptor_sound(bytes, scan_type, set) {
        return Err(refusal_with(DESCRIPTOR, &[scan_type, set]));
    }
    if header.code == 0x0015 && !describe(bytes).channels.is_multiple_of(4) {
        return Err(refusal_with(FOUR, &[scan_type, set]));
    }
    Ok(())
}

/// Every descriptor in the order of its place.
fn check_descriptors(block: &[u8], header: &Header) -> Result<(), Refusal> {
    for scan_type in 1..=header.scan_types {
        for set in 1..=header.sets {
            check_descriptor(block, header, scan_type, set)?;
        }
    }
    Ok(())
}

/// A scan type's descriptors, in order, of a block whose descriptors are sound.
pub fn descriptors(block: &[u8], header: &Header, scan_type: u32) -> Vec<Descriptor> {
    (1..=header.sets).map(|set| describe(descriptor_bytes(block, header, scan_type, set))).collect()
}

/// The samples that a set has in one scan.
pub fn set_samples(descriptor: &Descriptor) -> u64 {
    u64::from(descriptor.channels) * 2u64.pow(descriptor.subscan_exponent)
}

/// S/S of one scan type.
fn samples(block: &[u8], header: &Header, scan_type: u32) -> u64 {
    descriptors(block, header, scan_type).iter().map(set_samples).sum()
}

/// Twice the bytes of a sample of a multiplexed code, so that 0015's two and a half
/// is whole.
fn half_bytes(code: u16) -> u64 {
    match code {
        0x0015 => 5,
        0x0022 | 0x0042 => 2,
        0x0024 | 0x0044 => 4,
        _ => 8,
    }
}

/// Formula E2 in one scan type, doubled; without bytes per scan to compare with,
/// the samples of a scan are those of scan type 1.
fn size_sound(block: &[u8], header: &Header, scan_type: u32) -> bool {
    let samples = |scan_type| samples(block, header, scan_type);
    if is_demultiplexed(header.code) {
        samples(scan_type) == samples(1)
    } else {
        2 * u64::from(header.bytes_per_scan) == 16 + samples(scan_type) * half_bytes(header.code)
    }
}

/// The size of each scan type; the first that is wrong is named.
fn check_sizes(block: &[u8], header: &Header) -> Result<(), Refusal> {
    match (1..=header.scan_types).find(|scan_type| !size_sound(block, header, *scan_type)) {
        Some(scan_type) => Err(refusal_with(SIZE, &[scan_type])),
        None => Ok(()),
    }
}

/// SK is nothing or formula E3.
fn skew_sound(header: &Header) -> bool {
    let needed = header.samples_per_scan.div_ceil(32);
    header.skew_fields == 0 || header.skew_fields == needed
}

/// The header question. The refusals are looked for in the order of the table.
pub fn read_header(block: &[u8]) -> Result<Header, Refusal> {
    demand(block.len() >= 32, SHORT)?;
    check_code(binary(block, 3) as u16)?;
    demand(digits_sound(block), DIGIT)?;
    let mut header = general(block);
    demand(ranges_sound(block, &header), RANGE)?;
    demand(block.len() == header_length(&header), LENGTH)?;
    check_descriptors(block, &header)?;
    check_sizes(block, &header)?;
    header.samples_per_scan = samples(block, &header, 1) as u32;
    demand(skew_sound(&header), SKEW)?;
    Ok(header)
}

/// INDEX unless the header has such a scan type.
pub fn check_scan_type(header: &Header, scan_type: u32) -> Result<(), Refusal> {
    demand((1..=header.scan_types).contains(&scan_type), INDEX)
}

/// The descriptor question: the header's refusals, then INDEX.
pub fn descriptor(block: &[u8], scan_type: u32, set: u32) -> Result<Descriptor, Refusal> {
    let header = read_header(block)?;
    check_scan_type(&header, scan_type)?;
    demand((1..=header.sets).contains(&set), INDEX)?;
    Ok(describe(descriptor_bytes(block, &header, scan_type, set)))
}
