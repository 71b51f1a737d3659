//! The header block.

use super::{unfold, Told};
use crate::reader::header::{Descriptor, Header};
use crate::reader::Refusal;

#[repr(C)]
struct SegdPair {
    found: u8,
    value: u8,
}

#[repr(C)]
#[derive(Clone, Copy, Default, PartialEq)]
struct FlatHeader {
    file: u16,
    code: u16,
    year: u8,
    day: u16,
    hour: u8,
    minute: u8,
    second: u8,
    manufacturer: u8,
    serial: u16,
    bytes_per_scan: u32,
    interval: u8,
    polarity: u8,
    block_exponent: u8,
    block_scans: u8,
    record_type: u8,
    record_length: u16,
    scan_types: u8,
    channel_sets: u8,
    skew_fields: u8,
    extended_fields: u8,
    external_fields: u8,
    samples_per_scan: u32,
}

#[repr(C)]
struct SegdHeader {
    refusal: Told,
    header: FlatHeader,
}

#[repr(C)]
#[derive(Clone, Copy, Default, PartialEq)]
struct FlatSet {
    start: u16,
    end: u16,
    descale: i32,
    channels: u16,
    channel_type: u8,
    subscan_exponent: u8,
    gain: u8,
    alias_frequency: u16,
    alias_slope: u16,
    low_cut: u16,
    low_cut_slope: u16,
    first_notch: u16,
    second_notch: u16,
    third_notch: u16,
}

#[repr(C)]
struct SegdChannelSet {
    refusal: Told,
    set: FlatSet,
}

extern "C" {
    fn segd_packed(byte: u8) -> SegdPair;
    fn segd_read_header(block: *const u8, length: usize) -> SegdHeader;
    fn segd_descriptor(block: *const u8, length: usize, scan_type: u32, set: u32)
        -> SegdChannelSet;
}

/// 1 and the pair's number, or 0 and 0.
pub fn packed(byte: u8) -> (u8, u8) {
    let pair = unsafe { segd_packed(byte) };
    (pair.found, pair.value)
}

/// The library hands the constants out as a part of the block and not as a
/// field, so here they are 0.
fn header_fields(flat: FlatHeader) -> Header {
    Header {
        file: flat.file.into(),
        code: flat.code,
        constants: [0; 6],
        year: flat.year.into(),
        day: flat.day.into(),
        hour: flat.hour.into(),
        minute: flat.minute.into(),
        second: flat.second.into(),
        manufacturer: flat.manufacturer.into(),
        serial: flat.serial.into(),
        bytes_per_scan: flat.bytes_per_scan,
        interval: flat.interval.into(),
        polarity: flat.polarity.into(),
        block_exponent: flat.block_exponent.into(),
        block_scans: flat.block_scans.into(),
        record_type: flat.record_type.into(),
        r1: (flat.record_length / 100).into(),
        r2: (flat.record_length / 10 % 10).into(),
        r3: (flat.record_length % 10).into(),
        scan_types: flat.scan_types.into(),
        sets: flat.channel_sets.into(),
        skew_fields: flat.skew_fields.into(),
        extended_fields: flat.extended_fields.into(),
        external_fields: flat.external_fields.into(),
        samples_per_scan: flat.samples_per_scan,
    }
}

pub fn read_header(block: &[u8]) -> Result<Header, Refusal> {
    let flat = unsafe { segd_read_header(block.as_ptr(), block.len()) };
    unfold(flat.refusal, flat.header, |fields| Some(header_fields(fields)))
}

/// The library does not repeat the scan type and the set that it was asked for.
fn set_fields(flat: FlatSet, scan_type: u32, set: u32) -> Descriptor {
    Descriptor {
        scan_type,
        set,
        start: flat.start.into(),
        end: flat.end.into(),
        descale: flat.descale,
        channels: flat.channels.into(),
        channel_type: flat.channel_type.into(),
        subscan_exponent: flat.subscan_exponent.into(),
        gain: flat.gain.into(),
        alias_frequency: flat.alias_frequency.into(),
        alias_slope: flat.alias_slope.into(),
        low_cut: flat.low_cut.into(),
        low_cut_slope: flat.low_cut_slope.into(),
        notches: [flat.first_notch, flat.second_notch, flat.third_notch].map(u32::from),
    }
}

pub fn descriptor(block: &[u8], scan_type: u32, set: u32) -> Result<Descriptor, Refusal> {
    let flat = unsafe { segd_descriptor(block.as_ptr(), block.len(), scan_type, set) };
    unfold(flat.refusal, flat.set, |fields| Some(set_fields(fields, scan_type, set)))
}
