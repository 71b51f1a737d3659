//! The header block and its channel sets.

use crate::{ffi, Refusal};

/// What an accepted header says.
#[repr(C)]
#[derive(Clone, Copy, Debug, PartialEq, Eq)]
pub struct Header {
    /// The file number.
    pub file: u16,
    /// The format code as the tape has it, such as 0x0022.
    pub code: u16,
    /// The last two digits of the year.
    pub year: u8,
    /// 1 to 366.
    pub day: u16,
    /// 0 to 23.
    pub hour: u8,
    /// 0 to 59.
    pub minute: u8,
    /// 0 to 59.
    pub second: u8,
    /// The manufacturer's code.
    pub manufacturer: u8,
    /// The manufacturer's serial number.
    pub serial: u16,
    /// B, the bytes of each scan; 0 in the codes 80xx.
    pub bytes_per_scan: u32,
    /// I, the base scan interval in 1/16 ms.
    pub interval: u8,
    /// The polarity's half byte.
    pub polarity: u8,
    /// S/BX.
    pub block_exponent: u8,
    /// S/B. A block has S/B x 2^S/BX scans; where S/B is 0 the body is one block.
    pub block_scans: u8,
    /// The record type's half byte.
    pub record_type: u8,
    /// R1, R2 and R3, as one number of three digits.
    pub record_length: u16,
    /// ST/R, the scan types of the record.
    pub scan_types: u8,
    /// CS, the channel sets of each scan type.
    pub channel_sets: u8,
    /// SK, the skew fields of 32 bytes of each scan type.
    pub skew_fields: u8,
    /// EC, the fields of 32 bytes of the extended header.
    pub extended_fields: u8,
    /// EX, the fields of 32 bytes of the external header.
    pub external_fields: u8,
    /// S/S, the samples of each scan.
    pub samples_per_scan: u32,
}

/// What an accepted header says of one channel set.
#[repr(C)]
#[derive(Clone, Copy, Debug, PartialEq, Eq)]
pub struct ChannelSet {
    /// The set's first time, in 2 ms.
    pub start: u16,
    /// The set's last time, in 2 ms.
    pub end: u16,
    /// MP: a sample is descaled by 2^(MP/4).
    pub descale: i32,
    /// How many channels; 0 is a dummy set.
    pub channels: u16,
    /// The channel type's half byte.
    pub channel_type: u8,
    /// S/C: each channel has 2^(S/C) samples in a scan.
    pub subscan_exponent: u8,
    /// The gain code's half byte.
    pub gain: u8,
    /// In Hz.
    pub alias_frequency: u16,
    /// In dB per octave.
    pub alias_slope: u16,
    /// In Hz.
    pub low_cut: u16,
    /// In dB per octave.
    pub low_cut_slope: u16,
    /// As its four digits stand.
    pub first_notch: u16,
    /// As its four digits stand.
    pub second_notch: u16,
    /// As its four digits stand.
    pub third_notch: u16,
}

impl ChannelSet {
    /// The samples of each channel in a scan, 2^(S/C).
    pub fn subscans(&self) -> u32 {
        1 << self.subscan_exponent
    }

    /// The factor 2^(MP/4) that brings the set's samples to millivolts.
    pub fn factor(&self) -> f64 {
        (f64::from(self.descale) / 4.0).exp2()
    }
}

/// A packed digit pair's number, or `None` where a half of the byte is no digit.
///
/// ```
/// assert_eq!(segd::packed(0x99), Some(99));
/// assert_eq!(segd::packed(0x9A), None);
/// ```
pub fn packed(byte: u8) -> Option<u8> {
    let pair = ffi::packed(byte);
    (pair.found == 1).then_some(pair.value)
}

/// The fields of a header block.
///
/// Refuses by rows 1 to 10 without 3, from [`Refusal::Short`] to [`Refusal::Skew`]; so does whatever else takes a block, before its own refusals.
pub fn read_header(block: &[u8]) -> Result<Header, Refusal> {
    let read = ffi::read_header(block);
    read.refusal.or(read.header)
}

/// The fields of a channel set; scan types and sets count from 1.
///
/// Refuses as [`read_header`] does, and [`Refusal::Index`] where there is no such set.
pub fn descriptor(block: &[u8], scan_type: u32, set: u32) -> Result<ChannelSet, Refusal> {
    let described = ffi::descriptor(block, scan_type, set);
    described.refusal.or(described.set)
}
