//! Counts of what a run covered.

use crate::reader::Refusal;
use std::collections::BTreeMap;
use std::fmt;

/// How often each refusal and each format code came up.
#[derive(Clone, Debug, Default)]
pub struct Tally {
    pub refusals: BTreeMap<u8, u64>,
    pub codes: BTreeMap<u16, u64>,
}

impl Tally {
    pub fn refusal(&mut self, refusal: &Refusal) {
        *self.refusals.entry(refusal.number).or_default() += 1;
    }

    /// Counts the refusal of an answer that may be one.
    pub fn answer<T>(&mut self, answer: &Result<T, Refusal>) {
        if let Err(refusal) = answer {
            self.refusal(refusal);
        }
    }

    pub fn code(&mut self, code: u16) {
        *self.codes.entry(code).or_default() += 1;
    }

    pub fn seen(&self, refusal: u8) -> bool {
        self.refusals.contains_key(&refusal)
    }
}

impl fmt::Display for Tally {
    fn fmt(&self, out: &mut fmt::Formatter<'_>) -> fmt::Result {
        for (code, count) in &self.codes {
            writeln!(out, "code {code:04X}: {count}")?;
        }
        for (number, count) in &self.refusals {
            writeln!(out, "refusal {number}: {count}")?;
        }
        Ok(())
    }
}
