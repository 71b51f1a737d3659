//! Puts the same questions to what is compiled and to the reader.
//!
//! A module for each topic. What is compared is counted in groups; a group
//! passes if no answer in it differs and every answer it is about came up.

pub mod body;
pub mod header;
pub mod inputs;
pub mod listings;
pub mod parts;
pub mod places;
pub mod program;
pub mod skew;
pub mod traces;
pub mod words;

use crate::reader::Refusal;
use crate::tally::Tally;
use std::fmt::Debug;

/// How much to compare.
#[derive(Clone, Copy, PartialEq, Eq)]
pub enum Effort {
    /// for a run under a checker of memory or an emulator, which takes many times as long
    Brief,
    Bounded,
    Full,
}

/// How many times less a brief run draws, and the number that it does not go below.
const BRIEFER: u64 = 40;
const FEWEST: u64 = 100;

/// A brief run asks every so manieth of the questions that are asked one by one.
const STEP: usize = 7;

impl Effort {
    /// One of two numbers, or a part of the first.
    pub fn of(self, bounded: u64, full: u64) -> u64 {
        match self {
            Effort::Brief => (bounded / BRIEFER).max(bounded.min(FEWEST)),
            Effort::Bounded => bounded,
            Effort::Full => full,
        }
    }

    /// How far it is from a question to the next of many that differ in a number.
    pub fn step(self) -> usize {
        match self {
            Effort::Brief => STEP,
            Effort::Bounded | Effort::Full => 1,
        }
    }

    /// What is said of such questions where not all of them are asked.
    pub fn thinned(self) -> &'static str {
        match self {
            Effort::Brief => ", of which one in seven",
            Effort::Bounded | Effort::Full => "",
        }
    }
}

/// Differences that a group prints; the others are only counted.
const SHOWN: usize = 3;

/// Rows of what is turned away, and 0 for what is not.
const ROWS: usize = 26;

/// Answers that are compared and counted together.
#[derive(Debug)]
pub struct Group {
    name: String,
    /// the rows that have to come up at least once, 0 for an answer
    due: Vec<u8>,
    /// how often each row came up, 0 for an answer
    rows: [u64; ROWS],
    differing: u64,
    shown: Vec<String>,
}

impl Group {
    pub fn new(name: &str, due: &[u8]) -> Group {
        Group {
            name: name.to_string(),
            due: due.to_vec(),
            rows: [0; ROWS],
            differing: 0,
            shown: Vec::new(),
        }
    }

    /// Compares two answers, counted under the row that the reader gives.
    pub fn answers<T: PartialEq + Debug>(
        &mut self,
        ours: Result<T, Refusal>,
        wanted: Result<T, Refusal>,
        input: impl Fn() -> String,
    ) {
        self.under(row_of(&wanted), ours, wanted, input);
    }

    /// Compares two answers, counted under a row: those of a call that may hand
    /// out something beside its refusal.
    pub fn under<T: PartialEq + Debug>(
        &mut self,
        row: usize,
        ours: T,
        wanted: T,
        input: impl Fn() -> String,
    ) {
        self.rows[row] += 1;
        self.differ_unless(ours == wanted, || {
            format!("{}\n    compiled: {ours:?}\n    reader:   {wanted:?}", input())
        });
    }

    /// Compares two answers that cannot be refusals.
    pub fn values<T: PartialEq + Debug>(&mut self, ours: T, wanted: T, input: impl Fn() -> String) {
        self.answers(Ok(ours), Ok(wanted), input);
    }

    fn differ_unless(&mut self, same: bool, told: impl Fn() -> String) {
        if same {
            return;
        }
        self.differing += 1;
        if self.shown.len() < SHOWN {
            self.shown.push(told());
        }
    }

    fn asked(&self) -> u64 {
        self.rows.iter().sum()
    }

    fn missing(&self) -> Vec<u8> {
        self.due.iter().copied().filter(|row| self.rows[usize::from(*row)] == 0).collect()
    }

    fn passes(&self) -> bool {
        self.differing == 0 && self.asked() > 0 && self.missing().is_empty()
    }

    fn refused(&self) -> impl Iterator<Item = (usize, u64)> + '_ {
        self.rows.iter().copied().enumerate().skip(1).filter(|(_, count)| *count > 0)
    }

    fn line(&self) -> String {
        let refused: String =
            self.refused().map(|(row, count)| format!(", {count} refused {row}")).collect();
        let verdict = if self.passes() { "same" } else { "FAIL" };
        format!("{verdict}  {}: {} answered{refused}", self.name, self.rows[0])
    }

    fn print(&self) {
        println!("{}", self.line());
        if self.differing > 0 {
            println!("  {} differ", self.differing);
        }
        self.missing().iter().for_each(|row| println!("  nothing came up with {row}"));
        self.shown.iter().for_each(|told| println!("  {told}"));
    }
}

/// 0 for an answer, else the number of its row.
fn row_of<T>(answer: &Result<T, Refusal>) -> usize {
    answer.as_ref().err().map_or(0, |refusal| refusal.number.into())
}

/// The groups of a question that is put to headers of every kind: each answer
/// goes to the first group that is about its row.
pub struct Sorted {
    groups: Vec<Group>,
}

impl Sorted {
    pub fn new(question: &str, kinds: &[(&str, &[u8])]) -> Sorted {
        let group = |(kind, due): &(&str, &[u8])| Group::new(&format!("{question}, {kind}"), due);
        Sorted { groups: kinds.iter().map(group).collect() }
    }

    pub fn answers<T: PartialEq + Debug>(
        &mut self,
        ours: Result<T, Refusal>,
        wanted: Result<T, Refusal>,
        input: impl Fn() -> String,
    ) {
        let row = row_of(&wanted) as u8;
        let about = self.groups.iter().position(|group| group.due.contains(&row));
        self.groups[about.expect("the kinds have every row of the question")]
            .answers(ours, wanted, input);
    }
}

/// What all groups come to.
#[derive(Default)]
pub struct Results {
    pub passed: u32,
    pub failed: u32,
    pub tally: Tally,
}

impl Results {
    /// Prints the group and counts it.
    pub fn add(&mut self, group: Group) {
        group.print();
        for (row, count) in group.refused() {
            *self.tally.refusals.entry(row as u8).or_default() += count;
        }
        if group.passes() {
            self.passed += 1;
        } else {
            self.failed += 1;
        }
    }

    pub fn add_sorted(&mut self, sorted: Sorted) {
        sorted.groups.into_iter().for_each(|group| self.add(group));
    }

    /// Counts questions about inputs of a code.
    pub fn code(&mut self, code: u16, count: u64) {
        *self.tally.codes.entry(code).or_default() += count;
    }
}

/// Compares every call of the library.
pub fn library(results: &mut Results, effort: Effort) {
    words::compare(results, effort);
    header::compare(results, effort);
    places::compare(results, effort);
    parts::compare(results, effort);
    skew::compare(results, effort);
    body::compare(results, effort);
    traces::compare(results, effort);
}
