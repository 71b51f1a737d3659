//! Inputs to ask about, sound and damaged, all from a seeded run of numbers.

pub mod bodies;
pub mod calls;
pub mod headers;
pub mod images;
pub mod questions;
pub mod records;
pub mod rng;
pub mod traces;
