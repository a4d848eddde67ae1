//! Inputs for the two runners: clean files, damaged files, boundary cases and
//! soups, all of them determined by a seed.

pub mod calendar;
pub mod clean;
pub mod deliveries;
pub mod dice;
pub mod draft;
pub mod edges;
pub mod large;
pub mod mutations;
pub mod soup;

/// A file with the code and the day it is checked for.
#[derive(Clone, Debug)]
pub struct Sample {
    pub code: u32,
    pub day: u32,
    pub file: Vec<u8>,
}

/// The same lent out: the file may be a part of larger memory.
#[derive(Clone, Copy, Debug)]
pub struct Job<'a> {
    pub code: u32,
    pub day: u32,
    pub file: &'a [u8],
}

impl Sample {
    pub fn job(&self) -> Job<'_> {
        Job { code: self.code, day: self.day, file: &self.file }
    }
}
