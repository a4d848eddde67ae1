//! The second program: a checker for CERTIS input files, written from
//! documents 01 and 02 and docs/DECISIONS.md, and from nothing else of the
//! project.
//!
//! It exists to be compared with the proved library, so it is as plain as can
//! be: the whole file is parsed, and each rule then looks at whatever it needs.
//! "Reading 9" in a comment means the ninth entry of docs/DECISIONS.md.

#![forbid(unsafe_code)]

pub mod account;
pub mod characters;
pub mod check;
pub mod days;
pub mod deliver;
pub mod derive;
pub mod fields;
pub mod heading;
pub mod items;
pub mod lines;
pub mod listing;
pub mod portions;
pub mod register;
pub mod rules;
pub mod samples;
pub mod sheet;
pub mod types;

#[cfg(test)]
mod tests;
