//! A file in the making: its lines, which can still be changed one by one.

use std::collections::BTreeMap;

use super::Sample;
use crate::heading::Heading;
use crate::lines::END_MARK;

/// What tells one item from another on a sheet: its type, its second code, its
/// third and its amount.
pub type Payment = (u32, u32, u32, u64);

#[derive(Clone, Debug)]
pub struct Draft {
    pub code: u32,
    pub day: u32,
    /// Without their CR LF.
    pub lines: Vec<Vec<u8>>,
    /// The last line has its CR LF.
    pub ended: bool,
    /// Bytes behind the end mark.
    pub leftover: Vec<u8>,
}

impl Draft {
    pub fn new(code: u32, day: u32) -> Self {
        Draft { code, day, lines: Vec::new(), ended: true, leftover: Vec::new() }
    }

    pub fn line(&mut self, text: impl Into<Vec<u8>>) {
        self.lines.push(text.into());
    }

    pub fn heading(&mut self, heading: Heading) {
        self.line(heading.write());
    }

    /// A heading that breaks no rule by itself.
    pub fn good_heading(&self, kind: u32, number: u32) -> Heading {
        let third = if matches!(kind, 35 | 37 | 45) { 800 } else { 0 };
        let (day, first) = (self.day, self.code);
        Heading { kind, day, first, number, second: 710, output: 0, third }
    }

    /// One block without faults, if the items have none.
    pub fn block_of(code: u32, day: u32, items: &[Payment]) -> Self {
        let mut draft = Draft::new(code, day);
        draft.block(items);
        draft
    }

    /// One block more, numbered from 1.
    pub fn block(&mut self, items: &[Payment]) {
        let mut sums: BTreeMap<u32, (u64, u64)> = BTreeMap::new();
        for (number, &(kind, second, third, amount)) in (1..).zip(items) {
            self.heading(Heading { second, third, ..self.good_heading(kind, number) });
            self.line(format!("KC:{amount} {:08}", self.day));
            let (count, sum) = sums.entry(kind / 10).or_default();
            (*count, *sum) = (*count + 1, *sum + amount);
        }
        self.heading(self.good_heading(51, 0));
        self.line(format!("IN:1 {}", items.len()));
        for (group, (count, sum)) in sums {
            self.line(format!("S{group}:{count} {sum}"));
        }
    }

    /// One block more, of items of a day with these numbers and a closing item
    /// with a number of its own.
    pub fn numbered(&mut self, day: u32, numbers: &[u32], closing: u32) {
        for &number in numbers {
            self.heading(Heading { day, ..self.good_heading(11, number) });
            self.line(format!("KC:1 {day:08}"));
        }
        self.heading(Heading { day, ..self.good_heading(51, closing) });
        let (count, first) = (numbers.len(), numbers.first().unwrap_or(&0));
        self.line(format!("IN:{first} {}", numbers.last().unwrap_or(&0)));
        self.line(format!("S1:{count} {count}"));
    }

    pub fn sample(&self) -> Sample {
        Sample { code: self.code, day: self.day, file: self.bytes() }
    }

    /// The lines alone. An end mark stands there only before a leftover.
    pub fn slice(&self) -> Vec<u8> {
        if self.leftover.is_empty() { self.text() } else { self.bytes() }
    }

    fn bytes(&self) -> Vec<u8> {
        let mut bytes = self.text();
        bytes.push(END_MARK);
        bytes.extend(&self.leftover);
        bytes
    }

    fn text(&self) -> Vec<u8> {
        let mut text = self.lines.join(&b"\r\n"[..]);
        if self.ended && !self.lines.is_empty() {
            text.extend(b"\r\n");
        }
        text
    }
}
