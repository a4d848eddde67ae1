//! The rules, each by its number, said over a whole parsed file.
//!
//! A function `ruleN` says whether rule N is broken by what it is given; rules
//! that take one comparison stand where they are marked.

use crate::account::Number;
use crate::characters::is_admissible;
use crate::days;
use crate::fields::Reading;
use crate::heading::Heading;
use crate::items::{Field, File, Item, line_number};
use crate::lines::{Kind, Line, Name};
use crate::types;

/// A line and the number of a rule broken there.
pub type Fault = (u32, u32);

/// An item and its heading, which reads.
type Readable<'b> = (&'b Item, &'b Heading);

/// All faults of a file, by line and then by rule.
pub fn faults(file: &File, code: u32, day: u32) -> Vec<Fault> {
    let mut faults = Faults(Vec::new());
    judge_lines(file, &mut faults);
    for item in &file.items {
        judge_fields(file.fields_of(item), &mut faults);
        judge_amount(file, item, day, &mut faults);
        judge_heading(file, item, code, day, &mut faults);
    }
    judge_blocks(file, &mut faults);
    faults.in_order()
}

/// Faults as they are found: rule by rule, not line by line.
struct Faults(Vec<Fault>);

impl Faults {
    fn mark(&mut self, line: u32, rule: u32, broken: bool) {
        if broken {
            self.0.push((line, rule));
        }
    }

    fn in_order(mut self) -> Vec<Fault> {
        self.0.sort();
        self.0
    }
}

// Every line: rules 1 to 4.

fn judge_lines(file: &File, faults: &mut Faults) {
    let lines = &file.lines;
    let end = lines.len();
    let first_owner = lines.iter().position(Line::is_owner).unwrap_or(end);
    let first_heading = lines.iter().position(|line| line.kind == Kind::Heading).unwrap_or(end);
    for (place, line) in lines.iter().enumerate() {
        let number = line_number(place);
        faults.mark(number, 1, rule1(line));
        faults.mark(number, 2, rule2(line, place > first_owner));
        faults.mark(number, 3, place < first_heading);
        faults.mark(number, 4, !line.ended);
    }
}

/// Holds an inadmissible byte.
fn rule1(line: &Line) -> bool {
    !line.text.iter().all(|&byte| is_admissible(byte))
}

/// None of the three kinds, or a continuation with nothing to belong to.
fn rule2(line: &Line, has_owner_above: bool) -> bool {
    match line.kind {
        Kind::Stray => true,
        Kind::Continuation => !has_owner_above,
        Kind::Heading | Kind::Field(_) => false,
    }
}

// Fields inside items: rules 5 to 9, 23 and 24, and 6 for headings in
// judge_heading.

fn judge_fields(fields: &[Field], faults: &mut Faults) {
    let mut seen = Seen([0; 36]);
    for field in fields {
        faults.mark(field.line, 5, seen.repeats(field.name));
        faults.mark(field.line, 6, field.reading == Reading::Broken);
        if let Reading::Account(halves) = field.reading {
            faults.mark(field.line, 7, !halves.prefix_good);
            faults.mark(field.line, 23, halves.number == Number::Failing);
            faults.mark(field.line, 24, halves.number == Number::Zero);
        }
    }
}

/// The names that stood in an item: one bit for each of 36 times 36.
struct Seen([u64; 36]);

impl Seen {
    /// Whether the name stood already; it has from now on.
    fn repeats(&mut self, [a, b]: Name) -> bool {
        let row = &mut self.0[Self::place(a)];
        let bit = 1 << Self::place(b);
        let stood = *row & bit != 0;
        *row |= bit;
        stood
    }

    fn place(byte: u8) -> usize {
        match byte {
            b'0'..=b'9' => usize::from(byte - b'0'),
            _ => usize::from(byte - b'A') + 10,
        }
    }
}

/// Rules 8 and 9 look at an item's first KC only, and only if it reads.
fn judge_amount(file: &File, item: &Item, today: u32, faults: &mut Faults) {
    let Some(heading) = item.heading.filter(|heading| types::is_payment(heading.kind)) else {
        return;
    };
    let Some(field) = file.first_field(item, b"KC") else {
        return;
    };
    if let Reading::Amount { amount, day } = field.reading {
        faults.mark(field.line, 8, rule8(heading.kind, day, today));
        faults.mark(field.line, 9, rule9(heading.kind, amount));
    }
}

/// The amount's day isn't real, or is too late for the type.
fn rule8(kind: u32, day: u32, today: u32) -> bool {
    if !days::is_real(day) {
        return true;
    }
    let days_later = days::days_between(today, day);
    (types::bars_future(kind) && days_later > 0) || (types::is_request(kind) && days_later > 30)
}

/// A request for direct debit over a thousand million crowns.
fn rule9(kind: u32, amount: u64) -> bool {
    kind == 32 && amount > 100_000_000_000
}

// Headings by themselves: rules 6 and 10 to 15.

fn judge_heading(file: &File, item: &Item, code: u32, today: u32, faults: &mut Faults) {
    let Some(heading) = &item.heading else {
        faults.mark(item.line, 6, true);
        return;
    };
    faults.mark(item.line, 10, rule10(heading));
    faults.mark(item.line, 11, rule11(heading.day, today));
    faults.mark(item.line, 12, heading.first != code);
    faults.mark(item.line, 13, rule13(heading));
    faults.mark(item.line, 14, rule14(heading));
    faults.mark(item.line, 15, rule15(file, item, heading));
}

/// The type isn't an input type.
pub fn rule10(heading: &Heading) -> bool {
    !types::is_input(heading.kind)
}

/// The day isn't real, is later than today, or more than ten days before.
fn rule11(day: u32, today: u32) -> bool {
    !days::is_real(day) || !(0..=10).contains(&days::days_between(day, today))
}

/// The output number isn't zero.
pub fn rule13(heading: &Heading) -> bool {
    heading.output != 0
}

/// For input types, the 51 too: the second code is zero, or the third stands
/// where it must not or is missing where it must stand.
pub fn rule14(heading: &Heading) -> bool {
    let third_wanted = types::is_trilateral(heading.kind);
    types::is_input(heading.kind) && (heading.second == 0 || (heading.third != 0) != third_wanted)
}

/// For input types: not a 51, and no KC line.
fn rule15(file: &File, item: &Item, heading: &Heading) -> bool {
    types::is_payment(heading.kind) && file.first_field(item, b"KC").is_none()
}

// Blocks: rules 16 to 21 and 30 to 39.

fn judge_blocks(file: &File, faults: &mut Faults) {
    let file_class = class_of_file(file);
    for block in &file.blocks {
        let items = file.items_of(block);
        let readable = readable(items);
        judge_row(&readable, file_class, faults);
        match readable.split_last() {
            Some((&(control, _), others)) if block.is_closed => {
                faults.mark(control.line, 17, items.len() == 1);
                judge_control(file, control, others, faults);
            }
            _ => faults.mark(items[0].line, 16, true),
        }
    }
}

fn readable(items: &[Item]) -> Vec<Readable<'_>> {
    items.iter().filter_map(|item| Some((item, item.heading.as_ref()?))).collect()
}

/// Whether the file's first readable payment has priority, if there is one.
fn class_of_file(file: &File) -> Option<bool> {
    let mut kinds = file.items.iter().filter_map(|item| Some(item.heading?.kind));
    kinds.find(|&kind| types::is_payment(kind)).map(types::is_priority)
}

/// Rules 18 to 20, over the readable headings of a block or of the rest.
fn judge_row(row: &[Readable], file_class: Option<bool>, faults: &mut Faults) {
    for (place, (item, heading)) in row.iter().enumerate() {
        let previous = place.checked_sub(1).map(|place| row[place].1.number);
        faults.mark(item.line, 18, heading.day != row[0].1.day);
        faults.mark(item.line, 19, rule19(heading, previous));
        faults.mark(item.line, 20, rule20(heading, file_class));
    }
}

/// The number does not follow the one before in the block, if there is one.
/// A 51 may have the number 0, the others may not. 9999999 has no follower.
fn rule19(heading: &Heading, previous: Option<u32>) -> bool {
    let breaks_the_row = previous.is_some_and(|previous| heading.number != previous + 1);
    if heading.kind == types::CONTROL {
        heading.number != 0 && breaks_the_row
    } else {
        heading.number == 0 || breaks_the_row
    }
}

/// A payment of another class than the file's first.
fn rule20(heading: &Heading, file_class: Option<bool>) -> bool {
    types::is_payment(heading.kind) && file_class != Some(types::is_priority(heading.kind))
}

/// Rules 21 and 30 to 39, at the 51 that closes a block; `others` are the
/// block's other readable headings.
fn judge_control(file: &File, control: &Item, others: &[Readable], faults: &mut Faults) {
    faults.mark(control.line, 21, rule21(file, control, others));
    for (group, total) in (0..).zip(totals(file, others)) {
        faults.mark(control.line, 30 + group, rule30(file, control, group, total));
    }
}

/// No IN, or one that reads and isn't the first and last number as they stand
/// in the block (reading 21).
fn rule21(file: &File, control: &Item, others: &[Readable]) -> bool {
    let Some(field) = file.first_field(control, b"IN") else {
        return true;
    };
    match (field.reading, others.first(), others.last()) {
        (Reading::Interval { first, last }, Some(start), Some(end)) => {
            (first, last) != (u64::from(start.1.number), u64::from(end.1.number))
        }
        _ => false,
    }
}

/// Count and true sum of a group.
#[derive(Clone, Copy, Default, PartialEq, Eq)]
struct Total {
    count: u64,
    /// Wide enough for any file: no sum wraps round to a stated one.
    sum: u128,
}

/// Payments whose first KC reads, by the tens digit of their type. Amounts are
/// added as they stand, those of 13 and 37 too.
fn totals(file: &File, others: &[Readable]) -> [Total; 10] {
    let mut totals = [Total::default(); 10];
    for (item, heading) in others.iter().filter(|other| types::is_payment(other.1.kind)) {
        let reading = file.first_field(item, b"KC").map(|field| field.reading);
        if let Some(Reading::Amount { amount, .. }) = reading {
            let total = &mut totals[heading.kind as usize / 10];
            total.count += 1;
            total.sum += u128::from(amount);
        }
    }
    totals
}

/// Rules 30 to 39: the first Sd reads and isn't the total; absent means 0 and 0.
fn rule30(file: &File, control: &Item, group: u32, total: Total) -> bool {
    let name = [b'S', b'0' + group as u8];
    match file.first_field(control, &name).map(|field| field.reading) {
        None => total != Total::default(),
        Some(Reading::Sum { count, sum }) => total != Total { count, sum: u128::from(sum) },
        Some(_) => false,
    }
}
