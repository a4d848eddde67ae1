//! Writing an output file, from document 02: A7, as A12 amends it.
//!
//! The slice is parsed as the bytes of a file before its end mark are, every
//! item is turned by its outcome and standing, and the output file is put
//! together from what came of them, line by line.

use crate::days;
use crate::derive;
use crate::fields::Reading;
use crate::heading::{Heading, LENGTH};
use crate::items::{File, Item};
use crate::lines::{END_MARK, Kind};
use crate::rules;
use crate::types;

/// Items of an output file.
pub const MOST_ITEMS: usize = 30_000;
/// Bytes of an output file.
const LONGEST: u64 = 4_000_000_000;
/// 10^17: a sum has seventeen digits at most.
const TOO_LARGE: u128 = 100_000_000_000_000_000;

/// "a refusal by the checklist": an outcome here only, which derives as 6 does.
pub const CHECKLIST: u32 = 8;
const NO_FUNDS: u32 = 6;
const TEN_NINES: &[u8] = b"9999999999";

/// What is to be delivered: the slice of input items, an outcome and a standing
/// for each of them, the CERTIS code, the accounting day and the first output
/// number.
#[derive(Clone, Copy, Debug)]
pub struct Delivery<'a> {
    pub items: &'a [u8],
    pub outcomes: &'a [u32],
    pub standings: &'a [u32],
    pub certis: u32,
    pub day: u32,
    pub start: u32,
}

/// An item and what becomes of it.
struct Sent<'f> {
    item: &'f Item,
    input_type: u32,
    outcome: u32,
    /// The derived heading.
    heading: [u8; LENGTH],
    output_type: u32,
    recipient: u32,
    number: u32,
    /// That of its first KC.
    amount: u64,
}

/// The open job: the output file, or the first refusal that applies. `room` is
/// the length of the target.
pub fn deliver(delivery: &Delivery, room: usize) -> Result<Vec<u8>, u32> {
    if !(1..=9999).contains(&delivery.certis) {
        return Err(1);
    }
    if !days::is_accounting_day(delivery.day) {
        return Err(2);
    }
    let slice = File::parse(delivery.items);
    let count = slice.items.len();
    let is_one_each = delivery.outcomes.len() == count && delivery.standings.len() == count;
    if count == 0 || count > MOST_ITEMS || !is_one_each {
        return Err(30);
    }
    if breaks_a_rule(&slice, delivery.day) {
        return Err(31);
    }
    let sent = all_sent(&slice, delivery).ok_or(31_u32)?;
    if is_mixed(&sent) {
        return Err(32);
    }
    let totals = totals(&sent);
    if totals.iter().any(|&(_, sum)| sum >= TOO_LARGE) {
        return Err(33);
    }
    let file = output_file(&slice, &sent, &totals, delivery);
    if file.len() as u64 > LONGEST {
        return Err(33);
    }
    if file.len() > room { Err(34) } else { Ok(file) }
}

/// "a line breaks a rule from 1 to 15 other than 12, or 23 or 24". Rule 12 asks
/// for a submitter; there is none, so any code will do.
fn breaks_a_rule(slice: &File, day: u32) -> bool {
    let is_asked = |rule| matches!(rule, 1..=11 | 13..=15 | 23 | 24);
    rules::faults(slice, 0, day).into_iter().any(|(_, rule)| is_asked(rule))
}

/// What becomes of the items; nothing if deriving refuses one, or if "its
/// recipient isn't 1 to 9999 or isn't the first one's".
fn all_sent<'f>(slice: &'f File, delivery: &Delivery) -> Option<Vec<Sent<'f>>> {
    let numbers = (0..).map(|place| delivery.start.checked_add(place));
    let mut sent: Vec<Sent> = Vec::new();
    for (place, (item, number)) in slice.items.iter().zip(numbers).enumerate() {
        let one =
            one_sent(slice, item, delivery.outcomes[place], delivery.standings[place], number?)?;
        let first = sent.first().map_or(one.recipient, |first| first.recipient);
        if !(1..=9999).contains(&one.recipient) || one.recipient != first {
            return None;
        }
        sent.push(one);
    }
    Some(sent)
}

/// Both halves of deriving: what it tells, and what it writes.
fn one_sent<'f>(
    slice: &File,
    item: &'f Item,
    outcome: u32,
    standing: u32,
    number: u32,
) -> Option<Sent<'f>> {
    let text = slice.lines[place_of(item)].text;
    let derives_as = if outcome == CHECKLIST { NO_FUNDS } else { outcome };
    let (output_type, recipient) = derive::tell(text, derives_as, standing).ok()?;
    let mut heading = [0; LENGTH];
    derive::derive(text, derives_as, standing, number, &mut heading).ok()?;
    let Reading::Amount { amount, .. } = slice.first_field(item, b"KC")?.reading else {
        return None;
    };
    let input_type = item.heading?.kind;
    Some(Sent { item, input_type, outcome, heading, output_type, recipient, number, amount })
}

/// "priority classes or 44 and 84 mixed with others"
fn is_mixed(sent: &[Sent]) -> bool {
    let is_priority = |one: &Sent| types::is_priority(one.input_type);
    let is_blocking = |one: &Sent| matches!(one.output_type, 44 | 84);
    let differs = |one: &Sent| {
        is_priority(one) != is_priority(&sent[0]) || is_blocking(one) != is_blocking(&sent[0])
    };
    sent.iter().any(differs)
}

/// Count and sum "for each group of output types".
fn totals(sent: &[Sent]) -> [(u64, u128); 10] {
    let mut totals = [(0, 0); 10];
    for one in sent {
        let (count, sum) = &mut totals[one.output_type as usize / 10];
        *count += 1;
        *sum += u128::from(one.amount);
    }
    totals
}

fn output_file(
    slice: &File,
    sent: &[Sent],
    totals: &[(u64, u128); 10],
    delivery: &Delivery,
) -> Vec<u8> {
    let mut file = Vec::new();
    for (place, one) in sent.iter().enumerate() {
        let next = sent.get(place + 1).map_or(slice.lines.len(), |next| place_of(next.item));
        put_item(&mut file, slice, one, next);
    }
    put_closing(&mut file, sent, totals, delivery);
    file.push(END_MARK);
    file
}

/// Where the item's heading stands among the lines.
fn place_of(item: &Item) -> usize {
    item.line as usize - 1
}

fn put_line(file: &mut Vec<u8>, text: &[u8]) {
    file.extend(text);
    file.extend(b"\r\n");
}

/// "first fields derived, the item's other lines unaltered", but for the EC of
/// an item that the checklist refused.
fn put_item(file: &mut Vec<u8>, slice: &File, one: &Sent, next: usize) {
    put_line(file, &one.heading);
    for line in &slice.lines[place_of(one.item) + 1..next] {
        if one.outcome == CHECKLIST && line.kind == Kind::Field(*b"EC") {
            put_line(file, &[b"EC:", TEN_NINES].concat());
        } else {
            put_line(file, line.text);
        }
    }
}

/// "closed by a 51 with both numbers zero, the accounting day, a given CERTIS
/// code first, the recipient second, zero third, IN over the output numbers,
/// and, ascending, an S line for each group of output types that isn't empty"
fn put_closing(file: &mut Vec<u8>, sent: &[Sent], totals: &[(u64, u128); 10], delivery: &Delivery) {
    let (first, last) = (&sent[0], &sent[sent.len() - 1]);
    let closing = Heading {
        kind: types::CONTROL,
        day: delivery.day,
        first: delivery.certis,
        number: 0,
        second: first.recipient,
        output: 0,
        third: 0,
    };
    put_line(file, &closing.write());
    put_line(file, format!("IN:{} {}", first.number, last.number).as_bytes());
    for (group, (count, sum)) in totals.iter().enumerate() {
        if *count > 0 {
            put_line(file, format!("S{group}:{count} {sum}").as_bytes());
        }
    }
}
