//! Items and blocks: the lines of a file put together, for the rules to look at.

use std::ops::Range;

use crate::fields::{self, Reading};
use crate::heading::Heading;
use crate::lines::{self, Kind, Line, Name};
use crate::types;

/// A field inside an item. Fields above the first heading are not kept: no
/// rule asks what they say (reading 11).
#[derive(Clone, Copy, Debug)]
pub struct Field {
    pub line: u32,
    pub name: Name,
    pub reading: Reading,
}

/// A heading and all up to the next heading.
#[derive(Clone, Debug)]
pub struct Item {
    pub line: u32,
    /// Nothing if it does not read.
    pub heading: Option<Heading>,
    /// Places in the file's fields.
    fields: Range<usize>,
}

/// Items up to and with a readable 51, or those after the last one.
#[derive(Clone, Debug)]
pub struct Block {
    /// Places in the file's items.
    items: Range<usize>,
    /// Ends with a readable 51.
    pub is_closed: bool,
}

#[derive(Debug)]
pub struct File<'a> {
    pub lines: Vec<Line<'a>>,
    pub items: Vec<Item>,
    /// All blocks, and as the last one what is left after them, if anything.
    pub blocks: Vec<Block>,
    fields: Vec<Field>,
}

impl<'a> File<'a> {
    /// Takes the bytes before the end mark.
    pub fn parse(text: &'a [u8]) -> Self {
        let lines = lines::cut(text);
        let (items, fields) = items(&lines);
        let blocks = blocks(&items);
        File { lines, items, blocks, fields }
    }

    pub fn fields_of(&self, item: &Item) -> &[Field] {
        &self.fields[item.fields.clone()]
    }

    /// The first field of a name, whether it reads or not (reading 15).
    pub fn first_field(&self, item: &Item, name: &Name) -> Option<&Field> {
        self.fields_of(item).iter().find(|field| field.name == *name)
    }

    pub fn items_of(&self, block: &Block) -> &[Item] {
        &self.items[block.items.clone()]
    }
}

/// Line numbers count from 1; a file has at most five million lines.
pub fn line_number(place: usize) -> u32 {
    place as u32 + 1
}

fn items(lines: &[Line]) -> (Vec<Item>, Vec<Field>) {
    let mut items: Vec<Item> = Vec::new();
    let mut fields = Vec::new();
    let mut place = 0;
    while let Some(line) = lines.get(place) {
        let tail = tail(&lines[place + 1..]);
        match (line.kind, items.last_mut()) {
            (Kind::Heading, _) => items.push(Item {
                line: line_number(place),
                heading: read_heading(line, tail),
                fields: fields.len()..fields.len(),
            }),
            (Kind::Field(name), Some(item)) => {
                let reading = fields::read(name, &line.text[3..], continuations(tail));
                fields.push(Field { line: line_number(place), name, reading });
                item.fields.end = fields.len();
            }
            _ => {}
        }
        place += 1 + tail.len();
    }
    (items, fields)
}

/// The lines up to the next heading or field: continuations, and lines of no
/// kind, past which continuations still belong to the owner above.
fn tail<'b, 'a>(below: &'b [Line<'a>]) -> &'b [Line<'a>] {
    let end = below.iter().position(Line::is_owner).unwrap_or(below.len());
    &below[..end]
}

/// The continuations' texts after their three spaces.
fn continuations<'b>(tail: &'b [Line]) -> impl Iterator<Item = &'b [u8]> {
    tail.iter().filter(|line| line.kind == Kind::Continuation).map(|line| &line.text[3..])
}

/// A heading takes no continuation (reading 9).
fn read_heading(line: &Line, tail: &[Line]) -> Option<Heading> {
    if continuations(tail).next().is_some() {
        return None;
    }
    Heading::read(line.text)
}

fn blocks(items: &[Item]) -> Vec<Block> {
    let mut blocks = Vec::new();
    let mut start = 0;
    for (place, item) in items.iter().enumerate() {
        if item.heading.is_some_and(|heading| heading.kind == types::CONTROL) {
            blocks.push(Block { items: start..place + 1, is_closed: true });
            start = place + 1;
        }
    }
    if start < items.len() {
        blocks.push(Block { items: start..items.len(), is_closed: false });
    }
    blocks
}
