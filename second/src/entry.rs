//! A program line: an operation byte and its operand.

use crate::lines;
use crate::node_line::{is_tag, is_text};
use crate::rules::Lines;

#[derive(Clone, Debug, PartialEq, Eq)]
pub enum Entry {
    Source,          // 01
    Nothing,         // 02
    Text(Vec<u8>),   // 03
    Tag(Vec<u8>),    // 04
    Slot(u8),        // 05
    Contents,        // 06
    Within,          // 07
    AndThen,         // 08
    Beside,          // 09
    Each,            // 0A
    Choose,          // 0B
    Bind(u8),        // 0C
    Equals,          // 11
    Tagged(Vec<u8>), // 12
    IsElement,       // 13
}

pub fn read_file(file: &[u8], rules: &Lines) -> Result<Vec<Entry>, usize> {
    lines::read(file, rules.program_lines, rules, |bytes| form(bytes, rules))
}

pub fn write_file(entries: &[Entry]) -> Vec<u8> {
    entries.iter().flat_map(|entry| lines::write(&entry.to_bytes())).collect()
}

fn form(line: &[u8], rules: &Lines) -> Option<Entry> {
    let (&operation, operand) = line.split_first()?;
    match operation {
        0x03 => text_operand(operand, rules).map(Entry::Text),
        0x04 => tag_operand(operand, rules).map(Entry::Tag),
        0x05 => slot_operand(operand).map(Entry::Slot),
        0x0C => slot_operand(operand).map(Entry::Bind),
        0x12 => tag_operand(operand, rules).map(Entry::Tagged),
        _ if operand.is_empty() => without_operand(operation),
        _ => None,
    }
}

fn without_operand(operation: u8) -> Option<Entry> {
    match operation {
        0x01 => Some(Entry::Source),
        0x02 => Some(Entry::Nothing),
        0x06 => Some(Entry::Contents),
        0x07 => Some(Entry::Within),
        0x08 => Some(Entry::AndThen),
        0x09 => Some(Entry::Beside),
        0x0A => Some(Entry::Each),
        0x0B => Some(Entry::Choose),
        0x11 => Some(Entry::Equals),
        0x13 => Some(Entry::IsElement),
        _ => None,
    }
}

fn text_operand(operand: &[u8], rules: &Lines) -> Option<Vec<u8>> {
    counted(operand).filter(|bytes| is_text(bytes, rules))
}

fn tag_operand(operand: &[u8], rules: &Lines) -> Option<Vec<u8>> {
    counted(operand).filter(|bytes| is_tag(bytes, rules))
}

fn counted(operand: &[u8]) -> Option<Vec<u8>> {
    let (&length, bytes) = operand.split_first()?;
    (usize::from(length) == bytes.len()).then(|| bytes.to_vec())
}

fn slot_operand(operand: &[u8]) -> Option<u8> {
    match operand {
        [slot] => Some(*slot),
        _ => None,
    }
}

impl Entry {
    pub fn to_bytes(&self) -> Vec<u8> {
        match self {
            Entry::Source => vec![0x01],
            Entry::Nothing => vec![0x02],
            Entry::Text(text) => with_counted(0x03, text),
            Entry::Tag(tag) => with_counted(0x04, tag),
            Entry::Slot(slot) => vec![0x05, *slot],
            Entry::Contents => vec![0x06],
            Entry::Within => vec![0x07],
            Entry::AndThen => vec![0x08],
            Entry::Beside => vec![0x09],
            Entry::Each => vec![0x0A],
            Entry::Choose => vec![0x0B],
            Entry::Bind(slot) => vec![0x0C, *slot],
            Entry::Equals => vec![0x11],
            Entry::Tagged(tag) => with_counted(0x12, tag),
            Entry::IsElement => vec![0x13],
        }
    }
}

fn with_counted(operation: u8, bytes: &[u8]) -> Vec<u8> {
    let mut line = vec![operation, bytes.len() as u8];
    line.extend(bytes);
    line
}
