//! A node line, of masters and views: depth, kind, mark, number, length, bytes.

use crate::lines;
use crate::rules::{Lines, Orders, OrdersStay, Spelling};
use crate::text;

/// The number of a line whose node came from the program.
pub const FROM_PROGRAM: u16 = 0xFFFF;

#[derive(Clone, Copy, Debug, PartialEq, Eq)]
pub enum Kind {
    Text,
    Element,
    /// A text that is a word order.
    Order,
}

#[derive(Clone, Copy, Debug, PartialEq, Eq)]
pub enum Mark {
    Untouched,
    Changed,
    Deleted,
}

#[derive(Clone, Debug, PartialEq, Eq)]
pub struct NodeLine {
    pub depth: u8,
    pub kind: Kind,
    pub mark: Mark,
    pub number: u16,
    pub bytes: Vec<u8>,
}

pub fn read_file(file: &[u8], rules: &Lines) -> Result<Vec<NodeLine>, usize> {
    lines::read(file, rules.node_lines, rules, |bytes| form(bytes, rules))
}

pub fn write_file(lines: &[NodeLine]) -> Vec<u8> {
    lines.iter().flat_map(|line| lines::write(&line.to_bytes())).collect()
}

fn form(line: &[u8], rules: &Lines) -> Option<NodeLine> {
    let [depth, kind, mark, high, low, length, bytes @ ..] = line else {
        return None;
    };
    let (kind, mark) = (kind_of(*kind)?, mark_of(*mark)?);
    let number = match rules.number_low_byte_first {
        false => u16::from_be_bytes([*high, *low]),
        true => u16::from_le_bytes([*high, *low]),
    };
    let sound = usize::from(*length) == bytes.len() && allows(kind, mark, bytes, rules);
    sound.then(|| NodeLine { depth: *depth, kind, mark, number, bytes: bytes.to_vec() })
}

/// What a kind asks of mark and bytes.
fn allows(kind: Kind, mark: Mark, bytes: &[u8], rules: &Lines) -> bool {
    match kind {
        Kind::Text => is_text(bytes, rules),
        Kind::Element => {
            (mark != Mark::Changed || rules.element_may_be_changed) && is_tag(bytes, rules)
        }
        Kind::Order => {
            (mark != Mark::Changed || rules.orders.may_be_changed)
                && is_text(bytes, rules)
                && has_order(mark, bytes, rules)
        }
    }
}

pub fn is_text(bytes: &[u8], rules: &Lines) -> bool {
    bytes.len() <= rules.longest_text
}

pub fn is_tag(bytes: &[u8], rules: &Lines) -> bool {
    let tag_bytes = rules.first_tag_byte..=rules.last_tag_byte;
    (1..=32).contains(&bytes.len()) && bytes.iter().all(|byte| tag_bytes.contains(byte))
}

/// What an order asks of its bytes, under every mark.
fn has_order(mark: Mark, bytes: &[u8], rules: &Lines) -> bool {
    !rules.orders.asked_under.contains(&mark) || is_order(bytes, &rules.orders)
}

/// Whether the bytes are one of the words.
pub fn is_order(bytes: &[u8], rules: &Orders) -> bool {
    rules.words.iter().any(|word| is_spelt(bytes, word, rules.spelling))
}

/// Byte for byte; all other spellings are mistaken.
fn is_spelt(bytes: &[u8], word: &[u8], spelling: Spelling) -> bool {
    match spelling {
        Spelling::ByteForByte => text::equal(bytes, word),
        Spelling::Any => true,
        Spelling::InEitherCase => bytes.eq_ignore_ascii_case(word),
        Spelling::ButForPadding => text::equal_but_for_padding(bytes, word),
        Spelling::ButForSpacesInFront => text::equal(text::behind_spaces(bytes), word),
        Spelling::BeginsWithTheWord => bytes.starts_with(word),
        Spelling::BeginsTheWord => word.starts_with(bytes),
        Spelling::BehindTheFirstByte => {
            bytes.len() == word.len()
                && text::behind_the_first(bytes) == text::behind_the_first(word)
        }
        Spelling::BeforeTheLastByte => {
            bytes.len() == word.len() && text::before_the_last(bytes) == text::before_the_last(word)
        }
        Spelling::AsLong => bytes.len() == word.len(),
    }
}

/// The first order that is none, where the form has let it through by mistake.
pub fn first_wrong_order(lines: &[NodeLine], rules: &Lines) -> Option<usize> {
    let is_wrong =
        |line: &NodeLine| line.kind == Kind::Order && !has_order(line.mark, &line.bytes, rules);
    lines.iter().position(is_wrong)
}

fn kind_of(byte: u8) -> Option<Kind> {
    match byte {
        0x01 => Some(Kind::Text),
        0x02 => Some(Kind::Element),
        0x03 => Some(Kind::Order),
        _ => None,
    }
}

fn mark_of(byte: u8) -> Option<Mark> {
    match byte {
        0x00 => Some(Mark::Untouched),
        0x01 => Some(Mark::Changed),
        0x02 => Some(Mark::Deleted),
        _ => None,
    }
}

impl NodeLine {
    pub fn to_bytes(&self) -> Vec<u8> {
        let kind = match self.kind {
            Kind::Text => 0x01,
            Kind::Element => 0x02,
            Kind::Order => 0x03,
        };
        let mark = match self.mark {
            Mark::Untouched => 0x00,
            Mark::Changed => 0x01,
            Mark::Deleted => 0x02,
        };
        let [high, low] = self.number.to_be_bytes();
        let mut bytes = vec![self.depth, kind, mark, high, low, self.bytes.len() as u8];
        bytes.extend(&self.bytes);
        bytes
    }

    /// The kind with which the node is handed on: its own, unless mistaken.
    pub fn kind_handed_on(&self, stay: OrdersStay) -> Kind {
        let stays = match stay {
            OrdersStay::All => true,
            OrdersStay::Unchanged => self.mark != Mark::Changed,
            OrdersStay::None => false,
        };
        match self.kind {
            Kind::Order if !stays => Kind::Text,
            kind => kind,
        }
    }
}
