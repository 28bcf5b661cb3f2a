//! Programs put together from parts, as entries in prefix order.

use crate::entry::Entry;

pub type Program = Vec<Entry>;

pub fn leaf(entry: Entry) -> Program {
    vec![entry]
}

pub fn source() -> Program {
    leaf(Entry::Source)
}

pub fn nothing() -> Program {
    leaf(Entry::Nothing)
}

pub fn contents() -> Program {
    leaf(Entry::Contents)
}

pub fn text(text: &[u8]) -> Program {
    leaf(Entry::Text(text.to_vec()))
}

pub fn tag(tag: &[u8]) -> Program {
    leaf(Entry::Tag(tag.to_vec()))
}

pub fn slot(name: u8) -> Program {
    leaf(Entry::Slot(name))
}

pub fn within(part: Program) -> Program {
    over(Entry::Within, [part])
}

pub fn each(part: Program) -> Program {
    over(Entry::Each, [part])
}

pub fn bind(name: u8, part: Program) -> Program {
    over(Entry::Bind(name), [part])
}

pub fn and_then(first: Program, second: Program) -> Program {
    over(Entry::AndThen, [first, second])
}

pub fn beside(first: Program, second: Program) -> Program {
    over(Entry::Beside, [first, second])
}

pub fn choose(test: Program, yes: Program, no: Program) -> Program {
    over(Entry::Choose, [test, yes, no])
}

pub fn equals(part: Program) -> Program {
    over(Entry::Equals, [part])
}

fn over<const N: usize>(entry: Entry, parts: [Program; N]) -> Program {
    let mut program = vec![entry];
    program.extend(parts.into_iter().flatten());
    program
}

/// The place behind the sub-tree that begins at a place.
pub fn end_of(program: &[Entry], place: usize) -> usize {
    (0..sub_entries(&program[place])).fold(place + 1, |next, _| end_of(program, next))
}

/// The levels of the sub-tree at a place.
pub fn levels(program: &[Entry], place: usize) -> usize {
    let mut next = place + 1;
    let mut deepest = 0;
    for _ in 0..sub_entries(&program[place]) {
        deepest = deepest.max(levels(program, next));
        next = end_of(program, next);
    }
    deepest + 1
}

fn sub_entries(entry: &Entry) -> usize {
    match entry {
        Entry::Within | Entry::Each | Entry::Bind(_) | Entry::Equals => 1,
        Entry::AndThen | Entry::Beside => 2,
        Entry::Choose => 3,
        _ => 0,
    }
}

pub fn is_test(entry: &Entry) -> bool {
    matches!(entry, Entry::Equals | Entry::Tagged(_) | Entry::IsElement)
}
