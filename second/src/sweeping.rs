//! Sweeping: a deleted node goes with all its contents, and the rest is numbered from 0.

use crate::lines;
use crate::node_line::{Mark, NodeLine};
use crate::rules::{Goes, NumberLines, Sweeping};
use crate::tree::{self, Tree, Value};

/// What the second output says of a node that went.
const GONE: u16 = 0xFFFF;

pub struct Swept {
    pub lines: Vec<NodeLine>,
    /// The new number of each old node, or none if it went.
    pub new_numbers: Vec<Option<u16>>,
}

pub fn sweep(master: &[NodeLine], rules: &Sweeping) -> Swept {
    let mut lines = match rules.goes {
        Goes::DeletedWithContents => tree::to_lines(&without_deleted(tree::from_lines(master))),
        wrong => kept_wrongly(master, wrong),
    };
    let mut new_numbers = vec![None; master.len()];
    for (line, new_number) in lines.iter_mut().zip(rules.first_number..) {
        new_numbers[usize::from(line.number)] = Some(new_number);
        if rules.lines_are_renumbered {
            line.number = new_number;
        }
        line.kind = line.kind_handed_on(rules.orders_stay);
        if rules.marks_are_lost {
            line.mark = Mark::Untouched;
        }
    }
    Swept { lines, new_numbers }
}

fn without_deleted(value: Value) -> Value {
    let kept = value.into_iter().filter(|tree| tree.node().mark != Mark::Deleted);
    kept.map(|tree| match tree {
        Tree::Element { node, tag, contents } => {
            Tree::Element { node, tag, contents: without_deleted(contents) }
        }
        text => text,
    })
    .collect()
}

/// The second output: a line for each old node.
pub fn number_lines(swept: &Swept, rules: &Sweeping) -> Vec<u8> {
    let numbers = numbers_told(&swept.new_numbers, rules.number_lines);
    numbers.iter().flat_map(|number| lines::write(&number.to_be_bytes())).collect()
}

fn or_gone(new_numbers: &[Option<u16>]) -> Vec<u16> {
    new_numbers.iter().map(|number| number.unwrap_or(GONE)).collect()
}

/// All but the first are mistaken.
fn numbers_told(new_numbers: &[Option<u16>], number_lines: NumberLines) -> Vec<u16> {
    let with_old = || new_numbers.iter().zip(0..);
    match number_lines {
        NumberLines::Document => or_gone(new_numbers),
        NumberLines::OldNumbers => {
            with_old().map(|(number, old)| number.map_or(GONE, |_| old)).collect()
        }
        NumberLines::OldNumberOfEachNew => {
            with_old().filter_map(|(number, old)| number.map(|_| old)).collect()
        }
        NumberLines::RemovedAreZero => {
            new_numbers.iter().map(|number| number.unwrap_or(0)).collect()
        }
        NumberLines::RemovedGetTheNext => {
            let before = |place| new_numbers[..place].iter().flatten().count() as u16;
            (0..new_numbers.len()).map(before).collect()
        }
        NumberLines::LowByteFirst => {
            or_gone(new_numbers).into_iter().map(u16::swap_bytes).collect()
        }
        NumberLines::KeptOnly => new_numbers.iter().copied().flatten().collect(),
        NumberLines::Always128 => {
            let mut numbers = or_gone(new_numbers);
            numbers.resize(128, GONE);
            numbers
        }
    }
}

/// The mistaken sweeps: the lines that they keep, with the old marks and numbers.
fn kept_wrongly(master: &[NodeLine], wrong: Goes) -> Vec<NodeLine> {
    let kept = (0..master.len()).filter(|&place| !goes_wrongly(master, place, wrong));
    kept.map(|place| {
        let mut line = master[place].clone();
        if wrong == Goes::DeletedAndContentsRise {
            line.depth -= deleted_around(master, place).count() as u8;
        }
        line
    })
    .collect()
}

fn goes_wrongly(master: &[NodeLine], place: usize, wrong: Goes) -> bool {
    let is = |mark| master[place].mark == mark;
    let is_leaf = master.get(place + 1).is_none_or(|next| next.depth <= master[place].depth);
    let is_under = deleted_around(master, place).next().is_some();
    let of_a_deleted = || {
        deleted_around(master, place).any(|outer| master[outer].depth + 1 == master[place].depth)
    };
    match wrong {
        Goes::DeletedWithContents => is(Mark::Deleted) || is_under,
        Goes::DeletedAlone | Goes::DeletedAndContentsRise => is(Mark::Deleted),
        Goes::DeletedWithLeaves => is(Mark::Deleted) || (is_under && is_leaf),
        Goes::DeletedWithItems => is(Mark::Deleted) || of_a_deleted(),
        Goes::DeletedWithSiblingsBehind => {
            (0..=place).any(|before| is_deleted(master, before) && !rises(master, before, place))
        }
        Goes::UpToAnInnerDeleted => {
            let last = (0..place).rfind(|&before| is_deleted(master, before));
            is(Mark::Deleted) || last.is_some_and(|last| contains(master, last, place))
        }
        Goes::AllButChanged => is(Mark::Deleted) || (is_under && !is(Mark::Changed)),
        Goes::ChangedToo => is(Mark::Deleted) || is_under || is(Mark::Changed),
    }
}

/// The deleted nodes around a node.
fn deleted_around(master: &[NodeLine], place: usize) -> impl Iterator<Item = usize> {
    (0..place).filter(move |&outer| is_deleted(master, outer) && contains(master, outer, place))
}

fn is_deleted(master: &[NodeLine], place: usize) -> bool {
    master[place].mark == Mark::Deleted
}

fn contains(master: &[NodeLine], outer: usize, place: usize) -> bool {
    master[outer + 1..=place].iter().all(|line| line.depth > master[outer].depth)
}

/// Whether the lines come out of the contents in which a node stands.
fn rises(master: &[NodeLine], from: usize, to: usize) -> bool {
    master[from..=to].iter().any(|line| line.depth < master[from].depth)
}
