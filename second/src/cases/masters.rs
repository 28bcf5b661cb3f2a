//! Sound masters of many shapes.

use super::chance::Chance;
use super::words;
use crate::node_line::{Kind, Mark, NodeLine};

/// A master being written: each new line gets its place as its number.
#[derive(Default)]
pub struct Draft {
    pub lines: Vec<NodeLine>,
}

impl Draft {
    pub fn text(&mut self, depth: u8, text: Vec<u8>) {
        self.push(depth, Kind::Text, text);
    }

    pub fn element(&mut self, depth: u8, tag: Vec<u8>) {
        self.push(depth, Kind::Element, tag);
    }

    fn push(&mut self, depth: u8, kind: Kind, bytes: Vec<u8>) {
        let number = self.lines.len() as u16;
        self.lines.push(NodeLine { depth, kind, mark: Mark::Untouched, number, bytes });
    }
}

pub fn master(chance: &mut Chance) -> Vec<NodeLine> {
    match chance.weighted(&[3, 25, 10, 10, 30, 10, 8, 4]) {
        0 => Vec::new(),
        1 => rows(chance),
        2 => {
            let texts = chance.between(1, 8);
            flat_texts(chance, texts)
        }
        3 => {
            let nodes = chance.between(2, 8);
            forest(chance, nodes, 1)
        }
        4 => {
            let nodes = chance.between(2, 16);
            forest(chance, nodes, 7)
        }
        5 => chain(chance),
        6 => layers(chance),
        _ => {
            let nodes = *chance.pick(&[40, 64, 100, 127, 128]);
            forest(chance, nodes, 7)
        }
    }
}

/// An element of elements that each hold a few texts.
pub fn rows(chance: &mut Chance) -> Vec<NodeLine> {
    let mut draft = Draft::default();
    draft.element(0, words::tag(chance));
    for _ in 0..chance.between(1, 5) {
        draft.element(1, words::tag(chance));
        for _ in 0..chance.weighted(&[1, 6, 2]) {
            draft.text(2, words::text(chance));
        }
    }
    draft.lines
}

pub fn flat_texts(chance: &mut Chance, texts: usize) -> Vec<NodeLine> {
    let mut draft = Draft::default();
    for _ in 0..texts {
        draft.text(0, words::text(chance));
    }
    draft.lines
}

/// Nodes at random depths.
pub fn forest(chance: &mut Chance, nodes: usize, deepest: u8) -> Vec<NodeLine> {
    let mut draft = Draft::default();
    let mut most = 0;
    for _ in 0..nodes {
        let depth = match chance.percent(65) {
            true => most,
            false => chance.below(usize::from(most) + 1) as u8,
        };
        if chance.percent(55) {
            draft.element(depth, words::tag(chance));
            most = deepest.min(depth + 1);
        } else {
            draft.text(depth, words::text(chance));
            most = depth;
        }
    }
    draft.lines
}

/// Elements one in another, a text or nothing in the innermost.
pub fn chain(chance: &mut Chance) -> Vec<NodeLine> {
    let elements = chance.between(4, 8);
    nested(chance, elements)
}

pub fn nested(chance: &mut Chance, elements: usize) -> Vec<NodeLine> {
    let mut draft = Draft::default();
    for depth in 0..elements {
        draft.element(depth as u8, words::tag(chance));
    }
    if elements < 8 && chance.percent(70) {
        draft.text(elements as u8, words::text(chance));
    }
    draft.lines
}

/// Elements of elements of elements of texts, all of one form.
pub fn layers(chance: &mut Chance) -> Vec<NodeLine> {
    let mut draft = Draft::default();
    draft.element(0, words::tag(chance));
    for _ in 0..chance.between(1, 2) {
        draft.element(1, words::tag(chance));
        for _ in 0..chance.between(1, 3) {
            draft.element(2, words::tag(chance));
            draft.text(3, words::text(chance));
        }
    }
    draft.lines
}

/// Marks as an earlier put back may have left them.
pub fn mark_some(chance: &mut Chance, lines: &mut [NodeLine]) {
    for line in lines {
        if chance.percent(35) {
            line.mark = match line.kind {
                Kind::Text | Kind::Order if chance.percent(60) => Mark::Changed,
                _ => Mark::Deleted,
            };
        }
    }
}
