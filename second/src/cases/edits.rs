//! Edits on a fresh view: single, on copies alike, on copies against each other, on compared
//! nodes.

use super::chance::Chance;
use super::words;
use crate::node_line::{FROM_PROGRAM, Kind, Mark, NodeLine};
use std::collections::{BTreeMap, BTreeSet};

pub fn edited(chance: &mut Chance, fresh: &[NodeLine], compared: &BTreeSet<u16>) -> Vec<NodeLine> {
    let mut view = fresh.to_vec();
    let copies = copies_by_node(fresh);
    if copies.is_empty() {
        return view;
    }
    let has_copies = copies.values().any(|places| places.len() > 1);
    let has_compared = compared.iter().any(|number| copies.contains_key(number));
    let against = if has_copies { 30 } else { 0 };
    let on_compared = if has_compared { 25 } else { 0 };
    match chance.weighted(&[8, 14, 32, 14, against, on_compared, 4, 8]) {
        0 => {}
        1 => edit_some(chance, &mut view, 15),
        2 => edit_nodes(chance, &mut view, &copies, compared, false),
        3 => edit_nodes(chance, &mut view, &copies, &BTreeSet::new(), true),
        4 => edit_against(chance, &mut view, &copies),
        5 => edit_compared(chance, &mut view, &copies, compared),
        6 => delete_all(&mut view),
        _ => save_without_touching(chance, &mut view, &copies),
    }
    view
}

type Copies = BTreeMap<u16, Vec<usize>>;

/// The places of each master node in the view.
fn copies_by_node(fresh: &[NodeLine]) -> Copies {
    let mut copies = Copies::new();
    for (place, line) in fresh.iter().enumerate() {
        if line.number != FROM_PROGRAM {
            copies.entry(line.number).or_default().push(place);
        }
    }
    copies
}

fn edit(chance: &mut Chance, line: &mut NodeLine) {
    if line.kind == Kind::Element || chance.percent(30) {
        line.mark = Mark::Deleted;
        return;
    }
    line.mark = Mark::Changed;
    if !chance.percent(10) {
        line.bytes = words::text(chance);
    }
}

/// Lines here and there, each with an edit of its own.
fn edit_some(chance: &mut Chance, view: &mut [NodeLine], share: usize) {
    for line in view.iter_mut().filter(|line| line.number != FROM_PROGRAM) {
        if chance.percent(share) {
            edit(chance, line);
        }
    }
}

/// One edit a node, on all its lines or on some.
fn edit_nodes(
    chance: &mut Chance,
    view: &mut [NodeLine],
    copies: &Copies,
    spared: &BTreeSet<u16>,
    one_only: bool,
) {
    let open: Vec<&u16> = copies.keys().filter(|number| !spared.contains(number)).collect();
    if open.is_empty() {
        return;
    }
    let nodes = if one_only { 1 } else { chance.between(1, open.len().min(6)) };
    for _ in 0..nodes {
        let places = &copies[*chance.pick(&open)];
        let mut model = view[places[0]].clone();
        edit(chance, &mut model);
        let share = *chance.pick(&[100, 60, 40]);
        for &place in places {
            if chance.percent(share) {
                view[place].mark = model.mark;
                view[place].bytes = model.bytes.clone();
            }
        }
    }
}

/// Two lines of one node, each with an edit of its own.
fn edit_against(chance: &mut Chance, view: &mut [NodeLine], copies: &Copies) {
    let several: Vec<&Vec<usize>> = copies.values().filter(|places| places.len() > 1).collect();
    for _ in 0..chance.between(1, 2) {
        let places = *chance.pick(&several);
        for &place in [places[0], places[places.len() - 1]].iter() {
            edit(chance, &mut view[place]);
        }
    }
}

/// Edits on shown nodes whose texts were compared.
fn edit_compared(
    chance: &mut Chance,
    view: &mut [NodeLine],
    copies: &Copies,
    compared: &BTreeSet<u16>,
) {
    let shown: Vec<&u16> = compared.iter().filter(|number| copies.contains_key(number)).collect();
    for _ in 0..chance.between(1, 2) {
        let places = &copies[*chance.pick(&shown)];
        let place = *chance.pick(places);
        edit(chance, &mut view[place]);
    }
}

fn delete_all(view: &mut [NodeLine]) {
    for line in view.iter_mut().filter(|line| line.number != FROM_PROGRAM) {
        line.mark = Mark::Deleted;
    }
}

/// A line marked changed that has its old text, beside a copy with another edit or none.
fn save_without_touching(chance: &mut Chance, view: &mut [NodeLine], copies: &Copies) {
    let texts: Vec<&Vec<usize>> =
        copies.values().filter(|places| view[places[0]].kind == Kind::Text).collect();
    if texts.is_empty() {
        return edit_some(chance, view, 30);
    }
    for _ in 0..chance.between(1, 3) {
        let places = *chance.pick(&texts);
        for &place in places {
            if chance.percent(60) && view[place].mark == Mark::Untouched {
                view[place].mark = Mark::Changed;
            } else if chance.percent(20) {
                edit(chance, &mut view[place]);
            }
        }
    }
}
