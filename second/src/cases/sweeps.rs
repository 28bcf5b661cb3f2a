//! Seeded sweeps of the masters that put backs return: mostly with deletions of all sorts, some
//! with a fault or two.

use super::build::{self, Program};
use super::chance::Chance;
use super::damage::{self, FileKind};
use super::{SecondRooms, edits, faults, masters, words};
use crate::calls;
use crate::node_line::{self, FROM_PROGRAM, Kind, Mark, NodeLine};
use crate::rules::{Rules, SavedMarks};
use crate::stream::{Call, Case};

/// The fault that a case is given.
#[derive(Clone, Copy, PartialEq, Eq)]
enum Aim {
    Through,
    Rooms,
    MasterForm,
    MasterBounds,
}

const AIMS: [Aim; 4] = [Aim::Through, Aim::Rooms, Aim::MasterForm, Aim::MasterBounds];

/// The shares of the aims, in their order.
const WEIGHTS: [usize; 4] = [64, 10, 13, 13];

pub(super) const NUMBERS_ROOMS: SecondRooms =
    SecondRooms { enough: [640, 641, 1_000, 16_384], short: [639, 639, 5, 0] };

const SECOND_AIM_SHARE: usize = 30;
const WHOLE_MASTER_SHARE: usize = 75;
const EDITED_SHARE: usize = 15;

pub fn cases(seed: u64, count: usize) -> Vec<Case> {
    (0..count).map(|index| case(seed, index)).collect()
}

pub fn case(seed: u64, index: usize) -> Case {
    let mut chance = Chance::of_case(seed, index);
    let aims = aims(&mut chance);
    let mut master = returned_master(&mut chance, &rules_before_saving(), put_back);
    if aims.contains(&Aim::MasterBounds) {
        master = faults::faulty_master(&mut chance, master, false);
    }
    let mut file = node_line::write_file(&master);
    if aims.contains(&Aim::MasterForm) {
        file = damage::damaged(&mut chance, &file, FileKind::Nodes);
    }
    let mut case = Case::sweep(file);
    super::rooms(&mut chance, aims.contains(&Aim::Rooms), &mut case, &NUMBERS_ROOMS);
    case
}

fn aims(chance: &mut Chance) -> Vec<Aim> {
    let mut aims = vec![AIMS[chance.weighted(&WEIGHTS)]];
    if aims[0] != Aim::Through && chance.percent(SECOND_AIM_SHARE) {
        aims.push(AIMS[1 + chance.weighted(&WEIGHTS[1..])]);
    }
    aims
}

/// An old text marked changed keeps its mark, as before request #101: such masters are there to be
/// swept.
fn rules_before_saving() -> Rules {
    let mut rules = super::rules_before_padding();
    rules.saving.marks = SavedMarks::None;
    rules
}

/// What the first accepted put back returns.
pub(super) fn returned_master(
    chance: &mut Chance,
    rules: &Rules,
    put_back: fn(&mut Chance) -> Case,
) -> Vec<NodeLine> {
    loop {
        let reply = calls::answer(&put_back(chance), rules);
        if reply.number == 0 {
            return node_line::read_file(&reply.output, &rules.lines)
                .expect("a returned master is of right form");
        }
    }
}

/// Over the whole master it is accepted.
fn put_back(chance: &mut Chance) -> Case {
    let (master, program): (Vec<NodeLine>, Program) = match chance.percent(WHOLE_MASTER_SHARE) {
        true => (master(chance), build::source()),
        false => super::ground(chance, &[]),
    };
    let view = match super::run(&master, &program, &super::rules_before_padding()) {
        Ok((fresh, compared)) if chance.percent(EDITED_SHARE) => {
            edits::edited(chance, &fresh, &compared)
        }
        Ok((fresh, _)) => marked(chance, fresh),
        Err(_) => master.clone(),
    };
    super::with_files(Call::PutBack, &master, &program, &view)
}

/// Larger than most, so that there is much to remove and much to keep.
fn master(chance: &mut Chance) -> Vec<NodeLine> {
    match chance.percent(50) {
        true => {
            let nodes = chance.between(8, 40);
            let deepest = *chance.pick(&[2, 3, 7]);
            masters::forest(chance, nodes, deepest)
        }
        false => masters::master(chance),
    }
}

/// A fresh view, marked so that a sweep of the master has something to do, or nothing.
fn marked(chance: &mut Chance, mut view: Vec<NodeLine>) -> Vec<NodeLine> {
    let is_leaf = |place: usize, view: &[NodeLine]| {
        view.get(place + 1).is_none_or(|next| next.depth <= view[place].depth)
    };
    let (leaves, outer): (Vec<usize>, Vec<usize>) = (0..view.len())
        .filter(|&place| view[place].number != FROM_PROGRAM)
        .partition(|&place| is_leaf(place, &view));
    let all = [leaves.as_slice(), outer.as_slice()].concat();
    match chance.weighted(&[6, 8, 24, 14, 14, 8, 5, 30]) {
        0 => {}
        1 => change_some(chance, &mut view, &leaves, 50),
        2 => {
            let share = *chance.pick(&[10, 25, 50]);
            change_some(chance, &mut view, &leaves, 25);
            delete_some(chance, &mut view, &all, share);
        }
        3 => delete_some(chance, &mut view, &outer, 40),
        4 => delete_some(chance, &mut view, &leaves, 40),
        5 => {
            change_some(chance, &mut view, &leaves, 40);
            let first = all.iter().copied().min();
            delete_some(chance, &mut view, first.as_slice(), 100);
        }
        6 => delete_some(chance, &mut view, &all, 100),
        _ => delete_in_deleted(chance, &mut view, &leaves, &outer),
    }
    view
}

fn delete_some(chance: &mut Chance, view: &mut [NodeLine], places: &[usize], share: usize) {
    for &place in places {
        if chance.percent(share) {
            view[place].mark = Mark::Deleted;
        }
    }
}

/// Old texts marked changed are among them.
fn change_some(chance: &mut Chance, view: &mut [NodeLine], places: &[usize], share: usize) {
    for &place in places {
        if view[place].kind == Kind::Text && chance.percent(share) {
            view[place].mark = Mark::Changed;
            view[place].bytes = words::text(chance);
        }
    }
}

/// An element and some of what is in it deleted, some of the texts changed.
fn delete_in_deleted(
    chance: &mut Chance,
    view: &mut [NodeLine],
    leaves: &[usize],
    outer: &[usize],
) {
    if outer.is_empty() {
        return delete_some(chance, view, leaves, 50);
    }
    change_some(chance, view, leaves, 40);
    // Rather a later one, so that something is left.
    let element = outer[chance.below(outer.len()).max(chance.below(outer.len()))];
    let depth = view[element].depth;
    let inside = view[element + 1..].iter().take_while(|line| line.depth > depth).count();
    let within: Vec<usize> = [leaves, outer]
        .concat()
        .into_iter()
        .filter(|place| (element + 1..=element + inside).contains(place))
        .collect();
    delete_some(chance, view, &within, 35);
    view[element].mark = Mark::Deleted;
}
