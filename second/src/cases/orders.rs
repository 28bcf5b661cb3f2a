//! Seeded shows, put backs and sweeps over word orders: masters with many of them beside texts of
//! the same bytes, programs that copy and compare them, and views with edits of all sorts; some
//! with a fault in an order.

use super::build::{self, Program};
use super::chance::Chance;
use super::saves::{self, Editing};
use super::sweeps::{self, NUMBERS_ROOMS};
use super::templates::Ground;
use super::{Aim, Shown, WORK_ROOMS, faults, masters, pads, words};
use crate::entry::Entry;
use crate::node_line::{self, Kind, Mark, NodeLine};
use crate::rules::Rules;
use crate::showing::Cause;
use crate::stream::{Call, Case};

const CALLS: [Call; 3] = [Call::Show, Call::PutBack, Call::Sweep];

/// The shares of the calls, in their order.
const CALL_WEIGHTS: [usize; 3] = [24, 57, 19];

const AIMS: [Aim; 6] = [
    Aim::Through,
    Aim::MasterForm,
    Aim::MasterBounds,
    Aim::Source,
    Aim::ViewForm,
    Aim::ViewComparison,
];

/// The shares of the aims, in their order.
const SHOW_WEIGHTS: [usize; 6] = [60, 16, 6, 18, 0, 0];
const PUT_BACK_WEIGHTS: [usize; 6] = [68, 4, 3, 4, 10, 11];
const SWEEP_WEIGHTS: [usize; 6] = [74, 16, 10, 0, 0, 0];

/// The shares of the sorts of grounds, in their order.
const GROUND_WEIGHTS: [usize; 4] = [12, 30, 8, 50];

/// In nodes; larger masters would not have more sorts of texts.
const LARGEST_MASTER: usize = 24;

const ORDER_SHARE: usize = 60;
const COPIED_SHARE: usize = 40;
const VISITED_SHARE: usize = 35;
const MARKED_SHARE: usize = 30;
const RETURNED_SHARE: usize = 40;

const EDITING: Editing = Editing { new_text: reordered, compared_if_no_other: false };

const WORDS: [&[u8]; 2] = [b"hi-lo", b"lo-hi"];
const MARKS: [Mark; 3] = [Mark::Untouched, Mark::Changed, Mark::Deleted];

pub fn cases(seed: u64, count: usize) -> Vec<Case> {
    (0..count).map(|index| case(seed, index)).collect()
}

pub fn case(seed: u64, index: usize) -> Case {
    let mut chance = Chance::of_case(seed, index);
    let call = CALLS[chance.weighted(&CALL_WEIGHTS)];
    let (weights, second_rooms) = match call {
        Call::Show => (&SHOW_WEIGHTS, &WORK_ROOMS),
        Call::PutBack => (&PUT_BACK_WEIGHTS, &WORK_ROOMS),
        Call::Sweep => (&SWEEP_WEIGHTS, &NUMBERS_ROOMS),
    };
    let aim = AIMS[chance.weighted(weights)];
    let mut case = match call {
        Call::Show => show(&mut chance, aim),
        Call::PutBack => put_back(&mut chance, aim),
        Call::Sweep => sweep(&mut chance, aim),
    };
    super::rooms(&mut chance, false, &mut case, second_rooms);
    case
}

fn show(chance: &mut Chance, aim: Aim) -> Case {
    let (mut master, program) = match aim {
        Aim::Source => stopping(chance),
        _ => shown(chance).ground,
    };
    if chance.percent(MARKED_SHARE) {
        masters::mark_some(chance, &mut master);
    }
    let master = faulty(chance, master, aim, false);
    super::with_files(Call::Show, &master, &program, &[])
}

fn put_back(chance: &mut Chance, aim: Aim) -> Case {
    if aim == Aim::Source {
        let (master, program) = stopping(chance);
        return super::with_files(Call::PutBack, &master, &program, &master);
    }
    let shown = shown(chance);
    let mut view = saves::edited(chance, &shown, VISITED_SHARE, &EDITING);
    match aim {
        Aim::ViewForm => misspell(chance, &mut view),
        Aim::ViewComparison => differ(chance, &shown.fresh, &mut view),
        _ => {}
    }
    let (master, program) = shown.ground;
    let master = faulty(chance, master, aim, true);
    super::with_files(Call::PutBack, &master, &program, &view)
}

fn sweep(chance: &mut Chance, aim: Aim) -> Case {
    let master = match chance.percent(RETURNED_SHARE) {
        true => {
            let put_back = |chance: &mut Chance| put_back(chance, Aim::Through);
            sweeps::returned_master(chance, &Rules::document(), put_back)
        }
        false => {
            let (mut master, _) = shown(chance).ground;
            masters::mark_some(chance, &mut master);
            master
        }
    };
    Case::sweep(node_line::write_file(&faulty(chance, master, aim, false)))
}

/// A ground whose fresh view has an order.
fn shown(chance: &mut Chance) -> Shown {
    let suits =
        |shown: &Shown| shown.fresh.iter().any(is_order) && shown.ground.0.len() <= LARGEST_MASTER;
    super::shown(chance, &Rules::document(), ground, suits)
}

fn is_order(line: &NodeLine) -> bool {
    line.kind == Kind::Order
}

fn ground(chance: &mut Chance) -> Ground {
    let (mut master, mut program) = pads::drawn(chance, &GROUND_WEIGHTS, COPIED_SHARE);
    order_some(chance, &mut master, ORDER_SHARE);
    for entry in &mut program {
        if let Entry::Text(text) = entry {
            *text = near_order(chance);
        }
    }
    (master, program)
}

/// A share of the texts become orders, the others texts that look like one.
fn order_some(chance: &mut Chance, master: &mut [NodeLine], share: usize) {
    for line in master.iter_mut().filter(|line| line.kind == Kind::Text) {
        if chance.percent(share) {
            line.kind = Kind::Order;
            line.bytes = word(chance).to_vec();
        } else {
            line.bytes = near_order(chance);
        }
    }
}

/// Rather the first word, so that two often agree.
fn word(chance: &mut Chance) -> &'static [u8] {
    match chance.percent(65) {
        true => WORDS[0],
        false => WORDS[1],
    }
}

fn other_word(word: &[u8]) -> Vec<u8> {
    let other = if word == WORDS[0] { WORDS[1] } else { WORDS[0] };
    other.to_vec()
}

/// One of the words, padded or not, or what looks like it, or another text.
fn near_order(chance: &mut Chance) -> Vec<u8> {
    match chance.weighted(&[45, 20, 25, 10]) {
        0 => word(chance).to_vec(),
        1 => [word(chance), &vec![b' '; chance.between(1, 9)]].concat(),
        2 => misspelt(chance),
        _ => words::text(chance),
    }
}

/// Bytes that look like an order, and are none.
fn misspelt(chance: &mut Chance) -> Vec<u8> {
    let word = WORDS[chance.below(2)];
    let (half, other_half) = (&word[..2], &word[3..]);
    match chance.below(17) {
        0 => word.to_ascii_uppercase(),
        1 => [&half.to_ascii_uppercase(), &word[2..]].concat(),
        2 | 3 => [half, other_half].concat(),
        4 => [half, chance.pick(&[b"_", b" ", b"/"]).as_slice(), other_half].concat(),
        5 | 6 => [word, &vec![b' '; chance.between(1, 27)]].concat(),
        7 => [b" ", word].concat(),
        8 => [word, chance.pick(&[b"\0", b"\n", b"-"]).as_slice()].concat(),
        9 => word[..chance.below(5)].to_vec(),
        10 => word[chance.between(1, 4)..].to_vec(),
        11 => Vec::new(),
        12 => [half, b"-", half].concat(),
        13 => [word, &other_word(word)].concat(),
        14 => with_another_bit(chance, word, 0),
        15 => with_another_bit(chance, word, 4),
        _ => {
            let place = chance.below(5);
            with_another_bit(chance, word, place)
        }
    }
}

fn with_another_bit(chance: &mut Chance, word: &[u8], place: usize) -> Vec<u8> {
    let mut bytes = word.to_vec();
    bytes[place] ^= 1 << chance.below(8);
    bytes
}

/// Mostly the other order, else the old one; any text for a text.
fn reordered(chance: &mut Chance, fresh: &NodeLine) -> Vec<u8> {
    match fresh.kind {
        Kind::Order if chance.percent(80) => other_word(&fresh.bytes),
        Kind::Order => fresh.bytes.clone(),
        Kind::Text | Kind::Element => near_order(chance),
    }
}

/// A program that stops for its source, mostly at an order.
fn stopping(chance: &mut Chance) -> Ground {
    let at_an_order = chance.percent(75);
    loop {
        let (mut master, mut program) = shown(chance).ground;
        if at_an_order {
            order_some(chance, &mut master, 100);
            program = stopping_at_an_order(chance);
        } else {
            program = super::stopping(chance, &master, &program);
        }
        let outcome = super::run(&master, &program, &Rules::document());
        if matches!(outcome, Err(stop) if stop.cause == Cause::Source) {
            return (master, program);
        }
    }
}

/// Each top node that is no element goes where an element is needed.
fn stopping_at_an_order(chance: &mut Chance) -> Program {
    let needs_an_element = match chance.below(4) {
        0 => build::contents(),
        1 => build::within(build::source()),
        2 => build::within(build::nothing()),
        _ => {
            let test = build::leaf(Entry::Tagged(words::tag(chance)));
            build::choose(test, build::source(), build::nothing())
        }
    };
    let test = build::leaf(Entry::IsElement);
    build::each(build::choose(test, build::source(), needs_an_element))
}

/// The master with the fault that is aimed at, if it is one of masters.
fn faulty(
    chance: &mut Chance,
    mut master: Vec<NodeLine>,
    aim: Aim,
    marks_are_faults: bool,
) -> Vec<NodeLine> {
    match aim {
        Aim::MasterForm => misspell(chance, &mut master),
        Aim::MasterBounds if chance.percent(60) => put_under_an_order(chance, &mut master),
        Aim::MasterBounds => return faults::faulty_master(chance, master, marks_are_faults),
        _ => {}
    }
    master
}

fn orders_in(lines: &[NodeLine]) -> Vec<usize> {
    (0..lines.len()).filter(|&place| is_order(&lines[place])).collect()
}

/// An order gets other bytes, under any mark.
fn misspell(chance: &mut Chance, lines: &mut [NodeLine]) {
    let line = &mut lines[*chance.pick(&orders_in(lines))];
    line.mark = *chance.pick(&MARKS);
    line.bytes = misspelt(chance);
}

/// A line is put in under an order.
fn put_under_an_order(chance: &mut Chance, lines: &mut Vec<NodeLine>) {
    let place = *chance.pick(&orders_in(lines));
    let mut under = lines[chance.below(lines.len())].clone();
    under.depth = lines[place].depth + 1;
    lines.insert(place + 1, under);
    lines.iter_mut().zip(0..).for_each(|(line, number)| line.number = number);
}

/// A line gets another kind and keeps its bytes, or the other word without being marked 01.
fn differ(chance: &mut Chance, fresh: &[NodeLine], view: &mut [NodeLine]) {
    let has_word = |line: &NodeLine| WORDS.contains(&line.bytes.as_slice());
    let places: Vec<usize> = (0..fresh.len()).filter(|&place| has_word(&fresh[place])).collect();
    let place = *chance.pick(&places);
    let mut line = fresh[place].clone();
    let unchanged = *chance.pick(&[Mark::Untouched, Mark::Deleted]);
    line.mark = *chance.pick(&MARKS);
    match (line.kind, chance.below(4)) {
        (Kind::Order, 0 | 1) => {
            line.bytes = other_word(&line.bytes);
            line.mark = unchanged;
        }
        (Kind::Order, 2) => line.kind = Kind::Text,
        (Kind::Order, _) => {
            line.kind = Kind::Element;
            line.mark = unchanged;
        }
        (Kind::Text | Kind::Element, _) => line.kind = Kind::Order,
    }
    view[place] = line;
}
