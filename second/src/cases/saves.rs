//! Seeded put backs of views in which many lines were saved without touching and a few edited, over
//! programs with copies and tests.

use super::build::{self, Program};
use super::chance::Chance;
use super::{Aim, LONGEST_PROGRAM, Shown, WORK_ROOMS, templates, words};
use crate::node_line::{FROM_PROGRAM, Kind, Mark, NodeLine};
use crate::stream::{Call, Case};

const AIMS: [Aim; 3] = [Aim::Through, Aim::ViewComparison, Aim::ProgramMarks];

/// The shares of the aims, in their order.
const WEIGHTS: [usize; 3] = [80, 8, 12];

const TEMPLATE_SHARE: usize = 40;
const COPIED_SHARE: usize = 70;

const EDITING: Editing = Editing { new_text: near, compared_if_no_other: false };

pub fn cases(seed: u64, count: usize) -> Vec<Case> {
    (0..count).map(|index| case(seed, index)).collect()
}

pub fn case(seed: u64, index: usize) -> Case {
    let mut chance = Chance::of_case(seed, index);
    let aim = AIMS[chance.weighted(&WEIGHTS)];
    let shown = shown(&mut chance, aim);
    let mut view = visited(&mut chance, &shown.fresh, aim);
    edit_some(&mut chance, &shown, &mut view, &EDITING);
    if aim == Aim::ViewComparison {
        misplace(&mut chance, &mut view);
    }
    let (master, program) = shown.ground;
    let mut case = super::with_files(Call::PutBack, &master, &program, &view);
    super::rooms(&mut chance, false, &mut case, &WORK_ROOMS);
    case
}

/// A ground whose fresh view has a text of the master.
fn shown(chance: &mut Chance, aim: Aim) -> Shown {
    let ground = |chance: &mut Chance| ground(chance, aim);
    let suits = |shown: &Shown| shown.fresh.iter().any(is_text_of_the_master);
    super::shown(chance, &super::rules_before_padding(), ground, suits)
}

fn ground(chance: &mut Chance, aim: Aim) -> templates::Ground {
    let (master, mut program) = match chance.percent(TEMPLATE_SHARE) {
        true => templates::running(chance),
        false => super::ground(chance, &[]),
    };
    if chance.percent(COPIED_SHARE) {
        program = doubled(program);
    }
    if aim == Aim::ProgramMarks {
        program = super::with_program_lines(chance, &master, program);
    }
    (master, program)
}

/// The program beside itself, if that keeps its bounds.
pub(super) fn doubled(program: Program) -> Program {
    match 2 * program.len() < LONGEST_PROGRAM && build::levels(&program, 0) < 12 {
        true => build::beside(program.clone(), program),
        false => program,
    }
}

fn is_text(line: &NodeLine) -> bool {
    line.kind != Kind::Element
}

pub(super) fn is_text_of_the_master(line: &NodeLine) -> bool {
    is_text(line) && line.number != FROM_PROGRAM
}

/// The fresh view with a few edits; in a share of the views lines were visited too.
pub(super) fn edited(
    chance: &mut Chance,
    shown: &Shown,
    visited_share: usize,
    editing: &Editing,
) -> Vec<NodeLine> {
    let mut view = match chance.percent(visited_share) {
        true => visited(chance, &shown.fresh, Aim::Through),
        false => shown.fresh.clone(),
    };
    edit_some(chance, shown, &mut view, editing);
    view
}

/// The fresh view as an editor leaves it that marks each line it has visited.
fn visited(chance: &mut Chance, fresh: &[NodeLine], aim: Aim) -> Vec<NodeLine> {
    let mut view = fresh.to_vec();
    let share = *chance.pick(&[100, 90, 60, 30]);
    for line in view.iter_mut().filter(|line| is_text(line)) {
        let may_be_visited = line.number != FROM_PROGRAM || aim == Aim::ProgramMarks;
        if may_be_visited && chance.percent(share) {
            line.mark = Mark::Changed;
        }
    }
    view
}

/// A new text, made from the fresh line.
type NewText = fn(&mut Chance, &NodeLine) -> Vec<u8>;

/// How a few nodes are edited.
pub(super) struct Editing {
    pub new_text: NewText,
    /// Whether, where only compared nodes could be edited, these are.
    pub compared_if_no_other: bool,
}

/// Edits a few nodes: texts rather than elements, and often none that was compared.
fn edit_some(chance: &mut Chance, shown: &Shown, view: &mut [NodeLine], editing: &Editing) {
    let Shown { fresh, compared, .. } = shown;
    let with_elements = chance.percent(25);
    let open = |with_compared: bool| -> Vec<u16> {
        let may_be_edited = |line: &&NodeLine| {
            line.number != FROM_PROGRAM
                && (with_elements || is_text(line))
                && (with_compared || !compared.contains(&line.number))
        };
        fresh.iter().filter(may_be_edited).map(|line| line.number).collect()
    };
    let mut numbers = open(chance.percent(50));
    if numbers.is_empty() && editing.compared_if_no_other {
        numbers = open(true);
    }
    for _ in 0..chance.weighted(&[15, 45, 25, 15]) {
        if !numbers.is_empty() {
            let number = *chance.pick(&numbers);
            edit_node(chance, number, fresh, view, editing.new_text);
        }
    }
}

/// Edits one line of a node, some alike, or each in its own way.
fn edit_node(
    chance: &mut Chance,
    number: u16,
    fresh: &[NodeLine],
    view: &mut [NodeLine],
    new_text: NewText,
) {
    let places: Vec<usize> =
        (0..fresh.len()).filter(|&place| fresh[place].number == number).collect();
    let one = *chance.pick(&places);
    let alike = edit(chance, &fresh[one], new_text);
    let way = chance.weighted(&[50, 30, 20]);
    for place in places {
        let edit = match way {
            0 if place == one => alike.clone(),
            1 if chance.percent(50) => alike.clone(),
            2 => edit(chance, &fresh[place], new_text),
            _ => continue,
        };
        (view[place].mark, view[place].bytes) = edit;
    }
}

/// The mark and the bytes that a line is given.
fn edit(chance: &mut Chance, fresh: &NodeLine, new_text: NewText) -> (Mark, Vec<u8>) {
    match is_text(fresh) && chance.percent(70) {
        true => (Mark::Changed, new_text(chance, fresh)),
        false => (Mark::Deleted, fresh.bytes.clone()),
    }
}

/// A text a little off the old one, or a word.
fn near(chance: &mut Chance, fresh: &NodeLine) -> Vec<u8> {
    let old = fresh.bytes.as_slice();
    match (chance.below(8), old) {
        (0, _) if old.len() < 32 => [old, b" "].concat(),
        (1, _) if old.len() < 32 => [old, b"\0"].concat(),
        (2, [first, behind @ ..]) => [&[first ^ 0x01], behind].concat(),
        (3, [before @ .., last]) => [before, &[last ^ 0x01]].concat(),
        (4, [before @ .., _]) => before.to_vec(),
        (5, _) => old.to_ascii_uppercase(),
        _ => words::text(chance),
    }
}

/// A line that stands at another depth, has another number, or is missing.
fn misplace(chance: &mut Chance, view: &mut Vec<NodeLine>) {
    let place = chance.below(view.len());
    match chance.below(3) {
        0 => view[place].depth += 1,
        1 => view[place].number ^= 0x01,
        _ => {
            view.remove(place);
        }
    }
}
