//! The bench examples and the edges of sweeping, of saved lines, of padded texts and of word
//! orders; and seeded cases: each aims at a reply, some at two, and most at none.

pub mod bench;
mod build;
mod chance;
mod damage;
pub mod edge;
mod edits;
mod faults;
mod masters;
pub mod order_edges;
pub mod orders;
pub mod padded_edges;
pub mod pads;
mod programs;
pub mod saved_edges;
pub mod saves;
pub mod sweep_edges;
pub mod sweeps;
mod templates;
mod words;

use crate::entry;
use crate::node_line::{self, FROM_PROGRAM, NodeLine};
use crate::program;
use crate::rules::{Agreement, Rules};
use crate::showing::{Cause, Showing, Stop};
use crate::stream::{Call, Case};
use crate::tree;
use build::Program;
use chance::Chance;
use damage::FileKind;
use std::collections::BTreeSet;

/// The fault that a case is given.
#[derive(Clone, Copy, Debug, PartialEq, Eq)]
enum Aim {
    Through,
    Rooms,
    ProgramForm,
    ProgramTree,
    MasterForm,
    MasterBounds,
    Source,
    Size,
    ViewForm,
    ViewComparison,
    ProgramMarks,
}

const AIMS: [Aim; 11] = [
    Aim::Through,
    Aim::Rooms,
    Aim::ProgramForm,
    Aim::ProgramTree,
    Aim::MasterForm,
    Aim::MasterBounds,
    Aim::Source,
    Aim::Size,
    Aim::ViewForm,
    Aim::ViewComparison,
    Aim::ProgramMarks,
];

/// The shares of the aims, in their order.
const SHOW_WEIGHTS: [usize; 11] = [48, 6, 8, 10, 7, 8, 7, 7, 0, 0, 0];
const PUT_BACK_WEIGHTS: [usize; 11] = [62, 3, 4, 5, 4, 5, 3, 4, 6, 8, 6];

const WORK_ROOMS: SecondRooms =
    SecondRooms { enough: [16_384, 16_385, 20_000, 20_480], short: [16_383, 16_383, 128, 0] };

/// In entries.
const LONGEST_PROGRAM: usize = 96;

const PUT_BACK_SHARE: usize = 65;
const SECOND_AIM_SHARE: usize = 20;

pub fn cases(seed: u64, count: usize) -> Vec<Case> {
    (0..count).map(|index| case(seed, index)).collect()
}

/// A show or a put back; sweeps, views with many saved lines, padded texts and word orders have
/// streams of their own.
pub fn case(seed: u64, index: usize) -> Case {
    let mut chance = Chance::of_case(seed, index);
    let call = match chance.percent(PUT_BACK_SHARE) {
        true => Call::PutBack,
        false => Call::Show,
    };
    let aims = aims(&mut chance, call);
    let (master, program) = ground(&mut chance, &aims);
    let outcome = run(&master, &program, &rules_before_padding());
    let view = match (call, outcome) {
        (Call::PutBack, Ok((fresh, compared))) => view(&mut chance, &aims, &fresh, &compared),
        (Call::PutBack, Err(_)) => master.clone(),
        _ => Vec::new(),
    };
    files(&mut chance, call, &aims, (master, program), &view)
}

fn aims(chance: &mut Chance, call: Call) -> Vec<Aim> {
    let weights = match call {
        Call::PutBack => &PUT_BACK_WEIGHTS,
        _ => &SHOW_WEIGHTS,
    };
    let mut aims = vec![AIMS[chance.weighted(weights)]];
    if aims[0] != Aim::Through && chance.percent(SECOND_AIM_SHARE) {
        aims.push(AIMS[1 + chance.weighted(&weights[1..])]);
    }
    aims
}

/// A sound master and a sound program; the program runs on it unless a stop is aimed at.
fn ground(chance: &mut Chance, aims: &[Aim]) -> templates::Ground {
    if aims.contains(&Aim::Size) {
        return templates::too_large(chance);
    }
    let (master, mut program) = match chance.percent(30) {
        true => templates::running(chance),
        false => {
            let master = masters::master(chance);
            let program = programs::program(chance, &master);
            (master, program)
        }
    };
    if aims.contains(&Aim::ProgramMarks) {
        program = with_program_lines(chance, &master, program);
    }
    if aims.contains(&Aim::Source) {
        program = stopping(chance, &master, &program);
    } else if chance.percent(12) && program.len() < 60 {
        program = programs::deepened(chance, program, 12);
    }
    (master, program)
}

/// The rules by which the cases older than request #104 are made: test 11 compares byte for byte,
/// so that a seed makes the cases that it made then.
fn rules_before_padding() -> Rules {
    let mut rules = Rules::document();
    rules.showing.equals_by = Agreement::ByteForByte;
    rules
}

type Run = Result<(Vec<NodeLine>, BTreeSet<u16>), Stop>;

/// The fresh view and the numbers compared while it was made.
fn run(master: &[NodeLine], program: &Program, rules: &Rules) -> Run {
    let root = program::read(program, &rules.bounds).expect("grounds have sound programs");
    let mut showing = Showing::new(rules);
    let shown = showing.show(&root, &tree::from_lines(master))?;
    Ok((tree::to_lines(&shown), showing.compared))
}

/// A ground, with its fresh view and the numbers compared.
struct Shown {
    ground: templates::Ground,
    fresh: Vec<NodeLine>,
    compared: BTreeSet<u16>,
}

/// The first ground that runs and suits.
fn shown(
    chance: &mut Chance,
    rules: &Rules,
    ground: impl Fn(&mut Chance) -> templates::Ground,
    suits: impl Fn(&Shown) -> bool,
) -> Shown {
    loop {
        let ground = ground(chance);
        if let Ok((fresh, compared)) = run(&ground.0, &ground.1, rules) {
            let shown = Shown { ground, fresh, compared };
            if suits(&shown) {
                return shown;
            }
        }
    }
}

/// The program, with lines of its own in the view where it would have none.
fn with_program_lines(chance: &mut Chance, master: &[NodeLine], program: Program) -> Program {
    let has_some = |fresh: &[NodeLine]| fresh.iter().any(|line| line.number == FROM_PROGRAM);
    match run(master, &program, &rules_before_padding()) {
        Ok((fresh, _)) if has_some(&fresh) => program,
        Ok((fresh, _)) if fresh.len() < 128 && may_grow(&program) => {
            let own = build::text(&words::text(chance));
            match chance.percent(50) {
                true => build::beside(program, own),
                false => build::beside(own, program),
            }
        }
        _ => build::text(b"hi"),
    }
}

/// Whether two more entries, one of them around the program, keep its bounds.
fn may_grow(program: &Program) -> bool {
    program.len() + 2 <= LONGEST_PROGRAM && build::levels(program, 0) < 12
}

/// The program with a part that stops it for its source.
fn stopping(chance: &mut Chance, master: &[NodeLine], program: &Program) -> Program {
    for _ in 0..30 {
        let tried = faults::stop_for_source(chance, program);
        let sound = tried.len() <= LONGEST_PROGRAM
            && program::read(&tried, &Rules::document().bounds).is_ok();
        let outcome = || run(master, &tried, &rules_before_padding());
        if sound && matches!(outcome(), Err(stop) if stop.cause == Cause::Source) {
            return tried;
        }
    }
    build::and_then(build::nothing(), build::contents())
}

fn view(
    chance: &mut Chance,
    aims: &[Aim],
    fresh: &[NodeLine],
    compared: &BTreeSet<u16>,
) -> Vec<NodeLine> {
    let mut view = edits::edited(chance, fresh, compared);
    if aims.contains(&Aim::ProgramMarks) {
        faults::mark_program_lines(chance, &mut view);
    }
    if aims.contains(&Aim::ViewComparison) {
        view = faults::differing_view(chance, view);
    }
    view
}

/// The case's files, with the faults aimed at that are in the files themselves.
fn files(
    chance: &mut Chance,
    call: Call,
    aims: &[Aim],
    (mut master, mut program): templates::Ground,
    view: &[NodeLine],
) -> Case {
    if call == Call::Show && chance.percent(30) {
        masters::mark_some(chance, &mut master);
    }
    if aims.contains(&Aim::MasterBounds) {
        master = faults::faulty_master(chance, master, call == Call::PutBack);
    }
    if aims.contains(&Aim::ProgramTree) {
        program = faults::faulty_program(chance, program);
    }
    let mut damaged = |aim, file: Vec<u8>, kind| match aims.contains(&aim) {
        true => damage::damaged(chance, &file, kind),
        false => file,
    };
    let master = damaged(Aim::MasterForm, node_line::write_file(&master), FileKind::Nodes);
    let program = damaged(Aim::ProgramForm, entry::write_file(&program), FileKind::Program);
    let view = damaged(Aim::ViewForm, node_line::write_file(view), FileKind::Nodes);
    let mut case = Case::with_least_rooms(call, master, program, view);
    if call == Call::Show {
        case.view.clear();
    }
    rooms(chance, aims.contains(&Aim::Rooms), &mut case, &WORK_ROOMS);
    case
}

fn with_files(call: Call, master: &[NodeLine], program: &Program, view: &[NodeLine]) -> Case {
    let [master, view] = [master, view].map(node_line::write_file);
    Case::with_least_rooms(call, master, entry::write_file(program), view)
}

/// The second rooms that a case of a call may have; of the short ones the first is the largest.
struct SecondRooms {
    enough: [u32; 4],
    short: [u32; 4],
}

fn rooms(chance: &mut Chance, short: bool, case: &mut Case, second: &SecondRooms) {
    if chance.percent(30) {
        case.output_room = *chance.pick(&[9_856, 9_857, 12_000, 16_384]);
        case.second_room = *chance.pick(&second.enough);
    }
    if short {
        match chance.below(3) {
            0 => case.output_room = *chance.pick(&[9_855, 9_855, 34, 0]),
            1 => case.second_room = *chance.pick(&second.short),
            _ => (case.output_room, case.second_room) = (9_855, second.short[0]),
        }
    }
}
