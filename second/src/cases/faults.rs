//! Files of right form that break a rule: masters (5), programs (3) and views (9).

use super::build::{self, Program};
use super::chance::Chance;
use super::masters::Draft;
use super::programs;
use super::words;
use crate::entry::Entry;
use crate::node_line::{FROM_PROGRAM, Kind, Mark, NodeLine};

/// A master that breaks a bound or a number; marks are a fault only for putting back.
pub fn faulty_master(chance: &mut Chance, mut lines: Vec<NodeLine>, marks: bool) -> Vec<NodeLine> {
    if lines.is_empty() || chance.percent(12) {
        return too_deep(chance);
    }
    let place = chance.below(lines.len());
    match chance.below(if marks { 10 } else { 6 }) {
        0 => lines[place].number = FROM_PROGRAM,
        1 => lines[place].number = lines[place].number.wrapping_add(1),
        2 => lines[place].number = lines[place].number.swap_bytes() | 0x0100,
        3 => lines[0].depth = 1,
        4 => lines[place].depth = 8,
        5 => jump(chance, &mut lines),
        6 => super::masters::mark_some(chance, &mut lines),
        _ => lines[place].mark = Mark::Deleted,
    }
    lines
}

/// A depth two more than that of the line before, or one more under a text or an order.
fn jump(chance: &mut Chance, lines: &mut [NodeLine]) {
    if lines.len() < 2 {
        lines[0].depth = 2;
        return;
    }
    let place = chance.between(1, lines.len() - 1);
    let before = &lines[place - 1];
    lines[place].depth = match before.kind {
        Kind::Text | Kind::Order => before.depth + 1,
        Kind::Element => before.depth + 2,
    };
}

/// Nine elements one in another: the last has depth 8.
fn too_deep(chance: &mut Chance) -> Vec<NodeLine> {
    let mut draft = Draft::default();
    for depth in 0..9 {
        draft.element(depth, words::tag(chance));
    }
    draft.lines
}

/// A program that breaks the tree or a bound.
pub fn faulty_program(chance: &mut Chance, mut program: Program) -> Program {
    let place = chance.below(program.len());
    match chance.below(13) {
        0 => {
            program.pop();
        }
        1 => {
            program.remove(place);
        }
        2 => program.extend(leftover(chance)),
        3 | 4 => return programs::deepened(chance, program, 13),
        5 => return each_in_each(chance),
        6 | 7 => return bind_in_bind(chance),
        8 => replace(&mut program, place, &build::slot(0x5A)),
        9 => return unbound(chance),
        10 => replace(&mut program, place, &[Entry::IsElement]),
        11 => return longest_program(),
        _ => return no_test(chance, program),
    }
    program
}

/// The longest file of right form; only its first line is a program.
fn longest_program() -> Program {
    vec![Entry::Text(vec![b'a'; 32]); 96]
}

fn leftover(chance: &mut Chance) -> Program {
    match chance.below(3) {
        0 => build::source(),
        1 => vec![Entry::IsElement],
        _ => build::beside(build::source(), build::source()),
    }
}

fn replace(program: &mut Program, place: usize, part: &[Entry]) {
    let end = build::end_of(program, place);
    program.splice(place..end, part.iter().cloned());
}

/// Four 0A on one path, one of them perhaps in a test.
fn each_in_each(chance: &mut Chance) -> Program {
    let mut program = build::each(build::source());
    if chance.percent(50) {
        program = build::choose(build::equals(program), build::source(), build::nothing());
    }
    for _ in 0..3 {
        program = build::each(program);
        if chance.percent(30) {
            program = build::and_then(build::source(), program);
        }
    }
    program
}

/// Five 0C on one path, one of them perhaps in a test.
fn bind_in_bind(chance: &mut Chance) -> Program {
    let name = words::slot(chance);
    let mut program = build::bind(name, build::slot(name));
    if chance.percent(50) {
        program = build::choose(build::equals(program), build::source(), build::nothing());
    }
    for _ in 0..4 {
        program = build::bind(words::slot(chance), program);
        if chance.percent(30) {
            program = build::beside(program, build::nothing());
        }
    }
    program
}

/// A slot used beside the 0C that binds it, or under one of another name.
fn unbound(chance: &mut Chance) -> Program {
    let name = words::slot(chance);
    match chance.below(3) {
        0 => build::beside(build::bind(name, build::slot(name)), build::slot(name)),
        1 => build::bind(name, build::slot(name.wrapping_add(2))),
        _ => build::bind(
            name,
            build::choose(
                build::equals(build::slot(name ^ 0x40)),
                build::source(),
                build::nothing(),
            ),
        ),
    }
}

/// A transformation where a test is asked for.
fn no_test(chance: &mut Chance, program: Program) -> Program {
    let asked = match chance.percent(50) {
        true => build::contents(),
        false => build::nothing(),
    };
    build::choose(asked, program, build::source())
}

/// Puts in a part that may stop the run for its source.
pub fn stop_for_source(chance: &mut Chance, program: &Program) -> Program {
    let places: Vec<usize> =
        (0..program.len()).filter(|&place| !build::is_test(&program[place])).collect();
    let mut stopping = program.clone();
    replace(&mut stopping, *chance.pick(&places), &stopper(chance));
    stopping
}

fn stopper(chance: &mut Chance) -> Program {
    let chosen = |test| build::choose(test, build::source(), build::nothing());
    match chance.below(9) {
        0 => build::contents(),
        1 => build::within(build::source()),
        2 => chosen(build::leaf(Entry::IsElement)),
        3 => chosen(build::leaf(Entry::Tagged(words::tag(chance)))),
        4 => chosen(build::equals(build::text(b"hi"))),
        5 => chosen(build::equals(build::nothing())),
        6 => chosen(build::equals(build::and_then(build::nothing(), build::contents()))),
        7 => chosen(build::equals(build::tag(b"a"))),
        _ => build::and_then(build::contents(), build::contents()),
    }
}

/// A view that differs from the fresh one where it may not.
pub fn differing_view(chance: &mut Chance, mut view: Vec<NodeLine>) -> Vec<NodeLine> {
    let extra = NodeLine {
        depth: 0,
        kind: Kind::Text,
        mark: Mark::Untouched,
        number: 0,
        bytes: vec![0x61],
    };
    if view.is_empty() {
        return vec![extra];
    }
    let place = chance.below(view.len());
    match chance.below(10) {
        0 => {
            view.truncate(place);
        }
        1 => view.push(extra),
        2 => {
            view.remove(place);
        }
        3 => view[place].depth = view[place].depth.wrapping_add(*chance.pick(&[1, 1, 0xFF])),
        4 => other_kind(&mut view[place]),
        5 => view[place].number = *chance.pick(&[FROM_PROGRAM, 0, 1, 0x0100, 0x0080]),
        6 | 7 => other_bytes(chance, &mut view[place]),
        8 => {
            let last = view.len() - 1;
            view.swap(0, last);
        }
        _ => {
            other_bytes(chance, &mut view[place]);
            view.push(extra);
        }
    }
    view
}

fn other_kind(line: &mut NodeLine) {
    match line.kind {
        Kind::Element => line.kind = Kind::Text,
        Kind::Text | Kind::Order => {
            line.kind = Kind::Element;
            line.bytes = b"w".to_vec();
            if line.mark == Mark::Changed {
                line.mark = Mark::Untouched;
            }
        }
    }
}

/// Other bytes on a line that is not marked changed: longer, shorter, or another byte.
fn other_bytes(chance: &mut Chance, line: &mut NodeLine) {
    line.mark = *chance.pick(&[Mark::Untouched, Mark::Deleted]);
    match chance.below(3) {
        0 if line.bytes.len() < 32 => line.bytes.push(b'a'),
        1 if line.bytes.len() > 1 => {
            line.bytes.pop();
        }
        _ => match line.bytes.last_mut() {
            Some(last) => *last ^= 0x01,
            None => line.bytes.push(b'a'),
        },
    }
}

/// Marks some lines from the program; a line that may be changed often is.
pub fn mark_program_lines(chance: &mut Chance, view: &mut [NodeLine]) {
    let from_program: Vec<usize> =
        (0..view.len()).filter(|&place| view[place].number == FROM_PROGRAM).collect();
    if from_program.is_empty() {
        return;
    }
    for _ in 0..chance.between(1, 2) {
        let line = &mut view[*chance.pick(&from_program)];
        line.mark = match line.kind {
            Kind::Text if chance.percent(60) => Mark::Changed,
            _ => Mark::Deleted,
        };
    }
}
