//! Masters with programs that exercise one thing each: comparisons, slots, levels, sizes.

use super::build::{self, Program};
use super::chance::Chance;
use super::masters::{self, Draft};
use super::words;
use crate::entry::Entry;
use crate::node_line::NodeLine;

pub type Ground = (Vec<NodeLine>, Program);

/// A ground on which the program runs to its end.
pub fn running(chance: &mut Chance) -> Ground {
    match chance.below(11) {
        10 => full_program(chance),
        0 => pairs_compared(chance),
        8 => slots_compared(chance),
        9 => key_compared(chance),
        1 => compared_and_thrown_away(chance),
        2 => three_eaches(chance),
        3 => four_binds(chance),
        4 => withins(chance),
        5 => copies(chance),
        6 => filled(chance),
        _ => chosen_by_tag(chance),
    }
}

/// A ground on which texts are often compared.
pub fn comparing(chance: &mut Chance) -> Ground {
    match chance.below(5) {
        0 => pairs_compared(chance),
        1 => slots_compared(chance),
        2 => key_compared(chance),
        3 => compared_and_thrown_away(chance),
        _ => three_eaches(chance),
    }
}

/// Every text beside every text, through slots that may shadow one another.
fn pairs_compared(chance: &mut Chance) -> Ground {
    let count = chance.between(1, 4);
    let (all, one, other) = (words::slot(chance), words::slot(chance), words::slot(chance));
    let branches = [
        build::source(),
        build::nothing(),
        build::slot(one),
        build::slot(other),
        build::text(&words::text(chance)),
        build::beside(build::slot(other), build::source()),
    ];
    let test = build::equals(build::slot(*chance.pick(&[other, other, one])));
    let yes = chance.pick(&branches).clone();
    let no = chance.pick(&branches).clone();
    let compare = build::and_then(build::slot(one), build::choose(test, yes, no));
    let inner = build::each(build::bind(other, compare));
    let outer = build::each(build::bind(one, build::and_then(build::slot(all), inner)));
    let program = build::bind(all, build::and_then(build::slot(all), outer));
    (masters::flat_texts(chance, count), program)
}

/// A text of the program is the source of the test, the master's text comes from a slot.
fn slots_compared(chance: &mut Chance) -> Ground {
    let count = chance.between(1, 5);
    let name = words::slot(chance);
    let branches = [
        build::slot(name),
        build::slot(name),
        build::source(),
        build::beside(build::source(), build::slot(name)),
    ];
    let yes = chance.pick(&branches).clone();
    let no = chance.pick(&branches).clone();
    let compare = build::choose(build::equals(build::slot(name)), yes, no);
    let item = build::and_then(build::text(&words::text(chance)), compare);
    (masters::flat_texts(chance, count), build::each(build::bind(name, item)))
}

/// A key in an element beside texts: the key is compared with each text, as X of the test.
fn key_compared(chance: &mut Chance) -> Ground {
    let mut draft = Draft::default();
    draft.element(0, words::tag(chance));
    draft.text(1, words::text(chance));
    for _ in 0..chance.between(0, 4) {
        draft.text(0, words::text(chance));
    }
    let (all, key) = (0x07, words::slot(chance) | 0x10);
    let is_element = || build::leaf(Entry::IsElement);
    let shown = chance.pick(&[build::source(), build::nothing(), build::slot(key)]).clone();
    let compare = build::choose(build::equals(build::slot(key)), shown, build::nothing());
    let texts = build::each(build::choose(is_element(), build::slot(key), compare));
    let with_key = build::bind(key, build::and_then(build::slot(all), texts));
    let of_element = build::and_then(build::contents(), with_key);
    let other = chance.pick(&[build::source(), build::nothing()]).clone();
    let items = build::each(build::choose(is_element(), of_element, other));
    (draft.lines, build::bind(all, build::and_then(build::slot(all), items)))
}

/// The texts are shown, and beside that compared in a part that shows nothing or a text of
/// the program.
fn compared_and_thrown_away(chance: &mut Chance) -> Ground {
    let texts = build::and_then(build::contents(), build::each(build::contents()));
    let test = build::equals(build::text(&words::text(chance)));
    let yes = chance.pick(&[build::source(), build::nothing()]).clone();
    let compare = build::each(build::choose(test, yes, build::source()));
    let thrown_away = chance.pick(&[build::nothing(), build::text(b"hi")]).clone();
    let looked_at = match chance.percent(50) {
        true => texts.clone(),
        false => build::and_then(build::contents(), first_rows(chance)),
    };
    let lost = build::and_then(build::and_then(looked_at, compare), thrown_away);
    let program = match chance.percent(50) {
        true => build::beside(texts, lost),
        false => build::beside(lost, texts),
    };
    (masters::rows(chance), program)
}

/// The texts of those rows that have one tag.
fn first_rows(chance: &mut Chance) -> Program {
    let test = build::leaf(Entry::Tagged(words::tag(chance)));
    build::each(build::choose(test, build::contents(), build::nothing()))
}

fn three_eaches(chance: &mut Chance) -> Ground {
    let inmost = match chance.below(3) {
        0 => build::source(),
        1 => build::choose(
            build::equals(build::text(&words::text(chance))),
            build::source(),
            build::nothing(),
        ),
        _ => build::beside(build::source(), build::source()),
    };
    let item = build::and_then(build::contents(), inmost);
    let group = build::and_then(build::contents(), build::each(item));
    let whole = build::and_then(build::contents(), build::each(group));
    (masters::layers(chance), build::each(whole))
}

/// Four 0C one in another, each bound to the slot of the one around it or to a text.
fn four_binds(chance: &mut Chance) -> Ground {
    let names: Vec<u8> = (0..4).map(|_| words::slot(chance)).collect();
    let last = names[3];
    let first = names[0];
    let mut program = match chance.below(3) {
        0 => build::beside(build::slot(first), build::slot(last)),
        1 => build::slot(first),
        _ => build::beside(build::slot(last), build::text(b"lo")),
    };
    for (at, &name) in names.iter().enumerate().rev() {
        program = build::bind(name, program);
        if at > 0 && chance.percent(80) {
            program = build::and_then(build::slot(names[at - 1]), program);
        }
    }
    (masters::rows(chance), program)
}

/// 07 one in another down a chain of elements, up to twelve levels of entries.
fn withins(chance: &mut Chance) -> Ground {
    let elements = chance.between(3, 8);
    let depth = chance.between(1, elements);
    let mut program = match chance.below(3) {
        0 => build::nothing(),
        1 => build::beside(build::source(), build::text(b"lo")),
        _ => build::source(),
    };
    for _ in 0..depth {
        program = build::within(program);
    }
    (masters::nested(chance, elements), program)
}

/// One node shown many times.
fn copies(chance: &mut Chance) -> Ground {
    let texts = chance.between(1, 6);
    let mut program = build::source();
    for _ in 0..chance.between(1, 3) {
        program = match chance.below(3) {
            0 => build::beside(program, build::source()),
            1 => build::and_then(build::beside(build::source(), build::source()), program),
            _ => build::each(build::beside(build::source(), build::source())),
        };
    }
    (masters::flat_texts(chance, texts), program)
}

/// A view of exactly 128 lines, the longest file there is, or a view as deep as may be.
fn filled(chance: &mut Chance) -> Ground {
    match chance.below(4) {
        0 => {
            let doubled = build::beside(build::source(), build::source());
            (masters::flat_texts(chance, 64), doubled)
        }
        1 => (element_of_texts(chance, 127), build::within(build::source())),
        2 => {
            let mut draft = Draft::default();
            (0..128).for_each(|number| draft.text(0, vec![number; 32]));
            (draft.lines, build::source())
        }
        _ => {
            let around = around_slot(words::slot(chance));
            (masters::nested(chance, 8), build::and_then(around.clone(), around))
        }
    }
}

/// A program of 96 entries, most of which show nothing.
fn full_program(chance: &mut Chance) -> Ground {
    let mut parts: Vec<Program> = (0..48).map(|_| build::nothing()).collect();
    for _ in 0..chance.between(1, 3) {
        parts[chance.below(48)] = build::source();
    }
    parts[47] = build::each(build::source());
    while parts.len() > 1 {
        let mut joined = Vec::new();
        for pair in parts.chunks(2) {
            joined.push(match pair {
                [first, second] => build::beside(first.clone(), second.clone()),
                _ => pair[0].clone(),
            });
        }
        parts = joined;
    }
    (masters::rows(chance), parts.remove(0))
}

fn chosen_by_tag(chance: &mut Chance) -> Ground {
    let tag = words::tag(chance);
    let test = build::leaf(Entry::Tagged(tag));
    let no = match chance.percent(50) {
        true => build::nothing(),
        false => build::within(build::beside(build::source(), build::tag(b"a"))),
    };
    let rows = build::each(build::choose(test, build::source(), no));
    (masters::rows(chance), build::and_then(build::contents(), rows))
}

/// The source in an element made by the program.
fn around_slot(name: u8) -> Program {
    build::bind(name, build::and_then(build::tag(b"a"), build::within(build::slot(name))))
}

/// A ground on which the run stops for size.
pub fn too_large(chance: &mut Chance) -> Ground {
    match chance.below(7) {
        0 => {
            let texts = chance.between(65, 80);
            let both = build::beside(build::source(), build::source());
            (masters::flat_texts(chance, texts), both)
        }
        1 => tripled_to_129(chance),
        2 => around_128(chance),
        3 => too_deep(chance),
        4 => each_before_a_stop(chance),
        5 => doubled_often(chance),
        _ => beside_before_a_stop(chance),
    }
}

fn tripled_to_129(chance: &mut Chance) -> Ground {
    let twice = build::beside(build::source(), build::source());
    let program = match chance.below(3) {
        0 => build::beside(build::source(), twice),
        1 => build::beside(twice, build::source()),
        _ => build::each(build::beside(build::source(), twice)),
    };
    (masters::flat_texts(chance, 43), program)
}

/// 128 nodes are a value; the element around them is one too many.
fn around_128(chance: &mut Chance) -> Ground {
    let doubled = build::beside(build::source(), build::source());
    (element_of_texts(chance, 64), build::within(doubled))
}

fn element_of_texts(chance: &mut Chance, texts: usize) -> Vec<NodeLine> {
    let mut draft = Draft::default();
    draft.element(0, words::tag(chance));
    for _ in 0..texts {
        draft.text(1, words::text(chance));
    }
    draft.lines
}

/// Elements of the program around a chain until it is deeper than a value may be.
fn too_deep(chance: &mut Chance) -> Ground {
    let around = around_slot(words::slot(chance));
    let program = match chance.percent(50) {
        true => build::and_then(around.clone(), build::and_then(around.clone(), around)),
        false => build::and_then(build::and_then(around.clone(), around.clone()), around),
    };
    (masters::nested(chance, 8), program)
}

/// The parts joined by 0A are too many before an item comes on which X would stop.
fn each_before_a_stop(chance: &mut Chance) -> Ground {
    let mut draft = Draft::default();
    for _ in 0..chance.between(33, 40) {
        draft.text(0, words::text(chance));
    }
    draft.element(0, words::tag(chance));
    let twice = build::beside(build::source(), build::source());
    let fourfold = build::and_then(twice.clone(), twice);
    let stops = build::and_then(build::contents(), build::contents());
    let part = build::choose(build::leaf(Entry::IsElement), stops, fourfold);
    (draft.lines, build::each(part))
}

/// The part behind would stop for its source, and the one before it does so for size.
fn beside_before_a_stop(chance: &mut Chance) -> Ground {
    let texts = chance.between(65, 70);
    let large = build::beside(build::source(), build::source());
    let stops = build::within(build::source());
    let program = match chance.percent(70) {
        true => build::beside(large, stops),
        false => build::beside(build::source(), build::and_then(build::source(), large)),
    };
    (masters::flat_texts(chance, texts), program)
}

fn doubled_often(chance: &mut Chance) -> Ground {
    let nodes = chance.between(2, 9);
    let double = build::beside(build::source(), build::source());
    let mut program = double.clone();
    for _ in 0..7 {
        program = match chance.percent(50) {
            true => build::and_then(double.clone(), program),
            false => build::and_then(program, double.clone()),
        };
    }
    (masters::forest(chance, nodes, 3), program)
}
