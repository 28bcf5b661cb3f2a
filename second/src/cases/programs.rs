//! Programs made top-down beside the concrete source they run on, so that most of them run.

use super::build::{self, Program};
use super::chance::Chance;
use super::words;
use crate::entry::Entry;
use crate::node_line::NodeLine;
use crate::program::{self, Path};
use crate::rules::Rules;
use crate::showing::{Showing, Slot, Stop};
use crate::tree::{self, Tree, Value};

/// Nested 0A multiply; more items than this would make slow cases.
const MOST_ITEMS: usize = 400;

/// What is left for the part to be made.
#[derive(Clone, Copy)]
struct Left {
    levels: usize,
    entries: usize,
    eaches: usize,
    binds: usize,
    items: usize,
}

pub struct Maker<'a> {
    chance: &'a mut Chance,
    rules: Rules,
    slots: Vec<Slot>,
}

/// A program that runs on the master.
pub fn program(chance: &mut Chance, master: &[NodeLine]) -> Program {
    let levels = chance.between(2, 12);
    let left = Left { levels, entries: 90, eaches: 3, binds: 4, items: MOST_ITEMS };
    let mut maker = Maker { chance, rules: super::rules_before_padding(), slots: Vec::new() };
    maker.transformation(&tree::from_lines(master), left)
}

impl Maker<'_> {
    fn transformation(&mut self, source: &[Tree], left: Left) -> Program {
        if left.levels <= 1 || left.entries < 8 || self.chance.percent(8) {
            return self.leaf(source);
        }
        for _ in 0..3 {
            let made = self.composite(source, left);
            if self.run(&made, source).is_ok() && made.len() <= left.entries {
                return made;
            }
        }
        self.leaf(source)
    }

    fn run(&self, program: &Program, source: &[Tree]) -> Result<Value, Stop> {
        let names = self.slots.iter().map(|slot| slot.name).collect();
        let path = Path { slots: names, ..Path::default() };
        let read = program::read_below(program, &path, &self.rules.bounds);
        let read = read.expect("what is left keeps the bounds of a program");
        let mut showing = Showing::new(&self.rules);
        showing.slots = self.slots.clone();
        showing.show(&read, source)
    }

    /// A transformation without parts that runs on the source.
    fn leaf(&mut self, source: &[Tree]) -> Program {
        let slots = if self.slots.is_empty() { 0 } else { 12 };
        let contents = if is_one_element(source) { 8 } else { 0 };
        let source_itself = if source.is_empty() { 1 } else { 14 };
        match self.chance.weighted(&[source_itself, 1, 2, 1, slots, contents]) {
            0 => build::source(),
            1 => build::nothing(),
            2 => build::text(&words::text(self.chance)),
            3 => build::tag(&words::tag(self.chance)),
            4 => build::slot(self.bound_slot()),
            _ => build::contents(),
        }
    }

    fn bound_slot(&mut self) -> u8 {
        self.slots[self.chance.below(self.slots.len())].name
    }

    fn composite(&mut self, source: &[Tree], left: Left) -> Program {
        let one = source.len() == 1;
        let many = source.len() > 1;
        let element = is_one_element(source);
        let each = !source.is_empty() && left.eaches > 0 && left.items >= source.len();
        let bind = left.binds > 0;
        let weights = [
            if source.is_empty() && !self.slots.is_empty() { 40 } else { 16 },
            12,
            if element { 14 } else { 0 },
            if each { if many { 40 } else { 6 } } else { 0 },
            if one && left.levels > 2 { 24 } else { 0 },
            if bind { if source.is_empty() { 2 } else { 12 } } else { 0 },
        ];
        match self.chance.weighted(&weights) {
            0 => self.and_then(source, left),
            1 => self.beside(source, left),
            2 => build::within(self.transformation(source[0].contents(), left.below(1))),
            3 => self.each(source, left),
            4 => self.choose(source, left),
            _ => self.bind(source, left),
        }
    }

    fn and_then(&mut self, source: &[Tree], left: Left) -> Program {
        let left = left.below(2);
        let first = match source {
            [] if !self.slots.is_empty() => build::slot(self.bound_slot()),
            [Tree::Element { .. }] if self.chance.percent(60) => build::contents(),
            _ => self.transformation(source, left),
        };
        let middle = self.run(&first, source).unwrap_or_default();
        let second = self.transformation(&middle, left);
        build::and_then(first, second)
    }

    fn beside(&mut self, source: &[Tree], left: Left) -> Program {
        let first = self.transformation(source, left.below(2));
        let second = match self.chance.percent(30) {
            true => first.clone(),
            false => self.transformation(source, left.below(2)),
        };
        build::beside(first, second)
    }

    /// X is made beside one of the items, or beside an element and a text if there are both.
    fn each(&mut self, source: &[Tree], left: Left) -> Program {
        let part_left =
            Left { eaches: left.eaches - 1, items: left.items / source.len(), ..left.below(1) };
        let is_element = |tree: &&Tree| matches!(tree, Tree::Element { .. });
        let elements: Vec<&Tree> = source.iter().filter(is_element).collect();
        let texts: Vec<&Tree> = source.iter().filter(|tree| !is_element(tree)).collect();
        if elements.is_empty() || texts.is_empty() || part_left.levels < 3 {
            let item = self.chance.pick(source).clone();
            return build::each(self.transformation(&[item], part_left));
        }
        let element = (*self.chance.pick(&elements)).clone();
        let text = (*self.chance.pick(&texts)).clone();
        let branch_left = part_left.below(3);
        let yes = self.transformation(&[element], branch_left);
        let no = self.transformation(&[text], branch_left);
        build::each(build::choose(build::leaf(Entry::IsElement), yes, no))
    }

    fn choose(&mut self, source: &[Tree], left: Left) -> Program {
        let left = left.below(3);
        let test = match &source[0] {
            Tree::Text { text, .. } => self.test_on_text(text, left),
            Tree::Element { tag, .. } => self.test_on_element(tag),
        };
        let yes = self.transformation(source, left);
        let no = self.transformation(source, left);
        build::choose(test, yes, no)
    }

    fn test_on_element(&mut self, tag: &[u8]) -> Program {
        build::leaf(match self.chance.below(3) {
            0 => Entry::IsElement,
            1 => Entry::Tagged(tag.to_vec()),
            _ => Entry::Tagged(words::tag(self.chance)),
        })
    }

    fn test_on_text(&mut self, text: &[u8], left: Left) -> Program {
        if self.chance.percent(10) {
            return build::leaf(Entry::IsElement);
        }
        let made = self.transformation(&[], Left { entries: 12, ..left.below(1) });
        let yields_one_text = matches!(self.run(&made, &[]).as_deref(), Ok([Tree::Text { .. }]));
        let text_slots: Vec<u8> = (0..self.slots.len())
            .filter(|&at| matches!(self.slots[at].value.as_slice(), [Tree::Text { .. }]))
            .map(|at| self.slots[at].name)
            .collect();
        build::equals(match self.chance.below(4) {
            _ if yields_one_text => made,
            0 | 1 if !text_slots.is_empty() => build::slot(*self.chance.pick(&text_slots)),
            2 => build::text(text),
            _ => build::text(&words::text(self.chance)),
        })
    }

    fn bind(&mut self, source: &[Tree], left: Left) -> Program {
        let name = words::slot(self.chance);
        self.slots.push(Slot { name, value: source.to_vec() });
        let part_left = Left { binds: left.binds - 1, ..left.below(1) };
        let part = self.transformation(&[], part_left);
        self.slots.pop();
        build::bind(name, part)
    }
}

impl Left {
    /// What is left for each of so many parts.
    fn below(self, parts: usize) -> Left {
        Left { levels: self.levels - 1, entries: (self.entries - 1) / parts, ..self }
    }
}

fn is_one_element(source: &[Tree]) -> bool {
    matches!(source, [Tree::Element { .. }])
}

/// Wraps a program, without changing its view, until it has that many levels.
pub fn deepened(chance: &mut Chance, mut program: Program, levels: usize) -> Program {
    let mut binds = 0;
    while build::levels(&program, 0) < levels {
        let missing = levels - build::levels(&program, 0);
        let may_bind = missing >= 2 && binds < 1 && !program.iter().any(is_bind);
        program = match chance.below(5) {
            0 => build::and_then(build::source(), program),
            1 => build::beside(program, build::nothing()),
            2 => build::beside(build::nothing(), program),
            3 if may_bind => {
                binds += 1;
                let name = words::slot(chance);
                build::bind(name, build::and_then(build::slot(name), program))
            }
            _ => build::and_then(program, build::source()),
        };
    }
    program
}

fn is_bind(entry: &Entry) -> bool {
    matches!(entry, Entry::Bind(_))
}
