//! The sentences of request #103 by brute force, each over the lines alone. Nothing of sweeping is
//! used here but its answers.

use crate::calls::{self, Reply};
use crate::entry::{self, Entry};
use crate::lines;
use crate::master;
use crate::node_line::{self, Kind, Mark, NodeLine};
use crate::rules::Rules;
use crate::stream::{Call, Case};
use crate::verdict::Verdict;

const GONE: u16 = 0xFFFF;

/// Checks a sweep; and of a put back that is accepted, the sweep of the master that it returns.
pub fn check(case: &Case, rules: &Rules) -> Verdict {
    match case.call {
        Call::Show => Verdict::DoesNotApply,
        Call::Sweep => Verdict::of(answered_as_requested(case, rules)),
        Call::PutBack => match calls::answer(case, rules) {
            Reply { number: 0, output, .. } => {
                Verdict::of(answered_as_requested(&Case::sweep(output), rules))
            }
            _ => Verdict::DoesNotApply,
        },
    }
}

fn answered_as_requested(case: &Case, rules: &Rules) -> bool {
    let reply = calls::answer(case, rules);
    match requested_lines(case) {
        Err(refusal) => reply == refusal,
        Ok(old) => Swept::read(old, &reply).is_some_and(|swept| swept.is_right(case, rules)),
    }
}

/// The master's lines, or the refusal: rooms, then forms, then bounds; marks may stand.
fn requested_lines(case: &Case) -> Result<Vec<NodeLine>, Reply> {
    if case.output_room < 9_856 || case.second_room < 640 {
        return Err(Reply::refusal(1, 0));
    }
    let old = read_nodes(&case.master).map_err(|place| Reply::refusal(4, place))?;
    match master::first_fault(&old, &Rules::document().bounds, true) {
        Some(place) => Err(Reply::refusal(5, place)),
        None => Ok(old),
    }
}

fn read_nodes(file: &[u8]) -> Result<Vec<NodeLine>, usize> {
    node_line::read_file(file, &Rules::document().lines)
}

/// A master's lines, and both outputs of its sweep.
struct Swept {
    old: Vec<NodeLine>,
    new: Vec<NodeLine>,
    numbers: Vec<u16>,
}

impl Swept {
    fn read(old: Vec<NodeLine>, reply: &Reply) -> Option<Swept> {
        let new = read_nodes(&reply.output).ok()?;
        let numbers = read_numbers(&reply.numbers)?;
        (reply.number == 0 && reply.place == 0).then_some(Swept { old, new, numbers })
    }

    fn is_right(&self, case: &Case, rules: &Rules) -> bool {
        self.counts_add_up()
            && self.kept_lines_are_right()
            && self.numbers_are_right()
            && self.is_sound_and_unmarked(rules)
            && self.swept_again_is_the_same(rules)
            && self.unmarked_comes_back(case)
            && self.goes_by_marks_and_depths(case, rules)
    }

    /// A node goes exactly if it is deleted, or an earlier deleted line has only deeper ones
    /// down to it.
    fn goes(&self, place: usize) -> bool {
        (0..=place).any(|outer| {
            self.old[outer].mark == Mark::Deleted
                && self.old[outer + 1..=place].iter().all(|line| line.depth > self.old[outer].depth)
        })
    }

    fn kept(&self) -> Vec<usize> {
        (0..self.old.len()).filter(|&place| !self.goes(place)).collect()
    }

    fn counts_add_up(&self) -> bool {
        let removed = (0..self.old.len()).filter(|&place| self.goes(place)).count();
        let gone = self.numbers.iter().filter(|&&number| number == GONE).count();
        self.new.len() + removed == self.old.len() && gone == removed
    }

    /// In order, with their depths, kinds and bytes, without marks, each with its place as its
    /// number.
    fn kept_lines_are_right(&self) -> bool {
        self.kept().iter().zip(&self.new).enumerate().all(|(place, (&from, new))| {
            let old = &self.old[from];
            new.depth == old.depth
                && new.kind == old.kind
                && new.bytes == old.bytes
                && new.mark == Mark::Untouched
                && usize::from(new.number) == place
        })
    }

    /// One number for each old node: where its line stands now, or FFFF.
    fn numbers_are_right(&self) -> bool {
        let kept = self.kept();
        let stands = |old| kept.iter().position(|&place| place == old);
        self.numbers.len() == self.old.len()
            && self.numbers.iter().enumerate().all(|(old, &number)| match stands(old) {
                Some(place) => usize::from(number) == place,
                None => number == GONE,
            })
    }

    /// Replies 4 and 5 as for putting back; and it is put back into.
    fn is_sound_and_unmarked(&self, rules: &Rules) -> bool {
        let file = node_line::write_file(&self.new);
        let whole = entry::write_file(&[Entry::Source]);
        let back = Case::with_least_rooms(Call::PutBack, file.clone(), whole, file.clone());
        master::first_fault(&self.new, &Rules::document().bounds, false).is_none()
            && calls::answer(&back, rules) == Reply::done(file)
    }

    fn swept_again_is_the_same(&self, rules: &Rules) -> bool {
        let file = node_line::write_file(&self.new);
        let numbers = write_numbers(0..self.new.len() as u16);
        let again = calls::answer(&Case::sweep(file.clone()), rules);
        again == Reply { numbers, ..Reply::done(file) }
    }

    fn unmarked_comes_back(&self, case: &Case) -> bool {
        let is_marked = self.old.iter().any(|line| line.mark != Mark::Untouched);
        is_marked || node_line::write_file(&self.new) == case.master
    }

    /// Other texts, tags and kinds: the same nodes go.
    fn goes_by_marks_and_depths(&self, case: &Case, rules: &Rules) -> bool {
        let numbers = write_numbers(self.numbers.iter().copied());
        [without_words, with_texts_as_elements, with_texts_as_orders].iter().all(|other| {
            let master = node_line::write_file(&other(&self.old));
            calls::answer(&Case { master, ..case.clone() }, rules).numbers == numbers
        })
    }
}

fn without_words(lines: &[NodeLine]) -> Vec<NodeLine> {
    let mut other = lines.to_vec();
    for line in &mut other {
        line.bytes = match line.kind {
            Kind::Text => Vec::new(),
            Kind::Element => b"w".to_vec(),
            Kind::Order => b"lo-hi".to_vec(),
        };
    }
    other
}

/// A changed text or order stays as it is, as no element may be changed.
fn with_texts_as_elements(lines: &[NodeLine]) -> Vec<NodeLine> {
    let mut other = lines.to_vec();
    for line in other.iter_mut().filter(|line| line.mark != Mark::Changed) {
        line.kind = Kind::Element;
        line.bytes = b"w".to_vec();
    }
    other
}

fn with_texts_as_orders(lines: &[NodeLine]) -> Vec<NodeLine> {
    let mut other = lines.to_vec();
    for line in other.iter_mut().filter(|line| line.kind == Kind::Text) {
        line.kind = Kind::Order;
        line.bytes = b"hi-lo".to_vec();
    }
    other
}

/// Two pairs a line, high byte first.
fn read_numbers(file: &[u8]) -> Option<Vec<u16>> {
    lines::read(file, usize::MAX, &Rules::document().lines, |bytes| match bytes {
        [high, low] => Some(u16::from_be_bytes([*high, *low])),
        _ => None,
    })
    .ok()
}

fn write_numbers(numbers: impl Iterator<Item = u16>) -> Vec<u8> {
    numbers.flat_map(|number| lines::write(&number.to_be_bytes())).collect()
}
