//! The view beside the fresh one: replies 9 and 10, and the standings its lines bring.

use crate::node_line::{FROM_PROGRAM, Kind, Mark, NodeLine};
use crate::rules::{CountPlace, EditsGoBy, Judging, Rules, Saving};
use crate::saved;
use crate::standing::Standing;
use crate::text;
use crate::tree::{self, Value};

/// A view, the fresh one, and the master that both come from.
#[derive(Clone, Copy)]
pub struct Sides<'a> {
    pub master: &'a [NodeLine],
    pub fresh: &'a [NodeLine],
    pub view: &'a [NodeLine],
}

/// The place of reply 9, if the views differ where they may not.
pub fn first_difference(fresh: &[NodeLine], view: &[NodeLine], rules: &Judging) -> Option<usize> {
    let by_count = (fresh.len() != view.len()).then(|| match rules.count_place {
        CountPlace::Shorter => fresh.len().min(view.len()),
        CountPlace::Longer => fresh.len().max(view.len()),
    });
    let by_line = fresh.iter().zip(view).position(|(fresh, line)| differs(fresh, line, rules));
    match rules.count_before_lines {
        false => by_line.or(by_count),
        true => by_count.or(by_line),
    }
}

fn differs(fresh: &NodeLine, line: &NodeLine, rules: &Judging) -> bool {
    let bytes_may_differ = match line.mark {
        Mark::Untouched => false,
        Mark::Changed => true,
        Mark::Deleted => !rules.deleted_bytes_are_compared,
    };
    let same_bytes = match rules.padding_is_compared {
        true => text::equal(&fresh.bytes, &line.bytes),
        false => text::equal_but_for_padding(&fresh.bytes, &line.bytes),
    };
    fresh.depth != line.depth
        || !same_kind(fresh.kind, line.kind, rules)
        || (rules.numbers_are_compared && fresh.number != line.number)
        || (!bytes_may_differ && !same_bytes)
}

fn same_kind(fresh: Kind, kind: Kind, rules: &Judging) -> bool {
    match (fresh, kind) {
        (Kind::Text, Kind::Order) | (Kind::Order, Kind::Text) => !rules.orders_differ_from_texts,
        _ => fresh == kind,
    }
}

/// The place of reply 10: the first line from the program that has a mark, as it is written.
pub fn first_marked_program_line(sides: Sides, rules: &Rules) -> Option<usize> {
    let mark = |place: usize| match rules.judging.program_marks_are_read_as_written {
        true => sides.view[place].mark,
        false => saved::mark_that_counts(place, sides, &rules.saving),
    };
    let is_from_program = |&place: &usize| sides.view[place].number == FROM_PROGRAM;
    (0..sides.view.len()).filter(is_from_program).find(|&place| mark(place) != Mark::Untouched)
}

/// What a view line brings.
fn brings(place: usize, sides: Sides, rules: &Saving) -> Standing {
    match saved::mark_that_counts(place, sides, rules) {
        Mark::Untouched => Standing::Untouched,
        Mark::Changed => Standing::Changed(sides.view[place].bytes.clone()),
        Mark::Deleted => Standing::Deleted,
    }
}

/// The fresh value with the standings that the view's lines bring.
pub fn with_standings(mut value: Value, sides: Sides, rules: &Rules) -> Value {
    let mut place = 0;
    tree::for_each_node(&mut value, &mut |node| {
        if let Some(at) = line_of(place, sides.fresh, rules.putting_back.edits_go_by) {
            node.standing = brings(at, sides, &rules.saving);
        }
        place += 1;
    });
    value
}

/// The line whose edit the node shown at a place gets: its own, as numbers are equal there.
fn line_of(place: usize, fresh: &[NodeLine], edits_go_by: EditsGoBy) -> Option<usize> {
    let own = &fresh[place];
    match edits_go_by {
        EditsGoBy::Number => Some(place),
        EditsGoBy::Place => Some(usize::from(own.number)).filter(|&at| at < fresh.len()),
        EditsGoBy::Text => {
            fresh.iter().position(|line| line.kind == own.kind && line.bytes == own.bytes)
        }
    }
}
