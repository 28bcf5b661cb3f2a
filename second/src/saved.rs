//! Lines saved without touching: which they are, and the mark of a line that counts.

use crate::node_line::{Mark, NodeLine};
use crate::rules::{Comparison, OldText, SavedEffect, SavedMarks, Saving};
use crate::standing::Standing;
use crate::text;
use crate::view::Sides;

/// The mark of a line; but a line saved without touching counts as untouched.
pub fn mark_that_counts(place: usize, sides: Sides, rules: &Saving) -> Mark {
    match is_saved(place, sides, rules) {
        true => Mark::Untouched,
        false => sides.view[place].mark,
    }
}

/// Whether a line is marked 01 and has its old text.
fn is_saved(place: usize, sides: Sides, rules: &Saving) -> bool {
    let line = &sides.view[place];
    let may_be_saved = match rules.marks {
        SavedMarks::Changed => line.mark == Mark::Changed,
        SavedMarks::Deleted => line.mark == Mark::Deleted,
        SavedMarks::ChangedAndDeleted => line.mark != Mark::Untouched,
        SavedMarks::None => false,
    };
    let has = |old: &NodeLine| is_old(&old.bytes, &line.bytes, rules.comparison);
    may_be_saved && old_lines(place, sides, rules.old_text).iter().any(has)
}

/// The lines whose text is a line's old one: the fresh line alone, all others are mistaken.
fn old_lines<'a>(place: usize, sides: Sides<'a>, old_text: OldText) -> &'a [NodeLine] {
    let number = usize::from(sides.view[place].number);
    match old_text {
        OldText::FreshLine => &sides.fresh[place..=place],
        OldText::LineItself => &sides.view[place..=place],
        OldText::AnyFreshLine => sides.fresh,
        OldText::FreshLineAtItsNumber => sides.fresh.get(number..=number).unwrap_or_default(),
        OldText::MasterLineAtItsPlace => sides.master.get(place..=place).unwrap_or_default(),
    }
}

/// Whether a text is the old one: byte for byte, all other comparisons are mistaken.
fn is_old(old: &[u8], text: &[u8], comparison: Comparison) -> bool {
    let of_both = |part: fn(&[u8]) -> &[u8]| part(old) == part(text);
    let same_length = old.len() == text.len();
    match comparison {
        Comparison::ByteForByte => text::equal(old, text),
        Comparison::Lengths => same_length,
        Comparison::ButForPadding => text::equal_but_for_padding(old, text),
        Comparison::UpToTheShorter => text::up_to_the_shorter(old, text),
        Comparison::BeforeByte00 => of_both(before_byte_00),
        Comparison::BehindTheFirstByte => same_length && of_both(text::behind_the_first),
        Comparison::BeforeTheLastByte => same_length && of_both(text::before_the_last),
        Comparison::NeverOfEmpty => text::equal(old, text) && !text.is_empty(),
        Comparison::NeverOf32Bytes => text::equal(old, text) && text.len() < 32,
        Comparison::InEitherCase => old.eq_ignore_ascii_case(text),
    }
}

fn before_byte_00(text: &[u8]) -> &[u8] {
    text.split(|&byte| byte == 0x00).next().unwrap_or_default()
}

/// What saved lines do to the standings of the master's nodes: nothing, unless mistaken.
pub fn affect(standings: &mut [Standing], sides: Sides, rules: &Saving) {
    use Standing::{Changed, Clash, Deleted, Locked, Untouched};
    for place in (0..sides.view.len()).filter(|&place| is_saved(place, sides, rules)) {
        let line = &sides.view[place];
        let Some(standing) = standings.get_mut(usize::from(line.number)) else {
            continue;
        };
        *standing = match (rules.effect, &*standing) {
            (SavedEffect::MarksTheNode, Untouched | Locked) => Changed(line.bytes.clone()),
            (SavedEffect::ClashesWithLock, Locked) => Clash,
            (SavedEffect::ClashesWithDeletion, Deleted) => Clash,
            (SavedEffect::UndoesTheEdit, Changed(_) | Deleted) => Untouched,
            _ => continue,
        };
    }
}
