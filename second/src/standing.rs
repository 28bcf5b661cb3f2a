//! What becomes of a node, and the merging of two such standings.

use crate::rules::Merging;
use crate::text;

#[derive(Clone, Debug)]
pub enum Standing {
    Untouched,
    Locked,
    Changed(Vec<u8>),
    Deleted,
    Clash,
}

/// Untouched gives way to the other; two equal standings stay; all other pairs clash. What the old
/// text is makes no difference, unless mistaken.
pub fn merge(one: &Standing, other: &Standing, old_text: &[u8], merging: Merging) -> Standing {
    if let Some(wrong) = merged_wrongly(one, other, old_text, merging) {
        return wrong;
    }
    match (one, other) {
        (Standing::Untouched, kept) | (kept, Standing::Untouched) => kept.clone(),
        _ if same(one, other) => one.clone(),
        _ => Standing::Clash,
    }
}

fn same(one: &Standing, other: &Standing) -> bool {
    match (one, other) {
        (Standing::Untouched, Standing::Untouched)
        | (Standing::Locked, Standing::Locked)
        | (Standing::Deleted, Standing::Deleted)
        | (Standing::Clash, Standing::Clash) => true,
        (Standing::Changed(one), Standing::Changed(other)) => text::equal(one, other),
        _ => false,
    }
}

/// The mistaken mergings, each where it answers otherwise than document 01.
fn merged_wrongly(
    one: &Standing,
    other: &Standing,
    old_text: &[u8],
    merging: Merging,
) -> Option<Standing> {
    use Standing::{Changed, Clash, Deleted, Locked, Untouched};
    match (merging, one, other) {
        (Merging::FirstWins, Changed(_) | Deleted, Changed(_) | Deleted) => Some(one.clone()),
        (Merging::LastWins, Changed(_) | Deleted, Changed(_) | Deleted) => Some(other.clone()),
        (Merging::UntouchedVotes, Untouched, Changed(_) | Deleted)
        | (Merging::UntouchedVotes, Changed(_) | Deleted, Untouched)
        | (Merging::EqualsClash, Changed(_), Changed(_))
        | (Merging::EqualsClash, Deleted, Deleted) => Some(Clash),
        (Merging::DeletedBeatsLocked, Deleted, Locked)
        | (Merging::DeletedBeatsLocked, Locked, Deleted) => Some(Deleted),
        (Merging::ClashYields, Clash, kept) | (Merging::ClashYields, kept, Clash) => {
            Some(kept.clone())
        }
        (Merging::ButForPadding, Changed(text), Changed(new_text))
            if text::equal_but_for_padding(text, new_text) =>
        {
            Some(one.clone())
        }
        (Merging::PaddingIsNotLocked, Locked, Changed(text))
        | (Merging::PaddingIsNotLocked, Changed(text), Locked)
            if text::equal_but_for_padding(text, old_text) =>
        {
            Some(Changed(text.clone()))
        }
        _ => None,
    }
}
