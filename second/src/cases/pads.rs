//! Seeded shows and put backs over padded texts: programs that compare them, and views with edits,
//! many of which change the padding alone.

use super::build;
use super::chance::Chance;
use super::masters::{self, Draft};
use super::saves::{self, Editing};
use super::templates::{self, Ground};
use super::{Shown, WORK_ROOMS};
use crate::entry::Entry;
use crate::node_line::{Kind, Mark, NodeLine};
use crate::rules::Rules;
use crate::stream::{Call, Case};
use crate::text;

/// In nodes; larger masters would not compare more.
const LARGEST_MASTER: usize = 24;
const LONGEST_TEXT: usize = 32;

/// The shares of the sorts of grounds, in their order.
const GROUND_WEIGHTS: [usize; 4] = [25, 15, 20, 40];

const SHOW_SHARE: usize = 35;
const DIFFERING_SHARE: usize = 18;
const COPIED_SHARE: usize = 55;
const SAVED_SHARE: usize = 40;

const EDITING: Editing = Editing { new_text: padded_anew, compared_if_no_other: true };

/// A case has two of them, so that its texts often agree but for their padding.
const WORDS: [&[u8]; 11] = [
    b"",
    b"",
    b"h",
    b"hi",
    b"hi",
    b"HI",
    b"ho",
    b"li",
    b"lo",
    b"hi-lo",
    b"Blower 1 outlet temperature low",
];

/// Bytes that look like padding behind a text, and are none.
const NO_PADDING: &[u8] = b"\0\t\n\r\xA0";

pub fn cases(seed: u64, count: usize) -> Vec<Case> {
    (0..count).map(|index| case(seed, index)).collect()
}

pub fn case(seed: u64, index: usize) -> Case {
    let mut chance = Chance::of_case(seed, index);
    let call = match chance.percent(SHOW_SHARE) {
        true => Call::Show,
        false => Call::PutBack,
    };
    let shown = shown(&mut chance, call);
    let view = match call {
        Call::PutBack => edited(&mut chance, &shown),
        _ => Vec::new(),
    };
    let (mut master, program) = shown.ground;
    if call == Call::Show && chance.percent(30) {
        masters::mark_some(&mut chance, &mut master);
    }
    let mut case = super::with_files(call, &master, &program, &view);
    super::rooms(&mut chance, false, &mut case, &WORK_ROOMS);
    case
}

/// A ground on which a text of the master is compared, and, to be put back, shown.
fn shown(chance: &mut Chance, call: Call) -> Shown {
    let suits = |shown: &Shown| {
        !shown.compared.is_empty()
            && shown.ground.0.len() <= LARGEST_MASTER
            && (call == Call::Show || shown.fresh.iter().any(saves::is_text_of_the_master))
    };
    super::shown(chance, &Rules::document(), ground, suits)
}

fn ground(chance: &mut Chance) -> Ground {
    let (mut master, mut program) = drawn(chance, &GROUND_WEIGHTS, COPIED_SHARE);
    let words = [*chance.pick(&WORDS), *chance.pick(&WORDS)];
    for line in master.iter_mut().filter(|line| line.kind == Kind::Text) {
        line.bytes = padded_word(chance, words);
    }
    for entry in &mut program {
        if let Entry::Text(text) = entry {
            *text = padded_word(chance, words);
        }
    }
    (master, program)
}

/// A ground whose program mostly compares texts; a share of the programs stand beside themselves.
pub(super) fn drawn(chance: &mut Chance, weights: &[usize; 4], copied_share: usize) -> Ground {
    let (master, mut program) = match chance.weighted(weights) {
        0 => templates::comparing(chance),
        1 => super::ground(chance, &[]),
        2 => texts_chosen(chance),
        _ => chosen_by_key(chance),
    };
    if chance.percent(copied_share) {
        program = saves::doubled(program);
    }
    (master, program)
}

/// Each text goes into a branch of its own.
fn texts_chosen(chance: &mut Chance) -> Ground {
    let made = || build::text(b"");
    let branches = [
        build::source(),
        build::nothing(),
        build::beside(build::source(), build::source()),
        build::beside(build::source(), made()),
    ];
    let [yes, no] = [0; 2].map(|_| chance.pick(&branches).clone());
    let texts = chance.between(2, 6);
    let program = build::each(build::choose(build::equals(made()), yes, no));
    (masters::flat_texts(chance, texts), program)
}

/// The text in element a chooses between those in b and c.
fn chosen_by_key(chance: &mut Chance) -> Ground {
    let mut draft = Draft::default();
    for (tag, most) in [(b"a", 1), (b"b", 3), (b"c", 3)] {
        draft.element(0, tag.to_vec());
        (0..chance.between(1, most)).for_each(|_| draft.text(1, Vec::new()));
    }
    let name = 0x00;
    let texts_in = |tag: &[u8]| {
        let test = build::leaf(Entry::Tagged(tag.to_vec()));
        let items = build::each(build::choose(test, build::contents(), build::nothing()));
        build::and_then(build::slot(name), items)
    };
    let [yes, no] = [b"b", b"c"].map(|tag| match chance.below(3) {
        0 => build::beside(build::source(), texts_in(tag)),
        1 => build::beside(texts_in(tag), texts_in(tag)),
        _ => texts_in(tag),
    });
    let chosen = build::choose(build::equals(build::text(b"")), yes, no);
    (draft.lines, build::bind(name, build::and_then(texts_in(b"a"), chosen)))
}

fn padded_word(chance: &mut Chance, [often, seldom]: [&[u8]; 2]) -> Vec<u8> {
    let word = if chance.percent(75) { often } else { seldom };
    padded(chance, word)
}

/// A word with or without padding, or with what looks like it.
fn padded(chance: &mut Chance, word: &[u8]) -> Vec<u8> {
    let other = [*chance.pick(NO_PADDING)];
    let (before, behind) = word.split_at(word.len() / 2);
    let mut text = match chance.weighted(&[28, 26, 20, 5, 5, 4, 6, 3, 3]) {
        0 => word.to_vec(),
        1 => [word, b" "].concat(),
        2 => [word, &vec![b' '; chance.between(2, 9)]].concat(),
        3 => [word, &[b' '; LONGEST_TEXT]].concat(),
        4 => [b" ", word].concat(),
        5 => [before, b" ", behind].concat(),
        6 => [word, &other].concat(),
        7 => [word, b" ", &other].concat(),
        _ => [word, &other, b" "].concat(),
    };
    text.truncate(LONGEST_TEXT);
    text
}

/// A text with another padding, or with what looks like it.
fn padded_anew(chance: &mut Chance, fresh: &NodeLine) -> Vec<u8> {
    let old = fresh.bytes.as_slice();
    loop {
        let text = match may_have_another_padding(old) && chance.percent(85) {
            true => with_another_padding(chance, old),
            false => padded(chance, text::unpadded(old)),
        };
        if text != old {
            return text;
        }
    }
}

/// A text without padding may be too long for any.
fn may_have_another_padding(text: &[u8]) -> bool {
    text::unpadded(text).len() < LONGEST_TEXT
}

fn with_another_padding(chance: &mut Chance, old: &[u8]) -> Vec<u8> {
    let word = text::unpadded(old);
    loop {
        let length = match chance.below(6) {
            0 | 1 => old.len().saturating_sub(1).max(word.len()),
            2 | 3 => LONGEST_TEXT.min(old.len() + 1),
            4 => word.len(),
            _ => chance.between(word.len(), LONGEST_TEXT),
        };
        if length != old.len() {
            return [word, &vec![b' '; length - word.len()]].concat();
        }
    }
}

fn edited(chance: &mut Chance, shown: &Shown) -> Vec<NodeLine> {
    let mut view = saves::edited(chance, shown, SAVED_SHARE, &EDITING);
    if chance.percent(DIFFERING_SHARE) {
        pad_where_none_may(chance, &shown.fresh, &mut view);
    }
    view
}

/// A line that is not marked 01 gets another padding than the fresh one has.
fn pad_where_none_may(chance: &mut Chance, fresh: &[NodeLine], view: &mut [NodeLine]) {
    let may_be_padded = |place: &usize| {
        let line = &fresh[*place];
        line.kind == Kind::Text && may_have_another_padding(&line.bytes)
    };
    let places: Vec<usize> = (0..fresh.len()).filter(may_be_padded).collect();
    if !places.is_empty() {
        let place = *chance.pick(&places);
        view[place].mark = *chance.pick(&[Mark::Untouched, Mark::Deleted]);
        view[place].bytes = with_another_padding(chance, &fresh[place].bytes);
    }
}
