//! The texts, tags and slot names that cases draw from: few, so that equal ones meet.

use super::chance::Chance;

const TEXTS: [&[u8]; 12] = [
    b"hi",
    b"lo",
    b"xx",
    b"",
    b"hi-lo",
    b"lo-hi",
    b"a",
    b"hi ",
    b"40100",
    b"-7",
    &[0x00, 0x0A, 0xFF, 0x20],
    b"Blower 1 outlet temperature high",
];
const TAGS: [&[u8]; 7] =
    [b"d", b"w", b"a", b"title", b"@id", b"!~", b"TagOfThirtyTwoBytes_0123456789AB"];
const SLOTS: [u8; 6] = [0x00, 0x01, 0x07, 0xA3, 0xFF, 0x00];

/// Mostly the first few, so that copies and comparisons often agree.
pub fn text(chance: &mut Chance) -> Vec<u8> {
    match chance.percent(60) {
        true => TEXTS[chance.below(3)].to_vec(),
        false => chance.pick(&TEXTS).to_vec(),
    }
}

pub fn tag(chance: &mut Chance) -> Vec<u8> {
    match chance.percent(60) {
        true => TAGS[chance.below(2)].to_vec(),
        false => chance.pick(&TAGS).to_vec(),
    }
}

pub fn slot(chance: &mut Chance) -> u8 {
    *chance.pick(&SLOTS)
}
