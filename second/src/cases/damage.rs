//! Files of wrong form: one line, or the file as a whole, is damaged.

use super::chance::Chance;

const END: u8 = 0x0A;

/// What tells the files apart here.
#[derive(Clone, Copy, PartialEq, Eq)]
pub enum FileKind {
    Nodes,
    Program,
}

impl FileKind {
    fn limit(self) -> usize {
        match self {
            FileKind::Nodes => 128,
            FileKind::Program => 96,
        }
    }

    fn sound_line(self) -> &'static [u8] {
        match self {
            FileKind::Nodes => b"0001000000026869\n",
            FileKind::Program => b"01\n",
        }
    }
}

pub fn damaged(chance: &mut Chance, file: &[u8], kind: FileKind) -> Vec<u8> {
    let mut lines: Vec<Vec<u8>> =
        file.split_inclusive(|&byte| byte == END).map(<[u8]>::to_vec).collect();
    if lines.is_empty() {
        lines.push(kind.sound_line().to_vec());
    }
    match chance.below(10) {
        0 => whole_file(chance, &mut lines, kind),
        1 => one_too_many(chance, &mut lines, kind),
        2..=5 => digits(chance, &mut lines),
        _ => {
            let place = chance.below(lines.len());
            lines[place] = wrong_line(chance, &lines[place], kind);
        }
    }
    lines.concat()
}

fn whole_file(chance: &mut Chance, lines: &mut Vec<Vec<u8>>, kind: FileKind) {
    match chance.below(4) {
        0 => {
            let place = chance.between(0, lines.len());
            lines.insert(place, vec![END]);
        }
        1 => {
            let last = lines.len() - 1;
            lines[last].pop();
        }
        2 => lines.push(b"0".to_vec()),
        _ => {
            let mut sound = kind.sound_line().to_vec();
            sound.pop();
            lines.push(sound);
        }
    }
}

/// Sound lines up to the limit and one more, or only a byte more.
fn one_too_many(chance: &mut Chance, lines: &mut Vec<Vec<u8>>, kind: FileKind) {
    while lines.len() < kind.limit() {
        lines.push(kind.sound_line().to_vec());
    }
    lines.push(match chance.below(3) {
        0 => b"0".to_vec(),
        1 => vec![END],
        _ => kind.sound_line().to_vec(),
    });
}

/// A digit too few, a digit in lower case, a byte that is no digit.
fn digits(chance: &mut Chance, lines: &mut [Vec<u8>]) {
    let place = chance.below(lines.len());
    let with_letter = lines.iter().position(|line| line.iter().any(u8::is_ascii_uppercase));
    match (chance.below(4), with_letter) {
        (0 | 1, Some(place)) => lines[place].make_ascii_lowercase(),
        (2, _) => {
            let digit = chance.below(lines[place].len() - 1);
            lines[place].remove(digit);
        }
        _ => {
            let digit = chance.below(lines[place].len() - 1);
            lines[place][digit] = *chance.pick(b"Gg @/:\r\0\xFF");
        }
    }
}

fn wrong_line(chance: &mut Chance, line: &[u8], kind: FileKind) -> Vec<u8> {
    let fixed: &[&[u8]] = match kind {
        FileKind::Nodes => &WRONG_NODES,
        FileKind::Program => &WRONG_ENTRIES,
    };
    match chance.below(6) {
        0 => longer_or_shorter(chance, line),
        1 => text_of_33_bytes(kind),
        2 if kind == FileKind::Nodes => changed_element(line),
        _ => [*chance.pick(fixed), b"\n"].concat(),
    }
}

/// The line with kind element and mark 01; a text of the same bytes is often no tag either.
fn changed_element(line: &[u8]) -> Vec<u8> {
    let mut wrong = line.to_vec();
    wrong[2..6].copy_from_slice(b"0201");
    wrong
}

/// A pair more or less than the line's length says.
fn longer_or_shorter(chance: &mut Chance, line: &[u8]) -> Vec<u8> {
    let digits = &line[..line.len() - 1];
    match digits.len() > 2 && chance.percent(50) {
        true => [&digits[..digits.len() - 2], b"\n"].concat(),
        false => [digits, b"00\n"].concat(),
    }
}

fn text_of_33_bytes(kind: FileKind) -> Vec<u8> {
    let before: &[u8] = match kind {
        FileKind::Nodes => b"000100000021",
        FileKind::Program => b"0321",
    };
    [before, &b"61".repeat(33), b"\n"].concat()
}

/// Unknown kinds and marks, an order with other bytes, a changed element, tags and lengths that may
/// not be.
const WRONG_NODES: [&[u8]; 15] = [
    b"0000000000026869",
    b"0003000000026869",
    b"00FF000000026869",
    b"0001030000026869",
    b"0001FF0000026869",
    b"00020100000164",
    b"000200000000",
    b"00020000000120",
    b"0002000000017F",
    b"000200000003646420",
    b"00010000",
    b"0001000000",
    b"0001000000FF",
    b"0002000000036464",
    b"000100000001686900",
];

/// Unknown operations, operands missing, too long or not allowed.
const WRONG_ENTRIES: [&[u8]; 20] = [
    b"00",
    b"0D",
    b"10",
    b"14",
    b"FF",
    b"0100",
    b"0600",
    b"0A00",
    b"1300",
    b"1100",
    b"03",
    b"030161FF",
    b"0400",
    b"040120",
    b"04017F",
    b"05",
    b"050000",
    b"0C",
    b"0C0100",
    b"1200",
];
