//! The thirteen bench examples of document 01: their cases, and the reply that it gives to each;
//! to example 6, that of request #101.

use crate::calls::Reply;
use crate::stream::{Call, Case};

pub struct Example {
    /// The example's number in document 01; most examples have several cases.
    pub number: usize,
    pub case: Case,
    pub reply: Reply,
}

pub const M: [&str; 5] =
    ["00020000000164", "01020000010177", "0201000002026869", "01020000030177", "0201000004026C6F"];

/// M with node 4 changed to "hi".
pub const M_EDITED: [&str; 5] = [M[0], M[1], M[2], M[3], "0201010004026869"];

pub const P: [&str; 4] = ["08", "06", "0A", "06"];

pub const PP: [&str; 9] = ["09", "08", "06", "0A", "06", "08", "06", "0A", "06"];

/// The texts that P shows and that are "hi".
pub const EQUAL_TO_HI: [&str; 11] =
    ["08", "08", "06", "0A", "06", "0A", "0B", "11", "03026869", "01", "02"];

/// Nodes 2 and 4 as P shows them, and node 4 as a fitter may leave it.
pub const HI: &str = "0001000002026869";
pub const LO: &str = "0001000004026C6F";
pub const LO_TO_HI: &str = "0001010004026869";
pub const LO_TO_XX: &str = "0001010004027878";
pub const LO_SAVED: &str = "0001010004026C6F";
pub const LO_DELETED: &str = "0001020004026C6F";

const EMPTY: [&str; 0] = [];

pub fn examples() -> Vec<Example> {
    let in_order = [
        one_view(),
        two_copies(),
        a_compared_text(),
        a_text_of_the_program(),
        an_empty_master(),
        two_edits(),
        trees_of_programs(),
        sizes(),
    ];
    in_order.into_iter().flatten().collect()
}

fn one_view() -> Vec<Example> {
    vec![
        example(1, show(&M, &P), done(&[HI, LO])),
        example(2, put_back(&M, &P, &[HI, LO_TO_HI]), done(&M_EDITED)),
        example(3, put_back(&M, &P, &[HI, LO]), done(&M)),
    ]
}

fn two_copies() -> Vec<Example> {
    let put_back = |view| put_back(&M, &PP, view);
    vec![
        example(4, show(&M, &PP), done(&[HI, LO, HI, LO])),
        example(4, put_back(&[HI, LO_TO_HI, HI, LO]), done(&M_EDITED)),
        example(5, put_back(&[HI, LO_TO_HI, HI, LO_TO_XX]), refused(11, 4)),
        example(5, put_back(&[HI, LO_DELETED, HI, LO_TO_HI]), refused(11, 4)),
        example(6, put_back(&[HI, LO_SAVED, HI, LO_TO_HI]), done(&M_EDITED)),
    ]
}

fn a_compared_text() -> Vec<Example> {
    vec![
        example(7, show(&M, &EQUAL_TO_HI), done(&[HI])),
        example(7, put_back(&M, &EQUAL_TO_HI, &["0001010002027878"]), refused(11, 2)),
    ]
}

fn a_text_of_the_program() -> Vec<Example> {
    let program = ["03026869"];
    vec![
        example(8, show(&M, &program), done(&["000100FFFF026869"])),
        example(8, put_back(&M, &program, &["000102FFFF026869"]), refused(10, 0)),
    ]
}

fn an_empty_master() -> Vec<Example> {
    vec![
        example(9, show(&EMPTY, &["06"]), refused(6, 0)),
        example(9, show(&EMPTY, &["01"]), done(&EMPTY)),
        example(9, put_back(&EMPTY, &["01"], &EMPTY), done(&EMPTY)),
    ]
}

fn two_edits() -> Vec<Example> {
    let fresh = ["00020000010177", "0101000002026869", "00020000030177", "0101000004026C6F"];
    let view = ["00020200010177", "0101010002026C6F", fresh[2], fresh[3]];
    let edited = [M[0], "01020200010177", "0201010002026C6F", M[3], M[4]];
    vec![
        example(10, show(&M, &["06"]), done(&fresh)),
        example(10, put_back(&M, &["06"], &view), done(&edited)),
    ]
}

fn trees_of_programs() -> Vec<Example> {
    let withins = |count: usize| [vec!["07"; count], vec!["01"]].concat();
    vec![
        // "Is sound": so it runs, and stops at the second 07, for M's element 0 contains two.
        example(11, show(&M, &withins(11)), refused(6, 1)),
        example(11, show(&M, &withins(12)), refused(3, 12)),
        example(11, show(&M, &["0A", "0A", "0A", "0A", "01"]), refused(3, 3)),
        example(11, show(&M, &["01", "01"]), refused(3, 1)),
        example(11, show(&M, &["08", "01"]), refused(3, 2)),
        example(11, show(&M, &EMPTY), refused(3, 0)),
        example(11, show(&M, &["0500"]), refused(3, 0)),
    ]
}

fn sizes() -> Vec<Example> {
    let twice = ["09", "01", "01"];
    let w = ["0C00", "08", "040161", "07", "0500"];
    let three_ws = [&["08"], &w[..], &["08"], &w[..], &w[..]].concat();
    vec![
        example(12, show(&texts(64), &twice), done(&[texts(64), texts(64)].concat())),
        example(12, show(&texts(65), &twice), refused(7, 0)),
        example(13, show(&nested(8), &three_ws), refused(7, 15)),
    ]
}

fn example(number: usize, case: Case, reply: Reply) -> Example {
    Example { number, case, reply }
}

pub fn show<S: AsRef<str>, T: AsRef<str>>(master: &[S], program: &[T]) -> Case {
    Case::with_least_rooms(Call::Show, file(master), file(program), Vec::new())
}

pub fn put_back<S: AsRef<str>, T: AsRef<str>, U: AsRef<str>>(
    master: &[S],
    program: &[T],
    view: &[U],
) -> Case {
    Case::with_least_rooms(Call::PutBack, file(master), file(program), file(view))
}

pub fn done<S: AsRef<str>>(output: &[S]) -> Reply {
    Reply::done(file(output))
}

pub fn refused(number: u8, place: usize) -> Reply {
    Reply::refusal(number, place)
}

/// A file of these lines.
pub fn file<S: AsRef<str>>(lines: &[S]) -> Vec<u8> {
    lines.iter().flat_map(|line| format!("{}\n", line.as_ref()).into_bytes()).collect()
}

/// So many texts at depth 0.
pub fn texts(count: usize) -> Vec<String> {
    (0..count).map(|number| format!("000100{number:04X}0178")).collect()
}

/// So many elements, one in another.
pub fn nested(count: usize) -> Vec<String> {
    (0..count).map(|number| format!("{number:02X}0200{number:04X}0165")).collect()
}
