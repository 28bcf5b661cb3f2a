//! Put backs at the edges of request #101, and the reply that it asks for to each, written by hand.
//! A saved line is one marked 01 that has its old text.

use super::bench::{
    EQUAL_TO_HI, HI, LO, LO_DELETED, LO_SAVED, LO_TO_HI, LO_TO_XX, M, M_EDITED, P, PP, done,
    put_back, refused, texts,
};
use super::edge::{Edge, all_with_mark, both_compared, edge, longest_lines, text_line, with_mark};
use crate::calls::Reply;
use std::collections::BTreeSet;

const HI_SAVED: &str = "0001010002026869";
const HI_TO_LO: &str = "0001010002026C6F";

/// A text, alone a master, and as a fitter may leave it.
const X: &str = "00010000000178";
const X_SAVED: &str = "00010100000178";
const X_TO_Y: &str = "00010100000179";
const X_TO_Z: &str = "0001010000017A";
const X_DELETED: &str = "00010200000178";

/// Another text behind it.
const Y: &str = "00010000010179";
const Y_SAVED: &str = "00010100010179";
const Y_TO_X: &str = "00010100010178";

/// A text "x" of the program.
const MADE: &str = "000100FFFF0178";
const MADE_SAVED: &str = "000101FFFF0178";

const WHOLE: [&str; 1] = ["01"];
const TWICE: [&str; 3] = ["09", "01", "01"];

pub fn edges() -> Vec<Edge> {
    let in_order = [
        of_the_bench(),
        nothing_edited(),
        copies_in_each_order(),
        many_copies(),
        compared_texts(),
        both_texts_of_a_test(),
        new_texts(),
        old_texts(),
        texts_of_other_lines(),
        lines_of_the_program(),
        in_deleted_elements(),
        through_slots(),
        through_other_operations(),
        differing_views(),
    ];
    in_order.into_iter().flatten().collect()
}

/// Example 6 itself is among the bench examples.
fn of_the_bench() -> Vec<Edge> {
    let twice = |view| put_back(&M, &PP, view);
    let rows = ["00020000010177", "0101000002026869", "00020000030177", "0101000004026C6F"];
    let deleted_around_saved = [&with_mark(rows[0], "02"), "0101010002026869", rows[2], rows[3]];
    let row_deleted = [M[0], "01020200010177", M[2], M[3], M[4]];
    vec![
        edge("example 2, line 0 saved", put_back(&M, &P, &[HI_SAVED, LO_TO_HI]), done(&M_EDITED)),
        edge("example 3, line 1 saved", put_back(&M, &P, &[HI, LO_SAVED]), done(&M)),
        edge("example 3, both saved", put_back(&M, &P, &[HI_SAVED, LO_SAVED]), done(&M)),
        edge(
            "example 4, all others saved",
            twice(&[HI_SAVED, LO_TO_HI, HI_SAVED, LO_SAVED]),
            done(&M_EDITED),
        ),
        edge(
            "example 5, all others saved",
            twice(&[HI_SAVED, LO_TO_HI, HI_SAVED, LO_TO_XX]),
            refused(11, 4),
        ),
        edge(
            "example 5 with a deletion, all others saved",
            twice(&[HI_SAVED, LO_DELETED, HI_SAVED, LO_TO_HI]),
            refused(11, 4),
        ),
        edge("example 6 from behind", twice(&[HI, LO_TO_HI, HI, LO_SAVED]), done(&M_EDITED)),
        edge("example 7, saved", put_back(&M, &EQUAL_TO_HI, &[HI_SAVED]), done(&M)),
        edge(
            "example 8, saved",
            put_back(&M, &["03026869"], &["000101FFFF026869"]),
            refused(10, 0),
        ),
        edge(
            "example 10, line 1 saved",
            put_back(&M, &["06"], &deleted_around_saved),
            done(&row_deleted),
        ),
    ]
}

/// The whole master comes back, byte for byte.
fn nothing_edited() -> Vec<Edge> {
    let two_rows = [M[0], M[1], &with_mark(M[2], "01"), M[3], &with_mark(M[4], "01")];
    let all_saved = |lines: &[String]| put_back(lines, &WHOLE, &all_with_mark(lines, "01"));
    let longest = longest_lines();
    vec![
        edge("the only line saved", put_back(&[X], &WHOLE, &[X_SAVED]), done(&[X])),
        edge("the first of two", put_back(&[X, Y], &WHOLE, &[X_SAVED, Y]), done(&[X, Y])),
        edge("the last of two", put_back(&[X, Y], &WHOLE, &[X, Y_SAVED]), done(&[X, Y])),
        edge("every text of M", put_back(&M, &WHOLE, &two_rows), done(&M)),
        edge(
            "every line of every copy",
            put_back(&M, &PP, &[HI_SAVED, LO_SAVED, HI_SAVED, LO_SAVED]),
            done(&M),
        ),
        edge("128 lines", all_saved(&texts(128)), done(&texts(128))),
        edge("128 of the longest lines", all_saved(&longest), done(&longest)),
    ]
}

fn copies_in_each_order() -> Vec<Edge> {
    let copies = |what, lines: &[&str], reply: Reply| -> Vec<Edge> {
        let program = shown_times(lines.len());
        let case = |view: &Vec<&str>| edge(what, put_back(&[X], &program, view), reply.clone());
        orders(lines).iter().map(case).collect()
    };
    let changed = || done(&[X_TO_Y]);
    let deleted = || done(&[X_DELETED]);
    let clash = || refused(11, 0);
    let in_order = [
        copies("saved, untouched", &[X_SAVED, X], done(&[X])),
        copies("saved, changed", &[X_SAVED, X_TO_Y], changed()),
        copies("saved, deleted", &[X_SAVED, X_DELETED], deleted()),
        copies("saved, changed, untouched", &[X_SAVED, X_TO_Y, X], changed()),
        copies("saved, deleted, untouched", &[X_SAVED, X_DELETED, X], deleted()),
        copies("saved twice, changed", &[X_SAVED, X_SAVED, X_TO_Y], changed()),
        copies("saved twice, deleted", &[X_SAVED, X_SAVED, X_DELETED], deleted()),
        copies("saved, changed alike twice", &[X_SAVED, X_TO_Y, X_TO_Y], changed()),
        copies("saved, deleted twice", &[X_SAVED, X_DELETED, X_DELETED], deleted()),
        copies("saved, changed in two ways", &[X_SAVED, X_TO_Y, X_TO_Z], clash()),
        copies("saved, changed, deleted", &[X_SAVED, X_TO_Y, X_DELETED], clash()),
    ];
    in_order.concat()
}

/// The lines in each of their orders.
fn orders<'a>(lines: &[&'a str]) -> BTreeSet<Vec<&'a str>> {
    if lines.is_empty() {
        return BTreeSet::from([Vec::new()]);
    }
    let begun_with = |first| {
        let mut rest = lines.to_vec();
        let first = rest.remove(first);
        orders(&rest).into_iter().map(move |rest| [&[first], &rest[..]].concat())
    };
    (0..lines.len()).flat_map(begun_with).collect()
}

/// The source so many times.
fn shown_times(count: usize) -> Vec<&'static str> {
    [["09", "01"].repeat(count - 1), vec!["01"]].concat()
}

fn many_copies() -> Vec<Edge> {
    // Doubled seven times.
    let program = [["08", "09", "01", "01"].repeat(6), TWICE.to_vec()].concat();
    let all_saved = vec![X_SAVED; 128];
    let with = |edits: &[(usize, &'static str)]| {
        let mut view = all_saved.clone();
        edits.iter().for_each(|&(place, line)| view[place] = line);
        put_back(&[X], &program, &view)
    };
    let rows = texts(64);
    let saved = all_with_mark(&rows, "01");
    let changed: Vec<String> = (0..64).map(|number| format!("000101{number:04X}0179")).collect();
    let twice =
        |first: &[String], second: &[String]| put_back(&rows, &TWICE, &[first, second].concat());
    let mut clashing = saved.clone();
    (clashing[5], clashing[60]) = (with_mark(&rows[5], "02"), with_mark(&rows[60], "02"));
    vec![
        edge("128 copies saved", with(&[]), done(&[X])),
        edge("all but the first", with(&[(0, X_TO_Y)]), done(&[X_TO_Y])),
        edge("all but one in the middle", with(&[(64, X_DELETED)]), done(&[X_DELETED])),
        edge("all but the last", with(&[(127, X_TO_Y)]), done(&[X_TO_Y])),
        edge("all but two alike", with(&[(3, X_TO_Y), (100, X_TO_Y)]), done(&[X_TO_Y])),
        edge("all but two", with(&[(3, X_TO_Y), (100, X_TO_Z)]), refused(11, 0)),
        edge("64 lines saved, their copies changed", twice(&saved, &changed), done(&changed)),
        edge("64 lines changed, their copies saved", twice(&changed, &saved), done(&changed)),
        edge("two clashes among them", twice(&changed, &clashing), refused(11, 5)),
    ]
}

/// A saved line of a compared text is accepted; one of its copies may still not be edited.
fn compared_texts() -> Vec<Edge> {
    let either = [&EQUAL_TO_HI[..10], &["01"]].concat();
    let thrown_away = [&["09"], &P[..], &["08"], &EQUAL_TO_HI[..], &["02"]].concat();
    let copied = [&["09"], &EQUAL_TO_HI[..], &P[..]].concat();
    let put_back = |program: &[&str], view: &[&str]| put_back(&M, program, view);
    vec![
        edge("both branches", put_back(&either, &[HI_SAVED, LO_SAVED]), done(&M)),
        edge("the second branch", put_back(&either, &[HI, LO_SAVED]), done(&M)),
        edge("one changed", put_back(&either, &[HI_SAVED, LO_TO_HI]), refused(11, 4)),
        edge("the other changed", put_back(&either, &[HI_TO_LO, LO_SAVED]), refused(11, 2)),
        edge("one deleted", put_back(&either, &[HI_SAVED, LO_DELETED]), refused(11, 4)),
        edge("in a part that is lost", put_back(&thrown_away, &[HI_SAVED, LO_SAVED]), done(&M)),
        edge("there, one changed", put_back(&thrown_away, &[HI_SAVED, LO_TO_HI]), refused(11, 4)),
        edge("with a copy", put_back(&copied, &[HI_SAVED, HI_SAVED, LO_SAVED]), done(&M)),
        edge("a copy changed", put_back(&copied, &[HI_SAVED, HI_TO_LO, LO]), refused(11, 2)),
        edge("its copy changed", put_back(&copied, &[HI_TO_LO, HI_SAVED, LO]), refused(11, 2)),
    ]
}

/// Node 3 is the source of test 11 and node 1 the result of its X; both are shown.
fn both_texts_of_a_test() -> Vec<Edge> {
    let program = both_compared();
    let alike = ["00020000000161", "01010000010178", "00020000020162", "01010000030178"];
    let different = [alike[0], alike[1], alike[2], "01010000030179"];
    let put_back = |master: &[&str; 4], view: &[&str; 2]| put_back(master, &program, view);
    let (source, result) = ("00010100030178", "00010100010178");
    let other_source = "00010100030179";
    vec![
        edge("both saved", put_back(&alike, &[source, result]), done(&alike)),
        edge(
            "both saved, the test says no",
            put_back(&different, &[other_source, result]),
            done(&different),
        ),
        edge("the source saved", put_back(&alike, &[source, "00010000010178"]), done(&alike)),
        edge("the result saved", put_back(&alike, &["00010000030178", result]), done(&alike)),
        edge("the result changed", put_back(&alike, &[source, "00010100010179"]), refused(11, 1)),
        edge("the source changed", put_back(&alike, &[other_source, result]), refused(11, 3)),
    ]
}

/// Texts a little off the old one are changes, alone and beside a saved copy.
fn new_texts() -> Vec<Edge> {
    const LONG: &[u8; 32] = b"Blower 1 outlet temperature high";
    let pairs: [(&str, &[u8], &[u8]); 22] = [
        ("a byte more", b"hi", b"hix"),
        ("a space more", b"hi", b"hi "),
        ("a byte 00 more", b"hi", b"hi\0"),
        ("a byte less", b"hi", b"h"),
        ("a space less", b"hi ", b"hi"),
        ("another first byte", b"hi", b"xi"),
        ("another last byte", b"hi", b"hx"),
        ("another byte behind 00", b"h\0i", b"h\0x"),
        ("other spaces", b"hi ", b" hi"),
        ("the bytes exchanged", b"hi", b"ih"),
        ("upper case", b"hi", b"HI"),
        ("one byte, another", b"h", b"i"),
        ("nothing", b"hi", b""),
        ("nothing for a space", b" ", b""),
        ("a byte for nothing", b"", b"h"),
        ("a space for nothing", b"", b" "),
        ("a byte 00 for nothing", b"", b"\0"),
        ("32 bytes, another first", LONG, b"blower 1 outlet temperature high"),
        ("32 bytes, another last", LONG, b"Blower 1 outlet temperature higH"),
        ("32 bytes, another between", LONG, b"Blower 2 outlet temperature high"),
        ("31 bytes for 32", LONG, b"Blower 1 outlet temperature hig"),
        ("32 bytes for nothing", b"", LONG),
    ];
    let edges_of = |(what, old, new)| {
        let [fresh, saved, changed] = [line("00", old), line("01", old), line("01", new)];
        let alone = put_back(&[&fresh], &WHOLE, &[&changed]);
        let beside = put_back(&[&fresh], &TWICE, &[&saved, &changed]);
        [edge(what, alone, done(&[&changed])), edge(what, beside, done(&[&changed]))]
    };
    pairs.into_iter().flat_map(edges_of).collect()
}

/// Texts of all sorts saved, alone and beside a deleted copy.
fn old_texts() -> Vec<Edge> {
    let texts: [(&str, &[u8]); 10] = [
        ("no byte", b""),
        ("a space", b" "),
        ("a byte 00", b"\0"),
        ("a byte", b"x"),
        ("a space behind", b"hi "),
        ("a byte 00 behind", b"hi\0"),
        ("bytes of all sorts", b"\0\n\xFF\x20"),
        ("32 bytes", b"Blower 1 outlet temperature high"),
        ("32 spaces", &[b' '; 32]),
        ("32 bytes FF", &[0xFF; 32]),
    ];
    let edges_of = |(what, text)| {
        let [fresh, saved, deleted] = ["00", "01", "02"].map(|mark| line(mark, text));
        let alone = put_back(&[&fresh], &WHOLE, &[&saved]);
        let beside = put_back(&[&fresh], &TWICE, &[&saved, &deleted]);
        [edge(what, alone, done(&[&fresh])), edge(what, beside, done(&[&deleted]))]
    };
    texts.into_iter().flat_map(edges_of).collect()
}

/// Node 0 with that mark and text.
fn line(mark: &str, text: &[u8]) -> String {
    text_line(mark, 0, text)
}

/// The text of another line is a new one.
fn texts_of_other_lines() -> Vec<Edge> {
    let exchanged = [M[0], M[1], "0201010002026C6F", M[3], "0201010004026869"];
    let lo_twice = [M[0], M[1], "0201010002026C6F", M[3], M[4]];
    let like_the_first_line = [M[0], M[1], "02010100020164", M[3], M[4]];
    let behind_made = ["09", "030178", "01"];
    let alike = [X, "00010000010178"];
    let alike_saved = [X_SAVED, "00010100010178"];
    let last_changed = "00010100010179";
    vec![
        edge("exchanged", put_back(&M, &P, &[HI_TO_LO, LO_TO_HI]), done(&exchanged)),
        edge("that of a saved one", put_back(&M, &P, &[HI_TO_LO, LO_SAVED]), done(&lo_twice)),
        edge(
            "the tag at its place in the master",
            put_back(&M, &P, &["00010100020164", LO_SAVED]),
            done(&like_the_first_line),
        ),
        edge(
            "exchanged, behind a line of the program",
            put_back(&[X, Y], &behind_made, &[MADE, X_TO_Y, Y_TO_X]),
            done(&[X_TO_Y, Y_TO_X]),
        ),
        edge(
            "saved, behind a line of the program",
            put_back(&[X, Y], &behind_made, &[MADE, X_SAVED, Y_SAVED]),
            done(&[X, Y]),
        ),
        edge("two alike, both saved", put_back(&alike, &WHOLE, &alike_saved), done(&alike)),
        edge(
            "two alike, one saved, one changed",
            put_back(&alike, &WHOLE, &[X_SAVED, last_changed]),
            done(&[X, last_changed]),
        ),
        edge(
            "two alike, one changed, one saved",
            put_back(&alike, &WHOLE, &[X_TO_Y, alike_saved[1]]),
            done(&[X_TO_Y, alike[1]]),
        ),
    ]
}

/// Reply 10 looks at the mark as it is written.
fn lines_of_the_program() -> Vec<Edge> {
    let alone = |program: &str, view: &str| put_back(&[X], &[program], &[view]);
    let longest = "6C".repeat(32);
    let before = ["09", "030178", "01"];
    let behind = ["09", "01", "030178"];
    let before_copies = ["09", "030178", "09", "01", "01"];
    let behind_copies = ["09", "09", "01", "01", "030178"];
    let two = ["09", "030178", "030178"];
    let compared = ["08", "030178", "0B", "11", "030178", "01", "02"];
    let other_text = "00010000000179";
    vec![
        edge("no byte", alone("0300", "000101FFFF00"), refused(10, 0)),
        edge(
            "32 bytes",
            alone(&format!("0320{longest}"), &format!("000101FFFF20{longest}")),
            refused(10, 0),
        ),
        edge("a new text", alone("030178", "000101FFFF0179"), refused(10, 0)),
        edge("untouched", put_back(&[X], &before, &[MADE, X_SAVED]), done(&[X])),
        edge("before a saved one", put_back(&[X], &before, &[MADE_SAVED, X_SAVED]), refused(10, 0)),
        edge("before a change", put_back(&[X], &before, &[MADE_SAVED, X_TO_Y]), refused(10, 0)),
        edge("behind a saved one", put_back(&[X], &behind, &[X_SAVED, MADE_SAVED]), refused(10, 1)),
        edge(
            "before a clash",
            put_back(&[X], &before_copies, &[MADE_SAVED, X_TO_Y, X_TO_Z]),
            refused(10, 0),
        ),
        edge(
            "behind a clash",
            put_back(&[X], &behind_copies, &[X_TO_Y, X_DELETED, MADE_SAVED]),
            refused(10, 2),
        ),
        edge("the first of two", put_back(&[X], &two, &[MADE_SAVED, MADE]), refused(10, 0)),
        edge("the second of two", put_back(&[X], &two, &[MADE, MADE_SAVED]), refused(10, 1)),
        edge(
            "before a deleted one",
            put_back(&[X], &two, &[MADE_SAVED, "000102FFFF0178"]),
            refused(10, 0),
        ),
        edge("compared", put_back(&[X], &compared, &[MADE_SAVED]), refused(10, 0)),
        edge(
            "before a difference",
            put_back(&[X], &before, &[MADE_SAVED, other_text]),
            refused(9, 1),
        ),
    ]
}

fn in_deleted_elements() -> Vec<Edge> {
    let [first, second] = ["0201010002026869", "0201010004026C6F"];
    let root = "00020200000164";
    let row = "01020200010177";
    let text = "0201020002026869";
    let twice = |one: [&str; 5], other: [&str; 5]| put_back(&M, &TWICE, &[one, other].concat());
    let row_deleted = [M[0], row, M[2], M[3], M[4]];
    vec![
        edge(
            "the root",
            put_back(&M, &WHOLE, &[root, M[1], first, M[3], second]),
            done(&[root, M[1], M[2], M[3], M[4]]),
        ),
        edge("a row", put_back(&M, &WHOLE, &[M[0], row, first, M[3], second]), done(&row_deleted)),
        edge(
            "a row, the text saved in its copy",
            twice(row_deleted, [M[0], M[1], first, M[3], second]),
            done(&row_deleted),
        ),
        edge(
            "a row and its text, saved in its copy",
            twice([M[0], M[1], first, M[3], M[4]], [M[0], row, text, M[3], M[4]]),
            done(&[M[0], row, text, M[3], M[4]]),
        ),
        edge(
            "a row, the text changed and saved",
            twice([M[0], row, first, M[3], M[4]], [M[0], row, "02010100020178", M[3], M[4]]),
            done(&[M[0], row, "02010100020178", M[3], M[4]]),
        ),
    ]
}

fn through_slots() -> Vec<Edge> {
    let once = ["0C00", "0500"];
    let twice = ["0C00", "09", "0500", "0500"];
    let in_two = ["0C00", "08", "0500", "0C01", "09", "0500", "0501"];
    let compared = ["0C00", "08", "030178", "0B", "11", "0500", "0500", "0500"];
    let with_itself = ["0C00", "08", "0500", "0B", "11", "0500", "09", "01", "0500", "02"];
    let put_back = |program: &[&str], view: &[&str]| put_back(&[X], program, view);
    vec![
        edge("a slot", put_back(&once, &[X_SAVED]), done(&[X])),
        edge("a slot twice", put_back(&twice, &[X_SAVED, X_SAVED]), done(&[X])),
        edge("saved, then changed", put_back(&twice, &[X_SAVED, X_TO_Y]), done(&[X_TO_Y])),
        edge("changed, then saved", put_back(&twice, &[X_TO_Y, X_SAVED]), done(&[X_TO_Y])),
        edge("deleted, then saved", put_back(&twice, &[X_DELETED, X_SAVED]), done(&[X_DELETED])),
        edge("two slots", put_back(&in_two, &[X_SAVED, X_TO_Y]), done(&[X_TO_Y])),
        edge("two slots from behind", put_back(&in_two, &[X_DELETED, X_SAVED]), done(&[X_DELETED])),
        edge("a compared slot", put_back(&compared, &[X_SAVED]), done(&[X])),
        edge("a slot beside itself", put_back(&with_itself, &[X_SAVED, X_SAVED]), done(&[X])),
        edge("there, changed", put_back(&with_itself, &[X_SAVED, X_TO_Y]), refused(11, 0)),
    ]
}

fn through_other_operations() -> Vec<Edge> {
    let element = ["00020000000164", "01010000010178"];
    let (saved, changed, deleted) = ("01010100010178", "01010100010179", "01010200010178");
    let gone = "00020200000164";
    let within = ["07", "01"];
    let doubled_within = ["07", "09", "01", "01"];
    let each = ["0A", "09", "01", "01"];
    let fourfold = ["08", "09", "01", "01", "09", "01", "01"];
    let by_tag = ["0B", "120164", "07", "01", "02"];
    let element_back = |program: &[&str], view: &[&str]| put_back(&element, program, view);
    vec![
        edge("07", element_back(&within, &[element[0], saved]), done(&element)),
        edge("07, deleted", element_back(&within, &[gone, saved]), done(&[gone, element[1]])),
        edge(
            "07 around copies",
            element_back(&doubled_within, &[element[0], saved, changed]),
            done(&[element[0], changed]),
        ),
        edge(
            "07 around copies, all deleted but a saved one",
            element_back(&doubled_within, &[gone, deleted, saved]),
            done(&[gone, deleted]),
        ),
        edge("12", element_back(&by_tag, &[element[0], saved]), done(&element)),
        edge("06", element_back(&["06"], &["00010100010178"]), done(&element)),
        edge(
            "0A",
            put_back(&[X, Y], &each, &[X_SAVED, X_TO_Y, Y_TO_X, Y_SAVED]),
            done(&[X_TO_Y, Y_TO_X]),
        ),
        edge("08", put_back(&[X], &fourfold, &[X_SAVED, X, X_TO_Y, X_SAVED]), done(&[X_TO_Y])),
        edge(
            "08, changed in two ways",
            put_back(&[X], &fourfold, &[X_TO_Z, X_SAVED, X_SAVED, X_TO_Y]),
            refused(11, 0),
        ),
    ]
}

/// A saved line has to stand where the fresh one does.
fn differing_views() -> Vec<Edge> {
    let with = |view: &[&str]| put_back(&M, &P, view);
    let rows = |line| put_back(&M, &["06"], &[line, "0101000002026869"]);
    vec![
        edge("another depth", with(&[HI_SAVED, "0101010004026C6F"]), refused(9, 1)),
        edge("another number", with(&[HI_SAVED, "0001010002026C6F"]), refused(9, 1)),
        edge("a line of another node", with(&[HI_SAVED, HI_SAVED]), refused(9, 1)),
        edge("number FFFF", with(&[HI_SAVED, "000101FFFF026C6F"]), refused(9, 1)),
        edge("exchanged", with(&[LO_SAVED, HI_SAVED]), refused(9, 0)),
        edge("a line less", with(&[HI_SAVED]), refused(9, 1)),
        edge("a line more", with(&[HI_SAVED, LO_SAVED, LO_SAVED]), refused(9, 2)),
        edge("an untouched line differs", with(&[HI_SAVED, "0001000004026869"]), refused(9, 1)),
        edge("a deleted line differs", with(&[HI_SAVED, "0001020004026869"]), refused(9, 1)),
        edge("a tag saved", rows("00020100010177"), refused(8, 0)),
        edge("a text for an element", rows("00010100010177"), refused(9, 0)),
        edge("a saved line as master", put_back(&[X_SAVED], &WHOLE, &[X_SAVED]), refused(5, 0)),
    ]
}
