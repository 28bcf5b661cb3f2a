//! Sweeping: the edges written by hand, the sentences of request #103 by brute force on generated
//! cases, and that the brute force sees wrong sweeps.

mod common;

use common::{M, P, PP, done, file, put_back, refused, show, sweep, swept, swept_as_requested};
use second::calls;
use second::cases::{self, sweep_edges, sweeps};
use second::committed;
use second::rules::{Goes, MarkedMaster, NumberLines, Rules};
use second::stream::Case;
use second::sweep_sentences;
use second::verdict::Verdict;

const EMPTY: [&str; 0] = [];

#[test]
fn each_edge_gets_the_requested_reply() {
    common::answered_as_requested(sweep_edges::edges());
}

#[test]
fn the_length_is_that_of_the_swept_lines() {
    assert_eq!(
        sweep(&["00010200000178", "00010000010179"]).printed(),
        b"000000000F\n00010000000179\nFFFF\n0000\n"
    );
    assert_eq!(sweep(&["00010200000178"]).printed(), b"0000000000\nFFFF\n");
    assert_eq!(sweep(&EMPTY).printed(), b"0000000000\n");
    assert_eq!(sweep(&["0001"]).printed(), b"0400000000\n");
    let longest: Vec<String> =
        (0..128).map(|number| format!("000102{number:04X}20{}", "61".repeat(32))).collect();
    assert!(sweep(&longest).printed().starts_with(b"0000000000\nFFFF\nFFFF\n"));
    let kept: Vec<String> =
        longest.iter().map(|line| line.replacen("000102", "000101", 1)).collect();
    assert!(sweep(&kept).printed().starts_with(b"0000002680\n0001000000"));
}

#[test]
fn the_room_is_used_again() {
    // Three rows; the second is deleted through a view and swept away.
    let master = [M[0], M[1], M[2], M[3], M[4], "01020000050177", "0201000006027878"];
    let view = ["00020000010177", "0101000002026869", "00020200030177", "0101000004026C6F"];
    let view = [&view[..], &["00020000050177", "0101010006027979"]].concat();
    let returned = put_back(&master, &["06"], &view);
    let marked = [M[0], M[1], M[2], "01020200030177", M[4], "01020000050177", "0201010006027979"];
    assert_eq!(returned, done(&marked));
    let rows = [M[0], M[1], M[2], "01020000030177", "0201000004027979"];
    let numbers = ["0000", "0001", "0002", "FFFF", "FFFF", "0003", "0004"];
    assert_eq!(sweep(&marked), swept(&rows, &numbers));
    // The swept master has no mark: it is put back into, where the marked one was not.
    assert_eq!(put_back(&marked, &["01"], &marked), refused(5, 3));
    assert_eq!(put_back(&rows, &["01"], &rows), done(&rows));
}

#[test]
fn a_swept_master_may_stop_a_program_that_ran_before() {
    let deleted = ["00020200000164", M[1], M[2], M[3], M[4]];
    assert_eq!(show(&deleted, &P), show(&M, &P));
    assert_eq!(sweep(&deleted), swept(&EMPTY, &["FFFF"; 5]));
    assert_eq!(show(&EMPTY, &P), refused(6, 1));
}

#[test]
fn edits_of_copies_are_swept_once() {
    let view = ["0001020002026869", "0001010004026869", "0001020002026869", "0001000004026C6F"];
    let returned = put_back(&M, &PP, &view);
    assert_eq!(returned.number, 0);
    let kept = [M[0], M[1], "01020000020177", "0201000003026869"];
    let numbers = ["0000", "0001", "FFFF", "0002", "0003"];
    let reply = calls::answer(&Case::sweep(returned.output), &Rules::document());
    assert_eq!(reply, swept(&kept, &numbers));
}

#[test]
fn nothing_but_the_master_and_the_rooms_counts() {
    let rules = Rules::document();
    let case = Case::sweep(file(&M));
    let with_other_files = Case { program: b"x".to_vec(), view: b"x".to_vec(), ..case.clone() };
    assert_eq!(calls::answer(&with_other_files, &rules), calls::answer(&case, &rules));
    let with_more_room = Case { output_room: 16_384, second_room: 16_384, ..case.clone() };
    assert_eq!(calls::answer(&with_more_room, &rules), calls::answer(&case, &rules));
}

#[test]
fn the_sentences_hold_on_generated_sweeps() {
    assert_eq!(swept_as_requested(&sweeps::cases(5, 5_000)), 5_000);
}

#[test]
fn the_sentences_hold_on_what_put_backs_return() {
    let checked = swept_as_requested(&cases::cases(6, 10_000));
    assert!(checked > 2_000, "only {checked} returned masters were swept");
}

#[test]
fn the_sentences_hold_on_all_marks_of_small_masters() {
    let mut cases = Vec::new();
    for shape in (1..=6).flat_map(shapes) {
        for marks in 0..3_usize.pow(shape.len() as u32) {
            cases.extend(marked(&shape, marks));
        }
    }
    assert!(cases.len() > 20_000, "only {} masters", cases.len());
    assert_eq!(swept_as_requested(&cases), cases.len());
}

/// The depths of every master of so many nodes.
fn shapes(nodes: usize) -> Vec<Vec<u8>> {
    let mut shapes = vec![vec![0]];
    for _ in 1..nodes {
        shapes = shapes
            .into_iter()
            .flat_map(|shape: Vec<u8>| {
                let last = shape[shape.len() - 1];
                (0..=last + 1).map(move |depth| [&shape[..], &[depth]].concat())
            })
            .collect();
    }
    shapes
}

/// The marks are the digits of a number to base 3. A leaf is a text, another node an element, which
/// cannot be changed.
fn marked(shape: &[u8], marks: usize) -> Option<Case> {
    let mut lines = Vec::new();
    let mut marks = marks;
    for (number, depth) in shape.iter().enumerate() {
        let is_leaf = shape.get(number + 1).is_none_or(|next| next <= depth);
        let mark = marks % 3;
        marks /= 3;
        match (is_leaf, mark) {
            (true, _) => lines.push(format!("{depth:02X}01{mark:02X}{number:04X}0178")),
            (false, 1) => return None,
            (false, _) => lines.push(format!("{depth:02X}02{mark:02X}{number:04X}0164")),
        }
    }
    Some(sweep_edges::sweep(&lines))
}

#[test]
fn the_brute_force_check_sees_wrong_sweeps() {
    let sweeps = committed::sweeps();
    let sees = |change: &dyn Fn(&mut Rules)| {
        let mut rules = Rules::document();
        change(&mut rules);
        sweeps.iter().any(|case| sweep_sentences::check(case, &rules) == Verdict::Violated)
    };
    for goes in [
        Goes::DeletedAlone,
        Goes::DeletedAndContentsRise,
        Goes::DeletedWithLeaves,
        Goes::DeletedWithItems,
        Goes::DeletedWithSiblingsBehind,
        Goes::UpToAnInnerDeleted,
        Goes::AllButChanged,
        Goes::ChangedToo,
    ] {
        assert!(sees(&|rules| rules.sweeping.goes = goes), "{goes:?}");
    }
    for number_lines in [
        NumberLines::OldNumbers,
        NumberLines::OldNumberOfEachNew,
        NumberLines::RemovedAreZero,
        NumberLines::RemovedGetTheNext,
        NumberLines::LowByteFirst,
        NumberLines::KeptOnly,
        NumberLines::Always128,
    ] {
        assert!(sees(&|rules| rules.sweeping.number_lines = number_lines), "{number_lines:?}");
    }
    assert!(sees(&|rules| rules.sweeping.marks_are_lost = false));
    assert!(sees(&|rules| rules.sweeping.lines_are_renumbered = false));
    assert!(sees(&|rules| rules.sweeping.first_number = 1));
    assert!(sees(&|rules| rules.sweeping.length_counts_number_lines = true));
    assert!(sees(&|rules| rules.judging.marked_master = MarkedMaster::AlwaysRefused));
    assert!(sees(&|rules| rules.judging.whole_file_for_one_number = false));
    assert!(sees(&|rules| rules.rooms.numbers = 639));
    assert!(!sees(&|_| {}));
}
