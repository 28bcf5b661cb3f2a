//! Sweeps at the edges of request #103, and the reply that it asks for to each, written by hand.

use super::bench::{M, file, nested, refused, texts};
use super::edge::{Edge, all_with_mark, edge, longest_lines, with_mark};
use crate::calls::Reply;
use crate::stream::Case;

const EMPTY: [&str; 0] = [];
const GONE: &str = "FFFF";

/// A deleted text, alone a master.
const DELETED: &str = "00010200000178";

pub fn edges() -> Vec<Edge> {
    let in_order = [
        of_the_bench(),
        few_nodes(),
        deleted_in_deleted(),
        elements_in_elements(),
        full_masters(),
        short_rooms(),
        wrong_forms(),
        broken_bounds(),
        two_faults(),
    ];
    in_order.into_iter().flatten().collect()
}

fn of_the_bench() -> Vec<Edge> {
    let changed = [M[0], M[1], M[2], M[3], "0201010004026869"];
    let hi_twice = [M[0], M[1], M[2], M[3], "0201000004026869"];
    let from_example_10 = [M[0], "01020200010177", "0201010002026C6F", M[3], M[4]];
    let row_2 = [M[0], "01020000010177", "0201000002026C6F"];
    let without_the_root = ["00020200000164", M[1], M[2], M[3], M[4]];
    let all = all_with_mark(&M, "02");
    let same = ["0000", "0001", "0002", "0003", "0004"];
    vec![
        edge("no mark", sweep(&M), swept(&M, &same)),
        edge("the master of example 2", sweep(&changed), swept(&hi_twice, &same)),
        edge(
            "the master of example 10",
            sweep(&from_example_10),
            swept(&row_2, &["0000", GONE, GONE, "0001", "0002"]),
        ),
        edge("the first node deleted", sweep(&without_the_root), swept(&EMPTY, &[GONE; 5])),
        edge("every node deleted", sweep(&all), swept(&EMPTY, &[GONE; 5])),
    ]
}

fn few_nodes() -> Vec<Edge> {
    let two = ["00010000000178", "00010000010179"];
    let old_text_changed = ["00010100000178", "000101000100"];
    let last_changed = ["00010000000178", "000100000100"];
    let first_deleted = [DELETED, two[1]];
    let last_deleted = [two[0], "00010200010179"];
    let both = ["0000", "0001"];
    vec![
        edge("an empty master", sweep(&EMPTY), swept(&EMPTY, &EMPTY)),
        edge("one deleted text", sweep(&[DELETED]), swept(&EMPTY, &[GONE])),
        edge("one deleted element", sweep(&["00020200000164"]), swept(&EMPTY, &[GONE])),
        edge("changed texts", sweep(&old_text_changed), swept(&last_changed, &both)),
        edge(
            "the first deleted",
            sweep(&first_deleted),
            swept(&["00010000000179"], &[GONE, "0000"]),
        ),
        edge("the last deleted", sweep(&last_deleted), swept(&two[..1], &["0000", GONE])),
    ]
}

/// An inner deletion ends before the outer one does.
fn deleted_in_deleted() -> Vec<Edge> {
    let rest = ["0101000006026869", "00010100070178"];
    let master = [
        "00020000000164",
        "01020200010177",
        "02020200020161",
        "0301000003026C6F",
        "02010100040178",
        "02020000050161",
        rest[0],
        rest[1],
    ];
    let kept = [master[0], "0101000001026869", "00010000020178"];
    let numbers = ["0000", GONE, GONE, GONE, GONE, GONE, "0001", "0002"];
    let twice = ["00020200000164", "01020200010177", "01010100020178", "00010200030179"];
    vec![
        edge("deleted and changed in deleted", sweep(&master), swept(&kept, &numbers)),
        edge("deleted in deleted, up to the end", sweep(&twice), swept(&EMPTY, &[GONE; 4])),
    ]
}

fn elements_in_elements() -> Vec<Edge> {
    let deep = nested(8);
    let marked = |place: usize| {
        let mut lines = deep.clone();
        lines[place] = with_mark(&lines[place], "02");
        lines
    };
    let up_to = |kept: usize| -> Vec<String> {
        (0..8).map(|old| if old < kept { format!("{old:04X}") } else { GONE.to_string() }).collect()
    };
    let emptied = ["00020000000164", "01010200010178", "01020200020177", "00010000030179"];
    let kept = [emptied[0], "00010000010179"];
    let numbers = ["0000", GONE, GONE, "0001"];
    vec![
        edge("the innermost of eight", sweep(&marked(7)), swept(&deep[..7], &up_to(7))),
        edge("the fourth of eight", sweep(&marked(3)), swept(&deep[..3], &up_to(3))),
        edge("an element that is left empty", sweep(&emptied), swept(&kept, &numbers)),
    ]
}

fn full_masters() -> Vec<Edge> {
    let full = texts(128);
    let same: Vec<String> = (0..128).map(|number| format!("{number:04X}")).collect();
    let mut one_deleted = full.clone();
    one_deleted[5] = with_mark(&one_deleted[5], "02");
    let mut one_less = same[..127].to_vec();
    one_less.insert(5, GONE.to_string());
    let longest = longest_lines();
    vec![
        edge("128 nodes", sweep(&full), swept(&full, &same)),
        edge("one of 128 deleted", sweep(&one_deleted), swept(&full[..127], &one_less)),
        edge("128 deleted", sweep(&all_with_mark(&full, "02")), swept(&EMPTY, &[GONE; 128])),
        edge("128 of the longest lines", sweep(&longest), swept(&longest, &same)),
        edge("the same, changed", sweep(&all_with_mark(&longest, "01")), swept(&longest, &same)),
    ]
}

fn short_rooms() -> Vec<Edge> {
    let with = |output_room, second_room, master: &[&str]| Case {
        output_room,
        second_room,
        ..sweep(master)
    };
    let done = swept(&EMPTY, &[GONE]);
    let nothing = swept(&EMPTY, &EMPTY);
    vec![
        edge("9,855 bytes", with(9_855, 640, &[DELETED]), refused(1, 0)),
        edge("639 bytes", with(9_856, 639, &[DELETED]), refused(1, 0)),
        edge("9,855 and 639 bytes", with(9_855, 639, &[DELETED]), refused(1, 0)),
        edge("9,856 and 640 bytes", with(9_856, 640, &[DELETED]), done.clone()),
        edge("as much as is honoured", with(16_384, 16_384, &[DELETED]), done),
        edge("no room, no line", with(0, 0, &EMPTY), refused(1, 0)),
        edge("no second room, no line", with(16_384, 0, &EMPTY), refused(1, 0)),
        edge("room for nothing", with(9_856, 640, &EMPTY), nothing),
    ]
}

fn wrong_forms() -> Vec<Edge> {
    let mut without_its_end = file(&M);
    without_its_end.pop();
    let mut one_byte_more = file(&texts(128));
    one_byte_more.push(b'0');
    let fourth_mark = [DELETED, "00010300010178"];
    vec![
        edge("line 128 present", sweep(&texts(129)), refused(4, 128)),
        edge("a byte of line 128", Case::sweep(one_byte_more), refused(4, 128)),
        edge("no end", Case::sweep(without_its_end), refused(4, 4)),
        edge("an empty line", sweep(&[""]), refused(4, 0)),
        edge("mark 03", sweep(&fourth_mark), refused(4, 1)),
        edge("a changed element", sweep(&["00020100000164"]), refused(4, 0)),
        edge("wrong in deleted", sweep(&["00020200000164", "010300010178"]), refused(4, 1)),
    ]
}

fn broken_bounds() -> Vec<Edge> {
    let in_deleted = |line| sweep(&["00020200000164", line]);
    vec![
        edge("number FFFF", sweep(&["000102FFFF0178"]), refused(5, 0)),
        edge("a number of another line", sweep(&[DELETED, "00010000000178"]), refused(5, 1)),
        edge("a number low byte first", sweep(&[DELETED, "00010001000178"]), refused(5, 1)),
        edge("a first line in depth 1", sweep(&["01010200000178"]), refused(5, 0)),
        edge("under a deleted text", sweep(&[DELETED, "01010000010178"]), refused(5, 1)),
        edge("two deeper in deleted", in_deleted("02010000010178"), refused(5, 1)),
        edge("a wrong number in deleted", in_deleted("01010200020178"), refused(5, 1)),
        edge("depth 8", sweep(&nested(9)), refused(5, 8)),
    ]
}

/// 1 before 4 before 5, each over the whole file.
fn two_faults() -> Vec<Edge> {
    let wrong_number_then_form = ["00010200010178", "0001"];
    let short = |case: Case| Case { second_room: 639, ..case };
    let shorter = |case: Case| Case { output_room: 9_855, ..case };
    vec![
        edge("1 and 4", short(sweep(&["0001"])), refused(1, 0)),
        edge("1 and 4, at line 128", shorter(sweep(&texts(129))), refused(1, 0)),
        edge("1 and 5", shorter(sweep(&["000102FFFF0178"])), refused(1, 0)),
        edge("1 and 4 and 5", short(sweep(&wrong_number_then_form)), refused(1, 0)),
        edge("4 behind 5", sweep(&wrong_number_then_form), refused(4, 1)),
    ]
}

pub fn sweep<S: AsRef<str>>(master: &[S]) -> Case {
    Case::sweep(file(master))
}

pub fn swept<S: AsRef<str>, T: AsRef<str>>(lines: &[S], numbers: &[T]) -> Reply {
    Reply { numbers: file(numbers), ..Reply::done(file(lines)) }
}
