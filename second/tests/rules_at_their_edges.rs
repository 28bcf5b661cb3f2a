//! Single rules at their edges, each by an example small enough to check by hand.

mod common;

use common::{M, P, PP, done, file, nested, put_back, refused, show, texts};
use second::calls;
use second::rules::Rules;
use second::stream::{Call, Case};

#[test]
fn rooms_are_judged_before_all_else() {
    let case = Case::with_least_rooms(Call::Show, b"x".to_vec(), b"x".to_vec(), Vec::new());
    let answer = |output_room, second_room| {
        let case = Case { output_room, second_room, ..case.clone() };
        calls::answer(&case, &Rules::document())
    };
    assert_eq!(answer(9_855, 16_384), refused(1, 0));
    assert_eq!(answer(9_856, 16_383), refused(1, 0));
    assert_eq!(answer(9_856, 16_384), refused(2, 0));
}

#[test]
fn lines_beyond_the_limit() {
    assert_eq!(show(&M, &vec!["01"; 96]), refused(3, 1));
    assert_eq!(show(&M, &vec!["01"; 97]), refused(2, 96));
    assert_eq!(show(&texts(128), &["01"]), done(&texts(128)));
    assert_eq!(show(&texts(129), &["01"]), refused(4, 128));
    assert_eq!(put_back(&texts(128), &["01"], &texts(129)), refused(8, 128));
}

#[test]
fn forms_of_lines() {
    for wrong in ["", "0", "0a", "0G", "00", "10", "14", "0600", "0400", "040120", "05", "0C"] {
        assert_eq!(show(&M, &[wrong]), refused(2, 0), "{wrong}");
    }
    for wrong in ["000200000000", "00020000000120", "0002000000017F", "00020100000164"] {
        assert_eq!(show(&[wrong], &["01"]), refused(4, 0), "{wrong}");
    }
    let long = format!("000100000020{}", "61".repeat(32));
    assert_eq!(show(&[&long], &["01"]), done(&[&long]));
    let longer = format!("000100000021{}", "61".repeat(33));
    assert_eq!(show(&[longer], &["01"]), refused(4, 0));
}

#[test]
fn a_last_line_without_its_end_is_of_wrong_form() {
    let mut master = file(&M);
    master.pop();
    let case = Case::with_least_rooms(Call::Show, master, file(&P), Vec::new());
    assert_eq!(calls::answer(&case, &Rules::document()), refused(4, 4));
}

#[test]
fn master_bounds() {
    assert_eq!(show(&nested(9), &["01"]), refused(5, 8));
    assert_eq!(show(&["01010000000178"], &["01"]), refused(5, 0));
    assert_eq!(show(&["00010000000178", "01010000010178"], &["01"]), refused(5, 1));
    assert_eq!(show(&["000100FFFF0178"], &["01"]), refused(5, 0));
    let marked = ["00010100000178"];
    assert_eq!(show(&marked, &["01"]), done(&marked));
    assert_eq!(put_back(&marked, &["01"], &marked), refused(5, 0));
}

#[test]
fn binds_and_slots() {
    let five = ["0C00", "0C00", "0C00", "0C00", "0C00", "02"];
    assert_eq!(show(&M, &five), refused(3, 4));
    assert_eq!(show(&M, &["0C00", "0501"]), refused(3, 1));
    assert_eq!(show(&M, &["09", "0C00", "0500", "0500"]), refused(3, 3));
    // Both 0C name one slot: the innermost counts, and it is bound to nothing.
    let empty: [&str; 0] = [];
    assert_eq!(show(&M, &["0C07", "0C07", "0507"]), done(&empty));
}

#[test]
fn tests_stand_where_p_is_asked_for() {
    assert_eq!(show(&M, &["13"]), refused(3, 0));
    assert_eq!(show(&M, &["0B", "01", "01", "01"]), refused(3, 1));
    assert_eq!(show(&M, &["0B", "13", "01"]), refused(3, 3));
    // Levels, counts and slots go through tests.
    let through = ["0A", "0A", "0A", "0B", "11", "0A", "01", "01", "01"];
    assert_eq!(show(&M, &through), refused(3, 5));
}

#[test]
fn stops_for_the_source() {
    assert_eq!(show(&texts(2), &["0B", "13", "01", "01"]), refused(6, 1));
    assert_eq!(show(&texts(1), &["0B", "120161", "01", "01"]), refused(6, 1));
    assert_eq!(show(&texts(1), &["0B", "11", "02", "01", "01"]), refused(6, 1));
    // The source is checked before X runs, the result behind it.
    assert_eq!(show(&M, &["0B", "11", "06", "01", "01"]), refused(6, 1));
    assert_eq!(show(&texts(1), &["0B", "11", "06", "01", "01"]), refused(6, 2));
}

#[test]
fn size_is_judged_before_later_items_run() {
    let mut master = texts(65);
    master.push("0002000041".to_string() + "0164");
    let program = ["0A", "0B", "13", "08", "06", "06", "09", "01", "01"];
    assert_eq!(show(&master, &program), refused(7, 0));
}

#[test]
fn view_differences() {
    let fresh = ["0001000002026869", "0001000004026C6F"];
    assert_eq!(put_back(&M, &P, &fresh[..1]), refused(9, 1));
    assert_eq!(put_back(&M, &P, &[fresh[0], fresh[1], fresh[1]]), refused(9, 2));
    assert_eq!(put_back(&M, &P, &["0001000002026868", fresh[1], fresh[1]]), refused(9, 0));
    assert_eq!(put_back(&M, &P, &["0001020002026868", fresh[1]]), refused(9, 0));
    assert_eq!(put_back(&M, &P, &["0001000004026869", fresh[1]]), refused(9, 0));
    assert_eq!(put_back(&M, &P, &[fresh[0], "0101000004026C6F"]), refused(9, 1));
}

#[test]
fn a_compared_text_may_not_be_deleted() {
    let program = ["08", "08", "06", "0A", "06", "0A", "0B", "11", "03026869", "01", "01"];
    let deleted_yes = ["0001020002026869", "0001000004026C6F"];
    assert_eq!(put_back(&M, &program, &deleted_yes), refused(11, 2));
    let deleted_no = ["0001000002026869", "0001020004026C6F"];
    assert_eq!(put_back(&M, &program, &deleted_no), refused(11, 4));
}

#[test]
fn both_sides_of_a_comparison_are_locked() {
    // The text is bound to slot 0 and compared with itself there; what is shown is the slot.
    let master = ["00010000000178"];
    let program = ["0C00", "0B", "11", "0500", "0500", "0500"];
    assert_eq!(show(&master, &program), refused(6, 2));
    let program = ["0C00", "08", "03026869", "0B", "11", "0500", "0500", "0500"];
    assert_eq!(show(&master, &program), done(&master));
    assert_eq!(put_back(&master, &program, &["00010100000179"]), refused(11, 0));
}

#[test]
fn equal_edits_on_copies_are_one_edit() {
    let view = ["0001020002026869", "0001010004026869", "0001020002026869", "0001010004026869"];
    let edited = [M[0], M[1], "0201020002026869", M[3], "0201010004026869"];
    assert_eq!(put_back(&M, &PP, &view), done(&edited));
}
