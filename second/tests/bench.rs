//! The thirteen bench examples of document 01.

mod common;

use common::{M, P, PP, put_back, show};
use second::calls;
use second::cases::bench::examples;
use second::rules::Rules;

#[test]
fn each_example_gets_the_documented_reply() {
    for example in examples() {
        let reply = calls::answer(&example.case, &Rules::document());
        assert_eq!(reply, example.reply, "example {}: {:?}", example.number, example.case);
    }
}

#[test]
fn all_thirteen_are_there_in_their_order() {
    let mut numbers: Vec<usize> = examples().iter().map(|example| example.number).collect();
    assert!(numbers.is_sorted());
    numbers.dedup();
    assert_eq!(numbers, (1..=13).collect::<Vec<_>>());
}

#[test]
fn the_replies_are_printed_as_documented() {
    let shown = b"0000000022\n0001000002026869\n0001000004026C6F\n";
    assert_eq!(show(&M, &P).printed(), shown);
    let returned = put_back(&M, &P, &["0001000002026869", "0001010004026869"]);
    assert!(returned.printed().starts_with(b"000000004F\n"));
    assert_eq!(show(&[""; 0], &["01"]).printed(), b"0000000000\n");
}

#[test]
fn pp_is_p_twice() {
    assert_eq!(PP.to_vec(), [&["09"], &P[..], &P[..]].concat());
}
