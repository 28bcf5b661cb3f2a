//! Padded texts: the edges written by hand, demand 3 on cases with many of them, and that showing
//! goes on as if there were no padding.

mod common;

use second::calls;
use second::cases::{padded_edges, pads};
use second::entry::{self, Entry};
use second::node_line::{self, Kind, NodeLine};
use second::rules::{Agreement, Rules};
use second::stream::{Call, Case};

#[test]
fn each_edge_gets_the_requested_reply() {
    common::answered_as_requested(padded_edges::edges());
}

#[test]
fn no_edge_is_there_twice() {
    common::there_once(&padded_edges::edges());
}

#[test]
fn demand_3_holds_on_padded_texts() {
    common::demand_3_holds_on_more_than(2_000, &pads::cases(10, 5_000));
}

/// Written apart from `text`, which is tried here.
fn take_padding_off(text: &mut Vec<u8>) {
    while text.last() == Some(&0x20) {
        text.pop();
    }
}

/// A file of node lines whose texts have no padding.
fn without_padding(file: &[u8]) -> Vec<u8> {
    let mut lines = node_line::read_file(file, &Rules::document().lines).expect("a sound file");
    let texts = lines.iter_mut().filter(|line: &&mut NodeLine| line.kind == Kind::Text);
    texts.for_each(|line| take_padding_off(&mut line.bytes));
    node_line::write_file(&lines)
}

/// The show of a case whose master and program have no padding.
fn show_without_padding(case: &Case) -> Case {
    let lines = Rules::document().lines;
    let mut program = entry::read_file(&case.program, &lines).expect("a sound program");
    for entry in &mut program {
        if let Entry::Text(text) = entry {
            take_padding_off(text);
        }
    }
    let (master, program) = (without_padding(&case.master), entry::write_file(&program));
    Case { call: Call::Show, master, program, ..case.clone() }
}

#[test]
fn what_is_shown_is_what_whole_texts_without_padding_show() {
    let document = Rules::document();
    let mut by_whole_texts = Rules::document();
    by_whole_texts.showing.equals_by = Agreement::ByteForByte;
    let mut padded = 0;
    for (index, case) in pads::cases(11, 5_000).into_iter().enumerate() {
        let mut shown = calls::answer(&Case { call: Call::Show, ..case.clone() }, &document);
        let without = show_without_padding(&case);
        let expected = calls::answer(&without, &by_whole_texts);
        shown.output = without_padding(&shown.output);
        assert_eq!(shown, expected, "case {index}");
        padded += usize::from(without.master != case.master);
    }
    assert!(padded > 4_000, "only {padded} cases had padded texts");
}
