//! Saved lines: the edges written by hand, demand 3 on views with many of them, and that saving
//! alters no answer.

mod common;

use second::calls;
use second::cases::{self, saved_edges, saves};
use second::node_line::{self, FROM_PROGRAM, Kind, Mark, NodeLine};
use second::rules::Rules;
use second::stream::{Call, Case};

#[test]
fn each_edge_gets_the_requested_reply() {
    common::answered_as_requested(saved_edges::edges());
}

#[test]
fn demand_3_holds_on_views_with_many_saved_lines() {
    common::demand_3_holds_on_more_than(3_000, &saves::cases(7, 5_000));
}

/// The case with a change to the texts of the master in its view that equal the fresh ones but for
/// their mark; none if that alters nothing.
fn with_old_texts(case: &Case, change: fn(&mut NodeLine)) -> Option<Case> {
    let rules = Rules::document();
    let shown = calls::answer(&Case { call: Call::Show, ..case.clone() }, &rules);
    let fresh = node_line::read_file(&shown.output, &rules.lines).ok()?;
    let mut view = node_line::read_file(&case.view, &rules.lines).ok()?;
    for (line, fresh) in view.iter_mut().zip(fresh) {
        let is_old = NodeLine { mark: line.mark, ..fresh } == *line;
        if is_old && line.kind == Kind::Text && line.number != FROM_PROGRAM {
            change(line);
        }
    }
    let view = node_line::write_file(&view);
    (view != case.view).then(|| Case { view, ..case.clone() })
}

/// In how many put backs a change to the old texts of the view alters the view, and no answer.
fn answered_alike(cases: &[Case], change: fn(&mut NodeLine)) -> usize {
    let rules = Rules::document();
    let mut altered = 0;
    for (index, case) in cases.iter().enumerate().filter(|(_, case)| case.call == Call::PutBack) {
        if let Some(other) = with_old_texts(case, change) {
            assert_eq!(calls::answer(&other, &rules), calls::answer(case, &rules), "case {index}");
            altered += 1;
        }
    }
    altered
}

fn save(line: &mut NodeLine) {
    if line.mark == Mark::Untouched {
        line.mark = Mark::Changed;
    }
}

fn leave_unsaved(line: &mut NodeLine) {
    if line.mark == Mark::Changed {
        line.mark = Mark::Untouched;
    }
}

#[test]
fn saving_every_line_alters_no_answer() {
    let saved = answered_alike(&cases::cases(8, 10_000), save);
    assert!(saved > 2_000, "only {saved} views had lines to save");
}

#[test]
fn leaving_saved_lines_unmarked_alters_no_answer() {
    let unmarked = answered_alike(&saves::cases(9, 5_000), leave_unsaved);
    assert!(unmarked > 3_000, "only {unmarked} views had saved lines");
}
