//! What the tests share: the bench examples' files, the calls on files written as their lines, the
//! edges of a request, demand 3 and the sentences of request #103 on many cases, and how many of
//! them other rules answer otherwise.

#![allow(dead_code, unused_imports)]

pub use second::cases::bench::{M, P, PP, done, file, nested, refused, texts};
pub use second::cases::sweep_edges::swept;

use second::calls::{self, Reply};
use second::cases::edge::Edge;
use second::cases::{bench, sweep_edges};
use second::demand3;
use second::rules::Rules;
use second::stream::Case;
use second::sweep_sentences;
use second::verdict::Verdict;

pub fn show<S: AsRef<str>, T: AsRef<str>>(master: &[S], program: &[T]) -> Reply {
    calls::answer(&bench::show(master, program), &Rules::document())
}

pub fn put_back<S: AsRef<str>, T: AsRef<str>, U: AsRef<str>>(
    master: &[S],
    program: &[T],
    view: &[U],
) -> Reply {
    calls::answer(&bench::put_back(master, program, view), &Rules::document())
}

pub fn sweep<S: AsRef<str>>(master: &[S]) -> Reply {
    calls::answer(&sweep_edges::sweep(master), &Rules::document())
}

/// That each edge gets the reply that its request asks for.
pub fn answered_as_requested(edges: Vec<Edge>) {
    for edge in edges {
        let reply = calls::answer(&edge.case, &Rules::document());
        assert_eq!(reply, edge.reply, "{}: {:?}", edge.what, edge.case);
    }
}

/// That no edge is there twice.
pub fn there_once(edges: &[Edge]) {
    for (place, edge) in edges.iter().enumerate() {
        let twin = edges[..place].iter().find(|earlier| earlier.case == edge.case);
        assert!(twin.is_none(), "{}: {:?}", edge.what, edge.case);
    }
}

/// That demand 3 holds on each case to which it applies, which are more than so many.
pub fn demand_3_holds_on_more_than(least: usize, cases: &[Case]) {
    let rules = Rules::document();
    let mut checked = 0;
    for (index, case) in cases.iter().enumerate() {
        let verdict = demand3::check(case, &rules);
        assert_ne!(verdict, Verdict::Violated, "case {index} violates demand 3");
        checked += usize::from(verdict == Verdict::Holds);
    }
    assert!(checked > least, "only {checked} cases were checked");
}

/// On how many of the cases the sentences of request #103 hold; it is violated by none.
pub fn swept_as_requested(cases: &[Case]) -> usize {
    let rules = Rules::document();
    let verdicts = cases.iter().map(|case| sweep_sentences::check(case, &rules));
    verdicts
        .enumerate()
        .filter(|(index, verdict)| {
            assert_ne!(*verdict, Verdict::Violated, "case {index} violates request #103");
            *verdict == Verdict::Holds
        })
        .count()
}

/// Cases, each with its answer by the documents.
pub fn rightly_answered(cases: impl IntoIterator<Item = Case>) -> Vec<(Case, Reply)> {
    let rules = Rules::document();
    let with_answer = |case| {
        let reply = calls::answer(&case, &rules);
        (case, reply)
    };
    cases.into_iter().map(with_answer).collect()
}

/// How many of the cases get another answer once the documents' rules are changed.
pub fn answered_otherwise(cases: &[(Case, Reply)], change: impl Fn(&mut Rules)) -> usize {
    let mut rules = Rules::document();
    change(&mut rules);
    cases.iter().filter(|(case, right)| calls::answer(case, &rules) != *right).count()
}
