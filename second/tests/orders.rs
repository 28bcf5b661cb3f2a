//! Word orders: the edges written by hand, demand 3 and the sentences of request #103 on cases with
//! many of them, and that an order is answered as a text with its bytes is.

mod common;

use second::calls::{self, Reply};
use second::cases::{order_edges, orders};
use second::node_line::{self, Kind};
use second::rules::Rules;
use second::stream::Case;

#[test]
fn each_edge_gets_the_requested_reply() {
    common::answered_as_requested(order_edges::edges());
}

#[test]
fn no_edge_is_there_twice() {
    common::there_once(&order_edges::edges());
}

#[test]
fn demand_3_holds_on_orders() {
    common::demand_3_holds_on_more_than(1_500, &orders::cases(12, 5_000));
}

#[test]
fn the_sentences_of_sweeping_hold_on_orders() {
    let swept = common::swept_as_requested(&orders::cases(13, 5_000));
    assert!(swept > 2_000, "only {swept} masters were swept");
}

/// A file of node lines with a text for each order, if it is of right form.
fn with_texts(file: &[u8]) -> Option<Vec<u8>> {
    let mut lines = node_line::read_file(file, &Rules::document().lines).ok()?;
    for line in lines.iter_mut().filter(|line| line.kind == Kind::Order) {
        line.kind = Kind::Text;
    }
    Some(node_line::write_file(&lines))
}

fn case_with_texts(case: &Case) -> Option<Case> {
    let (master, view) = (with_texts(&case.master)?, with_texts(&case.view)?);
    Some(Case { master, view, ..case.clone() })
}

#[test]
fn orders_are_answered_as_texts_are() {
    const VIEW_DIFFERS: u8 = 9;
    let rules = Rules::document();
    let mut answered = 0;
    for (index, case) in orders::cases(14, 5_000).iter().enumerate() {
        let reply = calls::answer(case, &rules);
        // A view may differ from the fresh one in nothing but that an order is a text.
        if let Some(other) = case_with_texts(case)
            && reply.number != VIEW_DIFFERS
        {
            let output = with_texts(&reply.output).expect("an output is of right form");
            assert_eq!(calls::answer(&other, &rules), Reply { output, ..reply }, "case {index}");
            answered += 1;
        }
    }
    assert!(answered > 3_000, "only {answered} cases were answered");
}
