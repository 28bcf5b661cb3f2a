//! The committed cases: which they are; how often each reply occurs among the seeded ones, what
//! their programs are made of, what their sweeps remove, beside what their saved lines stand, what
//! their padded views are edited in, how often padding decides, and what becomes of their orders.

mod common;

use second::calls::{self, Desk};
use second::cases::{bench, order_edges, padded_edges, saved_edges, sweep_edges};
use second::committed;
use second::entry::{self, Entry};
use second::node_line::{self, FROM_PROGRAM, Kind, Mark, NodeLine};
use second::rules::{Agreement, Rules};
use second::stream::{Call, Case};
use second::text;
use std::collections::BTreeMap;

/// How often each reply occurs, by call and number.
fn replies() -> BTreeMap<(bool, u8), usize> {
    let rules = Rules::document();
    let mut replies = BTreeMap::new();
    for case in committed::seeded() {
        let number = calls::answer(&case, &rules).number;
        *replies.entry((case.call == Call::PutBack, number)).or_default() += 1;
    }
    replies
}

#[test]
fn each_reply_occurs_often() {
    let replies = replies();
    let times = |put_back, number| replies.get(&(put_back, number)).copied().unwrap_or(0);
    for number in 0..=11 {
        let both = times(false, number) + times(true, number);
        assert!(both * 100 >= committed::COUNT * 2, "reply {number} occurs {both} times");
        let by_put_back = times(true, number);
        assert!(by_put_back * 100 >= committed::COUNT, "put back: {number}: {by_put_back} times");
    }
    for number in 0..=7 {
        let by_show = times(false, number);
        assert!(by_show * 100 >= committed::COUNT, "show: {number}: {by_show} times");
    }
}

#[test]
fn most_put_backs_get_through_to_the_standings() {
    let replies = replies();
    let put_backs: usize = (0..=11).filter_map(|number| replies.get(&(true, number))).sum();
    let through = replies[&(true, 0)] + replies[&(true, 11)];
    assert!(through * 2 > put_backs, "{through} of {put_backs}");
}

#[test]
fn every_operation_is_in_many_programs() {
    let rules = Rules::document();
    let mut programs: BTreeMap<u8, usize> = BTreeMap::new();
    for case in committed::seeded() {
        let entries = entry::read_file(&case.program, &rules.lines).unwrap_or_default();
        let operations = (0x01..=0x13).filter(|&byte| entries.iter().any(|at| is(at, byte)));
        operations.for_each(|byte| *programs.entry(byte).or_default() += 1);
    }
    for byte in (0x01..=0x0C).chain(0x11..=0x13) {
        let times = programs.get(&byte).copied().unwrap_or(0);
        assert!(times * 10 >= committed::COUNT, "operation {byte:02X} is in {times} programs");
    }
}

fn is(entry: &Entry, operation: u8) -> bool {
    entry.to_bytes()[0] == operation
}

#[test]
fn the_stream_begins_with_the_bench_examples() {
    let cases = committed::cases();
    for (case, example) in cases.iter().zip(bench::examples()) {
        assert_eq!(*case, example.case, "example {}", example.number);
    }
}

#[test]
fn each_request_has_its_cases_behind_those_before_it() {
    let cases = committed::cases();
    let [sweep_edges, saved_edges, padded_edges, order_edges] =
        [sweep_edges::edges(), saved_edges::edges(), padded_edges::edges(), order_edges::edges()]
            .map(|edges| edges.into_iter().map(|edge| edge.case).collect::<Vec<Case>>());
    let (first, behind) = cases.split_at(bench::examples().len() + committed::COUNT);
    let (sweeps, behind) = behind.split_at(sweep_edges.len() + committed::SWEEPS);
    let (saves, behind) = behind.split_at(saved_edges.len() + committed::SAVES);
    let (pads, orders) = behind.split_at(padded_edges.len() + committed::PADS);
    assert_eq!(orders.len(), order_edges.len() + committed::ORDERS);
    assert!(first.iter().all(|case| case.call != Call::Sweep));
    assert!(sweeps.iter().all(|case| case.call == Call::Sweep));
    assert!(saves.iter().all(|case| case.call == Call::PutBack));
    assert!(pads.iter().all(|case| case.call != Call::Sweep));
    assert!(sweeps.starts_with(&sweep_edges));
    assert!(saves.starts_with(&saved_edges));
    assert!(pads.starts_with(&padded_edges));
    assert!(orders.starts_with(&order_edges));
}

/// That the cases get these replies, each in so many of a hundred, and that most of them get 0.
fn often_replied(cases: &[Case], numbers: &[u8], in_a_hundred: usize) {
    let rules = Rules::document();
    let mut replies: BTreeMap<u8, usize> = BTreeMap::new();
    for case in cases {
        *replies.entry(calls::answer(case, &rules).number).or_default() += 1;
    }
    assert_eq!(replies.keys().copied().collect::<Vec<_>>(), numbers);
    assert!(replies[&0] * 2 > cases.len(), "{} of {} are done", replies[&0], cases.len());
    for (number, times) in replies {
        assert!(times * 100 >= cases.len() * in_a_hundred, "reply {number} occurs {times} times");
    }
}

#[test]
fn each_reply_to_a_sweep_occurs_often() {
    often_replied(&committed::seeded_sweeps(), &[0, 1, 4, 5], 8);
}

#[test]
fn the_sweeps_have_much_to_remove() {
    let rules = Rules::document();
    let (mut deleted, mut changed, mut unmarked_gone, mut nothing_left) = (0, 0, 0, 0);
    for case in committed::seeded_sweeps() {
        let reply = calls::answer(&case, &rules);
        let old = node_line::read_file(&case.master, &rules.lines).unwrap_or_default();
        if reply.number == 0 && !old.is_empty() {
            let count = |mark| old.iter().filter(|line| line.mark == mark).count();
            let gone = reply.numbers.chunks(5).filter(|line| line == b"FFFF\n").count();
            deleted += usize::from(count(Mark::Deleted) > 1);
            changed += usize::from(count(Mark::Changed) > 1);
            unmarked_gone += usize::from(gone > count(Mark::Deleted));
            nothing_left += usize::from(reply.output.is_empty());
        }
    }
    assert!(deleted > 100, "{deleted} sweeps have several deleted nodes");
    assert!(changed > 50, "{changed} sweeps have several changed nodes");
    assert!(unmarked_gone > 100, "in {unmarked_gone} sweeps nodes go that have no mark");
    assert!(nothing_left > 20, "{nothing_left} sweeps leave nothing");
}

#[test]
fn each_reply_to_a_view_with_saved_lines_occurs_often() {
    often_replied(&committed::seeded_saves(), &[0, 9, 10, 11], 5);
}

/// The lines marked 01 that have their old text.
fn saved<'a>(desk: &'a Desk) -> impl Iterator<Item = &'a NodeLine> {
    let lines = desk.view.iter().zip(&desk.fresh);
    let saved = |&(line, fresh): &(&NodeLine, &NodeLine)| {
        line.mark == Mark::Changed && line.bytes == fresh.bytes && line.number != FROM_PROGRAM
    };
    lines.filter(saved).map(|(line, _)| line)
}

#[test]
fn the_saved_lines_stand_beside_edits_and_are_compared() {
    let rules = Rules::document();
    let (mut changed, mut deleted, mut compared, mut unedited) = (0, 0, 0, 0);
    for case in committed::seeded_saves() {
        let mut desk = Desk::new(&case, &rules);
        let accepted = rules.judging.order.iter().all(|&stage| desk.judge(stage).is_ok());
        if accepted && saved(&desk).next().is_some() {
            let some = |of: &dyn Fn(&NodeLine) -> bool| usize::from(saved(&desk).any(of));
            let node = |line: &NodeLine| &desk.returned[usize::from(line.number)];
            changed += some(&|line| node(line).mark == Mark::Changed);
            deleted += some(&|line| node(line).mark == Mark::Deleted);
            compared += some(&|line| desk.compared.contains(&line.number));
            unedited += usize::from(desk.returned == desk.master);
        }
    }
    assert!(changed > 50, "in {changed} a saved line has a changed copy");
    assert!(deleted > 20, "in {deleted} a saved line has a deleted copy");
    assert!(compared > 50, "in {compared} a saved line's text is compared");
    assert!(unedited > 50, "in {unedited} nothing is edited");
}

#[test]
fn each_reply_to_a_case_of_padded_texts_occurs_often() {
    often_replied(&committed::seeded_pads(), &[0, 9, 11], 8);
}

/// The views put back over padded texts: their lines, each behind the fresh one.
fn padded_views() -> Vec<Vec<(NodeLine, NodeLine)>> {
    let rules = Rules::document();
    let lines = |case: Case| {
        let mut desk = Desk::new(&case, &rules);
        let _any_reply = rules.judging.order.iter().try_for_each(|&stage| desk.judge(stage));
        desk.fresh.into_iter().zip(desk.view).collect()
    };
    let cases = committed::seeded_pads().into_iter();
    cases.filter(|case| case.call == Call::PutBack).map(lines).collect()
}

#[test]
fn most_padded_views_are_edited() {
    let views = padded_views();
    let is_edit = |(fresh, line): &(NodeLine, NodeLine)| {
        line.mark == Mark::Deleted || line.bytes != fresh.bytes
    };
    let edited = views.iter().filter(|lines| lines.iter().any(is_edit)).count();
    assert!(edited * 10 >= views.len() * 8, "{edited} of {}", views.len());
}

#[test]
fn padded_views_differ_in_padding_alone_where_they_may_not() {
    let views = padded_views();
    let mut differing = 0;
    for (fresh, line) in views.iter().flatten() {
        if line.mark != Mark::Changed && line.bytes != fresh.bytes {
            assert!(text::equal_but_for_padding(&line.bytes, &fresh.bytes), "{line:?}");
            differing += 1;
        }
    }
    assert!(differing * 7 >= views.len(), "{differing} of {}", views.len());
}

#[test]
fn padding_often_decides_and_both_answers_of_test_11_count() {
    let cases = common::rightly_answered(committed::seeded_pads());
    let in_a_hundred =
        [(Agreement::ByteForByte, 40), (Agreement::Always, 50), (Agreement::Never, 50)];
    for (agreement, least) in in_a_hundred {
        let otherwise =
            common::answered_otherwise(&cases, |rules| rules.showing.equals_by = agreement);
        assert!(otherwise * 100 >= cases.len() * least, "{agreement:?}: {otherwise} of them");
    }
}

#[test]
fn each_reply_to_a_case_of_orders_occurs_often() {
    often_replied(&committed::seeded_orders(), &[0, 4, 5, 6, 8, 9, 11], 5);
}

#[test]
fn each_call_on_orders_occurs_often() {
    let cases = committed::seeded_orders();
    for (call, least) in [(Call::Show, 15), (Call::PutBack, 50), (Call::Sweep, 15)] {
        let times = cases.iter().filter(|case| case.call == call).count();
        assert!(times * 100 >= cases.len() * least, "{call:?} occurs {times} times");
    }
}

fn orders_of(lines: &[NodeLine]) -> impl Iterator<Item = &NodeLine> {
    lines.iter().filter(|line| line.kind == Kind::Order)
}

#[test]
fn orders_stand_beside_texts_with_their_bytes() {
    let lines = Rules::document().lines;
    let cases = committed::seeded_orders();
    let beside = |case: &&Case| {
        let master = node_line::read_file(&case.master, &lines).unwrap_or_default();
        orders_of(&master).any(|order| {
            let is_twin = |line: &NodeLine| line.kind == Kind::Text && line.bytes == order.bytes;
            master.iter().any(is_twin)
        })
    };
    let times = cases.iter().filter(beside).count();
    assert!(times * 100 >= cases.len() * 40, "{times} of {}", cases.len());
}

#[test]
fn orders_are_edited_saved_and_compared() {
    let rules = Rules::document();
    let (mut changed, mut deleted, mut saved_ones, mut compared) = (0, 0, 0, 0);
    for case in committed::seeded_orders() {
        let mut desk = Desk::new(&case, &rules);
        let accepted = case.call == Call::PutBack
            && rules.judging.order.iter().all(|&stage| desk.judge(stage).is_ok());
        if accepted {
            let marked =
                |mark| usize::from(orders_of(&desk.returned).any(|line| line.mark == mark));
            changed += marked(Mark::Changed);
            deleted += marked(Mark::Deleted);
            saved_ones += usize::from(saved(&desk).any(|line| line.kind == Kind::Order));
            let is_compared = |line: &NodeLine| desk.compared.contains(&line.number);
            compared += usize::from(orders_of(&desk.master).any(is_compared));
        }
    }
    assert!(changed > 30, "in {changed} an order is changed");
    assert!(deleted > 10, "in {deleted} an order is deleted");
    assert!(saved_ones > 40, "in {saved_ones} an order is saved");
    assert!(compared > 50, "in {compared} an order is compared");
}

#[test]
fn swept_orders_go_and_stay() {
    let rules = Rules::document();
    let (mut gone, mut stayed, mut changed) = (0, 0, 0);
    for case in committed::seeded_orders().iter().filter(|case| case.call == Call::Sweep) {
        let reply = calls::answer(case, &rules);
        if reply.number == 0 {
            let [old, new] = [&case.master, &reply.output]
                .map(|file| node_line::read_file(file, &rules.lines).expect("a sound file"));
            gone += usize::from(orders_of(&new).count() < orders_of(&old).count());
            stayed += usize::from(orders_of(&new).next().is_some());
            // A line of the second output has five bytes.
            let stays = |line: &NodeLine| {
                !reply.numbers[5 * usize::from(line.number)..].starts_with(b"FFFF")
            };
            let is_changed = |line: &NodeLine| line.mark == Mark::Changed && stays(line);
            changed += usize::from(orders_of(&old).any(is_changed));
        }
    }
    assert!(gone > 20, "in {gone} an order goes");
    assert!(stayed > 40, "in {stayed} an order stays");
    assert!(changed > 15, "in {changed} an order is changed and stays");
}

#[test]
fn the_cases_are_the_same_each_time() {
    assert_eq!(committed::cases(), committed::cases());
}
