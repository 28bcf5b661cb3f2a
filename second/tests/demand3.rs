//! Demand 3 by brute force, and the fresh view put back, on generated cases.

mod common;

use second::calls;
use second::cases;
use second::committed;
use second::demand3;
use second::rules::{EditsGoBy, Locking, Merging, Rules};
use second::stream::{Call, Case};
use second::verdict::Verdict;

#[test]
fn demand_3_holds_on_generated_cases() {
    common::demand_3_holds_on_more_than(5_000, &cases::cases(3, 20_000));
}

#[test]
fn the_brute_force_check_sees_wrong_ways_of_putting_back() {
    let committed = committed::cases();
    let sees = |change: &dyn Fn(&mut Rules)| {
        let mut rules = Rules::document();
        change(&mut rules);
        committed.iter().any(|case| demand3::check(case, &rules) == Verdict::Violated)
    };
    assert!(sees(&|rules| rules.putting_back.merging = Merging::LastWins));
    assert!(sees(&|rules| rules.putting_back.merging = Merging::UntouchedVotes));
    assert!(sees(&|rules| rules.putting_back.merging = Merging::DeletedBeatsLocked));
    assert!(sees(&|rules| rules.putting_back.locking = Locking::SourceOnly));
    assert!(sees(&|rules| rules.putting_back.locking = Locking::ResultOnly));
    assert!(sees(&|rules| rules.putting_back.locking = Locking::OnlyWhereEqual));
    assert!(sees(&|rules| rules.putting_back.edits_go_by = EditsGoBy::Place));
    assert!(sees(&|rules| rules.putting_back.edits_go_by = EditsGoBy::Text));
    assert!(sees(&|rules| rules.putting_back.slot_edits_are_kept = false));
    assert!(sees(&|rules| rules.putting_back.within_takes_the_mark = false));
}

#[test]
fn the_fresh_view_put_back_gives_the_master() {
    let rules = Rules::document();
    let mut put_back = 0;
    for (index, case) in cases::cases(4, 10_000).into_iter().enumerate() {
        let fresh = calls::answer(&Case { call: Call::Show, ..case.clone() }, &rules);
        let back = Case { call: Call::PutBack, view: fresh.output, ..case };
        let reply = calls::answer(&back, &rules);
        let master_is_marked = reply.number == 5;
        if fresh.number == 0 && !master_is_marked {
            assert_eq!((reply.number, &reply.output), (0, &back.master), "case {index}");
            put_back += 1;
        }
    }
    assert!(put_back > 5_000, "only {put_back} fresh views were put back");
}
