//! Demand 3 by brute force: the edits are gathered line by line, by number, from the view beside
//! the fresh one and the numbers compared while that was made. Nothing of putting back is used
//! here.

use crate::calls::{self, Desk, Reply};
use crate::node_line::{self, FROM_PROGRAM, Mark, NodeLine};
use crate::rules::{Rules, Stage};
use crate::stream::{Call, Case};
use crate::verdict::Verdict;
use std::collections::{BTreeMap, BTreeSet};

/// What must hold before demand 3 speaks, in the order of judging.
const PREMISES: [Stage; 9] = [
    Stage::Rooms,
    Stage::ProgramForm,
    Stage::ProgramTree,
    Stage::MasterForm,
    Stage::MasterBounds,
    Stage::Run,
    Stage::ViewForm,
    Stage::ViewComparison,
    Stage::ProgramMarks,
];

/// Checks one case against the answer of the calls.
pub fn check(case: &Case, rules: &Rules) -> Verdict {
    let mut desk = Desk::new(case, rules);
    let applies =
        case.call == Call::PutBack && PREMISES.iter().all(|&premise| desk.judge(premise).is_ok());
    if !applies {
        return Verdict::DoesNotApply;
    }
    let reply = calls::answer(case, rules);
    let edits = edits_by_node(&desk);
    let holds = match least_unacceptable(&edits, &desk.compared) {
        Some(number) => reply == Reply::refusal(11, usize::from(number)),
        None => accepted_as_demanded(case, &desk, &edits, &reply, rules),
    };
    Verdict::of(holds)
}

type Edits<'a> = BTreeMap<u16, Vec<&'a NodeLine>>;

/// The edited lines of each master node: the deleted ones and those with a new text.
fn edits_by_node<'a>(desk: &'a Desk) -> Edits<'a> {
    let mut edits = Edits::new();
    for (fresh, line) in desk.fresh.iter().zip(&desk.view) {
        if line.mark == Mark::Deleted || line.bytes != fresh.bytes {
            edits.entry(line.number).or_default().push(line);
        }
    }
    edits
}

/// The least edited node that was compared or whose edited lines carry different edits.
fn least_unacceptable(edits: &Edits, compared: &BTreeSet<u16>) -> Option<u16> {
    edits
        .iter()
        .find(|(number, lines)| {
            let same =
                lines.iter().all(|line| line.mark == lines[0].mark && line.bytes == lines[0].bytes);
            compared.contains(number) || !same
        })
        .map(|(number, _)| *number)
}

fn accepted_as_demanded(
    case: &Case,
    desk: &Desk,
    edits: &Edits,
    reply: &Reply,
    rules: &Rules,
) -> bool {
    let demanded = edited_master(&desk.master, edits);
    let accepted = Reply::done(node_line::write_file(&demanded));
    *reply == accepted && shows_the_same_lines(case, desk, &demanded, reply, rules)
}

/// Each node has the edit of its edited lines; one that has none is handed back with its old text
/// and mark 00, even if a line of it had 01.
fn edited_master(master: &[NodeLine], edits: &Edits) -> Vec<NodeLine> {
    let mut edited = master.to_vec();
    for (node, number) in edited.iter_mut().zip(0..) {
        match edits.get(&number) {
            Some(lines) => {
                node.mark = lines[0].mark;
                node.bytes = lines[0].bytes.clone();
            }
            None => node.mark = Mark::Untouched,
        }
    }
    edited
}

/// The returned master shows the same lines in the same order, each with its node's text and
/// mark there, or as before if the program made it.
fn shows_the_same_lines(
    case: &Case,
    desk: &Desk,
    returned: &[NodeLine],
    reply: &Reply,
    rules: &Rules,
) -> bool {
    let mut lines = desk.fresh.clone();
    for line in lines.iter_mut().filter(|line| line.number != FROM_PROGRAM) {
        let node = &returned[usize::from(line.number)];
        line.mark = node.mark;
        line.bytes = node.bytes.clone();
    }
    let shown_again =
        Case { call: Call::Show, master: reply.output.clone(), view: Vec::new(), ..case.clone() };
    let demanded = Reply::done(node_line::write_file(&lines));
    calls::answer(&shown_again, rules) == demanded
}
