//! The calls, show, put back and sweep, and the order of judging of the twelve replies.

use crate::entry::{self, Entry};
use crate::lines;
use crate::master;
use crate::node_line::{self, Mark, NodeLine};
use crate::program::{self, Transformation};
use crate::putting_back::PuttingBack;
use crate::rules::{self, ClashPlace, MarkedMaster, Rules, Stage};
use crate::saved;
use crate::showing::{Cause, Showing, Stop};
use crate::standing::Standing;
use crate::stream::{Call, Case};
use crate::sweeping;
use crate::text;
use crate::tree::{self, Value};
use crate::view::{self, Sides};
use std::collections::BTreeSet;

#[derive(Clone, Debug, PartialEq, Eq)]
pub struct Reply {
    pub number: u8,
    pub place: usize,
    pub output: Vec<u8>,
    /// The second output, which a sweep alone has.
    pub numbers: Vec<u8>,
}

impl Reply {
    pub fn refusal(number: u8, place: usize) -> Reply {
        Reply { number, place, output: Vec::new(), numbers: Vec::new() }
    }

    pub fn done(output: Vec<u8>) -> Reply {
        Reply { number: 0, place: 0, output, numbers: Vec::new() }
    }

    /// The reply line, then the output lines, then those of the second output, which the length
    /// does not count.
    pub fn printed(&self) -> Vec<u8> {
        let [place_high, place_low] = (self.place as u16).to_be_bytes();
        let [length_high, length_low] = (self.output.len() as u16).to_be_bytes();
        let mut printed =
            lines::write(&[self.number, place_high, place_low, length_high, length_low]);
        printed.extend(&self.output);
        printed.extend(&self.numbers);
        printed
    }
}

pub fn answer(case: &Case, rules: &Rules) -> Reply {
    judged(case, rules).unwrap_or_else(|refusal| refusal)
}

fn judged(case: &Case, rules: &Rules) -> Result<Reply, Reply> {
    let mut desk = Desk::new(case, rules);
    for &stage in &rules.judging.order {
        if concerns(stage, case.call) {
            desk.judge(stage)?;
        }
    }
    Ok(match case.call {
        Call::Show => Reply::done(node_line::write_file(&desk.fresh)),
        Call::PutBack => Reply::done(node_line::write_file(&desk.returned)),
        Call::Sweep => swept(&desk.master, &rules.sweeping),
    })
}

/// Showing takes no view, and a sweep a master alone.
fn concerns(stage: Stage, call: Call) -> bool {
    use Stage::{Clash, MasterBounds, MasterForm, ProgramMarks, Rooms, ViewComparison, ViewForm};
    match call {
        Call::Show => !matches!(stage, ViewForm | ViewComparison | ProgramMarks | Clash),
        Call::PutBack => true,
        Call::Sweep => matches!(stage, Rooms | MasterForm | MasterBounds),
    }
}

fn swept(master: &[NodeLine], rules: &rules::Sweeping) -> Reply {
    let swept = sweeping::sweep(master, rules);
    let mut reply = Reply::done(node_line::write_file(&swept.lines));
    let numbers = sweeping::number_lines(&swept, rules);
    match rules.length_counts_number_lines {
        false => reply.numbers = numbers,
        true => reply.output.extend(numbers),
    }
    reply
}

/// What has been learnt of a case so far.
pub struct Desk<'a> {
    case: &'a Case,
    rules: &'a Rules,
    entries: Vec<Entry>,
    program: Option<Transformation>,
    pub master: Vec<NodeLine>,
    shown: Value,
    pub fresh: Vec<NodeLine>,
    pub compared: BTreeSet<u16>,
    pub view: Vec<NodeLine>,
    pub returned: Vec<NodeLine>,
}

impl<'a> Desk<'a> {
    pub fn new(case: &'a Case, rules: &'a Rules) -> Desk<'a> {
        Desk {
            case,
            rules,
            entries: Vec::new(),
            program: None,
            master: Vec::new(),
            shown: Value::new(),
            fresh: Vec::new(),
            compared: BTreeSet::new(),
            view: Vec::new(),
            returned: Vec::new(),
        }
    }

    /// Judges the whole case for one row of the table of replies.
    pub fn judge(&mut self, stage: Stage) -> Result<(), Reply> {
        match stage {
            Stage::Rooms => refuse(1, rooms_fault(self.case, &self.rules.rooms)),
            Stage::ProgramForm => self.program_form(),
            Stage::ProgramTree => self.program_tree(),
            Stage::MasterForm => self.master_form(),
            Stage::MasterBounds => refuse(5, self.master_fault()),
            Stage::Run => self.run(),
            Stage::ViewForm => self.view_form(),
            Stage::ViewComparison => refuse(9, self.view_difference()),
            Stage::ProgramMarks => {
                refuse(10, view::first_marked_program_line(self.sides(), self.rules))
            }
            Stage::Clash => self.put_back(),
        }
    }

    fn program_form(&mut self) -> Result<(), Reply> {
        self.entries = entry::read_file(&self.case.program, &self.rules.lines)
            .map_err(|place| Reply::refusal(2, place))?;
        Ok(())
    }

    fn program_tree(&mut self) -> Result<(), Reply> {
        let read = program::read(&self.entries, &self.rules.bounds);
        self.program = Some(read.map_err(|place| Reply::refusal(3, place))?);
        Ok(())
    }

    fn master_form(&mut self) -> Result<(), Reply> {
        let orders = self.rules.lines.orders.in_masters;
        let read = node_line::read_file(&self.case.master, &self.rules.lines.with_orders(orders));
        if let Err(place) = read
            && !self.rules.judging.whole_file_for_one_number
        {
            self.judge_lines_before(place)?;
        }
        self.master = read.map_err(|place| Reply::refusal(4, place))?;
        Ok(())
    }

    /// The wrong order: the lines before one of wrong form are judged for 5 first.
    fn judge_lines_before(&mut self, place: usize) -> Result<(), Reply> {
        let before: Vec<&[u8]> =
            self.case.master.split_inclusive(|&byte| byte == 0x0A).take(place).collect();
        self.master = node_line::read_file(&before.concat(), &self.rules.lines)
            .expect("the first line of wrong form stands behind these");
        refuse(5, self.master_fault())
    }

    fn master_fault(&self) -> Option<usize> {
        let marks_allowed = match self.rules.judging.marked_master {
            MarkedMaster::RefusedByPutBack => self.case.call != Call::PutBack,
            MarkedMaster::NeverRefused => true,
            MarkedMaster::AlwaysRefused => false,
        };
        let fault = master::first_fault(&self.master, &self.rules.bounds, marks_allowed);
        first_of(fault, node_line::first_wrong_order(&self.master, &self.rules.lines))
    }

    fn program(&self) -> &Transformation {
        self.program.as_ref().expect("the tree is judged before the run")
    }

    fn run(&mut self) -> Result<(), Reply> {
        let mut showing = Showing::new(self.rules);
        let source = tree::from_lines(&self.master);
        self.shown = showing.show(self.program(), &source).map_err(stopped)?;
        self.compared = showing.compared;
        self.fresh = tree::to_lines(&self.shown);
        if !self.rules.showing.marks_are_kept {
            self.fresh.iter_mut().for_each(|line| line.mark = Mark::Untouched);
        }
        if !self.rules.showing.padding_is_kept {
            self.fresh.iter_mut().for_each(|line| text::take_padding_off(&mut line.bytes));
        }
        Ok(())
    }

    fn view_form(&mut self) -> Result<(), Reply> {
        let orders = self.rules.lines.orders.in_views;
        self.view = node_line::read_file(&self.case.view, &self.rules.lines.with_orders(orders))
            .map_err(|place| Reply::refusal(8, place))?;
        Ok(())
    }

    fn view_difference(&self) -> Option<usize> {
        let difference = view::first_difference(&self.fresh, &self.view, &self.rules.judging);
        first_of(difference, node_line::first_wrong_order(&self.view, &self.rules.lines))
    }

    fn sides(&self) -> Sides<'_> {
        Sides { master: &self.master, fresh: &self.fresh, view: &self.view }
    }

    fn put_back(&mut self) -> Result<(), Reply> {
        let rules = self.rules;
        let shown = std::mem::take(&mut self.shown);
        let edits = view::with_standings(shown, self.sides(), rules);
        let source = tree::from_lines(&self.master);
        let handed_back =
            PuttingBack::new(rules).put_back(self.program(), &source, edits).map_err(stopped)?;
        let mut standings = standings_by_number(handed_back, self.master.len());
        saved::affect(&mut standings, self.sides(), &rules.saving);
        refuse(11, clash(&standings, rules.judging.clash_place))?;
        self.returned = returned_master(&self.master, &standings, &rules.putting_back);
        Ok(())
    }
}

fn refuse(number: u8, fault: Option<usize>) -> Result<(), Reply> {
    fault.map_or(Ok(()), |place| Err(Reply::refusal(number, place)))
}

/// The first of two places, of which either may be missing.
fn first_of(one: Option<usize>, other: Option<usize>) -> Option<usize> {
    one.into_iter().chain(other).min()
}

fn rooms_fault(case: &Case, rooms: &rules::Rooms) -> Option<usize> {
    let second = match case.call {
        Call::Show | Call::PutBack => rooms.work,
        Call::Sweep => rooms.numbers,
    };
    (case.output_room < rooms.output || case.second_room < second).then_some(0)
}

fn stopped(stop: Stop) -> Reply {
    match stop.cause {
        Cause::Source => Reply::refusal(6, stop.place),
        Cause::Size => Reply::refusal(7, stop.place),
    }
}

/// The standing of each master node; those of nodes from the program are dropped.
fn standings_by_number(mut handed_back: Value, nodes: usize) -> Vec<Standing> {
    let mut standings = vec![Standing::Untouched; nodes];
    tree::for_each_node(&mut handed_back, &mut |node| {
        if let Some(number) = node.origin {
            standings[usize::from(number)] = node.standing.clone();
        }
    });
    standings
}

fn clash(standings: &[Standing], clash_place: ClashPlace) -> Option<usize> {
    let is_clash = |standing: &Standing| matches!(standing, Standing::Clash);
    match clash_place {
        ClashPlace::Least => standings.iter().position(is_clash),
        ClashPlace::Greatest => standings.iter().rposition(is_clash),
    }
}

/// The master with the new texts and marks; locked is handed back as untouched.
fn returned_master(
    master: &[NodeLine],
    standings: &[Standing],
    rules: &rules::PuttingBack,
) -> Vec<NodeLine> {
    let mut returned = Vec::new();
    let mut deleted_above = None;
    for (line, standing) in master.iter().zip(standings) {
        let mut line = line.clone();
        match standing {
            Standing::Untouched | Standing::Locked | Standing::Clash => {}
            Standing::Changed(text) => {
                line.mark = Mark::Changed;
                line.bytes = match rules.new_texts_keep_their_padding {
                    true => text.clone(),
                    false => text::unpadded(text).to_vec(),
                };
            }
            Standing::Deleted => line.mark = Mark::Deleted,
        }
        line.kind = line.kind_handed_on(rules.orders_stay);
        let under_deleted = deleted_above.is_some_and(|depth| line.depth > depth);
        if !under_deleted {
            deleted_above = (line.mark == Mark::Deleted).then_some(line.depth);
        } else if rules.deletion_spreads {
            line.mark = Mark::Deleted;
        }
        if !under_deleted || rules.deleted_keep_their_contents {
            returned.push(line);
        }
    }
    returned
}
