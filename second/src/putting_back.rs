//! Putting back: the standings of a view go through a transformation to its source.
//!
//! The view is the shown value with standings in its nodes; what is handed back is the source
//! with standings in its nodes.

use crate::program::{Action, Question, Test, Transformation};
use crate::rules::{Agreement, Locking, Rules};
use crate::showing::{Showing, Slot, Stop};
use crate::standing::Standing;
use crate::tree::{self, Node, Tree, Value};

pub struct PuttingBack<'a> {
    rules: &'a Rules,
    showing: Showing<'a>,
    /// Beside each bound slot its value with the edits merged so far.
    edited: Vec<Value>,
}

impl<'a> PuttingBack<'a> {
    pub fn new(rules: &'a Rules) -> PuttingBack<'a> {
        PuttingBack { rules, showing: Showing::new(rules), edited: Vec::new() }
    }

    pub fn put_back(
        &mut self,
        x: &Transformation,
        source: &[Tree],
        view: Value,
    ) -> Result<Value, Stop> {
        match &x.action {
            Action::Source => Ok(view),
            Action::Nothing | Action::Text(_) | Action::Tag(_) => Ok(source.to_vec()),
            Action::Slot(name) => {
                self.merge_into_slot(*name, &view);
                Ok(source.to_vec())
            }
            Action::Contents => Ok(around(source, Standing::Untouched, view)),
            Action::Within(part) => self.within(part, source, view),
            Action::AndThen(first, second) => {
                let middle = self.showing.show(first, source)?;
                let middle = self.put_back(second, &middle, view)?;
                self.put_back(first, source, middle)
            }
            Action::Beside(first, second) => self.beside(first, second, source, view),
            Action::Each(part) => self.each(part, source, view),
            Action::Choose(test, yes, no) => self.choose(test, (yes, no), source, view),
            Action::Bind(name, part) => self.bind(*name, part, source, view),
        }
    }

    fn merge_into_slot(&mut self, name: u8, view: &[Tree]) {
        let at = self.showing.slot(name);
        let so_far = std::mem::take(&mut self.edited[at]);
        self.edited[at] = match self.rules.putting_back.slot_edits_are_merged {
            true => self.merge(so_far, view),
            false => view.to_vec(),
        };
    }

    fn merge(&self, one: Value, other: &[Tree]) -> Value {
        tree::merge(one, other, self.rules.putting_back.merging)
    }

    fn within(
        &mut self,
        part: &Transformation,
        source: &[Tree],
        view: Value,
    ) -> Result<Value, Stop> {
        if let [Tree::Text { .. }] = source {
            // Shown as it is, by mistake.
            return Ok(view);
        }
        let standing = match self.rules.putting_back.within_takes_the_mark {
            true => view[0].node().standing.clone(),
            false => Standing::Untouched,
        };
        let contents = self.put_back(part, source[0].contents(), view[0].contents().to_vec())?;
        Ok(around(source, standing, contents))
    }

    fn beside(
        &mut self,
        first: &Transformation,
        second: &Transformation,
        source: &[Tree],
        mut view: Value,
    ) -> Result<Value, Stop> {
        // The second part's length is what is left, since the view is as long as both.
        let length = self.showing.show(first, source)?.len();
        let behind = view.split_off(length);
        let by_second = self.put_back(second, source, behind)?;
        let by_first = self.put_back(first, source, view)?;
        match self.rules.putting_back.beside_keeps_both {
            true => Ok(self.merge(by_first, &by_second)),
            false => Ok(by_first),
        }
    }

    fn each(
        &mut self,
        part: &Transformation,
        source: &[Tree],
        mut view: Value,
    ) -> Result<Value, Stop> {
        let mut handed_back = Value::new();
        for item in source {
            let item = std::slice::from_ref(item);
            let length = self.showing.show(part, item)?.len();
            let behind = view.split_off(length);
            handed_back.extend(self.put_back(part, item, view)?);
            view = behind;
        }
        Ok(handed_back)
    }

    fn choose(
        &mut self,
        test: &Test,
        (yes, no): (&Transformation, &Transformation),
        source: &[Tree],
        view: Value,
    ) -> Result<Value, Stop> {
        let held = self.showing.holds(test, source)?;
        let branch = if held { yes } else { no };
        let mut handed_back = match self.rules.putting_back.branch_is_the_one_shown {
            true => self.put_back(branch, source, view)?,
            false => self.chosen_byte_for_byte(test, (yes, no), source, view)?,
        };
        if !held && !self.rules.putting_back.both_branches_keep_edits {
            handed_back = source.to_vec();
        }
        self.test(test, held, source, handed_back)
    }

    /// The mistaken branch; where it cannot have shown the view, the edits are lost.
    fn chosen_byte_for_byte(
        &mut self,
        test: &Test,
        (yes, no): (&Transformation, &Transformation),
        source: &[Tree],
        view: Value,
    ) -> Result<Value, Stop> {
        let held = self.showing.holds_by(Agreement::ByteForByte, test, source)?;
        let branch = if held { yes } else { no };
        match self.showing.show(branch, source) {
            Ok(shown) if same_shape(&shown, &view) => self.put_back(branch, source, view),
            _ => Ok(source.to_vec()),
        }
    }

    fn bind(
        &mut self,
        name: u8,
        part: &Transformation,
        source: &[Tree],
        view: Value,
    ) -> Result<Value, Stop> {
        self.showing.slots.push(Slot { name, value: source.to_vec() });
        self.edited.push(source.to_vec());
        let put_back = self.put_back(part, self.showing.source_under_bind(source), view);
        self.showing.slots.pop();
        let edited = self.edited.pop().expect("pushed above");
        put_back?;
        match self.rules.putting_back.slot_edits_are_kept {
            true => Ok(edited),
            false => Ok(source.to_vec()),
        }
    }

    /// A test over the source that the branch handed back: 12 and 13 do nothing.
    fn test(
        &mut self,
        test: &Test,
        held: bool,
        source: &[Tree],
        handed_back: Value,
    ) -> Result<Value, Stop> {
        let Question::Equals(part) = &test.question else {
            return Ok(handed_back);
        };
        let (lock_source, lock_result) = self.locks(test, held, source)?;
        if lock_result {
            let under = self.showing.source_under_equals(source);
            let result = self.showing.show(part, under)?;
            self.put_back(part, under, locked(result))?;
        }
        match lock_source {
            true => Ok(self.merge(locked(source.to_vec()), &handed_back)),
            false => Ok(handed_back),
        }
    }

    /// Whether test 11 locks its source, and whether the result of its X: both, unless mistaken.
    fn locks(&mut self, test: &Test, held: bool, source: &[Tree]) -> Result<(bool, bool), Stop> {
        Ok(match self.rules.putting_back.locking {
            Locking::Both => (true, true),
            Locking::SourceOnly => (true, false),
            Locking::ResultOnly => (false, true),
            Locking::OnlyWhereEqual => (held, held),
            Locking::UnlessPaddingAloneDiffers => {
                let lock = held == self.showing.holds_by(Agreement::ByteForByte, test, source)?;
                (lock, lock)
            }
            Locking::Nothing => (false, false),
        })
    }
}

/// The source element with that standing and those contents.
fn around(source: &[Tree], standing: Standing, contents: Value) -> Value {
    match source {
        [Tree::Element { node, tag, .. }] => {
            let node = Node { standing, ..node.clone() };
            vec![Tree::Element { node, tag: tag.clone(), contents }]
        }
        // Without contents, by mistake.
        [Tree::Text { is_order: true, .. }] => source.to_vec(),
        _ => unreachable!("showing stops where the source is not one element"),
    }
}

fn same_shape(one: &[Tree], other: &[Tree]) -> bool {
    let alike = |(one, other): (&Tree, &Tree)| same_shape(one.contents(), other.contents());
    one.len() == other.len() && one.iter().zip(other).all(alike)
}

fn locked(mut value: Value) -> Value {
    tree::for_each_node(&mut value, &mut |node| node.standing = Standing::Locked);
    value
}
