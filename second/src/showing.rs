//! Showing: a transformation run on a source, tests and transformations in turn.

use crate::node_line;
use crate::program::{Action, Question, Test, Transformation};
use crate::rules::{Agreement, Rules};
use crate::text;
use crate::tree::{self, Node, Tree, Value};
use std::collections::BTreeSet;

#[derive(Clone, Copy, Debug, PartialEq, Eq)]
pub struct Stop {
    pub cause: Cause,
    pub place: usize,
}

#[derive(Clone, Copy, Debug, PartialEq, Eq)]
pub enum Cause {
    Source,
    Size,
}

/// A slot bound to a value; the innermost stands last.
#[derive(Clone, Debug)]
pub struct Slot {
    pub name: u8,
    pub value: Value,
}

/// One run: the slots bound around the entry, and the master numbers whose texts a test 11
/// has compared so far, also where its result is thrown away later.
pub struct Showing<'a> {
    pub rules: &'a Rules,
    pub slots: Vec<Slot>,
    pub compared: BTreeSet<u16>,
}

impl<'a> Showing<'a> {
    pub fn new(rules: &'a Rules) -> Showing<'a> {
        Showing { rules, slots: Vec::new(), compared: BTreeSet::new() }
    }

    pub fn show(&mut self, x: &Transformation, source: &[Tree]) -> Result<Value, Stop> {
        match &x.action {
            Action::Source => Ok(source.to_vec()),
            Action::Nothing => Ok(Value::new()),
            Action::Text(text) => Ok(vec![self.made_text(text)]),
            Action::Tag(tag) => Ok(vec![made_element(tag)]),
            Action::Slot(name) => Ok(self.slots[self.slot(*name)].value.clone()),
            Action::Contents => {
                let element = element(source, x.place, self.rules.showing.order_stops_06)?;
                Ok(element.contents().to_vec())
            }
            Action::Within(part) => self.within(part, source, x.place),
            Action::AndThen(first, second) => {
                let middle = self.show(first, source)?;
                self.show(second, &middle)
            }
            Action::Beside(first, second) => self.beside(first, second, source, x.place),
            Action::Each(part) => self.each(part, source, x.place),
            Action::Choose(test, yes, no) => match self.holds(test, source)? {
                true => self.show(yes, source),
                false => self.show(no, source),
            },
            Action::Bind(name, part) => self.bind(*name, part, source),
        }
    }

    /// Where the slot's value stands among the bound ones.
    pub fn slot(&self, name: u8) -> usize {
        let mut of_that_name = (0..self.slots.len()).filter(|&at| self.slots[at].name == name);
        let found = match self.rules.showing.innermost_slot_counts {
            true => of_that_name.next_back(),
            false => of_that_name.next(),
        };
        found.expect("a sound program's 05 stands inside a 0C of its slot")
    }

    fn made_text(&self, text: &[u8]) -> Tree {
        let is_order = self.rules.showing.made_words_are_orders
            && node_line::is_order(text, &self.rules.lines.orders);
        Tree::Text { node: Node::from_program(), is_order, text: text.to_vec() }
    }

    fn within(
        &mut self,
        part: &Transformation,
        source: &[Tree],
        place: usize,
    ) -> Result<Value, Stop> {
        let mut element = element(source, place, self.rules.showing.order_stops_07)?.clone();
        if let Tree::Element { contents, .. } = &mut element {
            *contents = self.show(part, contents)?;
        }
        self.bounded(vec![element], place)
    }

    fn bounded(&self, value: Value, place: usize) -> Result<Value, Stop> {
        let bounds = &self.rules.bounds;
        let small = tree::count(&value) <= bounds.value_nodes;
        let shallow = tree::height(&value) <= bounds.value_depth + 1;
        if small && shallow { Ok(value) } else { Err(Stop { cause: Cause::Size, place }) }
    }

    fn beside(
        &mut self,
        first: &Transformation,
        second: &Transformation,
        source: &[Tree],
        place: usize,
    ) -> Result<Value, Stop> {
        if !self.rules.showing.parts_run_from_the_left {
            return self.beside_from_the_right(first, second, source, place);
        }
        let mut joined = self.show(first, source)?;
        joined.extend(self.show(second, source)?);
        self.joined(&joined, place)?;
        Ok(joined)
    }

    fn each(
        &mut self,
        part: &Transformation,
        source: &[Tree],
        place: usize,
    ) -> Result<Value, Stop> {
        if !self.rules.showing.parts_run_from_the_left {
            return self.each_from_the_right(part, source, place);
        }
        let mut joined = Value::new();
        for item in source {
            joined.extend(self.show(part, std::slice::from_ref(item))?);
            if self.rules.showing.each_stops_early {
                self.joined(&joined, place)?;
            }
        }
        self.joined(&joined, place)?;
        Ok(joined)
    }

    /// The mistaken order of parts.
    fn beside_from_the_right(
        &mut self,
        first: &Transformation,
        second: &Transformation,
        source: &[Tree],
        place: usize,
    ) -> Result<Value, Stop> {
        let behind = self.show(second, source)?;
        let mut joined = self.show(first, source)?;
        joined.extend(behind);
        self.joined(&joined, place)?;
        Ok(joined)
    }

    /// The mistaken order of items.
    fn each_from_the_right(
        &mut self,
        part: &Transformation,
        source: &[Tree],
        place: usize,
    ) -> Result<Value, Stop> {
        let mut joined = Value::new();
        for item in source.iter().rev() {
            let mut shown = self.show(part, std::slice::from_ref(item))?;
            shown.append(&mut joined);
            joined = shown;
            self.joined(&joined, place)?;
        }
        Ok(joined)
    }

    /// Joined parts can only be too many nodes: each part alone kept the bound on depth.
    fn joined(&self, parts: &[Tree], place: usize) -> Result<(), Stop> {
        match tree::count(parts) <= self.rules.bounds.joined_nodes {
            true => Ok(()),
            false => Err(Stop { cause: Cause::Size, place }),
        }
    }

    fn bind(&mut self, name: u8, part: &Transformation, source: &[Tree]) -> Result<Value, Stop> {
        self.slots.push(Slot { name, value: source.to_vec() });
        let shown = self.show(part, self.source_under_bind(source));
        self.slots.pop();
        shown
    }

    pub fn holds(&mut self, test: &Test, source: &[Tree]) -> Result<bool, Stop> {
        self.holds_by(self.rules.showing.equals_by, test, source)
    }

    /// A test's answer, that of test 11 by some agreement.
    pub fn holds_by(
        &mut self,
        agreement: Agreement,
        test: &Test,
        source: &[Tree],
    ) -> Result<bool, Stop> {
        let stop = Stop { cause: Cause::Source, place: test.place };
        match (&test.question, source) {
            (Question::Equals(part), _) => self.equals(agreement, part, source, stop),
            (Question::Tagged(asked), [Tree::Element { tag, .. }]) => Ok(text::equal(tag, asked)),
            (Question::IsElement, [Tree::Text { is_order: true, .. }]) => {
                Ok(self.rules.showing.order_is_an_element_for_13)
            }
            (Question::IsElement, [tree]) => Ok(matches!(tree, Tree::Element { .. })),
            (Question::Tagged(_), [Tree::Text { is_order: true, .. }])
                if !self.rules.showing.order_stops_12 =>
            {
                Ok(false)
            }
            _ if !self.rules.showing.tests_stop_for_their_source => Ok(false),
            _ => Err(stop),
        }
    }

    fn equals(
        &mut self,
        agreement: Agreement,
        part: &Transformation,
        source: &[Tree],
        stop: Stop,
    ) -> Result<bool, Stop> {
        let rules = &self.rules.showing;
        let text_of_source = one_text(source, rules.order_is_a_source_of_11);
        if rules.equals_checks_its_source_first {
            text_of_source.ok_or(stop)?;
        }
        let result = self.show(part, self.source_under_equals(source))?;
        let (source_node, source_text) = text_of_source.ok_or(stop)?;
        let (result_node, result_text) =
            one_text(&result, rules.order_is_a_result_for_11).ok_or(stop)?;
        self.compared.extend(source_node.origin);
        self.compared.extend(result_node.origin);
        Ok(text::agree(source_text, result_text, agreement))
    }

    /// Test 11 runs its X on nothing.
    pub fn source_under_equals<'t>(&self, source: &'t [Tree]) -> &'t [Tree] {
        match self.rules.showing.equals_runs_on_nothing {
            true => &[],
            false => source,
        }
    }

    /// 0C runs its X on nothing.
    pub fn source_under_bind<'t>(&self, source: &'t [Tree]) -> &'t [Tree] {
        match self.rules.showing.bind_runs_on_nothing {
            true => &[],
            false => source,
        }
    }
}

/// The one text of a value; an order is one, unless mistaken.
fn one_text(value: &[Tree], order_is_one: bool) -> Option<(&Node, &[u8])> {
    match value {
        [Tree::Text { node, is_order, text }] if !is_order || order_is_one => Some((node, text)),
        _ => None,
    }
}

/// The one element of the source; an order in its place stops the run, unless mistaken.
fn element(source: &[Tree], place: usize, order_stops: bool) -> Result<&Tree, Stop> {
    match source {
        [element @ Tree::Element { .. }] => Ok(element),
        [order @ Tree::Text { is_order: true, .. }] if !order_stops => Ok(order),
        _ => Err(Stop { cause: Cause::Source, place }),
    }
}

fn made_element(tag: &[u8]) -> Tree {
    Tree::Element { node: Node::from_program(), tag: tag.to_vec(), contents: Value::new() }
}
