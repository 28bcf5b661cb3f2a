//! Trees that own their texts and standings. A value is a sequence of them.

use crate::node_line::{FROM_PROGRAM, Kind, Mark, NodeLine};
use crate::rules::Merging;
use crate::standing::{self, Standing};

#[derive(Clone, Debug)]
pub enum Tree {
    Text { node: Node, is_order: bool, text: Vec<u8> },
    Element { node: Node, tag: Vec<u8>, contents: Value },
}

pub type Value = Vec<Tree>;

/// What texts and elements have in common.
#[derive(Clone, Debug)]
pub struct Node {
    /// The number in the master, or none if the program made the node.
    pub origin: Option<u16>,
    pub mark: Mark,
    pub standing: Standing,
}

impl Node {
    pub fn from_program() -> Node {
        Node { origin: None, mark: Mark::Untouched, standing: Standing::Untouched }
    }
}

impl Tree {
    pub fn node(&self) -> &Node {
        match self {
            Tree::Text { node, .. } | Tree::Element { node, .. } => node,
        }
    }

    pub fn node_mut(&mut self) -> &mut Node {
        match self {
            Tree::Text { node, .. } | Tree::Element { node, .. } => node,
        }
    }

    /// Its text, or its tag.
    pub fn bytes(&self) -> &[u8] {
        match self {
            Tree::Text { text: bytes, .. } | Tree::Element { tag: bytes, .. } => bytes,
        }
    }

    pub fn contents(&self) -> &[Tree] {
        match self {
            Tree::Text { .. } => &[],
            Tree::Element { contents, .. } => contents,
        }
    }
}

pub fn count(value: &[Tree]) -> usize {
    value.iter().map(|tree| 1 + count(tree.contents())).sum()
}

/// How many nodes stand one in another: the greatest depth and one, or 0 for nothing.
pub fn height(value: &[Tree]) -> usize {
    value.iter().map(|tree| 1 + height(tree.contents())).max().unwrap_or(0)
}

/// Lines in document order as trees; the lines must keep the bounds on depths.
pub fn from_lines(lines: &[NodeLine]) -> Value {
    let mut rest = lines;
    grow(&mut rest, 0)
}

fn grow(rest: &mut &[NodeLine], depth: u8) -> Value {
    let mut value = Value::new();
    while let Some((line, behind)) = rest.split_first()
        && line.depth == depth
    {
        *rest = behind;
        let origin = (line.number != FROM_PROGRAM).then_some(line.number);
        let node = Node { origin, mark: line.mark, standing: Standing::Untouched };
        let bytes = line.bytes.clone();
        value.push(match line.kind {
            Kind::Text => Tree::Text { node, is_order: false, text: bytes },
            Kind::Order => Tree::Text { node, is_order: true, text: bytes },
            Kind::Element => Tree::Element { node, tag: bytes, contents: grow(rest, depth + 1) },
        });
    }
    value
}

pub fn to_lines(value: &[Tree]) -> Vec<NodeLine> {
    let mut lines = Vec::new();
    lay_out(value, 0, &mut lines);
    lines
}

fn lay_out(value: &[Tree], depth: u8, lines: &mut Vec<NodeLine>) {
    for tree in value {
        let kind = match tree {
            Tree::Text { is_order: false, .. } => Kind::Text,
            Tree::Text { is_order: true, .. } => Kind::Order,
            Tree::Element { .. } => Kind::Element,
        };
        let node = tree.node();
        let number = node.origin.unwrap_or(FROM_PROGRAM);
        lines.push(NodeLine { depth, kind, mark: node.mark, number, bytes: tree.bytes().to_vec() });
        lay_out(tree.contents(), depth + 1, lines);
    }
}

/// Goes over the nodes in document order.
pub fn for_each_node(value: &mut [Tree], visit: &mut impl FnMut(&mut Node)) {
    for tree in value {
        visit(tree.node_mut());
        if let Tree::Element { contents, .. } = tree {
            for_each_node(contents, visit);
        }
    }
}

/// Merging of two values goes node by node; both are the same value but for their standings.
pub fn merge(one: Value, other: &[Tree], merging: Merging) -> Value {
    one.into_iter()
        .zip(other)
        .map(|(mut tree, other)| {
            let [one, two] = [&tree, other].map(|tree| &tree.node().standing);
            tree.node_mut().standing = standing::merge(one, two, tree.bytes(), merging);
            if let Tree::Element { contents, .. } = &mut tree {
                *contents = merge(std::mem::take(contents), other.contents(), merging);
            }
            tree
        })
        .collect()
}
