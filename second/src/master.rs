//! The bounds and numbers of a master (reply 5).

use crate::node_line::{Kind, Mark, NodeLine};
use crate::rules::Bounds;

/// The first line that breaks a bound or a number, or carries a mark where none may stand.
pub fn first_fault(lines: &[NodeLine], bounds: &Bounds, marks_allowed: bool) -> Option<usize> {
    let mut above: Option<&NodeLine> = None;
    for (place, line) in lines.iter().enumerate() {
        let sound = line.depth <= bounds.master_depth
            && line.depth <= deepest_under(above, bounds)
            && usize::from(line.number) == place
            && (marks_allowed || line.mark == Mark::Untouched);
        if !sound {
            return Some(place);
        }
        above = Some(line);
    }
    None
}

/// One more than the line before, and that only under an element; 0 for line 0.
fn deepest_under(above: Option<&NodeLine>, bounds: &Bounds) -> u8 {
    match above {
        None => 0,
        Some(line) if may_have_contents(line.kind, bounds) => line.depth + 1,
        Some(line) => line.depth,
    }
}

fn may_have_contents(kind: Kind, bounds: &Bounds) -> bool {
    match kind {
        Kind::Text => false,
        Kind::Element => true,
        Kind::Order => bounds.order_may_have_contents,
    }
}
