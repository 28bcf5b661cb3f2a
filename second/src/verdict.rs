//! What a check by brute force says of a case.

#[derive(Clone, Copy, Debug, PartialEq, Eq)]
pub enum Verdict {
    DoesNotApply,
    Holds,
    Violated,
}

impl Verdict {
    pub fn of(holds: bool) -> Verdict {
        if holds { Verdict::Holds } else { Verdict::Violated }
    }
}
