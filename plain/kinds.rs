// Kinds of value: bounds and grades.
use std::fmt;

// A totally ordered kind of value, with weights that shift it.
pub trait Kind: Copy + Ord {
    type Weight: Copy;
    const LEAST: Self;
    const GREATEST: Self;

    fn shift(self, weight: Self::Weight) -> Self;

    // Whether two values together reach a threshold.
    fn joint(self, other: Self, threshold: Self) -> bool;
}

#[derive(Clone, Copy, PartialEq, Eq, PartialOrd, Ord)]
pub enum Bound {
    Least,
    Whole(i64),
    Greatest,
}

// No bound of a script is over 2^53 in size, so sums do not overflow.
impl Kind for Bound {
    type Weight = i64;
    const LEAST: Bound = Bound::Least;
    const GREATEST: Bound = Bound::Greatest;

    fn shift(self, weight: i64) -> Bound {
        match self {
            Bound::Whole(number) => Bound::Whole(number + weight),
            _ => self,
        }
    }

    fn joint(self, other: Bound, threshold: Bound) -> bool {
        match (self, other) {
            (Bound::Least, _) | (_, Bound::Least) => false,
            (Bound::Whole(number), Bound::Whole(addend)) => {
                threshold <= Bound::Whole(number + addend)
            }
            _ => true,
        }
    }
}

impl fmt::Display for Bound {
    fn fmt(&self, f: &mut fmt::Formatter<'_>) -> fmt::Result {
        match self {
            Bound::Least => f.write_str("-inf"),
            Bound::Whole(number) => number.fmt(f),
            Bound::Greatest => f.write_str("+inf"),
        }
    }
}

#[derive(Clone, Copy, PartialEq, Eq, PartialOrd, Ord)]
pub enum Grade {
    Unreached,
    Written,
    Sensed,
    Heard,
}

impl Kind for Grade {
    type Weight = ();
    const LEAST: Grade = Grade::Unreached;
    const GREATEST: Grade = Grade::Heard;

    fn shift(self, _weight: ()) -> Grade {
        self
    }

    fn joint(self, other: Grade, threshold: Grade) -> bool {
        let lower = self.min(other);
        Grade::Written <= lower && threshold <= lower
    }
}
