// Books of equations, and the two books of a script: each computes an alternative from its edge when it is asked for it.
use crate::kinds::{Bound, Grade, Kind};
use crate::reader::{Action, Edge, Graph, Source};

// One side of an alternative: a constant, or an unknown shifted by a weight.
#[derive(Clone, Copy)]
pub enum Term<K: Kind> {
    Constant(K),
    Shifted(usize, K::Weight),
}

// The terms of an alternative, of which the smaller counts.
#[derive(Clone, Copy)]
pub enum Terms<K: Kind> {
    One(Term<K>),
    Two(Term<K>, Term<K>),
}

// What must hold for an alternative to count.
#[derive(Clone, Copy)]
pub enum Test<K> {
    Always,
    Single(usize, K),
    Joint(usize, usize, K),
}

#[derive(Clone, Copy)]
pub struct Alternative<K: Kind> {
    pub test: Test<K>,
    pub terms: Terms<K>,
}

impl<K: Kind> Alternative<K> {
    fn constant(value: K) -> Alternative<K> {
        Alternative {
            test: Test::Always,
            terms: Terms::One(Term::Constant(value)),
        }
    }

    fn shifted(unknown: usize, weight: K::Weight) -> Alternative<K> {
        Alternative {
            test: Test::Always,
            terms: Terms::One(Term::Shifted(unknown, weight)),
        }
    }
}

// A right side is the largest of its alternatives.
pub trait Book<K: Kind> {
    // How many unknowns there are.
    fn count(&self) -> usize;

    // How many alternatives an unknown has.
    fn alternatives(&self, unknown: usize) -> usize;

    fn alternative(&self, unknown: usize, number: usize) -> Alternative<K>;
}

// The unknowns of the variables at a point.
#[derive(Clone, Copy)]
pub struct Spot {
    variables: usize,
    point: usize,
}

impl Spot {
    pub fn new(graph: &Graph, point: usize) -> Spot {
        Spot {
            variables: graph.variables.len(),
            point,
        }
    }

    pub fn grade(self, variable: usize) -> usize {
        self.variables * self.point + variable
    }

    pub fn upper(self, variable: usize) -> usize {
        2 * self.grade(variable)
    }

    // The unknown of the lower bound, negated.
    pub fn lower(self, variable: usize) -> usize {
        self.upper(variable) + 1
    }
}

// How many alternatives the unknowns of a point have.
fn alternatives_at(graph: &Graph, point: usize) -> usize {
    if point == 0 {
        1
    } else {
        graph.incoming[point].len()
    }
}

// How far each variable can go at each point.
pub struct BoundBook<'a> {
    graph: &'a Graph,
}

impl<'a> BoundBook<'a> {
    pub fn new(graph: &'a Graph) -> BoundBook<'a> {
        BoundBook { graph }
    }
}

impl Book<Bound> for BoundBook<'_> {
    fn count(&self) -> usize {
        2 * self.graph.variables.len() * self.graph.points()
    }

    fn alternatives(&self, unknown: usize) -> usize {
        alternatives_at(self.graph, unknown / (2 * self.graph.variables.len()))
    }

    fn alternative(&self, unknown: usize, number: usize) -> Alternative<Bound> {
        let variables = self.graph.variables.len();
        let (point, variable) = (unknown / 2 / variables, unknown / 2 % variables);
        let upper = unknown % 2 == 0;
        if point == 0 {
            let range = self.graph.variables[variable].range;
            return Alternative::constant(Bound::Whole(if upper {
                range.high
            } else {
                -range.low
            }));
        }
        let Edge { source, action } = self.graph.incoming[point][number];
        let start = Spot {
            variables,
            point: source,
        };
        if upper {
            upper_of(start, variable, action)
        } else {
            lower_of(start, variable, action)
        }
    }
}

// A constant for a variable, where the start is reached.
fn given(start: Spot, variable: usize, constant: i64) -> Alternative<Bound> {
    Alternative {
        test: Test::Joint(
            start.upper(variable),
            start.lower(variable),
            Bound::Whole(0),
        ),
        terms: Terms::One(Term::Constant(Bound::Whole(constant))),
    }
}

// Behind a guard that bounds a variable, the smaller of the unknown and the limit; for others the unknown.
fn limited(unknown: usize, named: bool, limit: Term<Bound>) -> Terms<Bound> {
    let own = Term::Shifted(unknown, 0);
    if named {
        Terms::Two(own, limit)
    } else {
        Terms::One(own)
    }
}

// The upper bound of a variable behind an edge.
fn upper_of(start: Spot, variable: usize, action: Action) -> Alternative<Bound> {
    let own = start.upper(variable);
    match action {
        Action::Any(k, range, _) | Action::Read(k, _, range) if variable == k => {
            given(start, k, range.high)
        }
        Action::Shift(k, i, c) if variable == k => Alternative::shifted(start.upper(i), c),
        Action::Negate(k, i) if variable == k => Alternative::shifted(start.lower(i), 0),
        Action::AtMost(i, c) => Alternative {
            test: Test::Single(start.lower(i), Bound::Whole(-c)),
            terms: limited(own, variable == i, Term::Constant(Bound::Whole(c))),
        },
        Action::AtLeast(i, c) => Alternative {
            test: Test::Single(start.upper(i), Bound::Whole(c)),
            terms: Terms::One(Term::Shifted(own, 0)),
        },
        Action::Before(i, k, d) => Alternative {
            test: Test::Joint(start.lower(i), start.upper(k), Bound::Whole(-d)),
            terms: limited(own, variable == i, Term::Shifted(start.upper(k), d)),
        },
        _ => Alternative::shifted(own, 0),
    }
}

// The lower bound of a variable, negated, behind an edge.
fn lower_of(start: Spot, variable: usize, action: Action) -> Alternative<Bound> {
    let own = start.lower(variable);
    match action {
        Action::Any(k, range, _) | Action::Read(k, _, range) if variable == k => {
            given(start, k, -range.low)
        }
        Action::Shift(k, i, c) if variable == k => Alternative::shifted(start.lower(i), -c),
        Action::Negate(k, i) if variable == k => Alternative::shifted(start.upper(i), 0),
        Action::AtMost(i, c) => Alternative {
            test: Test::Single(start.lower(i), Bound::Whole(-c)),
            terms: Terms::One(Term::Shifted(own, 0)),
        },
        Action::AtLeast(i, c) => Alternative {
            test: Test::Single(start.upper(i), Bound::Whole(c)),
            terms: limited(own, variable == i, Term::Constant(Bound::Whole(-c))),
        },
        Action::Before(i, k, d) => Alternative {
            test: Test::Joint(start.lower(i), start.upper(k), Bound::Whole(-d)),
            terms: limited(own, variable == k, Term::Shifted(start.lower(i), d)),
        },
        _ => Alternative::shifted(own, 0),
    }
}

// Where the value of each variable comes from at each point.
pub struct GradeBook<'a> {
    graph: &'a Graph,
}

impl<'a> GradeBook<'a> {
    pub fn new(graph: &'a Graph) -> GradeBook<'a> {
        GradeBook { graph }
    }
}

impl Book<Grade> for GradeBook<'_> {
    fn count(&self) -> usize {
        self.graph.variables.len() * self.graph.points()
    }

    fn alternatives(&self, unknown: usize) -> usize {
        alternatives_at(self.graph, unknown / self.graph.variables.len())
    }

    fn alternative(&self, unknown: usize, number: usize) -> Alternative<Grade> {
        let variables = self.graph.variables.len();
        let (point, variable) = (unknown / variables, unknown % variables);
        if point == 0 {
            return Alternative::constant(Grade::Written);
        }
        let Edge { source, action } = self.graph.incoming[point][number];
        grade_of(
            Spot {
                variables,
                point: source,
            },
            variable,
            action,
        )
    }
}

// The grade of a variable behind an edge.
fn grade_of(start: Spot, variable: usize, action: Action) -> Alternative<Grade> {
    match action {
        Action::Any(k, _, source) if variable == k => Alternative {
            test: Test::Single(start.grade(k), Grade::Written),
            terms: Terms::One(Term::Constant(graded(source))),
        },
        Action::Read(k, i, _) | Action::Shift(k, i, _) | Action::Negate(k, i) if variable == k => {
            Alternative::shifted(start.grade(i), ())
        }
        _ => Alternative::shifted(start.grade(variable), ()),
    }
}

fn graded(source: Source) -> Grade {
    match source {
        Source::Written => Grade::Written,
        Source::Sensed => Grade::Sensed,
        Source::Heard => Grade::Heard,
    }
}
