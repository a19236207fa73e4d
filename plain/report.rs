// The report of a script.
use crate::analysis::Analysis;
use crate::books::{Book, BoundBook, GradeBook, Spot};
use crate::kinds::{Bound, Grade};
use crate::reader::{Graph, Lookup, read};
use crate::words::{Place, Refusal};
use std::fmt::{self, Write};

const BUDGET: u16 = u16::MAX;

const NOT_SETTLED: Refusal = Refusal {
    number: 31,
    place: None,
};

// A script with both of its analyses, settled.
struct Solved {
    graph: Graph,
    bounds: Analysis<Bound>,
    grades: Analysis<Grade>,
    rounds: u16,
}

fn solve(graph: Graph) -> Result<Solved, Refusal> {
    let book = BoundBook::new(&graph);
    let mut bounds = Analysis::new(book.count());
    let rounds = bounds.run(&book, BUDGET).ok_or(NOT_SETTLED)?;
    let book = GradeBook::new(&graph);
    let mut grades = Analysis::new(book.count());
    grades.run(&book, BUDGET).ok_or(NOT_SETTLED)?;
    Ok(Solved {
        graph,
        bounds,
        grades,
        rounds,
    })
}

impl Solved {
    // The lowest and the highest value of a variable at a point, if anything reaches the point.
    fn interval(&self, point: usize, variable: usize) -> Option<(Bound, Bound)> {
        let spot = Spot::new(&self.graph, point);
        let upper = self.bounds.value(spot.upper(variable));
        match (upper, self.bounds.value(spot.lower(variable))) {
            (Bound::Least, _) | (_, Bound::Least) => None,
            (_, Bound::Whole(negated)) => Some((Bound::Whole(-negated), upper)),
            (_, Bound::Greatest) => Some((Bound::Least, upper)),
        }
    }

    fn grade(&self, point: usize, variable: usize) -> u8 {
        self.grades
            .value(Spot::new(&self.graph, point).grade(variable)) as u8
    }

    fn write_row(&self, out: &mut String, point: usize, variable: usize) -> fmt::Result {
        let name = &self.graph.variables[variable].name;
        match self.interval(point, variable) {
            Some((lowest, highest)) => {
                let grade = self.grade(point, variable);
                writeln!(out, "{point} {name} {lowest} {highest} {grade}")
            }
            None => writeln!(out, "{point} {name} none"),
        }
    }

    // The interval of the index of a table read, if the read may fall outside.
    fn outside(&self, lookup: &Lookup) -> Option<(Bound, Bound)> {
        let (lowest, highest) = self.interval(lookup.point, lookup.index)?;
        let inside = Bound::Whole(0) <= lowest && highest < Bound::Whole(lookup.size);
        (!inside).then_some((lowest, highest))
    }

    fn write_finding(
        &self,
        out: &mut String,
        lookup: &Lookup,
        (lowest, highest): (Bound, Bound),
    ) -> fmt::Result {
        let Place { line, column } = lookup.place;
        let name = &self.graph.variables[lookup.index].name;
        let grade = self.grade(lookup.point, lookup.index);
        let size = lookup.size;
        writeln!(
            out,
            "range {line} {column} {name} {lowest} {highest} {size} {grade}"
        )
    }

    fn text(&self) -> Result<String, fmt::Error> {
        let mut out = String::new();
        writeln!(out, "points {} rounds {}", self.graph.points(), self.rounds)?;
        for point in 0..self.graph.points() {
            for variable in 0..self.graph.variables.len() {
                self.write_row(&mut out, point, variable)?;
            }
        }
        let mut findings = 0;
        for lookup in &self.graph.lookups {
            if let Some(interval) = self.outside(lookup) {
                self.write_finding(&mut out, lookup, interval)?;
                findings += 1;
            }
        }
        writeln!(out, "end {findings}")?;
        Ok(out)
    }
}

// The report of a script, or why there is none.
pub fn report(script: &[u8]) -> Result<String, Refusal> {
    let solved = solve(read(script)?)?;
    Ok(solved.text().expect("a string takes all that is written"))
}
