// Strategy improvement: the least solution of a book of equations.
use crate::books::{Alternative, Book, Term, Terms, Test};
use crate::kinds::Kind;

// What is kept of an unknown: its value, and the alternative that it chose, if any.
#[derive(Clone, Copy)]
struct Entry<K> {
    value: K,
    choice: Option<usize>,
}

// An analysis of a book.
pub struct Analysis<K> {
    list: Vec<Entry<K>>,
}

fn term_value<K: Kind>(list: &[Entry<K>], term: Term<K>) -> K {
    match term {
        Term::Constant(constant) => constant,
        Term::Shifted(unknown, weight) => list[unknown].value.shift(weight),
    }
}

fn smaller_term<K: Kind>(list: &[Entry<K>], terms: Terms<K>) -> K {
    match terms {
        Terms::One(term) => term_value(list, term),
        Terms::Two(term, other) => term_value(list, term).min(term_value(list, other)),
    }
}

fn holds<K: Kind>(list: &[Entry<K>], test: Test<K>) -> bool {
    match test {
        Test::Always => true,
        Test::Single(unknown, threshold) => threshold <= list[unknown].value,
        Test::Joint(unknown, other, threshold) => {
            list[unknown].value.joint(list[other].value, threshold)
        }
    }
}

fn worth<K: Kind>(list: &[Entry<K>], alternative: Alternative<K>) -> K {
    if holds(list, alternative.test) {
        smaller_term(list, alternative.terms)
    } else {
        K::LEAST
    }
}

impl<K: Kind> Analysis<K> {
    // An analysis of so many unknowns: nothing is chosen, all values are least.
    pub fn new(count: usize) -> Analysis<K> {
        Analysis {
            list: vec![
                Entry {
                    value: K::LEAST,
                    choice: None
                };
                count
            ],
        }
    }

    pub fn value(&self, unknown: usize) -> K {
        self.list[unknown].value
    }

    // The largest worth of the alternatives of an unknown, and the first alternative that reaches it.
    fn right_side(&self, book: &impl Book<K>, unknown: usize) -> (K, Option<usize>) {
        let mut best = (K::LEAST, None);
        for number in 0..book.alternatives(unknown) {
            let value = worth(&self.list, book.alternative(unknown, number));
            if best.1.is_none() || value > best.0 {
                best = (value, Some(number));
            }
        }
        best
    }

    // Switches every unknown whose right side is greater than its value. Says whether any switched.
    fn improve(&mut self, book: &impl Book<K>) -> bool {
        let mut switched = false;
        for unknown in 0..self.list.len() {
            let (value, first) = self.right_side(book, unknown);
            if value > self.list[unknown].value {
                self.list[unknown].choice = first;
                switched = true;
            }
        }
        switched
    }

    // Gives every unknown the smaller of its chosen terms, in order and in place. Says whether a value changed.
    fn sweep(&mut self, book: &impl Book<K>) -> bool {
        let mut changed = false;
        for unknown in 0..self.list.len() {
            if let Some(number) = self.list[unknown].choice {
                let value = smaller_term(&self.list, book.alternative(unknown, number).terms);
                changed |= value != self.list[unknown].value;
                self.list[unknown].value = value;
            }
        }
        changed
    }

    // Gives every unknown its value by the strategy.
    fn evaluate(&mut self, book: &impl Book<K>) {
        for entry in &mut self.list {
            entry.value = if entry.choice.is_some() {
                K::GREATEST
            } else {
                K::LEAST
            };
        }
        for _ in 0..self.list.len() {
            if !self.sweep(book) {
                return;
            }
        }
    }

    fn is_settled(&self, book: &impl Book<K>) -> bool {
        (0..self.list.len())
            .all(|unknown| self.right_side(book, unknown).0 <= self.list[unknown].value)
    }

    // Makes rounds until settled or the budget is used. Answers the counted rounds if settled.
    pub fn run(&mut self, book: &impl Book<K>, budget: u16) -> Option<u16> {
        for round in 0..budget {
            if !self.improve(book) {
                return Some(round);
            }
            self.evaluate(book);
        }
        self.is_settled(book).then_some(budget)
    }
}
