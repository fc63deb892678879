//! The plain book: rows, steps and named points, and the calls term, step, point, return and select with their
//! refusals in their order.

use crate::document::document;
use crate::rules;
use crate::selection::Evaluation;
use crate::term::{Comparison, Field, Term, Test, AXES};
use crate::Answer;
use std::cmp::Ordering;
use std::collections::HashMap;
use std::rc::Rc;

/// `kind a b c`
pub type Row = [u16; 4];
/// `rule left right first second`
pub type Step = [u16; 5];

pub const MOST_ROWS: usize = 1024;
pub const MOST_STEPS: usize = 2048;
pub const DEEPEST: u32 = 32;
/// Of the old rows of a replace, and of the new ones.
pub const MOST_REPLACED: usize = 64;
pub const MOST_POINTS: usize = 8;

/// A named point: its name, and how many rows and steps were held when it was set.
struct Point {
    name: u16,
    rows: usize,
    steps: usize,
}

#[derive(Default)]
pub struct Book {
    numbers: HashMap<Row, usize>,
    pub rows: Vec<Row>,
    terms: Vec<Rc<Term>>,
    nestings: Vec<u32>,
    pub steps: Vec<Step>,
    points: Vec<Point>,
}

impl Book {
    pub fn term(&mut self, row: Row) -> Answer {
        if row[0] > 11 {
            return (1, 0);
        }
        if let Some(place) = self.bad_place(row) {
            return (2, place);
        }
        let nesting = self.nesting(row);
        if nesting > DEEPEST {
            return (3, 0);
        }
        if let Some(&number) = self.numbers.get(&row) {
            return (12, number as u64);
        }
        let number = self.terms.len();
        if number == MOST_ROWS {
            return (11, 0);
        }
        self.terms.push(Rc::new(self.term_of(row)));
        self.nestings.push(nesting);
        self.numbers.insert(row, number);
        self.rows.push(row);
        (0, number as u64)
    }

    /// The number of a row that is held.
    pub fn held(&self, row: Row) -> Option<usize> {
        self.numbers.get(&row).copied()
    }

    /// How many rows are held.
    pub fn count(&self) -> usize {
        self.terms.len()
    }

    pub fn step(&mut self, step: Step) -> Answer {
        let [rule, left, right, first, second] = step;
        if !(1..=59).contains(&rule) {
            return (4, 0);
        }
        let Some(l) = self.terms.get(left as usize) else { return (5, 1) };
        if self.terms.get(right as usize).is_none_or(|r| r.is_path() != l.is_path()) {
            return (5, 2);
        }
        let needed = rules::premises(rule);
        for (place, premise) in [first as usize, second as usize].into_iter().enumerate() {
            let ok = if place < needed { (1..=self.steps.len()).contains(&premise) } else { premise == 0 };
            if !ok {
                return (6, place as u64 + 1);
            }
        }
        let premises = [first, second].map(|n| (n as usize).checked_sub(1).map(|i| self.says(&self.steps[i])));
        if !rules::yields(rule, self.says(&step), premises) {
            return (7, 0);
        }
        if self.steps.len() == MOST_STEPS {
            return (13, 0);
        }
        self.steps.push(step);
        (0, self.steps.len() as u64)
    }

    /// Holds the rows that the way back of a row's path needs: operands first, the left one first.
    pub fn way_back(&mut self, row: u16) -> Answer {
        if !self.is_held_path(row) {
            return (5, 1);
        }
        let Some(back) = rules::path_back(&self.terms[row as usize]) else { return (7, 0) };
        if nesting_of(&back, &mut HashMap::new()) > DEEPEST {
            return (3, 0);
        }
        let mut new = NewRows {
            held: &self.numbers,
            count: self.count(),
            rows: HashMap::new(),
            order: Vec::new(),
            put: HashMap::new(),
        };
        let at = new.put(&back);
        let rows = new.order;
        if self.count() + rows.len() > MOST_ROWS {
            return (11, 0);
        }
        for row in rows {
            assert_eq!(self.term(row).0, 0, "a row of a way back");
        }
        (0, at as u64)
    }

    pub fn point(&mut self, name: u16) -> Answer {
        if name == 0 || self.points.iter().any(|point| point.name == name) {
            return (20, name as u64);
        }
        if self.points.len() == MOST_POINTS {
            return (21, 0);
        }
        self.points.push(Point { name, rows: self.terms.len(), steps: self.steps.len() });
        (0, 0)
    }

    /// How many rows and steps the point of that name has.
    pub fn held_at(&self, name: u16) -> Option<(usize, usize)> {
        self.points.iter().find(|point| point.name == name).map(|point| (point.rows, point.steps))
    }

    /// Rows and steps are only ever put at the end, so what was held then is the first ones.
    pub fn return_to(&mut self, name: u16) -> Answer {
        let Some(place) = self.points.iter().position(|point| point.name == name) else { return (20, name as u64) };
        let Point { rows, steps, .. } = self.points[place];
        self.numbers.retain(|_, number| *number < rows);
        self.rows.truncate(rows);
        self.terms.truncate(rows);
        self.nestings.truncate(rows);
        self.steps.truncate(steps);
        self.points.truncate(place + 1);
        (0, 0)
    }

    pub fn select(&self, row: u16, numbers: &[u16], context: u16, limit: u32, marks: &mut [u8]) -> Answer {
        let document = match document(numbers) {
            Ok(document) => document,
            Err(value) => return (8, value),
        };
        if context as usize >= document.len() {
            return (9, 1);
        }
        let Some(path) = self.terms.get(row as usize).filter(|t| t.is_path()) else { return (9, 2) };
        if marks.len() < document.len() {
            return (14, 0);
        }
        let (nodes, visits) = Evaluation::new(&document).path(path, context as usize);
        if visits > limit as u64 {
            return (15, 0);
        }
        for (y, mark) in marks[..document.len()].iter_mut().enumerate() {
            *mark = nodes.contains(&y) as u8;
        }
        (0, visits)
    }

    /// Whether the old rows are covered by the new ones, by a step for each.
    pub fn replace(&self, old: &[u16], new: &[u16], steps: &[u16]) -> Answer {
        if old.len() > MOST_REPLACED || new.len() > MOST_REPLACED || steps.len() != old.len() {
            return (25, 0);
        }
        for (place, (&row, &number)) in (1..).zip(old.iter().zip(steps)) {
            let covers = |[_, left, right, ..]: Step| left == row && self.is_held_path(row) && new.contains(&right);
            if !self.held_step(number).is_some_and(covers) {
                return (26, place);
            }
        }
        (0, 0)
    }

    /// This book's row against the other book's, as terms: 0 less, 1 equal, 2 greater.
    pub fn order(&self, row: u16, other: &Book, other_row: u16) -> Answer {
        let Some(left) = self.terms.get(row as usize) else { return (5, 1) };
        let Some(right) = other.terms.get(other_row as usize) else { return (5, 2) };
        (0, order_value(Comparison::default().terms(left, right)))
    }

    /// This book's steps against the other's, in turn: rule, left and right, then the lengths.
    pub fn bundle_order(&self, other: &Book) -> Answer {
        let mut comparison = Comparison::default();
        for (p, q) in self.steps.iter().zip(&other.steps) {
            let ((left, right), (other_left, other_right)) = (self.says(p), other.says(q));
            let order = p[0].cmp(&q[0]);
            let order = order.then_with(|| comparison.terms(left, other_left));
            let order = order.then_with(|| comparison.terms(right, other_right));
            if order != Ordering::Equal {
                return (0, order_value(order));
            }
        }
        (0, order_value(self.steps.len().cmp(&other.steps.len())))
    }

    /// What a step says: its two terms.
    fn says(&self, step: &Step) -> (&Rc<Term>, &Rc<Term>) {
        (&self.terms[step[1] as usize], &self.terms[step[2] as usize])
    }

    /// A held step by its number, which counts from 1.
    pub fn held_step(&self, number: u16) -> Option<Step> {
        (number as usize).checked_sub(1).and_then(|i| self.steps.get(i)).copied()
    }

    pub fn is_held_path(&self, number: u16) -> bool {
        self.terms.get(number as usize).is_some_and(|t| t.is_path())
    }

    fn is_held_qualifier(&self, number: u16) -> bool {
        self.terms.get(number as usize).is_some_and(|t| !t.is_path())
    }

    /// The first place, 1 to 3, whose field isn't what the kind asks for.
    fn bad_place(&self, [kind, a, b, c]: Row) -> Option<u64> {
        let path = |n| self.is_held_path(n);
        let qualifier = |n| self.is_held_qualifier(n);
        let good = match kind {
            0 | 1 | 6 | 7 => [a == 0, b == 0, c == 0],
            2 => [a <= 11, b <= 6, if b == 0 || b == 6 { c >= 1 } else { c == 0 }],
            3 | 4 | 11 => [path(a), path(b), c == 0],
            5 => [path(a), qualifier(b), c == 0],
            8 => [qualifier(a), b == 0, c == 0],
            9 | 10 => [qualifier(a), qualifier(b), c == 0],
            _ => unreachable!("a kind above 11"),
        };
        good.iter().position(|good| !good).map(|place| place as u64 + 1)
    }

    fn nesting(&self, [kind, a, b, _]: Row) -> u32 {
        let of = |n: u16| self.nestings[n as usize];
        match kind {
            0 | 1 | 2 | 6 | 7 => 1,
            8 => 1 + of(a),
            _ => 1 + of(a).max(of(b)),
        }
    }

    /// The row with its operands' terms in place of their numbers.
    fn term_of(&self, [kind, a, b, c]: Row) -> Term {
        let at = |n: u16| self.terms[n as usize].clone();
        match kind {
            0 => Term::Void,
            1 => Term::Root,
            2 => Term::Step(AXES[a as usize].1, test_of(b, c)),
            3 => Term::Union(at(a), at(b)),
            4 => Term::Composition(at(a), at(b)),
            5 => Term::Filter(at(a), at(b)),
            6 => Term::True,
            7 => Term::False,
            8 => Term::Not(at(a)),
            9 => Term::And(at(a), at(b)),
            10 => Term::Or(at(a), at(b)),
            11 => Term::Inclusion(at(a), at(b)),
            _ => unreachable!("a kind above 11"),
        }
    }
}

/// The rows that a term needs, beside those that are held; a term that stands in it many times is put once.
struct NewRows<'a> {
    held: &'a HashMap<Row, usize>,
    count: usize,
    rows: HashMap<Row, usize>,
    order: Vec<Row>,
    put: HashMap<*const Term, usize>,
}

impl NewRows<'_> {
    fn put(&mut self, term: &Rc<Term>) -> usize {
        if let Some(&at) = self.put.get(&Rc::as_ptr(term)) {
            return at;
        }
        let (kind, fields) = term.row();
        let mut row = [kind, 0, 0, 0];
        for (place, field) in fields.iter().enumerate() {
            row[place + 1] = match field {
                Field::Number(n) => *n,
                Field::Operand(operand) => self.put(operand) as u16,
            };
        }
        let known = self.held.get(&row).or(self.rows.get(&row)).copied();
        let at = known.unwrap_or_else(|| {
            let at = self.count + self.order.len();
            self.rows.insert(row, at);
            self.order.push(row);
            at
        });
        self.put.insert(Rc::as_ptr(term), at);
        at
    }
}

/// The nesting of a term, by the nestings of the terms that were met.
fn nesting_of(term: &Rc<Term>, met: &mut HashMap<*const Term, u32>) -> u32 {
    if let Some(&nesting) = met.get(&Rc::as_ptr(term)) {
        return nesting;
    }
    let (_, fields) = term.row();
    let deepest = fields.iter().map(|field| match field {
        Field::Number(_) => 0,
        Field::Operand(operand) => nesting_of(operand, met),
    });
    let nesting = 1 + deepest.max().unwrap_or(0);
    met.insert(Rc::as_ptr(term), nesting);
    nesting
}

fn order_value(order: Ordering) -> u64 {
    match order {
        Ordering::Less => 0,
        Ordering::Equal => 1,
        Ordering::Greater => 2,
    }
}

fn test_of(test: u16, name: u16) -> Test {
    match test {
        0 => Test::Name(name),
        1 => Test::AnyElement,
        2 => Test::AnyNode,
        3 => Test::Text,
        4 => Test::Comment,
        5 => Test::Instruction,
        6 => Test::Target(name),
        _ => unreachable!("a test above 6"),
    }
}
