//! What a path selects from a node, what a qualifier says at one, and the visits of both.

use crate::document::{on_axis, passes, Document};
use crate::term::Term;
use std::collections::{BTreeSet, HashMap};
use std::rc::Rc;

type Nodes = Rc<BTreeSet<usize>>;

/// An evaluation on one document. Results are kept for each term and node, since shared operands would otherwise make
/// it exponential. Visits are counted as they are defined all the same; they stop at the largest 64-bit number, which
/// no limit reaches.
pub struct Evaluation<'d> {
    document: &'d Document,
    paths: HashMap<(*const Term, usize), (Nodes, u64)>,
    qualifiers: HashMap<(*const Term, usize), (bool, u64)>,
}

impl<'d> Evaluation<'d> {
    pub fn new(document: &'d Document) -> Self {
        Evaluation { document, paths: HashMap::new(), qualifiers: HashMap::new() }
    }

    /// The nodes that path p selects from x, and the visits.
    pub fn path(&mut self, p: &Rc<Term>, x: usize) -> (Nodes, u64) {
        let key = (Rc::as_ptr(p), x);
        if let Some(known) = self.paths.get(&key) {
            return known.clone();
        }
        let mut nodes = BTreeSet::new();
        let mut visits = 1u64;
        match &**p {
            Term::Void => {}
            Term::Root => nodes = BTreeSet::from([0]),
            Term::Step(axis, test) => {
                let d = self.document;
                nodes = (0..d.len()).filter(|&y| on_axis(d, *axis, x, y) && passes(&d[y], *axis, *test)).collect()
            }
            Term::Union(q, r) => {
                for operand in [q, r] {
                    let (selected, cost) = self.path(operand, x);
                    nodes.extend(selected.iter());
                    visits = visits.saturating_add(cost);
                }
            }
            Term::Composition(q, r) => {
                let (first, cost) = self.path(q, x);
                visits = visits.saturating_add(cost);
                for &y in first.iter() {
                    let (selected, cost) = self.path(r, y);
                    nodes.extend(selected.iter());
                    visits = visits.saturating_add(cost);
                }
            }
            Term::Filter(q, f) => {
                let (first, cost) = self.path(q, x);
                visits = visits.saturating_add(cost);
                for &y in first.iter() {
                    let (holds, cost) = self.qualifier(f, y);
                    visits = visits.saturating_add(cost);
                    if holds {
                        nodes.insert(y);
                    }
                }
            }
            _ => unreachable!("a qualifier in a path's place"),
        }
        let result = (Rc::new(nodes), visits);
        self.paths.insert(key, result.clone());
        result
    }

    /// Whether qualifier f is true at x, and the visits.
    pub fn qualifier(&mut self, f: &Rc<Term>, x: usize) -> (bool, u64) {
        let key = (Rc::as_ptr(f), x);
        if let Some(&known) = self.qualifiers.get(&key) {
            return known;
        }
        let (holds, below) = match &**f {
            Term::True => (true, 0),
            Term::False => (false, 0),
            Term::Not(g) => {
                let (holds, cost) = self.qualifier(g, x);
                (!holds, cost)
            }
            Term::And(g, h) => {
                let ((left, cost), (right, more)) = (self.qualifier(g, x), self.qualifier(h, x));
                (left && right, cost.saturating_add(more))
            }
            Term::Or(g, h) => {
                let ((left, cost), (right, more)) = (self.qualifier(g, x), self.qualifier(h, x));
                (left || right, cost.saturating_add(more))
            }
            Term::Inclusion(p, q) => {
                let ((left, cost), (right, more)) = (self.path(p, x), self.path(q, x));
                (left.is_subset(&right), cost.saturating_add(more))
            }
            _ => unreachable!("a path in a qualifier's place"),
        };
        let result = (holds, below.saturating_add(1));
        self.qualifiers.insert(key, result);
        result
    }
}
