//! Paths and qualifiers as trees.

use std::cmp::Ordering;
use std::collections::HashSet;
use std::rc::Rc;

/// The axes, in the order of their numbers.
#[derive(Clone, Copy, Debug, PartialEq, Eq)]
pub enum Axis {
    SelfNode,
    Child,
    Parent,
    Descendant,
    Ancestor,
    DescendantOrSelf,
    AncestorOrSelf,
    FollowingSibling,
    PrecedingSibling,
    Following,
    Preceding,
    Attribute,
}

pub const AXES: [(&str, Axis); 12] = [
    ("self", Axis::SelfNode),
    ("child", Axis::Child),
    ("parent", Axis::Parent),
    ("descendant", Axis::Descendant),
    ("ancestor", Axis::Ancestor),
    ("descendant-or-self", Axis::DescendantOrSelf),
    ("ancestor-or-self", Axis::AncestorOrSelf),
    ("following-sibling", Axis::FollowingSibling),
    ("preceding-sibling", Axis::PrecedingSibling),
    ("following", Axis::Following),
    ("preceding", Axis::Preceding),
    ("attribute", Axis::Attribute),
];

/// A node test, a name test with its name, that of an instruction's target with the target.
#[derive(Clone, Copy, Debug, PartialEq, Eq)]
pub enum Test {
    Name(u16),
    AnyElement,
    AnyNode,
    Text,
    Comment,
    Instruction,
    Target(u16),
}

/// What a term's row has at a place: a number, or the operand's term.
pub enum Field<'a> {
    Number(u16),
    Operand(&'a Rc<Term>),
}

/// A path or a qualifier. Equality is equality of trees; that `Rc` compares addresses first only makes it quick.
#[derive(PartialEq, Eq)]
pub enum Term {
    Void,
    Root,
    Step(Axis, Test),
    Union(Rc<Term>, Rc<Term>),
    Composition(Rc<Term>, Rc<Term>),
    Filter(Rc<Term>, Rc<Term>),
    True,
    False,
    Not(Rc<Term>),
    And(Rc<Term>, Rc<Term>),
    Or(Rc<Term>, Rc<Term>),
    Inclusion(Rc<Term>, Rc<Term>),
}

impl Term {
    pub fn is_path(&self) -> bool {
        use Term::*;
        matches!(self, Void | Root | Step(..) | Union(..) | Composition(..) | Filter(..))
    }

    /// The kind, and the fields from the left.
    pub fn row(&self) -> (u16, Vec<Field<'_>>) {
        use Field::{Number, Operand};
        use Term::*;
        match self {
            Void => (0, vec![]),
            Root => (1, vec![]),
            Step(axis, test) => (2, [*axis as u16, test.numbers().0, test.numbers().1].map(Number).into()),
            Union(p, q) => (3, vec![Operand(p), Operand(q)]),
            Composition(p, q) => (4, vec![Operand(p), Operand(q)]),
            Filter(p, f) => (5, vec![Operand(p), Operand(f)]),
            True => (6, vec![]),
            False => (7, vec![]),
            Not(f) => (8, vec![Operand(f)]),
            And(f, g) => (9, vec![Operand(f), Operand(g)]),
            Or(f, g) => (10, vec![Operand(f), Operand(g)]),
            Inclusion(p, q) => (11, vec![Operand(p), Operand(q)]),
        }
    }
}

impl Test {
    /// Its number, and the name or target.
    fn numbers(self) -> (u16, u16) {
        match self {
            Test::Name(name) => (0, name),
            Test::AnyElement => (1, 0),
            Test::AnyNode => (2, 0),
            Test::Text => (3, 0),
            Test::Comment => (4, 0),
            Test::Instruction => (5, 0),
            Test::Target(name) => (6, name),
        }
    }
}

/// Compares terms: first by kind, then by fields from the left. Terms share their operands, so it keeps which pairs of
/// them it found equal.
#[derive(Default)]
pub struct Comparison(HashSet<(*const Term, *const Term)>);

impl Comparison {
    pub fn terms(&mut self, left: &Rc<Term>, right: &Rc<Term>) -> Ordering {
        let pair = (Rc::as_ptr(left), Rc::as_ptr(right));
        if self.0.contains(&pair) {
            return Ordering::Equal;
        }
        let ((kind, fields), (other_kind, other_fields)) = (left.row(), right.row());
        let mut order = kind.cmp(&other_kind);
        for (x, y) in fields.iter().zip(&other_fields) {
            order = order.then_with(|| self.fields(x, y));
        }
        if order == Ordering::Equal {
            self.0.insert(pair);
        }
        order
    }

    fn fields(&mut self, left: &Field, right: &Field) -> Ordering {
        match (left, right) {
            (Field::Number(x), Field::Number(y)) => x.cmp(y),
            (Field::Operand(x), Field::Operand(y)) => self.terms(x, y),
            _ => unreachable!("fields of other kinds"),
        }
    }
}
