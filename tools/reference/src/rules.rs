//! The rules in the notation of docs/SPECIFICATION.md, Rules, their patterns, and whether a rule yields a step.

use crate::term::{Axis, Term, Test, AXES};
use std::collections::{HashMap, HashSet};
use std::rc::Rc;
use std::sync::OnceLock;

/// Rule number, conclusion, premises. `=` stands for both directions. Conditions on letters are in `condition`.
#[rustfmt::skip]
const RULES: &[(u16, &str, &[&str])] = &[
    (1, "V <= p", &[]),
    (2, "p <= p", &[]),
    (2, "f => f", &[]),
    (3, "p <= r", &["p <= q", "q <= r"]),
    (3, "f => h", &["f => g", "g => h"]),
    (4, "p <= q|r", &["p <= q"]),
    (5, "p <= q|r", &["p <= r"]),
    (6, "p|q <= r", &["p <= r", "q <= r"]),
    (7, "p/q <= r/s", &["p <= r", "q <= s"]),
    (8, "a::N <= b::M", &[]),
    (9, "p[f] <= r[g]", &["p <= r", "f => g"]),
    (10, "p/a::N <= r/b::M", &["a::N <= b::M", "p <= r/b::*"]),
    (10, "p/a::N <= r/b::M", &["a::N <= b::M", "p <= r/b::node()"]),
    (11, "p/q <= r/s", &["p[some q] <= r", "q <= s"]),
    (12, "(p in q) => (r in s)", &["r <= p", "q <= s"]),
    (13, "not f => not g", &["g => f"]),
    (14, "f => true", &[]),
    (15, "false => f", &[]),
    (16, "f and g => h", &["g => h"]),
    (17, "f and g => h", &["f => h"]),
    (18, "f => g and h", &["f => g", "f => h"]),
    (19, "f => g or h", &["f => g"]),
    (20, "f => g or h", &["f => h"]),
    (21, "f or g => h", &["f => h", "g => h"]),
    (22, "(child::T in V) => (descendant::N in V)", &[]),
    (23, "(parent::T in V) => (ancestor::N in V)", &[]),
    (24, "p <= V", &["true => (p in V)"]),
    (25, "p[f and g] <= V", &["f => not g"]),
    (26, "p/a::N <= R/descendant::M", &[]),
    (27, "p = p[true]", &[]),
    (28, "p = ./p", &[]),
    (29, "p = p/.", &[]),
    (30, "p[false] = V", &[]),
    (31, "p[f][g] = p[f and g]", &[]),
    (32, "p[f]|p[g] = p[f or g]", &[]),
    (33, "(p|q)/r = p/r|q/r", &[]),
    (34, "p/(q|r) = p/q|p/r", &[]),
    (35, "(p|q)[f] = p[f]|q[f]", &[]),
    (36, "(p/q)/r = p/(q/r)", &[]),
    (37, "(p/q)[f] = p/(q[f])", &[]),
    (38, "(p/q in V) = (p[some q] in V)", &[]),
    (39, "not (f and g) = not f or not g", &[]),
    (40, "not (f or g) = not f and not g", &[]),
    (41, "f and (g or h) = (f and g) or (f and h)", &[]),
    (42, "f or (g and h) = (f or g) and (f or h)", &[]),
    (43, "not not f = f", &[]),
    (44, "not true = false", &[]),
    (45, "not false = true", &[]),
    (46, "((p|q) in r) = (p in r) and (q in r)", &[]),
    (47, "f and not f = false", &[]),
    (48, "child::N[f]/parent::M = self::M[some child::N[f]]", &[]),
    (49, "descendant::N[f]/parent::M = descendant-or-self::M[some child::N[f]]", &[]),
    (51, "descendant::N[f]/child::M <= descendant::M[some parent::N[f]]", &[]),
    (52, "descendant-or-self::N = descendant::N|self::N", &[]),
    (53, "ancestor-or-self::N = ancestor::N|self::N", &[]),
    (54, "(ancestor-or-self::node()/following-sibling::node())/descendant-or-self::N <= following::N", &[]),
    (55, "preceding::N = (ancestor-or-self::node()/preceding-sibling::node())/descendant-or-self::N", &[]),
    (56, "p/R <= R", &[]),
    (57, "R <= ancestor-or-self::node()", &[]),
    (58, "a::node()/self::N = a::N", &[]),
];

/// What a rule asks of its letters.
fn condition(rule: u16, l: &Letters) -> bool {
    match rule {
        8 => axis_below(l.axis('a'), l.axis('b')) && test_below(l.test('N'), l.test('M')),
        10 => (3..=10).contains(&(l.axis('b') as u16)),
        22 | 23 => match l.test('T') {
            Test::AnyNode => true,
            Test::AnyElement => matches!(l.test('N'), Test::Name(_) | Test::AnyElement),
            _ => false,
        },
        26 => test_below(l.test('N'), l.test('M')) && l.test('N') != Test::AnyNode && l.axis('a') != Axis::Attribute,
        58 => l.axis('a') != Axis::Attribute,
        _ => true,
    }
}

fn axis_below(a: Axis, b: Axis) -> bool {
    use Axis::*;
    a == b
        || matches!(
            (a, b),
            (Child, Descendant | DescendantOrSelf)
                | (Descendant, DescendantOrSelf)
                | (SelfNode, DescendantOrSelf | AncestorOrSelf)
                | (Parent, Ancestor | AncestorOrSelf)
                | (Ancestor, AncestorOrSelf)
                | (FollowingSibling, Following)
                | (PrecedingSibling, Preceding)
        )
}

fn test_below(n: Test, m: Test) -> bool {
    n == m
        || m == Test::AnyNode
        || matches!((n, m), (Test::Name(_), Test::AnyElement) | (Test::Target(_), Test::Instruction))
}

/// The rule of the way back: r <= r[some w], w being r's way back.
pub const WAY_BACK: u16 = 59;

/// The axis that leads back, of those that have one.
fn opposite(axis: Axis) -> Option<Axis> {
    use Axis::*;
    match axis {
        SelfNode => Some(SelfNode),
        Child => Some(Parent),
        Descendant => Some(Ancestor),
        DescendantOrSelf => Some(AncestorOrSelf),
        FollowingSibling => Some(PrecedingSibling),
        PrecedingSibling => Some(FollowingSibling),
        _ => None,
    }
}

/// The ways back that are made, by the address of the path: what stands in a term many times is reversed once.
type Made = HashMap<*const Term, Option<Rc<Term>>>;

/// The way back of a path: for a::N self::N, then the opposite axis with node(); for p/q that of q, then that of p; for
/// p|q the union of both, p's first; for p[f] .[f], then that of p.
fn way_back(path: &Rc<Term>, made: &mut Made) -> Option<Rc<Term>> {
    if let Some(known) = made.get(&Rc::as_ptr(path)) {
        return known.clone();
    }
    let step = |axis, test| Rc::new(Term::Step(axis, test));
    let then = |p, q| Some(Rc::new(Term::Composition(p, q)));
    let back = match &**path {
        Term::Step(axis, test) => {
            opposite(*axis).and_then(|axis| then(step(Axis::SelfNode, *test), step(axis, Test::AnyNode)))
        }
        Term::Composition(p, q) => match (way_back(q, made), way_back(p, made)) {
            (Some(q), Some(p)) => then(q, p),
            _ => None,
        },
        Term::Union(p, q) => match (way_back(p, made), way_back(q, made)) {
            (Some(p), Some(q)) => Some(Rc::new(Term::Union(p, q))),
            _ => None,
        },
        Term::Filter(p, f) => way_back(p, made).and_then(|p| {
            let here = step(Axis::SelfNode, Test::AnyNode);
            then(Rc::new(Term::Filter(here, f.clone())), p)
        }),
        _ => None,
    };
    made.insert(Rc::as_ptr(path), back.clone());
    back
}

/// Whether two terms are equal; the pairs that were found equal are not compared again.
fn same(x: &Rc<Term>, y: &Rc<Term>, equal: &mut HashSet<(*const Term, *const Term)>) -> bool {
    if Rc::ptr_eq(x, y) || equal.contains(&(Rc::as_ptr(x), Rc::as_ptr(y))) {
        return true;
    }
    use Term::*;
    let is_same = match (&**x, &**y) {
        (Union(a, b), Union(c, d))
        | (Composition(a, b), Composition(c, d))
        | (Filter(a, b), Filter(c, d))
        | (And(a, b), And(c, d))
        | (Or(a, b), Or(c, d))
        | (Inclusion(a, b), Inclusion(c, d)) => same(a, c, equal) && same(b, d, equal),
        (Not(a), Not(b)) => same(a, b, equal),
        (Void, Void) | (Root, Root) | (True, True) | (False, False) => true,
        (Step(a, n), Step(b, m)) => a == b && n == m,
        _ => false,
    };
    if is_same {
        equal.insert((Rc::as_ptr(x), Rc::as_ptr(y)));
    }
    is_same
}

/// The way back of a path that may hold a term many times.
pub fn path_back(path: &Rc<Term>) -> Option<Rc<Term>> {
    way_back(path, &mut Made::new())
}

/// Whether the step says r <= r[some w], w being r's way back.
fn says_way_back((left, right): Says) -> bool {
    let Some(back) = way_back(left, &mut Made::new()) else { return false };
    let some = Rc::new(Term::Not(Rc::new(Term::Inclusion(back, Rc::new(Term::Void)))));
    same(right, &Rc::new(Term::Filter(left.clone(), some)), &mut HashSet::new())
}

/// What a step says: its left term and its right one.
pub type Says<'t> = (&'t Rc<Term>, &'t Rc<Term>);

/// How many premises the rule has.
pub fn premises(rule: u16) -> usize {
    forms()[rule as usize].first().map_or(0, |form| form.premises.len())
}

/// Whether the rule yields a step that says `conclusion`, from as many premises as it has.
pub fn yields<'t>(rule: u16, conclusion: Says<'t>, premises: [Option<Says<'t>>; 2]) -> bool {
    if rule == WAY_BACK {
        return says_way_back(conclusion);
    }
    forms()[rule as usize].iter().any(|form| {
        let mut letters = Letters::default();
        form.conclusion.is_said(conclusion, &mut letters)
            && form
                .premises
                .iter()
                .zip(premises)
                .all(|(p, said)| said.is_some_and(|said| p.is_said(said, &mut letters)))
            && condition(rule, &letters)
    })
}

struct Form {
    conclusion: Statement,
    premises: Vec<Statement>,
}

/// The forms of each rule, by number.
fn forms() -> &'static [Vec<Form>] {
    static FORMS: OnceLock<Vec<Vec<Form>>> = OnceLock::new();
    FORMS.get_or_init(|| {
        let mut forms: Vec<Vec<Form>> = (0..=WAY_BACK).map(|_| Vec::new()).collect();
        for (rule, conclusion, premises) in RULES {
            for conclusion in Statement::directions(conclusion) {
                let premises = premises.iter().flat_map(|p| Statement::directions(p)).collect();
                forms[*rule as usize].push(Form { conclusion, premises });
            }
        }
        forms
    })
}

/// A containment or an implication between two patterns.
struct Statement(Pattern, Pattern);

#[derive(Clone)]
enum Pattern {
    /// p, q, r, s for a path, f, g, h for a qualifier
    Letter(char),
    Void,
    Root,
    Step(AxisPattern, TestPattern),
    Union(Box<Pattern>, Box<Pattern>),
    Composition(Box<Pattern>, Box<Pattern>),
    Filter(Box<Pattern>, Box<Pattern>),
    True,
    False,
    Not(Box<Pattern>),
    And(Box<Pattern>, Box<Pattern>),
    Or(Box<Pattern>, Box<Pattern>),
    Inclusion(Box<Pattern>, Box<Pattern>),
}

#[derive(Clone)]
enum AxisPattern {
    /// a, b
    Letter(char),
    Is(Axis),
}

#[derive(Clone)]
enum TestPattern {
    /// N, M, T
    Letter(char),
    Is(Test),
}

#[derive(Clone, Copy, PartialEq)]
enum Value<'t> {
    Term(&'t Rc<Term>),
    Axis(Axis),
    Test(Test),
}

/// What has been chosen for each letter so far.
#[derive(Default)]
struct Letters<'t>(Vec<(char, Value<'t>)>);

impl<'t> Letters<'t> {
    fn value(&self, letter: char) -> Option<Value<'t>> {
        self.0.iter().find(|(l, _)| *l == letter).map(|(_, v)| *v)
    }

    /// Chooses the value for a new letter; an old one must have it already.
    fn is(&mut self, letter: char, value: Value<'t>) -> bool {
        match self.value(letter) {
            Some(chosen) => chosen == value,
            None => {
                self.0.push((letter, value));
                true
            }
        }
    }

    fn axis(&self, letter: char) -> Axis {
        match self.value(letter) {
            Some(Value::Axis(axis)) => axis,
            _ => unreachable!("no axis for {letter}"),
        }
    }

    fn test(&self, letter: char) -> Test {
        match self.value(letter) {
            Some(Value::Test(test)) => test,
            _ => unreachable!("no test for {letter}"),
        }
    }
}

impl Statement {
    fn is_said<'t>(&self, (left, right): Says<'t>, letters: &mut Letters<'t>) -> bool {
        self.0.matches(left, letters) && self.1.matches(right, letters)
    }

    /// The statement that the text says, or the two of an equality.
    fn directions(text: &str) -> Vec<Statement> {
        let mut parser = Parser { rest: text };
        let left = parser.or();
        let one = parser.takes("<=") || parser.takes("=>");
        assert!(one || parser.takes("="), "no relation in {text}");
        let right = parser.or();
        assert!(parser.rest.is_empty(), "{} left of {text}", parser.rest);
        if one {
            vec![Statement(left, right)]
        } else {
            vec![Statement(left.clone(), right.clone()), Statement(right, left)]
        }
    }
}

impl Pattern {
    fn matches<'t>(&self, term: &'t Rc<Term>, l: &mut Letters<'t>) -> bool {
        use Pattern as P;
        match (self, &**term) {
            (P::Letter(letter), t) => "pqrs".contains(*letter) == t.is_path() && l.is(*letter, Value::Term(term)),
            (P::Void, Term::Void) | (P::Root, Term::Root) | (P::True, Term::True) | (P::False, Term::False) => true,
            (P::Step(axis, test), Term::Step(a, n)) => {
                (match axis {
                    AxisPattern::Letter(letter) => l.is(*letter, Value::Axis(*a)),
                    AxisPattern::Is(axis) => axis == a,
                }) && (match test {
                    TestPattern::Letter(letter) => l.is(*letter, Value::Test(*n)),
                    TestPattern::Is(test) => test == n,
                })
            }
            (P::Not(p), Term::Not(t)) => p.matches(t, l),
            (P::Union(p, q), Term::Union(t, u))
            | (P::Composition(p, q), Term::Composition(t, u))
            | (P::Filter(p, q), Term::Filter(t, u))
            | (P::And(p, q), Term::And(t, u))
            | (P::Or(p, q), Term::Or(t, u))
            | (P::Inclusion(p, q), Term::Inclusion(t, u)) => p.matches(t, l) && q.matches(u, l),
            _ => false,
        }
    }
}

/// Reads patterns. A filter binds tightest, then `/`, then `|`, then `in`; `not` and `some`, then `and`, then `or`.
struct Parser<'s> {
    rest: &'s str,
}

impl Parser<'_> {
    /// Takes the word, if the rest begins with it, and the spaces after it.
    fn takes(&mut self, word: &str) -> bool {
        let Some(rest) = self.rest.strip_prefix(word) else { return false };
        let is_name = |s: &str| s.starts_with(|c: char| c.is_ascii_alphanumeric() || c == '-');
        if is_name(word) && is_name(rest) {
            return false;
        }
        self.rest = rest.trim_start();
        true
    }

    fn or(&mut self) -> Pattern {
        let mut left = self.and();
        while self.takes("or") {
            left = Pattern::Or(left.into(), self.and().into());
        }
        left
    }

    fn and(&mut self) -> Pattern {
        let mut left = self.not();
        while self.takes("and") {
            left = Pattern::And(left.into(), self.not().into());
        }
        left
    }

    fn not(&mut self) -> Pattern {
        if self.takes("not") {
            return Pattern::Not(self.not().into());
        }
        if self.takes("some") {
            return Pattern::Not(Pattern::Inclusion(self.union().into(), Pattern::Void.into()).into());
        }
        let left = self.union();
        if self.takes("in") {
            return Pattern::Inclusion(left.into(), self.union().into());
        }
        left
    }

    fn union(&mut self) -> Pattern {
        let mut left = self.composition();
        while self.takes("|") {
            left = Pattern::Union(left.into(), self.composition().into());
        }
        left
    }

    fn composition(&mut self) -> Pattern {
        let mut left = self.filter();
        while self.takes("/") {
            left = Pattern::Composition(left.into(), self.filter().into());
        }
        left
    }

    fn filter(&mut self) -> Pattern {
        let mut left = self.primary();
        while self.takes("[") {
            left = Pattern::Filter(left.into(), self.or().into());
            assert!(self.takes("]"), "no ] before {}", self.rest);
        }
        left
    }

    fn primary(&mut self) -> Pattern {
        if self.takes("(") {
            let inner = self.or();
            assert!(self.takes(")"), "no ) before {}", self.rest);
            return inner;
        }
        if self.takes(".") {
            return Pattern::Step(AxisPattern::Is(Axis::SelfNode), TestPattern::Is(Test::AnyNode));
        }
        for (word, pattern) in
            [("V", Pattern::Void), ("R", Pattern::Root), ("true", Pattern::True), ("false", Pattern::False)]
        {
            if self.takes(word) {
                return pattern;
            }
        }
        if let Some(letter) = "pqrsfgh".chars().find(|l| self.takes(&l.to_string())) {
            return Pattern::Letter(letter);
        }
        self.step()
    }

    fn step(&mut self) -> Pattern {
        let axis = match "ab".chars().find(|l| self.takes(&l.to_string())) {
            Some(letter) => AxisPattern::Letter(letter),
            None => AxisPattern::Is(AXES.iter().find(|(name, _)| self.takes(name)).expect("an axis").1),
        };
        assert!(self.takes("::"), "no :: before {}", self.rest);
        let test = match "NMT".chars().find(|l| self.takes(&l.to_string())) {
            Some(letter) => TestPattern::Letter(letter),
            None if self.takes("*") => TestPattern::Is(Test::AnyElement),
            None if self.takes("node()") => TestPattern::Is(Test::AnyNode),
            None => panic!("no test before {}", self.rest),
        };
        Pattern::Step(axis, test)
    }
}
