//! Selectors as text. A reader that goes from left to right and fails at the first byte that can't continue.

use crate::book::{Book, Row, DEEPEST, MOST_ROWS};
use crate::term::AXES;
use crate::Answer;
use std::collections::HashMap;

const LEVELS: u32 = 32;
const TYPES: [&str; 4] = ["node", "text", "comment", "processing-instruction"];

/// A row whose operands are numbers of earlier nodes, and the name of its test or target with its place.
struct Node {
    row: [usize; 4],
    name: Option<(usize, Vec<u8>)>,
    nesting: u32,
}

struct Reader<'a> {
    text: &'a [u8],
    at: usize,
    nodes: Vec<Node>,
}

/// A node, or the place where the text is refused.
type Read = Result<usize, usize>;

fn is_space(b: u8) -> bool {
    matches!(b, b' ' | b'\t' | b'\n' | b'\r')
}

fn is_letter(b: u8) -> bool {
    b.is_ascii_alphabetic() || b == b'_'
}

fn is_name_byte(b: u8) -> bool {
    is_letter(b) || b.is_ascii_digit() || b == b'-' || b == b'.'
}

impl Reader<'_> {
    fn next(&self) -> Option<u8> {
        self.text.get(self.at).copied()
    }

    fn passes(&mut self, b: u8) -> bool {
        let passed = self.next() == Some(b);
        self.at += passed as usize;
        passed
    }

    fn need(&mut self, b: u8) -> Result<(), usize> {
        if self.passes(b) { Ok(()) } else { Err(self.at) }
    }

    fn spaces(&mut self) {
        while self.next().is_some_and(is_space) {
            self.at += 1;
        }
    }

    /// The name that begins here.
    fn name(&mut self) -> Result<Vec<u8>, usize> {
        if !self.next().is_some_and(is_letter) {
            return Err(self.at);
        }
        let start = self.at;
        while self.next().is_some_and(is_name_byte) {
            self.at += 1;
        }
        Ok(self.text[start..self.at].to_vec())
    }

    fn put(&mut self, row: [usize; 4], name: Option<(usize, Vec<u8>)>) -> usize {
        let of = |n: usize| self.nodes[n].nesting;
        let nesting = match row[0] {
            0 | 1 | 2 | 6 | 7 => 1,
            8 => 1 + of(row[1]),
            _ => 1 + of(row[1]).max(of(row[2])),
        };
        self.nodes.push(Node { row, name, nesting: nesting.min(DEEPEST + 1) });
        self.nodes.len() - 1
    }

    fn over(&mut self, kind: usize, left: usize, right: usize) -> usize {
        self.put([kind, left, right, 0], None)
    }

    /// The path, then descendant-or-self::node().
    fn below(&mut self, path: usize) -> usize {
        let step = self.put([2, 5, 2, 0], None);
        self.over(4, path, step)
    }

    fn union(&mut self, levels: u32) -> Read {
        let mut union = self.path(levels)?;
        while self.passes(b'|') {
            let path = self.path(levels)?;
            union = self.over(3, union, path);
        }
        Ok(union)
    }

    fn path(&mut self, levels: u32) -> Read {
        self.spaces();
        let mut path = if !self.passes(b'/') {
            self.step(levels)?
        } else {
            let mut root = self.put([1, 0, 0, 0], None);
            if self.passes(b'/') {
                root = self.below(root);
            } else {
                self.spaces();
                if !self.next().is_some_and(|b| is_letter(b) || matches!(b, b'*' | b'@' | b'.')) {
                    // `/` alone: a second `/` is refused by whoever reads on
                    return Ok(root);
                }
            }
            let step = self.step(levels)?;
            self.over(4, root, step)
        };
        while self.passes(b'/') {
            if self.passes(b'/') {
                path = self.below(path);
            }
            let step = self.step(levels)?;
            path = self.over(4, path, step);
        }
        Ok(path)
    }

    /// A step with its predicates, and whitespace after it.
    fn step(&mut self, levels: u32) -> Read {
        self.spaces();
        if self.passes(b'.') {
            let axis = if self.passes(b'.') { 2 } else { 0 };
            self.spaces();
            return Ok(self.put([2, axis, 2, 0], None));
        }
        let mut step = if self.passes(b'@') { self.test(11)? } else { self.named_or_any()? };
        self.spaces();
        while self.next() == Some(b'[') {
            if levels == 0 {
                return Err(self.at);
            }
            self.at += 1;
            let predicate = self.or(levels - 1)?;
            self.need(b']')?;
            step = self.over(5, step, predicate);
            self.spaces();
        }
        Ok(step)
    }

    /// A test, before which an axis may stand.
    fn named_or_any(&mut self) -> Read {
        let start = self.at;
        if !self.next().is_some_and(is_letter) {
            return self.test(1);
        }
        let name = self.name()?;
        self.spaces();
        if self.next() != Some(b':') {
            self.at = start;
            return self.test(1);
        }
        let Some(axis) = AXES.iter().position(|(word, _)| word.as_bytes() == name) else { return Err(self.at) };
        self.at += 1;
        self.need(b':')?;
        self.test(axis)
    }

    fn test(&mut self, axis: usize) -> Read {
        self.spaces();
        if self.passes(b'*') {
            return Ok(self.put([2, axis, 1, 0], None));
        }
        let start = self.at;
        let name = self.name()?;
        let end = self.at;
        self.spaces();
        if self.next() != Some(b'(') {
            self.at = end;
            return Ok(self.put([2, axis, 0, 0], Some((start, name))));
        }
        let Some(kind) = TYPES.iter().position(|word| word.as_bytes() == name) else { return Err(self.at) };
        self.at += 1;
        self.spaces();
        let mut target = None;
        if let Some(quote @ (b'\'' | b'"')) = self.next().filter(|_| kind == 3) {
            self.at += 1;
            let place = self.at;
            target = Some((place, self.name()?));
            self.need(quote)?;
            self.spaces();
        }
        self.need(b')')?;
        let test = if target.is_some() { 6 } else { 2 + kind };
        Ok(self.put([2, axis, test, 0], target))
    }

    fn or(&mut self, levels: u32) -> Read {
        let mut or = self.and(levels)?;
        while self.operator(b"or")? {
            let and = self.and(levels)?;
            or = self.over(10, or, and);
        }
        Ok(or)
    }

    fn and(&mut self, levels: u32) -> Read {
        let mut and = self.operand(levels)?;
        while self.operator(b"and")? {
            let operand = self.operand(levels)?;
            and = self.over(9, and, operand);
        }
        Ok(and)
    }

    /// An operator that begins with the next byte must be whole, and no byte of a name may follow it.
    fn operator(&mut self, word: &[u8]) -> Result<bool, usize> {
        self.spaces();
        if self.next() != Some(word[0]) {
            return Ok(false);
        }
        for &b in word {
            self.need(b)?;
        }
        if self.next().is_some_and(is_name_byte) { Err(self.at) } else { Ok(true) }
    }

    fn operand(&mut self, levels: u32) -> Read {
        self.spaces();
        let start = self.at;
        let word = self.name().unwrap_or_default();
        self.spaces();
        let opens = self.next() == Some(b'(');
        match &word[..] {
            b"" | b"not" if opens => {
                if levels == 0 {
                    return Err(self.at);
                }
                self.at += 1;
                let inner = self.or(levels - 1)?;
                self.need(b')')?;
                Ok(if word.is_empty() { inner } else { self.put([8, inner, 0, 0], None) })
            }
            b"true" | b"false" if opens => {
                self.at += 1;
                self.spaces();
                self.need(b')')?;
                Ok(self.put([if word == b"true" { 6 } else { 7 }, 0, 0, 0], None))
            }
            _ => {
                self.at = start;
                let path = self.union(levels)?;
                let void = self.put([0; 4], None);
                let inclusion = self.over(11, path, void);
                Ok(self.put([8, inclusion, 0, 0], None))
            }
        }
    }
}

/// The number that the list gives to a name: the first line that is the name, 1 to 65535.
fn number(list: &[u8], name: &[u8]) -> Option<u16> {
    list.split(|&b| b == b'\n').position(|line| line == name).and_then(|line| u16::try_from(line + 1).ok())
}

impl Book {
    pub fn text(&mut self, list: &[u8], text: &[u8]) -> Answer {
        let mut reader = Reader { text, at: 0, nodes: Vec::new() };
        let last = match reader.union(LEVELS) {
            Ok(last) if reader.at == text.len() => last,
            Ok(_) => return (18, reader.at as u64),
            Err(place) => return (18, place as u64),
        };
        let mut numbers = Vec::new();
        for node in &reader.nodes {
            numbers.push(match &node.name {
                None => 0,
                Some((place, name)) => match number(list, name) {
                    None => return (19, *place as u64),
                    Some(number) => number,
                },
            });
        }
        if reader.nodes[last].nesting > DEEPEST {
            return (3, 0);
        }
        // the rows in order: operands stand before, the left one first
        let mut rows: Vec<usize> = Vec::new();
        let mut new: Vec<Row> = Vec::new();
        let mut found: HashMap<Row, usize> = HashMap::new();
        for (node, number) in reader.nodes.iter().zip(numbers) {
            let [kind, a, b, c] = node.row;
            let row = match kind {
                2 => [2, a as u16, b as u16, number],
                3..=5 | 9..=11 => [kind as u16, rows[a] as u16, rows[b] as u16, 0],
                8 => [8, rows[a] as u16, 0, 0],
                _ => [kind as u16, a as u16, b as u16, c as u16],
            };
            let at = self.held(row).or(found.get(&row).copied()).unwrap_or_else(|| {
                new.push(row);
                found.insert(row, self.count() + new.len() - 1);
                self.count() + new.len() - 1
            });
            rows.push(at);
        }
        if self.count() + new.len() > MOST_ROWS {
            return (11, 0);
        }
        for row in new {
            assert_eq!(self.term(row).0, 0, "a row of a text");
        }
        (0, rows[last] as u64)
    }
}
