//! The programs audit and replay, from standard input to standard output.
//!
//! Of replay: its input is judged for length before any call is made, so too long a one prints `10 0` alone; `document`
//! with no numbers is a call and lends none from then on, and so it is with `old`, `new` and `replace`; `other` leaves
//! what is lent; a last line that lacks its newline is of another form; empty input prints nothing.

use crate::bundle::{lines, number, read, write};
use crate::register::{Record, Register};

pub const MOST_BYTES: usize = 65536;
const MOST_NUMBERS: usize = 1539;
const MOST_MARKS: u64 = 1024;
/// The numbers of an `old`, `new` or `replace` line.
const MOST_LISTED: usize = 100;
/// What the marks buffer holds before a select, and the lent buffer before a write.
const FILL: u8 = 7;

/// The heading, and answer, refused line or 0, steps held, the last step's rows.
pub fn audit(input: &[u8]) -> String {
    let heading = "answer line steps left right\n";
    if input.len() > MOST_BYTES {
        return format!("{heading}10 0 0 0 0\n");
    }
    let ((answer, value), book) = read(input);
    let line = if answer == 0 { 0 } else { value };
    let [_, left, right, _, _] = book.steps.last().copied().unwrap_or_default();
    format!("{heading}{answer} {line} {} {left} {right}\n", book.steps.len())
}

/// A line for each call but document, old, new and other; `10 LINE` at the first line of another form, which ends the run.
pub fn replay(input: &[u8]) -> String {
    if input.len() > MOST_BYTES {
        return "10 0\n".to_string();
    }
    let mut run = Run::default();
    let mut output = String::new();
    for (count, line) in (1..).zip(lines(input)) {
        match line.and_then(|line| run.call(line)) {
            Some(printed) => output += &printed,
            None => return format!("{output}10 {count}\n"),
        }
    }
    output
}

#[derive(Default)]
struct Run {
    register: Register,
    /// The register that `other` set aside, a fresh one at first.
    other: Register,
    document: Vec<u16>,
    old: Vec<u16>,
    new: Vec<u16>,
    names: Vec<u8>,
}

impl Run {
    /// What the call of this line prints, or nothing if the line has no call's form.
    fn call(&mut self, line: &[u8]) -> Option<String> {
        let words: Vec<&[u8]> = line.split(|&b| b == b' ').collect();
        let small = |word: &[u8]| number(word, 65535).map(|n| n as u16);
        let book = &mut self.register.book;
        let (number, value) = match words[..] {
            [b"term", kind, a, b, c] => book.term([small(kind)?, small(a)?, small(b)?, small(c)?]),
            [b"step", rule, left, right, first, second] => {
                book.step([small(rule)?, small(left)?, small(right)?, small(first)?, small(second)?])
            }
            [b"point", name] => book.point(small(name)?),
            [b"way-back", row] => book.way_back(small(row)?),
            [b"return", name] => self.register.return_to(small(name)?),
            [b"record", series, edition, row, step] => {
                self.register.record([small(series)?, small(edition)?, small(row)?, small(step)?])
            }
            [b"current", series] => self.register.current(small(series)?),
            [b"release", place] => self.register.release(small(place)?),
            [b"crew-current", series] => self.register.crew_current(small(series)?),
            [b"records"] => return Some(listing(self.register.listing())),
            [b"released"] => return Some(listing(self.register.crew_listing())),
            [b"document", ref numbers @ ..] if numbers.len() <= MOST_NUMBERS => {
                self.document = numbers.iter().map(|word| small(word)).collect::<Option<_>>()?;
                return Some(String::new());
            }
            [b"old", ref numbers @ ..] if numbers.len() <= MOST_LISTED => {
                self.old = numbers.iter().map(|word| small(word)).collect::<Option<_>>()?;
                return Some(String::new());
            }
            [b"new", ref numbers @ ..] if numbers.len() <= MOST_LISTED => {
                self.new = numbers.iter().map(|word| small(word)).collect::<Option<_>>()?;
                return Some(String::new());
            }
            [b"replace", ref numbers @ ..] if numbers.len() <= MOST_LISTED => {
                let steps: Vec<u16> = numbers.iter().map(|word| small(word)).collect::<Option<_>>()?;
                book.replace(&self.old, &self.new, &steps)
            }
            [b"other"] => {
                self.other = std::mem::take(&mut self.register);
                return Some(String::new());
            }
            [b"order", left, right] => self.other.book.order(small(left)?, book, small(right)?),
            [b"bundle-order"] => self.other.book.bundle_order(book),
            [b"select", row, context, limit, marks] => {
                let limit = number(limit, u32::MAX as u64)? as u32;
                let mut marks = vec![FILL; number(marks, MOST_MARKS)? as usize];
                let answer = book.select(small(row)?, &self.document, small(context)?, limit, &mut marks);
                return Some(format!("{} {}{}\n", answer.0, answer.1, marked(answer.0, &marks)));
            }
            [b"write", room] => {
                let mut out = vec![FILL; number(room, MOST_BYTES as u64)? as usize];
                let (number, value) = write(book, &mut out);
                let bundle = if number == 0 { &out[..value as usize] } else { b"" };
                return Some(format!("{number} {value}\n{}", String::from_utf8_lossy(bundle)));
            }
            [b"names", ..] => {
                self.names = words[1..].join(&b'\n');
                return Some(String::new());
            }
            [b"text", ..] => book.text(&self.names, &words[1..].join(&b' ')),
            _ => return None,
        };
        Some(format!("{number} {value}\n"))
    }
}

/// How many records are listed, and the numbers of each.
fn listing(records: Vec<Record>) -> String {
    let numbers: String = records.iter().flatten().map(|number| format!(" {number}")).collect();
    format!("0 {}{numbers}\n", records.len())
}

/// The marked nodes, each after a space, if the select was accepted.
fn marked(number: u16, marks: &[u8]) -> String {
    let nodes = (0..marks.len()).filter(|&y| number == 0 && marks[y] == 1);
    nodes.map(|y| format!(" {y}")).collect()
}
