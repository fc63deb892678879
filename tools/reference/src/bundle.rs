//! Bundles: lines of numbers, and the calls read and write.

use crate::book::Book;
use crate::Answer;

const TERM_NAMES: &[u8] = b"kind a b c";
const STEP_NAMES: &[u8] = b"rule left right first second";

/// The lines of the bytes, each without its newline; nothing for a last line that lacks it.
pub fn lines(bytes: &[u8]) -> impl Iterator<Item = Option<&[u8]>> {
    bytes.split_inclusive(|&b| b == b'\n').map(|line| line.strip_suffix(b"\n"))
}

/// A number in base ten, without leading zeros, at most `most`.
pub fn number(word: &[u8], most: u64) -> Option<u64> {
    if word.is_empty() || word.len() > 10 || (word.len() > 1 && word[0] == b'0') {
        return None;
    }
    let mut value = 0;
    for byte in word {
        if !byte.is_ascii_digit() {
            return None;
        }
        value = 10 * value + (byte - b'0') as u64;
    }
    (value <= most).then_some(value)
}

/// N numbers of 16 bits with one space between them.
fn numbers<const N: usize>(line: &[u8]) -> Option<[u16; N]> {
    let mut words = line.split(|&b| b == b' ');
    let mut row = [0; N];
    for field in &mut row {
        *field = number(words.next()?, 65535)? as u16;
    }
    words.next().is_none().then_some(row)
}

/// Makes the calls of the bundle from a fresh book: the answer, and the book.
pub fn read(bytes: &[u8]) -> (Answer, Book) {
    let mut book = Book::default();
    match calls(bytes, &mut book) {
        Ok(()) => ((0, book.steps.len() as u64), book),
        Err(refusal) => (refusal, Book::default()),
    }
}

/// The book's bundle.
fn text(book: &Book) -> Vec<u8> {
    let line = |numbers: &[u16]| numbers.iter().map(u16::to_string).collect::<Vec<_>>().join(" ");
    let names = |names: &[u8]| String::from_utf8(names.to_vec()).unwrap();
    let mut lines = vec![names(TERM_NAMES)];
    lines.extend(book.rows.iter().map(|row| line(row)));
    lines.push(names(STEP_NAMES));
    lines.extend(book.steps.iter().map(|step| line(step)));
    lines.into_iter().flat_map(|line| (line + "\n").into_bytes()).collect()
}

/// Writes the book's bundle from byte 0 on; 16 with the length needed where it doesn't fit.
pub fn write(book: &Book, out: &mut [u8]) -> Answer {
    let text = text(book);
    let length = text.len() as u64;
    match out.get_mut(..text.len()) {
        Some(place) => {
            place.copy_from_slice(&text);
            (0, length)
        }
        None => (16, length),
    }
}

enum Section {
    Start,
    Terms,
    Steps,
}

/// The first refused line's number and the line, if there is one.
fn calls(bytes: &[u8], book: &mut Book) -> Result<(), Answer> {
    let mut section = Section::Start;
    let mut count = 0;
    for line in lines(bytes) {
        count += 1;
        let wrong_form = (10, count);
        let line = line.ok_or(wrong_form)?;
        let (refusal, _) = match section {
            Section::Start if line == TERM_NAMES => {
                section = Section::Terms;
                continue;
            }
            Section::Terms if line == STEP_NAMES => {
                section = Section::Steps;
                continue;
            }
            Section::Start => wrong_form,
            Section::Terms => book.term(numbers(line).ok_or(wrong_form)?),
            Section::Steps => book.step(numbers(line).ok_or(wrong_form)?),
        };
        if refusal != 0 {
            return Err((refusal, count));
        }
    }
    match section {
        Section::Steps => Ok(()),
        _ => Err((10, count + 1)),
    }
}
