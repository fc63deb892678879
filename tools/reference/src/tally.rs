//! The program tally: file names on standard input, one a line, and the uses of each rule over their bundles.
//!
//! A list's last line may lack its newline. All files are opened, in order, before any is read; 17 with the first line
//! that is a 65th name or whose file can't be opened, an empty line and a name with a zero byte among them. A file
//! above 65,536 bytes, or one whose reading fails, is a refused bundle.

use crate::bundle::read;
use crate::programs::MOST_BYTES;
use std::ffi::OsStr;
use std::fs::File;
use std::io::Read;
use std::os::unix::ffi::OsStrExt;

const MOST_NAMES: usize = 64;
const RULES: usize = 59;

pub fn tally(list: &[u8]) -> String {
    let mut names: Vec<&[u8]> = list.split(|&b| b == b'\n').collect();
    if names.last() == Some(&&b""[..]) {
        names.pop();
    }
    let mut files = Vec::new();
    for (count, name) in names.iter().enumerate() {
        match File::open(OsStr::from_bytes(name)) {
            Ok(file) if count < MOST_NAMES => files.push(file),
            _ => return format!("17 {}\n", count + 1),
        }
    }
    let mut uses = [0u64; RULES + 1];
    let mut total = 0;
    for rules in files.into_iter().filter_map(rules_of) {
        total += rules.len();
        for rule in rules {
            uses[rule as usize] += 1;
        }
    }
    let lines: String = (1..=RULES).map(|rule| format!("{rule} {}\n", uses[rule])).collect();
    format!("rule uses\n{lines}0 {total}\n")
}

/// The rules of the steps of an accepted bundle.
fn rules_of(file: File) -> Option<Vec<u16>> {
    let mut bytes = Vec::new();
    file.take(MOST_BYTES as u64 + 1).read_to_end(&mut bytes).ok()?;
    if bytes.len() > MOST_BYTES {
        return None;
    }
    let ((answer, _), book) = read(&bytes);
    (answer == 0).then(|| book.steps.iter().map(|step| step[0]).collect())
}
