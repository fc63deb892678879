//! `reference audit`, `reference replay` and `reference tally`: standard input to standard output.

use reference::programs::{audit, replay, MOST_BYTES};
use reference::tally::tally;
use std::io::{self, Read, Write};

fn main() -> io::Result<()> {
    let (program, most): (fn(&[u8]) -> String, u64) = match std::env::args().nth(1).as_deref() {
        Some("audit") => (audit, MOST_BYTES as u64 + 1),
        Some("replay") => (replay, MOST_BYTES as u64 + 1),
        Some("tally") => (tally, u64::MAX),
        _ => {
            eprintln!("usage: reference audit|replay|tally < INPUT");
            std::process::exit(2);
        }
    };
    let mut input = Vec::new();
    io::stdin().take(most).read_to_end(&mut input)?;
    io::stdout().write_all(program(&input).as_bytes())
}
