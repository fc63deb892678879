//! Examples, log cases, limits and refusals.

use crate::book::Book;
use crate::bundle::{read, write};
use crate::programs::{audit, replay, MOST_BYTES};
use crate::tally::tally;

/// The log: root, log 1, mark 2, a text, zero 3, run 4, mark 2.
const LOG: &str = "document 0 0 0 1 0 1 1 1 2 2 2 0 1 1 3 1 1 4 1 5 2\n";

/// The bundle of docs/SPECIFICATION.md, Bundles.
const EXAMPLE: &str = "kind a b c\n2 1 0 2\n2 3 1 0\nrule left right first second\n8 0 1 0 0\n";

fn replayed(input: &str) -> Vec<String> {
    replay(input.as_bytes()).lines().map(str::to_string).collect()
}

fn last(input: &str) -> String {
    replayed(input).pop().unwrap()
}

#[test]
fn example_bundle() {
    assert_eq!(audit(EXAMPLE.as_bytes()), "answer line steps left right\n0 0 1 0 1\n");
}

#[test]
fn log_cases() {
    let cases = [
        ("term 2 3 0 2\n", 0, 0, "0 1 2 6"),
        ("term 2 1 0 2\n", 0, 0, "0 1"),
        ("term 2 9 0 2\n", 0, 3, "0 1 6"),
        ("term 2 10 2 0\n", 0, 6, "0 1 2 3 4"),
        ("term 1 0 0 0\n", 0, 0, "0 1 0"),
        ("term 2 7 2 0\n", 0, 2, "0 1 4 5"),
        ("term 2 1 0 1\nterm 2 1 0 2\nterm 4 0 1 0\n", 2, 0, "0 3 2"),
        ("term 2 3 0 4\nterm 2 1 0 2\nterm 4 0 1 0\n", 2, 5, "0 2"),
        ("term 2 3 0 2\nterm 2 2 0 4\nterm 0 0 0 0\nterm 11 1 2 0\nterm 8 3 0 0\nterm 5 0 4 0\n", 5, 5, "0 6 6"),
    ];
    for (terms, row, context, answer) in cases {
        assert_eq!(last(&format!("{LOG}{terms}select {row} {context} 100 7\n")), answer, "{terms}");
    }
}

#[test]
fn visit_limit_met_exactly_passes() {
    let terms = "term 2 1 0 1\nterm 2 1 0 2\nterm 4 0 1 0\n";
    assert_eq!(last(&format!("{LOG}{terms}select 2 0 3 7\n")), "0 3 2");
    assert_eq!(last(&format!("{LOG}{terms}select 2 0 2 7\n")), "15 0");
}

#[test]
fn visits_beyond_64_bits_are_refused() {
    let mut calls = String::from("document 0 0 0 1 0 1 1 0 1\nterm 2 5 2 0\n");
    for row in 0..31 {
        calls += &format!("term 4 {row} {row} 0\n");
    }
    assert_eq!(last(&format!("{calls}select 31 0 4294967295 3\n")), "15 0");
}

#[test]
fn refused_terms() {
    let mut book = Book::default();
    assert_eq!(book.term([12, 0, 0, 0]), (1, 0));
    assert_eq!(book.term([0, 0, 1, 1]), (2, 2));
    assert_eq!(book.term([2, 12, 7, 0]), (2, 1));
    assert_eq!(book.term([2, 10, 7, 0]), (2, 2));
    assert_eq!(book.term([2, 10, 6, 0]), (2, 3));
    assert_eq!(book.term([2, 10, 5, 1]), (2, 3));
    assert_eq!(book.term([2, 10, 0, 0]), (2, 3));
    assert_eq!(book.term([2, 10, 1, 1]), (2, 3));
    assert_eq!(book.term([2, 10, 0, 65535]), (0, 0));
    assert_eq!(book.term([2, 10, 0, 65535]), (12, 0));
    assert_eq!(book.term([6, 0, 0, 0]), (0, 1));
    assert_eq!(book.term([3, 0, 1, 0]), (2, 2));
    assert_eq!(book.term([5, 0, 1, 0]), (0, 2));
    assert_eq!(book.term([5, 2, 1, 1]), (2, 3));
    assert_eq!(book.term([8, 0, 0, 0]), (2, 1));
    assert_eq!(book.term([11, 2, 0, 0]), (0, 3));
    assert_eq!(book.term([9, 3, 4, 0]), (2, 2));
}

#[test]
fn nesting_32_passes() {
    let mut book = Book::default();
    book.term([6, 0, 0, 0]);
    for row in 0..31 {
        assert_eq!(book.term([8, row, 0, 0]), (0, row as u64 + 1));
    }
    assert_eq!(book.term([8, 31, 0, 0]), (3, 0));
}

#[test]
fn full_tables() {
    let mut book = Book::default();
    for name in 1..=1024 {
        assert_eq!(book.term([2, 1, 0, name]), (0, name as u64 - 1));
    }
    assert_eq!(book.term([2, 1, 0, 1024]), (12, 1023));
    assert_eq!(book.term([2, 1, 0, 1025]), (11, 0));
    for number in 1..=2048 {
        assert_eq!(book.step([2, 7, 7, 0, 0]), (0, number));
    }
    assert_eq!(book.step([2, 7, 8, 0, 0]), (7, 0));
    assert_eq!(book.step([2, 7, 7, 0, 0]), (13, 0));
}

#[test]
fn refused_steps() {
    let mut book = Book::default();
    for row in [[2, 1, 1, 0], [2, 3, 2, 0], [6, 0, 0, 0]] {
        book.term(row);
    }
    assert_eq!(book.step([0, 9, 9, 9, 9]), (4, 0));
    assert_eq!(book.step([60, 0, 0, 0, 0]), (4, 0));
    assert_eq!(book.step([8, 3, 3, 0, 0]), (5, 1));
    assert_eq!(book.step([8, 0, 3, 0, 0]), (5, 2));
    assert_eq!(book.step([8, 0, 2, 0, 0]), (5, 2));
    assert_eq!(book.step([8, 0, 1, 1, 1]), (6, 1));
    assert_eq!(book.step([8, 0, 1, 0, 1]), (6, 2));
    assert_eq!(book.step([3, 0, 1, 0, 0]), (6, 1));
    assert_eq!(book.step([8, 1, 0, 0, 0]), (7, 0));
    assert_eq!(book.step([8, 0, 1, 0, 0]), (0, 1));
    assert_eq!(book.step([3, 0, 1, 1, 2]), (6, 2));
    assert_eq!(book.step([3, 0, 1, 1, 1]), (7, 0));
    assert_eq!(book.step([2, 1, 1, 0, 0]), (0, 2));
    assert_eq!(book.step([3, 0, 1, 1, 2]), (0, 3));
}

#[test]
fn refused_documents() {
    let bad = |numbers: &str| last(&format!("term 1 0 0 0\ndocument{numbers}\nselect 0 0 9 9\n"));
    assert_eq!(bad(""), "8 0");
    assert_eq!(bad(" 0"), "8 0");
    assert_eq!(bad(" 0 0 1"), "8 0");
    assert_eq!(bad(" 0 0 0"), "0 1 0");
    assert_eq!(bad(" 0 0 0 2 0"), "8 1");
    assert_eq!(bad(" 0 0 0 0 0 0"), "8 1");
    assert_eq!(bad(" 0 0 0 5 0 0"), "8 1");
    assert_eq!(bad(" 0 0 0 1 0 0"), "8 1");
    assert_eq!(bad(" 0 0 0 2 0 1"), "8 1");
    assert_eq!(bad(" 0 0 0 1 1 1"), "8 1");
    assert_eq!(bad(" 0 0 0 1 0 1 2 1 0 1 2 1"), "8 3");
    assert_eq!(bad(" 0 0 0 1 0 1 1 0 1 1 1 1"), "8 3");
    assert_eq!(bad(" 0 0 0 4 0 0 2 0 0 2 0 0 1 0 65535"), "0 1 0");
    assert_eq!(bad(" 0 0 0 4 0 1 4 0 65535"), "0 1 0");
    assert_eq!(bad(" 0 0 0 3 0 1"), "8 1");
    assert_eq!(bad(" 0 0 0 4 0 1 2 1 0"), "8 2");
}

/// A target selects the instructions that have it, and is below itself, any instruction and node().
#[test]
fn targets() {
    let rows = "term 2 3 6 1\nterm 2 1 6 1\nterm 2 3 6 2\nterm 2 3 5 0\nterm 2 3 2 0\nterm 2 1 0 1\n";
    let document = "document 0 0 0 4 0 0 4 0 1 1 0 1 5 3 1 4 3 2 4 3 1\n";
    let selected = |row: u16| last(&format!("{rows}{document}select {row} 0 9 7\n"));
    assert_eq!(selected(0), "0 1 2 6");
    assert_eq!(selected(1), "0 1 2");
    assert_eq!(selected(2), "0 1 5");
    assert_eq!(selected(3), "0 1 1 2 5 6");
    let yielded = |left: u16, right: u16| last(&format!("{rows}step 8 {left} {right} 0 0\n"));
    for right in [0, 3, 4] {
        assert_eq!(yielded(1, right), "0 1");
    }
    for (left, right) in [(1, 2), (3, 0), (5, 0), (4, 0)] {
        assert_eq!(yielded(left, right), "7 0");
    }
}

#[test]
fn node_limit() {
    let flat = |rows: usize| format!("term 1 0 0 0\ndocument 0 0 0{}", " 2 0 0".repeat(rows - 1));
    let select = "\nselect 0 0 9 1024\n";
    assert_eq!(last(&(flat(512) + select)), "0 1 0");
    assert_eq!(last(&(flat(512) + " 9" + select)), "8 512");
    assert_eq!(last(&(flat(513) + select)), "8 512");
    assert_eq!(last(&(flat(513) + " 9" + select)), "10 2");
}

#[test]
fn refused_selects() {
    let calls = format!("{LOG}term 1 0 0 0\nterm 6 0 0 0\n");
    assert_eq!(last(&format!("{calls}select 2 7 0 6\n")), "9 1");
    assert_eq!(last(&format!("{calls}select 2 6 0 6\n")), "9 2");
    assert_eq!(last(&format!("{calls}select 1 6 0 6\n")), "9 2");
    assert_eq!(last(&format!("{calls}select 0 6 0 6\n")), "14 0");
    assert_eq!(last(&format!("{calls}select 0 6 0 7\n")), "15 0");
    assert_eq!(last(&format!("{calls}select 0 6 1 1024\n")), "0 1 0");
}

#[test]
fn lines_of_another_form() {
    for line in [
        "",
        "term",
        "term 0 0 0",
        "term 0 0 0 0 0",
        "term  0 0 0",
        "term 00 0 0 0",
        "term 65536 0 0 0",
        " term 0 0 0 0",
        "term 0 0 0 0 ",
        "term 0 0 0 0\r",
        "Term 0 0 0 0",
        "document ",
        "document 65536",
        "select 0 0 4294967296 0",
        "select 0 0 0 1025",
        "select 0 0 0",
        "step 1 0 0 0",
        "term +1 0 0 0",
        "fresh",
    ] {
        assert_eq!(replay(format!("term 0 0 0 0\n{line}\nterm 1 0 0 0\n").as_bytes()), "0 0\n10 2\n", "{line}");
    }
    assert_eq!(replay(b"term 0 0 0 0"), "10 1\n");
    assert_eq!(replay(b""), "");
    assert_eq!(replay(&vec![b'\n'; MOST_BYTES + 1]), "10 0\n");
    assert_eq!(replay(&vec![b'\n'; MOST_BYTES]), "10 1\n");
}

#[test]
fn damaged_bundles() {
    let answer = |bundle: &str| read(bundle.as_bytes()).0;
    assert_eq!(answer(""), (10, 1));
    assert_eq!(answer("kind a b c"), (10, 1));
    assert_eq!(answer("kind a b c\n"), (10, 2));
    assert_eq!(answer("kind a b c\nrule left right first second"), (10, 2));
    assert_eq!(answer("kind a b c\nrule left right first second\n"), (0, 0));
    assert_eq!(answer("kind a b c\nkind a b c\n"), (10, 2));
    assert_eq!(answer("kind a b c\n1 0 0 0\n01 0 0 0\n"), (10, 3));
    assert_eq!(answer("kind a b c\n1 0 0 0\n1 0 0 0\nx\n"), (12, 3));
    assert_eq!(answer("kind a b c\n2 0 0 65535\n2 0 0 65536\n"), (10, 3));
    assert_eq!(answer("kind a b c\n1 0 0 0\n"), (10, 3));
    let steps = "kind a b c\n1 0 0 0\nrule left right first second\n2 0 0 0 0\n";
    assert_eq!(answer(steps), (0, 1));
    assert_eq!(answer(&format!("{steps}7 0 0 0 0\n")), (6, 5));
    assert_eq!(answer(&format!("{steps}2 0 0 0\n")), (10, 5));
    assert_eq!(answer(&format!("{steps}2 0 0 0 0 0\n")), (10, 5));
    assert_eq!(answer(&format!("{steps}rule left right first second\n")), (10, 5));
    assert_eq!(answer(&format!("{steps}2 0 0 0 0")), (10, 5));
    assert_eq!(answer(&format!("{steps}\n")), (10, 5));
    let (_, book) = read(format!("{steps}60 0 0 0 0\n").as_bytes());
    assert!(book.steps.is_empty());
    assert_eq!(audit(&vec![b'0'; MOST_BYTES + 1]), "answer line steps left right\n10 0 0 0 0\n");
    assert_eq!(audit(&vec![b'0'; MOST_BYTES]), "answer line steps left right\n10 1 0 0 0\n");
}

/// Mistakes of other tables, each as a step that its rule doesn't yield.
#[test]
fn write_gives_the_bundle_back() {
    let calls = "term 2 1 0 2\nterm 2 3 1 0\nstep 8 0 1 0 0\n";
    let length = EXAMPLE.len();
    for room in [length, length + 1, MOST_BYTES] {
        let printed = format!("0 0\n0 1\n0 1\n0 {length}\n{EXAMPLE}");
        assert_eq!(replay(format!("{calls}write {room}\n").as_bytes()), printed);
    }
    for room in [0, length - 1] {
        assert_eq!(last(&format!("{calls}write {room}\n")), format!("16 {length}"));
    }
    assert_eq!(last(&format!("write {}\n", MOST_BYTES + 1)), "10 1");
}

#[test]
fn write_leaves_other_bytes() {
    let (_, book) = read(EXAMPLE.as_bytes());
    let length = EXAMPLE.len();
    let mut out = vec![7; length + 2];
    assert_eq!(write(&book, &mut out), (0, length as u64));
    assert_eq!(out, [EXAMPLE.as_bytes(), &[7, 7]].concat());
    let mut short = vec![7; length - 1];
    assert_eq!(write(&book, &mut short), (16, length as u64));
    assert_eq!(short, vec![7; length - 1]);
}

#[test]
fn mistakes_ruled_out() {
    // 25 from "not f => g": p[true and true] <= V
    let g2b = "term 1 0 0 0\nterm 6 0 0 0\nterm 7 0 0 0\nterm 8 1 0 0\nterm 9 1 1 0\nterm 5 0 4 0\nterm 0 0 0 0\n\
               step 14 3 1 0 0\nstep 25 5 6 1 0\n";
    assert_eq!(last(g2b), "7 0");
    // p in (q|r) => (p in q) or (p in r)
    let r3r = "term 2 1 1 0\nterm 2 3 1 0\nterm 1 0 0 0\nterm 3 1 2 0\nterm 11 0 3 0\nterm 11 0 1 0\nterm 11 0 2 0\n\
               term 10 5 6 0\nstep 46 4 7 0 0\n";
    assert_eq!(last(r3r), "7 0");
    // 51 from right to left
    let rewriting =
        "term 2 3 1 0\nterm 6 0 0 0\nterm 5 0 1 0\nterm 2 1 2 0\nterm 4 2 3 0\nterm 2 3 2 0\nterm 2 2 1 0\n\
                     term 5 6 1 0\nterm 0 0 0 0\nterm 11 7 8 0\nterm 8 9 0 0\nterm 5 5 10 0\n";
    assert_eq!(last(&format!("{rewriting}step 51 4 11 0 0\n")), "0 1");
    assert_eq!(last(&format!("{rewriting}step 51 11 4 0 0\n")), "7 0");
    // 54 with `*` for node()
    let following = |test: u16| {
        format!(
            "term 2 9 2 0\nterm 2 6 {test} 0\nterm 2 7 {test} 0\nterm 4 1 2 0\nterm 2 5 2 0\nterm 4 3 4 0\nstep 54 5 0 0 0\n"
        )
    };
    assert_eq!(last(&following(2)), "0 1");
    assert_eq!(last(&following(1)), "7 0");
}

#[test]
fn lists_replaced() {
    // child::1 <= child::*, child::* <= child::*, true implies true
    let held = "term 2 1 0 1\nterm 2 1 1 0\nterm 6 0 0 0\nstep 8 0 1 0 0\nstep 2 1 1 0 0\nstep 2 2 2 0 0\n";
    assert_eq!(last(held), "0 3");
    let answer = |old: &str, new: &str, steps: &str| last(&format!("{held}old{old}\nnew{new}\nreplace{steps}\n"));
    let many = |word: &str, count: usize| format!(" {word}").repeat(count);
    assert_eq!(answer("", "", ""), "0 0");
    assert_eq!(answer("", " 1", ""), "0 0");
    assert_eq!(answer(" 0 1 0", " 9 2 1", " 1 2 1"), "0 0");
    assert_eq!(answer(&many("0", 64), &many("1", 64), &many("1", 64)), "0 0");
    assert_eq!(answer(&many("0", 65), " 1", &many("1", 65)), "25 0");
    assert_eq!(answer("", &many("1", 65), ""), "25 0");
    assert_eq!(answer(&many("0", 64), " 1", &many("1", 65)), "25 0");
    assert_eq!(answer(" 0", " 1", " 9 9"), "25 0");
    assert_eq!(answer(" 0", " 1", ""), "25 0");
    for (old, new) in [(" 0", " 0 2"), (" 0", ""), (" 1", " 0"), (" 1", " 1")] {
        assert_eq!(answer(old, new, " 1"), "26 1");
    }
    for step in [" 0", " 2", " 3", " 4"] {
        assert_eq!(answer(" 0", " 1", step), "26 1");
    }
    assert_eq!(answer(" 2", " 2", " 3"), "26 1");
    assert_eq!(answer(" 0 0 0", " 1", " 1 1 2"), "26 3");
    assert_eq!(last("old 0\nold\nreplace\n"), "0 0");
    assert_eq!(last(&format!("old{}\n", many("0", 101))), "10 1");
}

/// The files of the tally tests: the example, the same with a second step that isn't yielded, and a text too long.
fn tally_files(name: &str) -> String {
    let directory = std::env::temp_dir().join(format!("reference-{}-{name}", std::process::id()));
    std::fs::create_dir_all(&directory).unwrap();
    let place = directory.to_str().unwrap().to_string();
    std::fs::write(format!("{place}/one"), EXAMPLE).unwrap();
    std::fs::write(format!("{place}/refused"), format!("{EXAMPLE}8 1 0 0 0\n")).unwrap();
    std::fs::write(format!("{place}/long"), "x".repeat(65537)).unwrap();
    place
}

#[test]
fn tally_counts_accepted_bundles() {
    let place = tally_files("counts");
    let counted = |uses: u32| {
        let lines: String = (1..=59).map(|rule| format!("{rule} {}\n", if rule == 8 { uses } else { 0 })).collect();
        format!("rule uses\n{lines}0 {uses}\n")
    };
    let one = format!("{place}/one\n");
    assert_eq!(tally(b""), counted(0));
    assert_eq!(tally(one.trim_end().as_bytes()), counted(1));
    assert_eq!(tally(one.repeat(64).as_bytes()), counted(64));
    let others = format!("{one}{place}/refused\n{place}/long\n{place}\n{one}");
    assert_eq!(tally(others.as_bytes()), counted(2));
}

#[test]
fn tally_refuses_the_first_bad_line() {
    let place = tally_files("refuses");
    let one = format!("{place}/one\n");
    let missing = format!("{place}/missing\n");
    assert_eq!(tally(one.repeat(65).as_bytes()), "17 65\n");
    assert_eq!(tally(format!("{one}{missing}{}", one.repeat(64)).as_bytes()), "17 2\n");
    assert_eq!(tally(format!("{one}\n").as_bytes()), "17 2\n");
    assert_eq!(tally(format!("{one}{place}/one\0b\n").as_bytes()), "17 2\n");
    assert_eq!(tally(format!("{}\n", "x".repeat(5000)).as_bytes()), "17 1\n");
}

#[test]
fn points_and_returns() {
    let calls = "term 1 0 0 0\npoint 0\npoint 7\npoint 7\nterm 6 0 0 0\nstep 2 0 0 0 0\npoint 8\nreturn 9\nreturn 7\n\
                 return 8\nterm 6 0 0 0\nstep 2 0 0 0 0\nstep 2 0 0 0 0\nreturn 7\nstep 2 1 1 0 0\n";
    let answers = [
        "0 0", "20 0", "0 0", "20 7", "0 1", "0 1", "0 0", "20 9", "0 0", "20 8", "0 1", "0 1", "0 2", "0 0", "5 1",
    ];
    assert_eq!(replayed(calls), answers);
}

#[test]
fn eight_points() {
    let mut calls: String = (1..=9).map(|name| format!("point {name}\n")).collect();
    calls += "point 0\npoint 8\nreturn 7\npoint 9\npoint 10\n";
    let answers = replayed(&calls);
    assert_eq!(answers[7..], ["0 0", "21 0", "20 0", "20 8", "0 0", "0 0", "21 0"]);
}

/// child::1, child::*, child::node(), true; row 0 in row 1, row 1 in row 2, true in true.
const PATHS: &str = "term 2 1 0 1\nterm 2 1 1 0\nterm 2 1 2 0\nterm 6 0 0 0\nstep 8 0 1 0 0\nstep 8 1 2 0 0\n\
                     step 2 3 3 0 0\n";

#[test]
fn editions_of_series() {
    let calls = "current 7\nrecord 7 2 0 0\nrecord 7 0 0 0\nrecord 7 1 3 0\nrecord 7 1 9 0\nrecord 7 1 0 1\n\
                 record 7 1 0 0\ncurrent 7\nrecord 7 1 0 0\nrecord 7 3 1 1\nrecord 7 2 1 0\nrecord 7 2 2 2\n\
                 record 7 2 0 1\nrecord 7 2 1 4\nrecord 7 2 3 3\nrecord 7 2 1 1\nrecord 9 1 0 0\n\
                 record 7 3 2 2\ncurrent 7\ncurrent 9\ncurrent 8\n";
    let answers = [
        "0 0", "22 1", "22 1", "23 1", "23 1", "23 2", "0 0", "0 1", "22 2", "22 2", "23 2", "23 2", "23 2", "23 2",
        "23 1", "0 0", "0 0", "0 0", "0 3", "0 1", "0 0",
    ];
    assert_eq!(replayed(&format!("{PATHS}{calls}"))[7..], answers);
}

#[test]
fn rows_and_steps_in_use() {
    let calls = "point 1\nterm 2 1 0 1\npoint 2\nterm 2 1 1 0\npoint 3\nstep 8 0 1 0 0\npoint 4\nrecord 7 1 0 0\n\
                 return 9\nreturn 1\nrecord 7 2 1 1\nreturn 3\nreturn 2\nreturn 4\nterm 1 0 0 0\nreturn 4\n\
                 current 7\n";
    let answers = ["0 0", "20 9", "24 0", "0 0", "24 0", "24 0", "0 0", "0 2", "0 0", "0 2"];
    assert_eq!(replayed(calls)[7..], answers);
}

#[test]
fn most_records() {
    let mut calls = PATHS.to_string();
    calls.extend((1..=257).map(|series| format!("record {series} 1 0 0\n")));
    calls += "record 300 2 0 0\nrecord 300 1 3 0\nrecord 300 1 0 1\nrecord 5 2 1 1\ncurrent 256\ncurrent 257\n";
    let answers = ["0 0", "24 0", "22 1", "23 1", "23 2", "24 0", "0 1", "0 0"];
    assert_eq!(replayed(&calls)[7 + 255..], answers);
}

#[test]
fn office_and_crew() {
    let calls = "records\nreleased\nrelease 1\nrecord 7 1 0 0\nrecord 9 1 0 0\nrecord 7 2 1 1\nreleased\n\
                 release 0\nrelease 4\nrelease 3\nreleased\ncrew-current 7\ncrew-current 9\nrecord 7 3 2 2\n\
                 crew-current 7\ncurrent 7\nrelease 1\nrelease 1\nreleased\nrecords\n";
    let answers = [
        "0 0", "0 0", "27 1", "0 0", "0 0", "0 0", "0 0", "27 0", "27 4", "0 0", "0 1 7 2 1 1", "0 2", "0 0", "0 0",
        "0 2", "0 3", "0 0", "0 0", "0 2 7 1 0 0 7 2 1 1", "0 4 7 1 0 0 9 1 0 0 7 2 1 1 7 3 2 2",
    ];
    assert_eq!(replayed(&format!("{PATHS}{calls}"))[7..], answers);
}

#[test]
fn written_after_a_return() {
    let calls = "term 1 0 0 0\npoint 7\nterm 6 0 0 0\nstep 2 0 0 0 0\nreturn 7\nwrite 100\n";
    let answers = ["0 0", "0 0", "0 1", "0 1", "0 0", "0 48", "kind a b c", "1 0 0 0", "rule left right first second"];
    assert_eq!(replayed(calls), answers);
}

/// Rows of two sessions; left: child::1, child::2, their unions both ways, true. Right: the same in another order.
const TWO_SESSIONS: &str = "term 2 1 0 1\nterm 2 1 0 2\nterm 3 0 1 0\nterm 3 1 0 0\nterm 6 0 0 0\nother\n\
    term 6 0 0 0\nterm 2 1 0 2\nterm 2 1 0 1\nterm 3 1 2 0\nterm 3 2 1 0\n";

#[test]
fn orders_across_sessions() {
    let cases = [
        ("0 2", "0 1"),
        ("2 4", "0 1"),
        ("3 3", "0 1"),
        ("2 3", "0 0"),
        ("3 4", "0 2"),
        ("0 1", "0 0"),
        ("4 4", "0 2"),
        ("4 0", "0 1"),
        ("5 0", "5 1"),
        ("0 5", "5 2"),
        ("5 5", "5 1"),
    ];
    for (rows, answer) in cases {
        assert_eq!(last(&format!("{TWO_SESSIONS}order {rows}\n")), answer, "{rows}");
    }
    assert_eq!(replayed("order 0 0\nbundle-order\nterm 1 0 0 0\norder 0 0\n"), ["5 1", "0 1", "0 0", "5 1"]);
}

#[test]
fn orders_of_bundles() {
    let cases = [
        ("", "", "0 1"),
        ("", "step 2 0 0 0 0\n", "0 0"),
        ("step 2 0 0 0 0\n", "", "0 2"),
        ("step 2 0 0 0 0\n", "step 2 0 0 0 0\n", "0 1"),
        ("step 2 0 0 0 0\n", "step 2 0 0 0 0\nstep 2 0 0 0 0\n", "0 0"),
        ("step 2 1 1 0 0\n", "step 2 0 0 0 0\nstep 2 1 1 0 0\n", "0 2"),
        ("step 2 1 1 0 0\n", "step 8 0 1 0 0\n", "0 0"),
        ("step 2 0 0 0 0\nstep 2 0 0 0 0\nstep 3 0 0 1 1\n", "step 2 0 0 0 0\nstep 2 0 0 0 0\nstep 3 0 0 2 1\n", "0 1"),
    ];
    for (left, right, answer) in cases {
        let terms = "term 2 1 0 1\nterm 2 1 1 0\n";
        let calls = format!("{terms}{left}other\n{terms}{right}bundle-order\n");
        assert_eq!(last(&calls), answer, "{left}, {right}");
    }
}

#[test]
fn terms_with_many_leaves_are_ordered() {
    let rows: String = (0..31).map(|row| format!("term 4 {row} {row} 0\n")).collect();
    let calls = format!("term 2 1 0 1\n{rows}other\nterm 2 1 0 1\n{rows}");
    assert_eq!(last(&format!("{calls}order 31 31\n")), "0 1");
    assert_eq!(last(&format!("{calls}order 31 30\n")), "0 2");
}

/// The number and value of a text's answer on a fresh book, where every name is listed that the texts below use.
fn text(selector: &[u8]) -> (u16, u64) {
    let names = "a b c d e x b-c x-1.y a-b _x and or not true false child text node div comment tru self parent attribute";
    let list = format!("{}\na..\nprocessing-instruction", names.replace(' ', "\n"));
    Book::default().text(list.as_bytes(), selector)
}

#[test]
fn texts_of_the_grammar() {
    let texts = [
        "a", "/", "//a", "/ a", "a//b", " a ", "child::a", "child :: a", "child", "@a", "@*", "@ node ( )",
        "attribute::a", ".", "..", "./a", "a..", "a/..", ".//a", "text()", "text ( )", "text", "node", "div",
        "and", "comment()[a]", "processing-instruction()", "a[b]", "a[not(b)]", "a[not (b)]", "a[not]",
        "a[not and not]", "a[not(tru)]", "a[true()]", "a[true]", "a[true() and false()]", "a[and and and]",
        "a[b or c]", "a[*and*]", "a[b and(c)]", "a[b and .]", "a[.and b]", "a[b[c]and d]", "a[/]", "a[/ and/b]",
        "a[/|b]", "a[/ | b and c]", "a[(b)]", "a[(b|c) and d]", "a[child::text()]", "a|b", "a|b|/", "*", "*/*",
        "a-b", "_x", "self::node()[self::text()]", "following-sibling::b/preceding::*",
        "descendant-or-self::node()/a", "a[.or b]", "a[*or*]", "a[(b)or(c)]", "a[/ or and b]", "a[or or or]",
        "not/true", "text/node", "a[not/true]", "a[text]", "true", "false | not", "a[false ( )]",
        "a[true ( )or b]", "child::child", "@attribute", "a[@b]", "a[..]", "a[../b]", "a[not(not(b))]", "a[b][c]",
        "a[ ( b ) ]", "/*", "/.", "//.", "//@a", "/ | /", "a[/][b]", "a [ b ] / c", "self :: node ( )", "@ a",
        "a / b", "a // b", "a | b", "a[not ( b )]", "a[b and or]", "a[b or and]", "a[b and c and d or e]",
        "processing-instruction", "processing-instruction(\"x\")", "processing-instruction('x')",
        "processing-instruction ( 'x-1.y' )", "a[processing-instruction('x')]", "processing-instruction('x')[a]",
        "self::processing-instruction('and')", "@processing-instruction('x')",
    ];
    for selector in texts {
        assert_eq!(text(selector.as_bytes()).0, 0, "{selector}");
    }
}

#[test]
fn texts_outside_the_grammar() {
    let texts = [
        ("//", 2), ("/ /a", 2), ("a///b", 3), ("a/", 2), ("", 0), ("  ", 2), ("chold::a", 5), ("child: :a", 6),
        ("child:a", 6), ("a:b", 1), ("child::", 7), ("chold ::a", 6), ("@@a", 1), ("@.", 1), ("namespace::a", 9),
        ("...", 2), (". .", 2), (".[a]", 1), ("..[a]", 2), (".5", 1), (".a", 1), ("text(a)", 5), ("node::a", 4),
        ("a and b", 2), ("not(a)", 3), ("true()", 4), ("(a)", 0), ("a[not(tru())]", 9), ("a[true(]", 7),
        ("a[b and]", 7), ("a[b andc]", 7), ("a[b an c]", 6), ("a[b o c]", 5), ("a[and (c)]", 6), ("a[b and.]", 7),
        ("a[b]and c", 4), ("a[/ and b]", 8), ("a[b|/ or c]", 9), ("a[(b)/c]", 5), ("a[(b)|c]", 5),
        ("a[(b)[c]]", 5), ("a[b|(c)]", 4), ("a[b|not(c)]", 7), ("a[not(b)|c]", 8), ("a[/not(b)]", 6),
        ("a[child::not(b)]", 12), ("a|", 2), ("a||b", 2), ("a]", 1), ("a[b", 3), ("a[]", 2), ("a[1]", 2),
        ("a=\"x\"", 1), ("a b", 2), ("$x", 0), ("**", 1), ("a*", 1), ("a[b*c]", 3), ("a[b -c]", 4), ("-a", 0),
        ("1a", 0), ("a[not(", 6), ("a[not()]", 6), ("a[b orb]", 6), ("a[.or.]", 5), ("a[/ or b]", 7), ("foo:b", 3),
        ("child:b", 6), ("/[a]", 1), ("///a", 2), ("processing-instruction::a", 22), ("a[count(b)]", 7),
        ("last()", 4), ("a[position()]", 10), ("a[b=c]", 3), ("a[b<c]", 3), ("a[b!=c]", 3), ("a[b+c]", 3),
        ("a['x']", 2), ("a[\"x\"]", 2), ("a[$b]", 2), ("id('x')", 2), ("a/(b)", 2), ("a[b]]", 4), ("a(b)", 1),
        ("//a:b", 3), ("a:*", 1), ("..a", 2), ("...a", 2), ("@a:b", 2), ("a[b div c]", 4), ("a[b mod c]", 4),
        ("a[text(]", 7), ("a[.]b", 4), ("a/.[b]", 3), ("a/..[b]", 4), ("a[not b]", 6), ("a[true]()", 7),
        ("a[true()()]", 8), ("a[true()/b]", 8), ("a[not(b)/c]", 8), ("a[true ()c]", 9), ("a[(b)c]", 5),
        ("comment(a)", 8), ("node('x')", 5), ("text(\"x\")", 5), ("processing-instruction(x)", 23),
        ("processing-instruction('')", 24), ("processing-instruction('x\")", 25),
        ("processing-instruction(' x')", 24), ("processing-instruction('x ')", 25),
        ("processing-instruction('1')", 24), ("processing-instruction('x''y')", 26),
        ("processing-instruction('x'", 26), ("processing-instruction('x", 25), ("processing-instruction(' ", 24),
        ("processing-instruction('a:b')", 25), ("processing-instruction('x')(", 27), ("comment('x')", 8),
    ];
    for (selector, place) in texts {
        assert_eq!(text(selector.as_bytes()), (18, place), "{selector}");
    }
}

#[test]
fn levels_of_texts() {
    let nested = |open: &str, n: usize, shut: &str| format!("a{}{}", open.repeat(n), shut.repeat(n));
    assert_eq!(text(nested("[b", 33, "]").as_bytes()), (18, 65));
    assert_ne!(text(nested("[b", 32, "]").as_bytes()).0, 18);
    assert_eq!(text(format!("a[{}b{}]", "(".repeat(31), ")".repeat(31)).as_bytes()).0, 0);
    assert_eq!(text(format!("a[{}b{}]", "(".repeat(32), ")".repeat(32)).as_bytes()), (18, 33));
    assert_eq!(text(format!("a[{}b", "not(".repeat(32)).as_bytes()), (18, 129));
    assert_eq!(text(b"a\t[\nb\r]").0, 0);
    assert_eq!(text(b"a\0"), (18, 1));
    assert_eq!(text(&[195, 169]), (18, 0));
}

#[test]
fn rows_of_texts() {
    let answers = replayed("names a b\ntext a\ntext a/b\ntext b/a/c\ntext b/a/\nterm 2 1 0 2\nterm 3 1 0 0\ntext b|a\nnames a\ntext b\n");
    assert_eq!(answers, ["0 0", "0 2", "19 4", "18 4", "12 1", "0 3", "0 3", "19 0"]);
    let some = replayed("names a b\ntext a[b]\nterm 5 0 4 0\nterm 8 3 0 0\nterm 11 1 2 0\nterm 0 0 0 0\n");
    assert_eq!(some, ["0 5", "12 5", "12 4", "12 3", "12 2"]);
    assert_eq!(last("names a\ntext processing-instruction('x')\n"), "19 24");
    let chain = |n: usize| format!("names a\ntext {}a\n", "a/".repeat(n));
    assert_eq!(last(&chain(31)), "0 31");
    assert_eq!(last(&chain(32)), "3 0");
    let full: String = (1..=1024).map(|n| format!("term 2 0 0 {n}\n")).collect();
    assert_eq!(last(&format!("{full}names a\ntext a\n")), "11 0");
    assert_eq!(last(&format!("{full}names a\ntext self::a\n")), "0 0");
    assert_eq!(last("text\n"), "18 0");
    assert_eq!(last("text a\n"), "19 0");
}

#[test]
fn rows_of_ways_back() {
    let path = "term 2 1 0 3\nterm 2 3 0 2\nterm 4 0 1 0\n";
    let answers = replayed(&format!("{path}way-back 2\nway-back 2\nterm 4 5 8 0\nway-back 3\nway-back 99\n"));
    assert_eq!(answers[3..], ["0 9", "0 9", "12 9", "0 11", "5 1"]);
    let none = replayed("term 7 0 0 0\nterm 1 0 0 0\nterm 2 9 2 0\nway-back 0\nway-back 1\nway-back 2\n");
    assert_eq!(none[3..], ["5 1", "7 0", "7 0"]);
    let deep = |n: usize| {
        let unions: String = (0..n).map(|i| format!("term 3 {i} {i} 0\n")).collect();
        last(&format!("term 2 1 0 1\n{unions}way-back {n}\n"))
    };
    assert_eq!(deep(30), "0 63");
    assert_eq!(deep(31), "3 0");
    let full: String = (1..=1022).map(|n| format!("term 2 1 0 {n}\n")).collect();
    assert_eq!(last(&format!("{full}way-back 0\n")), "11 0");
}
