//! The register: records of editions above a book. A return drops no row and no step that a record has. The office
//! sees all records, a crew the released ones.

use crate::book::Book;
use crate::Answer;
use std::collections::BTreeSet;

pub const MOST_RECORDS: usize = 256;

/// `series edition row step`
pub type Record = [u16; 4];

#[derive(Default)]
pub struct Register {
    pub book: Book,
    records: Vec<Record>,
    /// The places, from 0, of the records that are released.
    released: BTreeSet<usize>,
}

impl Register {
    pub fn record(&mut self, record: Record) -> Answer {
        let [series, edition, row, step] = record;
        let last = self.last(series);
        let due = last.map_or(0, |[_, edition, ..]| edition as u64) + 1;
        if edition as u64 != due {
            return (22, due);
        }
        if !self.book.is_held_path(row) {
            return (23, 1);
        }
        let is_fit = match last {
            None => step == 0,
            Some([_, _, previous, _]) => {
                self.book.held_step(step).is_some_and(|[_, l, r, ..]| (l, r) == (previous, row))
            }
        };
        if !is_fit {
            return (23, 2);
        }
        if self.records.len() == MOST_RECORDS {
            return (24, 0);
        }
        self.records.push(record);
        (0, 0)
    }

    /// The current edition of a series, 0 if it has none.
    pub fn current(&self, series: u16) -> Answer {
        (0, self.last(series).map_or(0, |[_, edition, ..]| edition as u64))
    }

    pub fn return_to(&mut self, name: u16) -> Answer {
        if let Some((rows, steps)) = self.book.held_at(name) {
            let is_kept = |&[_, _, row, step]: &Record| (row as usize) < rows && step as usize <= steps;
            if !self.records.iter().all(is_kept) {
                return (24, 0);
            }
        }
        self.book.return_to(name)
    }

    /// Releases the record at a place, which counts from 1.
    pub fn release(&mut self, place: u16) -> Answer {
        match (place as usize).checked_sub(1).filter(|&at| at < self.records.len()) {
            Some(at) => {
                self.released.insert(at);
                (0, 0)
            }
            None => (27, place as u64),
        }
    }

    /// All records, in the order of recording.
    pub fn listing(&self) -> Vec<Record> {
        self.records.clone()
    }

    /// The released ones, in that order.
    pub fn crew_listing(&self) -> Vec<Record> {
        self.released.iter().map(|&at| self.records[at]).collect()
    }

    /// The highest released edition of a series, 0 if none.
    pub fn crew_current(&self, series: u16) -> Answer {
        (0, highest(&self.crew_listing(), series).map_or(0, |[_, edition, ..]| edition as u64))
    }

    fn last(&self, series: u16) -> Option<Record> {
        highest(&self.records, series)
    }
}

/// The record of the highest edition of a series.
fn highest(records: &[Record], series: u16) -> Option<Record> {
    records.iter().copied().filter(|record| record[0] == series).max_by_key(|record| record[1])
}
