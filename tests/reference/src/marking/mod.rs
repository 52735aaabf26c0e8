//! Marking: a second one, the cases that both are run on, and what the program `mark_cases` takes and prints.

pub mod cases;
pub mod generate;
pub mod report;
mod second;

use std::collections::BTreeSet;

/// What is given to marking: the words lent, how many rows they are said to be, and the page's length.
#[derive(Clone, Debug, Default)]
pub struct Given {
    pub words: Vec<u16>,
    pub rows: u64,
    pub page: usize,
}

/// What marking answers: number, place, the locks of K and the kept rows.
#[derive(Clone, Debug, Default, PartialEq)]
pub struct Answer {
    pub number: u16,
    pub place: u64,
    pub locks: BTreeSet<usize>,
    pub kept: BTreeSet<usize>,
}

#[derive(Clone, Debug, Default)]
pub struct Case {
    pub name: String,
    pub given: Given,
    pub brief: bool,
    pub answer: Answer,
}

/// A row as docs/RULES.md lays it out, with H in the order given.
pub fn row_words(thread: u16, wanted: u16, held: &[u16], first: u16, times: u16) -> Vec<u16> {
    let mut words = vec![thread, wanted, held.len() as u16];
    words.extend(held);
    words.resize(10, 65535);
    words.extend([first, times]);
    words
}
