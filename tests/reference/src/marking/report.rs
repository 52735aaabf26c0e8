//! Cases as `mark_cases` takes them (zeros at a table's end are not sent), and answers as it prints them.

use super::second::{mark, sort};
use super::{Answer, Case};
use std::collections::{BTreeMap, BTreeSet};

pub fn input(cases: &[Case]) -> Vec<u8> {
    let mut out = vec![];
    for c in cases {
        let words = &c.given.words;
        let sent = words.iter().rposition(|w| *w != 0).map_or(0, |last| last + 1);
        out.extend((words.len() as u32).to_le_bytes());
        out.extend((sent as u32).to_le_bytes());
        out.extend(c.given.rows.to_le_bytes());
        out.extend((c.given.page as u32).to_le_bytes());
        out.extend(u32::from(!c.brief).to_le_bytes());
        out.extend(words[..sent].iter().flat_map(|w| w.to_le_bytes()));
    }
    out
}

fn marks(brief: bool, numbers: &BTreeSet<usize>, end: usize) -> String {
    if brief {
        let sum = (0..end).fold(7, |sum: u64, i| (sum * 31 + u64::from(numbers.contains(&i))) % 4_294_967_291);
        return format!(" {} sum {sum}", numbers.len());
    }
    numbers.iter().map(|n| format!(" {n}")).collect()
}

fn line(brief: bool, a: &Answer) -> String {
    let mut text = format!("mark {} {}", a.number, a.place);
    if a.number == 0 {
        text += &format!(" locks{} rows{} odd none", marks(brief, &a.locks, 256), marks(brief, &a.kept, 1024));
    }
    text + " changed none\n"
}

/// The answers that the file of cases has, by hand.
pub fn stored(cases: &[Case]) -> Vec<u8> {
    cases.iter().map(|c| line(c.brief, &c.answer)).collect::<String>().into_bytes()
}

pub fn second(cases: &[Case]) -> Vec<u8> {
    cases.iter().map(|c| line(c.brief, &mark(&c.given))).collect::<String>().into_bytes()
}

/// How many cases there are of each sort, and how many of those that pass have more than ten rows.
pub fn sorts(cases: &[Case]) -> Vec<u8> {
    let mut counts = BTreeMap::new();
    for c in cases {
        *counts.entry(sort(&c.given)).or_insert(0) += 1;
    }
    let parts: Vec<String> = counts.iter().map(|(sort, n)| format!("{n} {sort}")).collect();
    let large = cases.iter().filter(|c| c.given.rows > 10 && mark(&c.given).number == 0).map(|c| c.given.rows);
    let most = large.clone().max().unwrap_or(0);
    format!("{}; {} of more than 10 rows, the largest of {most}\n", parts.join(", "), large.count()).into_bytes()
}
