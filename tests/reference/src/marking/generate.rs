//! Generated tables: small ones, large ones, and both with damage.

use super::{row_words, Case, Given};
use crate::dice::Dice;
use std::collections::BTreeSet;

/// `mark_cases` takes no more words.
const LONGEST: usize = 13_000;

type Triple = (u16, u16, BTreeSet<u16>);

/// Numbers below `end`, all different: mostly the lowest or the highest, else any.
fn names(dice: &mut Dice, count: usize, end: usize) -> Vec<u16> {
    let mut names: Vec<u16> = match dice.below(4) {
        0 => (end - count..end).map(|m| m as u16).collect(),
        1 | 2 => (0..count).map(|m| m as u16).collect(),
        _ => {
            let mut all: Vec<u16> = (0..end).map(|m| m as u16).collect();
            (0..count).map(|_| all.swap_remove(dice.below(all.len()))).collect()
        }
    };
    for i in (1..count).rev() {
        names.swap(i, dice.below(i + 1));
    }
    names
}

/// Rows over few locks and threads. Some want what an earlier row holds, and hold what it wants, so that many sets are tied.
fn small(dice: &mut Dice) -> Vec<Triple> {
    let count = 2 + dice.below(5);
    let locks = names(dice, count, 256);
    let count = dice.pick(&[1, 2, 2, 3, 3, 4]);
    let threads = names(dice, count, 32);
    let widest = 1 + dice.below(3);
    let mut rows: Vec<Triple> = vec![];
    for _ in 0..1 + dice.below(8) {
        let mut wanted = dice.pick(&locks);
        let mut held: BTreeSet<u16> = (0..1 + dice.below(widest)).map(|_| dice.pick(&locks)).collect();
        if !rows.is_empty() && dice.one_in(3) {
            let earlier = &rows[dice.below(rows.len())];
            wanted = *earlier.2.first().unwrap_or(&wanted);
            held.insert(earlier.1);
        }
        held.remove(&wanted);
        let row = (dice.pick(&threads), wanted, held);
        if !row.2.is_empty() && !rows.contains(&row) {
            rows.push(row);
        }
    }
    rows
}

/// Rows along an order of the locks, and some that lead back: the more of these, the larger K.
fn large(dice: &mut Dice) -> Vec<Triple> {
    let count = dice.pick(&[8, 20, 60, 150, 256]);
    let locks = names(dice, count, 256);
    let count = 1 + dice.below(32);
    let threads = names(dice, count, 32);
    let back = dice.pick(&[5, 20, 100, 400, 5000]);
    let near = 1 + dice.below(4);
    let widest = dice.pick(&[1, 1, 2, 3, 7]);
    let most = dice.pick(&[100, 300, 1000, 1024]);
    let mut known = BTreeSet::new();
    let mut rows = vec![];
    for _ in 0..most * 2 {
        let mut at = [dice.below(locks.len()), 0];
        at[1] = (at[0] + 1 + dice.below(near)).min(locks.len() - 1);
        if dice.one_in(back) {
            at.swap(0, 1);
        }
        let mut held: BTreeSet<u16> = (1..=dice.below(widest)).map(|k| locks[at[0].saturating_sub(k)]).collect();
        held.insert(locks[at[0]]);
        held.remove(&locks[at[1]]);
        let row = (dice.pick(&threads), locks[at[1]], held);
        if !row.2.is_empty() && rows.len() < most && known.insert(row.clone()) {
            rows.push(row);
        }
    }
    rows
}

fn words(dice: &mut Dice, row: &Triple) -> Vec<u16> {
    let held: Vec<u16> = row.2.iter().copied().collect();
    row_words(row.0, row.1, &held, dice.below(65536) as u16, dice.below(65536) as u16)
}

/// One word changed, a row repeated, a count or a length off by one.
fn damage(dice: &mut Dice, given: &mut Given) {
    let rows = given.words.len() / 12;
    match dice.below(8) {
        0 => given.rows += 1,
        1 => given.rows = given.rows.saturating_sub(1),
        2 => given.rows = dice.pick(&[1025, 65536, 65537, 1 << 32, 1 << 63, u64::MAX, u64::MAX / 12 + 1]),
        3 => drop(given.words.pop()),
        4 if rows > 0 => {
            let (from, to) = (dice.below(rows) * 12, dice.below(rows + 1) * 12);
            let mut row = given.words[from..from + 12].to_vec();
            row[10] ^= 1;
            given.words.splice(to..to, row);
            given.rows += 1;
        }
        _ if rows > 0 => {
            let at = dice.below(rows) * 12 + dice.below(12);
            given.words[at] = match dice.below(4) {
                0 => dice.pick(&[0, 1, 7, 8, 31, 32, 255, 256, 65534, 65535]),
                1 => given.words[at].wrapping_add(1),
                2 => given.words[at].wrapping_sub(1),
                _ => dice.below(65536) as u16,
            };
        }
        _ => {}
    }
}

fn one(dice: &mut Dice) -> Case {
    let triples = if dice.one_in(100) { large(dice) } else { small(dice) };
    let mut given = Given { words: triples.iter().flat_map(|row| words(dice, row)).collect(), rows: triples.len() as u64, page: 1280 };
    if dice.one_in(4) {
        damage(dice, &mut given);
    }
    if dice.one_in(4) {
        let more = dice.below(30);
        given.words.extend((0..more).map(|_| dice.below(65536) as u16));
    }
    given.words.truncate(LONGEST);
    given.page = if dice.one_in(30) { dice.pick(&[0, 1, 256, 1279]) } else { dice.pick(&[1280, 1281, 2000, 2100]) };
    Case { given, brief: true, ..Case::default() }
}

pub fn cases(seed: u64, count: usize) -> Vec<Case> {
    let mut dice = Dice::new(seed);
    (0..count).map(|_| one(&mut dice)).collect()
}
