//! The second marking. Where few locks are named, K is the union of all tied sets, found by trying every set. Otherwise locks are dropped in
//! rounds, and a round looks at the sets of threads that ask for a lock and that hold it.

use super::{Answer, Given};
use std::collections::BTreeSet;

/// How many named locks there may be for every set to be tried.
const FEW: usize = 10;

#[derive(Clone, Debug, PartialEq, Eq, PartialOrd, Ord)]
struct Triple {
    thread: usize,
    wanted: usize,
    held: BTreeSet<usize>,
}

/// The row's triple, if its words are those of a row.
fn triple(words: &[u16]) -> Option<Triple> {
    let thread = usize::from(words[0]);
    let wanted = usize::from(words[1]);
    let (used, unused) = words[3..10].split_at_checked(words[2].into())?;
    let held: BTreeSet<usize> = used.iter().map(|m| usize::from(*m)).collect();
    let in_order = held.iter().copied().eq(used.iter().map(|m| usize::from(*m)));
    let below = |n: usize, end: usize| (0..end).contains(&n);
    let lawful = below(thread, 32)
        && below(wanted, 256)
        && !used.is_empty()
        && held.iter().all(|m| below(*m, 256))
        && in_order
        && unused.iter().all(|m| *m == u16::MAX)
        && !held.contains(&wanted);
    lawful.then_some(Triple { thread, wanted, held })
}

/// The triples of a table that is well formed.
fn triples(given: &Given) -> Option<Vec<Triple>> {
    let needed = u128::from(given.rows) * 12;
    if given.rows > 1024 || (given.words.len() as u128) < needed {
        return None;
    }
    let rows: Option<Vec<Triple>> = given.words[..needed as usize].chunks(12).map(triple).collect();
    let rows = rows?;
    let different: BTreeSet<&Triple> = rows.iter().collect();
    (different.len() == rows.len()).then_some(rows)
}

fn named(rows: &[Triple]) -> BTreeSet<usize> {
    rows.iter().flat_map(|r| r.held.iter().copied().chain([r.wanted])).collect()
}

/// Tied, word for word.
fn tied(rows: &[Triple], set: &BTreeSet<usize>) -> bool {
    set.iter().all(|m| {
        rows.iter().any(|first| {
            first.wanted == *m
                && !first.held.is_disjoint(set)
                && rows.iter().any(|second| second.held.contains(m) && set.contains(&second.wanted) && second.thread != first.thread)
        })
    })
}

fn by_every_set(rows: &[Triple]) -> BTreeSet<usize> {
    let locks: Vec<usize> = named(rows).into_iter().collect();
    let mut union = BTreeSet::new();
    for choice in 0..1u32 << locks.len() {
        let set: BTreeSet<usize> = (0..locks.len()).filter(|i| choice >> i & 1 == 1).map(|i| locks[i]).collect();
        if !set.is_subset(&union) && tied(rows, &set) {
            union.extend(set);
        }
    }
    union
}

fn by_rounds(rows: &[Triple]) -> BTreeSet<usize> {
    let mut alive = [true; 256];
    loop {
        let mut asking = [0u32; 256];
        let mut holding = [0u32; 256];
        for r in rows {
            let bit = 1 << r.thread;
            if r.held.iter().any(|m| alive[*m]) {
                asking[r.wanted] |= bit;
            }
            if alive[r.wanted] {
                r.held.iter().for_each(|m| holding[*m] |= bit);
            }
        }
        // One of each, and two threads among them: then some two of them differ.
        let next: [bool; 256] = std::array::from_fn(|m| alive[m] && asking[m] != 0 && holding[m] != 0 && (asking[m] | holding[m]).count_ones() > 1);
        if next == alive {
            return (0..256).filter(|m| alive[*m]).collect();
        }
        alive = next;
    }
}

fn largest(rows: &[Triple]) -> BTreeSet<usize> {
    let rounds = by_rounds(rows);
    if named(rows).len() > FEW {
        return rounds;
    }
    let union = by_every_set(rows);
    assert_eq!(union, rounds, "the two ways of the second marking differ on {rows:?}");
    union
}

pub fn mark(given: &Given) -> Answer {
    let refused = |number| Answer { number, ..Answer::default() };
    if given.page < 1280 {
        return refused(13);
    }
    let Some(rows) = triples(given) else {
        return refused(14);
    };
    let locks = largest(&rows);
    let kept = (0..rows.len()).filter(|i| locks.contains(&rows[*i].wanted) && !locks.is_disjoint(&rows[*i].held)).collect();
    Answer { number: 0, place: 0, locks, kept }
}

/// What the second marking says of a table, in a word.
pub fn sort(given: &Given) -> &'static str {
    let answer = mark(given);
    match answer.number {
        0 => {
            let all = named(&triples(given).unwrap_or_default());
            match answer.locks.len() {
                0 => "with K empty",
                n if n == all.len() => "with K all the locks named",
                _ => "with K between",
            }
        }
        13 => "refused with 13",
        _ => "refused with 14",
    }
}
