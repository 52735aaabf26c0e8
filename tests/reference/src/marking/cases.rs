//! The cases of a text file: a table, how it is lent, and what marking answers to it.
//!
//!     case NAME              begins a case
//!     case NAME at R R ..    begins as many cases, NAME-R for each R: in its lines @ is R
//!     like NAME              the table of an earlier case, to go on from
//!     row T M {L ..} [P N]   a row: thread, wanted lock, H in the order of the text, position (0 if not said), occurrences (1 if not said)
//!     put R T M {L ..} [P N] the same in place of row R
//!     wants TS A LIST        for each thread of the list TS and each lock of LIST a row that wants it and holds A
//!     holds TS A LIST        for each of them a row that wants A and holds it
//!     path T U LIST          for each lock of LIST but the last a row that holds it and wants the next, of threads T and U by turns
//!     word R P W             the word at place P of row R is W
//!     words W W ..           words after the rows
//!     count N                the row count that is given; otherwise as many as there are rows
//!     slice N                N words are lent; otherwise those there are
//!     page N                 the page has N bytes; otherwise 2,000
//!     brief                  the program prints the count and the sum of the marks, and not their numbers
//!     mark N P               marking's number and place
//!     locks LIST, kept LIST  the locks of K and the kept rows; none if not said
//!
//! A LIST has numbers and runs of them, 3-7 or 7-3. No answer is taken from the second marking.

use super::{row_words, Case};
use crate::cases::numbers;

#[derive(Default)]
struct Draft {
    case: Case,
    count: Option<u64>,
    slice: Option<usize>,
    rows: usize,
}

impl Draft {
    fn row(&mut self, thread: usize, wanted: usize, held: usize) {
        self.case.given.words.extend(row_words(thread as u16, wanted as u16, &[held as u16], 0, 1));
        self.rows += 1;
    }

    fn finish(mut self) -> Case {
        self.case.given.rows = self.count.unwrap_or(self.rows as u64);
        if let Some(n) = self.slice {
            self.case.given.words.resize(n, 0);
        }
        self.case
    }
}

fn list(text: &str) -> Vec<usize> {
    let mut all = vec![];
    for word in text.split_whitespace() {
        let ends = numbers(&word.replace('-', " "));
        match ends[..] {
            [n] => all.push(n),
            [a, b] if a <= b => all.extend(a..=b),
            [a, b] => all.extend((b..=a).rev()),
            _ => panic!("not a number or a run: {word}"),
        }
    }
    all
}

fn row(text: &str) -> Vec<u16> {
    let narrow = |text| numbers(text).into_iter().map(|n| n as u16).collect::<Vec<u16>>();
    let (before, rest) = text.split_once('{').expect("a row has {..}");
    let (held, after) = rest.split_once('}').expect("a row has {..}");
    let before = narrow(before);
    let after = if after.trim().is_empty() { vec![0, 1] } else { narrow(after) };
    row_words(before[0], before[1], &narrow(held), after[0], after[1])
}

/// Two words, and the list after them.
fn front(text: &str) -> (&str, &str, Vec<usize>) {
    let mut parts = text.splitn(3, ' ');
    let mut part = || parts.next().unwrap_or_else(|| panic!("two words and a list: {text}"));
    (part(), part(), list(part()))
}

fn rows_of_threads(draft: &mut Draft, word: &str, text: &str) {
    let (threads, one, locks) = front(text);
    let one = numbers(one)[0];
    for thread in list(threads) {
        for lock in &locks {
            let (wanted, held) = if word == "wants" { (*lock, one) } else { (one, *lock) };
            draft.row(thread, wanted, held);
        }
    }
}

fn path(draft: &mut Draft, text: &str) {
    let (t, u, locks) = front(text);
    let threads = [numbers(t)[0], numbers(u)[0]];
    for (i, pair) in locks.windows(2).enumerate() {
        draft.row(threads[i % 2], pair[1], pair[0]);
    }
}

fn line(draft: &mut Draft, done: &[Case], word: &str, rest: &str) {
    match word {
        "like" => {
            let earlier = done.iter().find(|c| c.name == rest).unwrap_or_else(|| panic!("no earlier case {rest}"));
            draft.case.given.words = earlier.given.words.clone();
            draft.rows = earlier.given.words.len() / 12;
        }
        "row" => {
            draft.case.given.words.extend(row(rest));
            draft.rows += 1;
        }
        "put" => {
            let (number, rest) = rest.split_once(' ').expect("put R T M {..}");
            let at = numbers(number)[0] * 12;
            draft.case.given.words[at..at + 12].copy_from_slice(&row(rest));
        }
        "wants" | "holds" => rows_of_threads(draft, word, rest),
        "path" => path(draft, rest),
        "word" => {
            let n = numbers(rest);
            draft.case.given.words[n[0] * 12 + n[1]] = n[2] as u16;
        }
        "words" => draft.case.given.words.extend(numbers(rest).into_iter().map(|w| w as u16)),
        "count" => draft.count = Some(rest.parse().expect("a count")),
        "slice" => draft.slice = Some(numbers(rest)[0]),
        "page" => draft.case.given.page = numbers(rest)[0],
        "brief" => draft.case.brief = true,
        "mark" => {
            let n = numbers(rest);
            (draft.case.answer.number, draft.case.answer.place) = (n[0] as u16, n[1] as u64);
        }
        "locks" => draft.case.answer.locks = list(rest).into_iter().collect(),
        "kept" => draft.case.answer.kept = list(rest).into_iter().collect(),
        _ => panic!("unknown word: {word}"),
    }
}

fn build(name: String, lines: &[String], done: &[Case]) -> Case {
    let mut draft = Draft::default();
    draft.case.name = name;
    draft.case.given.page = 2000;
    for text in lines {
        let (word, rest) = text.split_once(' ').unwrap_or((text, ""));
        line(&mut draft, done, word, rest);
    }
    draft.finish()
}

pub fn parse(text: &str) -> Vec<Case> {
    let lines = text.lines().map(|l| l.split('#').next().unwrap_or("").trim()).filter(|l| !l.is_empty());
    let mut blocks: Vec<(&str, Vec<String>)> = vec![];
    for text_line in lines {
        match (text_line.strip_prefix("case "), blocks.last_mut()) {
            (Some(name), _) => blocks.push((name, vec![])),
            (None, Some(block)) => block.1.push(text_line.to_string()),
            (None, None) => panic!("before the first case: {text_line}"),
        }
    }
    let mut done = vec![];
    for (head, lines) in blocks {
        let Some((name, places)) = head.split_once(" at ") else {
            done.push(build(head.to_string(), &lines, &done));
            continue;
        };
        for place in places.split_whitespace() {
            let lines: Vec<String> = lines.iter().map(|l| l.replace('@', place)).collect();
            done.push(build(format!("{name}-{place}"), &lines, &done));
        }
    }
    done
}
