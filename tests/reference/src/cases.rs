//! The cases of a text file: how an image is made, and what the calls answer to it.
//!
//!     case NAME              begins a case
//!     image T M              an image with T threads and M locks, lawful but for what follows
//!     notes N [zeros]        N bytes of notes
//!     events E E ..          events in order: 0:+3 thread 0 acquires lock 3, 0:-3 releases it, 0:7?3 is of kind 7
//!     repeat N E E ..        these events N times
//!     ladder T A B C         thread T takes A, then takes and gives back each lock from B up to but without C, then gives A back
//!     bytes AT B B ..        bytes written over the image from AT on, in hexadecimal
//!     cut N, grow N          the image cut to N bytes, or grown to N by zeros
//!     table N                N words are lent; otherwise 12,288
//!     brief                  the program prints the rows' sum, and not the rows
//!     header N, read N P R   the header call's answer (0 if not said), and reading's
//!     row T M {L ..} P N     a row: thread, wanted lock, H, position, occurrences
//!     steps T A B C P N      the rows of a ladder: for each lock from B up to but without C one that holds A, the first at position P, each
//!                            two events after the one before, with N occurrences
//!
//! The notes that are expected are those of the text where it says header 0, and none otherwise. No answer is taken from the second reader.

use crate::image::{acquire, build, release, Event};
use crate::reader::Row;

#[derive(Clone, Debug, Default)]
pub struct Case {
    pub name: String,
    pub image: Vec<u8>,
    pub words: usize,
    pub brief: bool,
    pub header: u16,
    pub notes: Vec<u8>,
    pub read: (u16, usize, usize),
    pub rows: Vec<Row>,
}

#[derive(Default)]
struct Draft {
    case: Case,
    threads: u16,
    locks: u16,
    notes: Vec<u8>,
    events: Vec<Event>,
    bytes: Vec<(usize, Vec<u8>)>,
    length: Option<usize>,
}

impl Draft {
    fn finish(self) -> Case {
        let mut image = build(self.threads, self.locks, &self.notes, &self.events);
        for (at, bytes) in self.bytes {
            image[at..at + bytes.len()].copy_from_slice(&bytes);
        }
        if let Some(n) = self.length {
            image.resize(n, 0);
        }
        let notes = if self.case.header == 0 { self.notes } else { vec![] };
        Case { image, notes, ..self.case }
    }
}

fn event(word: &str) -> Event {
    let (thread, rest) = word.split_once(':').expect("an event is THREAD:..");
    let thread = thread.parse().expect("a thread");
    let lock = |s: &str| s.parse().expect("a lock");
    match rest.as_bytes()[0] {
        b'+' => acquire(thread, lock(&rest[1..])),
        b'-' => release(thread, lock(&rest[1..])),
        _ => {
            let (kind, lock_word) = rest.split_once('?').expect("an event of another kind is THREAD:KIND?LOCK");
            Event { kind: kind.parse().expect("a kind"), thread, lock: lock(lock_word), site: 0 }
        }
    }
}

fn events(text: &str) -> Vec<Event> {
    text.split_whitespace().map(event).collect()
}

fn ladder(n: &[usize]) -> Vec<Event> {
    let (thread, outer) = (n[0] as u8, n[1] as u16);
    let mut events = vec![acquire(thread, outer)];
    for lock in n[2] as u16..n[3] as u16 {
        events.extend([acquire(thread, lock), release(thread, lock)]);
    }
    events.push(release(thread, outer));
    events
}

fn steps(n: &[usize]) -> impl Iterator<Item = Row> + '_ {
    (n[2]..n[3]).enumerate().map(|(k, wanted)| Row {
        thread: n[0] as u16,
        wanted: wanted as u16,
        held: [n[1] as u16].into(),
        first: n[4] + 2 * k,
        times: n[5],
    })
}

fn row(text: &str) -> Row {
    let (front, rest) = text.split_once('{').expect("a row has {..}");
    let (held, back) = rest.split_once('}').expect("a row has {..}");
    let front = numbers(front);
    let back = numbers(back);
    Row {
        thread: front[0] as u16,
        wanted: front[1] as u16,
        held: numbers(held).into_iter().map(|m| m as u16).collect(),
        first: back[0],
        times: back[1],
    }
}

pub fn numbers(text: &str) -> Vec<usize> {
    text.split_whitespace().map(|w| w.parse().unwrap_or_else(|_| panic!("not a number: {w}"))).collect()
}

fn line(draft: &mut Draft, word: &str, rest: &str) {
    match word {
        "image" => {
            let n = numbers(rest);
            (draft.threads, draft.locks) = (n[0] as u16, n[1] as u16);
        }
        "notes" => {
            let (count, step) = rest.strip_suffix(" zeros").map_or((rest, 5), |count| (count, 0));
            draft.notes = (0..numbers(count)[0]).map(|i| (i * step) as u8).collect();
        }
        "events" => draft.events.extend(events(rest)),
        "repeat" => {
            let (times, once) = rest.split_once(' ').expect("repeat N E ..");
            for _ in 0..numbers(times)[0] {
                draft.events.extend(events(once));
            }
        }
        "ladder" => draft.events.extend(ladder(&numbers(rest))),
        "bytes" => {
            let (at, bytes) = rest.split_once(' ').expect("bytes AT B ..");
            let bytes = bytes.split_whitespace().map(|b| u8::from_str_radix(b, 16).expect("a byte")).collect();
            draft.bytes.push((numbers(at)[0], bytes));
        }
        "cut" | "grow" => draft.length = Some(numbers(rest)[0]),
        "table" => draft.case.words = numbers(rest)[0],
        "brief" => draft.case.brief = true,
        "header" => draft.case.header = numbers(rest)[0] as u16,
        "read" => {
            let n = numbers(rest);
            draft.case.read = (n[0] as u16, n[1], n[2]);
        }
        "row" => draft.case.rows.push(row(rest)),
        "steps" => draft.case.rows.extend(steps(&numbers(rest))),
        _ => panic!("unknown word: {word}"),
    }
}

pub fn parse(text: &str) -> Vec<Case> {
    let mut done = vec![];
    let mut draft: Option<Draft> = None;
    for text_line in text.lines() {
        let text_line = text_line.split('#').next().unwrap_or("").trim();
        let (word, rest) = text_line.split_once(' ').unwrap_or((text_line, ""));
        match (word, &mut draft) {
            ("", _) => {}
            ("case", _) => {
                done.extend(draft.take().map(Draft::finish));
                let case = Case { name: rest.to_string(), words: 12288, ..Case::default() };
                draft = Some(Draft { case, threads: 1, locks: 1, ..Draft::default() });
            }
            (_, Some(d)) => line(d, word, rest),
            (_, None) => panic!("before the first case: {text_line}"),
        }
    }
    done.extend(draft.map(Draft::finish));
    done
}
