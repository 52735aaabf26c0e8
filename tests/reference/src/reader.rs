//! The second reader: sets of pairs and an ordered map, in place of places and words.

use std::collections::{BTreeMap, BTreeSet};

/// A row: its triple, the position of its first arising, its occurrences.
#[derive(Clone, Debug, PartialEq)]
pub struct Row {
    pub thread: u16,
    pub wanted: u16,
    pub held: BTreeSet<u16>,
    pub first: usize,
    pub times: usize,
}

impl Row {
    /// The row as docs/RULES.md lays it out.
    pub fn words(&self) -> Vec<u16> {
        let mut words = vec![self.thread, self.wanted, self.held.len() as u16];
        words.extend(&self.held);
        words.resize(10, 65535);
        words.extend([self.first as u16, self.times as u16]);
        words
    }
}

/// What reading answers: number, place, and the rows that the table then begins with.
#[derive(Clone, Debug, PartialEq)]
pub struct Answer {
    pub number: u16,
    pub place: usize,
    pub rows: Vec<Row>,
}

/// A header that passed checks 1 to 5.
pub struct Header {
    threads: u64,
    locks: u64,
    events: u64,
    pub offset: usize,
}

fn little(bytes: &[u8]) -> u64 {
    bytes.iter().rev().fold(0, |n, b| n * 256 + u64::from(*b))
}

pub fn header(image: &[u8]) -> Result<Header, u16> {
    if image.len() < 20 {
        return Err(1);
    }
    if image.len() > 65536 {
        return Err(2);
    }
    if &image[..4] != b"LKT1" {
        return Err(3);
    }
    let (threads, locks) = (little(&image[4..6]), little(&image[6..8]));
    let (events, offset, whole) = (little(&image[8..12]), little(&image[12..16]), little(&image[16..20]));
    if !(1..=32).contains(&threads) || !(1..=256).contains(&locks) || events > 4096 {
        return Err(4);
    }
    if offset < 20 || whole != image.len() as u64 || offset + 6 * events != whole {
        return Err(5);
    }
    Ok(Header { threads, locks, events, offset: offset as usize })
}

pub fn notes(image: &[u8]) -> &[u8] {
    header(image).map_or(&image[..0], |h| &image[20..h.offset])
}

type Dependency = (u16, u16, BTreeSet<u16>);

#[derive(Default)]
struct Reader {
    /// (lock, thread): the thread holds the lock
    held: BTreeSet<(u16, u16)>,
    numbers: BTreeMap<Dependency, usize>,
    rows: Vec<Row>,
}

impl Reader {
    fn held_by(&self, thread: u16) -> BTreeSet<u16> {
        self.held.iter().filter(|(_, t)| *t == thread).map(|(m, _)| *m).collect()
    }

    fn event(&mut self, h: &Header, place: usize, event: &[u8]) -> Result<(), u16> {
        let (kind, thread, lock) = (event[0], u16::from(event[1]), little(&event[2..4]) as u16);
        if !matches!(kind, 1 | 2) {
            return Err(6);
        }
        if u64::from(thread) >= h.threads {
            return Err(7);
        }
        if u64::from(lock) >= h.locks {
            return Err(8);
        }
        if kind == 2 {
            return if self.held.remove(&(lock, thread)) { Ok(()) } else { Err(11) };
        }
        if self.held.iter().any(|&(m, t)| m == lock && t != thread) {
            return Err(9);
        }
        if self.held.contains(&(lock, thread)) {
            return Ok(());
        }
        let held = self.held_by(thread);
        if held.len() == 8 {
            return Err(10);
        }
        if !held.is_empty() {
            self.arises(place, thread, lock, held)?;
        }
        self.held.insert((lock, thread));
        Ok(())
    }

    fn arises(&mut self, place: usize, thread: u16, wanted: u16, held: BTreeSet<u16>) -> Result<(), u16> {
        let dependency = (thread, wanted, held);
        if let Some(&n) = self.numbers.get(&dependency) {
            self.rows[n].times += 1;
            return Ok(());
        }
        if self.rows.len() == 1024 {
            return Err(12);
        }
        self.numbers.insert(dependency.clone(), self.rows.len());
        let (thread, wanted, held) = dependency;
        self.rows.push(Row { thread, wanted, held, first: place, times: 1 });
        Ok(())
    }
}

/// Reading, with so many words lent.
pub fn read(image: &[u8], words: usize) -> Answer {
    let turned_away = |number| Answer { number, place: 0, rows: vec![] };
    if words < 12288 {
        return turned_away(13);
    }
    let h = match header(image) {
        Ok(h) => h,
        Err(number) => return turned_away(number),
    };
    let mut reader = Reader::default();
    for (place, event) in image[h.offset..].chunks(6).take(h.events as usize).enumerate() {
        if let Err(number) = reader.event(&h, place, event) {
            return Answer { number, place, rows: reader.rows };
        }
    }
    Answer { number: 0, place: 0, rows: reader.rows }
}
