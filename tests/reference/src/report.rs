//! Cases as `read_cases` takes them (zeros at an image's end are not sent), and answers as it prints them.

use crate::cases::Case;
use crate::reader::{self, Row};

pub fn input(cases: &[Case]) -> Vec<u8> {
    let mut out = vec![];
    for c in cases {
        let given = c.image.iter().rposition(|b| *b != 0).map_or(0, |last| last + 1);
        for field in [c.image.len(), given, c.words, usize::from(!c.brief)] {
            out.extend((field as u32).to_le_bytes());
        }
        out.extend(&c.image[..given]);
    }
    out
}

fn sum(numbers: impl Iterator<Item = u64>) -> u64 {
    numbers.fold(7, |sum, n| (sum * 31 + n) % 4_294_967_291)
}

fn lines(brief: bool, notes: &[u8], header: u16, number: u16, place: usize, rows: &[Row]) -> String {
    let notes_sum = sum(notes.iter().map(|b| u64::from(*b)));
    let mut text = format!("header {header} notes {} {notes_sum} read {number} {place} {}", notes.len(), rows.len());
    if brief {
        let words = rows.iter().flat_map(Row::words).map(u64::from);
        text += &format!(" sum {}\n", sum(words));
        return text;
    }
    text.push('\n');
    for (n, row) in rows.iter().enumerate() {
        let words: Vec<String> = row.words().iter().map(u16::to_string).collect();
        text += &format!("  row {n}: {}\n", words.join(" "));
    }
    text
}

/// The answers that the file of cases has, by hand.
pub fn stored(cases: &[Case]) -> Vec<u8> {
    let mut text = String::new();
    for c in cases {
        let (number, place, count) = c.read;
        assert_eq!(c.rows.len(), count, "case {}: the rows are not as many as it says", c.name);
        text += &lines(c.brief, &c.notes, c.header, number, place, &c.rows);
    }
    text.into_bytes()
}

pub fn second(cases: &[Case]) -> Vec<u8> {
    let mut text = String::new();
    for c in cases {
        let answer = reader::read(&c.image, c.words);
        let header = reader::header(&c.image).err().unwrap_or(0);
        text += &lines(c.brief, reader::notes(&c.image), header, answer.number, answer.place, &answer.rows);
    }
    text.into_bytes()
}
