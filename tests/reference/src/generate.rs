//! Generated cases: lawful traces, traces that go wrong at an event, damaged images, and bytes of no meaning.

use crate::cases::Case;
use crate::dice::Dice;
use crate::image::{acquire, build, release, Event};

/// `read_cases` takes no longer image.
const LONGEST: usize = 65_600;

/// Events of threads that take free locks and give theirs back, now and then a wrong one.
fn events(dice: &mut Dice, threads: usize, locks: usize, count: usize, wrong: usize) -> Vec<Event> {
    let eager = 5 + dice.below(5);
    let mut held: Vec<Vec<u16>> = vec![vec![]; threads];
    let mut events = vec![];
    for _ in 0..count {
        let t = dice.below(threads);
        let m = dice.below(locks) as u16;
        let mut event = if held[t].is_empty() || dice.below(10) < eager { acquire(t as u8, m) } else { release(t as u8, dice.pick(&held[t])) };
        if wrong > 0 && dice.one_in(wrong) {
            event = Event { kind: dice.pick(&[0, 1, 1, 1, 2, 2, 3, 255]), thread: dice.below(threads + 2) as u8, lock: dice.below(locks + 2) as u16, site: 9 };
        } else if event.kind == 1 && held.iter().enumerate().any(|(u, h)| u != t && h.contains(&m)) {
            continue;
        } else if event.kind == 1 && held[t].len() == 8 && !held[t].contains(&m) && (wrong == 0 || dice.one_in(2)) {
            continue;
        }
        event.site = dice.below(65536) as u16;
        if let Some(mine) = held.get_mut(event.thread as usize) {
            match event.kind {
                1 if !mine.contains(&event.lock) => mine.push(event.lock),
                2 => mine.retain(|m| *m != event.lock),
                _ => {}
            }
        }
        events.push(event);
    }
    events
}

fn damage(dice: &mut Dice, image: &mut Vec<u8>) {
    match dice.below(6) {
        0 => {
            let n = dice.below(image.len() + 1);
            image.truncate(n);
        }
        1 => {
            let n = image.len() + 1 + dice.below(20);
            image.resize(n, dice.below(256) as u8);
        }
        2 => {
            let at = 8 + 4 * dice.below(3);
            let field = dice.pick(&[0u32, 1, 19, 20, 21, 4096, 4097, 65536, 0x7FFF_FFFF, 0xFFFF_FFFF, 0xFFFF_FFFA, 715_827_882]);
            image[at..at + 4].copy_from_slice(&field.to_le_bytes());
        }
        3 => {
            let at = 4 + 2 * dice.below(2);
            let field = dice.pick(&[0u16, 1, 31, 32, 33, 255, 256, 257, 65535]);
            image[at..at + 2].copy_from_slice(&field.to_le_bytes());
        }
        _ => {
            for _ in 0..=dice.below(3) {
                let at = dice.below(image.len());
                image[at] = dice.below(256) as u8;
            }
        }
    }
}

/// How many bytes of notes: mostly none, at times so many that the image is as long as it may be, or longer.
fn notes(dice: &mut Dice) -> usize {
    match dice.below(300) {
        0 => 65516 - dice.below(30),
        1 => 65517 + dice.below(30),
        2..=100 => dice.below(50),
        _ => 0,
    }
}

fn one(dice: &mut Dice) -> Case {
    let sort = dice.below(10);
    let threads = dice.pick(&[1, 2, 2, 3, 4, 8, 32]);
    let locks = dice.pick(&[1, 2, 3, 4, 6, 10, 40, 256]);
    let count = match dice.below(20) {
        0 => 4096,
        1..=3 => dice.below(600),
        _ => dice.below(40),
    };
    let notes: Vec<u8> = (0..notes(dice)).map(|_| dice.below(256) as u8).collect();
    let wrong = if sort < 4 { 0 } else { 4 + dice.below(60) };
    let mut image = build(threads as u16, locks as u16, &notes, &events(dice, threads, locks, count, wrong));
    if sort == 9 {
        image = (0..dice.below(120)).map(|_| dice.below(256) as u8).collect();
        if dice.one_in(2) {
            image.splice(0..0, *b"LKT1");
        }
    } else if sort > 6 {
        damage(dice, &mut image);
    }
    image.truncate(LONGEST);
    let words = if dice.one_in(12) { dice.pick(&[0, 1, 12, 12287]) } else { dice.pick(&[12288, 12288, 12289, 13000]) };
    Case { image, words, brief: true, ..Case::default() }
}

pub fn cases(seed: u64, count: usize) -> Vec<Case> {
    let mut dice = Dice::new(seed);
    (0..count).map(|_| one(&mut dice)).collect()
}
