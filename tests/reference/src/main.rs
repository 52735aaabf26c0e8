//! A second implementation of docs/RULES.md, written from the rules alone, and the cases that both are run on.
//!
//!     reference read input FILE       the cases of FILE as the program `read_cases` takes them
//!     reference read stored FILE      the answers written in FILE, as `read_cases` prints them
//!     reference read second FILE      the answers of the second reader to the cases of FILE
//!     reference read image FILE NAME  the image of one case
//!     reference read random SEED COUNT         generated cases, valid and damaged
//!     reference read random-second SEED COUNT  the second reader's answers to them
//!
//! With `mark` in place of `read` the same for the program `mark_cases` and the second marking; it has no images, and also
//!
//!     reference mark sorts SEED COUNT  how many of the generated cases are of which sort

mod cases;
mod dice;
mod generate;
mod image;
mod marking;
mod reader;
mod report;

use std::io::Write;
use std::str::FromStr;

fn usage() -> ! {
    eprintln!("usage: reference read|mark input|stored|second FILE | read image FILE NAME | read|mark random|random-second SEED COUNT | mark sorts SEED COUNT");
    std::process::exit(2);
}

fn text(path: &str) -> String {
    std::fs::read_to_string(path).unwrap_or_else(|e| panic!("{path}: {e}"))
}

fn number<T: FromStr>(word: &str) -> T {
    word.parse().unwrap_or_else(|_| usage())
}

fn read(words: &[&str]) -> Vec<u8> {
    let load = |path| cases::parse(&text(path));
    let generated = |seed, count| generate::cases(number(seed), number(count));
    match *words {
        ["input", path] => report::input(&load(path)),
        ["stored", path] => report::stored(&load(path)),
        ["second", path] => report::second(&load(path)),
        ["image", path, name] => {
            let all = load(path);
            let case = all.iter().find(|c| c.name == name).unwrap_or_else(|| panic!("no case {name}"));
            case.image.clone()
        }
        ["random", seed, count] => report::input(&generated(seed, count)),
        ["random-second", seed, count] => report::second(&generated(seed, count)),
        _ => usage(),
    }
}

fn mark(words: &[&str]) -> Vec<u8> {
    use marking::{cases, generate, report};
    let load = |path| cases::parse(&text(path));
    let generated = |seed, count| generate::cases(number(seed), number(count));
    match *words {
        ["input", path] => report::input(&load(path)),
        ["stored", path] => report::stored(&load(path)),
        ["second", path] => report::second(&load(path)),
        ["random", seed, count] => report::input(&generated(seed, count)),
        ["random-second", seed, count] => report::second(&generated(seed, count)),
        ["sorts", seed, count] => report::sorts(&generated(seed, count)),
        _ => usage(),
    }
}

fn main() {
    let words: Vec<String> = std::env::args().skip(1).collect();
    let words: Vec<&str> = words.iter().map(String::as_str).collect();
    let out = match words.split_first() {
        Some((&"read", rest)) => read(rest),
        Some((&"mark", rest)) => mark(rest),
        _ => usage(),
    };
    std::io::stdout().write_all(&out).expect("standard output");
}
