//! Damaged books: each fault of a book, at any place.

use super::book::{self, BookLine};
use crate::book::{MAX_BYTES, MAX_WIRES};
use crate::rng::Rng;

#[derive(Clone, Copy, Debug, PartialEq, Eq)]
pub enum Damage {
    TooLong,
    Byte,
    Shape,
    Form,
    Range,
    Repeat,
    Wire,
    /// Some byte changed, taken out or put in: any fault, or none.
    Scratch,
}

impl Damage {
    pub const WITH_NUMBER: [(Damage, u32); 7] = [
        (Damage::TooLong, 31),
        (Damage::Byte, 32),
        (Damage::Shape, 33),
        (Damage::Form, 34),
        (Damage::Range, 35),
        (Damage::Repeat, 36),
        (Damage::Wire, 37),
    ];

    pub fn any(rng: &mut Rng) -> Damage {
        match rng.below(16) {
            0 => Damage::TooLong,
            1 | 2 => Damage::Byte,
            3 | 4 => Damage::Shape,
            5 | 6 => Damage::Form,
            7 | 8 => Damage::Range,
            9 | 10 => Damage::Repeat,
            11..=13 => Damage::Wire,
            _ => Damage::Scratch,
        }
    }
}

pub fn damage(rng: &mut Rng, lines: &mut Vec<BookLine>, kind: Damage) {
    match kind {
        Damage::TooLong => {
            let over = if rng.one_in(2) { 1 } else { 1 + rng.below(4000) };
            book::pad(lines, MAX_BYTES + over);
        }
        Damage::Byte => bad_byte(rng, lines),
        Damage::Shape => bad_shape(rng, lines),
        Damage::Form => {
            let line = bad_form(rng);
            insert(rng, lines, line);
        }
        Damage::Range => {
            let line = bad_range(rng);
            insert(rng, lines, line);
        }
        Damage::Repeat => repeat(rng, lines),
        Damage::Wire => bad_wire(rng, lines),
        Damage::Scratch => scratch(rng, lines),
    }
}

fn insert(rng: &mut Rng, lines: &mut Vec<BookLine>, line: BookLine) {
    let place = rng.below(lines.len() + 1);
    lines.insert(place, line);
}

fn raw(text: impl Into<Vec<u8>>) -> BookLine {
    let mut bytes = text.into();
    bytes.push(b'\n');
    BookLine::Raw(bytes)
}

/// Any line of the book as text, or an empty one.
fn some_text(rng: &mut Rng, lines: &[BookLine]) -> (usize, Vec<u8>) {
    let place = rng.below(lines.len());
    (place, lines.get(place).map(BookLine::text).unwrap_or_default())
}

fn replace(lines: &mut Vec<BookLine>, place: usize, line: BookLine) {
    match lines.get_mut(place) {
        Some(old) => *old = line,
        None => lines.push(line),
    }
}

fn bad_byte(rng: &mut Rng, lines: &mut Vec<BookLine>) {
    let (place, mut text) = some_text(rng, lines);
    let byte = match rng.below(3) {
        0 => rng.pick(b"\t\rAZ;#+.,_/:`{*'@[\0\x7f\x80\xff").unwrap_or(0),
        _ => 128 + rng.data(),
    };
    let at = rng.below(text.len() + 1);
    if rng.one_in(2) && at < text.len() {
        text[at] = byte;
    } else {
        text.insert(at, byte);
    }
    replace(lines, place, raw(text));
}

fn bad_shape(rng: &mut Rng, lines: &mut Vec<BookLine>) {
    const SHAPES: [&str; 40] = [
        " ", "(", ")", "()", "-", "0", "keys", "(keys 0 61", "keys 0 61)", "( keys 0 61)", "(keys 0 61 )",
        "(keys 0  61)", "(keys 0 61) ", " (keys 0 61)", "(keys 00 61)", "(keys 0 061)", "(keys -0 61)",
        "(keys 0 -)", "(keys 0 10000)", "(keys 0 -10000)", "(keys 0 6-1)", "(keys 0 61-)", "(keys 0 --1)",
        "(keys0 61)", "(keys 0 61a)", "(keys 0 a)", "((keys 0 61)", "(keys 0 61))", "((keys 0 61))",
        "(keys 0 61)(rank 0 61)", "(keys 0 61) (rank 0 61)", "(keys (0) 61)", "(-keys 0 61)", "(0 61)",
        "(keys 0 12345678901234567890)", "(wire 1 0 0 60 0 0-12 64 0)", "(keys )", "( )", "(keys-0 61)",
        "(words 0 01",
    ];
    if rng.one_in(5) {
        return cut_end(rng, lines);
    }
    let shape = rng.pick(&SHAPES).unwrap_or(" ");
    insert(rng, lines, raw(shape));
}

/// A last line without its end: a form, a wrong one, or a part of one.
fn cut_end(rng: &mut Rng, lines: &mut Vec<BookLine>) {
    let last = match rng.below(4) {
        0 => b"(keys 0 61".to_vec(),
        1 => b"(unknown 0)".to_vec(),
        2 => b" ".to_vec(),
        _ => b"(knob 99 99 99)".to_vec(),
    };
    lines.push(BookLine::Raw(last));
}

fn bad_form(rng: &mut Rng) -> BookLine {
    const WORDS: [(&str, usize); 5] = [("keys", 2), ("rank", 2), ("knob", 3), ("piston", 3), ("wire", 8)];
    const NO_WORDS: [&str; 12] =
        ["key", "keyss", "ranks", "knobs", "pistons", "wires", "a", "z", "note", "wir", "stop", "coupler"];
    let (word, own) = rng.pick(&WORDS).unwrap_or(("keys", 2));
    if rng.one_in(2) {
        return BookLine::Form(rng.pick(&NO_WORDS).unwrap_or("a"), numbers(rng, own));
    }
    let mut count = rng.below(12);
    if count == own {
        count = if rng.one_in(20) { 500 } else { own + 1 };
    }
    BookLine::Form(word, numbers(rng, count))
}

fn numbers(rng: &mut Rng, count: usize) -> Vec<i32> {
    let most = if rng.one_in(2) { 15 } else { 9999 };
    (0..count).map(|_| rng.within(-most / 4..=most)).collect()
}

/// A form with one number out of its range, just beside it or far off.
fn bad_range(rng: &mut Rng) -> BookLine {
    let (word, mut numbers, highest): (_, Vec<i32>, Vec<i32>) = match rng.below(5) {
        0 => ("keys", vec![1, 61], vec![15, 128]),
        1 => ("rank", vec![1, 61], vec![15, 128]),
        2 => ("knob", vec![1, 4, 2], vec![63, 16, 3]),
        3 => ("piston", vec![1, 4, 20], vec![39, 20, 63]),
        _ => ("wire", vec![1, 0, 0, 60, 0, 0, 64, 0], vec![2]),
    };
    let place = rng.below(numbers.len());
    let minus = match rng.below(2) {
        0 => -1,
        _ => rng.within(-9999..=-1),
    };
    let shift = word == "wire" && place == 5;
    numbers[place] = match highest.get(place) {
        Some(&most) if rng.one_in(2) => most + 1,
        Some(&most) if rng.one_in(2) => rng.within(most + 1..=9999),
        _ if shift => {
            numbers[0] = if rng.one_in(2) { 0 } else { 3 };
            minus
        }
        _ => minus,
    };
    if word == "knob" && place == 1 && rng.one_in(3) {
        numbers = vec![1, rng.within(0..=1), 0];
    }
    BookLine::Form(word, numbers)
}

fn repeat(rng: &mut Rng, lines: &mut Vec<BookLine>) {
    let (given, again) = match rng.below(5) {
        0 => rows(rng, "keys"),
        1 => rows(rng, "rank"),
        2 => {
            let knob = rng.within(0..=63);
            (BookLine::Form("knob", vec![knob, 2, 0]), BookLine::Form("knob", vec![knob, 16, 15]))
        }
        3 => {
            let piston = rng.within(0..=39);
            (BookLine::Form("piston", vec![piston, 0, 63]), BookLine::Form("piston", vec![piston, 2, 2]))
        }
        _ => return many_wires(rng, lines),
    };
    insert(rng, lines, given);
    insert(rng, lines, again);
}

fn rows(rng: &mut Rng, word: &'static str) -> (BookLine, BookLine) {
    let row = rng.within(0..=15);
    let first = rng.within(0..=128);
    let second = if rng.one_in(2) { first } else { rng.within(0..=128) };
    (BookLine::Form(word, vec![row, first]), BookLine::Form(word, vec![row, second]))
}

fn many_wires(rng: &mut Rng, lines: &mut Vec<BookLine>) {
    let there = lines.iter().filter(|line| board(line).is_some()).count();
    for _ in there..=MAX_WIRES + rng.below(3) {
        let wire = BookLine::Form("wire", vec![rng.within(1..=2), 0, 0, 0, 0, -9999, 64, 0]);
        insert(rng, lines, wire);
    }
}

fn board(line: &BookLine) -> Option<i32> {
    match line {
        BookLine::Form("wire", numbers) => numbers.first().copied(),
        _ => None,
    }
}

/// A wire that its board refuses. Its own number is one of 11, 13, 14, 16 to 19.
fn bad_wire(rng: &mut Rng, lines: &mut Vec<BookLine>) {
    make_room(lines);
    let good: Vec<Vec<i32>> = lines
        .iter()
        .filter_map(|line| match line {
            BookLine::Form("wire", numbers) => Some(numbers.clone()),
            _ => None,
        })
        .collect();
    let Some(mut wire) = good.get(rng.below(good.len())).filter(|wire| wire.len() == 8).cloned() else {
        return insert(rng, lines, BookLine::Form("wire", vec![1, 9999, 0, 0, 0, 0, 0, 0]));
    };
    match rng.below(12) {
        0 | 1 => return fill_board(rng, lines, wire),
        2 => wire[1] = rng.within(16..=9999),
        3 => (wire[2], wire[3]) = (wire[3] + 1, wire[3]),
        4 => wire[3] = rng.within(128..=9999),
        5 => wire[1] = unnamed_row(rng, lines, "keys"),
        6 => wire[4] = rng.within(16..=9999),
        7 => wire[4] = unnamed_row(rng, lines, if wire[0] == 1 { "keys" } else { "rank" }),
        8 => wire[5] = if rng.one_in(2) { 97 } else { rng.within(97..=9999) },
        9 => wire[5] = if rng.one_in(2) { -97 } else { rng.within(-9999..=-97) },
        10 => wire[6] = if rng.one_in(2) { 65 } else { rng.within(65..=9999) },
        _ => wire[7] = if rng.one_in(2) { 16 } else { rng.within(16..=9999) },
    }
    // A second number out of range tries the order of the checks.
    if rng.one_in(3) {
        let place = 4 + rng.below(4);
        wire[place] = rng.within(129..=9999);
    }
    insert(rng, lines, BookLine::Form("wire", wire));
}

/// Takes a wire out of a book that has all of them.
fn make_room(lines: &mut Vec<BookLine>) {
    if lines.iter().filter(|line| board(line).is_some()).count() >= MAX_WIRES {
        if let Some(place) = lines.iter().position(|line| board(line).is_some()) {
            lines.remove(place);
        }
    }
}

/// Copies of a wire, until its board has one more than it takes.
fn fill_board(rng: &mut Rng, lines: &mut Vec<BookLine>, wire: Vec<i32>) {
    let own = wire[0];
    let there = lines.iter().filter(|line| board(line) == Some(own)).count();
    for _ in there..129 {
        make_room_on(lines, 3 - own);
        insert(rng, lines, BookLine::Form("wire", wire.clone()));
    }
}

fn make_room_on(lines: &mut Vec<BookLine>, other: i32) {
    if lines.iter().filter(|line| board(line).is_some()).count() >= MAX_WIRES {
        if let Some(place) = lines.iter().position(|line| board(line) == Some(other)) {
            lines.remove(place);
        }
    }
}

/// A row that the book does not name, or 16 if it names all.
fn unnamed_row(rng: &mut Rng, lines: &[BookLine], kind: &str) -> i32 {
    let named = |row: i32| {
        lines.iter().any(|line| match line {
            BookLine::Form(word, numbers) => *word == kind && numbers.first() == Some(&row),
            _ => false,
        })
    };
    let free: Vec<i32> = (0..16).filter(|&row| !named(row)).collect();
    rng.pick(&free).unwrap_or(16)
}

fn scratch(rng: &mut Rng, lines: &mut Vec<BookLine>) {
    const ALLOWED: &[u8] = b" 0123456789abeiknoprstwyz-()\n";
    let (place, mut text) = some_text(rng, lines);
    for _ in 0..1 + rng.below(3) {
        let byte = rng.pick(ALLOWED).unwrap_or(b' ');
        let at = rng.below(text.len() + 1);
        match rng.below(3) {
            0 if at < text.len() => text[at] = byte,
            1 if at < text.len() => {
                text.remove(at);
            }
            _ => text.insert(at, byte),
        }
    }
    replace(lines, place, raw(text));
}
