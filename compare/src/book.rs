//! The book: text in, a record or the first fault with its line out.

use crate::{KNOBS, PISTONS, PLACES, ROWS};
use std::ops::RangeInclusive;

pub const MAX_BYTES: usize = 65_536;
pub const MAX_WIRES: usize = 256;
const WIRE_NUMBERS: usize = 8;

#[derive(Clone, Copy, Debug, PartialEq, Eq)]
pub struct Knob {
    pub steps: u8,
    pub home: u8,
}

#[derive(Clone, Copy, Debug, PartialEq, Eq)]
pub struct Piston {
    pub lowest: u8,
    pub highest: u8,
}

impl Piston {
    /// The knobs in its scope, defined or not.
    pub fn scope(self) -> RangeInclusive<usize> {
        usize::from(self.lowest)..=usize::from(self.highest)
    }
}

#[derive(Clone, Copy, Debug, PartialEq, Eq)]
pub enum BoardName {
    Coupler,
    Stop,
}

/// A wire as the book has it: its numbers need not suit a board.
#[derive(Clone, Copy, Debug, PartialEq, Eq)]
pub struct BookWire {
    pub line: u32,
    pub board: BoardName,
    pub from: i16,
    pub lowest: i16,
    pub highest: i16,
    pub to: i16,
    pub shift: i16,
    pub knob: i16,
    pub position: i16,
}

#[derive(Clone, Debug, PartialEq, Eq)]
pub struct Book {
    pub keys: [Option<u8>; ROWS],
    pub ranks: [Option<u8>; ROWS],
    pub knobs: [Option<Knob>; KNOBS],
    pub pistons: [Option<Piston>; PISTONS],
    pub wires: Vec<BookWire>,
}

impl Book {
    fn empty() -> Book {
        Book {
            keys: [None; ROWS],
            ranks: [None; ROWS],
            knobs: [None; KNOBS],
            pistons: [None; PISTONS],
            wires: Vec::new(),
        }
    }
}

#[derive(Clone, Copy, Debug, PartialEq, Eq)]
pub enum BookFault {
    TooLong,
    Byte,
    Shape,
    Form,
    Range,
    Repeat,
}

impl BookFault {
    pub fn number(self) -> u32 {
        match self {
            BookFault::TooLong => 31,
            BookFault::Byte => 32,
            BookFault::Shape => 33,
            BookFault::Form => 34,
            BookFault::Range => 35,
            BookFault::Repeat => 36,
        }
    }
}

/// Reads a whole book; a fault comes with its line, which is 0 for `TooLong`.
pub fn read(text: &[u8]) -> Result<Book, (BookFault, u32)> {
    if text.len() > MAX_BYTES {
        return Err((BookFault::TooLong, 0));
    }
    let mut book = Book::empty();
    let mut rest = text;
    let mut number = 0;
    while !rest.is_empty() {
        number += 1;
        let (line, ended) = match rest.iter().position(|&byte| byte == b'\n') {
            Some(end) => {
                let line = &rest[..end];
                rest = &rest[end + 1..];
                (line, true)
            }
            None => (std::mem::take(&mut rest), false),
        };
        read_line(&mut book, line, ended, number).map_err(|fault| (fault, number))?;
    }
    Ok(book)
}

fn read_line(book: &mut Book, line: &[u8], ended: bool, number: u32) -> Result<(), BookFault> {
    if !line.iter().all(|&byte| may_stand(byte)) {
        return Err(BookFault::Byte);
    }
    if !ended {
        return Err(BookFault::Shape);
    }
    if line.is_empty() {
        return Ok(());
    }
    let form = shape(line).ok_or(BookFault::Shape)?;
    enter(book, &form, number)
}

fn may_stand(byte: u8) -> bool {
    matches!(byte, b' ' | b'0'..=b'9' | b'a'..=b'z' | b'-' | b'(' | b')')
}

/// A form as it is written. More numbers than any form takes are only counted.
struct Form<'a> {
    word: &'a [u8],
    numbers: [i16; WIRE_NUMBERS],
    count: usize,
}

fn shape(line: &[u8]) -> Option<Form<'_>> {
    let inner = line.strip_prefix(b"(")?;
    let letters = inner.iter().take_while(|byte| byte.is_ascii_lowercase()).count();
    if letters == 0 {
        return None;
    }
    let (word, mut rest) = inner.split_at(letters);
    let mut form = Form { word, numbers: [0; WIRE_NUMBERS], count: 0 };
    while let Some(after_space) = rest.strip_prefix(b" ") {
        let (value, after) = number(after_space)?;
        if let Some(slot) = form.numbers.get_mut(form.count) {
            *slot = value;
        }
        form.count += 1;
        rest = after;
    }
    (rest == b")").then_some(form)
}

/// A number at the beginning of the text, and what follows it.
fn number(text: &[u8]) -> Option<(i16, &[u8])> {
    let (negative, text) = match text.strip_prefix(b"-") {
        Some(after) => (true, after),
        None => (false, text),
    };
    let digits = text.iter().take_while(|byte| byte.is_ascii_digit()).count();
    let (digits, rest) = text.split_at(digits);
    match digits {
        [] => None,
        b"0" if !negative => Some((0, rest)),
        [b'0', ..] => None,
        _ if digits.len() > 4 => None,
        _ => {
            let value = digits.iter().fold(0, |value, &digit| 10 * value + i16::from(digit - b'0'));
            Some((if negative { -value } else { value }, rest))
        }
    }
}

fn enter(book: &mut Book, form: &Form, line: u32) -> Result<(), BookFault> {
    let n = &form.numbers;
    match (form.word, form.count) {
        (b"keys", 2) => enter_reach(&mut book.keys, n[0], n[1]),
        (b"rank", 2) => enter_reach(&mut book.ranks, n[0], n[1]),
        (b"knob", 3) => enter_knob(&mut book.knobs, n[0], n[1], n[2]),
        (b"piston", 3) => enter_piston(&mut book.pistons, n[0], n[1], n[2]),
        (b"wire", 8) => enter_wire(&mut book.wires, n, line),
        _ => Err(BookFault::Form),
    }
}

fn enter_reach(rows: &mut [Option<u8>; ROWS], row: i16, reach: i16) -> Result<(), BookFault> {
    let row = below(row, ROWS)?;
    let reach = below(reach, PLACES + 1)?;
    enter_once(&mut rows[row], reach as u8)
}

fn enter_knob(knobs: &mut [Option<Knob>; KNOBS], knob: i16, steps: i16, home: i16) -> Result<(), BookFault> {
    let knob = below(knob, KNOBS)?;
    let steps = below(steps, 17)?;
    let home = below(home, steps)?;
    if steps < 2 {
        return Err(BookFault::Range);
    }
    enter_once(&mut knobs[knob], Knob { steps: steps as u8, home: home as u8 })
}

fn enter_piston(
    pistons: &mut [Option<Piston>; PISTONS],
    piston: i16,
    lowest: i16,
    highest: i16,
) -> Result<(), BookFault> {
    let piston = below(piston, PISTONS)?;
    let highest = below(highest, KNOBS)?;
    let lowest = below(lowest, highest + 1)?;
    enter_once(&mut pistons[piston], Piston { lowest: lowest as u8, highest: highest as u8 })
}

fn enter_wire(wires: &mut Vec<BookWire>, numbers: &[i16; WIRE_NUMBERS], line: u32) -> Result<(), BookFault> {
    let [board, from, lowest, highest, to, shift, knob, position] = *numbers;
    let board = match board {
        1 => BoardName::Coupler,
        2 => BoardName::Stop,
        _ => return Err(BookFault::Range),
    };
    if [from, lowest, highest, to, knob, position].iter().any(|&number| number < 0) {
        return Err(BookFault::Range);
    }
    if wires.len() == MAX_WIRES {
        return Err(BookFault::Repeat);
    }
    wires.push(BookWire { line, board, from, lowest, highest, to, shift, knob, position });
    Ok(())
}

fn below(value: i16, bound: usize) -> Result<usize, BookFault> {
    usize::try_from(value).ok().filter(|&value| value < bound).ok_or(BookFault::Range)
}

fn enter_once<T>(slot: &mut Option<T>, value: T) -> Result<(), BookFault> {
    if slot.is_some() {
        return Err(BookFault::Repeat);
    }
    *slot = Some(value);
    Ok(())
}

#[cfg(test)]
mod tests {
    use super::*;

    const EXAMPLE: &str = "(keys 0 61)\n(rank 0 73)\n(knob 0 2 0)\n\n\
        (wire 1 0 0 60 0 0 64 0)\n(wire 2 0 0 60 0 12 0 1)\n";

    fn fault(text: &str) -> Option<(u32, u32)> {
        read(text.as_bytes()).err().map(|(fault, line)| (fault.number(), line))
    }

    fn fault_of_seventh(line: &str) -> Option<(u32, u32)> {
        fault(&format!("{EXAMPLE}{line}"))
    }

    #[test]
    fn reads_the_example() {
        let book = read(EXAMPLE.as_bytes()).expect("a good book");
        assert_eq!(book.keys[0], Some(61));
        assert_eq!(book.ranks[0], Some(73));
        assert_eq!(book.knobs[0], Some(Knob { steps: 2, home: 0 }));
        let lines: Vec<u32> = book.wires.iter().map(|wire| wire.line).collect();
        assert_eq!(lines, [5, 6]);
        assert_eq!(book.wires[1].shift, 12);
    }

    #[test]
    fn the_seventh_line() {
        assert_eq!(fault_of_seventh("(keys 0 61)\n"), Some((36, 7)));
        assert_eq!(fault_of_seventh("(keys 0  61)\n"), Some((33, 7)));
        assert_eq!(fault_of_seventh("(rank 1 61)\n"), None);
        assert_eq!(fault_of_seventh("(wire 1 9999 0 0 0 -9999 0 0)\n"), None);
    }

    #[test]
    fn the_length() {
        assert_eq!(fault(""), None);
        assert_eq!(fault(&"\n".repeat(MAX_BYTES)), None);
        assert_eq!(fault(&"\n".repeat(MAX_BYTES + 1)), Some((31, 0)));
        assert_eq!(fault(&"X".repeat(MAX_BYTES + 1)), Some((31, 0)));
    }

    #[test]
    fn bytes_come_before_brackets() {
        for line in ["\t\n", "(keys 0 61)\r\n", "))A\n", "(keys 0 61);", "(KEYS 0 61)\n", "(keys 0 +1)\n"] {
            assert_eq!(fault_of_seventh(line), Some((32, 7)), "{line:?}");
        }
    }

    #[test]
    fn shapes() {
        for line in [
            " \n", "()\n", "(\n", "x\n", "(keys 0 61\n", "keys 0 61\n", "( keys 0 61)\n", "(keys 0 61 )\n",
            "(keys 0 61) \n", " (keys 1 61)\n", "(keys 01 61)\n", "(keys -0 61)\n", "(keys 0 10000)\n",
            "(keys - 61)\n", "(keys 1 6-1)\n", "(keys 1 --1)\n", "(keys1 2)\n", "(keys 1 a)\n",
            "(keys 1 61)(keys 2 61)\n", "(keys 1 61)", "(words)", "(keys 0 00)\n", "(1 2)\n",
        ] {
            assert_eq!(fault_of_seventh(line), Some((33, 7)), "{line:?}");
        }
    }

    #[test]
    fn forms() {
        for line in [
            "(keys)\n", "(keys 1)\n", "(keys 1 2 3)\n", "(key 1 2)\n", "(rank 1 2 3)\n", "(knob 1 2)\n",
            "(piston 1 2)\n", "(wire 1 2 3 4 5 6 7)\n", "(wire 1 2 3 4 5 6 7 8 9)\n", "(keysa 1 2)\n",
            "(wire 1 2 3 4 5 6 7 8 9 10 11 12)\n", "(keys -1)\n",
        ] {
            assert_eq!(fault_of_seventh(line), Some((34, 7)), "{line:?}");
        }
    }

    #[test]
    fn ranges() {
        for line in [
            "(keys 16 1)\n", "(keys 1 129)\n", "(keys -1 1)\n", "(rank 1 -1)\n", "(knob 64 2 0)\n",
            "(knob 1 1 0)\n", "(knob 1 17 0)\n", "(knob 1 2 2)\n", "(knob 0 0 0)\n", "(piston 40 0 0)\n",
            "(piston 0 1 0)\n", "(piston 0 0 64)\n", "(piston 0 -1 0)\n", "(wire 0 0 0 0 0 0 0 0)\n",
            "(wire 3 0 0 0 0 0 0 0)\n", "(wire -1 0 0 0 0 0 0 0)\n", "(wire 1 0 0 0 0 0 0 -1)\n",
            "(keys 0 129)\n", "(wire 1 -1 0 0 0 0 0 0)\n",
        ] {
            assert_eq!(fault_of_seventh(line), Some((35, 7)), "{line:?}");
        }
    }

    #[test]
    fn repeats() {
        assert_eq!(fault("(keys 3 0)\n(keys 3 0)\n"), Some((36, 2)));
        assert_eq!(fault("(keys 3 61)\n(rank 3 61)\n"), None);
        assert_eq!(fault("(knob 3 2 0)\n\n(knob 3 3 0)\n"), Some((36, 3)));
        assert_eq!(fault("(piston 3 2 4)\n(piston 3 3 4)\n"), Some((36, 2)));
        let wire = "(wire 1 0 0 0 0 0 0 0)\n";
        assert_eq!(fault(&wire.repeat(256)), None);
        assert_eq!(fault(&wire.repeat(257)), Some((36, 257)));
    }

    #[test]
    fn the_first_line_decides() {
        assert_eq!(fault("(keys 0 200)\n\t\n"), Some((35, 1)));
        assert_eq!(fault("(keys 0 1)\n(none)\n(keys 0 1)"), Some((34, 2)));
        assert_eq!(fault("(keys 0 1)\n(none)"), Some((33, 2)));
    }
}
