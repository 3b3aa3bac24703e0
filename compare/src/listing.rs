//! The listing: a line for each answer, and for a bad book its fault alone.

use crate::action::{request, Action, Answer, PlayFault, Request};
use crate::book;
use crate::line::Reader;
use crate::organ::{assemble, Organ, Refusal};

/// A console on its stack: it answers calls.
pub trait Relay {
    fn call(&mut self, action: Action) -> Answer;
}

/// The fault of a book, its wires' boards included, and its line.
#[derive(Clone, Copy, Debug, PartialEq, Eq)]
pub struct TextFault {
    pub number: u32,
    pub line: u32,
}

/// Reads a book's text and fits its wires.
pub fn organ(text: &[u8]) -> Result<Organ, TextFault> {
    let book = book::read(text).map_err(|(fault, line)| TextFault { number: fault.number(), line })?;
    assemble(&book).map_err(|refusal| TextFault { number: Refusal::NUMBER, line: refusal.line })
}

/// A relay with the reader of its line.
pub struct Player<R> {
    relay: R,
    reader: Reader,
}

impl<R: Relay> Player<R> {
    pub fn new(relay: R) -> Player<R> {
        Player { relay, reader: Reader::new() }
    }

    /// Plays a part of the line and adds its answers to the listing.
    pub fn play(&mut self, line: &[u8], listing: &mut Vec<u8>) {
        for &byte in line {
            match self.reader.feed(byte).and_then(request) {
                Some(Request::Call(action)) => push_answer(listing, self.relay.call(action)),
                Some(Request::LowNote) => push_answer(listing, Err(PlayFault::Key)),
                None => {}
            }
        }
    }
}

/// The whole listing of a book and a line.
pub fn listing<R: Relay>(text: &[u8], line: &[u8], make: impl FnOnce(Organ) -> R) -> Vec<u8> {
    let mut listing = Vec::new();
    match organ(text) {
        Ok(organ) => Player::new(make(organ)).play(line, &mut listing),
        Err(fault) => push_text_fault(&mut listing, fault),
    }
    listing
}

#[inline]
pub fn push_answer(listing: &mut Vec<u8>, answer: Answer) {
    let (word, number): (&[u8], u32) = match answer {
        Ok(count) => (b"(done ", count),
        Err(fault) => (b"(fault ", fault.number()),
    };
    listing.extend_from_slice(word);
    push_number(listing, number);
    listing.extend_from_slice(b")\n");
}

pub fn push_text_fault(listing: &mut Vec<u8>, fault: TextFault) {
    listing.extend_from_slice(b"(fault ");
    push_number(listing, fault.number);
    listing.push(b' ');
    push_number(listing, fault.line);
    listing.extend_from_slice(b")\n");
}

fn push_number(listing: &mut Vec<u8>, mut number: u32) {
    let mut digits = [0; 10];
    let mut start = digits.len();
    loop {
        start -= 1;
        digits[start] = b'0' + (number % 10) as u8;
        number /= 10;
        if number == 0 {
            break;
        }
    }
    listing.extend_from_slice(&digits[start..]);
}
