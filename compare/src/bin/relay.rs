//! The second relay as a program: `organ.book` here, the line as input, the
//! listing as output. `--counting` takes the relay with counts.

use second_relay::case::read_book;
use second_relay::counting::Counting;
use second_relay::listing::{organ, push_text_fault, Player, Relay};
use second_relay::naive::Naive;
use std::io::{self, ErrorKind, Read, Write};
use std::path::Path;
use std::process::ExitCode;

fn main() -> ExitCode {
    let arguments: Vec<String> = std::env::args().skip(1).collect();
    let counting = match arguments.iter().map(String::as_str).collect::<Vec<_>>()[..] {
        [] => false,
        ["--counting"] => true,
        _ => {
            eprintln!("usage: relay [--counting] < line");
            return ExitCode::from(2);
        }
    };
    match run(counting) {
        Ok(()) => ExitCode::SUCCESS,
        Err(error) if error.kind() == ErrorKind::BrokenPipe => ExitCode::SUCCESS,
        Err(error) => {
            eprintln!("relay: {error}");
            ExitCode::FAILURE
        }
    }
}

fn run(counting: bool) -> io::Result<()> {
    match organ(&read_book(Path::new("."))?) {
        Ok(organ) if counting => play(Counting::new(organ)),
        Ok(organ) => play(Naive::new(organ)),
        Err(fault) => {
            let mut listing = Vec::new();
            push_text_fault(&mut listing, fault);
            io::stdout().lock().write_all(&listing)
        }
    }
}

/// Plays what has arrived and answers it before it waits for more.
fn play(relay: impl Relay) -> io::Result<()> {
    let mut player = Player::new(relay);
    let mut input = io::stdin().lock();
    let mut output = io::stdout().lock();
    let mut bytes = vec![0; 1 << 16];
    let mut listing = Vec::with_capacity(1 << 19);
    loop {
        let count = match input.read(&mut bytes) {
            Ok(0) => return Ok(()),
            Ok(count) => count,
            Err(error) if error.kind() == ErrorKind::Interrupted => continue,
            Err(error) => return Err(error),
        };
        listing.clear();
        player.play(&bytes[..count], &mut listing);
        output.write_all(&listing)?;
        output.flush()?;
    }
}
