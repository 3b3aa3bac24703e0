//! Times the relay with counts, in process and as a program, and `pipes`
//! against it if a path is given: a long line on a large book, and books of
//! the longest length.

use second_relay::book;
use second_relay::case::Case;
use second_relay::counting::Counting;
use second_relay::external::Program;
use second_relay::generate::{large_case, longest_book};
use second_relay::listing::{listing, organ, Player};
use std::error::Error;
use std::fs;
use std::hint::black_box;
use std::path::{Path, PathBuf};
use std::process::ExitCode;
use std::time::{Duration, Instant};

const USAGE: &str = "usage: bench [--events N] [--runs N] [--pipes PATH]";
const SEED: u64 = 1;
const BOOK_RUNS: usize = 100;

struct Options {
    events: usize,
    runs: usize,
    pipes: Option<PathBuf>,
}

fn main() -> ExitCode {
    let options = match options() {
        Ok(options) => options,
        Err(error) => {
            eprintln!("bench: {error}\n{USAGE}");
            return ExitCode::from(2);
        }
    };
    let folder = std::env::temp_dir().join(format!("relay-bench-{}", std::process::id()));
    let result = run(&options, &folder);
    if folder.exists() {
        if let Err(error) = fs::remove_dir_all(&folder) {
            eprintln!("bench: {}: {error}", folder.display());
        }
    }
    match result {
        Ok(()) => ExitCode::SUCCESS,
        Err(error) => {
            eprintln!("bench: {error}");
            ExitCode::FAILURE
        }
    }
}

fn options() -> Result<Options, Box<dyn Error>> {
    let mut options = Options { events: 3_000_000, runs: 7, pipes: None };
    let mut arguments = std::env::args().skip(1);
    while let Some(name) = arguments.next() {
        let value = arguments.next().ok_or_else(|| format!("{name} without a value"))?;
        match name.as_str() {
            "--events" => options.events = value.parse()?,
            "--runs" => options.runs = value.parse::<usize>()?.max(1),
            "--pipes" => options.pipes = Some(value.into()),
            _ => return Err(format!("unknown option {name}").into()),
        }
    }
    Ok(options)
}

/// The program to be measured and the one to measure it with.
struct Pair {
    pipes: Program,
    relay: Program,
}

impl Pair {
    fn new(pipes: &Path) -> Result<Pair, Box<dyn Error>> {
        let relay = std::env::current_exe()?.with_file_name("relay");
        let open = |path: &Path, arguments: &[&str]| {
            Program::new(path, arguments).map_err(|error| format!("{}: {error}", path.display()))
        };
        Ok(Pair { pipes: open(pipes, &[])?, relay: open(&relay, &["--counting"])? })
    }

    /// The shortest time of each, taken by turns.
    fn times(&self, folder: &Path, runs: usize) -> Result<(Duration, Duration), Box<dyn Error>> {
        let mut best = (Duration::MAX, Duration::MAX);
        for _ in 0..runs {
            best.0 = best.0.min(self.pipes.time(folder)?);
            best.1 = best.1.min(self.relay.time(folder)?);
        }
        Ok(best)
    }

    fn check(&self, folder: &Path, expected: &[u8]) -> Result<(), Box<dyn Error>> {
        for (name, program) in [("pipes", &self.pipes), ("relay --counting", &self.relay)] {
            if program.listing(folder)?.0 != expected {
                return Err(format!("the listing of {name} differs").into());
            }
        }
        Ok(())
    }
}

fn run(options: &Options, folder: &Path) -> Result<(), Box<dyn Error>> {
    let pair = options.pipes.as_deref().map(Pair::new).transpose()?;
    bench_line(options, pair.as_ref(), folder)?;
    bench_books(pair.as_ref(), folder)
}

fn bench_line(options: &Options, pair: Option<&Pair>, folder: &Path) -> Result<(), Box<dyn Error>> {
    let case = large_case(SEED, options.events);
    let expected = listing(&case.book, &case.line, Counting::new);
    let calls = expected.iter().filter(|&&byte| byte == b'\n').count();
    println!("line: seed {SEED}, {} bytes, {calls} calls, 256 wires, 5 divisions", case.line.len());
    let inside = shortest(options.runs, || play(&case));
    print_time("counting in process", inside, calls);
    let Some(pair) = pair else {
        return Ok(());
    };
    case.write(folder)?;
    pair.check(folder, &expected)?;
    let (pipes, relay) = pair.times(folder, options.runs)?;
    print_time("relay --counting", relay, calls);
    print_time("pipes", pipes, calls);
    println!("ratio of the times, pipes to relay --counting: {:.3}", ratio(pipes, relay));
    Ok(())
}

/// Plays in parts, as a program does.
fn play(case: &Case) {
    let Ok(organ) = organ(&case.book) else {
        return;
    };
    let mut player = Player::new(Counting::new(organ));
    let mut listing = Vec::new();
    for part in case.line.chunks(1 << 16) {
        listing.clear();
        player.play(part, &mut listing);
        black_box(&listing);
    }
}

fn bench_books(pair: Option<&Pair>, folder: &Path) -> Result<(), Box<dyn Error>> {
    let numbers = format!("(wire{})\n", " 1".repeat((book::MAX_BYTES - 7) / 2));
    let padding = "\n".repeat(book::MAX_BYTES - numbers.len());
    let books = [
        ("256 wires and empty lines", longest_book()),
        ("one line of numbers, fault 34", format!("{padding}{numbers}").into_bytes()),
    ];
    for (name, text) in books {
        println!("book of {} bytes, {name}", text.len());
        let inside = shortest(BOOK_RUNS, || {
            let _ = black_box(book::read(black_box(&text)));
        });
        println!("  reader in process: {:.1} us", micros(inside));
        if let Some(pair) = pair {
            bench_book(pair, folder, text)?;
        }
    }
    Ok(())
}

/// Whole runs with an empty line, and the same with an empty book: the
/// difference is the book's.
fn bench_book(pair: &Pair, folder: &Path, text: Vec<u8>) -> Result<(), Box<dyn Error>> {
    let full = Case { book: text, line: Vec::new() };
    let empty = Case { book: Vec::new(), line: Vec::new() };
    full.write(folder)?;
    pair.check(folder, &listing(&full.book, &full.line, Counting::new))?;
    let (pipes, relay) = pair.times(folder, BOOK_RUNS)?;
    empty.write(folder)?;
    let (pipes_empty, relay_empty) = pair.times(folder, BOOK_RUNS)?;
    println!("  relay --counting: {:.1} us, with an empty book {:.1} us", micros(relay), micros(relay_empty));
    println!("  pipes: {:.1} us, with an empty book {:.1} us", micros(pipes), micros(pipes_empty));
    println!("  ratio of the times, pipes to relay --counting: {:.3}", ratio(pipes, relay));
    Ok(())
}

fn shortest(runs: usize, mut work: impl FnMut()) -> Duration {
    (0..runs)
        .map(|_| {
            let start = Instant::now();
            work();
            start.elapsed()
        })
        .min()
        .unwrap_or_default()
}

fn print_time(name: &str, time: Duration, calls: usize) {
    let rate = calls as f64 / time.as_secs_f64() / 1e6;
    println!("{name}: {:.1} ms, {rate:.2} million calls per second", time.as_secs_f64() * 1e3);
}

fn micros(time: Duration) -> f64 {
    time.as_secs_f64() * 1e6
}

fn ratio(a: Duration, b: Duration) -> f64 {
    a.as_secs_f64() / b.as_secs_f64()
}
