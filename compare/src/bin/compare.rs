//! Plays generated cases through both relays here, and through `pipes` if a
//! path is given, and compares every line of the listings.

use second_relay::case::Case;
use second_relay::counting::Counting;
use second_relay::external::Program;
use second_relay::generate::case;
use second_relay::listing::listing;
use second_relay::naive::Naive;
use std::collections::BTreeMap;
use std::error::Error;
use std::fs;
use std::path::{Path, PathBuf};
use std::process::ExitCode;

const FAILURES: &str = concat!(env!("CARGO_MANIFEST_DIR"), "/failures");
const USAGE: &str = "usage: compare [--seed S] [--count N] [--pipes PATH]";

struct Options {
    seed: u64,
    count: u64,
    pipes: Option<PathBuf>,
}

fn main() -> ExitCode {
    let options = match options() {
        Ok(options) => options,
        Err(error) => {
            eprintln!("compare: {error}\n{USAGE}");
            return ExitCode::from(2);
        }
    };
    match run(&options) {
        Ok(true) => ExitCode::SUCCESS,
        Ok(false) => ExitCode::FAILURE,
        Err(error) => {
            eprintln!("compare: {error}");
            ExitCode::FAILURE
        }
    }
}

fn options() -> Result<Options, Box<dyn Error>> {
    let mut options = Options { seed: 1, count: 1000, pipes: None };
    let mut arguments = std::env::args().skip(1);
    while let Some(name) = arguments.next() {
        let value = arguments.next().ok_or_else(|| format!("{name} without a value"))?;
        match name.as_str() {
            "--seed" => options.seed = value.parse()?,
            "--count" => options.count = value.parse()?,
            "--pipes" => options.pipes = Some(value.into()),
            _ => return Err(format!("unknown option {name}").into()),
        }
    }
    Ok(options)
}

/// True if no case differs.
fn run(options: &Options) -> Result<bool, Box<dyn Error>> {
    let pipes = match &options.pipes {
        Some(path) => Some(Program::new(path, &[]).map_err(|error| format!("{}: {error}", path.display()))?),
        None => None,
    };
    let folder = std::env::temp_dir().join(format!("relay-compare-{}", std::process::id()));
    println!("seeds {} to {}", options.seed, options.seed.saturating_add(options.count.saturating_sub(1)));
    let mut tally = Tally::default();
    let mut same = true;
    for seed in (options.seed..=u64::MAX).take(options.count as usize) {
        let played = Played::new(seed, pipes.as_ref(), &folder)?;
        if let Some(difference) = played.difference() {
            println!("seed {seed}: {difference}");
            println!("the case is kept in {}", played.keep()?.display());
            same = false;
            break;
        }
        tally.add(&played.naive);
    }
    if pipes.is_some() && options.count > 0 {
        fs::remove_dir_all(&folder)?;
    }
    tally.print();
    Ok(same)
}

/// A case with what each relay answered.
struct Played {
    seed: u64,
    case: Case,
    naive: Vec<u8>,
    counting: Vec<u8>,
    pipes: Option<Outside>,
}

struct Outside {
    listing: Vec<u8>,
    ended_well: bool,
}

impl Played {
    fn new(seed: u64, pipes: Option<&Program>, folder: &Path) -> Result<Played, Box<dyn Error>> {
        let case = case(seed);
        let naive = listing(&case.book, &case.line, Naive::new);
        let counting = listing(&case.book, &case.line, Counting::new);
        let pipes = match pipes {
            Some(program) => {
                case.write(folder)?;
                let (listing, status) = program.listing(folder)?;
                Some(Outside { listing, ended_well: status.success() })
            }
            None => None,
        };
        Ok(Played { seed, case, naive, counting, pipes })
    }

    fn difference(&self) -> Option<String> {
        let counting = difference(&self.naive, &self.counting)
            .map(|line| format!("naive and counting differ on line {line}"));
        counting.or_else(|| {
            let pipes = self.pipes.as_ref()?;
            match difference(&self.naive, &pipes.listing) {
                Some(line) => Some(format!("naive and pipes differ on line {line}")),
                None if !pipes.ended_well => Some("pipes did not end with status 0".to_string()),
                None => None,
            }
        })
    }

    /// Writes the case and the listings; answers the folder.
    fn keep(&self) -> Result<PathBuf, Box<dyn Error>> {
        let folder = Path::new(FAILURES).join(self.seed.to_string());
        self.case.write(&folder)?;
        fs::write(folder.join("naive.listing"), &self.naive)?;
        fs::write(folder.join("counting.listing"), &self.counting)?;
        if let Some(pipes) = &self.pipes {
            fs::write(folder.join("pipes.listing"), &pipes.listing)?;
        }
        Ok(folder)
    }
}

/// The first line, counted from 1, on which two listings differ.
fn difference(a: &[u8], b: &[u8]) -> Option<usize> {
    if a == b {
        return None;
    }
    let lines = |listing: &[u8]| -> Vec<Vec<u8>> {
        listing.split_inclusive(|&byte| byte == b'\n').map(<[u8]>::to_vec).collect()
    };
    let (a, b) = (lines(a), lines(b));
    let equal = a.iter().zip(&b).take_while(|(a, b)| a == b).count();
    Some(equal + 1)
}

/// How often which answer came, to see that the cases try everything.
#[derive(Default)]
struct Tally {
    cases: usize,
    done: usize,
    changing: usize,
    faults: BTreeMap<u32, usize>,
}

impl Tally {
    fn add(&mut self, listing: &[u8]) {
        self.cases += 1;
        for line in String::from_utf8_lossy(listing).lines() {
            let words: Vec<&str> = line.trim_matches(['(', ')']).split(' ').collect();
            match words[..] {
                ["done", "0"] => self.done += 1,
                ["done", _] => {
                    self.done += 1;
                    self.changing += 1;
                }
                ["fault", number, ..] => {
                    *self.faults.entry(number.parse().unwrap_or(0)).or_default() += 1;
                }
                _ => {}
            }
        }
    }

    fn print(&self) {
        println!("{} cases without a difference", self.cases);
        println!("{} calls done, {} of them changed pipes", self.done, self.changing);
        for (number, times) in &self.faults {
            println!("fault {number}: {times}");
        }
    }
}
