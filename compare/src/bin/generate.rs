//! Writes the case of a seed: into a folder, or as text with the line in hex.

use second_relay::generate::case;
use std::path::Path;
use std::process::ExitCode;

fn main() -> ExitCode {
    let arguments: Vec<String> = std::env::args().skip(1).collect();
    let (seed, folder) = match &arguments[..] {
        [seed] => (seed, None),
        [seed, folder] => (seed, Some(folder)),
        _ => return usage(),
    };
    let Ok(seed) = seed.parse() else {
        return usage();
    };
    let case = case(seed);
    println!("seed {seed}");
    let Some(folder) = folder else {
        println!("{}", case.book.escape_ascii().to_string().replace("\\n", "\n"));
        let hex: Vec<String> = case.line.iter().map(|byte| format!("{byte:02X}")).collect();
        println!("{}", hex.join(" "));
        return ExitCode::SUCCESS;
    };
    match case.write(Path::new(folder)) {
        Ok(()) => ExitCode::SUCCESS,
        Err(error) => {
            eprintln!("generate: {folder}: {error}");
            ExitCode::FAILURE
        }
    }
}

fn usage() -> ExitCode {
    eprintln!("usage: generate SEED [FOLDER]");
    ExitCode::from(2)
}
