//! Programs outside: played on a folder with its book, with the line as input.

use crate::case::LINE_FILE;
use std::fs::File;
use std::io;
use std::path::{Path, PathBuf};
use std::process::{Command, ExitStatus, Stdio};
use std::time::{Duration, Instant};

pub struct Program {
    path: PathBuf,
    arguments: Vec<String>,
}

impl Program {
    /// The path is made absolute, since the program runs in another folder.
    pub fn new(path: &Path, arguments: &[&str]) -> io::Result<Program> {
        Ok(Program {
            path: path.canonicalize()?,
            arguments: arguments.iter().map(|argument| argument.to_string()).collect(),
        })
    }

    /// Plays the folder's line on its book: what it printed and how it ended.
    pub fn listing(&self, folder: &Path) -> io::Result<(Vec<u8>, ExitStatus)> {
        let output = self.command(folder)?.stderr(Stdio::inherit()).output()?;
        Ok((output.stdout, output.status))
    }

    /// The time of one run, with nobody reading the listing.
    pub fn time(&self, folder: &Path) -> io::Result<Duration> {
        let mut command = self.command(folder)?;
        command.stdout(Stdio::null());
        let start = Instant::now();
        command.status()?;
        Ok(start.elapsed())
    }

    fn command(&self, folder: &Path) -> io::Result<Command> {
        let mut command = Command::new(&self.path);
        command.args(&self.arguments).current_dir(folder).stdin(File::open(folder.join(LINE_FILE))?);
        Ok(command)
    }
}
