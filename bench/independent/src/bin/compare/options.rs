//! The words after the command's name.

use crate::programs::Programs;
use std::ffi::OsString;
use std::path::PathBuf;
use std::time::{SystemTime, UNIX_EPOCH};

pub const HELP: &str = "\
compare: compares the proved programs curve_calls, text_calls and write_calls with a second implementation, byte for byte

usage: compare [OPTION..] --programs FOLDER [-- WORD..]

  --programs FOLDER  where the proved programs are
  -- WORD..          words that start them: the program's path is put behind (an emulator, a loader)
  --seed N           the same seed makes the same inputs; without it the clock gives one
  --tables N         how many random tables (default 200000; 0: none, and no systematic ones)
  --curves N         how many random curve calls (default 2000000; 0: none, and no systematic ones)
  --writes N         how many random tables to write back (default 200000; 0: none, and no systematic ones)
  --short            a run of seconds: 3000 tables, 30000 curve calls, 3000 tables to write, a part of the systematic ones
  --found FOLDER     where a table that shows a difference is stored, as found-SEED-N.txt (default: tables)
  --jobs N           how many programs run at a time (default: the machine's processors)
  --most N           stop at so many calls of one program that differ (default 5)
  --help             this text

A run prints the seed, then for each kind of call how many were accepted and how many refused on which ground, then the
differences or that there is none. What differs is first made as small as can be. Exit status: 0 no difference, 1 some, 2 it
could not be run.

To see that the comparison finds faults, build it wrong on purpose: 'cargo build --release --offline --features wrong'. In that
build a deferrable server's budget left at a refill is added to the new one, a leading zero is refused before a byte that is no
digit, an exact fit is pushed into the next window by time to provide, and a table's text that just fits is refused. Differences
in all three programs come within seconds. './compare --wrong' in the repository does this.
";

pub struct Options {
    pub seed: u64,
    tables: Option<usize>,
    curves: Option<usize>,
    writes: Option<usize>,
    pub short: bool,
    pub found: PathBuf,
    pub jobs: usize,
    pub most: usize,
    pub programs: Programs,
}

impl Options {
    fn default() -> Options {
        Options {
            seed: clock(),
            tables: None,
            curves: None,
            writes: None,
            short: false,
            found: PathBuf::from("tables"),
            jobs: std::thread::available_parallelism().map_or(1, |count| count.get()),
            most: 5,
            programs: Programs { folder: PathBuf::new(), start: Vec::new() },
        }
    }

    /// Reads the words; what is wrong with them is said in words too.
    pub fn read(mut words: impl Iterator<Item = OsString>) -> Result<Options, String> {
        let mut options = Options::default();
        while let Some(word) = words.next() {
            let option = word.to_string_lossy().into_owned();
            if option == "--" {
                options.programs.start = words.by_ref().collect();
            } else if option == "--short" {
                options.short = true;
            } else {
                let value = words.next().ok_or(format!("{option}: no such option, or nothing follows it"))?;
                options.set(&option, value)?;
            }
        }
        if options.programs.folder.as_os_str().is_empty() {
            return Err("--programs FOLDER is missing".to_string());
        }
        Ok(options)
    }

    /// How many random tables.
    pub fn tables(&self) -> usize {
        self.tables.unwrap_or(if self.short { 3000 } else { 200_000 })
    }

    /// How many random curve calls.
    pub fn curves(&self) -> usize {
        self.curves.unwrap_or(if self.short { 30_000 } else { 2_000_000 })
    }

    /// How many random tables to write back.
    pub fn writes(&self) -> usize {
        self.writes.unwrap_or(if self.short { 3000 } else { 200_000 })
    }

    fn set(&mut self, option: &str, value: OsString) -> Result<(), String> {
        match option {
            "--programs" => self.programs.folder = PathBuf::from(value),
            "--found" => self.found = PathBuf::from(value),
            "--seed" => self.seed = number(option, &value)?,
            "--tables" => self.tables = Some(number(option, &value)? as usize),
            "--writes" => self.writes = Some(number(option, &value)? as usize),
            "--curves" => self.curves = Some(number(option, &value)? as usize),
            "--jobs" => self.jobs = number(option, &value)?.max(1) as usize,
            "--most" => self.most = number(option, &value)?.max(1) as usize,
            _ => return Err(format!("{option}: no such option")),
        }
        Ok(())
    }
}

fn number(option: &str, value: &OsString) -> Result<u64, String> {
    let value = value.to_string_lossy();
    value.parse().map_err(|_| format!("{option}: {value} is no number"))
}

/// A seed that differs from run to run, short enough to be typed.
fn clock() -> u64 {
    let since = SystemTime::now().duration_since(UNIX_EPOCH).unwrap_or_default();
    since.as_millis() as u64 % 1_000_000_000
}
