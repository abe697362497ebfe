//! Starting the proved programs and feeding them.

use std::ffi::OsString;
use std::io::{self, Read, Write};
use std::path::PathBuf;
use std::process::{Child, Command, ExitStatus, Stdio};

/// Where the programs are, and the words before their names: an emulator and a loader where the machine needs them.
pub struct Programs {
    pub folder: PathBuf,
    pub start: Vec<OsString>,
}

/// What a program printed, and how it ended.
pub struct Printed {
    pub bytes: Vec<u8>,
    pub status: ExitStatus,
}

impl Programs {
    /// Runs a program on an input.
    pub fn run(&self, program: &str, input: &[u8]) -> io::Result<Printed> {
        let mut child = self.start(program)?;
        let mut stdin = child.stdin.take().expect("the input is a pipe");
        let mut stdout = child.stdout.take().expect("the output is a pipe");
        let mut bytes = Vec::new();
        // the input is written while the output is read: neither pipe can fill up for good
        std::thread::scope(|scope| {
            scope.spawn(move || {
                // a program that ends before it has read everything is judged by what it printed
                let _ = stdin.write_all(input);
            });
            stdout.read_to_end(&mut bytes)
        })?;
        let status = child.wait()?;
        Ok(Printed { bytes, status })
    }

    fn start(&self, program: &str) -> io::Result<Child> {
        let path = self.folder.join(program).into_os_string();
        let mut words = self.start.iter().cloned().chain([path]);
        let first = words.next().expect("the program's path is a word");
        Command::new(first).args(words).stdin(Stdio::piped()).stdout(Stdio::piped()).spawn()
    }
}
