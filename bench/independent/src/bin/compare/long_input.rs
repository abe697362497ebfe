//! One input that is longer than a program holds at once, with a line in it that is too long to be held, and no line feed at its end.

use crate::call::Call;
use crate::comparing::Maker;
use crate::programs::Programs;
use std::io;

/// A program holds so many bytes of its input at once: a line of more, its line feed counted, is answered by `bad`.
const HELD: usize = 1_048_576;

/// An input, what the program has to print and what it printed.
pub struct LongInput {
    pub input: Vec<u8>,
    pub expected: Vec<u8>,
    pub printed: Vec<u8>,
}

/// Runs the program on calls of these makers and a line that is too long.
pub fn run<C: Call>(programs: &Programs, makers: &[Maker<C>]) -> io::Result<LongInput> {
    let mut long = LongInput { input: Vec::new(), expected: Vec::new(), printed: Vec::new() };
    let mut calls = makers.iter().cycle().flat_map(|maker| maker());
    long.put_calls(&mut calls, HELD + HELD / 2);
    long.put_too_long();
    long.put_calls(&mut calls, 2 * HELD);
    long.input.pop();
    long.printed = programs.run(C::PROGRAM, &long.input)?.bytes;
    Ok(long)
}

impl LongInput {
    /// Puts calls until they have so many bytes.
    fn put_calls<C: Call>(&mut self, calls: &mut impl Iterator<Item = C>, bytes: usize) {
        let end = self.input.len() + bytes;
        while self.input.len() < end {
            let call = calls.next().expect("there are calls without end");
            call.put_line(&mut self.input);
            call.put_answer(&mut self.expected);
        }
    }

    /// Puts a line that would be copied by `text_calls` if it could be held.
    fn put_too_long(&mut self) {
        self.input.resize(self.input.len() + 2 * HELD, b'#');
        self.input.push(b'\n');
        self.expected.extend(b"bad\n");
    }

    /// Where what was printed is not what was expected.
    pub fn difference(&self) -> Option<usize> {
        if self.printed == self.expected {
            return None;
        }
        Some(self.expected.iter().zip(&self.printed).take_while(|(expected, printed)| expected == printed).count())
    }
}
