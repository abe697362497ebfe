//! Who runs in every tick of a table of servers and tasks, each task's worst response, the report, and the table written back: safe calls to a proved
//! library.
//!
//! Any slice and any number may be handed in. A call answers, or it is refused by a [`Refusal`], and then nothing that was lent has changed.
//!
//! The library is an archive for x86-64 Linux. Where it was not there when this crate was built, [`AVAILABLE`] is false and every call answers
//! [`Refusal::UNAVAILABLE`].
//!
//! ```
//! # if !grodvejas::AVAILABLE { return; }
//! let text = b"span\t8\nserver\tdeferrable\t2\t5\nonce\t1\t4\t3\t9\n";
//! let mut room = grodvejas::Room::new();
//! let answers = grodvejas::analyse(text, room.lend()).unwrap();
//! assert_eq!(answers.tasks[0], grodvejas::Response::Worst { response: 4, release: 3, margin: 5 });
//!
//! let mut table = grodvejas::read(text).unwrap();
//! table.servers[0].capacity = 3;
//! assert_eq!(grodvejas::write(&table).unwrap(), b"span\t8\nserver\tdeferrable\t3\t5\nonce\t1\t4\t3\t9\n");
//! ```

mod curves;
mod entries;
mod raw;
mod tables;

pub use curves::{add, cut, fit, time_to_provide, Fitted};
pub use entries::{read, step_table, write, write_into, Kind, Release, Server, Table, Task};
pub use tables::{analyse, report, step, who_at, Answers, Response, Room, ServerAnswer, State, Who};

/// Whether the library is linked in.
pub const AVAILABLE: bool = cfg!(grodvejas_linked);

/// The most servers that a table has.
pub const SERVERS: usize = 16;
/// The most tasks that a table has.
pub const TASKS: usize = 64;
/// The least that a work buffer holds.
pub const ROOM: usize = 16_000;
/// Room for any report: it has at most 2,475 bytes, by proof (`report_short`).
pub const REPORT: usize = 4096;
/// Room for any text that [`write_into`] writes: it never has more bytes, by proof (`text_most`).
pub const TEXT_MOST: usize = 2603;

/// Why a call is refused: the number of the ground; the line of the text, counted from 1, or 0 where no line is meant; and the place of the field in
/// that line, the line's first word being 1, or 0 where no field is meant.
///
/// Seven numbers have a place: 5 an empty field, 6 a number outside its range, or a capacity above its period, 14 `-` where it is not allowed, 15 a byte
/// that is no digit, 16 a leading zero, 17 more than five digits, 18 an unknown server kind. README.md and the C header have all numbers.
#[derive(Clone, Copy, Debug, PartialEq, Eq)]
pub struct Refusal {
    pub number: u32,
    pub line: u32,
    pub place: u32,
}

impl Refusal {
    /// What every call answers where the library is not linked in. No call of the library gives this number.
    pub const UNAVAILABLE: Refusal = Refusal::without_line(u32::MAX);

    /// Of a call that hands out a number only.
    const fn without_line(number: u32) -> Refusal {
        Refusal { number, line: 0, place: 0 }
    }
}

impl std::fmt::Display for Refusal {
    fn fmt(&self, out: &mut std::fmt::Formatter<'_>) -> std::fmt::Result {
        if *self == Refusal::UNAVAILABLE {
            return out.write_str("unavailable: the library is not linked in");
        }
        write!(out, "refused {} {} {}", self.number, self.line, self.place)
    }
}

impl std::error::Error for Refusal {}

/// What was answered, if the number that a call gave is 0.
fn accepted<T>(given: Refusal, answer: T) -> Result<T, Refusal> {
    if given.number == 0 {
        Ok(answer)
    } else {
        Err(given)
    }
}
