//! The two calls that are lent six work buffers: their refusals, and what they answer.

use crate::machine::{State, Tick};
use crate::reading::{read, Table};
use crate::Refusal;

/// The least length of a work buffer.
pub const LEAST_ROOM: usize = 16_000;

/// The table of a text, if every buffer is long enough and the text is read.
pub fn analyse(text: &[u8], rooms: &[usize; 6]) -> Result<Table, Refusal> {
    if rooms.iter().any(|&room| room < LEAST_ROOM) {
        return Err(Refusal::plain(9));
    }
    read(text)
}

/// Who has a tick of the span.
pub fn who_at(text: &[u8], tick: u32, rooms: &[usize; 6]) -> Result<Tick, Refusal> {
    let table = analyse(text, rooms)?;
    if tick >= table.span {
        return Err(Refusal::plain(13));
    }
    let mut state = State::start(&table);
    for _ in 0..tick {
        state.step(&table);
    }
    Ok(state.step(&table))
}
