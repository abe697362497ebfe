//! What the calls write and what they leave, seen through the pointers that a program in C hands in.
use super::{grod_analyse, grod_step, grod_who_at};
use crate::{Room, State, SERVERS, TASKS};

mod rows;

const TEXT: &[u8] = b"span\t8\nserver\tdeferrable\t2\t5\nserver\tdeferrable\t2\t4\nonce\t1\t4\t3\t5\nevery\t2\t1\t0\t4\t4\nonce\t1\t1\t9\t1\n";
const BAD: &[u8] = b"span\t8\nserver\tdeferrable\t6\t5\n";

/// What stands in every place before a call.
const BEFORE: u32 = 7_000_000;

/// What the analysis is handed to write to.
#[derive(Clone, Copy, Debug, PartialEq)]
struct Targets {
    line: u32,
    place: u32,
    span: u32,
    counts: [usize; 2],
    servers: [[u32; 2]; SERVERS],
    tasks: [[u32; 3]; TASKS],
    margin: [i32; TASKS],
}

const UNTOUCHED: Targets = Targets {
    line: BEFORE,
    place: BEFORE,
    span: BEFORE,
    counts: [77; 2],
    servers: [[BEFORE; 2]; SERVERS],
    tasks: [[BEFORE; 3]; TASKS],
    margin: [-77; TASKS],
};

/// The number that the analysis of a text answers, and what it was handed afterwards.
fn analysed(text: &[u8]) -> (u32, Targets) {
    let mut room = Room::new();
    let [free, sum, part, held, running, spare] = room.lend();
    let mut targets = UNTOUCHED;
    let [servers_n, tasks_n] = &mut targets.counts;
    // SAFETY: each pointer and length is of one slice; the arrays have 16 and 64 entries; what is written is borrowed for this call alone.
    let number = unsafe {
        grod_analyse(
            text.as_ptr(),
            text.len(),
            free.as_mut_ptr(),
            free.len(),
            sum.as_mut_ptr(),
            sum.len(),
            part.as_mut_ptr(),
            part.len(),
            held.as_mut_ptr(),
            held.len(),
            running.as_mut_ptr(),
            running.len(),
            spare.as_mut_ptr(),
            spare.len(),
            &mut targets.line,
            &mut targets.place,
            &mut targets.span,
            servers_n,
            tasks_n,
            targets.servers.as_mut_ptr(),
            targets.tasks.as_mut_ptr(),
            targets.margin.as_mut_ptr(),
        )
    };
    (number, targets)
}

/// An array with these entries at its front, and behind them what was there before.
fn front<T: Copy, const N: usize, const M: usize>(entries: [T; M], before: T) -> [T; N] {
    std::array::from_fn(|i| entries.get(i).copied().unwrap_or(before))
}

#[test]
#[cfg_attr(not(grodvejas_linked), ignore = "the library is not linked in")]
fn entries_beyond_the_counts_keep_what_was_there() {
    let expected = Targets {
        line: 0,
        place: 0,
        span: 8,
        counts: [2, 3],
        servers: front([[1, u32::MAX], [2, 1]], [BEFORE; 2]),
        tasks: front([[1, 4, 3], [1, 4, 4], [0, 0, 0]], [BEFORE; 3]),
        margin: front([1, 0, 0], -77),
    };
    assert_eq!(analysed(TEXT), (0, expected));
}

#[test]
#[cfg_attr(not(grodvejas_linked), ignore = "the library is not linked in")]
fn a_refused_analysis_changes_line_and_place_alone() {
    assert_eq!(analysed(BAD), (6, Targets { line: 2, place: 3, ..UNTOUCHED }));
    assert_eq!(analysed(b""), (2, Targets { line: 0, place: 0, ..UNTOUCHED }));
}

/// The number, the line and the place that a step answers, and holder and runner afterwards.
fn stepped(text: &[u8], state: &mut State) -> [u32; 5] {
    let [mut line, mut place, mut holder, mut runner] = [BEFORE; 4];
    // SAFETY: the pointer and length are of one slice; the arrays have 16 and 64 numbers; what is written is borrowed for this call alone.
    let number = unsafe {
        grod_step(
            text.as_ptr(),
            text.len(),
            &mut state.tick,
            state.budgets.as_mut_ptr(),
            state.waiting.as_mut_ptr(),
            &mut line,
            &mut place,
            &mut holder,
            &mut runner,
        )
    };
    [number, line, place, holder, runner]
}

#[test]
#[cfg_attr(not(grodvejas_linked), ignore = "the library is not linked in")]
fn a_refused_step_gives_0_and_0() {
    let mut state = State::default();
    // the tick of task 2, which server 2 holds
    assert_eq!(stepped(TEXT, &mut state), [0, 0, 0, 2, 2]);
    let before = state;
    assert_eq!(stepped(BAD, &mut state), [6, 2, 3, 0, 0]);
    assert_eq!(state, before);
    let late = State { tick: 8, ..before };
    state = late;
    assert_eq!(stepped(TEXT, &mut state), [13, 0, 0, 0, 0]);
    assert_eq!(state, late);
}

/// The number, the line and the place that the call by tick answers, and holder and runner afterwards.
fn told(text: &[u8], tick: u32) -> [u32; 5] {
    let mut room = Room::new();
    let [free, sum, part, held, running, spare] = room.lend();
    let [mut line, mut place, mut holder, mut runner] = [BEFORE; 4];
    // SAFETY: each pointer and length is of one slice; what is written is borrowed for this call alone.
    let number = unsafe {
        grod_who_at(
            text.as_ptr(),
            text.len(),
            tick,
            free.as_mut_ptr(),
            free.len(),
            sum.as_mut_ptr(),
            sum.len(),
            part.as_mut_ptr(),
            part.len(),
            held.as_mut_ptr(),
            held.len(),
            running.as_mut_ptr(),
            running.len(),
            spare.as_mut_ptr(),
            spare.len(),
            &mut line,
            &mut place,
            &mut holder,
            &mut runner,
        )
    };
    [number, line, place, holder, runner]
}

#[test]
#[cfg_attr(not(grodvejas_linked), ignore = "the library is not linked in")]
fn a_refused_call_by_tick_leaves_holder_and_runner() {
    assert_eq!(told(TEXT, 0), [0, 0, 0, 2, 2]);
    assert_eq!(told(TEXT, 8), [13, 0, 0, BEFORE, BEFORE]);
    assert_eq!(told(BAD, 0), [6, 2, 3, BEFORE, BEFORE]);
}
