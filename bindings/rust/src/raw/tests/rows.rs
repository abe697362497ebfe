//! Tables as rows of numbers: rows beyond the counts are neither written nor looked at, and a kind is one of the stated ones.
use super::super::{grod_read, grod_step_table, grod_write};
use super::{front, BAD, BEFORE, TEXT};
use crate::{State, SERVERS, TASKS, TEXT_MOST};

/// A table as it is handed out and in, with one row more behind those that a table can have.
#[derive(Clone, Copy, Debug, PartialEq)]
struct Rows {
    span: u32,
    counts: [usize; 2],
    servers: [[u32; 3]; SERVERS + 1],
    tasks: [[u32; 6]; TASKS + 1],
}

/// In every row what no rule allows.
const UNTOUCHED: Rows = Rows { span: BEFORE, counts: [77; 2], servers: [[BEFORE; 3]; SERVERS + 1], tasks: [[BEFORE; 6]; TASKS + 1] };

/// The rows of `TEXT`, in front of what was there before.
fn rows_of_text() -> Rows {
    Rows {
        span: 8,
        counts: [2, 3],
        servers: front([[1, 2, 5], [1, 2, 4]], [BEFORE; 3]),
        tasks: front([[1, 4, 1, 3, 0, 5], [2, 1, 2, 0, 4, 4], [1, 1, 1, 9, 0, 1]], [BEFORE; 6]),
    }
}

/// The number, the line and the place that reading answers, and the rows afterwards.
fn read(text: &[u8]) -> ([u32; 3], Rows) {
    let (mut line, mut place, mut rows) = (BEFORE, BEFORE, UNTOUCHED);
    let [servers_n, tasks_n] = &mut rows.counts;
    // SAFETY: the pointer and length are of one slice; there are more than 16 and 64 rows; what is written is borrowed for this call alone.
    let number = unsafe {
        grod_read(
            text.as_ptr(),
            text.len(),
            &mut line,
            &mut place,
            &mut rows.span,
            servers_n,
            tasks_n,
            rows.servers.as_mut_ptr(),
            rows.tasks.as_mut_ptr(),
        )
    };
    ([number, line, place], rows)
}

/// The number that writing answers, the count and the buffer afterwards. The rows have to stay as they are.
fn written(rows: &Rows) -> (u32, usize, [u8; TEXT_MOST]) {
    let (mut given, mut count, mut out) = (*rows, 77, [b'#'; TEXT_MOST]);
    let [servers_n, tasks_n] = given.counts;
    // SAFETY: the pointer and length are of one array; there are more than 16 and 64 rows; what is written is borrowed for this call alone.
    let number = unsafe {
        grod_write(given.span, servers_n, tasks_n, given.servers.as_mut_ptr(), given.tasks.as_mut_ptr(), out.as_mut_ptr(), out.len(), &mut count)
    };
    assert_eq!(&given, rows);
    (number, count, out)
}

/// The number that a step answers, and holder and runner afterwards. The rows have to stay as they are.
fn stepped(rows: &Rows, state: &mut State) -> [u32; 3] {
    let (mut given, mut holder, mut runner) = (*rows, BEFORE, BEFORE);
    let [servers_n, tasks_n] = given.counts;
    // SAFETY: there are more than 16 and 64 rows; the state's arrays have 16 and 64 numbers; what is written is borrowed for this call alone.
    let number = unsafe {
        grod_step_table(
            given.span,
            servers_n,
            tasks_n,
            given.servers.as_mut_ptr(),
            given.tasks.as_mut_ptr(),
            &mut state.tick,
            state.budgets.as_mut_ptr(),
            state.waiting.as_mut_ptr(),
            &mut holder,
            &mut runner,
        )
    };
    assert_eq!(&given, rows);
    [number, holder, runner]
}

/// Writing and stepping are refused, and write nothing but holder and runner.
fn breaks_the_rules(rows: &Rows) {
    assert_eq!(written(rows), (13, 77, [b'#'; TEXT_MOST]));
    let before = State { tick: 3, ..State::default() };
    let mut state = before;
    assert_eq!(stepped(rows, &mut state), [13, 0, 0]);
    assert_eq!(state, before);
}

#[test]
#[cfg_attr(not(grodvejas_linked), ignore = "the library is not linked in")]
fn rows_beyond_the_counts_keep_what_was_there() {
    assert_eq!(read(TEXT), ([0, 0, 0], rows_of_text()));
}

#[test]
#[cfg_attr(not(grodvejas_linked), ignore = "the library is not linked in")]
fn a_refused_reading_changes_line_and_place_alone() {
    assert_eq!(read(BAD), ([6, 2, 3], UNTOUCHED));
    assert_eq!(read(b""), ([2, 0, 0], UNTOUCHED));
}

#[test]
#[cfg_attr(not(grodvejas_linked), ignore = "the library is not linked in")]
fn rows_beyond_the_counts_are_not_looked_at() {
    let out = std::array::from_fn(|i| TEXT.get(i).copied().unwrap_or(b'#'));
    assert_eq!(written(&rows_of_text()), (0, TEXT.len(), out));
    let mut state = State::default();
    assert_eq!(stepped(&rows_of_text(), &mut state), [0, 2, 2]);
    assert_eq!(state.tick, 1);
}

#[test]
#[cfg_attr(not(grodvejas_linked), ignore = "the library is not linked in")]
fn the_period_of_a_task_released_once_is_not_looked_at() {
    let mut rows = rows_of_text();
    rows.tasks[0][4] = BEFORE;
    assert_eq!(written(&rows), written(&rows_of_text()));
    assert_eq!(stepped(&rows, &mut State::default()), [0, 2, 2]);
}

#[test]
#[cfg_attr(not(grodvejas_linked), ignore = "the library is not linked in")]
fn kinds_that_are_none_of_the_stated_ones() {
    for kind in [0, 3, u32::MAX] {
        for i in 0..2 {
            let mut rows = rows_of_text();
            rows.servers[i][0] = kind;
            breaks_the_rules(&rows);
        }
        for j in 0..3 {
            let mut rows = rows_of_text();
            rows.tasks[j][2] = kind;
            breaks_the_rules(&rows);
        }
    }
}

#[test]
#[cfg_attr(not(grodvejas_linked), ignore = "the library is not linked in")]
fn counts_that_no_table_has() {
    let full = Rows { span: 8, counts: [SERVERS, TASKS], servers: [[1, 2, 5]; SERVERS + 1], tasks: [[1, 4, 1, 3, 0, 5]; TASKS + 1] };
    assert_eq!(written(&full).0, 0);
    for servers in [0, SERVERS + 1, usize::MAX] {
        breaks_the_rules(&Rows { counts: [servers, TASKS], ..full });
    }
    for tasks in [0, TASKS + 1, usize::MAX] {
        breaks_the_rules(&Rows { counts: [SERVERS, tasks], ..full });
    }
}
