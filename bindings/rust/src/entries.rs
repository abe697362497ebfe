//! A table as its entries: read from a text, written back, stepped with.
use crate::{accepted, raw, Refusal, State, Who, SERVERS, TASKS, TEXT_MOST};

/// What a server does with its budget while it has no work.
#[derive(Clone, Copy, Debug, PartialEq, Eq)]
pub enum Kind {
    /// Keeps it, within the period.
    Deferrable = 1,
    /// Holds its ticks all the same.
    Periodic = 2,
}

/// A server: so many ticks in each period.
#[derive(Clone, Copy, Debug, PartialEq, Eq)]
pub struct Server {
    pub kind: Kind,
    pub capacity: u32,
    pub period: u32,
}

/// When a task is released.
#[derive(Clone, Copy, Debug, PartialEq, Eq)]
pub enum Release {
    /// At one instant.
    Once { instant: u32 },
    /// At the offset and every period after it.
    Every { offset: u32, period: u32 },
}

/// A task: so many ticks of work at each release. Its server is a number from 1; the deadline counts from the release.
#[derive(Clone, Copy, Debug, PartialEq, Eq)]
pub struct Task {
    pub server: u32,
    pub work: u32,
    pub release: Release,
    pub deadline: u32,
}

/// A table: the span in ticks, the servers, highest priority first, and the tasks. Any table may be handed in; one that breaks the rules, as one of more
/// than [`SERVERS`] servers or [`TASKS`] tasks does, is refused.
#[derive(Clone, Debug, PartialEq, Eq)]
pub struct Table {
    pub span: u32,
    pub servers: Vec<Server>,
    pub tasks: Vec<Task>,
}

/// The span of a table in ticks, and how many servers and tasks it has.
#[derive(Clone, Copy, Default)]
pub(crate) struct Extent {
    pub span: u32,
    pub servers: usize,
    pub tasks: usize,
}

/// Kinds of release.
const ONCE: u32 = 1;
const EVERY: u32 = 2;

impl Server {
    /// As the C header's `struct grod_server`.
    fn row(&self) -> [u32; 3] {
        [self.kind as u32, self.capacity, self.period]
    }

    fn of([kind, capacity, period]: [u32; 3]) -> Server {
        let kind = if kind == Kind::Periodic as u32 { Kind::Periodic } else { Kind::Deferrable };
        Server { kind, capacity, period }
    }
}

impl Task {
    /// As the C header's `struct grod_task`.
    fn row(&self) -> [u32; 6] {
        let [release, first, period] = match self.release {
            Release::Once { instant } => [ONCE, instant, 0],
            Release::Every { offset, period } => [EVERY, offset, period],
        };
        [self.server, self.work, release, first, period, self.deadline]
    }

    fn of([server, work, release, first, period, deadline]: [u32; 6]) -> Task {
        let release = if release == EVERY { Release::Every { offset: first, period } } else { Release::Once { instant: first } };
        Task { server, work, release, deadline }
    }
}

/// A table as the calls take it and hand it out. Rows beyond the counts are neither read nor written by them.
struct Rows {
    extent: Extent,
    servers: [[u32; 3]; SERVERS],
    tasks: [[u32; 6]; TASKS],
}

impl Rows {
    fn new() -> Rows {
        Rows { extent: Extent::default(), servers: [[0; 3]; SERVERS], tasks: [[0; 6]; TASKS] }
    }

    /// The counts as they are, and as many rows as there is room for: the call refuses a count that is above it.
    fn of(table: &Table) -> Rows {
        let mut rows = Rows::new();
        rows.extent = Extent { span: table.span, servers: table.servers.len(), tasks: table.tasks.len() };
        rows.servers.iter_mut().zip(&table.servers).for_each(|(row, server)| *row = server.row());
        rows.tasks.iter_mut().zip(&table.tasks).for_each(|(row, task)| *row = task.row());
        rows
    }

    fn table(&self) -> Table {
        let Extent { span, servers, tasks } = self.extent;
        Table {
            span,
            servers: self.servers.iter().take(servers).copied().map(Server::of).collect(),
            tasks: self.tasks.iter().take(tasks).copied().map(Task::of).collect(),
        }
    }
}

/// Reads a text: a span or a deadline that is `-` becomes its number. Refuses 1 to 8 and 14 to 18.
pub fn read(text: &[u8]) -> Result<Table, Refusal> {
    let (mut line, mut place) = (0, 0);
    let mut rows = Rows::new();
    let extent = &mut rows.extent;
    // SAFETY: the pointer and length are of one slice; there are 16 and 64 rows; what is written is borrowed for this call alone.
    let number = unsafe {
        raw::grod_read(
            text.as_ptr(),
            text.len(),
            &mut line,
            &mut place,
            &mut extent.span,
            &mut extent.servers,
            &mut extent.tasks,
            rows.servers.as_mut_ptr(),
            rows.tasks.as_mut_ptr(),
        )
    };
    accepted(Refusal { number, line, place }, ()).map(|()| rows.table())
}

/// The text of a table, span and deadlines always as numbers. Reading it gives an equal table. Refuses 13, where the table breaks the rules.
pub fn write(table: &Table) -> Result<Vec<u8>, Refusal> {
    let mut out = vec![0; TEXT_MOST];
    let count = write_into(table, &mut out)?;
    out.truncate(count);
    Ok(out)
}

/// Writes the text of a table to the front of `out`, and answers how many bytes it has; the rest stays as it was. Refuses 13, where the table breaks the
/// rules, then 11, where the text does not fit.
pub fn write_into(table: &Table, out: &mut [u8]) -> Result<usize, Refusal> {
    let rows = Rows::of(table);
    let Extent { span, servers, tasks } = rows.extent;
    let mut count = 0;
    // SAFETY: the pointer and length are of one slice; there are 16 and 64 rows; what is written is borrowed for this call alone.
    let number =
        unsafe { raw::grod_write(span, servers, tasks, rows.servers.as_ptr(), rows.tasks.as_ptr(), out.as_mut_ptr(), out.len(), &mut count) };
    accepted(Refusal::without_line(number), count)
}

/// Goes one tick on with the machine of a table, as [`step`](crate::step) does with that of a text. Refuses 13, where the table breaks the rules too; the
/// state is then as it was.
pub fn step_table(table: &Table, state: &mut State) -> Result<Who, Refusal> {
    let rows = Rows::of(table);
    let Extent { span, servers, tasks } = rows.extent;
    let mut who = Who::default();
    // SAFETY: there are 16 and 64 rows; the state's arrays have 16 and 64 numbers; what is written is borrowed for this call alone.
    let number = unsafe {
        raw::grod_step_table(
            span,
            servers,
            tasks,
            rows.servers.as_ptr(),
            rows.tasks.as_ptr(),
            &mut state.tick,
            state.budgets.as_mut_ptr(),
            state.waiting.as_mut_ptr(),
            &mut who.holder,
            &mut who.runner,
        )
    };
    accepted(Refusal::without_line(number), who)
}
