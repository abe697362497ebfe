//! A table written back as text, and the call that writes it to a lent buffer.

use crate::reading::{Kind, Release, Server, Table, Task, MOST, MOST_SERVERS, MOST_TASKS};
use crate::Refusal;

/// The numbers given on refusal.
pub const NO_ROOM: u32 = 11;
pub const BREAKS_THE_RULES: u32 = 13;

/// A table as a caller hands it in: any numbers at all.
#[derive(Clone, Debug, PartialEq, Eq)]
pub struct Handed {
    pub span: u32,
    pub servers_count: u32,
    pub tasks_count: u32,
    /// Of each server its kind, 1 deferrable, 2 periodic; its capacity; its period. All are 0 in rows that are not there.
    pub servers: Vec<[u32; 3]>,
    /// Of each task its server; its work; its kind of release, 1 once, 2 every; the instant or the offset; the period, of `every`
    /// only; the deadline. All are 0 in rows that are not there.
    pub tasks: Vec<[u32; 6]>,
}

impl Handed {
    /// How a caller hands in a table.
    pub fn of(table: &Table) -> Handed {
        Handed {
            span: table.span,
            servers_count: table.servers.len() as u32,
            tasks_count: table.tasks.len() as u32,
            servers: table.servers.iter().map(server_row).collect(),
            tasks: table.tasks.iter().map(task_row).collect(),
        }
    }

    /// The table, if it keeps the rules. Rows beyond the counts are not looked at.
    pub fn table(&self) -> Option<Table> {
        let servers_count = counted(self.servers_count, MOST_SERVERS)?;
        let tasks_count = counted(self.tasks_count, MOST_TASKS)?;
        let row = |index: usize| self.servers.get(index).copied().unwrap_or_default();
        let servers: Option<Vec<Server>> = (0..servers_count).map(|index| server_of(row(index))).collect();
        let row = |index: usize| self.tasks.get(index).copied().unwrap_or_default();
        let tasks: Option<Vec<Task>> = (0..tasks_count).map(|index| task_of(row(index), servers_count)).collect();
        Some(Table { span: within(self.span, 1)?, servers: servers?, tasks: tasks? })
    }
}

fn server_row(server: &Server) -> [u32; 3] {
    let kind = match server.kind {
        Kind::Deferrable => 1,
        Kind::Periodic => 2,
    };
    [kind, server.capacity, server.period]
}

fn task_row(task: &Task) -> [u32; 6] {
    let [kind, first, period] = match task.release {
        Release::Once { instant } => [1, instant, 0],
        Release::Every { offset, period } => [2, offset, period],
    };
    [task.server as u32, task.work, kind, first, period, task.deadline]
}

/// A count, if it is at least 1 and at most this.
fn counted(count: u32, most: usize) -> Option<usize> {
    Some(count as usize).filter(|count| (1..=most).contains(count))
}

/// A number, if it is within the range from `least` to the largest.
fn within(number: u32, least: u32) -> Option<u32> {
    Some(number).filter(|number| (least..=MOST).contains(number))
}

fn server_of([kind, capacity, period]: [u32; 3]) -> Option<Server> {
    let kind = match kind {
        1 => Kind::Deferrable,
        2 => Kind::Periodic,
        _ => return None,
    };
    let period = within(period, 1)?;
    let capacity = within(capacity, 1).filter(|&capacity| capacity <= period)?;
    Some(Server { kind, capacity, period })
}

fn task_of([server, work, kind, first, period, deadline]: [u32; 6], servers: usize) -> Option<Task> {
    let server = counted(server, servers)?;
    let release = match kind {
        1 => Release::Once { instant: within(first, 0)? },
        2 => Release::Every { offset: within(first, 0)?, period: within(period, 1)? },
        _ => return None,
    };
    Some(Task { server, work: within(work, 1)?, release, deadline: within(deadline, 1)? })
}

/// The text of a table, with numbers for the span and for every deadline.
pub fn text(table: &Table) -> Vec<u8> {
    let mut lines = format!("span\t{}\n", table.span);
    for Server { kind, capacity, period } in &table.servers {
        let kind = match kind {
            Kind::Deferrable => "deferrable",
            Kind::Periodic => "periodic",
        };
        lines += &format!("server\t{kind}\t{capacity}\t{period}\n");
    }
    for Task { server, work, release, deadline } in &table.tasks {
        lines += &match release {
            Release::Once { instant } => format!("once\t{server}\t{work}\t{instant}\t{deadline}\n"),
            Release::Every { offset, period } => format!("every\t{server}\t{work}\t{offset}\t{period}\t{deadline}\n"),
        };
    }
    lines.into_bytes()
}

/// Writes the text of a table to the front of a buffer; gives how many bytes it has.
pub fn write(handed: &Handed, room: &mut [u8]) -> Result<usize, Refusal> {
    let table = handed.table().ok_or(Refusal::plain(BREAKS_THE_RULES))?;
    let bytes = text(&table);
    // the wrong build refuses a text that just fits
    let most = if cfg!(feature = "wrong") { room.len().saturating_sub(1) } else { room.len() };
    if bytes.len() > most {
        return Err(Refusal::plain(NO_ROOM));
    }
    room[..bytes.len()].copy_from_slice(&bytes);
    Ok(bytes.len())
}
