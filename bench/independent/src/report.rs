//! What the report says of a table, from the machine's run.

use crate::machine::{releases_at, whole_run, Tick};
use crate::reading::{read, Server, Table, Task};
use crate::Refusal;

/// What is said of a server.
#[derive(Clone, Debug, PartialEq, Eq)]
pub struct ServerAnswer {
    /// How many periods lie in the span as a whole.
    pub full: u32,
    /// The first of them, from 0, with fewer free ticks than the capacity.
    pub first_short: Option<u32>,
}

/// What is said of a task.
#[derive(Clone, Debug, PartialEq, Eq)]
pub enum TaskAnswer {
    Worst { response: u32, release: u32, margin: i64 },
    Unfinished { release: u32 },
    None,
}

#[derive(Clone, Debug, PartialEq, Eq)]
pub struct Answers {
    pub span: u32,
    pub servers: Vec<ServerAnswer>,
    pub tasks: Vec<TaskAnswer>,
}

/// The answers for a table.
pub fn answers(table: &Table) -> Answers {
    let run = whole_run(table);
    let server = |(index, server)| server_answer(table, server, index + 1, &run);
    let task = |(index, task)| task_answer(table, task, index + 1, &run);
    Answers {
        span: table.span,
        servers: table.servers.iter().enumerate().map(server).collect(),
        tasks: table.tasks.iter().enumerate().map(task).collect(),
    }
}

fn server_answer(table: &Table, server: &Server, number: usize, run: &[Tick]) -> ServerAnswer {
    let full = table.span / server.period;
    let is_short = |period: &u32| free_ticks(server, number, *period, run) < server.capacity;
    ServerAnswer { full, first_short: (0..full).find(is_short) }
}

/// How many ticks of a period no higher server holds.
fn free_ticks(server: &Server, number: usize, period: u32, run: &[Tick]) -> u32 {
    let first = (period * server.period) as usize;
    let ticks = &run[first..first + server.period as usize];
    ticks.iter().filter(|tick| tick.holder == 0 || tick.holder >= number).count() as u32
}

fn task_answer(table: &Table, task: &Task, number: usize, run: &[Tick]) -> TaskAnswer {
    let ends = job_ends(task, number, run);
    let mut worst: Option<(u32, u32)> = None;
    let releases = (0..table.span).filter(|&tick| releases_at(task, tick));
    for (job, release) in releases.enumerate() {
        let Some(end) = ends.get(job) else { return TaskAnswer::Unfinished { release } };
        let response = end - release;
        // only a longer one takes the place of the first that is as long
        if worst.is_none_or(|(longest, _)| response > longest) {
            worst = Some((response, release));
        }
    }
    match worst {
        Some((response, release)) => {
            TaskAnswer::Worst { response, release, margin: i64::from(task.deadline) - i64::from(response) }
        }
        None => TaskAnswer::None,
    }
}

/// The instants at which a task's jobs end: job j (from 1) when the task has run j times its work.
fn job_ends(task: &Task, number: usize, run: &[Tick]) -> Vec<u32> {
    let mut ends = Vec::new();
    let mut has_run = 0;
    for (tick, _) in run.iter().enumerate().filter(|(_, tick)| tick.runner == number) {
        has_run += 1;
        if has_run % task.work == 0 {
            ends.push(tick as u32 + 1);
        }
    }
    ends
}

/// The report on a text: the bytes that the report program prints.
pub fn report(text: &[u8]) -> Vec<u8> {
    match read(text) {
        Ok(table) => written(&answers(&table)).into_bytes(),
        Err(refusal) => refused(refusal).into_bytes(),
    }
}

/// The line of a refusal.
pub fn refused(refusal: Refusal) -> String {
    refusal.words('\t') + "\n"
}

/// The lines of an accepted report.
pub fn written(answers: &Answers) -> String {
    let mut lines = format!("span\t{}\n", answers.span);
    for (index, server) in answers.servers.iter().enumerate() {
        lines += &server_line(index + 1, server);
    }
    for (index, task) in answers.tasks.iter().enumerate() {
        lines += &task_line(index + 1, task);
    }
    lines
}

fn server_line(number: usize, answer: &ServerAnswer) -> String {
    let short = answer.first_short.map_or("-".to_string(), |period| period.to_string());
    format!("server\t{number}\t{}\t{short}\n", answer.full)
}

fn task_line(number: usize, answer: &TaskAnswer) -> String {
    match answer {
        TaskAnswer::Worst { response, release, margin } => {
            format!("task\t{number}\tworst\t{response}\t{release}\t{margin}\n")
        }
        TaskAnswer::Unfinished { release } => format!("task\t{number}\tunfinished\t{release}\n"),
        TaskAnswer::None => format!("task\t{number}\tnone\n"),
    }
}
