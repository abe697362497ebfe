//! Calls on tables that are handed in as their texts.
use crate::{accepted, entries::Extent, raw, Refusal, ROOM, SERVERS, TASKS};

/// The state of the machine: the tick, each server's budget and each task's waiting work. Entries beyond the table's counts are not tested and pass through.
#[derive(Clone, Copy, Debug, PartialEq, Eq)]
pub struct State {
    pub tick: u32,
    pub budgets: [u32; SERVERS],
    pub waiting: [u32; TASKS],
}

impl Default for State {
    /// Before tick 0.
    fn default() -> State {
        State { tick: 0, budgets: [0; SERVERS], waiting: [0; TASKS] }
    }
}

/// The server that holds a tick and the task that runs in it, by number from 1, or 0 for none.
#[derive(Clone, Copy, Debug, Default, PartialEq, Eq)]
pub struct Who {
    pub holder: u32,
    pub runner: u32,
}

/// Goes one tick on with the machine of a text's table. Refuses 1 to 8 and 14 to 18, then 13; the state is then as it was, and nobody is said to hold
/// the tick or to run.
pub fn step(text: &[u8], state: &mut State) -> Result<Who, Refusal> {
    let (mut line, mut place) = (0, 0);
    let mut who = Who::default();
    // SAFETY: the pointer and length are of one slice; the arrays have 16 and 64 numbers; what is written is borrowed for this call alone.
    let number = unsafe {
        raw::grod_step(
            text.as_ptr(),
            text.len(),
            &mut state.tick,
            state.budgets.as_mut_ptr(),
            state.waiting.as_mut_ptr(),
            &mut line,
            &mut place,
            &mut who.holder,
            &mut who.runner,
        )
    };
    accepted(Refusal { number, line, place }, who)
}

/// Six work buffers that hold enough.
pub struct Room([Vec<u32>; 6]);

impl Room {
    pub fn new() -> Room {
        Room(std::array::from_fn(|_| vec![0; ROOM]))
    }

    /// The buffers, to be lent to a call.
    pub fn lend(&mut self) -> [&mut [u32]; 6] {
        self.0.each_mut().map(|buffer| buffer.as_mut_slice())
    }
}

impl Default for Room {
    fn default() -> Room {
        Room::new()
    }
}

/// Who holds a tick of the span and who runs in it, from the curves. Six work buffers of at least [`ROOM`] numbers are lent; every number of them is 0
/// after an accepted call. Refuses 9, then 1 to 8 and 14 to 18, then 13.
pub fn who_at(text: &[u8], tick: u32, work: [&mut [u32]; 6]) -> Result<Who, Refusal> {
    let [free, sum, part, held, running, spare] = work;
    let (mut line, mut place) = (0, 0);
    let mut who = Who::default();
    // SAFETY: each pointer and length is of one slice; what is written is borrowed for this call alone.
    let number = unsafe {
        raw::grod_who_at(
            text.as_ptr(),
            text.len(),
            tick,
            free.as_mut_ptr(),
            free.len(),
            sum.as_mut_ptr(),
            sum.len(),
            part.as_mut_ptr(),
            part.len(),
            held.as_mut_ptr(),
            held.len(),
            running.as_mut_ptr(),
            running.len(),
            spare.as_mut_ptr(),
            spare.len(),
            &mut line,
            &mut place,
            &mut who.holder,
            &mut who.runner,
        )
    };
    accepted(Refusal { number, line, place }, who)
}

/// What is answered of a server: how many full periods the span has, and the first of them, from 0, that has fewer free ticks than the capacity.
#[derive(Clone, Copy, Debug, PartialEq, Eq)]
pub struct ServerAnswer {
    pub full: u32,
    pub short: Option<u32>,
}

/// What is answered of a task.
#[derive(Clone, Copy, Debug, PartialEq, Eq)]
pub enum Response {
    /// The worst response, the release of the first job that attains it, and the margin: deadline minus response, below 0 when late.
    Worst { response: u32, release: u32, margin: i32 },
    /// The release of the first job that has not ended with the span.
    Unfinished { release: u32 },
    /// Not released in the span.
    None,
}

/// The answers of a table, for each server and each task in turn.
#[derive(Clone, Debug, PartialEq, Eq)]
pub struct Answers {
    pub span: u32,
    pub servers: Vec<ServerAnswer>,
    pub tasks: Vec<Response>,
}

/// What the analysis hands out: rows as the C header's `struct grod_server_answer` and `struct grod_task_answer`, and the margins. Only the entries within
/// the counts are written.
struct Handed {
    extent: Extent,
    servers: [[u32; 2]; SERVERS],
    tasks: [[u32; 3]; TASKS],
    margin: [i32; TASKS],
}

impl Handed {
    fn new() -> Handed {
        Handed { extent: Extent::default(), servers: [[0; 2]; SERVERS], tasks: [[0; 3]; TASKS], margin: [0; TASKS] }
    }

    fn server(&self, i: usize) -> ServerAnswer {
        let [full, short] = self.servers[i];
        ServerAnswer { full, short: (short != u32::MAX).then_some(short) }
    }

    fn task(&self, j: usize) -> Response {
        let [outcome, response, release] = self.tasks[j];
        match outcome {
            1 => Response::Worst { response, release, margin: self.margin[j] },
            2 => Response::Unfinished { release },
            _ => Response::None,
        }
    }

    fn answers(&self) -> Answers {
        Answers {
            span: self.extent.span,
            servers: (0..self.extent.servers).map(|i| self.server(i)).collect(),
            tasks: (0..self.extent.tasks).map(|j| self.task(j)).collect(),
        }
    }
}

/// The answers of all servers and tasks. Work buffers as for [`who_at`]. Refuses 9, then 1 to 8 and 14 to 18.
pub fn analyse(text: &[u8], work: [&mut [u32]; 6]) -> Result<Answers, Refusal> {
    let [free, sum, part, held, running, spare] = work;
    let (mut line, mut place) = (0, 0);
    let mut handed = Handed::new();
    // SAFETY: each pointer and length is of one slice; the arrays have 16 and 64 entries; what is written is borrowed for this call alone.
    let number = unsafe {
        raw::grod_analyse(
            text.as_ptr(),
            text.len(),
            free.as_mut_ptr(),
            free.len(),
            sum.as_mut_ptr(),
            sum.len(),
            part.as_mut_ptr(),
            part.len(),
            held.as_mut_ptr(),
            held.len(),
            running.as_mut_ptr(),
            running.len(),
            spare.as_mut_ptr(),
            spare.len(),
            &mut line,
            &mut place,
            &mut handed.extent.span,
            &mut handed.extent.servers,
            &mut handed.extent.tasks,
            handed.servers.as_mut_ptr(),
            handed.tasks.as_mut_ptr(),
            handed.margin.as_mut_ptr(),
        )
    };
    accepted(Refusal { number, line, place }, ()).map(|()| handed.answers())
}

/// Writes the report of a text, as the report program prints it, to the front of `out`, and answers how many bytes it has. The report of a refused text is
/// the line `refused`, number, line, place. Takes some 410,000 bytes of stack. Refuses 11, where the report does not fit.
pub fn report(text: &[u8], out: &mut [u8]) -> Result<usize, Refusal> {
    let mut count = 0;
    // SAFETY: each pointer and length is of one slice; what is written is borrowed for this call alone.
    let number = unsafe { raw::grod_report(text.as_ptr(), text.len(), out.as_mut_ptr(), out.len(), &mut count) };
    accepted(Refusal::without_line(number), count)
}
