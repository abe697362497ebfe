//! The machine that goes one tick at a time.

use crate::reading::{Kind, Release, Table, Task};

/// What the machine remembers from one tick to the next.
#[derive(Clone, Debug)]
pub struct State {
    pub tick: u32,
    pub budgets: Vec<u32>,
    pub waiting: Vec<u32>,
}

/// Who has a tick: the server that holds it and the task that runs in it, numbered from 1, 0 for none.
#[derive(Clone, Copy, Debug, PartialEq, Eq)]
pub struct Tick {
    pub holder: usize,
    pub runner: usize,
}

impl State {
    /// Before tick 0 all budgets and all waiting work are zero.
    pub fn start(table: &Table) -> State {
        State { tick: 0, budgets: vec![0; table.servers.len()], waiting: vec![0; table.tasks.len()] }
    }

    /// One tick: refill, release, hold, run.
    pub fn step(&mut self, table: &Table) -> Tick {
        self.refill(table);
        self.release(table);
        let holder = self.hold(table);
        let runner = self.run(table, holder);
        self.tick += 1;
        Tick { holder, runner }
    }

    /// (1) Each server with the tick a multiple of its period has its budget set to its capacity.
    fn refill(&mut self, table: &Table) {
        for (server, budget) in table.servers.iter().zip(&mut self.budgets) {
            if self.tick.is_multiple_of(server.period) {
                // the wrong build adds what is left to the new budget
                let kept = if cfg!(feature = "wrong") && server.kind == Kind::Deferrable { *budget } else { 0 };
                *budget = kept + server.capacity;
            }
        }
    }

    /// (2) Each task with a release at the tick gains its work.
    fn release(&mut self, table: &Table) {
        for (task, waiting) in table.tasks.iter().zip(&mut self.waiting) {
            if releases_at(task, self.tick) {
                *waiting += task.work;
            }
        }
    }

    /// (3) The first server that has budget left, and is periodic or has waiting work, holds the tick and loses one of budget.
    fn hold(&mut self, table: &Table) -> usize {
        for (index, server) in table.servers.iter().enumerate() {
            let wants = server.kind == Kind::Periodic || self.first_waiting(table, index + 1) != 0;
            if self.budgets[index] > 0 && wants {
                self.budgets[index] -= 1;
                return index + 1;
            }
        }
        0
    }

    /// (4) The holder's first task with waiting work runs and loses one.
    fn run(&mut self, table: &Table, holder: usize) -> usize {
        let runner = self.first_waiting(table, holder);
        if runner != 0 {
            self.waiting[runner - 1] -= 1;
        }
        runner
    }

    /// The number of the server's first task with waiting work, 0 for none.
    fn first_waiting(&self, table: &Table, server: usize) -> usize {
        let waits = |index: &usize| table.tasks[*index].server == server && self.waiting[*index] > 0;
        (0..table.tasks.len()).find(waits).map_or(0, |index| index + 1)
    }
}

/// Whether a task has a release at a tick.
pub fn releases_at(task: &Task, tick: u32) -> bool {
    match task.release {
        Release::Once { instant } => tick == instant,
        Release::Every { offset, period } => tick >= offset && (tick - offset).is_multiple_of(period),
    }
}

/// Who has each tick of the span.
pub fn whole_run(table: &Table) -> Vec<Tick> {
    let mut state = State::start(table);
    (0..table.span).map(|_| state.step(table)).collect()
}
