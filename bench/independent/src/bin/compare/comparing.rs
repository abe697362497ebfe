//! Feeds calls to a proved program in batches, compares what it prints with what is expected, and shrinks what differs.

use crate::call::Call;
use crate::programs::{Printed, Programs};
use std::io;
use std::sync::atomic::{AtomicUsize, Ordering};
use std::sync::Mutex;

/// A batch gets no more calls once it has so many bytes.
const MOST_INPUT: usize = 900_000;
/// Grounds of refusal are numbered up to 18; 0 stands for accepted calls.
pub const GROUNDS: usize = 19;
/// How many smaller calls are tried to shrink one that differs.
const MOST_TRIES: usize = 1500;

/// Makes one piece of the work.
pub type Maker<C> = Box<dyn Fn() -> Vec<C> + Send + Sync>;

/// A call whose answer is not the expected one.
pub struct Difference<C> {
    pub call: C,
    pub expected: Vec<u8>,
    pub printed: Vec<u8>,
    /// How the program ended.
    pub ending: String,
    /// False if the answer differs only after the calls before it: then nothing is shrunk.
    pub alone: bool,
    /// How many calls were shrunk to this one.
    pub times: usize,
}

/// What came of the work.
pub struct Outcome<C> {
    /// For each kind and each ground how many calls there were.
    pub counts: Vec<[u64; GROUNDS]>,
    pub found: Vec<Difference<C>>,
    /// Why a program could not be run.
    pub trouble: Option<io::Error>,
}

/// A batch: what the program reads, what it has to print, and where each call's answer ends in that.
struct Batch {
    input: Vec<u8>,
    expected: Vec<u8>,
    ends: Vec<usize>,
    /// On which ground each call is refused, 0 for none.
    grounds: Vec<u32>,
}

/// The pieces of work for one program, and what has come of them so far.
struct Work<'a, C> {
    programs: &'a Programs,
    makers: &'a [Maker<C>],
    most_found: usize,
    next: AtomicUsize,
    outcome: Mutex<Outcome<C>>,
}

/// Does all pieces of the work, several at a time, and ends early once enough differences are found.
pub fn compare<C: Call>(programs: &Programs, makers: &[Maker<C>], jobs: usize, most_found: usize) -> Outcome<C> {
    let outcome = Outcome { counts: vec![[0; GROUNDS]; C::KINDS.len()], found: Vec::new(), trouble: None };
    let work = Work { programs, makers, most_found, next: AtomicUsize::new(0), outcome: Mutex::new(outcome) };
    std::thread::scope(|scope| {
        for _ in 0..jobs {
            scope.spawn(|| work.pieces());
        }
    });
    work.outcome.into_inner().expect("no worker panics")
}

impl<C: Call> Work<'_, C> {
    /// One worker: takes the next piece until none is left.
    fn pieces(&self) {
        while !self.is_over() {
            let index = self.next.fetch_add(1, Ordering::Relaxed);
            let Some(maker) = self.makers.get(index) else { return };
            self.show_progress(index);
            if let Err(trouble) = self.piece(&maker()) {
                self.outcome().trouble = Some(trouble);
            }
        }
    }

    fn outcome(&self) -> std::sync::MutexGuard<'_, Outcome<C>> {
        self.outcome.lock().expect("no worker panics")
    }

    fn is_over(&self) -> bool {
        let outcome = self.outcome();
        let found: usize = outcome.found.iter().map(|difference| difference.times).sum();
        found >= self.most_found || outcome.trouble.is_some()
    }

    /// Says at every tenth of the work how far it is.
    fn show_progress(&self, index: usize) {
        let tenth = |index: usize| index * 10 / self.makers.len();
        if index > 0 && tenth(index) > tenth(index - 1) {
            eprintln!("{}: {} %", C::PROGRAM, tenth(index) * 10);
        }
    }

    /// Compares the calls of one piece, in batches.
    fn piece(&self, calls: &[C]) -> io::Result<()> {
        let mut rest = calls;
        while !rest.is_empty() && !self.is_over() {
            let done = self.batch(rest)?;
            rest = &rest[done..];
        }
        Ok(())
    }

    /// Compares the first of these calls, up to the first that differs, and says how many that were.
    fn batch(&self, calls: &[C]) -> io::Result<usize> {
        let batch = batch_of(calls);
        let printed = self.programs.run(C::PROGRAM, &batch.input)?;
        let mut done = batch.ends.len();
        if let Some(index) = first_difference(&batch, &printed) {
            let difference = self.difference(&calls[index], &batch, index, &printed)?;
            self.add(difference);
            done = index + 1;
        }
        let mut outcome = self.outcome();
        for (call, &ground) in calls.iter().zip(&batch.grounds).take(done) {
            outcome.counts[call.kind()][ground as usize] += 1;
        }
        Ok(done)
    }

    /// Adds a difference; one that is there already is counted only.
    fn add(&self, difference: Difference<C>) {
        let mut outcome = self.outcome();
        let same = |other: &&mut Difference<C>| line_of(&other.call) == line_of(&difference.call);
        match outcome.found.iter_mut().find(same) {
            Some(other) => other.times += 1,
            None => outcome.found.push(difference),
        }
    }

    /// What is shown of a call that differs in its batch: if it differs alone too, the smallest like it that can be found.
    fn difference(&self, call: &C, batch: &Batch, index: usize, printed: &Printed) -> io::Result<Difference<C>> {
        if let Some(mut difference) = self.alone(call)? {
            self.shrink(&mut difference)?;
            return Ok(difference);
        }
        let start = if index == 0 { 0 } else { batch.ends[index - 1] };
        let expected = batch.expected[start..batch.ends[index]].to_vec();
        let end = batch.ends[index].min(printed.bytes.len());
        let bytes = printed.bytes.get(start..end).unwrap_or_default().to_vec();
        let ending = printed.status.to_string();
        Ok(Difference { call: call.clone(), expected, printed: bytes, ending, alone: false, times: 1 })
    }

    /// The difference that a call shows when it is the only one.
    fn alone(&self, call: &C) -> io::Result<Option<Difference<C>>> {
        let batch = batch_of(std::slice::from_ref(call));
        let printed = self.programs.run(C::PROGRAM, &batch.input)?;
        Ok(first_difference(&batch, &printed).map(|_| Difference {
            call: call.clone(),
            expected: batch.expected,
            printed: printed.bytes,
            ending: printed.status.to_string(),
            alone: true,
            times: 1,
        }))
    }

    /// Goes over to a smaller call that differs too, as long as there is one.
    fn shrink(&self, difference: &mut Difference<C>) -> io::Result<()> {
        let mut tries = 0;
        let mut candidates = difference.call.smaller().into_iter();
        while let Some(candidate) = candidates.next() {
            tries += 1;
            if tries > MOST_TRIES {
                return Ok(());
            }
            if let Some(smaller) = self.alone(&candidate)? {
                candidates = smaller.call.smaller().into_iter();
                *difference = smaller;
            }
        }
        Ok(())
    }
}

/// The batch of the first of these calls.
fn batch_of<C: Call>(calls: &[C]) -> Batch {
    let mut batch = Batch { input: Vec::new(), expected: Vec::new(), ends: Vec::new(), grounds: Vec::new() };
    for call in calls {
        if batch.input.len() > MOST_INPUT {
            break;
        }
        call.put_line(&mut batch.input);
        batch.grounds.push(call.put_answer(&mut batch.expected));
        batch.ends.push(batch.expected.len());
    }
    batch
}

/// The line that the program reads.
pub fn line_of<C: Call>(call: &C) -> Vec<u8> {
    let mut line = Vec::new();
    call.put_line(&mut line);
    line
}

/// The index of the first call whose answer differs; the last one's if only the end of the program is not good.
fn first_difference(batch: &Batch, printed: &Printed) -> Option<usize> {
    if printed.bytes == batch.expected && printed.status.success() {
        return None;
    }
    let same = batch.expected.iter().zip(&printed.bytes).take_while(|(expected, printed)| expected == printed).count();
    let last = batch.ends.len() - 1;
    Some(batch.ends.iter().position(|&end| same < end).unwrap_or(last))
}
