//! From a text to a table, or to the first ground on which the text is refused.

use crate::Refusal;

pub const MOST_BYTES: usize = 4096;
pub const MOST_SERVERS: usize = 16;
pub const MOST_TASKS: usize = 64;
/// The largest span, work, capacity, period, deadline, instant and offset.
pub const MOST: u32 = 16_000;

#[derive(Clone, Copy, Debug, PartialEq, Eq)]
pub enum Kind {
    Deferrable,
    Periodic,
}

#[derive(Clone, Debug, PartialEq, Eq)]
pub struct Server {
    pub kind: Kind,
    pub capacity: u32,
    pub period: u32,
}

#[derive(Clone, Debug, PartialEq, Eq)]
pub enum Release {
    Once { instant: u32 },
    Every { offset: u32, period: u32 },
}

#[derive(Clone, Debug, PartialEq, Eq)]
pub struct Task {
    /// The number of its server, from 1.
    pub server: usize,
    pub work: u32,
    pub release: Release,
    pub deadline: u32,
}

#[derive(Clone, Debug, PartialEq, Eq)]
pub struct Table {
    pub span: u32,
    pub servers: Vec<Server>,
    pub tasks: Vec<Task>,
}

/// What has been read so far.
#[derive(Default)]
struct Draft {
    span: Option<Span>,
    servers: Vec<Server>,
    tasks: Vec<Task>,
}

/// What the `span` line says.
#[derive(Clone, Copy)]
enum Span {
    Ticks(u32),
    Multiple,
}

/// The ground on which a line is refused, and the field's place, the line's first word being 1; the line's number is added by the
/// caller.
struct Fault {
    number: u32,
    place: u32,
}

const UNKNOWN_LINE: Fault = Fault { number: 3, place: 0 };
const WRONG_COUNT: Fault = Fault { number: 4, place: 0 };
const TOO_MANY: Fault = Fault { number: 7, place: 0 };

/// The numbers given on refusal of a field, with its place.
const EMPTY: u32 = 5;
const OUT_OF_RANGE: u32 = 6;
const NO_DASH_ALLOWED: u32 = 14;
const NO_DIGIT: u32 = 15;
const LEADING_ZERO: u32 = 16;
const TOO_MANY_DIGITS: u32 = 17;
const UNKNOWN_KIND: u32 = 18;

fn out_of_range(place: u32) -> Fault {
    Fault { number: OUT_OF_RANGE, place }
}

/// Reads a table's text.
pub fn read(text: &[u8]) -> Result<Table, Refusal> {
    if text.len() > MOST_BYTES {
        return Err(Refusal::plain(1));
    }
    let Some((b'\n', body)) = text.split_last() else {
        return Err(Refusal::plain(2));
    };
    let mut draft = Draft::default();
    let mut line = 0;
    for bytes in body.split(|&byte| byte == b'\n') {
        line += 1;
        draft.take_line(bytes).map_err(|fault| Refusal { number: fault.number, line, place: fault.place })?;
    }
    draft.finish(line + 1)
}

impl Draft {
    /// Reads one line (without its line feed): 3, 7, 4, then the fields.
    fn take_line(&mut self, line: &[u8]) -> Result<(), Fault> {
        let fields: Vec<&[u8]> = line.split(|&byte| byte == b'\t').collect();
        match fields[0] {
            b"span" if self.span.is_none() => self.take_span(&fields),
            b"server" if self.span.is_some() && self.tasks.is_empty() => self.take_server(&fields),
            b"once" if !self.servers.is_empty() => self.take_once(&fields),
            b"every" if !self.servers.is_empty() => self.take_every(&fields),
            _ => Err(UNKNOWN_LINE),
        }
    }

    fn take_span(&mut self, fields: &[&[u8]]) -> Result<(), Fault> {
        let &[_, ticks] = fields else { return Err(WRONG_COUNT) };
        if ticks == b"-" {
            self.span = Some(Span::Multiple);
            return Ok(());
        }
        let ticks = number(ticks, 2)?;
        in_range(ticks, 1, 2)?;
        self.span = Some(Span::Ticks(ticks));
        Ok(())
    }

    fn take_server(&mut self, fields: &[&[u8]]) -> Result<(), Fault> {
        if self.servers.len() == MOST_SERVERS {
            return Err(TOO_MANY);
        }
        let &[_, kind, capacity, period] = fields else { return Err(WRONG_COUNT) };
        let kind = kind_of(kind, 2)?;
        let capacity = number(capacity, 3)?;
        let period = number(period, 4)?;
        in_range(capacity, 1, 3)?;
        if capacity > period {
            return Err(out_of_range(3));
        }
        in_range(period, 1, 4)?;
        self.servers.push(Server { kind, capacity, period });
        Ok(())
    }

    fn take_once(&mut self, fields: &[&[u8]]) -> Result<(), Fault> {
        if self.tasks.len() == MOST_TASKS {
            return Err(TOO_MANY);
        }
        let &[_, server, work, instant, deadline] = fields else { return Err(WRONG_COUNT) };
        let server = number(server, 2)?;
        let work = number(work, 3)?;
        let instant = number(instant, 4)?;
        let deadline = number(deadline, 5)?;
        let server = self.server_in_range(server, 2)?;
        in_range(work, 1, 3)?;
        in_range(instant, 0, 4)?;
        in_range(deadline, 1, 5)?;
        self.tasks.push(Task { server, work, release: Release::Once { instant }, deadline });
        Ok(())
    }

    fn take_every(&mut self, fields: &[&[u8]]) -> Result<(), Fault> {
        if self.tasks.len() == MOST_TASKS {
            return Err(TOO_MANY);
        }
        let &[_, server, work, offset, period, deadline] = fields else { return Err(WRONG_COUNT) };
        let server = number(server, 2)?;
        let work = number(work, 3)?;
        let offset = number(offset, 4)?;
        let period = number(period, 5)?;
        let deadline = if deadline == b"-" { period } else { number(deadline, 6)? };
        let server = self.server_in_range(server, 2)?;
        in_range(work, 1, 3)?;
        in_range(offset, 0, 4)?;
        in_range(period, 1, 5)?;
        in_range(deadline, 1, 6)?;
        self.tasks.push(Task { server, work, release: Release::Every { offset, period }, deadline });
        Ok(())
    }

    fn server_in_range(&self, server: u32, place: u32) -> Result<usize, Fault> {
        let server = server as usize;
        if server < 1 || server > self.servers.len() {
            return Err(out_of_range(place));
        }
        Ok(server)
    }

    /// What is missing, then the common multiple. `after` is the number of the line after the last.
    fn finish(self, after: u32) -> Result<Table, Refusal> {
        if self.servers.is_empty() || self.tasks.is_empty() {
            return Err(Refusal { number: 3, line: after, place: 0 });
        }
        let span = match self.span {
            Some(Span::Ticks(ticks)) => ticks,
            _ => self.multiple().ok_or(Refusal::plain(8))?,
        };
        Ok(Table { span, servers: self.servers, tasks: self.tasks })
    }

    /// The least common multiple of all periods, if it is not above the largest span.
    fn multiple(&self) -> Option<u32> {
        let of_servers = self.servers.iter().map(|server| server.period);
        let of_tasks = self.tasks.iter().filter_map(|task| match task.release {
            Release::Every { period, .. } => Some(period),
            Release::Once { .. } => None,
        });
        let mut multiple = 1;
        for period in of_servers.chain(of_tasks) {
            multiple = multiple / divisor(multiple, period) * period;
            // a multiple of more periods is never smaller: what is above stays above
            if multiple > MOST {
                return None;
            }
        }
        Some(multiple)
    }
}

/// The greatest common divisor.
fn divisor(a: u32, b: u32) -> u32 {
    if b == 0 {
        a
    } else {
        divisor(b, a % b)
    }
}

fn kind_of(field: &[u8], place: u32) -> Result<Kind, Fault> {
    match field {
        b"deferrable" => Ok(Kind::Deferrable),
        b"periodic" => Ok(Kind::Periodic),
        b"" => Err(Fault { number: EMPTY, place }),
        _ => Err(Fault { number: UNKNOWN_KIND, place }),
    }
}

/// One to five digits, no leading zero save `0` itself.
fn number(field: &[u8], place: u32) -> Result<u32, Fault> {
    match first_fault(field) {
        Some(number) => Err(Fault { number, place }),
        None => Ok(field.iter().fold(0, |value, digit| value * 10 + u32::from(digit - b'0'))),
    }
}

/// What is wrong with a field that has to be a number, in the order of the tests: 5, 14, 15, 16, 17.
fn first_fault(field: &[u8]) -> Option<u32> {
    let mut tests = [
        (EMPTY, field.is_empty()),
        (NO_DASH_ALLOWED, field == b"-"),
        (NO_DIGIT, !field.iter().all(u8::is_ascii_digit)),
        (LEADING_ZERO, field.len() > 1 && field[0] == b'0'),
        (TOO_MANY_DIGITS, field.len() > 5),
    ];
    // the wrong build refuses a leading zero before a byte that is no digit
    if cfg!(feature = "wrong") {
        tests.swap(2, 3);
    }
    tests.into_iter().find(|(_, fails)| *fails).map(|(number, _)| number)
}

fn in_range(value: u32, least: u32, place: u32) -> Result<(), Fault> {
    if value < least || value > MOST {
        return Err(out_of_range(place));
    }
    Ok(())
}
