//! Calls that write a table as text, for the program `write_calls`.

use crate::call::{lent, put_lent, shorter_lists, smaller_numbers, Call};
use independent::writing::{text, write, Handed};

#[derive(Clone, Debug)]
pub struct WriteCall {
    pub room: usize,
    pub handed: Handed,
}

impl Call for WriteCall {
    const PROGRAM: &'static str = "write_calls";
    const KINDS: &'static [&'static str] = &["write"];

    fn kind(&self) -> usize {
        0
    }

    fn put_line(&self, line: &mut Vec<u8>) {
        let numbers = self.numbers().iter().map(u32::to_string).collect::<Vec<_>>();
        line.extend(numbers.join(" ").bytes());
        line.push(b'\n');
    }

    fn put_answer(&self, answer: &mut Vec<u8>) -> u32 {
        let mut buffer = lent(self.room);
        let result = write(&self.handed, &mut buffer[..self.room]);
        let ground = put_lent(result, &buffer, answer);
        answer.push(b'\n');
        ground
    }

    fn smaller(&self) -> Vec<WriteCall> {
        let Handed { servers, tasks, .. } = &self.handed;
        let mut tables = Vec::from_iter(self.without_rubbish());
        tables.extend(shorter_lists(tasks).into_iter().map(|tasks| self.with_rows(servers.clone(), tasks)));
        tables.extend(shorter_lists(servers).into_iter().map(|servers| self.with_rows(servers, tasks.clone())));
        for (index, number) in self.numbers().into_iter().enumerate().skip(1).filter(|(index, _)| !ROW_COUNTS.contains(index)) {
            tables.extend(smaller_numbers(number).into_iter().map(|smaller| self.with_number(index, smaller).handed));
        }
        let mut calls: Vec<WriteCall> = tables.into_iter().map(|handed| self.with_table(handed)).collect();
        calls.extend(smaller_numbers(self.room as u32).into_iter().map(|room| self.with_number(0, room)));
        calls
    }

    fn text(&self) -> Option<&[u8]> {
        None
    }
}

/// Where the line says how many rows follow.
const ROW_COUNTS: [usize; 2] = [4, 5];

impl WriteCall {
    /// The numbers of the line: the room, the span, the two counts; how many rows of servers and of tasks follow; these rows.
    pub fn numbers(&self) -> Vec<u32> {
        let Handed { span, servers_count, tasks_count, servers, tasks } = &self.handed;
        let mut numbers = vec![self.room as u32, *span, *servers_count, *tasks_count, servers.len() as u32, tasks.len() as u32];
        numbers.extend(servers.concat());
        numbers.extend(tasks.concat());
        numbers
    }

    /// The call of a line's numbers.
    pub fn of(numbers: &[u32]) -> WriteCall {
        let (servers, tasks) = numbers[6..].split_at(3 * numbers[4] as usize);
        let handed = Handed {
            span: numbers[1],
            servers_count: numbers[2],
            tasks_count: numbers[3],
            servers: servers.chunks(3).map(|row| [row[0], row[1], row[2]]).collect(),
            tasks: tasks.chunks(6).map(|row| [row[0], row[1], row[2], row[3], row[4], row[5]]).collect(),
        };
        WriteCall { room: numbers[0] as usize, handed }
    }

    /// The same call with another number at a place of its line.
    pub fn with_number(&self, index: usize, number: u32) -> WriteCall {
        let mut numbers = self.numbers();
        numbers[index] = number;
        WriteCall::of(&numbers)
    }

    /// The same call with another table, in a room that is as much larger or smaller than its text as before.
    fn with_table(&self, handed: Handed) -> WriteCall {
        let need = |handed: &Handed| handed.table().map(|table| text(&table).len());
        let room = match (need(&self.handed), need(&handed)) {
            (Some(old), Some(new)) => (self.room + new).saturating_sub(old),
            _ => self.room,
        };
        WriteCall { room, handed }
    }

    /// The table without the rows beyond its counts, if it has such.
    fn without_rubbish(&self) -> Option<Handed> {
        let mut handed = self.handed.clone();
        handed.servers.truncate(handed.servers_count as usize);
        handed.tasks.truncate(handed.tasks_count as usize);
        Some(handed).filter(|handed| *handed != self.handed)
    }

    /// The table with fewer rows; the counts are lower by as many.
    fn with_rows(&self, servers: Vec<[u32; 3]>, tasks: Vec<[u32; 6]>) -> Handed {
        let old = &self.handed;
        let fewer = |count: u32, old: usize, new: usize| count.saturating_sub((old - new) as u32);
        let servers_count = fewer(old.servers_count, old.servers.len(), servers.len());
        let tasks_count = fewer(old.tasks_count, old.tasks.len(), tasks.len());
        Handed { span: old.span, servers_count, tasks_count, servers, tasks }
    }
}

#[cfg(all(test, not(feature = "wrong")))]
mod stored {
    use super::WriteCall;

    #[test]
    fn calls() {
        crate::call::check_stored(call_of);
    }

    fn call_of(line: &str) -> Option<WriteCall> {
        let numbers: Vec<u32> = line.split(' ').map(str::parse).collect::<Result<_, _>>().ok()?;
        is_call(&numbers).then(|| WriteCall::of(&numbers))
    }

    /// Whether the numbers of a line are those of a call.
    fn is_call(numbers: &[u32]) -> bool {
        let &[room, _, _, _, servers, tasks, ..] = numbers else { return false };
        room <= 4096 && servers <= 16 && tasks <= 64 && numbers.len() == (6 + 3 * servers + 6 * tasks) as usize
    }
}
